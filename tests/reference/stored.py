"""Writing and checking stored questions and answers: document 01, "Marked examples" (last sentence).

Each maker of such files hands its files to run(), which writes them, or with --check
compares them with what is stored and writes nothing.
"""

import argparse
import sys
from dataclasses import dataclass
from pathlib import Path

import streams

REPOSITORY = Path(__file__).resolve().parents[2]


@dataclass(frozen=True)
class StoredFile:
    """A file as the reference makes it; the path is written from the repository's root."""

    path: str
    content: bytes
    is_text: bool


def vectors(crate, questions, answers):
    """The two files of a vector program: its questions, and what the function `answers` makes of them."""
    content = b"".join(questions)
    return [
        StoredFile(f"crates/{crate}/stdin", content, is_text=False),
        StoredFile(f"crates/{crate}/stdout", answers(content), is_text=True),
    ]


def first_difference(one, other):
    """The first place at which two runs of octets differ, or None. An end counts as a difference."""
    if one == other:
        return None
    for place, (left, right) in enumerate(zip(one, other)):
        if left != right:
            return place
    return min(len(one), len(other))


def complaint(file, root):
    """A sentence on how the stored file differs from the made one, or None where it does not."""
    target = root / file.path
    if not target.is_file():
        return f"{file.path} is missing."
    stored = target.read_bytes()
    place = first_difference(stored, file.content)
    if place is None:
        return None
    where = f"octet {place} (counted from 0)"
    if file.is_text:
        line = file.content[:place].count(b"\n") + 1
        where += f", line {line} (counted from 1)"
    if place == len(stored):
        return f"{file.path} ends too early, at {where}."
    if place == len(file.content):
        return f"{file.path} goes on too long, from {where}."
    return f"{file.path} differs from what the reference makes, first at {where}."


def write(files, root):
    """Writes all files, making their folders where needed."""
    for file in files:
        target = root / file.path
        target.parent.mkdir(parents=True, exist_ok=True)
        target.write_bytes(file.content)


def run(files, arguments, root=REPOSITORY):
    """The command line that all makers share; gives the exit status."""
    parser = argparse.ArgumentParser(description="Writes the stored files of the reference.")
    parser.add_argument("--check", action="store_true",
                        help="write nothing; status 1 where a stored file differs")
    check = parser.parse_args(arguments).check
    try:
        if not check:
            write(files, root)
        complaints = [sentence for sentence in (complaint(file, root) for file in files if check) if sentence]
    except OSError as error:
        complaints = [f"{error.filename} could not be {'read' if check else 'written'}."]
    for sentence in complaints:
        print(sentence, file=sys.stderr)
    if complaints:
        return 1
    if not check:
        streams.put("".join(f"{file.path}: {len(file.content)} octets written.\n" for file in files))
    return 0
