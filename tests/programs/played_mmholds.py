"""mmholds, played: right, or wrong in one thing. test_mmholds.py runs its checks on it, and each wrong one must be told.

    python3 tests/programs/played_mmholds.py FAULT [LIST ..]

reads and lists as mmholds does, but for the fault; the fault `none` is none. What a list says is taken from the reference.
"""

import os
import sys
from pathlib import Path

FAULTS = (
    "none", "reads once", "reads 2,048 octets", "reads to the end", "takes a failed read for the end", "refuses what it could not read",
    "reads standard input whatever is named", "takes - for a name", "reads the first of two", "reads at a terminal", "refuses any terminal",
    "lists what is before a refused entry", "counts entries from 0", "says it on standard output", "says nothing",
    "refuses an empty list", "leaves the last line open", "says nothing where nothing can be written",
)


class Said(Exception):
    """A sentence with which the program ends."""


def reference():
    """The reference, which is found only by whoever plays: its folder has tests of the same names as this one."""
    sys.path.insert(0, str(Path(__file__).resolve().parents[1] / "reference"))
    import mmholds
    return mmholds


def told(fault, octets):
    """What is written and said of a list, with the faults that lie in that."""
    right = reference().said
    output, sentence = right(octets)
    if fault == "lists what is before a refused entry" and sentence:
        before = int(sentence.split()[2]) - 1
        output = right(octets[:7 * before])[0]
    elif fault == "counts entries from 0" and sentence:
        words = sentence.split(" ")
        sentence = " ".join([*words[:2], str(int(words[2]) - 1), *words[3:]])
    elif fault == "says it on standard output":
        output, sentence = output + sentence, ""
    elif fault == "says nothing":
        sentence = ""
    elif fault == "refuses an empty list" and not octets:
        output, sentence = "", "mmholds: the list is empty.\n"
    elif fault == "leaves the last line open":
        output = output.rstrip("\n")
    return output, sentence


def taken(fault, source):
    """As much of the list as can matter."""
    most = {"reads 2,048 octets": 2048, "reads to the end": 10**9}.get(fault, 2049)
    octets = b""
    while len(octets) < most:
        try:
            piece = os.read(source, min(most - len(octets), 65536))
        except OSError as error:
            if fault == "takes a failed read for the end":
                break
            if fault == "refuses what it could not read" and octets:
                break
            raise Said("mmholds: the list could not be read.") from error
        octets += piece
        if not piece or fault == "reads once":
            break
    return octets


def opened(fault, words):
    """The file that is named, or standard input."""
    if len(words) > 1 and fault != "reads the first of two":
        raise Said("mmholds: one list is read at a time, as in: mmholds hall.gates")
    named = bool(words) and (words[0] != "-" or fault == "takes - for a name")
    if fault == "reads standard input whatever is named":
        named = False
    if fault == "refuses any terminal" or (not named and fault != "reads at a terminal"):
        if os.isatty(0):
            raise Said("mmholds: a list is read from a file or from standard input, as in: mmholds hall.gates")
    if not named:
        return 0
    try:
        return os.open(words[0], os.O_RDONLY)
    except (OSError, ValueError) as error:
        raise Said("mmholds: the list could not be opened.") from error


def written(fault, output):
    rest = output.encode("ascii")
    try:
        while rest:
            rest = rest[os.write(1, rest):]
    except OSError as error:
        if fault != "says nothing where nothing can be written":
            raise Said("mmholds: the events could not be written.") from error


def play(fault, words):
    output, sentence = told(fault, taken(fault, opened(fault, words)))
    written(fault, output)
    if sentence:
        raise Said(sentence.rstrip("\n"))


if __name__ == "__main__":
    if len(sys.argv) < 2 or sys.argv[1] not in FAULTS:
        sys.exit(__doc__.strip())
    try:
        play(sys.argv[1], sys.argv[2:])
    except Said as said:
        try:
            os.write(2, f"{said}\n".encode("ascii"))
        except OSError:
            pass
