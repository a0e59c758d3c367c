"""mmholds as a program: every stored list, however it comes, and every sentence.

The program must be built (scripts/prove mmholds). rt itself holds to the reference what mmholds lists for the sample; here it lists the
schedules of tests/schedules, by name and on standard input, in pieces, from inputs without an end and from inputs that fail. The same
checks are run on programs that are wrong in one thing each (played_mmholds.py), and must tell every one of them.

test_failures.py has the inputs and outputs that fail for any program, test_commands.py the commands around mmholds.
"""

import itertools
import os
import pty
import shlex
import shutil
import sys
import tempfile
import threading
import unittest
from pathlib import Path

import inputs
import played_kit
import played_mmholds
from running import UNENDED, Called

ROOT = Path(__file__).resolve().parents[2]
SCHEDULES = ROOT / "tests" / "schedules"
SAMPLE = ROOT / "crates" / "mmholds"
PLAYER = Path(__file__).with_name("played_mmholds.py")

AT_A_TERMINAL = b"mmholds: a list is read from a file or from standard input, as in: mmholds hall.gates\n"
TWO = b"mmholds: one list is read at a time, as in: mmholds hall.gates\n"
UNOPENED = b"mmholds: the list could not be opened.\n"
UNREAD = b"mmholds: the list could not be read.\n"
UNWRITTEN = b"mmholds: the events could not be written.\n"

# An entry.
HOLD = bytes([1, 5, 128, 0, 0, 0, 10])
# As many octets as can matter: 256 entries of seven, a header and the longest value.
ENOUGH = 2049


def sample():
    """The sample that ships with the project, and what is listed of it."""
    return (SAMPLE / "stdin").read_bytes(), (SAMPLE / "stdout").read_bytes()


def stored(name):
    """A list of tests/schedules, and what is written and said of it: a sentence begins with the program's name."""
    octets, text = (SCHEDULES / f"{name}.gates").read_bytes(), (SCHEDULES / f"{name}.holds").read_bytes()
    return octets, ((b"", text) if text.startswith(b"mmholds: ") else (text, b""))


def names():
    return sorted(path.stem for path in SCHEDULES.glob("*.gates"))


class Checks(Called):
    """What mmholds is held to: the tests of a test case that takes them. It may have another command, which plays mmholds, and less patience."""

    command = [str(ROOT / "scripts" / "run-program"), "mmholds"]

    def file(self, octets, name="hall.gates"):
        return super().file(octets, name)

    def test_stored_lists_by_name(self):
        for name in names():
            with self.subTest(name=name):
                self.assertEqual(self.said(str(SCHEDULES / f"{name}.gates")), stored(name)[1])

    def test_stored_lists_on_standard_input(self):
        for name, words in zip(names(), itertools.cycle(((), ("-",)))):
            with self.subTest(name=name, words=words), open(SCHEDULES / f"{name}.gates", "rb") as stream:
                self.assertEqual(self.said(*words, stdin=stream), stored(name)[1])

    def test_names(self):
        octets, listed = sample()
        for name in ("hall.gates", "two  words.gates", "it's.gates", "$HOME.gates", "--help", "-x", "é.gates"):
            with self.subTest(name=name):
                self.file(octets, name)
                self.assertEqual(self.said(name), (listed, b""))

    def test_a_dash_is_standard_input(self):
        octets, listed = sample()
        self.file(HOLD, "-")
        self.assertEqual(self.said("-", stdin=inputs.piped([octets])), (listed, b""))
        self.assertEqual(self.said("./-", stdin=inputs.piped([octets])), (b"0 hold\ncycle 10\n", b""))

    def test_a_name_goes_before_standard_input(self):
        octets, listed = sample()
        self.file(octets)
        self.assertEqual(self.said("hall.gates", stdin=inputs.piped([HOLD])), (listed, b""))
        self.assertEqual(self.said("hall.gates", redirection="<&-"), (listed, b""))

    def test_names_of_no_file(self):
        self.file(HOLD)
        for name in ("missing", "", "hall.gates/", "no folder/hall.gates", "x" * 300, "./" * 2043 + "hall.gates", "x/" * 3000, b"\xff\xfe"):
            with self.subTest(name=name[:20]):
                self.assertEqual(self.said(name), (b"", UNOPENED))

    def test_the_longest_name(self):
        octets, listed = sample()
        self.file(octets)
        longest = "./" * 2042 + "/hall.gates"
        self.assertEqual(len(longest), 4095)
        self.assertEqual(self.said(longest), (listed, b""))

    def test_two_lists(self):
        self.file(HOLD)
        for words in (("hall.gates", "hall.gates"), ("-", "-"), ("hall.gates", ""), ("hall.gates",) * 3):
            with self.subTest(words=words):
                self.assertEqual(self.said(*words, stdin=inputs.piped([HOLD])), (b"", TWO))

    def test_an_empty_list(self):
        self.file(b"")
        for words in (("hall.gates",), (), ("-",), ("/dev/null",)):
            with self.subTest(words=words):
                self.assertEqual(self.said(*words), (b"cycle 0\n", b""))

    def test_a_named_pipe(self):
        octets, listed = sample()
        os.mkfifo(self.folder / "pipe")
        # A daemon, as it would wait for ever for a program that does not open the pipe.
        threading.Thread(target=(self.folder / "pipe").write_bytes, args=[octets], daemon=True).start()
        self.assertEqual(self.said("pipe"), (listed, b""))

    def test_single_octets(self):
        for name in ("same_time", "length_4", "last_length_255"):
            octets, listed = stored(name)
            pieces = [octets[place:place + 1] for place in range(len(octets))]
            with self.subTest(name=name):
                self.assertEqual(self.said(stdin=inputs.in_pieces(pieces)), listed)
                self.assertEqual(self.said("-", stdin=inputs.piped(pieces)), listed)

    def test_pieces(self):
        for name, size in itertools.product(("random", "last_length_255"), (2, 6, 7, 8, 1791, 1792, 2047, 2048)):
            octets, listed = stored(name)
            pieces = [octets[place:place + size] for place in range(0, len(octets), size)]
            with self.subTest(name=name, size=size):
                self.assertEqual(self.said(stdin=inputs.in_pieces(pieces)), listed)

    def test_what_is_behind_changes_nothing(self):
        for name in ("last_length_255", "last_operation_9_length_255"):
            octets, listed = stored(name)
            self.assertEqual(len(octets), ENOUGH)
            for more in (b"\x01", HOLD, bytes(1000), b"\xff" * 70_000):
                with self.subTest(name=name, more=len(more)):
                    self.file(octets + more)
                    self.assertEqual(self.said("hall.gates"), listed)
                    self.assertEqual(self.said(stdin=inputs.piped([octets + more])), listed)

    def test_inputs_without_an_end(self):
        too_many = (b"", b"mmholds: entry 257 is one too many: a list has 256 at most (63).\n")
        self.assertEqual(self.said(stdin=inputs.piped(itertools.repeat(HOLD))), too_many)
        self.assertEqual(self.said("/dev/zero"), (b"", b"mmholds: entry 1 has a length other than 5 (62).\n"))

    def test_nothing_is_waited_for_behind_what_matters(self):
        octets, listed = stored("last_length_255")
        reader, writer = inputs.silent_behind(octets)
        with writer:
            self.assertEqual(self.said(stdin=reader), listed)

    def test_a_read_that_fails(self):
        # Whatever came before: a list that is not there whole is neither listed nor refused.
        for octets in (b"", HOLD, HOLD * 3, HOLD[:3], b"\x09\x05\x00", HOLD * 257):
            with self.subTest(octets=octets[:9]):
                self.assertEqual(self.said(stdin=inputs.failing_behind(octets)), (b"", UNREAD))

    def test_a_folder(self):
        self.assertEqual(self.said("."), (b"", UNREAD))
        self.assertEqual(self.said(str(SCHEDULES)), (b"", UNREAD))

    def test_a_terminal(self):
        octets, listed = sample()
        self.file(octets)
        for words, expected in (((), (b"", AT_A_TERMINAL)), (("-",), (b"", AT_A_TERMINAL)), (("hall.gates",), (listed, b""))):
            try:
                keyboard, terminal = pty.openpty()
            except OSError:
                self.skipTest("this machine has no pseudo-terminals")
            with self.subTest(words=words), open(keyboard, "wb", buffering=0):
                self.assertEqual(self.said(*words, stdin=open(terminal, "rb", buffering=0)), expected)

    def test_an_output_that_fails(self):
        octets, _ = sample()
        self.file(octets)
        for redirection, words in itertools.product((">/dev/full", ">&-", "<&- >&-"), (("hall.gates",), ("/dev/null",))):
            with self.subTest(redirection=redirection, words=words):
                self.assertEqual(self.said(*words, redirection=redirection), (b"", UNWRITTEN))
        # Of a refused list there is nothing to be written.
        self.file(b"\x09\x05" + bytes(5))
        self.assertEqual(self.said("hall.gates", redirection=">/dev/full"),
                         (b"", b"mmholds: entry 1 has an operation other than 0, 1 and 2 (61).\n"))


class Mmholds(Checks, unittest.TestCase):
    """mmholds itself."""


class Stored(unittest.TestCase):
    def test_lists_of_every_kind_are_stored(self):
        texts = [(SCHEDULES / f"{name}.holds").read_text() for name in names()]
        self.assertEqual(sorted({text[-5:-3] for text in texts if text.startswith("mmholds: ")}), ["60", "61", "62", "63"])
        self.assertGreater(sum(text.endswith("\n") and " hold\n" in text and " release\n" in text for text in texts), 2)


# Of each wrong program, the check that tells it.
TOLD_BY = {
    "reads once": "test_single_octets",
    "reads 2,048 octets": "test_stored_lists_by_name",
    "reads to the end": "test_nothing_is_waited_for_behind_what_matters",
    "takes a failed read for the end": "test_a_read_that_fails",
    "refuses what it could not read": "test_a_read_that_fails",
    "reads standard input whatever is named": "test_a_name_goes_before_standard_input",
    "takes - for a name": "test_a_dash_is_standard_input",
    "reads the first of two": "test_two_lists",
    "reads at a terminal": "test_a_terminal",
    "refuses any terminal": "test_a_terminal",
    "lists what is before a refused entry": "test_stored_lists_by_name",
    "counts entries from 0": "test_stored_lists_by_name",
    "says it on standard output": "test_stored_lists_by_name",
    "says nothing": "test_stored_lists_by_name",
    "refuses an empty list": "test_an_empty_list",
    "leaves the last line open": "test_an_empty_list",
    "says nothing where nothing can be written": "test_an_output_that_fails",
}


# Wrong ones that are told by their never ending.
UNENDING = ("reads to the end", "reads at a terminal")


class Played(unittest.TestCase):
    """The checks themselves, by programs in a project of their own that are right, or wrong in one thing."""

    def failures(self, fault, check):
        """What a check finds wrong with the player that has this fault."""
        class Judging(Checks, unittest.TestCase):
            patience = 2 if fault in UNENDING else 60

        with tempfile.TemporaryDirectory() as project:
            shutil.copytree(ROOT / "scripts", Path(project) / "scripts")
            program = Path(project) / "target" / "bin" / "mmholds"
            program.parent.mkdir(parents=True)
            program.write_text(f'#!/bin/sh\nexec {shlex.join([sys.executable, "-I", "-S", str(PLAYER), fault])} "$@"\n')
            program.chmod(0o755)
            Judging.command = [str(Path(project) / "scripts" / "run-program"), "mmholds"]
            Judging.environment = played_kit.for_played_programs(Path(project))
            result = unittest.TestResult()
            result.failfast = True
            Judging(check).run(result)
        self.assertEqual(result.errors, [])
        if result.skipped:
            self.skipTest(result.skipped[0][1])
        return "".join(text for _, text in result.failures)

    def test_a_right_one_passes(self):
        for check in sorted(set(TOLD_BY.values())):
            with self.subTest(check=check):
                self.assertEqual(self.failures("none", check), "")

    def test_every_wrong_one_is_told(self):
        self.assertEqual({"none", *TOLD_BY}, set(played_mmholds.FAULTS))
        for fault, check in TOLD_BY.items():
            with self.subTest(fault=fault):
                failures = self.failures(fault, check)
                self.assertNotEqual(failures, "")
                self.assertEqual(UNENDED in failures, fault in UNENDING)


if __name__ == "__main__":
    unittest.main()
