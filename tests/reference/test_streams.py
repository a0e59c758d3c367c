"""Tests of streams.py: standard input and output that fail, with mmlist.py and mmholds.py as the commands."""

import os
import pty
import subprocess
import sys
import unittest
from pathlib import Path

# Each command with what it reads, and a file of that.
COMMANDS = {"mmlist.py": ("A trace", "row.trace"), "mmholds.py": ("A list", "hall.gates")}
UNWRITTEN = b"The output could not be written.\n"


def end_of(command, redirection="", **streams):
    """Status and all that was said."""
    program = str(Path(__file__).with_name(command))
    done = subprocess.run(["sh", "-c", f'exec "$@" {redirection}', "sh", sys.executable, program], check=False,
                          stderr=subprocess.PIPE, timeout=60, **streams)
    return done.returncode, done.stderr


class Failing(unittest.TestCase):
    def each(self):
        """Each command with what it reads, as a subtest."""
        for command, (what, example) in COMMANDS.items():
            with self.subTest(command):
                yield command, what, example

    def test_a_terminal(self):
        keyboard, terminal = pty.openpty()
        try:
            for command, what, example in self.each():
                sentence = f"{what} is read on standard input, as in: python3 tests/reference/{command} <{example}\n"
                self.assertEqual(end_of(command, stdin=terminal), (1, sentence.encode("ascii")))
        finally:
            os.close(keyboard)
            os.close(terminal)

    def test_a_closed_input(self):
        for command, what, _ in self.each():
            self.assertEqual(end_of(command, "<&-"), (1, f"{what} could not be read.\n".encode("ascii")))

    def test_an_output_that_cannot_be_written(self):
        for command, *_ in self.each():
            for redirection in (">/dev/full", ">&-"):
                with self.subTest(redirection=redirection):
                    self.assertEqual(end_of(command, redirection, input=b""), (1, UNWRITTEN))

    def test_a_reader_that_went_away(self):
        reader, writer = os.pipe()
        os.close(reader)
        try:
            for command, *_ in self.each():
                self.assertEqual(end_of(command, input=b"", stdout=writer), (1, b""))
        finally:
            os.close(writer)


if __name__ == "__main__":
    unittest.main()
