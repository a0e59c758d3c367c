"""Tests of mmholds.py: document 02, request (i), as lines and as sentences."""

import subprocess
import sys
import unittest
from pathlib import Path

from mmholds import said

SET = bytes.fromhex("00 05 A5 00 00 00 64")
HOLD = bytes.fromhex("01 05 80 00 00 27 10")
RELEASE = bytes.fromhex("02 05 3F FF FF FF FF")

LINES = """\
100 hold
10200 release
4294977495 hold
cycle 4294987495
"""


class Said(unittest.TestCase):
    def test_lines(self):
        self.assertEqual(said(SET + HOLD + SET + RELEASE + HOLD), (LINES, ""))

    def test_no_events(self):
        self.assertEqual(said(b""), ("cycle 0\n", ""))
        self.assertEqual(said(SET + SET), ("cycle 200\n", ""))

    def test_a_hold_at_the_start(self):
        self.assertEqual(said(HOLD), ("0 hold\ncycle 10000\n", ""))

    def test_as_many_events_as_can_be(self):
        output, sentence = said(RELEASE * 256)
        lines = output.splitlines()
        self.assertEqual((len(lines), lines[255], lines[256], sentence),
                         (257, "1095216660225 release", "cycle 1099511627520", ""))

    def test_sentences(self):
        for octets, sentence in (
                (SET + HOLD[:-1], "entry 2 is cut off: the list ends inside it (60)."),
                (SET + b"\x01", "entry 2 is cut off: the list ends inside it (60)."),
                (b"\x03" + HOLD[1:], "entry 1 has an operation other than 0, 1 and 2 (61)."),
                (SET + SET + b"\x01\x00" + SET, "entry 3 has a length other than 5 (62)."),
                (HOLD * 257, "entry 257 is one too many: a list has 256 at most (63).")):
            with self.subTest(sentence):
                self.assertEqual(said(octets), ("", f"mmholds: {sentence}\n"))


class Command(unittest.TestCase):
    def end_of(self, octets):
        """Status, output and what was said."""
        done = subprocess.run([sys.executable, str(Path(__file__).with_name("mmholds.py"))], input=octets,
                              capture_output=True, check=False)
        return done.returncode, done.stdout, done.stderr

    def test_a_list(self):
        self.assertEqual(self.end_of(SET + HOLD + SET + RELEASE + HOLD), (0, LINES.encode("ascii"), b""))

    def test_a_refused_list(self):
        self.assertEqual(self.end_of(HOLD + b"\x04" + HOLD[1:]),
                         (1, b"", b"mmholds: entry 2 has an operation other than 0, 1 and 2 (61).\n"))


if __name__ == "__main__":
    unittest.main()
