"""Tests of mmlist.py: document 01, "Trace and listing", with its printed listing."""

import subprocess
import sys
import unittest
from pathlib import Path

import exchange
import mframe
import trace
from chance import Chance
from mmlist import listing

SAMPLE = (bytes.fromhex("03 00 01 00 55 55 55")
          + bytes.fromhex("48 00 01 00 55 55 55 55 55 55 55 AD") + bytes(64)
          + bytes.fromhex("48 00 01 00 55 55 55 55 55 55 61 E6") + bytes(64)
          + bytes.fromhex("48 00 01 00 55 55 55 55 55 55 55 D5") + bytes(64))

SAMPLE_LISTING = """\
mm 1
1 12 0
2 15 4
3 22 0
4 20 0
end 0 2 0 0
"""


class Listing(unittest.TestCase):
    def test_sample_of_document_01(self):
        self.assertEqual(listing(SAMPLE), SAMPLE_LISTING)

    def test_empty(self):
        self.assertEqual(listing(b""), "mm 1\nend 0 0 0 0\n")

    def test_details_and_counters(self):
        body = Chance(95).octets(200)
        first, second, third = exchange.Sender().frame(body, 0)
        octets = trace.written([first, mframe.express(bytes(61)), second, third, mframe.verify(), mframe.respond(),
                                second, first, first])
        self.assertEqual(listing(octets).splitlines(), [
            "mm 1", "1 2 60", "2 0 61", "3 2 120", "4 1 200", "5 3 0", "6 4 0", "7 22 0", "8 2 60", "9 2 60",
            "end 1 1 1 2",
        ])

    def test_a_refused_record_ends_the_reading(self):
        good = trace.written([mframe.verify()])
        for refused, number in ((b"\x00", 50), (b"\x41\x06\x02\x00", 51), (b"\x00\x00\x01\x01", 52),
                                (b"\x01\x00\x01\x00", 53)):
            self.assertEqual(listing(SAMPLE + refused), SAMPLE_LISTING.replace("end", f"stop 5 {number}\nend"))
            if number in (51, 52):
                # What follows could be read, but is not.
                self.assertEqual(listing(refused + good), f"mm 1\nstop 1 {number}\nend 0 0 0 0\n")

    def test_the_command(self):
        program = Path(__file__).with_name("mmlist.py")
        done = subprocess.run([sys.executable, str(program)], input=SAMPLE, capture_output=True, check=False)
        self.assertEqual((done.returncode, done.stdout, done.stderr), (0, SAMPLE_LISTING.encode("ascii"), b""))


if __name__ == "__main__":
    unittest.main()
