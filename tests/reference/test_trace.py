"""Tests of trace.py: document 01, "Trace and listing", its records and refusals."""

import unittest

import trace
from trace import Record, Refused


def read(octets):
    return list(trace.records(octets))


def record(length, kind, content):
    return bytes([length & 255, length >> 8, kind & 255, kind >> 8]) + content


class Records(unittest.TestCase):
    def test_no_records(self):
        self.assertEqual(read(b""), [])

    def test_good_records(self):
        self.assertEqual(read(bytes.fromhex("03 00 01 00 AA BB CC 00 00 01 00 01 00 01 00 DD")),
                         [Record(bytes.fromhex("AABBCC")), Record(b""), Record(b"\xDD")])

    def test_every_length_up_to_the_greatest(self):
        for length in (0, 1, 71, 72, 255, 256, 1530, 1531, 1600):
            self.assertEqual(read(record(length, 1, bytes(length))), [Record(bytes(length))])

    def test_written(self):
        self.assertEqual(trace.written([b"\x01\x02", b""]), bytes.fromhex("0200 0100 0102 0000 0100"))


class Refusals(unittest.TestCase):
    GOOD = record(2, 1, b"\x01\x02")

    def assert_refused(self, octets, number):
        self.assertEqual(read(octets), [Refused(number)])
        # Behind a good record as well.
        self.assertEqual(read(self.GOOD + octets), [Record(b"\x01\x02"), Refused(number)])

    def test_header_cut(self):
        for length in (1, 2, 3):
            self.assert_refused(record(72, 1, b"")[:length], 50)
            # A header that would be refused otherwise is not yet there.
            self.assert_refused(record(0xFFFF, 0xFFFF, b"")[:length], 50)

    def test_length(self):
        for length in (1601, 1602, 2048, 0xFFFF):
            self.assert_refused(record(length, 1, bytes(length)) + self.GOOD, 51)
            # Before the kind, and before content that is cut.
            self.assert_refused(record(length, 2, bytes(length)) + self.GOOD, 51)
            self.assert_refused(record(length, 2, b""), 51)

    def test_kind(self):
        for kind in (0, 2, 256, 257, 0xFFFF):
            self.assert_refused(record(3, kind, bytes(3)) + self.GOOD, 52)
            self.assert_refused(record(1600, kind, bytes(1600)) + self.GOOD, 52)
            # Before content that is cut.
            self.assert_refused(record(3, kind, b""), 52)

    def test_content_cut(self):
        for length, there in ((1, 0), (72, 71), (1600, 0), (1600, 1599)):
            self.assert_refused(record(length, 1, bytes(there)), 53)


if __name__ == "__main__":
    unittest.main()
