"""Tests of mframe.py: document 01, "Octets of an mFrame", with every header written out."""

import unittest
import zlib

import mframe
from chance import Chance

CHECK = bytes([1, 2, 3, 4])


def fcs(octets):
    return zlib.crc32(octets).to_bytes(4, "little")


def mcrc(octets):
    return (zlib.crc32(octets) ^ 0xFFFF0000).to_bytes(4, "little")


class Limits(unittest.TestCase):
    def test_lengths(self):
        self.assertEqual((mframe.LEAST_BODY, mframe.GREATEST_BODY), (60, 1518))
        self.assertEqual((mframe.LEAST_BEHIND_HEADER, mframe.GREATEST_BEHIND_HEADER), (64, 1522))
        # The sender's own greatest, and what a receiver accepts.
        self.assertEqual(mframe.LONGEST_SENT, 1530)
        self.assertEqual((mframe.SHORTEST_ACCEPTED, mframe.LONGEST_ACCEPTED), (65, 1531))


class Headers(unittest.TestCase):
    def test_any_preamble(self):
        self.assertEqual(mframe.header(0), b"")
        self.assertEqual(mframe.header(9), bytes.fromhex("555555555555555555"))
        self.assertEqual(mframe.header(0, 0xD5), bytes.fromhex("D5"))
        self.assertEqual(mframe.header(2, 0x61, 0xE6), bytes.fromhex("555561E6"))

    def test_express(self):
        body = Chance(31).octets(61)
        self.assertEqual(mframe.express(body), bytes.fromhex("55555555555555D5") + body + fcs(body))

    def test_verify_and_respond(self):
        zeros = bytes(60)
        self.assertEqual(mframe.verify(), bytes.fromhex("5555555555555507") + zeros + mcrc(zeros))
        self.assertEqual(mframe.respond(), bytes.fromhex("5555555555555519") + zeros + mcrc(zeros))
        self.assertEqual(len(mframe.verify()), 72)

    def test_starts(self):
        for frame_count, header in enumerate(("55555555555555E6", "555555555555554C",
                                              "555555555555557F", "55555555555555B3")):
            self.assertEqual(mframe.start(frame_count, b"data", CHECK), bytes.fromhex(header) + b"data" + CHECK)

    def test_continuations(self):
        for frame_count, delimiter in enumerate(("61", "52", "9E", "2A")):
            for fragment_count, code in enumerate(("E6", "4C", "7F", "B3")):
                self.assertEqual(mframe.continuation(frame_count, fragment_count, b"data", CHECK),
                                 bytes.fromhex("555555555555" + delimiter + code) + b"data" + CHECK)


if __name__ == "__main__":
    unittest.main()
