"""Tests of digest.py: the word that stands for a run of octets is document 01's FCS."""

import unittest

import crc
from chance import Chance
from digest import digest


class Digest(unittest.TestCase):
    def test_the_nine_octets_of_document_01(self):
        self.assertEqual(digest(b"123456789"), "2639f4cb")

    def test_no_octets(self):
        self.assertEqual(digest(b""), "00000000")

    def test_the_same_as_the_division(self):
        chance = Chance(21)
        for length in (1, 2, 3, 4, 5, 60, 1518, 1530, 2048):
            octets = chance.octets(length)
            self.assertEqual(digest(bytearray(octets)), crc.fcs(octets).hex())


if __name__ == "__main__":
    unittest.main()
