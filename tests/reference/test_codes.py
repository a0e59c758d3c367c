"""Tests of codes.py: document 01, "Octets of an mFrame" and the octets among its marked examples."""

import unittest
from itertools import combinations

import codes

# Document 01's table once more, as it is read there.
PRINTED_TABLE = """
    express 0 D5
    start 0 E6    start 1 4C    start 2 7F    start 3 B3
    continuation 0 61    continuation 1 52    continuation 2 9E    continuation 3 2A
    verify 0 07
    respond 0 19
"""


def printed_delimiters():
    words = PRINTED_TABLE.split()
    return {int(words[place + 2], 16): (words[place], int(words[place + 1])) for place in range(0, len(words), 3)}


def ones(number):
    """Counts by taking the lowest 1 away until none is left."""
    count = 0
    while number:
        number &= number - 1
        count += 1
    return count


def least_by_flipping(octet):
    """How many bits must be turned round to reach a delimiter, by trying 0 bits, 1 bit and so on."""
    for count in range(9):
        for places in combinations(range(8), count):
            if octet ^ sum(1 << place for place in places) in printed_delimiters():
                return count
    raise AssertionError("eight turned bits reach every octet")


class Table(unittest.TestCase):
    def test_the_printed_delimiters_and_no_others_are_known(self):
        printed = printed_delimiters()
        self.assertEqual(len(printed), 11)
        for octet in range(256):
            meaning = codes.as_delimiter(octet)
            if octet in printed:
                kind, count = printed[octet]
                self.assertEqual(meaning.kind, kind)
                self.assertEqual(meaning.frame_count,
                                 count if kind in ("start", "continuation") else None)
            else:
                self.assertIsInstance(meaning, codes.Unknown)

    def test_any_two_differ_in_at_least_four_bits(self):
        listed = [delimiter.code for delimiter in codes.DELIMITERS]
        self.assertEqual(len(listed), 11)
        distances = [ones(one ^ other) for one, other in combinations(listed, 2)]
        self.assertEqual(len(distances), 55)
        self.assertEqual(min(distances), 4)

    def test_the_published_code_of_the_last_continuation(self):
        self.assertEqual(codes.continuation_code(3), 0x2A)
        self.assertEqual(codes.as_delimiter(0x2A).kind, codes.CONTINUATION)
        self.assertEqual(codes.as_delimiter(0x2A).frame_count, 3)
        self.assertEqual(codes.as_delimiter(0xAD), codes.Unknown(4))


class DifferingBits(unittest.TestCase):
    def test_marked_examples(self):
        self.assertEqual(codes.as_delimiter(0xAD), codes.Unknown(4))
        self.assertEqual(codes.as_delimiter(0x55), codes.Unknown(1))
        self.assertEqual(codes.as_delimiter(0xD4), codes.Unknown(1))

    def test_every_octet_against_turning_bits(self):
        for octet in range(256):
            self.assertEqual(codes.least_differing_bits(octet), least_by_flipping(octet), octet)

    def test_two_or_less_cannot_be_beaten(self):
        # Document 02, (iii), in whatever order the eleven are looked at.
        for octet in range(256):
            for code in printed_delimiters():
                if ones(octet ^ code) <= 2:
                    self.assertEqual(codes.least_differing_bits(octet), ones(octet ^ code), octet)

    def test_three_can_be_beaten_behind_every_delimiter(self):
        # A search that stopped at three would be wrong whichever of the eleven came first.
        for code in printed_delimiters():
            three_away = [octet for octet in range(256) if ones(octet ^ code) == 3]
            self.assertEqual(min(map(codes.least_differing_bits, three_away)), 1)

    def test_one_turned_bit_is_seen_in_every_delimiter(self):
        for delimiter in codes.DELIMITERS:
            self.assertEqual(codes.least_differing_bits(delimiter.code), 0)
            for place in range(8):
                self.assertEqual(codes.as_delimiter(delimiter.code ^ 1 << place), codes.Unknown(1))


class FrameCounts(unittest.TestCase):
    def test_round_of_four(self):
        self.assertEqual([codes.next_frame_count(count) for count in range(4)], [1, 2, 3, 0])
        self.assertEqual([codes.previous_frame_count(count) for count in range(4)], [3, 0, 1, 2])

    def test_codes(self):
        self.assertEqual([codes.start_code(count) for count in range(4)], [0xE6, 0x4C, 0x7F, 0xB3])
        self.assertEqual([codes.continuation_code(count) for count in range(4)], [0x61, 0x52, 0x9E, 0x2A])

    def test_hand_made_counts(self):
        self.assertEqual(codes.next_frame_count(255), 0)
        self.assertEqual(codes.previous_frame_count(255), 2)
        self.assertEqual(codes.previous_frame_count(4), 3)
        self.assertEqual(codes.start_code(6), 0x7F)
        self.assertEqual(codes.continuation_code(255), 0x2A)

    def test_only_starts_and_continuations_carry_one(self):
        for kind in (codes.EXPRESS, codes.VERIFY, codes.RESPOND):
            with self.assertRaises(ValueError):
                codes.delimiter_code(kind, 0)

    def test_the_others_have_a_single_code(self):
        self.assertEqual(codes.lone_code(codes.EXPRESS), 0xD5)
        self.assertEqual(codes.lone_code(codes.VERIFY), 0x07)
        self.assertEqual(codes.lone_code(codes.RESPOND), 0x19)
        for kind in (codes.START, codes.CONTINUATION):
            with self.assertRaises(ValueError):
                codes.lone_code(kind)


class FragmentCounts(unittest.TestCase):
    def test_round_of_four(self):
        self.assertEqual([codes.next_fragment_count(count) for count in range(4)], [1, 2, 3, 0])

    def test_codes(self):
        self.assertEqual([codes.fragment_code(count) for count in range(4)], [0xE6, 0x4C, 0x7F, 0xB3])

    def test_every_octet(self):
        coded = {octet: codes.as_fragment_count(octet) for octet in range(256)
                 if codes.as_fragment_count(octet) is not None}
        self.assertEqual(coded, {0xE6: 0, 0x4C: 1, 0x7F: 2, 0xB3: 3})

    def test_hand_made_counts(self):
        self.assertEqual(codes.next_fragment_count(255), 0)
        self.assertEqual(codes.next_fragment_count(254), 3)
        self.assertEqual(codes.fragment_code(5), 0x4C)


if __name__ == "__main__":
    unittest.main()
