"""Tests of reader.py, with which the stored questions are read back."""

import struct
import unittest

from reader import Reader, as_flag, lent_memory


class Reading(unittest.TestCase):
    def test_parts_one_after_the_other(self):
        reader = Reader(bytes([7, 1, 2, 0xAA, 0xBB]))
        self.assertEqual(reader.single_octet(), 7)
        self.assertEqual(reader.fields(struct.Struct("<H")), (0x0201,))
        self.assertFalse(reader.at_end())
        self.assertEqual(reader.run(2), bytes([0xAA, 0xBB]))
        self.assertTrue(reader.at_end())

    def test_a_question_that_is_cut(self):
        with self.assertRaises(ValueError):
            Reader(bytes(3)).run(4)

    def test_the_longest_run(self):
        self.assertEqual(len(Reader(bytes(2049)).run(2048)), 2048)
        with self.assertRaises(ValueError):
            Reader(bytes(2049)).run(2049)

    def test_a_longer_run_where_the_layout_says_so(self):
        self.assertEqual(len(Reader(bytes(3601)).run(3600, 3600)), 3600)
        with self.assertRaises(ValueError):
            Reader(bytes(3601)).run(3601, 3600)

    def test_flags(self):
        self.assertIs(as_flag(0), False)
        self.assertIs(as_flag(1), True)
        for octet in (2, 255):
            with self.assertRaises(ValueError):
                as_flag(octet)


class Memory(unittest.TestCase):
    def test_each_octet_is_one_more_than_the_one_before(self):
        self.assertEqual(lent_memory(4, 254), bytearray([254, 255, 0, 1]))
        self.assertEqual(lent_memory(0, 9), bytearray())
        self.assertEqual(len(lent_memory(2048, 0)), 2048)
        with self.assertRaises(ValueError):
            lent_memory(2049, 0)

    def test_more_where_the_layout_says_so(self):
        self.assertEqual(lent_memory(4800, 200, 4800), bytes((200 + place) % 256 for place in range(4800)))
        with self.assertRaises(ValueError):
            lent_memory(4801, 0, 4800)


if __name__ == "__main__":
    unittest.main()
