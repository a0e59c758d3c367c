"""Tests of the questions and answers on document 02's request (i), the gate control lists.

The questions are written here octet by octet, and the answers are put together by hand, so that the layout itself is
tested. That the stored questions are enough is shown by wrong_gates.py: the lines of each call tell all that are wrong
in it.
"""

import struct
import unittest
from collections import Counter

import gates_format
import gates_questions
import wrong_gates
from by_hand import check, memory
from gates_answers import answers
from told import ToldByQuestions


def answer(hexadecimal):
    return answers(bytes.fromhex(hexadecimal)).decode("ascii")


# Set, hold and release: 21 octets, three entries, two events.
LIST = "00 05 A5 01020304  01 05 00 0000000A  02 05 FF FFFFFFFF"
ENTRIES = struct.pack("<9I", 0, 0xA5, 0x01020304, 1, 0, 10, 2, 255, 0xFFFFFFFF)
EVENTS = struct.pack("<4Q", 0x01020304, 1, 0x0102030E, 2)
CYCLE = 0x01020304 + 10 + 0xFFFFFFFF


class Answers(unittest.TestCase):
    def test_nothing_asked(self):
        self.assertEqual(answer(""), "")

    def test_read(self):
        self.assertEqual(answer("01 1500 0300 F0" + LIST), f"read 0 3 {check(ENTRIES)}\n")
        self.assertEqual(answer("01 1500 0500 F0" + LIST), f"read 0 3 {check(memory(60, 0xF0, ENTRIES))}\n")
        self.assertEqual(answer("01 1500 0200 F0" + LIST), f"read 64 3 {check(memory(24, 0xF0))}\n")
        self.assertEqual(answer("01 1400 0300 01" + LIST[:-2]), f"read 60 3 {check(memory(36, 1))}\n")
        self.assertEqual(answer("01 0000 0000 01"), "read 0 0 00000000\n")

    def test_write(self):
        octets = bytes.fromhex(LIST)
        self.assertEqual(answer("02 0300 1500 07" + ENTRIES.hex()), f"write 0 21 {check(octets)}\n")
        self.assertEqual(answer("02 0300 0008 07" + ENTRIES.hex()), f"write 0 21 {check(memory(2048, 7, octets))}\n")
        self.assertEqual(answer("02 0300 1400 07" + ENTRIES.hex()), f"write 64 21 {check(memory(20, 7))}\n")
        self.assertEqual(answer("02 0200 0F00 07 000000000000000000000000 000000000001000000000000"),
                         f"write 61 2 {check(memory(15, 7))}\n")

    def test_events(self):
        self.assertEqual(answer("03 1500 0200 F0" + LIST), f"events 0 2 {CYCLE} {check(EVENTS)}\n")
        self.assertEqual(answer("03 1500 2C01 F0" + LIST),
                         f"events 0 2 {CYCLE} {check(memory(16 * 300, 0xF0, EVENTS))}\n")
        self.assertEqual(answer("03 1500 0100 F0" + LIST), f"events 64 2 0 {check(memory(16, 0xF0))}\n")
        self.assertEqual(answer("03 0700 0100 F0 03 05 0000000000"), f"events 61 1 0 {check(memory(16, 0xF0))}\n")

    def test_questions_that_break_the_layout(self):
        for broken in ("00", "04", "01 0000 0000", "01 0100 0000 00", "02 0100 0000 00" + "00" * 11, "03 0000 2D01 00",
                       "01 0000 2D01 00", "02 0000 0108 00", "01 0108 0000 00" + "00" * 2049,
                       "02 2D01 0000 00" + "00" * 3612):
            with self.subTest(broken=broken[:20]), self.assertRaises(ValueError):
                answer(broken)


class Questions(unittest.TestCase):
    @classmethod
    def setUpClass(cls):
        cls.questions = gates_questions.all_questions()
        cls.lines = answers(b"".join(cls.questions)).decode("ascii").splitlines()

    def test_every_outcome_is_met_often(self):
        outcomes = Counter(" ".join(line.split()[:2]) for line in self.lines)
        expected = {f"{name} {number}" for name in ("read", "events") for number in (0, 60, 61, 62, 63, 64)}
        expected |= {f"write {number}" for number in (0, 61, 63, 64)}
        self.assertEqual(set(outcomes), expected)
        self.assertGreater(min(outcomes.values()), 15)

    def test_every_outcome_is_met_with_memory_that_must_stay(self):
        # Of what is written the memory behind it, and of a refusal all of it, must show in the CHECK.
        met = set()
        for question, line in zip(self.questions, self.lines):
            _, room, _ = gates_format.FIELDS.unpack(question[1:6])
            name, number, value = line.split()[:3]
            if room > (int(value) if number == "0" else 0):
                met.add(f"{name} {number}")
        self.assertEqual(met, {" ".join(line.split()[:2]) for line in self.lines})

    def test_the_limits_are_met(self):
        for line in ("read 0 255", "read 0 256", "read 64 256", "read 63 257", "read 60 257", "read 61 257",
                     "read 62 257", "events 0 256", "events 64 256", "events 63 257", "events 60 257", "events 61 257",
                     "events 62 257", f"events 0 256 {256 * (2**32 - 1)}", f"events 0 0 {256 * (2**32 - 1)}",
                     "write 0 1785", "write 0 1792", "write 64 1792", "write 63 257", "write 61 257"):
            self.assertTrue(any(stored.startswith(line + " ") for stored in self.lines), line)

    def test_sizes_stay_small(self):
        self.assertLess(sum(len(question) for question in self.questions), 1_000_000)
        self.assertLess(sum(len(line) + 1 for line in self.lines), 200_000)


class WrongOnes(ToldByQuestions):
    names = gates_format.NAMES
    questions = staticmethod(gates_questions.all_questions)
    answers = staticmethod(answers)

    def test_right_ones(self):
        for call in self.asked:
            self.assertFalse(self.told(call))

    def test_wrong_in_what_they_refuse(self):
        self.each(wrong_gates.READERS, "read", "events")
        self.each(wrong_gates.WRITERS, "write")

    def test_wrong_in_what_they_write(self):
        self.each(wrong_gates.VALUES, "read", "events")
        self.each(wrong_gates.LAYOUTS, "write")
        self.each(wrong_gates.EVENTS, "events")
        self.each(wrong_gates.CYCLES, "events")

    def test_wrong_in_the_memory_that_they_are_lent(self):
        self.each(wrong_gates.ROOMS, "read", "write", "events")
        for call, wrong_ones in wrong_gates.REFUSING.items():
            self.each(wrong_ones, call)


if __name__ == "__main__":
    unittest.main()
