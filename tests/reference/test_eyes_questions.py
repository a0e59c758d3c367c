"""Tests of the questions and answers on captures for eyes, which are asked behind those on captures (test_captures_questions.py).

The questions are written here octet by octet, and the answers are put together by hand, so that the layout itself is
tested. That the stored questions are enough is shown by wrong_captures.py and wrong_eyes.py: the lines of each call
tell all that are wrong in it.
"""

import unittest
from collections import Counter

import eyes_format
import eyes_questions
import receiving
import trace
import wrong_captures
import wrong_eyes
from by_hand import check, mcrc, memory, standard_mcrc
from eyes_answers import answers
from told import ToldByQuestions


def answer(hexadecimal):
    return answers(bytes.fromhex(hexadecimal)).decode("ascii")


# Two records, the second empty: 11 octets of a trace, 59 of a capture.
TRACE = "0300 0100 55D501  0000 0100"
HEADER = "D4C3B2A1 0200 0400 00000000 00000000 40060000 12010000"
CAPTURE = HEADER + "00000000 00000000 03000000 03000000 55D501  00000000 00000000 00000000 00000000"
BIG = ("A1B2C3D4 0002 0004 00000001 00000002 00000003 00000112"
       "00000004 00000005 00000003 00000003 55D501  00000006 00000007 00000000 00000000")
# A V, whose preamble is swallowed: 69 octets of a trace, 105 of a capture.
V_HEADER, V_DATA = "4100 0100 07", bytes(60)
V_TRACE = V_HEADER + (V_DATA + mcrc(V_DATA)).hex()
V_CAPTURE = bytes.fromhex(HEADER + "00000000 00000000 41000000 41000000 07") + V_DATA + standard_mcrc(V_DATA)


class Answers(unittest.TestCase):
    def test_nothing_asked(self):
        self.assertEqual(answer(""), "")

    def test_write(self):
        capture = bytes.fromhex(CAPTURE)
        self.assertEqual(answer("01 0B00 3B00 F0" + TRACE), f"write 0 59 {check(capture)}\n")
        self.assertEqual(answer("01 0B00 0020 F0" + TRACE), f"write 0 59 {check(memory(8192, 0xF0, capture))}\n")
        self.assertEqual(answer("01 0B00 3A00 F0" + TRACE), f"write 78 59 {check(memory(58, 0xF0))}\n")
        self.assertEqual(answer("01 0A00 3B00 01" + TRACE[:-2]), f"write 50 2 {check(memory(59, 1))}\n")
        self.assertEqual(answer("01 0000 1900 07"), f"write 0 24 {check(bytes.fromhex(HEADER) + bytes([31]))}\n")
        self.assertEqual(answer("01 0000 0000 07"), "write 78 24 00000000\n")

    def test_read(self):
        octets = bytes.fromhex(TRACE)
        for capture in (CAPTURE, BIG):
            self.assertEqual(answer("02 3B00 0B00 07" + capture), f"read 0 11 {check(octets)}\n")
            self.assertEqual(answer("02 3B00 0D00 07" + capture), f"read 0 11 {check(memory(13, 7, octets))}\n")
            self.assertEqual(answer("02 3B00 0A00 07" + capture), f"read 78 11 {check(memory(10, 7))}\n")
            self.assertEqual(answer("02 3A00 0B00 07" + capture[:-2]), f"read 74 2 {check(memory(11, 7))}\n")
        self.assertEqual(answer("02 1800 0000 07" + HEADER), "read 0 0 00000000\n")
        self.assertEqual(answer("02 0000 0300 07"), f"read 70 0 {check(memory(3, 7))}\n")

    def test_show(self):
        self.assertEqual(answer("03 4500 6900 F0" + V_TRACE), f"show 0 105 {check(V_CAPTURE)}\n")
        self.assertEqual(answer("03 4500 0020 F0" + V_TRACE), f"show 0 105 {check(memory(8192, 0xF0, V_CAPTURE))}\n")
        self.assertEqual(answer("03 4500 6800 F0" + V_TRACE), f"show 78 105 {check(memory(104, 0xF0))}\n")
        self.assertEqual(answer("03 4600 6900 01" + V_TRACE + "00"), f"show 50 2 {check(memory(105, 1))}\n")
        self.assertEqual(answer("03 0B00 3B00 F0" + TRACE), f"show 0 59 {check(bytes.fromhex(CAPTURE))}\n")

    def test_one_after_the_other(self):
        self.assertEqual(answer("01 0000 0000 07  02 0000 0000 07"), "write 78 24 00000000\nread 70 0 00000000\n")

    def test_questions_that_break_the_layout(self):
        for broken in ("00", "04", "01 0000 0000", "01 0100 0000 00", "02 1800 0000 00" + HEADER[:-2], "03 0000 0000",
                       "03 4500 6900 F0" + V_TRACE[:-2], *(kind + "0000 0120 00" for kind in ("01", "02", "03")),
                       *(kind + "0120 0000 00" + "00" * 8193 for kind in ("01", "02", "03"))):
            with self.subTest(broken=broken[:20]), self.assertRaises(ValueError):
                answer(broken)


class Questions(unittest.TestCase):
    @classmethod
    def setUpClass(cls):
        cls.questions = eyes_questions.all_questions()
        cls.lines = answers(b"".join(cls.questions)).decode("ascii").splitlines()

    def test_every_outcome_is_met_often(self):
        outcomes = Counter(" ".join(line.split()[:2]) for line in self.lines)
        expected = {f"read {number}" for number in (0, *range(70, 79))}
        expected |= {f"{call} {number}" for call in ("write", "show") for number in (0, 50, 51, 52, 53, 78)}
        self.assertEqual(set(outcomes), expected)
        self.assertGreater(min(outcomes.values()), 50)

    def test_every_outcome_is_met_with_memory_that_must_stay(self):
        # Of what is written the memory behind it, and of a refusal all of it, must show in the CHECK.
        met = set()
        for question, line in zip(self.questions, self.lines):
            _, room, _ = eyes_format.FIELDS.unpack(question[1:6])
            name, number, value, _ = line.split()
            if room > (int(value) if number == "0" else 0):
                met.add(f"{name} {number}")
        self.assertEqual(met, {" ".join(line.split()[:2]) for line in self.lines})

    def test_every_refusal_is_met_without_room(self):
        met = {" ".join(line.split()[:2]) for question, line in zip(self.questions, self.lines)
               if eyes_format.FIELDS.unpack(question[1:6])[1] == 0}
        self.assertEqual(met, {" ".join(line.split()[:2]) for line in self.lines} - {"write 0", "show 0"})

    def test_the_limits_are_met(self):
        for line in ("write 0 24", "write 78 24", "write 0 40", "write 0 1639", "write 0 1640", "write 0 8104",
                     "write 0 8184", "write 78 8200", "write 78 32792", "write 50 256", "write 51 256", "write 52 256",
                     "write 53 256", "read 0 0", "read 0 4", "read 78 4", "read 0 1603", "read 0 1604", "read 0 2040",
                     "read 0 8020", "read 74 256", "read 75 1", "read 76 256", "read 77 301", "show 0 24", "show 78 24",
                     "show 0 40", "show 0 1640", "show 50 256", "show 51 256", "show 52 256", "show 53 256"):
            self.assertTrue(any(stored.startswith(line + " ") for stored in self.lines), line)

    def test_both_orders_are_met_with_every_answer(self):
        met = {b"\xD4\xC3\xB2\xA1": set(), b"\xA1\xB2\xC3\xD4": set()}
        for question, line in zip(self.questions, self.lines):
            if question[0] == eyes_format.READ and question[6:10] in met:
                met[question[6:10]].add(int(line.split()[1]))
        for numbers in met.values():
            self.assertEqual(numbers, {0, 70, 72, 73, 74, 75, 76, 77, 78})

    def test_every_answer_of_the_receiver_is_shown_often(self):
        met = Counter()
        for question, line in zip(self.questions, self.lines):
            if not line.startswith("show 0 "):
                continue
            buffer, state = bytearray(1518), receiving.fresh()
            for record in trace.records(question[6:]):
                was_open = state.assembly.assembling
                answered, state = receiving.receive(buffer, state, record.content)
                met[answered.number, was_open] += 1
        both = (0, 1, 2, 3, 4, 12, 13, 14, 15, 17, 20, 21, 25)
        self.assertEqual(set(met), {*((number, is_open) for number in both for is_open in (False, True)),
                                    (22, False), (23, True), (24, True)})
        self.assertGreater(min(met.values()), 1)

    def test_sizes_stay_small(self):
        self.assertLess(sum(len(question) for question in self.questions), 650_000)
        self.assertLess(sum(len(line) + 1 for line in self.lines), 120_000)


class WrongOnes(ToldByQuestions):
    names = eyes_format.NAMES
    questions = staticmethod(eyes_questions.all_questions)
    answers = staticmethod(answers)

    def test_right_ones(self):
        for call in self.asked:
            self.assertFalse(self.told(call))
        for right in (wrong_captures.judged_by(wrong_captures.TRACE_TESTS), wrong_eyes.BY_INVERTING):
            with right():
                self.assertFalse(self.told("write"))
                self.assertFalse(self.told("show"))

    def test_wrong_in_what_they_refuse(self):
        self.each(wrong_captures.WRITERS, "show")

    def test_wrong_in_what_they_write(self):
        self.each(wrong_captures.CAPTURES, "show")
        self.each(wrong_eyes.EYES, "show")

    def test_wrong_in_the_memory_that_they_are_lent(self):
        self.each(wrong_captures.ROOMS, "show")
        self.each(wrong_captures.REFUSING_TO_SHOW, "show")


if __name__ == "__main__":
    unittest.main()
