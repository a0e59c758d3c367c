"""Tests of the questions and answers on document 01's "Receiving".

The questions are written here octet by octet, and the answers are put together by hand
from document 01, so that the layout itself is tested. That the stored questions are enough
for the heads of document 02, (vi) is shown by wrong_receiving.py: they tell all that are
wrong there.
"""

import re
import unittest
import zlib
from collections import Counter
from functools import cache

import receive_format
import receive_questions
import witness
import wrong_receiving
from by_hand import check, fcs, mcrc, memory
from reader import Reader
from receive_answers import Answering, answers


def answer(hexadecimal):
    return answers(bytes.fromhex(hexadecimal)).decode("ascii")


DATA = bytes(range(60))
FRESH = "01 00 00 00 0000000000000000 00000000 00000000 00000000 00000000 00000000"
BUFFER = "02 EE05 F8"
UNTOUCHED = check(memory(1518, 0xF8))


def mframe(header, data, check_octets):
    octets = bytes.fromhex(header) + data + check_octets
    return "03" + len(octets).to_bytes(2, "little").hex() + octets.hex()


class Answers(unittest.TestCase):
    def test_nothing_asked(self):
        self.assertEqual(answer(""), "")

    def test_setting_puts_nothing_out(self):
        self.assertEqual(answer(FRESH + BUFFER), "")

    def test_express(self):
        self.assertEqual(answer(FRESH + BUFFER + mframe("55555555555555D5", DATA, fcs(DATA))),
                         f"0 60 0 0 0 0 00000000 0 0 0 0 {UNTOUCHED} 8 60 {check(DATA)}\n")

    def test_the_express_body_does_not_need_the_buffer(self):
        # Refused with 10, but the separate call gives the body all the same.
        self.assertEqual(answer(FRESH + "02 ED05 00" + mframe("55555555555555D5", DATA, fcs(DATA))),
                         f"10 0 0 0 0 0 00000000 0 0 0 0 {check(memory(1517, 0))} 8 60 {check(DATA)}\n")

    def test_a_frame_in_two_parts(self):
        later = bytes(range(70, 140))
        lines = answer(FRESH + BUFFER + mframe("55555555555555B3", DATA, mcrc(DATA))
                       + mframe("5555555555552AE6", later, fcs(DATA + later))).splitlines()
        register = zlib.crc32(DATA) ^ 0xFFFFFFFF
        self.assertEqual(lines, [
            f"2 60 1 3 0 60 {register:08x} 0 0 0 0 {check(memory(1518, 0xF8, DATA))} 0 0 00000000",
            f"1 130 0 0 0 0 00000000 0 0 1 1 {check(memory(1518, 0xF8, DATA + later))} 0 0 00000000",
        ])

    def test_record_and_memory_are_read_whole(self):
        # Assembling, counts 2 and 1, 256 octets kept, register 00000001, counters 1, 2, 3 and the last number.
        record = "01 01 02 01 0001000000000000 01000000 01000000 02000000 03000000 FFFFFFFF"
        # zlib goes on from the complement of the register.
        check_octets = zlib.crc32(DATA, 0xFFFFFFFE).to_bytes(4, "little")
        line = answer(record + "02 0008 00" + mframe("5555555555559E4C", DATA, check_octets))
        self.assertEqual(line, f"1 316 0 0 0 0 00000000 1 2 4 0 {check(memory(2048, 0, DATA, 256))} 0 0 00000000\n")

    def test_a_refusal_hands_the_record_back(self):
        record = "01 00 FF FE FFFFFFFFFFFFFFFF 89ABCDEF 05000000 06000000 07000000 08000000"
        self.assertEqual(answer(record + BUFFER + "03 0000"),
                         f"11 0 0 255 254 18446744073709551615 efcdab89 5 6 7 8 {UNTOUCHED} 0 0 00000000\n")

    def test_the_express_body_of_a_shortened_mframe(self):
        for header, begin in (("D5", 1), ("5555D5", 3), ("555555555555D5", 7)):
            self.assertEqual(answer(FRESH + BUFFER + mframe(header, DATA, fcs(DATA))),
                             f"0 60 0 0 0 0 00000000 0 0 0 0 {UNTOUCHED} {begin} 60 {check(DATA)}\n")

    def test_the_bits_of_an_unknown_delimiter(self):
        self.assertEqual(answer(FRESH + BUFFER + mframe("55555555555555AD", DATA, fcs(DATA))),
                         f"15 4 0 0 0 0 00000000 0 1 0 0 {UNTOUCHED} 0 0 00000000\n")

    def test_questions_that_break_the_layout(self):
        for broken in ("00", "04", "01 00", "03 0100", "02 0108 00", "03 0108" + "00" * 2049,
                       "01 02" + FRESH.replace(" ", "")[4:]):
            with self.subTest(broken=broken[:20]), self.assertRaises(ValueError):
                answer(broken)


@cache
def asked():
    """Every stored question with the lines that answer it."""
    answering = Answering()
    return [(question, answering.answer_one(Reader(question))) for question in receive_questions.all_questions()]


# The octets 55, the delimiter and the octet behind it.
HEAD = re.compile(rb"(\x55*)([^\x55]?)(.?)", re.DOTALL)


class Questions(unittest.TestCase):
    @classmethod
    def setUpClass(cls):
        cls.questions = [question for question, _ in asked()]
        cls.answers = [line for _, lines in asked() for line in lines]
        cls.mframes = [question[3:] for question in cls.questions if question[0] == receive_format.MFRAME]
        cls.heads = [HEAD.match(octets).groups() for octets in cls.mframes]

    def test_record_and_buffer_are_set_before_the_first_mframe(self):
        kinds = [question[0] for question in self.questions]
        first_mframe = kinds.index(receive_format.MFRAME)
        self.assertLess(kinds.index(receive_format.RECORD), first_mframe)
        self.assertLess(kinds.index(receive_format.BUFFER), first_mframe)

    def test_every_answer_is_met_often(self):
        met = Counter(int(line.split()[0]) for line in self.answers)
        self.assertEqual(set(met), {*range(5), *range(10, 16), 17, *range(20, 26)})
        self.assertGreaterEqual(min(met.values()), 10)

    def test_every_number_of_bits_is_met(self):
        details = {line.split()[1] for line in self.answers if line.startswith("15 ")}
        self.assertEqual(details, {"1", "2", "3", "4"})

    def test_every_number_of_octets_55_is_met_before_every_delimiter(self):
        met = {(len(leading), delimiter + code if delimiter in (b"\x61", b"\x52", b"\x9E", b"\x2A") else delimiter)
               for leading, delimiter, code in self.heads}
        known = [bytes.fromhex(code) for code in (
            "D5 E6 4C 7F B3 07 19 61E6 614C 617F 61B3 52E6 524C 527F 52B3 9EE6 9E4C 9E7F 9EB3 2AE6 2A4C 2A7F 2AB3").split()]
        # Also unknown ones and unknown fragment codes, and octets that end before either.
        others = [bytes.fromhex(code) for code in ("00", "54", "57", "D4", "9E00", "9E55", "", "61", "2A")]
        self.assertLessEqual({(number, code) for number in range(10) for code in known + others}, met)

    def test_every_octet_is_met_as_delimiter_and_as_fragment_code(self):
        self.assertEqual(len({delimiter for _, delimiter, _ in self.heads}), 256)
        self.assertEqual({code for _, delimiter, code in self.heads if delimiter == b"\x9E"},
                         {b"", *(bytes([octet]) for octet in range(256))})

    def test_both_limits_are_met_behind_every_header(self):
        met = {(len(leading), delimiter, len(octets) - len(leading) - 1)
               for octets, (leading, delimiter, _) in zip(self.mframes, self.heads)}
        for number in range(8):
            for behind in (63, 64, 1522, 1523):
                self.assertIn((number, b"\xD5", behind), met)
                # The fragment code stands between the delimiter and what counts.
                self.assertTrue(any((number, code, behind + 1) in met for code in (b"\x61", b"\x52", b"\x9E", b"\x2A")))
        lengths = {len(octets) for octets in self.mframes}
        self.assertLessEqual({0, 1, 64, 65, 71, 72, 1523, 1524, 1530, 1531, 1532, 2048}, lengths)

    def test_every_beginning_of_an_express_body_is_met(self):
        met = Counter(line.split()[-3] for line in self.answers if line.startswith("0 "))
        self.assertEqual(set(met), {str(begin) for begin in range(1, 9)})
        self.assertGreaterEqual(min(met.values()), 10)

    def test_a_body_that_nobody_sent(self):
        # The last history: a start is kept, and a part that is not its next one completes it.
        kept, completed = (line.split() for line in self.answers[-2:])
        self.assertEqual((kept[:2], completed[:2]), (["2", "60"], ["1", "120"]))
        expected = memory(1518, 77, witness.body_never_sent())
        self.assertEqual(completed[-4:], [check(expected), "0", "0", "00000000"])

    def test_sizes_stay_small(self):
        self.assertLess(sum(len(question) for question in self.questions), 950_000)
        self.assertLess(sum(len(line) + 1 for line in self.answers), 550_000)


class WrongOnes(unittest.TestCase):
    def told(self):
        """Whether some question is answered otherwise than it must be; what is kept goes wrong with the answers."""
        answering = Answering()
        return any(answering.answer_one(Reader(question)) != lines for question, lines in asked())

    def test_the_right_one(self):
        self.assertFalse(self.told())

    def test_each_wrong_one(self):
        for group, wrong_ones in wrong_receiving.GROUPS.items():
            for name, wrong in wrong_ones.items():
                with self.subTest(name, group=group), wrong():
                    self.assertTrue(self.told())


if __name__ == "__main__":
    unittest.main()
