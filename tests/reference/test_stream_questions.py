"""Tests of the questions and answers on document 02's request (iv), the octets that come one at a time, with (vi).

The questions are written here octet by octet, and the answers are put together by hand, so that the layout itself is
tested. That the stored questions are enough is shown by wrong_octet_by_octet.py: they tell all that are wrong there.
"""

import unittest
from collections import Counter
from functools import cache

import stream_format
import stream_questions
import wrong_octet_by_octet
from by_hand import check, fcs, mcrc, memory
from octet_by_octet import EMPTY as EMPTY_STATE
from reader import Reader
from stream_answers import Answering, answers


def answer(hexadecimal):
    return answers(bytes.fromhex(hexadecimal)).decode("ascii")


DATA = bytes(range(60))
EXPRESS = bytes.fromhex("55555555555555D5") + DATA + fcs(DATA)
START = bytes.fromhex("55555555555555B3") + DATA + mcrc(DATA)

FRESH = "01 00 00 00 0000000000000000 00000000 00000000 00000000 00000000 00000000"
BUFFER = "02 EE05 F8"
AREA = "03 FB05 0A"
EMPTY = "04 00000000 00"
ALL_KEPT = FRESH + BUFFER + AREA + EMPTY
UNTOUCHED = check(memory(1518, 0xF8))
FRESH_WORDS = "0 0 0 0 00000000 0 0 0 0"


def octets(run):
    return "05" + len(run).to_bytes(2, "little").hex() + run.hex()


class Answers(unittest.TestCase):
    def test_nothing_asked(self):
        self.assertEqual(answer(""), "")

    def test_setting_puts_nothing_out(self):
        self.assertEqual(answer(ALL_KEPT), "")

    def test_octets_and_their_end(self):
        area = check(memory(1531, 0x0A, EXPRESS))
        self.assertEqual(answer(ALL_KEPT + octets(EXPRESS) + "06"),
                         f"octets 72 0 0 72 0 {area}\nend 0 60 0 0 {FRESH_WORDS} {area} {UNTOUCHED}\n")

    def test_octets_in_pieces(self):
        area = check(memory(1531, 0x0A, START))
        lines = answer(ALL_KEPT + octets(START[:1]) + octets(b"") + octets(START[1:]) + "06 06").splitlines()
        record = f"1 3 0 60 {int.from_bytes(fcs(DATA), 'little') ^ 0xFFFFFFFF:08x} 0 0 0 0"
        self.assertEqual(lines, [
            f"octets 1 0 0 1 0 {check(memory(1531, 0x0A, START[:1]))}",
            f"octets 0 0 0 1 0 {check(memory(1531, 0x0A, START[:1]))}",
            f"octets 71 0 0 72 0 {area}",
            f"end 2 60 0 0 {record} {area} {check(memory(1518, 0xF8, DATA))}",
            f"end 12 0 0 0 {record} {area} {check(memory(1518, 0xF8, DATA))}",
        ])

    def test_octets_beyond(self):
        # Six octets have a place from the state's count on, the seventh and eighth have none.
        run = bytes.fromhex("C0C1C2C3C4C5C6C7")
        area = check(memory(2048, 0, run[:6], 1525))
        self.assertEqual(answer(FRESH + BUFFER + "03 0008 00 04 F5050000 00" + octets(run)),
                         f"octets 8 0 0 1531 1 {area}\n")
        # What stands at the front of the area decides: fill 0 is an unknown delimiter, fill D5 an E that is too long.
        self.assertEqual(answer(FRESH + BUFFER + "03 0008 00 04 FB050000 01 06"),
                         f"end 15 3 0 0 0 0 0 0 00000000 0 1 0 0 {check(memory(2048, 0))} {UNTOUCHED}\n")
        self.assertEqual(answer(FRESH + BUFFER + "03 0008 D5 04 FB050000 01 06"),
                         f"end 13 0 0 0 {FRESH_WORDS} {check(memory(2048, 0xD5))} {UNTOUCHED}\n")

    def test_refusals(self):
        short, whole = check(memory(1530, 9)), check(memory(1531, 9))
        for state, words in (("04 FC050000 00", "1532 0"), ("04 FA050000 01", "1530 1"),
                             ("04 FFFFFFFF 01", "4294967295 1")):
            self.assertEqual(answer(FRESH + BUFFER + "03 FA05 09" + state + "05 0300 010203 06"),
                             f"octets 0 3 0 {words} {short}\nend 18 0 {words} {FRESH_WORDS} {short} {UNTOUCHED}\n")
            self.assertEqual(answer(FRESH + BUFFER + "03 FB05 09" + state + "05 0300 010203 06"),
                             f"octets 0 0 3 {words} {whole}\nend 19 0 {words} {FRESH_WORDS} {whole} {UNTOUCHED}\n")

    def test_the_record_is_read_whole(self):
        record = "01 01 02 03 EF05000000000000 89ABCDEF 05000000 06000000 07000000 08000000"
        words = "1 2 3 1519 efcdab89 5 6 7 8"
        area = check(memory(1531, 0x0A, b"\x55"))
        self.assertEqual(answer(record + BUFFER + AREA + EMPTY + "05 0100 55 06"),
                         f"octets 1 0 0 1 0 {area}\nend 11 0 0 0 {words} {area} {UNTOUCHED}\n")

    def test_questions_that_break_the_layout(self):
        for broken in ("00", "07", "01 00", "02 0000", "03 0000", "02 0108 00", "03 0108 00", "04 00000000",
                       "04 00000000 02", "05 00", "05 0100", "05 0108" + "00" * 2049,
                       "01 02" + FRESH.replace(" ", "")[4:]):
            with self.subTest(broken=broken[:20]), self.assertRaises(ValueError):
                answer(broken)


@cache
def asked():
    """Every stored question with the lines that answer it."""
    answering = Answering()
    return [(question, answering.answer_one(Reader(question))) for question in stream_questions.all_questions()]


class Questions(unittest.TestCase):
    @classmethod
    def setUpClass(cls):
        cls.questions = [question for question, _ in asked()]
        cls.lines = [line for _, lines in asked() for line in lines]

    def fields(self, kind, layout):
        """What the questions of a kind set."""
        return [layout.unpack(question[1:]) for question in self.questions if question[0] == kind]

    def test_all_is_set_before_the_first_call(self):
        kinds = [question[0] for question in self.questions]
        self.assertEqual(set(kinds), set(stream_format.NAMES))
        self.assertEqual(set(kinds[:4]), {stream_format.RECORD, stream_format.BUFFER, stream_format.AREA,
                                          stream_format.STATE})

    def test_every_answer_is_met_often(self):
        met = Counter(int(line.split()[1]) for line in self.lines if line.startswith("end "))
        self.assertEqual(set(met), {*range(5), *range(10, 16), 17, 18, 19, *range(20, 26)})
        self.assertGreaterEqual(min(met.values()), 10)

    def test_every_limit_is_met(self):
        self.assertLessEqual({0, 1, 1530, 1531, 1532, 2048},
                             {room for room, _ in self.fields(stream_format.AREA, stream_format.BUFFER_FIELDS)})
        states = {*self.fields(stream_format.STATE, stream_format.STATE_FIELDS)}
        self.assertLessEqual({(count, more) for count in (0, 1, 1530, 1531, 1532, 2**31, 2**32 - 1) for more in (0, 1)},
                             states)
        # One octet alone at each sound state.
        self.assertLessEqual({(count, 0) for count in range(1532)} | {(1531, 1)}, states)

    def test_every_length_of_a_run_is_met(self):
        # From a state that is empty to an answer of the first receiver; None where the state was set to something else.
        lengths, length = set(), None
        for question, lines in asked():
            if question[0] == stream_format.STATE:
                length = 0 if question == stream_format.state_question(EMPTY_STATE) else None
            elif question[0] == stream_format.AREA and length != 0:
                length = None
            elif question[0] == stream_format.OCTETS and length is not None:
                length += int(lines[0].split()[1])
            elif question[0] == stream_format.END and lines[0].split()[1] not in ("18", "19"):
                lengths.add(length)
                length = 0
        self.assertLessEqual({0, 1, 64, 65, 71, 72, 1523, 1524, 1530, 1531, 1532, 5000}, lengths)

    def test_every_answer_to_more_octets_than_there_are_places_for(self):
        # 12 is not among them, and whatever is dropped or delivered is not either.
        met, more = Counter(), False
        for question, lines in asked():
            if question[0] == stream_format.STATE:
                more = question[-1] == 1
            elif question[0] == stream_format.OCTETS:
                more = lines[0].split()[5] == "1"
            elif question[0] == stream_format.END:
                met[int(lines[0].split()[1])] += more
                more = lines[0].split()[4] == "1"
        self.assertEqual({number for number in met if met[number]}, {10, 11, 13, 14, 15, 17, 18, 19})
        self.assertGreaterEqual(min(met[number] for number in (10, 11, 13, 14, 15, 17)), 5)

    def test_sizes_stay_small(self):
        self.assertLess(sum(len(question) for question in self.questions), 500_000)
        self.assertLess(sum(len(line) + 1 for line in self.lines), 500_000)


class WrongOnes(unittest.TestCase):
    def told(self):
        """Whether some question is answered otherwise than it must be; what is kept goes wrong with the answers."""
        answering = Answering()
        return any(answering.answer_one(Reader(question)) != lines for question, lines in asked())

    def test_the_right_one(self):
        self.assertFalse(self.told())

    def each(self, wrong_ones):
        for name, wrong in wrong_ones.items():
            with self.subTest(name), wrong():
                self.assertTrue(self.told())

    def test_wrong_in_what_they_refuse(self):
        self.each(wrong_octet_by_octet.LIMITS)
        self.each(wrong_octet_by_octet.MOMENTS)
        self.each(wrong_octet_by_octet.REFUSING)

    def test_wrong_in_what_they_do_with_an_octet(self):
        self.each(wrong_octet_by_octet.OCTETS)

    def test_wrong_in_what_they_do_at_an_end(self):
        self.each(wrong_octet_by_octet.ENDS)


if __name__ == "__main__":
    unittest.main()
