"""Tests of the questions and answers on document 01's "Sending".

The questions are written here octet by octet, and the answers are put together by hand
from document 01, so that the layout itself is tested.
"""

import unittest
from collections import Counter

import send_format
import send_questions
from by_hand import check, fcs, mcrc, memory
from send_answers import answers


def answer(hexadecimal):
    return answers(bytes.fromhex(hexadecimal)).decode("ascii")


BODY = bytes(range(130))
SET_BODY = "05 8200" + BODY.hex()
# Active, no hold, extra 0, next frame count 2, no frame in progress.
SET_RECORD = "04 01 00 00 02 0000000000000000 0000000000000000 00"
NO_ASK = "06 00 0000000000000000 FA05 07"
ASK_0 = "06 01 0000000000000000 FA05 07"


class Answers(unittest.TestCase):
    def test_nothing_asked(self):
        self.assertEqual(answer(""), "")

    def test_express(self):
        body = bytes(range(60))
        mframe = bytes.fromhex("55555555555555D5") + body + fcs(body)
        self.assertEqual(answer("01 3C00 FB05 F0" + body.hex()), f"express 72 1 {check(memory(1531, 0xF0, mframe))}\n")
        self.assertEqual(answer("01 3C00 F905 F0" + body.hex()), f"express refused 30 {check(memory(1529, 0xF0))}\n")
        self.assertEqual(answer("01 0100 0008 01 AA"), f"express refused 32 {check(memory(2048, 1))}\n")

    def test_verify_and_respond(self):
        for kind, name, code in (("02", "verify", "07"), ("03", "respond", "19")):
            mframe = bytes.fromhex("55555555555555" + code) + bytes(60) + mcrc(bytes(60))
            self.assertEqual(answer(kind + "FA05 09"), f"{name} 72 1 {check(memory(1530, 9, mframe))}\n")
            self.assertEqual(answer(kind + "0000 09"), f"{name} refused 30 00000000\n")

    def test_setting_puts_nothing_out(self):
        self.assertEqual(answer(SET_BODY + SET_RECORD + "07 01 01 03"), "")

    def test_a_frame_in_two_parts(self):
        first = bytes.fromhex("555555555555557F") + BODY[:60] + mcrc(BODY[:60])
        second = bytes.fromhex("5555555555559EE6") + BODY[60:] + fcs(BODY)
        self.assertEqual(answer(SET_BODY + SET_RECORD + ASK_0 + NO_ASK).splitlines(), [
            f"preemptable 72 0 {check(memory(1530, 7, first))} 1 0 0 3 130 60 0",
            f"preemptable 82 1 {check(memory(1530, 7, second))} 1 0 0 3 0 0 0",
        ])

    def test_a_refusal_hands_the_record_back(self):
        kept = "04 01 01 03 01 8200000000000000 4600000000000000 03"
        self.assertEqual(answer(SET_BODY + kept + ASK_0),
                         f"preemptable refused 34 {check(memory(1530, 7))} 1 1 3 1 130 70 3\n")
        huge = "04 00 00 FF FE FFFFFFFFFFFFFFFF 0100000000000080 FD"
        self.assertEqual(answer(SET_BODY + huge + ASK_0),
                         f"preemptable refused 31 {check(memory(1530, 7))}"
                         " 0 0 255 254 18446744073709551615 9223372036854775809 253\n")

    def test_settings_change_three_fields_only(self):
        before = "04 01 00 00 02 8200000000000000 4600000000000000 03"
        after = "04 00 01 03 02 8200000000000000 4600000000000000 03"
        self.assertEqual(answer(SET_BODY + before + "07 00 01 03" + ASK_0), answer(SET_BODY + after + ASK_0))

    def test_the_ask_is_read_whole(self):
        # 2^32 is no 0, so that no cut is lawful; and what is no ask has no t.
        for call in ("06 01 0000000001000000 FA05 07", "06 01 FFFFFFFFFFFFFFFF FA05 07", NO_ASK,
                     "06 00 4000000000000000 FA05 07"):
            self.assertTrue(answer(SET_BODY + SET_RECORD + call).startswith("preemptable 142 1 "))
        # Anything but 0 is an ask.
        other_ask = "06 80 0000000000000000 FA05 07"
        self.assertTrue(answer(SET_BODY + SET_RECORD + other_ask).startswith("preemptable 72 0 "))

    def test_questions_that_break_the_layout(self):
        for broken in ("00", "08", "02 00", "05 0200 00", "04 02 00 00 02 0000000000000000 0000000000000000 00",
                       "07 00 02 00", "02 0108 00", "05 0108" + "00" * 2049):
            with self.subTest(broken=broken[:20]), self.assertRaises(ValueError):
                answer(broken)


class Questions(unittest.TestCase):
    @classmethod
    def setUpClass(cls):
        cls.questions = send_questions.all_questions()
        cls.answers = answers(b"".join(cls.questions)).decode("ascii").splitlines()

    def test_record_and_body_are_set_before_the_first_call(self):
        kinds = [question[0] for question in self.questions]
        first_call = kinds.index(send_format.PREEMPTABLE)
        self.assertLess(kinds.index(send_format.RECORD), first_call)
        self.assertLess(kinds.index(send_format.BODY), first_call)

    def test_every_outcome_is_met_often(self):
        outcomes = Counter()
        for line in self.answers:
            words = line.split()
            outcomes[" ".join(words[:3]) if words[1] == "refused" else f"{words[0]} {words[2]}"] += 1
        for outcome in ("express 1", "express refused 30", "express refused 32", "verify 1", "verify refused 30",
                        "respond 1", "respond refused 30", "preemptable 0", "preemptable 1",
                        *(f"preemptable refused {number}" for number in (30, 31, 32, 33, 34))):
            self.assertGreaterEqual(outcomes[outcome], 5, outcome)
        # Nothing but these.
        self.assertEqual(len(outcomes), 14)

    def test_sizes_stay_small(self):
        self.assertLess(sum(len(question) for question in self.questions), 700_000)
        self.assertLess(sum(len(line) + 1 for line in self.answers), 500_000)


if __name__ == "__main__":
    unittest.main()
