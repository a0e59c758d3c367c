"""Tests of the questions and answers on document 01's "Verification" and document 02's request (v).

The questions are written here octet by octet, so that the layout itself is tested. That the stored ones are enough is
shown by wrong_verification.py: they tell all that are wrong there.
"""

import unittest
from collections import Counter
from functools import cache

import verification
import verify_format
import verify_questions
import wrong_verification
from reader import Reader
from verification import Event, Phase
from verify_answers import Answering, answers


OUTSIDE_TRYING = (Phase.OFF, Phase.VERIFIED, Phase.FAILED)


def answer(hexadecimal):
    return answers(bytes.fromhex(hexadecimal)).decode("ascii")


class Answers(unittest.TestCase):
    def test_nothing_asked(self):
        self.assertEqual(answer(""), "")
        self.assertEqual(answer("01 01 02 03 01 04"), "")

    def test_each_event(self):
        for event, line in (("08", "0 0 0 0 1 20"), ("09", "0 0 0 0 0 20"), ("04", "0 2 0 0 1 20"),
                            ("03", "0 1 2 7 1 20"), ("05", "0 1 2 7 0 20"), ("06", "0 1 2 6 1 20")):
            # Only an enable's wait is looked at.
            for wait in ("00000000", "05000000", "81000000", "FFFFFFFF"):
                self.assertEqual(answer("01 01 02 07 01 14 02" + event + wait), line + "\n")
        self.assertEqual(answer("01 01 02 07 01 14 02 07 05000000"), "0 1 2 7 1 20\n")

    def test_the_wait_has_its_low_octet_first(self):
        self.assertEqual(answer("01 00 00 00 00 0A 02 07 03000000"), "1 1 1 3 0 3\n")
        for wait in ("00000003", "00000300", "00030000", "00000080"):
            self.assertEqual(answer("01 00 00 00 00 0A 02 07" + wait), "refused 41 0 0 0 0 10\n")

    def test_orders(self):
        self.assertEqual(answer("01 00 00 00 00 0A 02 07 80000000"), "1 1 1 128 0 128\n")
        self.assertEqual(answer("01 01 02 01 01 80 02 06 00000000"), "1 1 3 128 1 128\n")
        self.assertEqual(answer("01 01 03 01 01 80 02 06 00000000"), "0 3 0 0 1 128\n")

    def test_the_record_is_kept(self):
        self.assertEqual(answer("01 00 00 00 00 01 02 07 0B000000 02 06 00000000 02 04 00000000 02 03 00000000"),
                         "1 1 1 11 0 11\n0 1 1 10 0 11\n0 2 0 0 0 11\n0 2 0 0 1 11\n")

    def test_the_first_record_is_fresh(self):
        self.assertEqual(answer("02 08 00000000"), "0 0 0 0 0 10\n")
        self.assertEqual(answer("02 07 00000000 02 07 02000000"), "refused 41 0 0 0 0 10\n1 1 1 2 0 2\n")

    def test_refusals(self):
        self.assertEqual(answer("01 01 04 05 01 0A 02 07 0A000000"), "refused 40 1 4 5 1 10\n")
        self.assertEqual(answer("01 03 00 FF 00 0A 02 09 0A000000"), "refused 40 3 0 255 0 10\n")
        self.assertEqual(answer("01 01 01 0B 00 0A 02 06 0A000000"), "refused 40 1 1 11 0 10\n")
        self.assertEqual(answer("01 02 00 00 01 81 02 05 0A000000"), "refused 40 2 0 0 1 129\n")
        self.assertEqual(answer("01 00 00 00 00 00 02 07 00000000"), "refused 40 0 0 0 0 0\n")
        self.assertEqual(answer("01 02 00 00 01 80 02 07 81000000"), "refused 41 2 0 0 1 128\n")

    def test_questions_that_break_the_layout(self):
        for broken in ("00", "03", "01 00 00 00 00", "01 04 00 00 00 0A", "01 00 00 00 02 0A", "02 02 00000000",
                       "02 0A 00000000", "02", "02 07", "02 07 0A0000"):
            with self.subTest(broken=broken), self.assertRaises(ValueError):
                answer(broken)


@cache
def asked():
    """Every stored question with the lines that answer it."""
    answering = Answering()
    return [(question, answering.answer_one(Reader(question))) for question in verify_questions.all_questions()]


@cache
def happenings():
    """Every event that is asked about: the record before it, the event, its wait, the first word or two of the line."""
    answering = Answering()
    met = []
    for question, lines in asked():
        record = answering.record
        answering.answer_one(Reader(question))
        if question[0] == verify_format.EVENT:
            event, wait = verify_format.EVENT_FIELDS.unpack(question[1:])
            met.append((record, Event(event), wait, lines[0].rsplit(maxsplit=5)[0]))
    return met


class Questions(unittest.TestCase):
    def test_every_outcome_is_met_often(self):
        outcomes = Counter((event, outcome) for _, event, _, outcome in happenings())
        expected = {(event, outcome) for event in Event for outcome in ("0", "refused 40")}
        expected |= {(Event.ENABLE, "1"), (Event.MILLISECOND, "1"), (Event.ENABLE, "refused 41")}
        self.assertEqual(set(outcomes), expected)
        self.assertGreater(min(outcomes.values()), 200)

    def test_every_record_about_the_ranges_is_met_with_every_event(self):
        met = {(record.phase, record.attempt, record.left, record.wait, event) for record, event, _, _ in happenings()}
        for phase in Phase:
            for attempt in (*range(6), 255):
                self.assertLessEqual({(phase, attempt, left, 10, event) for left in (*range(13), 255)
                                      for event in Event}, met)
        for wait in (0, 1, 2, 9, 10, 11, 127, 128, 129, 255):
            lefts = {0, 1, 2, max(wait - 1, 0), wait, min(wait + 1, 255), 255}
            self.assertLessEqual({(Phase.TRYING, attempt, left, wait, event) for attempt in (0, 1, 2, 3, 4, 255)
                                  for left in lefts for event in Event}, met)
            self.assertLessEqual({(phase, attempt, left, wait, event) for phase in OUTSIDE_TRYING
                                  for attempt, left in ((0, 0), (0, 1), (1, 0), (0, wait)) for event in Event}, met)

    def test_every_kept_wait_is_met(self):
        for phases in ((Phase.TRYING,), OUTSIDE_TRYING):
            self.assertEqual({record.wait for record, *_ in happenings() if record.phase in phases}, set(range(256)))
        # All that can be left of each of the three attempts of the longest wait.
        self.assertLessEqual({(attempt, left, 128) for attempt in (1, 2, 3) for left in range(1, 129)},
                             {(record.attempt, record.left, record.wait) for record, *_ in happenings()})

    def test_every_wait_of_an_enable_is_met(self):
        limits = {0, 1, 10, 127, 128, 129, 255, 256, 257, 266, 384, 2**31, 2**32 - 1}
        enables = {(record.phase, outcome == "refused 40", wait) for record, event, wait, outcome in happenings()
                   if event is Event.ENABLE}
        self.assertLessEqual({(phase, False, wait) for phase in Phase for wait in limits | set(range(130))}, enables)
        # 40 before 41.
        self.assertLessEqual({(phase, True, wait) for phase in Phase for wait in limits}, enables)

    def test_waits_that_nobody_may_look_at_are_good_and_bad(self):
        met = {(record.phase, event, verification.is_wait(wait)) for record, event, wait, _ in happenings()
               if verification.in_range(record) and wait != record.wait}
        self.assertEqual(met, {(phase, event, good) for phase in Phase for event in Event for good in (False, True)})

    def test_attempts_come_to_their_end(self):
        ends = Counter((record.attempt, record.wait) for record, event, _, outcome in happenings()
                       if event is Event.MILLISECOND and record.left == 1 and outcome != "refused 40")
        self.assertEqual(set(ends), {(attempt, wait) for attempt in (1, 2, 3) for wait in range(1, 129)})

    def test_sizes_stay_small(self):
        self.assertLess(sum(len(question) for question, _ in asked()), 150_000)
        self.assertLess(sum(len(line) + 1 for _, lines in asked() for line in lines), 400_000)


class WrongOnes(unittest.TestCase):
    @classmethod
    def setUpClass(cls):
        # The right lines, before anything is wrong.
        asked()

    def told(self):
        """Whether some question is answered otherwise than it must be; the kept record goes wrong with the answers."""
        answering = Answering()
        return any(answering.answer_one(Reader(question)) != lines for question, lines in asked())

    def each(self, wrong_ones):
        for name, wrong in wrong_ones.items():
            with self.subTest(name), wrong():
                self.assertTrue(self.told())

    def test_the_right_ones(self):
        self.assertFalse(self.told())
        for name, right in wrong_verification.RIGHT.items():
            with self.subTest(name), right():
                self.assertFalse(self.told())

    def test_wrong_in_what_they_refuse(self):
        self.each(wrong_verification.RANGES)
        self.each(wrong_verification.MOMENTS)
        self.each(wrong_verification.ENABLING)
        self.each(wrong_verification.REFUSING)

    def test_wrong_in_the_wait_that_they_keep(self):
        self.each(wrong_verification.KEEPING)
        self.each(wrong_verification.FRESH)

    def test_wrong_in_a_row(self):
        self.each(wrong_verification.ROWS)


if __name__ == "__main__":
    unittest.main()
