"""Tests of cut.py: document 01, "Sending", and the marked cuts, those of document 02, (ii) among them.

The search is compared with a formula that the search itself does not use.
"""

import unittest

from chance import Chance
from cut import WHOLE, cut

GREATEST = 2**64 - 1


def by_formula(frame_octets, sent, extra, on_wire):
    """The greater of t and m is the only candidate: if it leaves too little, everything above does too."""
    candidate = max(on_wire, 60 + 64 * extra)
    return candidate if sent + candidate + 64 <= frame_octets else WHOLE


class MarkedExamples(unittest.TestCase):
    def test_all(self):
        for frame_octets, extra, on_wire, expected in (
            (124, 0, 0, 60),
            (123, 0, 0, WHOLE),
            (128, 0, 65, WHOLE),
            (1522, 0, 1458, 1458),
            (1522, 0, 1459, WHOLE),
            (316, 3, 0, 252),
        ):
            with self.subTest(frame_octets=frame_octets, extra=extra, on_wire=on_wire):
                self.assertEqual(cut(frame_octets, 0, extra, True, on_wire), expected)


class ShortFrames(unittest.TestCase):
    def test_no_frame_under_124_octets_is_cut(self):
        for frame_octets in range(124):
            for extra in range(4):
                for on_wire in range(0, 131):
                    self.assertIs(cut(frame_octets, 0, extra, True, on_wire), WHOLE)

    def test_each_setting_of_extra_has_its_own_least_frame(self):
        for extra, least_frame in ((0, 124), (1, 188), (2, 252), (3, 316), (255, 16_444)):
            self.assertIs(cut(least_frame - 1, 0, extra, True, 0), WHOLE)
            self.assertEqual(cut(least_frame, 0, extra, True, 0), least_frame - 64)


class Limits(unittest.TestCase):
    def test_near_every_limit(self):
        for extra in range(4):
            least = 60 + 64 * extra
            for sent in (0, 60, 64, 700):
                for remaining in (0, 63, 64, 65, *range(least + 60, least + 69), 1522):
                    for on_wire in {0, 1, *range(least - 3, least + 4),
                                    *range(max(0, remaining - 68), max(0, remaining - 58))}:
                        self.assertEqual(cut(sent + remaining, sent, extra, True, on_wire),
                                         by_formula(sent + remaining, sent, extra, on_wire),
                                         (extra, sent, remaining, on_wire))

    def test_random_questions(self):
        chance = Chance(11)
        outcomes = {"cut": 0, "whole": 0}
        for _ in range(3000):
            frame_octets = chance.between(0, 1600)
            sent, extra, on_wire = chance.below(1000), chance.below(5), chance.below(1600)
            carried = cut(frame_octets, sent, extra, True, on_wire)
            self.assertEqual(carried, by_formula(frame_octets, sent, extra, on_wire))
            outcomes["whole" if carried is WHOLE else "cut"] += 1
        # Both outcomes were met often enough to mean something.
        self.assertGreater(min(outcomes.values()), 200)

    def test_one_octet_more_on_the_wire_moves_the_cut_by_one_or_ends_it(self):
        for on_wire in range(60, 1459):
            self.assertEqual(cut(1522, 0, 0, True, on_wire), on_wire)
        for on_wire in range(1459, 1530):
            self.assertIs(cut(1522, 0, 0, True, on_wire), WHOLE)

    def test_what_remains_can_be_sent(self):
        # What goes and what is left are lawful mFrames themselves: 60 body octets or more beside the check.
        for body in range(120, 400):
            carried = cut(body + 4, 0, 0, True, 0)
            self.assertGreaterEqual(carried, 60)
            self.assertGreaterEqual(body - carried, 60)


class Asks(unittest.TestCase):
    def test_without_an_ask_the_frame_runs_to_its_end(self):
        for frame_octets in (64, 128, 1522, GREATEST):
            for on_wire in (0, 64, 100, GREATEST):
                self.assertIs(cut(frame_octets, 0, 0, False, on_wire), WHOLE)
        self.assertEqual(cut(1522, 0, 0, True, 100), 100)


class ExtremeNumbers(unittest.TestCase):
    def test_the_greatest_t(self):
        for frame_octets in (64, 128, 1522):
            for on_wire in (2**32, 2**63, GREATEST - 64, GREATEST - 63, GREATEST):
                self.assertIs(cut(frame_octets, 0, 0, True, on_wire), WHOLE)

    def test_huge_frames(self):
        self.assertEqual(cut(GREATEST, 0, 0, True, 0), 60)
        self.assertEqual(cut(GREATEST, 0, 255, True, 5), 16_380)
        self.assertEqual(cut(GREATEST, GREATEST - 124, 0, True, 0), 60)
        self.assertIs(cut(GREATEST, GREATEST - 123, 0, True, 0), WHOLE)
        self.assertIs(cut(GREATEST, GREATEST - 124, 0, True, GREATEST), WHOLE)

    def test_more_sent_than_the_frame_has(self):
        for frame_octets in (0, 64, 128, 1522):
            for beyond in (0, 1, 64, 1000, GREATEST - 1522):
                self.assertIs(cut(frame_octets, frame_octets + beyond, 0, True, 0), WHOLE)


if __name__ == "__main__":
    unittest.main()
