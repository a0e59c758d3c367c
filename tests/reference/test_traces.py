"""Tests of traces.py: the stored traces contain what document 01's "Trace and listing" is to be run with.

That they do is shown by listers that are wrong in one rule each: the listing of `answers` tells every one of them. Of
those that are wrong in the heads of document 02, (vi) (wrong_receiving.py) its last records alone tell all that a listing
can tell.
"""

import unittest
from unittest import mock

import codes
import crc
import mframe
import mmlist
import receiving
import trace
import traces
import wrong_receiving

NAMES = ["example", "row", "answers", "long", "refused_50", "refused_51", "refused_52", "refused_53", "empty"]

HEARD = (receiving.VERIFY_HEARD, receiving.RESPOND_HEARD)
RIGHT_ANSWER = receiving.whole_answer
RIGHT_ENDING = crc.ending


def heard_only_if(fits):
    """V and R whose octets behind the header do not fit are dropped, whatever their check."""
    def answer(kind, behind):
        right = RIGHT_ANSWER(kind, behind)
        return right if right.number not in HEARD or fits(behind) else receiving.Answer(receiving.VERIFICATION_DAMAGED)
    return mock.patch.object(receiving, "whole_answer", answer)


def heard_unless_zeros():
    """V and R with other data than zeros are heard, whatever their check."""
    def answer(kind, behind):
        if kind == codes.EXPRESS or not any(behind[:-4]):
            return RIGHT_ANSWER(kind, behind)
        return receiving.Answer(receiving.VERIFY_HEARD if kind == codes.VERIFY else receiving.RESPOND_HEARD)
    return mock.patch.object(receiving, "whole_answer", answer)


def heard_by_the_check_of_zeros():
    """Of V and R the last four octets are compared with the mCRC of 60 zero octets, and the data are not looked at."""
    def answer(kind, behind):
        stored = mframe.VERIFICATION_DATA + behind[-4:]
        return RIGHT_ANSWER(kind, behind if kind == codes.EXPRESS else stored)
    return mock.patch.object(receiving, "whole_answer", answer)


def tested_in_order(*order, most=1518):
    """A continuation is tested in this order, and so many octets are the most that are kept."""
    def drop(assembly, frame_count, fragment_count, data_octets, end):
        applies = {
            22: not assembly.assembling,
            23: (frame_count, fragment_count) != (assembly.frame_count, assembly.next_fragment_count),
            24: assembly.kept + data_octets > most,
            25: isinstance(end, crc.Damaged),
        }
        return next((number for number in order if applies[number]), None)
    return mock.patch.object(receiving, "continuation_drop", drop)


def begun_anew_taken_for(kind):
    """Check octets that are right over a fragment's own data are taken as well, as done or as more."""
    def ending(register, octets):
        end, own = RIGHT_ENDING(register, octets), RIGHT_ENDING(crc.ALL_ONES, octets)
        return own if isinstance(end, crc.Damaged) and isinstance(own, kind) else end
    return mock.patch.object(crc, "ending", ending)


WRONG = {
    "V and R must be zeros": lambda: heard_only_if(lambda behind: not any(behind[:-4])),
    "V and R must have 60 octets of data": lambda: heard_only_if(lambda behind: len(behind) == 64),
    "V and R under 1,518 octets of data": lambda: heard_only_if(lambda behind: len(behind) < 1522),
    "V and R that are not zeros need no check": heard_unless_zeros,
    "V and R with the check of zeros": heard_by_the_check_of_zeros,
    "23 before 22": lambda: tested_in_order(23, 22, 24, 25),
    "25 before 22": lambda: tested_in_order(25, 22, 23, 24),
    "24 before 23": lambda: tested_in_order(22, 24, 23, 25),
    "25 before 23": lambda: tested_in_order(22, 25, 23, 24),
    "25 before 24": lambda: tested_in_order(22, 23, 25, 24),
    "24 at 1,518": lambda: tested_in_order(22, 23, 24, 25, most=1517),
    "24 from 1,520 on": lambda: tested_in_order(22, 23, 24, 25, most=1519),
    "FCS over a fragment's own data": lambda: begun_anew_taken_for(crc.Done),
    "mCRC over a fragment's own data": lambda: begun_anew_taken_for(crc.More),
}


# 10 and 11 cannot be had from a listing; nor does it show where octets were kept, or the express body.
IN_A_LISTING = {name: wrong for group in ("preambles", "order", "ends in the head", "lengths", "heads", "answers")
                for name, wrong in wrong_receiving.GROUPS[group].items()
                if not name.endswith(("before 10", "before 11"))}


class Traces(unittest.TestCase):
    @classmethod
    def setUpClass(cls):
        cls.traces = traces.all_traces()
        cls.listings = {name: mmlist.listing(octets).splitlines() for name, octets in cls.traces.items()}

    def answers(self, name):
        return [int(line.split()[1]) for line in self.listings[name][1:-1] if not line.startswith("stop")]

    def test_names(self):
        self.assertEqual(list(self.traces), NAMES)

    def test_sample(self):
        self.assertEqual(self.listings["example"], ["mm 1", "1 12 0", "2 15 4", "3 22 0", "4 20 0", "end 0 2 0 0"])

    def test_row(self):
        # Typed by hand from the story that row() tells.
        self.assertEqual(self.answers("row"), [
            3, 4, 1,
            2, 0, 2, 0, 0, 2, 1,
            2, 0, 2, 23, 22, 22,
            2, 2, 1,
            15, 22, 22, 22, 22,
            2, 17, 23, 22, 22,
            2, 25, 22,
            2, 15, 1, 20, 0, 0, 15,
            21, 3, 4, 2, 2, 1,
        ])
        self.assertEqual(self.listings["row"][-1], "end 4 13 3 8")

    def test_answers(self):
        # Typed by hand, each beside the mFrame it belongs to.
        self.assertEqual(self.answers("answers")[:41], [
            0, 1, 2, 2, 1, 3, 4,
            12, 12, 13, 14,
            15, 15, 15, 22, 0, 17,
            20, 21, 21, 22,
            2, 23, 22, 2, 23,
            2, 24, 2, 25, 25,
            2, 25, 2, 2, 2, 1,
            1, 0, 2, 1,
        ])
        self.assertEqual(set(self.answers("answers")), {*range(5), *range(12, 16), 17, *range(20, 26)})
        # The fragment that waited through all refused lengths is the first of a whole frame still.
        self.assertEqual(self.listings["answers"][329:331], ["329 2 120", "330 1 200"])

    def test_answers_that_one_rule_decides(self):
        # Typed by hand, as above. V and R of seven lengths; drops that meet; 1,518 and 1,519 octets; checks begun anew.
        self.assertEqual(self.answers("answers")[330:465], [
            *[3, 21, 21, 21, 4, 21, 21, 21] * 7,
            22, 22,
            2, 23, 2, 23, 2, 23, 2, 23, 2, 23, 2, 23, 2, 23, 2, 23,
            2, 24, 2, 24, 2, 25,
            *[2, 1, 2, 2, 2, 24, 2, 24] * 4, 2, 24, 2, 24,
            *[2, 25, 2, 2, 25, 2, 2, 25] * 2, 2, 2, 1,
        ])

    def test_answers_of_shortened_preambles(self):
        # Typed by hand, as above. Every number of octets 55, frames in parts of different numbers; ends in the head.
        self.assertEqual(self.answers("answers")[465:], [
            *[0, 3, 4, 1, 2, 1, 15] * 8, *[14] * 14,
            2, 2, 2, 2, 1, 2, 2, 2, 2, 1,
            12, 12, 12, 12, 14, 14, 14, 14,
            *[12, 12, 15, 12, 12, 17] * 4, *[14] * 6,
            # 63, 64, 1,522 and 1,523 octets behind the header: E, a start, its continuation.
            *[12, 2, 12] * 8, *[0, 2, 1] * 8, *[0, 2, 24] * 3, *[13, 2, 13] * 3,
            # Refusals that meet; data like a head.
            *[14, 14, 14, 15, 15, 17, 17] * 6,
            *[0, 2, 1] * 12,
        ])

    def test_every_number_of_octets_55_in_the_long_trace(self):
        numbers = {len(record.content) - len(record.content.lstrip(b"\x55"))
                   for record in trace.records(self.traces["long"])}
        self.assertLessEqual(set(range(10)), numbers)

    def test_listers_that_are_wrong_in_the_head(self):
        octets = trace.written(traces.shortened_preambles())
        self.assertTrue(self.traces["answers"].endswith(octets))
        right = mmlist.listing(octets)
        for name, wrong in IN_A_LISTING.items():
            with self.subTest(name), wrong():
                self.assertNotEqual(mmlist.listing(octets), right)

    def test_wrong_listers_are_told_from_a_right_one(self):
        octets, right = self.traces["answers"], self.listings["answers"]
        with tested_in_order(22, 23, 24, 25):
            self.assertEqual(mmlist.listing(octets).splitlines(), right)
        for name, wrong in WRONG.items():
            with self.subTest(name), wrong():
                self.assertNotEqual(mmlist.listing(octets).splitlines(), right)

    def test_lengths_of_good_records(self):
        lengths = {len(record.content) for record in trace.records(self.traces["answers"])}
        self.assertLessEqual({*range(73), *range(1530, 1601)}, lengths)
        self.assertEqual(max(lengths), 1600)

    def test_long(self):
        self.assertEqual(len(self.answers("long")), 20_000)
        self.assertLess(len(self.traces["long"]), 1_600_000)
        self.assertGreater(len(self.traces["long"]), 1_300_000)
        self.assertLessEqual({0, 1, 2, 3, 4, 12, 13, 14, 15, 17, 20, 21, 22, 23, 25}, set(self.answers("long")))

    def test_refused_records(self):
        for number in (50, 51, 52, 53):
            self.assertEqual(self.listings[f"refused_{number}"],
                             ["mm 1", "1 2 60", "2 2 120", "3 1 190", "4 22 0", "5 2 60", "6 2 60",
                              f"stop 7 {number}", "end 1 1 1 2"])

    def test_empty(self):
        self.assertEqual(self.traces["empty"], b"")
        self.assertEqual(self.listings["empty"], ["mm 1", "end 0 0 0 0"])


if __name__ == "__main__":
    unittest.main()
