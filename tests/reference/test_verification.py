"""Tests of verification.py: document 01, "Verification", row by row and over whole lives, with the waits of document
02's request (v)."""

import unittest
from itertools import product

import verification
from chance import Chance
from verification import Event, Phase, Refused, VerificationRecord, Went

# A record in short: phase, attempt, left, owed, wait. These are the first three outside trying.
OFF, VERIFIED, FAILED = (Phase.OFF, 0, 0), (Phase.VERIFIED, 0, 0), (Phase.FAILED, 0, 0)

WAITS = (1, 2, 3, 9, 10, 11, 77, 127, 128)
# Some differ from a good one in their high bits alone.
NO_WAITS = (0, 129, 130, 255, 256, 257, 266, 384, 2**16 + 10, 2**24 + 10, 2**31, 2**31 + 10, 2**32 - 1)
OTHER_EVENTS = [event for event in Event if event is not Event.ENABLE]


def every_record_in_range(waits=WAITS):
    records = []
    for wait in waits:
        trying = [(Phase.TRYING, attempt, left) for attempt in (1, 2, 3) for left in range(1, wait + 1)]
        records += [(*record, owed, wait) for record in [OFF, VERIFIED, FAILED, *trying] for owed in (False, True)]
    return records


def records_out_of_range():
    """Each with a value, or two, that it must not have."""
    in_each_phase = (OFF, (Phase.TRYING, 1, 1), VERIFIED, FAILED)
    records = [(*record, False, wait) for record in in_each_phase for wait in (0, 129, 255)]
    for wait in WAITS:
        records += [(Phase.TRYING, 2, left, True, wait) for left in (0, wait + 1, 255)]
        records += [(Phase.TRYING, attempt, wait, True, wait) for attempt in (0, 4, 255)]
        records += [(phase, attempt, left, False, wait) for phase in (Phase.OFF, Phase.VERIFIED, Phase.FAILED)
                    for attempt, left in ((1, 0), (0, 1), (0, wait), (3, wait))]
    return records


def happen(record, event, wait):
    """Whether a V is ordered, and the record afterwards in short."""
    answer, after = verification.happen(VerificationRecord(*record), event, wait)
    assert isinstance(answer, Went), "the record is in range, and so is an enable's wait"
    return answer.ordered, (after.phase, after.attempt, after.left, after.owed, after.wait)


def enabled(wait):
    """The record after off became trying with this wait."""
    return happen((*OFF, False, 10), Event.ENABLE, wait)[1]


def after_milliseconds(record, count):
    for _ in range(count):
        _, record = happen(record, Event.MILLISECOND, 0)
    return record


class Rows(unittest.TestCase):
    def each(self, event, expected):
        """The event from every record in range; with whatever wait it comes, it is not looked at."""
        for record in every_record_in_range():
            for wait in (0, 5, 128, 2**32 - 1):
                self.assertEqual(happen(record, event, wait), expected(*record))

    def test_enable_in_off(self):
        for owed, kept, wait in product((False, True), range(1, 129), range(1, 129)):
            self.assertEqual(happen((*OFF, owed, kept), Event.ENABLE, wait),
                             (True, (Phase.TRYING, 1, wait, owed, wait)))

    def test_enable_in_another_phase(self):
        for record, wait in product(every_record_in_range(), WAITS):
            if record[0] is not Phase.OFF:
                self.assertEqual(happen(record, Event.ENABLE, wait), (False, record))

    def test_disable(self):
        self.each(Event.DISABLE, lambda _phase, _attempt, _left, owed, wait: (False, (*OFF, owed, wait)))

    def test_link_failed(self):
        self.each(Event.LINK_FAILED, lambda _phase, _attempt, _left, _owed, wait: (False, (*OFF, False, wait)))

    def test_r_heard(self):
        self.each(Event.R_HEARD, lambda phase, *others: (
            False, (*VERIFIED, *others[2:]) if phase is Phase.TRYING else (phase, *others)))

    def test_v_heard_and_response_sent(self):
        self.each(Event.V_HEARD, lambda *record: (False, (*record[:3], True, record[4])))
        self.each(Event.RESPONSE_SENT, lambda *record: (False, (*record[:3], False, record[4])))

    def test_millisecond(self):
        def expected(phase, attempt, left, owed, wait):
            if phase is not Phase.TRYING:
                return False, (phase, attempt, left, owed, wait)
            if left > 1:
                return False, (phase, attempt, left - 1, owed, wait)
            return {1: (True, (phase, 2, wait, owed, wait)), 2: (True, (phase, 3, wait, owed, wait)),
                    3: (False, (*FAILED, owed, wait))}[attempt]
        self.each(Event.MILLISECOND, expected)


class Refusals(unittest.TestCase):
    def refused(self, record, event, wait, number):
        """Refused with this number, and the record is handed back."""
        record = VerificationRecord(*record)
        self.assertEqual(verification.happen(record, event, wait), (Refused(number), record))

    def test_all_other_values(self):
        waits = (1, 2, 10, 11)
        good = set(every_record_in_range(waits))
        refused = 0
        for record in product(Phase, range(5), range(14), (False, True), (0, *waits, 129, 255)):
            for event in Event:
                if record in good:
                    happen(record, event, 10)
                else:
                    self.refused(record, event, 10, 40)
                    refused += 1
        self.assertEqual(refused, (4 * 5 * 14 * 2 * 7 - len(good)) * 7)

    def test_every_kept_wait(self):
        for wait, record, event in product(range(256), (OFF, (Phase.TRYING, 1, 1), VERIFIED, FAILED), Event):
            if 1 <= wait <= 128:
                happen((*record, True, wait), event, 10)
            else:
                self.refused((*record, True, wait), event, 10, 40)

    def test_left_goes_up_to_the_kept_wait(self):
        for wait, left in product(range(1, 129), range(256)):
            record = (Phase.TRYING, 2, left, False, wait)
            if 1 <= left <= wait:
                happen(record, Event.MILLISECOND, 0)
            else:
                self.refused(record, Event.MILLISECOND, 0, 40)

    def test_waits_of_an_enable(self):
        # In every phase, whether the enable would do something or not.
        for record, wait in product(every_record_in_range((1, 10, 128)), NO_WAITS):
            self.refused(record, Event.ENABLE, wait, 41)
        for record, wait in product((OFF, (Phase.TRYING, 3, 1), VERIFIED, FAILED), range(600)):
            if 1 <= wait <= 128:
                happen((*record, True, 60), Event.ENABLE, wait)
            else:
                self.refused((*record, True, 60), Event.ENABLE, wait, 41)

    def test_waits_of_other_events_are_not_refused(self):
        for record, event, wait in product(every_record_in_range((1, 10)), OTHER_EVENTS, NO_WAITS):
            self.assertEqual(happen(record, event, wait), happen(record, event, 10))

    def test_40_before_41(self):
        for record, wait in product(records_out_of_range(), (*WAITS, *NO_WAITS)):
            self.refused(record, Event.ENABLE, wait, 40)


class Lives(unittest.TestCase):
    def test_fresh(self):
        self.assertEqual(verification.fresh(), VerificationRecord(*OFF, False, 10))

    def test_a_try_orders_three_v_and_lasts_three_times_the_wait(self):
        for wait in range(1, 129):
            ordered, record = happen((*OFF, False, 10), Event.ENABLE, wait)
            orders, lasted = [0] if ordered else [], 0
            while record[0] is Phase.TRYING:
                ordered, record = happen(record, Event.MILLISECOND, 0)
                lasted += 1
                if ordered:
                    orders.append(lasted)
            self.assertEqual((orders, lasted, record), ([0, wait, 2 * wait], 3 * wait, (*FAILED, False, wait)))

    def test_every_millisecond_of_a_try(self):
        # Attempt and milliseconds left, as a division has them.
        for wait in range(1, 129):
            record = enabled(wait)
            for passed in range(3 * wait):
                self.assertEqual(record, (Phase.TRYING, passed // wait + 1, wait - passed % wait, False, wait))
                _, record = happen(record, Event.MILLISECOND, 0)
            self.assertEqual(record, (*FAILED, False, wait))

    def test_a_failed_link_must_be_disabled_first(self):
        for wait, other in product(WAITS, WAITS):
            self.assertEqual(happen((*FAILED, False, wait), Event.ENABLE, other), (False, (*FAILED, False, wait)))
            _, record = happen((*FAILED, False, wait), Event.DISABLE, 0)
            self.assertEqual(happen(record, Event.ENABLE, other), (True, (Phase.TRYING, 1, other, False, other)))

    def test_the_kept_wait_stays(self):
        for wait in WAITS:
            tried = enabled(wait)
            verified = happen(tried, Event.R_HEARD, 0)[1]
            failed = after_milliseconds(tried, 3 * wait)
            for record, event in product((tried, verified, failed), (Event.DISABLE, Event.LINK_FAILED)):
                self.assertEqual(happen(record, event, 0)[1], (*OFF, False, wait))

    def test_an_enable_in_trying_leaves_the_attempts_as_long_as_they_were(self):
        for wait, other in product(WAITS, WAITS):
            for passed in {0, wait // 2, wait - 1, wait, 3 * wait - 1}:
                record = after_milliseconds(enabled(wait), passed)
                self.assertEqual(happen(record, Event.ENABLE, other), (False, record))
                record = after_milliseconds(record, 3 * wait - passed - 1)
                self.assertEqual(record, (Phase.TRYING, 3, 1, False, wait))
                self.assertEqual(happen(record, Event.MILLISECOND, 0), (False, (*FAILED, False, wait)))

    def test_every_history_stays_in_range(self):
        chance = Chance(91)
        waits = (1, 2, 3, 4, 10)
        record = (*OFF, False, 10)
        kept, met, in_a_row = 10, set(), 0
        for _ in range(60_000):
            event = Event.MILLISECOND if chance.below(10) else list(Event)[chance.below(7)]
            wait = waits[chance.below(len(waits))]
            if record[0] is Phase.OFF and event is Event.ENABLE:
                kept = wait
            record = happen(record, event, wait)[1]
            met.add(record)
            # No other event changes the wait.
            self.assertEqual(record[4], kept)
            # Trying never outlasts three times the wait.
            if record[0] is not Phase.TRYING:
                in_a_row = 0
            elif event is Event.MILLISECOND:
                in_a_row += 1
            self.assertLess(in_a_row, 3 * kept)
        self.assertEqual(met, set(every_record_in_range(waits)))


if __name__ == "__main__":
    unittest.main()
