"""The questions asked about document 01's "Verification" and document 02's request (v).

Answers are not looked at here. Only the kept record is followed with the reference, so that it is set anew where a
question needs another one. With every event but enable comes a stray wait, good or bad, at which nobody may look.
"""

from itertools import product

import verification
from chance import Chance
from verification import Event, Phase, VerificationRecord, fresh
from verify_format import event_question, record_question

SEED = 8029

NO_AND_YES = (False, True)
OTHER_EVENTS = tuple(event for event in Event if event is not Event.ENABLE)
OUTSIDE_TRYING = tuple(phase for phase in Phase if phase is not Phase.TRYING)

# In range and, on both sides, out of it.
KEPT_WAITS = (0, 1, 2, 9, 10, 11, 127, 128, 129, 255)
ATTEMPTS = (0, 1, 2, 3, 4, 255)

# Of an enable: about both limits and about 10, and such that would be good if only some of their bits were looked at.
ENABLING_WAITS = (0, 1, 2, 9, 10, 11, 127, 128, 129, 255, 256, 257, 266, 384, 2**16 + 10, 2**24 + 10, 2**31,
                  2**31 + 10, 2**32 - 1)
EVERY_BIT_ALONE = tuple(2**bit + low for bit in range(8, 32) for low in (0, 10))
EVERY_ENABLING_WAIT = (*range(132), *EVERY_BIT_ALONE, *ENABLING_WAITS)

STRAY_WAITS = (0, 1, 7, 10, 77, 128, 129, 255, 256, 2**31, 2**32 - 1)


class Script:
    """Questions one after the other, and the kept record as they lead to it."""

    def __init__(self, chance):
        self.questions = []
        self.chance = chance
        self.record = fresh()

    def one_of(self, choices):
        return choices[self.chance.below(len(choices))]

    def set_record(self, record):
        self.record = record
        self.questions.append(record_question(record))

    def want(self, record):
        """Sets the record where it is not the kept one already."""
        if self.record != record:
            self.set_record(record)

    def give(self, event, wait):
        self.questions.append(event_question(event, wait))
        _, self.record = verification.happen(self.record, event, wait)

    def enable(self, wait):
        self.give(Event.ENABLE, wait)

    def happen(self, *events):
        """Events that carry no wait of their own."""
        for event in events:
            self.give(event, self.one_of(STRAY_WAITS))

    def milliseconds(self, times):
        self.happen(*[Event.MILLISECOND] * times)

    def every_event(self, record):
        """Each event from this record; enable with the wait that is kept, with another good one and with a bad one."""
        for event in OTHER_EVENTS:
            self.want(record)
            self.happen(event)
        for wait in (record.wait, 20, self.one_of((0, 129, 266))):
            self.want(record)
            self.enable(wait)

    def every_event_from(self, phase, attempt, left, wait):
        """In range with and without a response owed; out of range, where it matters less, with one of the two."""
        owed = self.one_of(NO_AND_YES)
        record = VerificationRecord(phase, attempt, left, owed, wait)
        self.every_event(record)
        if verification.in_range(record):
            self.every_event(VerificationRecord(phase, attempt, left, not owed, wait))


def about(wait):
    """Milliseconds left on both sides of the kept wait, of 0, and of 10, which the wait was before it could be set."""
    return sorted({0, 1, 2, 9, 10, 11, max(wait - 1, 0), wait, min(wait + 1, 255), 255})


def records_in_trying(script):
    """The range of what can be left goes with the kept wait."""
    for wait, attempt in product(KEPT_WAITS, ATTEMPTS):
        for left in about(wait):
            script.every_event_from(Phase.TRYING, attempt, left, wait)


def records_outside_trying(script):
    """Attempt and milliseconds left must be 0, whatever the wait is, and the wait must be good there too."""
    for phase, wait in product(OUTSIDE_TRYING, KEPT_WAITS):
        for attempt, left in ((0, 0), (0, 1), (1, 0), (0, wait), (1, wait), (3, 1), (2, wait // 2), (0, 255), (255, 0)):
            script.every_event_from(phase, attempt, left, wait)


def records_with_a_wait_of_10(script):
    """Everything about the ranges that document 01 has."""
    for phase, attempt, left in product(Phase, (*range(6), 255), (*range(13), 255)):
        script.every_event_from(phase, attempt, left, 10)


def every_kept_wait(script):
    """Each number that the record can keep: the next attempt's length, and both sides of what can be left."""
    for wait in range(256):
        for attempt in (1, 2, 3):
            script.want(VerificationRecord(Phase.TRYING, attempt, 1, False, wait))
            script.milliseconds(1)
        for left in (wait, min(wait + 1, 255)):
            script.want(VerificationRecord(Phase.TRYING, 2, left, True, wait))
            script.milliseconds(1)
        script.want(VerificationRecord(script.one_of(OUTSIDE_TRYING), 0, 0, True, wait))
        script.milliseconds(1)


def every_wait_of_an_enable(script):
    """In off, where it is kept, and in the other phases, where it is tested all the same."""
    for wait in EVERY_ENABLING_WAIT:
        script.want(VerificationRecord(Phase.OFF, 0, 0, wait % 3 == 0, 60))
        script.enable(wait)
    for phase, attempt, left in ((Phase.TRYING, 2, 30), (Phase.VERIFIED, 0, 0), (Phase.FAILED, 0, 0)):
        for wait in EVERY_ENABLING_WAIT:
            script.want(VerificationRecord(phase, attempt, left, phase is Phase.VERIFIED, 60))
            script.enable(wait)


def enables_in_each_phase(script):
    """41 on both sides, with several kept waits; and 40 before it, from records that are out of range in one place."""
    for kept in (1, 10, 128):
        for phase, attempt, left in ((Phase.OFF, 0, 0), (Phase.TRYING, 1, kept), (Phase.TRYING, 3, 1),
                                     (Phase.VERIFIED, 0, 0), (Phase.FAILED, 0, 0)):
            for wait in ENABLING_WAITS:
                script.want(VerificationRecord(phase, attempt, left, kept == 10, kept))
                script.enable(wait)
    for phase, attempt, left, kept in ((Phase.OFF, 0, 1, 10), (Phase.OFF, 0, 0, 0), (Phase.OFF, 0, 0, 129),
                                       (Phase.TRYING, 1, 11, 10), (Phase.TRYING, 4, 1, 128), (Phase.TRYING, 1, 1, 129),
                                       (Phase.VERIFIED, 0, 0, 129), (Phase.VERIFIED, 1, 0, 1),
                                       (Phase.FAILED, 0, 0, 0), (Phase.FAILED, 0, 5, 10)):
        script.set_record(VerificationRecord(phase, attempt, left, False, kept))
        for wait in ENABLING_WAITS:
            script.enable(wait)


def whole_life(script, wait, other):
    """A try that comes to its end, and all after which the kept wait could be another one."""
    script.set_record(fresh())
    script.enable(wait)
    # Failed, and some milliseconds more.
    script.milliseconds(3 * wait + 2)
    script.enable(other)
    script.happen(Event.R_HEARD)
    script.enable(0)
    script.happen(Event.DISABLE)
    script.enable(129)
    # Other waits in trying, good and bad: this attempt and those after it have the length that they had.
    script.enable(other)
    script.enable(wait)
    script.milliseconds(other // 2)
    script.enable(129)
    script.enable(1)
    script.milliseconds(other - other // 2)
    script.enable(128)
    script.milliseconds(other + 1)
    script.happen(Event.V_HEARD, Event.R_HEARD, Event.MILLISECOND)
    script.enable(wait)
    script.happen(Event.LINK_FAILED, Event.MILLISECOND)
    script.enable(2**32 - 1)
    # The wait that is kept already, and the one before it.
    script.enable(other)
    script.happen(Event.DISABLE)
    script.enable(wait)
    script.milliseconds(wait + 1)
    script.happen(Event.LINK_FAILED, Event.RESPONSE_SENT, Event.DISABLE)


def answered_tries(script, wait):
    """Tries that are answered after each number of milliseconds, or end otherwise."""
    for waited in range(3 * wait + 1):
        script.set_record(fresh())
        script.happen(Event.V_HEARD)
        script.enable(wait)
        script.milliseconds(waited)
        script.happen(Event.R_HEARD, Event.MILLISECOND, Event.RESPONSE_SENT, Event.DISABLE)
        script.enable(wait)
        script.happen((Event.LINK_FAILED, Event.V_HEARD)[waited % 2], Event.MILLISECOND)


def lives(script):
    for wait, other in ((1, 3), (2, 1), (10, 4), (128, 12), (5, 127), (3, 10)):
        whole_life(script, wait, other)
    for wait in (1, 2, 3, 10):
        answered_tries(script, wait)


def random_wait(script):
    """Mostly so short that the attempts come to their end, some of any length that is good, and some bad ones."""
    which = script.chance.below(10)
    if which < 6:
        return script.chance.between(1, 6)
    return script.chance.between(1, 128) if which < 8 else script.one_of(ENABLING_WAITS)


def random_histories(script):
    """From a fresh record; in some milliseconds are common, so that the later attempts are reached."""
    for milliseconds_in_a_hundred in (15, 60, 90, 97):
        for _ in range(4):
            script.set_record(fresh())
            script.enable(script.chance.between(1, 12))
            for _ in range(100):
                if script.chance.below(100) < milliseconds_in_a_hundred:
                    script.milliseconds(1)
                elif script.chance.below(4) == 0:
                    script.enable(random_wait(script))
                else:
                    script.happen(script.one_of(OTHER_EVENTS))


def random_records(script):
    """Trying about its ranges, and any octets at all."""
    for _ in range(200):
        wait = script.chance.below(140)
        script.set_record(VerificationRecord(Phase.TRYING, script.chance.below(5), script.chance.below(wait + 3),
                                             script.one_of(NO_AND_YES), wait))
        script.happen(script.one_of(OTHER_EVENTS))
        script.enable(random_wait(script))
    for _ in range(50):
        phase, owed = script.one_of(tuple(Phase)), script.one_of(NO_AND_YES)
        attempt, left, wait = script.chance.octets(3)
        script.set_record(VerificationRecord(phase, attempt, left, owed, wait))
        script.happen(script.one_of(OTHER_EVENTS))


def all_questions():
    """Every question, in the order in which they are stored. The first are asked of the record that nobody set."""
    script = Script(Chance(SEED))
    script.enable(0)
    script.milliseconds(1)
    script.enable(2)
    script.milliseconds(7)
    for part in (records_in_trying, records_outside_trying, records_with_a_wait_of_10, every_kept_wait,
                 every_wait_of_an_enable, enables_in_each_phase, lives, random_histories, random_records):
        part(script)
    return script.questions
