"""Link verification: document 01, "Verification", with the wait of document 02's request (v).

The rows of document 01's table are one function each, in its order. Each is given the
record and the wait that came with the event, which only enable looks at. Where the papers
leave something open, README.md says how it is read here.
"""

from dataclasses import dataclass, replace
from enum import Enum

ATTEMPTS = 3
LEAST_WAIT, GREATEST_WAIT = 1, 128
FRESH_WAIT = 10

OTHER_VALUES = 40
NO_SUCH_WAIT = 41


class Phase(Enum):
    OFF = 0
    TRYING = 1
    VERIFIED = 2
    FAILED = 3


class Event(Enum):
    """In the order of the table.

    What was heard has the number of the receiver's answer, the others numbers that no answer has.
    """

    ENABLE = 7
    DISABLE = 8
    LINK_FAILED = 9
    R_HEARD = 4
    V_HEARD = 3
    RESPONSE_SENT = 5
    MILLISECOND = 6


@dataclass(frozen=True)
class VerificationRecord:
    """Attempt and milliseconds left are 0 outside trying; `owed` is whether a response is.

    The wait is the one of the last enable by which off became trying, and how many milliseconds an attempt has.
    """

    phase: Phase
    attempt: int
    left: int
    owed: bool
    wait: int


def fresh():
    return VerificationRecord(Phase.OFF, 0, 0, False, FRESH_WAIT)


@dataclass(frozen=True)
class Went:
    """The event was taken: whether it ordered a V."""

    ordered: bool


@dataclass(frozen=True)
class Refused:
    """Nothing happened, for the reason with this number."""

    number: int


def is_wait(milliseconds):
    return LEAST_WAIT <= milliseconds <= GREATEST_WAIT


def in_range(record):
    if not is_wait(record.wait):
        return False
    if record.phase is Phase.TRYING:
        return 1 <= record.attempt <= ATTEMPTS and 1 <= record.left <= record.wait
    return record.attempt == 0 and record.left == 0


def has_other_values(record, _event, _wait):
    return not in_range(record)


def enables_with_no_such_wait(_record, event, wait):
    """In every phase, also where the enable would do nothing."""
    return event is Event.ENABLE and not is_wait(wait)


# What every event tests, in this order, before anything happens.
REFUSALS = ((OTHER_VALUES, has_other_values), (NO_SUCH_WAIT, enables_with_no_such_wait))


def outside_trying(record, phase):
    """The record in another phase; there is no attempt then, and nothing left of it. The kept wait stays."""
    return replace(record, phase=phase, attempt=0, left=0)


def trying(record, attempt):
    """The record at the beginning of an attempt, all of the kept wait left."""
    return replace(record, phase=Phase.TRYING, attempt=attempt, left=record.wait)


def enable(record, wait):
    if record.phase is Phase.OFF:
        return True, trying(replace(record, wait=wait), 1)
    return False, record


def disable(record, _wait):
    return False, outside_trying(record, Phase.OFF)


def link_failed(record, _wait):
    return False, replace(outside_trying(record, Phase.OFF), owed=False)


def r_heard(record, _wait):
    if record.phase is Phase.TRYING:
        return False, outside_trying(record, Phase.VERIFIED)
    return False, record


def v_heard(record, _wait):
    return False, replace(record, owed=True)


def response_sent(record, _wait):
    return False, replace(record, owed=False)


def millisecond(record, _wait):
    if record.phase is not Phase.TRYING:
        return False, record
    if record.left > 1:
        return False, replace(record, left=record.left - 1)
    # None would be left: the attempt is over.
    if record.attempt < ATTEMPTS:
        return True, trying(record, record.attempt + 1)
    return False, outside_trying(record, Phase.FAILED)


ROWS = {
    Event.ENABLE: enable,
    Event.DISABLE: disable,
    Event.LINK_FAILED: link_failed,
    Event.R_HEARD: r_heard,
    Event.V_HEARD: v_heard,
    Event.RESPONSE_SENT: response_sent,
    Event.MILLISECOND: millisecond,
}


def happen(record, event, wait):
    """Takes one event with the wait that it carries; gives the answer and the record afterwards.

    With an enable the wait is any number of 32 bits. With every other event it has no meaning.
    """
    for number, applies in REFUSALS:
        if applies(record, event, wait):
            return Refused(number), record
    ordered, after = ROWS[event](record, wait)
    return Went(ordered), after
