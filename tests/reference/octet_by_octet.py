"""The second receiver, which gets its octets one at a time: document 02, request (iv), with the limit of (vi).

It is given one octet, or the end of the mFrame, and up to an end it answers only that it
waits. What it answers at an end it does not find itself: the first receiver (receiving.py)
is asked about the octets since the last end. Where the paper leaves something open,
README.md says how it is read here.
"""

from typing import NamedTuple

import mframe
import receiving
from receiving import Answer

# Octets beyond have no place in the area. What has so many is refused: its head is among the first of them, and if
# nothing is wrong there, it is too long.
MOST_OCTETS = mframe.LONGEST_ACCEPTED

AREA_SHORT = 18
STATE_UNSOUND = 19

# What a call can be given instead of an octet, and what it answers to an octet that it does not refuse.
END = "end"
WAITS = "waits"


class State(NamedTuple):
    """How many octets came since the last end, as far as they are counted, and whether there were more."""

    count: int
    more: bool


EMPTY = State(0, False)


def is_short(area, _state):
    return len(area) < MOST_OCTETS


def is_unsound(_area, state):
    return state.count > MOST_OCTETS or (state.more and state.count < MOST_OCTETS)


# What every call tests, in this order, before it looks at anything else.
REFUSALS = ((AREA_SHORT, is_short), (STATE_UNSOUND, is_unsound))


def refusal(area, state):
    """The answer 18 or 19 where it applies, or None."""
    return next((Answer(number) for number, applies in REFUSALS if applies(area, state)), None)


def after_an_octet(octet, state, area):
    """The state after one more octet. As many of those that came as there are places for stand in the area."""
    came = bytes(area[:state.count]) + bytes([octet])
    kept = came[:MOST_OCTETS]
    area[:len(kept)] = kept
    return State(len(kept), state.more or len(kept) < len(came))


def since_the_last_end(state, area):
    """The octets that the first receiver is asked about.

    Of those that had no place one is put in their stead: the first receiver answers the same, whatever they were
    and however many (test_octet_by_octet.py tries it).
    """
    return bytes(area[:state.count]) + (b"\x00" if state.more else b"")


def call(given, state, area, record, memory):
    """Takes one octet, or END; gives the answer, the state afterwards and the record afterwards.

    The area and the memory of the assembly are written to in place.
    """
    refused = refusal(area, state)
    if refused is not None:
        return refused, state, record
    if given != END:
        return WAITS, after_an_octet(given, state, area), record
    answer, record = receiving.receive(memory, record, since_the_last_end(state, area))
    return answer, EMPTY, record
