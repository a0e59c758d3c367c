"""Receivers of single octets that are wrong in one rule of document 02's request (iv), with the limit of (vi), each.

Each is a patch of octet_by_octet.py. The stored questions must tell every one of them from the right one.
"""

from dataclasses import replace
from unittest import mock

import octet_by_octet
import receiving
from octet_by_octet import AREA_SHORT, EMPTY, END, MOST_OCTETS, REFUSALS, STATE_UNSOUND, State
from receiving import (BUFFER_SHORT, DELIMITER_UNKNOWN, FRAGMENT_CODE_UNKNOWN, MFRAME_LONG, MFRAME_SHORT, PREAMBLE_LONG,
                       RECORD_OUT_OF_RANGE, Answer)

RIGHT_CALL = octet_by_octet.call
AFTER_AN_OCTET = octet_by_octet.after_an_octet
SINCE_THE_LAST_END = octet_by_octet.since_the_last_end


def replaced(name, wrong):
    return lambda: mock.patch.object(octet_by_octet, name, wrong)


def testing(number, test):
    """Another test in the place of the one with this number."""
    return replaced("REFUSALS", tuple((other, test if other == number else right) for other, right in REFUSALS))


def in_place_of_18(test):
    return testing(AREA_SHORT, test)


def in_place_of_19(test):
    return testing(STATE_UNSOUND, lambda _area, state: test(*state))


# Wrong in what they refuse.
LIMITS = {
    "an area of 1,530 octets is enough": in_place_of_18(lambda area, _: len(area) < MOST_OCTETS - 1),
    "an area of 1,531 octets is too short": in_place_of_18(lambda area, _: len(area) <= MOST_OCTETS),
    "an area must have 1,531 octets exactly": in_place_of_18(lambda area, _: len(area) != MOST_OCTETS),
    "an area needs a place for the next octet alone": in_place_of_18(lambda area, state: len(area) <= state.count),
    "an area is too short only where there is none": in_place_of_18(lambda area, _: len(area) == 0),
    "no area is too short": in_place_of_18(lambda *_: False),
    "a count of 1,532 is sound": in_place_of_19(
        lambda count, more: count > MOST_OCTETS + 1 or (more and count < MOST_OCTETS)),
    "a count of 1,531 is unsound": in_place_of_19(
        lambda count, more: count >= MOST_OCTETS or (more and count < MOST_OCTETS)),
    "a count of 1,531 is sound with more alone": in_place_of_19(
        lambda count, more: count > MOST_OCTETS or more != (count == MOST_OCTETS)),
    "any count is sound": in_place_of_19(lambda count, more: more and count < MOST_OCTETS),
    "any count is sound with more": in_place_of_19(
        lambda count, more: count < MOST_OCTETS if more else count > MOST_OCTETS),
    "any count is sound without more": in_place_of_19(lambda count, more: more and count != MOST_OCTETS),
    "sixteen bits of the count are looked at": in_place_of_19(
        lambda count, more: count % 2**16 > MOST_OCTETS or (more and count % 2**16 < MOST_OCTETS)),
    "a count from 2^31 on is below 0": in_place_of_19(
        lambda count, more: MOST_OCTETS < count < 2**31 or (more and count < MOST_OCTETS)),
    "more is sound at any count": in_place_of_19(lambda count, _: count > MOST_OCTETS),
    "more is sound at 1,530": in_place_of_19(
        lambda count, more: count > MOST_OCTETS or (more and count < MOST_OCTETS - 1)),
    "more is sound where nothing is counted": in_place_of_19(
        lambda count, more: count > MOST_OCTETS or (more and 0 < count < MOST_OCTETS)),
    "more is unsound at any count": in_place_of_19(lambda count, more: more or count > MOST_OCTETS),
    "19 before 18": replaced("REFUSALS", REFUSALS[::-1]),
    # Area, count and more alike, as before preambles were shortened.
    "1,530 octets are the most": replaced("MOST_OCTETS", MOST_OCTETS - 1),
    "1,532 octets are the most": replaced("MOST_OCTETS", MOST_OCTETS + 1),
}


def only_at(tested, number):
    """The test of this number, made at an end alone or of an octet alone."""
    def call(given, state, area, record, memory):
        tests = [test for test in REFUSALS if test[0] != number or (given == END) == (tested == END)]
        with mock.patch.object(octet_by_octet, "REFUSALS", tests):
            return RIGHT_CALL(given, state, area, record, memory)
    return replaced("call", call)


def first_receivers_refusal(record, memory):
    """10 or 11 where it applies."""
    if len(memory) < receiving.LEAST_ROOM:
        return Answer(BUFFER_SHORT)
    return None if receiving.in_range(record.assembly) else Answer(RECORD_OUT_OF_RANGE)


def others_first(given, state, area, record, memory):
    """At an end 10 and 11 are tested before 18 and 19."""
    refused = first_receivers_refusal(record, memory) if given == END else None
    if refused is None or octet_by_octet.refusal(area, state) is None:
        return RIGHT_CALL(given, state, area, record, memory)
    return refused, state, record


def refused_while_waiting(number):
    """10 or 11 is answered to an octet, which is not taken."""
    def call(given, state, area, record, memory):
        refused = first_receivers_refusal(record, memory)
        if given != END and refused == Answer(number) and octet_by_octet.refusal(area, state) is None:
            return refused, state, record
        return RIGHT_CALL(given, state, area, record, memory)
    return replaced("call", call)


def long_at_once(given, state, area, record, memory):
    """13 to the first octet that has no place, as no later one can make the mFrame good."""
    answer, after, record = RIGHT_CALL(given, state, area, record, memory)
    return (Answer(MFRAME_LONG) if given != END and after.more and not state.more else answer), after, record


def answered_at_once(given, state, area, record, memory):
    """The first receiver is asked at every octet, about those that came so far."""
    answer, after, record = RIGHT_CALL(given, state, area, record, memory)
    if given != END and octet_by_octet.refusal(area, state) is None:
        answer, _ = receiving.receive(bytearray(memory), record, SINCE_THE_LAST_END(after, area))
    return answer, after, record


# Wrong in when they refuse or answer.
MOMENTS = {
    "18 at an end alone": only_at(END, AREA_SHORT),
    "18 to an octet alone": only_at("octet", AREA_SHORT),
    "19 at an end alone": only_at(END, STATE_UNSOUND),
    "19 to an octet alone": only_at("octet", STATE_UNSOUND),
    "10 and 11 before 18 and 19": replaced("call", others_first),
    "the buffer is tested while it waits": refused_while_waiting(BUFFER_SHORT),
    "the record is tested while it waits": refused_while_waiting(RECORD_OUT_OF_RANGE),
    "13 as soon as there are more": replaced("call", long_at_once),
    "an answer to every octet": replaced("call", answered_at_once),
}


def refusing_with(numbers, change):
    """18 or 19 is answered as it must be, but something changes: given what was given, the state and the area."""
    def call(given, state, area, record, memory):
        answer, after, record = RIGHT_CALL(given, state, area, record, memory)
        if isinstance(answer, Answer) and answer.number in numbers:
            after = change(given, state, area)
        return answer, after, record
    return replaced("call", call)


def counted_all_the_same(given, state, _area):
    return state if given == END else State((state.count + 1) % 2**32, state.more)


def written_all_the_same(given, state, area):
    if given != END and area:
        area[min(state.count, len(area) - 1)] = given
    return state


def emptied_at_an_end(given, state, _area):
    return EMPTY if given == END else state


def assembly_abandoned(given, state, area, record, memory):
    answer, after, record = RIGHT_CALL(given, state, area, record, memory)
    if octet_by_octet.refusal(area, state) is not None:
        record = replace(record, assembly=receiving.NOT_ASSEMBLING)
    return answer, after, record


# Wrong in what 18 and 19 change.
REFUSING = {
    "18 empties the state": refusing_with({AREA_SHORT}, lambda *_: EMPTY),
    "19 empties the state": refusing_with({STATE_UNSOUND}, lambda *_: EMPTY),
    "an end answered 18 empties the state": refusing_with({AREA_SHORT}, emptied_at_an_end),
    "an end answered 19 empties the state": refusing_with({STATE_UNSOUND}, emptied_at_an_end),
    "19 makes the state sound": refusing_with(
        {STATE_UNSOUND}, lambda _given, state, _area: State(min(state.count, MOST_OCTETS), False)),
    "an octet answered 18 is counted": refusing_with({AREA_SHORT}, counted_all_the_same),
    "an octet answered 19 is counted": refusing_with({STATE_UNSOUND}, counted_all_the_same),
    "an octet answered 18 is written": refusing_with({AREA_SHORT}, written_all_the_same),
    "an octet answered 19 is written": refusing_with({STATE_UNSOUND}, written_all_the_same),
    "18 and 19 abandon an assembly": replaced("call", assembly_abandoned),
}


def waiting_with(change):
    """An octet is taken as it must be, and something changes: given the octet, the state before and after, the area."""
    def after_an_octet(octet, state, area):
        return change(octet, state, AFTER_AN_OCTET(octet, state, area), area)
    return replaced("after_an_octet", after_an_octet)


def written_at(move):
    """The octet goes to another place than the one that the count says, where the area has such a place."""
    def after_an_octet(octet, state, area):
        place = move(state.count)
        if state.count < MOST_OCTETS and 0 <= place < len(area):
            area[place] = octet
        return AFTER_AN_OCTET(octet, state, bytearray(area))
    return replaced("after_an_octet", after_an_octet)


def also_written_at(place):
    """An octet for which there is no place is written to this one all the same, where the area has it."""
    def change(octet, state, after, area):
        if state.count == MOST_OCTETS and place < len(area):
            area[place] = octet
        return after
    return waiting_with(change)


def places_behind_cleared(_octet, _state, after, area):
    area[after.count:] = bytes(len(area) - after.count)
    return after


# Wrong in what they do with an octet.
OCTETS = {
    "octets beyond 1,531 are counted": waiting_with(
        lambda _octet, state, after, _area: State(state.count + 1, after.more)),
    "that there were more is forgotten": waiting_with(lambda _octet, _state, after, _area: State(after.count, False)),
    "the next octet clears that there were more": waiting_with(
        lambda _octet, state, after, _area: State(after.count, after.more and not state.more)),
    "the 1,531th octet counts as more": waiting_with(
        lambda _octet, _state, after, _area: State(after.count, after.count == MOST_OCTETS)),
    "the 1,531th octet has no place": waiting_with(
        lambda _octet, state, after, _area: State(state.count, True) if after.count == MOST_OCTETS else after),
    "the count begins anew beyond 1,531": waiting_with(
        lambda _octet, state, after, _area: State(0, False) if state.count == MOST_OCTETS else after),
    "an octet is written one place late": written_at(lambda count: count + 1),
    "an octet is written one place early": written_at(lambda count: count - 1),
    "an octet is not written": written_at(lambda count: -1),
    "octets are written from the last place on": written_at(lambda count: MOST_OCTETS - 1 - count),
    "the last place is not written": written_at(lambda count: count if count < MOST_OCTETS - 1 else -1),
    "an octet beyond is written over the last": also_written_at(MOST_OCTETS - 1),
    "an octet beyond is written over the first": also_written_at(0),
    "an octet beyond is written behind the last": also_written_at(MOST_OCTETS),
    "the places behind an octet are cleared": waiting_with(places_behind_cleared),
}


def asking_about(wrong):
    """Other octets than those since the last end: given the count, whether there were more, and the area."""
    return replaced("since_the_last_end", lambda state, area: wrong(state.count, state.more, bytes(area)))


def ending_with(change):
    """An end is answered as it must be, but something changes: given the number, the state before it, the area."""
    def call(given, state, area, record, memory):
        answer, after, record = RIGHT_CALL(given, state, area, record, memory)
        if given == END and octet_by_octet.refusal(area, state) is None:
            after = change(answer.number, state, area)
        return answer, after, record
    return replaced("call", call)


def state_kept_after(*numbers):
    return ending_with(lambda number, state, _area: state if number in numbers else EMPTY)


def area_cleared(places):
    """The area, or as much of it as `places` says of the count, is cleared at an end."""
    def change(_number, state, area):
        cleared = places(state.count, len(area))
        area[:cleared] = bytes(cleared)
        return EMPTY
    return ending_with(change)


def answered_before(number, applies):
    """At an end this number comes before 10 and 11 where it applies to the state."""
    def call(given, state, area, record, memory):
        if given == END and octet_by_octet.refusal(area, state) is None and applies(state):
            return Answer(number), EMPTY, record
        return RIGHT_CALL(given, state, area, record, memory)
    return replaced("call", call)


def long_before(*numbers):
    """Where there were more, 13 comes before these numbers."""
    def call(given, state, area, record, memory):
        answer, after, after_it = RIGHT_CALL(given, state, area, record, memory)
        if given == END and state.more and answer.number in numbers:
            return Answer(MFRAME_LONG), after, record
        return answer, after, after_it
    return replaced("call", call)


def bits_forgotten(given, state, area, record, memory):
    """Where there were more, an unknown delimiter is answered without its bits."""
    answer, after, record = RIGHT_CALL(given, state, area, record, memory)
    is_unknown = given == END and state.more and answer.number == DELIMITER_UNKNOWN
    return (Answer(DELIMITER_UNKNOWN) if is_unknown else answer), after, record


def not_counted_with_more(given, state, area, record, memory):
    """Where there were more, nothing counts as a delimiter error."""
    answer, after, after_it = RIGHT_CALL(given, state, area, record, memory)
    return answer, after, (record if given == END and state.more else after_it)


def record_handed_back(given, state, area, record, memory):
    answer, after, _ = RIGHT_CALL(given, state, area, record, memory)
    return answer, after, record


def memory_kept(given, state, area, record, memory):
    return RIGHT_CALL(given, state, area, record, bytearray(memory))


# Wrong in what they do at an end.
ENDS = {
    "the state is kept after an end": ending_with(lambda _number, state, _area: state),
    "the count is kept after an end": ending_with(lambda _number, state, _area: State(state.count, False)),
    "more is kept after an end": ending_with(lambda _number, state, _area: State(0, state.more)),
    **{f"the state is kept after {number}": state_kept_after(number)
       for number in (*range(5), *range(10, 16), 17, *range(20, 26))},
    "the state is kept after 10 and 11": state_kept_after(BUFFER_SHORT, RECORD_OUT_OF_RANGE),
    "13 on exactly 1,531 octets": asking_about(
        lambda count, _more, area: area[:count] + bytes(count == MOST_OCTETS)),
    "more is not looked at": asking_about(lambda count, _more, area: area[:count]),
    "more alone is looked at": asking_about(lambda count, more, area: bytes(MOST_OCTETS + 1) if more else area),
    "all of the area is the mFrame": asking_about(lambda _count, _more, area: area[:MOST_OCTETS]),
    "the last octet is left out": asking_about(lambda count, more, area: area[:max(0, count - 1)] + bytes(more)),
    "the octet behind the last is taken as well": asking_about(
        lambda count, more, area: area[:min(count + 1, MOST_OCTETS)] + bytes(more)),
    "12 before 10 and 11 where nothing came": answered_before(MFRAME_SHORT, lambda state: state.count == 0),
    "13 before 10 and 11": answered_before(MFRAME_LONG, lambda state: state.more),
    "13 before 10 where there were more": long_before(BUFFER_SHORT),
    "13 before 11 where there were more": long_before(RECORD_OUT_OF_RANGE),
    "13 before 14 where there were more": long_before(PREAMBLE_LONG),
    "13 before 15 where there were more": long_before(DELIMITER_UNKNOWN),
    "13 before 17 where there were more": long_before(FRAGMENT_CODE_UNKNOWN),
    "13 whatever the head, where there were more": long_before(
        PREAMBLE_LONG, DELIMITER_UNKNOWN, FRAGMENT_CODE_UNKNOWN),
    "15 without its bits where there were more": replaced("call", bits_forgotten),
    "15 and 17 do not count where there were more": replaced("call", not_counted_with_more),
    "the head alone is asked about where there were more": asking_about(
        lambda count, more, area: area[:9] if more else area[:count]),
    "what is beyond stands before the rest": asking_about(lambda count, more, area: bytes(more) + area[:count]),
    "what is beyond is an octet 55 before the rest": asking_about(
        lambda count, more, area: b"\x55" * more + area[:count]),
    "1,530 octets are asked about at most, and one for more": asking_about(
        lambda count, more, area: area[:min(count, 1530)] + bytes(more)),
    "all of the area is cleared at an end": area_cleared(lambda _count, room: room),
    "the octets that came are cleared at an end": area_cleared(lambda count, _room: count),
    "the first octet is cleared at an end": area_cleared(lambda _count, _room: 1),
    "the record stays as it was": replaced("call", record_handed_back),
    "the buffer stays as it was": replaced("call", memory_kept),
}
