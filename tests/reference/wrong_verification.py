"""Verifications that are wrong in one rule of document 01's "Verification" or of document 02's request (v) each.

Each is a patch of verification.py. The stored questions must tell every one of them from the right one.
"""

from dataclasses import replace
from unittest import mock

import verification
from verification import NO_SUCH_WAIT, OTHER_VALUES, REFUSALS, Event, Phase, Refused, Went, fresh, is_wait

RIGHT_HAPPEN = verification.happen
RIGHT_ROWS = dict(verification.ROWS)
RIGHT_TRYING = verification.trying
OTHER_EVENTS = tuple(event for event in Event if event is not Event.ENABLE)


def replaced(name, wrong):
    return lambda: mock.patch.object(verification, name, wrong)


def named(thing):
    """An event or a phase as the papers call it."""
    return {Event.R_HEARD: "R heard", Event.V_HEARD: "V heard"}.get(thing, thing.name.replace("_", " ").lower())


def wait_is_good(record):
    return is_wait(record.wait)


def attempt_is_good(record):
    return 1 <= record.attempt <= 3


def left_is_good(record):
    return 1 <= record.left <= record.wait


def nothing_left(record):
    return record.attempt == 0 and record.left == 0


def ranging(kept=wait_is_good, attempt=attempt_is_good, left=left_is_good, outside=nothing_left):
    """Another range in one place: of the kept wait, the attempt, the milliseconds left, or of both outside trying."""
    def in_range(record):
        inside = attempt(record) and left(record) if record.phase is Phase.TRYING else outside(record)
        return kept(record) and inside
    return replaced("in_range", in_range)


def keeping_from(least, greatest):
    return ranging(kept=lambda record: least <= record.wait <= greatest)


def keeping_any_where(is_untested):
    """The kept wait is not tested in the records of which this is true."""
    return ranging(kept=lambda record: is_wait(record.wait) or is_untested(record))


def leaving_up_to(most):
    return ranging(left=lambda record: 1 <= record.left <= most(record.wait))


# Nothing is wrong in these: they show that those that are put together in the same way are right in all else.
RIGHT = {
    "the ranges": ranging(),
    "the kept wait": keeping_from(1, 128),
    "what is left": leaving_up_to(lambda wait: wait),
}

# Wrong in which records they refuse with 40.
RANGES = {
    "a kept wait of 0 is good": keeping_from(0, 128),
    "a kept wait of 129 is good": keeping_from(1, 129),
    "a kept wait of 1 is refused": keeping_from(2, 128),
    "a kept wait of 128 is refused": keeping_from(1, 127),
    "a kept wait over 10 is refused": keeping_from(1, 10),
    "a kept wait under 10 is refused": keeping_from(10, 128),
    "any kept wait is good": keeping_from(0, 255),
    "any kept wait but 0 is good": keeping_from(1, 255),
    "a kept wait is tested in trying alone": keeping_any_where(lambda record: record.phase is not Phase.TRYING),
    **{f"a kept wait is not tested in {named(phase)}": keeping_any_where(
        lambda record, phase=phase: record.phase is phase) for phase in Phase},
    "outside trying a kept wait must be 10": ranging(outside=lambda record: nothing_left(record) and record.wait == 10),
    "outside trying a kept wait may be 0": keeping_any_where(
        lambda record: record.phase is not Phase.TRYING and record.wait == 0),
    "what is left is not compared with the wait": leaving_up_to(lambda wait: 255),
    "what is left is compared with 10": leaving_up_to(lambda wait: 10),
    "what is left is compared with 128": leaving_up_to(lambda wait: 128),
    "what is left is compared with 10 or the wait, if that is more": leaving_up_to(lambda wait: max(wait, 10)),
    "what is left is compared with 10 or the wait, if that is less": leaving_up_to(lambda wait: min(wait, 10)),
    "as much as the wait can't be left": leaving_up_to(lambda wait: wait - 1),
    "one more than the wait can be left": leaving_up_to(lambda wait: wait + 1),
    "three times the wait can be left": leaving_up_to(lambda wait: 3 * wait),
    "0 can be left": ranging(left=lambda record: record.left <= record.wait),
    "less than the whole wait can be left in a first attempt alone": ranging(
        left=lambda record: left_is_good(record) and (record.attempt == 1 or record.left == record.wait)),
    "attempt 0 is good": ranging(attempt=lambda record: record.attempt <= 3),
    "attempt 4 is good": ranging(attempt=lambda record: 1 <= record.attempt <= 4),
    "attempt 3 is refused": ranging(attempt=lambda record: 1 <= record.attempt <= 2),
    "any attempt is good": ranging(attempt=lambda record: True),
    "outside trying any attempt is good": ranging(outside=lambda record: record.left == 0),
    "outside trying anything can be left": ranging(outside=lambda record: record.attempt == 0),
    "outside trying the wait can be left": ranging(outside=lambda record: record.attempt == 0 and (
        record.left in (0, record.wait))),
    "outside trying nothing is tested": ranging(outside=lambda record: True),
    **{f"attempt and milliseconds left are not tested in {named(phase)}": ranging(
        outside=lambda record, phase=phase: nothing_left(record) or record.phase is phase)
       for phase in Phase if phase is not Phase.TRYING},
}


def testing(number, test):
    """Another test in the place of the one with this number."""
    return replaced("REFUSALS", tuple((other, test if other == number else right) for other, right in REFUSALS))


def in_place_of_40(test):
    return testing(OTHER_VALUES, test)


def in_place_of_41(test):
    return testing(NO_SUCH_WAIT, test)


def ranging_at(events, wrong_range):
    """The wrong range at these events, the right one at every other."""
    def happen(record, event, wait):
        if event not in events:
            return RIGHT_HAPPEN(record, event, wait)
        with wrong_range():
            return RIGHT_HAPPEN(record, event, wait)
    return replaced("happen", happen)


def not_at(event, wrong_range):
    return ranging_at((event,), wrong_range)


def only_at(event, wrong_range):
    return ranging_at([other for other in Event if other is not event], wrong_range)


ANY_KEPT_WAIT = ranging(kept=lambda record: True)
ANY_LEFT = RANGES["what is left is not compared with the wait"]
ANY_RECORD = replaced("in_range", lambda record: True)


def told_as_41(is_told):
    """41 instead of 40 for these records, at every event."""
    def happen(record, event, wait):
        answer, after = RIGHT_HAPPEN(record, event, wait)
        return (Refused(NO_SUCH_WAIT) if answer == Refused(OTHER_VALUES) and is_told(record) else answer), after
    return replaced("happen", happen)


def bad_enable_except(is_spared):
    """41, but not in the records of which this is true: there a bad wait is as good as any."""
    return in_place_of_41(
        lambda record, event, wait: event is Event.ENABLE and not is_wait(wait) and not is_spared(record))


def bad_at(*events):
    """41 at these events too, though the wait that comes with them has no meaning."""
    return in_place_of_41(lambda _record, event, wait: event in (Event.ENABLE, *events) and not is_wait(wait))


def is_not_mended(record, event, wait):
    """40, but not where an enable would bring a good wait in the place of the bad one."""
    if event is Event.ENABLE and record.phase is Phase.OFF and is_wait(wait):
        return not nothing_left(record)
    return not verification.in_range(record)


def would_go_wrong(record, event, wait):
    """40, but not where nothing would happen anyhow."""
    return not verification.in_range(record) and RIGHT_ROWS[event](record, wait) != (False, record)


def earlier_where_both_are_bad(record, event, wait):
    """41 before 40 where it is the kept wait that is out of range as well."""
    if event is Event.ENABLE and not is_wait(wait) and not is_wait(record.wait):
        return Refused(NO_SUCH_WAIT), record
    return RIGHT_HAPPEN(record, event, wait)


# Wrong in when they refuse.
MOMENTS = {
    "41 before 40": replaced("REFUSALS", REFUSALS[::-1]),
    "41 before 40 where both waits are bad": replaced("happen", earlier_where_both_are_bad),
    "41 in off alone": bad_enable_except(lambda record: record.phase is not Phase.OFF),
    **{f"41 is not tested in {named(phase)}": bad_enable_except(lambda record, phase=phase: record.phase is phase)
       for phase in Phase},
    "41 is told as 40": replaced("REFUSALS", tuple((OTHER_VALUES, test) for _, test in REFUSALS)),
    "40 is told as 41": told_as_41(lambda record: True),
    "a bad kept wait is told as 41": told_as_41(lambda record: not is_wait(record.wait)),
    "more left than the wait is told as 41": told_as_41(lambda record: record.left > record.wait),
    "41 at every event": bad_at(*OTHER_EVENTS),
    **{f"41 at {named(event)}": bad_at(event) for event in OTHER_EVENTS},
    **{f"the kept wait is not tested at {named(event)}": not_at(event, ANY_KEPT_WAIT) for event in Event},
    **{f"what is left is not compared with the wait at {named(event)}": not_at(event, ANY_LEFT)
       for event in Event},
    **{f"the record is not tested at {named(event)}": not_at(event, ANY_RECORD) for event in Event},
    "the kept wait is tested at enable alone": only_at(Event.ENABLE, ANY_KEPT_WAIT),
    "the kept wait is tested at a millisecond alone": only_at(Event.MILLISECOND, ANY_KEPT_WAIT),
    "what is left is compared with the wait at a millisecond alone": only_at(Event.MILLISECOND, ANY_LEFT),
    "a good enable in off mends a bad kept wait": in_place_of_40(is_not_mended),
    "40 is told only where the event would change something": in_place_of_40(would_go_wrong),
}


def enabling_from(least, greatest):
    return in_place_of_41(lambda _record, event, wait: event is Event.ENABLE and not least <= wait <= greatest)


def enabling_with(change):
    """Another wait than the one that came: given it and the record."""
    return replaced("happen", lambda record, event, wait: RIGHT_HAPPEN(
        record, event, change(wait, record) if event is Event.ENABLE else wait))


def in_bits(bits):
    return enabling_with(lambda wait, _record: wait % 2**bits)


# Wrong in which waits of an enable they take.
ENABLING = {
    "a wait of 0 is taken": enabling_from(0, 128),
    "a wait of 129 is taken": enabling_from(1, 129),
    "a wait of 255 is taken": enabling_from(1, 255),
    "a wait of 1 is refused": enabling_from(2, 128),
    "a wait of 128 is refused": enabling_from(1, 127),
    "a wait over 10 is refused": enabling_from(1, 10),
    "a wait under 10 is refused": enabling_from(10, 128),
    "any wait but 0 is taken": enabling_from(1, 2**32 - 1),
    "any wait is taken": enabling_from(0, 2**32 - 1),
    "a wait from 2^31 on is below 0": in_place_of_41(
        lambda _record, event, wait: event is Event.ENABLE and (wait == 0 or 128 < wait < 2**31)),
    **{f"a wait has {bits} bits": in_bits(bits) for bits in (7, 8, 9, 16, 24, 31)},
    "a wait is the sum of its octets": enabling_with(lambda wait, _record: sum(wait.to_bytes(4, "little"))),
    "a wait has its high octet first": enabling_with(
        lambda wait, _record: int.from_bytes(wait.to_bytes(4, "little"), "big")),
    "a bad wait is brought into range": enabling_with(lambda wait, _record: min(max(wait, 1), 128)),
    "a bad wait is taken for 10": enabling_with(lambda wait, _record: wait if is_wait(wait) else 10),
    "a bad wait is taken for the kept one": enabling_with(lambda wait, record: wait if is_wait(wait) else record.wait),
    "a wait of 0 is taken for 10": enabling_with(lambda wait, _record: wait or 10),
    "a wait of 0 is taken for the kept one": enabling_with(lambda wait, record: wait or record.wait),
    "the kept wait is tested in the place of enable's": in_place_of_41(
        lambda record, event, _wait: event is Event.ENABLE and not is_wait(record.wait)),
    "a wait must be the kept one in trying": in_place_of_41(lambda record, event, wait: event is Event.ENABLE and (
        not is_wait(wait) or (record.phase is Phase.TRYING and wait != record.wait))),
    "a wait must not be under what is left": in_place_of_41(lambda record, event, wait: event is Event.ENABLE and (
        not is_wait(wait) or wait < record.left)),
}


def refusing_with(number, change):
    """The refusal is told as it must be, but the record changes: given it and the wait that came."""
    def happen(record, event, wait):
        answer, after = RIGHT_HAPPEN(record, event, wait)
        return answer, (change(record, wait) if answer == Refused(number) else after)
    return replaced("happen", happen)


def taken_instead(number, ordered):
    """No refusal: the event is taken, and nothing happens but perhaps an order."""
    def happen(record, event, wait):
        answer, after = RIGHT_HAPPEN(record, event, wait)
        return (Went(ordered) if answer == Refused(number) else answer), after
    return replaced("happen", happen)


def same_changes(number):
    """Changes that neither refusal may make."""
    return {
        f"{number} gives a fresh record": refusing_with(number, lambda _record, _wait: fresh()),
        f"{number} makes the kept wait 10": refusing_with(number, lambda record, _wait: replace(record, wait=10)),
        f"{number} keeps the wait that came": refusing_with(
            number, lambda record, wait: replace(record, wait=wait % 256)),
        f"{number} switches off": refusing_with(
            number, lambda record, _wait: verification.outside_trying(record, Phase.OFF)),
        f"{number} clears the response owed": refusing_with(number, lambda record, _wait: replace(record, owed=False)),
        f"{number} is no refusal": taken_instead(number, False),
        f"{number} is no refusal but an order": taken_instead(number, True),
    }


# Wrong in what a refusal changes.
REFUSING = {
    **same_changes(OTHER_VALUES),
    **same_changes(NO_SUCH_WAIT),
    "40 brings the kept wait into range": refusing_with(
        OTHER_VALUES, lambda record, _wait: replace(record, wait=min(max(record.wait, 1), 128))),
    "40 brings what is left down to the wait": refusing_with(
        OTHER_VALUES, lambda record, _wait: replace(record, left=min(record.left, record.wait))),
    "41 starts the attempt anew": refusing_with(
        NO_SUCH_WAIT, lambda record, _wait: (
            replace(record, left=record.wait) if record.phase is Phase.TRYING else record)),
    "41 tries with the kept wait": refusing_with(
        NO_SUCH_WAIT, lambda record, _wait: RIGHT_TRYING(record, 1) if record.phase is Phase.OFF else record),
}


def row(event, wrong):
    """Another row: given the record and the wait that came, whether a V is ordered and the record afterwards."""
    return lambda: mock.patch.dict(verification.ROWS, {event: wrong})


def after(event, change):
    """The right row, and then a change of the record: given it before and after, and the wait that came."""
    def wrong(record, wait):
        ordered, afterwards = RIGHT_ROWS[event](record, wait)
        return ordered, change(record, afterwards, wait)
    return row(event, wrong)


def first_attempt(change):
    """Off becomes trying with something changed: given the record before it and the wait that came."""
    return after(Event.ENABLE, lambda record, afterwards, wait: (
        change(record, afterwards, wait) if record.phase is Phase.OFF else afterwards))


def enabled_in(phase, change):
    """An enable does something in this phase: given the record and the wait that came."""
    return row(Event.ENABLE, lambda record, wait: (
        change(record, wait) if record.phase is phase else RIGHT_ROWS[Event.ENABLE](record, wait)))


def next_attempt(left):
    """An attempt after the first starts with other milliseconds left: given the record before it and its number."""
    def trying(record, attempt):
        afterwards = RIGHT_TRYING(record, attempt)
        return afterwards if attempt == 1 else replace(afterwards, left=left(record, attempt))
    return replaced("trying", trying)


def wait_becomes(wait, event, when=lambda record, afterwards: True):
    """The kept wait is another one after the event, where that is so."""
    return after(event, lambda record, afterwards, _wait: (
        replace(afterwards, wait=wait) if when(record, afterwards) else afterwards))


def carries_a_wait(event):
    """The wait that comes with this event is kept where it is good, as if it had a meaning."""
    return after(event, lambda _record, afterwards, wait: (
        replace(afterwards, wait=wait, left=min(afterwards.left, wait)) if is_wait(wait) else afterwards))


def of_the_millisecond(record, wait):
    """The next attempt starts with the wait that came with the millisecond, where it is good."""
    ordered, afterwards = RIGHT_ROWS[Event.MILLISECOND](record, wait)
    return ordered, (replace(afterwards, wait=wait, left=wait) if ordered and is_wait(wait) else afterwards)


# Wrong in which wait they keep, or for how long.
KEEPING = {
    "the wait is always 10": first_attempt(lambda record, afterwards, _wait: replace(afterwards, wait=10, left=10)),
    "the wait is always the kept one": first_attempt(lambda record, _afterwards, _wait: RIGHT_TRYING(record, 1)),
    "the wait is not kept": first_attempt(lambda record, afterwards, _wait: replace(afterwards, wait=record.wait)),
    "the wait is kept one event late": first_attempt(
        lambda record, afterwards, _wait: replace(afterwards, left=record.wait)),
    "the first attempt has 10 left": first_attempt(lambda _record, afterwards, _wait: replace(afterwards, left=10)),
    "the first attempt has at most 10 left": first_attempt(
        lambda _record, afterwards, wait: replace(afterwards, left=min(wait, 10))),
    "the first attempt has one less than the wait left": first_attempt(
        lambda _record, afterwards, wait: replace(afterwards, left=max(wait - 1, 1))),
    "the greater wait is kept": first_attempt(
        lambda record, afterwards, wait: RIGHT_TRYING(replace(afterwards, wait=max(wait, record.wait)), 1)),
    "the lesser wait is kept": first_attempt(
        lambda record, afterwards, wait: RIGHT_TRYING(replace(afterwards, wait=min(wait, record.wait)), 1)),
    "a wait is kept in the place of 10 alone": first_attempt(
        lambda record, afterwards, wait: afterwards if record.wait == 10 else RIGHT_TRYING(record, 1)),
    "the next attempt starts with 10": next_attempt(lambda _record, _attempt: 10),
    "the next attempt starts with at most 10": next_attempt(lambda record, _attempt: min(record.wait, 10)),
    "the next attempt starts with 128": next_attempt(lambda _record, _attempt: 128),
    "the next attempt starts with one less than the wait": next_attempt(
        lambda record, _attempt: max(record.wait - 1, 1)),
    "the next attempt starts with one more than the wait": next_attempt(lambda record, _attempt: record.wait + 1),
    "the second attempt starts with 10": next_attempt(lambda record, attempt: 10 if attempt == 2 else record.wait),
    "the third attempt starts with 10": next_attempt(lambda record, attempt: 10 if attempt == 3 else record.wait),
    "the next attempt starts with twice the wait": next_attempt(lambda record, _attempt: min(2 * record.wait, 128)),
    "the next attempt starts with half the wait": next_attempt(lambda record, _attempt: max(record.wait // 2, 1)),
    "the next attempt starts with the millisecond's wait": row(Event.MILLISECOND, of_the_millisecond),
    **{f"an enable in {named(phase)} keeps its wait": enabled_in(
        phase, lambda record, wait: (False, replace(record, wait=wait, left=min(record.left, wait))))
       for phase in Phase if phase is not Phase.OFF},
    "an enable in trying keeps a wait that is not under what is left": enabled_in(
        Phase.TRYING, lambda record, wait: (False, replace(record, wait=max(wait, record.left)))),
    "an enable in trying has its wait left": enabled_in(
        Phase.TRYING, lambda record, wait: (False, replace(record, wait=wait, left=wait))),
    "an enable in trying leaves its wait, if that is less": enabled_in(
        Phase.TRYING, lambda record, wait: (False, replace(record, left=min(record.left, wait)))),
    "an enable in trying starts the attempt anew": enabled_in(
        Phase.TRYING, lambda record, _wait: (False, replace(record, left=record.wait))),
    **{f"an enable in {named(phase)} tries anew": enabled_in(
        phase, lambda record, wait: (True, RIGHT_TRYING(replace(record, wait=wait), 1)))
       for phase in Phase if phase is not Phase.OFF},
    **{f"{named(event)} makes the kept wait 10": wait_becomes(10, event, lambda _record, later: later.left <= 10)
       for event in OTHER_EVENTS},
    "disable makes the kept wait 0": wait_becomes(0, Event.DISABLE),
    "link failed makes the kept wait 0": wait_becomes(0, Event.LINK_FAILED),
    "a disable that ends trying makes the kept wait 10": wait_becomes(
        10, Event.DISABLE, lambda record, _later: record.phase is Phase.TRYING),
    "a disable in failed makes the kept wait 10": wait_becomes(
        10, Event.DISABLE, lambda record, _later: record.phase is Phase.FAILED),
    "a link that fails in off makes the kept wait 10": wait_becomes(
        10, Event.LINK_FAILED, lambda record, _later: record.phase is Phase.OFF),
    "a link that fails while verified makes the kept wait 10": wait_becomes(
        10, Event.LINK_FAILED, lambda record, _later: record.phase is Phase.VERIFIED),
    "verified makes the kept wait 10": wait_becomes(
        10, Event.R_HEARD, lambda record, _later: record.phase is Phase.TRYING),
    "failed makes the kept wait 10": wait_becomes(
        10, Event.MILLISECOND, lambda record, later: record.phase is not later.phase),
    **{f"{named(event)} carries a wait": carries_a_wait(event) for event in OTHER_EVENTS},
}


def ordering(event, when, ordered):
    """Another order where this is so of the record before and after: the record itself is right."""
    def wrong(record, wait):
        right, afterwards = RIGHT_ROWS[event](record, wait)
        return (ordered if when(record, afterwards) else right), afterwards
    return row(event, wrong)


def at_most(milliseconds):
    """Trying never lasts longer than so many milliseconds, whatever the wait is."""
    def wrong(record, wait):
        lasted = (record.attempt - 1) * record.wait + record.wait - record.left
        if record.phase is Phase.TRYING and lasted >= milliseconds - 1:
            return False, verification.outside_trying(record, Phase.FAILED)
        return RIGHT_ROWS[Event.MILLISECOND](record, wait)
    return row(Event.MILLISECOND, wrong)


def one_less(record, wait):
    """An attempt is over when one is left."""
    return RIGHT_ROWS[Event.MILLISECOND](replace(record, left=max(record.left - 1, 1)) if record.left else record, wait)


def verified_from(phase):
    return row(Event.R_HEARD, lambda record, wait: (
        (False, replace(record, phase=Phase.VERIFIED)) if record.phase is phase
        else RIGHT_ROWS[Event.R_HEARD](record, wait)))


# Wrong in a row of document 01's table that says nothing of the wait's length.
ROWS = {
    "two attempts": replaced("ATTEMPTS", 2),
    "four attempts": replaced("ATTEMPTS", 4),
    "trying lasts at most 30 milliseconds": at_most(30),
    "trying lasts at most 128 milliseconds": at_most(128),
    "an attempt is over one millisecond early": row(Event.MILLISECOND, one_less),
    "enable orders no V": ordering(Event.ENABLE, lambda *_: True, False),
    "enable orders a V in every phase": ordering(Event.ENABLE, lambda *_: True, True),
    "the next attempt orders no V": ordering(Event.MILLISECOND, lambda *_: True, False),
    "the third attempt orders no V": ordering(Event.MILLISECOND, lambda _, later: later.attempt == 3, False),
    "failed orders a V": ordering(
        Event.MILLISECOND, lambda record, later: record.phase is not later.phase, True),
    **{f"R heard verifies in {named(phase)}": verified_from(phase) for phase in (Phase.OFF, Phase.FAILED)},
    "V heard owes nothing in off": after(Event.V_HEARD, lambda record, afterwards, _wait: (
        record if record.phase is Phase.OFF else afterwards)),
    "V heard in trying verifies": after(Event.V_HEARD, lambda record, afterwards, _wait: (
        verification.outside_trying(afterwards, Phase.VERIFIED) if record.phase is Phase.TRYING else afterwards)),
    "response sent changes nothing": row(Event.RESPONSE_SENT, lambda record, _wait: (False, record)),
    "disable owes nothing": row(Event.DISABLE, RIGHT_ROWS[Event.LINK_FAILED]),
    "link failed leaves the response owed": row(Event.LINK_FAILED, RIGHT_ROWS[Event.DISABLE]),
    "disable leaves failed": after(Event.DISABLE, lambda record, afterwards, _wait: (
        record if record.phase is Phase.FAILED else afterwards)),
    **{f"{named(event)} leaves {field} as it was": after(
        event, lambda record, afterwards, _wait, field=field: replace(afterwards, **{field: getattr(record, field)}))
       for event in (Event.DISABLE, Event.LINK_FAILED, Event.R_HEARD) for field in ("attempt", "left")},
}

# Wrong in the wait of a fresh record.
FRESH = {f"fresh keeps a wait of {wait}": replaced("FRESH_WAIT", wait) for wait in (0, 1, 128)}
