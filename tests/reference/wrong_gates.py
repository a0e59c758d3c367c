"""Readers and writers of gate control lists that are wrong in one rule of document 02's request (i) each.

Each is a patch of gates.py. Tests, stored questions and stored lists must tell every one of them from the right one.
"""

import struct
from dataclasses import replace
from itertools import accumulate, permutations
from unittest import mock

import gates
from gates import Answer, Entry, Event, Piece

RIGHT = {name: getattr(gates, name) for name in ("READING", "WRITING", "pieces", "refused", "put_out", "entries_of",
                                                 "octets_of", "events_of", "read", "write", "events")}


def replaced(name, wrong):
    return lambda: mock.patch.object(gates, name, wrong)


def reading_with(number, test):
    """Another test in the place of the one with this number."""
    return replaced("READING", tuple((other, test if other == number else right) for other, right in RIGHT["READING"]))


def reading_in_order(order):
    """Where a header lacks its length and is asked for it first, that counts as a length that is not 5."""
    tests = {**dict(RIGHT["READING"]), 62: lambda _place, piece: piece.header[1:] != b"\x05"}
    return replaced("READING", tuple((number, tests[number]) for number in order))


def number_by_number(things, tests):
    """The least number that any entry is refused with, instead of the first entry that is refused."""
    things = list(things)
    found = [Answer(number, place) for number, fails in tests for place, thing in enumerate(things, start=1)
             if not lacks_a_length(thing, number) and fails(place, thing)]
    return found[0] if found else None


def lacks_a_length(thing, number):
    return number == 62 and len(thing.header) < 2


def too_many_last(things, tests):
    """Whether there are too many entries is asked once all of them have passed the other tests."""
    things = list(things)
    others = [test for test in tests if test[0] != 63]
    return RIGHT["refused"](things, others) or RIGHT["refused"](things, tests)


def counted_from_0(things, tests):
    answer = RIGHT["refused"](things, tests)
    return answer and Answer(answer.number, answer.value - 1)


def by_seven_octets(octets):
    """On by seven octets, whatever the length octet says."""
    for place in range(0, len(octets), 7):
        yield Piece(octets[place:place + 2], octets[place + 2:place + 7])


def without_a_cut_header(octets):
    """A single octet is taken for the list's end."""
    return (piece for piece in RIGHT["pieces"](octets) if len(piece.header) == 2)


def length_with_header(octets):
    """The length octet is taken to count the header's two octets as well."""
    place = 0
    while place < len(octets):
        header = octets[place:place + 2]
        behind = place + max(2, header[-1])
        yield Piece(header, octets[place + 2:behind])
        place = behind


def read_anyhow(octets):
    """The entries of a list that a wrong test let pass: of each value the first five octets, the missing ones 0."""
    return tuple(Entry(piece.header[0], *gates.VALUE.unpack(piece.value[:5].ljust(5, b"\0")))
                 for piece in gates.pieces(octets))


class Wrong:
    """A patch with which any list can be read that the patched tests let pass."""

    def __init__(self, patch):
        self.patches = (patch(), mock.patch.object(gates, "entries_of", read_anyhow))

    def __enter__(self):
        for patch in self.patches:
            patch.start()

    def __exit__(self, *_):
        for patch in self.patches:
            patch.stop()


# Wrong in what they refuse.
READERS = {name: (lambda patch=patch: Wrong(patch)) for name, patch in {
    **{"tests in the order " + ", ".join(map(str, order)): reading_in_order(order)
       for order in permutations((60, 61, 62, 63)) if list(order) != sorted(order)},
    "a value is cut below 5 octets": reading_with(60, lambda _, piece: len(piece.header) < 2 or len(piece.value) < 5),
    "a value is never cut": reading_with(60, lambda _, piece: len(piece.header) < 2),
    "a header is cut only with its value": replaced("pieces", without_a_cut_header),
    "operation 3 is known": reading_with(61, lambda _, piece: piece.header[0] > 3),
    "operation 2 is unknown": reading_with(61, lambda _, piece: piece.header[0] > 1),
    "two bits of the operation count": reading_with(61, lambda _, piece: piece.header[0] % 4 == 3),
    "an operation from 128 on is below 0": reading_with(61, lambda _, piece: 2 < piece.header[0] < 128),
    "no operation is looked at": reading_with(61, lambda *_: False),
    "a length over 5 is taken": reading_with(62, lambda _, piece: piece.header[1] < 5),
    "a length under 5 is taken": reading_with(62, lambda _, piece: piece.header[1] > 5),
    "seven bits of the length count": reading_with(62, lambda _, piece: piece.header[1] % 128 != 5),
    "length 0 is no parameters": reading_with(62, lambda _, piece: piece.header[1] not in (0, 5)),
    "no length is looked at": reading_with(62, lambda *_: False),
    "the length counts the header": replaced("pieces", length_with_header),
    "an entry has seven octets": replaced("pieces", by_seven_octets),
    "255 entries at most": replaced("MOST_ENTRIES", 255),
    "257 entries at most": replaced("MOST_ENTRIES", 257),
    "any number of entries": reading_with(63, lambda *_: False),
    "number by number": replaced("refused", number_by_number),
    "too many only at the end": replaced("refused", too_many_last),
    "entries counted from 0": replaced("refused", counted_from_0),
}.items()}


def writing_if(is_no_entry):
    """Written are all entries but these; of each word the octets that there is room for."""
    return replaced("WRITING", ((61, is_no_entry), RIGHT["WRITING"][1]))


def low_octets_of(entries):
    return RIGHT["octets_of"]([Entry(entry.operation % 256, entry.gates % 256, entry.interval) for entry in entries])


class WrongWriter(Wrong):
    """A patch with which any entries can be written that the patched tests let pass."""

    def __init__(self, patch):
        self.patches = (patch(), mock.patch.object(gates, "octets_of", low_octets_of))


WRITERS = {name: (lambda patch=patch: WrongWriter(patch)) for name, patch in {
    "operation 3 is known": writing_if(lambda _, words: words.operation > 3 or words.gates > 255),
    "operation 2 is unknown": writing_if(lambda _, words: words.operation > 1 or words.gates > 255),
    "the low octet of an operation counts": writing_if(lambda _, words: words.operation % 256 > 2 or words.gates > 255),
    "gates 256 are taken": writing_if(lambda _, words: words.operation > 2 or words.gates > 256),
    "gates 255 are refused": writing_if(lambda _, words: words.operation > 2 or words.gates > 254),
    "gates are not looked at": writing_if(lambda _, words: words.operation > 2),
    "63 before 61": replaced("WRITING", RIGHT["WRITING"][::-1]),
    "255 entries at most": replaced("MOST_ENTRIES", 255),
    "257 entries at most": replaced("MOST_ENTRIES", 257),
    "any number of entries": replaced("WRITING", RIGHT["WRITING"][:1]),
    "too many only at the end": replaced("refused", too_many_last),
    "entries counted from 0": replaced("refused", counted_from_0),
}.items()}


def low_octet_first(octets):
    return tuple(entry._replace(interval=int.from_bytes(entry.interval.to_bytes(4, "big"), "little"))
                 for entry in RIGHT["entries_of"](octets))


def interval_first(octets):
    """The value read as the interval and then the gate octet."""
    return tuple(Entry(piece.header[0], piece.value[4], int.from_bytes(piece.value[:4], "big"))
                 for piece in RIGHT["pieces"](octets))


# Wrong in what they read.
VALUES = {
    "the interval's low octet first": replaced("entries_of", low_octet_first),
    "the interval before the gates": replaced("entries_of", interval_first),
}

def laid_as(layout, fields):
    """An entry written as the layout has these fields of it."""
    return replaced("octets_of", lambda entries: b"".join(struct.pack(layout, *fields(entry)) for entry in entries))


# Wrong in what they write.
LAYOUTS = {
    "the interval's low octet first": laid_as("<BBBI", lambda entry: (entry[0], 5, entry[1], entry[2])),
    "the interval before the gates": laid_as(">BBIB", lambda entry: (entry[0], 5, entry[2], entry[1])),
    "the length counts the header": laid_as(">BBBI", lambda entry: (entry[0], 7, entry[1], entry[2])),
}


def events_if(wanted):
    """An event for other operations."""
    def events_of(entries):
        *starts, cycle = accumulate((entry.interval for entry in entries), initial=0)
        return tuple(Event(start, entry.operation) for start, entry in zip(starts, entries)
                     if wanted(entry.operation)), cycle
    return replaced("events_of", events_of)


def events_with(change):
    """Each event and the cycle as they should be, changed."""
    def events_of(entries):
        events, cycle = RIGHT["events_of"](entries)
        return change(entries, events, cycle)
    return replaced("events_of", events_of)


def with_own_interval(entries, _events, cycle):
    ends = accumulate(entry.interval for entry in entries)
    return tuple(Event(end, entry.operation) for end, entry in zip(ends, entries) if entry.operation != 0), cycle


def without_set_gates(entries, _events, cycle):
    """The sum of the intervals of holds and releases alone."""
    starts = accumulate((entry.interval if entry.operation else 0 for entry in entries), initial=0)
    return tuple(Event(start, entry.operation) for start, entry in zip(starts, entries) if entry.operation != 0), cycle


def at_intervals(entries, _events, cycle):
    """The interval before it instead of the sum."""
    before = [0, *(entry.interval for entry in entries)]
    return tuple(Event(start, entry.operation) for start, entry in zip(before, entries) if entry.operation != 0), cycle


def in_bits(bits):
    def change(_entries, events, cycle):
        return tuple(Event(event.time % 2**bits, event.operation) for event in events), cycle % 2**bits
    return events_with(change)


EVENTS = {
    "sums of 32 bits": in_bits(32),
    "sums of 39 bits": in_bits(39),
    "an event's own interval counts": events_with(with_own_interval),
    "set gates takes no time": events_with(without_set_gates),
    "the last interval and no sum": events_with(at_intervals),
    "an event for operation 0": events_if(lambda operation: True),
    "no event for hold": events_if(lambda operation: operation == 2),
    "no event for release": events_if(lambda operation: operation == 1),
    "hold and release exchanged": events_with(lambda _, events, cycle: (
        tuple(Event(event.time, 3 - event.operation) for event in events), cycle)),
    "events in the reverse order": events_with(lambda _, events, cycle: (events[::-1], cycle)),
    "the cycle without its last interval": events_with(lambda entries, events, cycle: (
        events, cycle - entries[-1].interval if entries else 0)),
    "the cycle ends with the last event": events_with(lambda _, events, cycle: (
        events, events[-1].time if events else cycle)),
}


def putting(change):
    """What is put out, changed: given what should be written, the room and the cycle."""
    return replaced("put_out", lambda written, room, cycle=0: change(written, room, cycle))


def what_fits(written, room, cycle):
    answer = RIGHT["put_out"](written, room, cycle)
    return answer if answer.number == 0 else Answer(answer.number, answer.value, written[:room])


def told_too_much(written, room, cycle):
    answer = RIGHT["put_out"](written, room, cycle)
    return answer if answer.number == 0 else Answer(answer.number, answer.value, (), cycle)


# Wrong in what they do with the memory that they are lent.
ROOMS = {
    "one more than fits": putting(lambda written, room, cycle: RIGHT["put_out"](written, room + 1, cycle)),
    "one room unused": putting(lambda written, room, cycle: RIGHT["put_out"](written, room - 1, cycle)),
    "what fits is written": putting(what_fits),
    "one less is asked for": putting(lambda written, room, cycle: (
        RIGHT["put_out"](written, room, cycle) if len(written) <= room else Answer(64, len(written) - 1))),
}
CYCLES = {"a cycle though the room is short": putting(told_too_much)}



def some_written(call, given, room):
    """What is before the refused entry is written all the same."""
    answer = RIGHT[call](given, room)
    if answer.number in (gates.GOOD, gates.OUTPUT_SHORT):
        return answer
    # Every entry before it is good, so that of a list each has seven octets.
    before = (answer.value - 1) * (1 if call == "write" else 7)
    return replace(answer, written=RIGHT[call](given[:before], gates.MOST_ENTRIES * 7).written[:room])


def short_at_once(call, given, room):
    """64 as soon as the room is used up, before the entries behind are looked at."""
    answer = RIGHT[call](given, room)
    before = (answer.value - 1) * (1 if call == "write" else 7)
    if answer.number not in (gates.GOOD, gates.OUTPUT_SHORT):
        shorter = RIGHT[call](given[:before], room)
        return shorter if shorter.number == gates.OUTPUT_SHORT else answer
    return answer


def calling(call, wrong):
    return replaced(call, lambda given, room: wrong(call, given, room))


# Wrong in what they do where an entry is refused, each call for itself.
REFUSING = {call: {"entries before the refused one are written": calling(call, some_written),
                   "64 before the entries behind": calling(call, short_at_once)}
            for call in ("read", "write", "events")}
