"""Gate control lists: document 02, request (i), and source 001, ieee8021STAdminControlList.

An entry is one octet of operation, one of length, and the value: the gate octet, then the
interval in nanoseconds, high octet first. Where the two papers leave something open,
README.md says how it is read here.
"""

import io
import struct
from dataclasses import dataclass
from itertools import accumulate
from typing import NamedTuple

HEADER = struct.Struct(">BB")
VALUE = struct.Struct(">BI")
ENTRY = struct.Struct(">BBBI")

SET, HOLD, RELEASE = 0, 1, 2
GREATEST_GATES = 255
MOST_ENTRIES = 256

GOOD = 0
CUT = 60
OPERATION_UNKNOWN = 61
LENGTH_NOT_5 = 62
TOO_MANY = 63
OUTPUT_SHORT = 64


class Entry(NamedTuple):
    operation: int
    gates: int
    interval: int


class Event(NamedTuple):
    """When in the cycle, in nanoseconds from its start, and the operation: hold or release."""

    time: int
    operation: int


@dataclass(frozen=True)
class Answer:
    """What a call answers, and what it writes to the front of the memory that it is lent: where it refuses, nothing.

    The value is, at 0, how many entries, octets or events are written; at 60 to 63 which entry is refused, the
    first being 1; at 64 how many there must be room for. The cycle is the sum of all intervals, of events alone.
    """

    number: int
    value: int
    written: tuple | bytes = ()
    cycle: int = 0


class Piece(NamedTuple):
    """What a list has of one entry, all of it or what is left before the list's end."""

    header: bytes
    value: bytes


def pieces(octets):
    """A list taken apart as source 001 has it, by each entry's own length octet, whatever its operation."""
    rest = io.BytesIO(octets)
    while header := rest.read(HEADER.size):
        length = header[1] if len(header) == HEADER.size else 0
        yield Piece(header, rest.read(length))


def is_cut(_place, piece):
    return len(piece.header) < HEADER.size or len(piece.value) < piece.header[1]


def is_unknown(_place, piece):
    return piece.header[0] > RELEASE


def has_another_length(_place, piece):
    return piece.header[1] != VALUE.size


def is_one_too_many(place, _thing):
    return place > MOST_ENTRIES


def is_no_entry(_place, entry):
    """Words that no list can hold."""
    return entry.operation > RELEASE or entry.gates > GREATEST_GATES


# What an entry is tested for, in order, on its way out of a list and into one.
READING = ((CUT, is_cut), (OPERATION_UNKNOWN, is_unknown), (LENGTH_NOT_5, has_another_length),
           (TOO_MANY, is_one_too_many))
WRITING = ((OPERATION_UNKNOWN, is_no_entry), (TOO_MANY, is_one_too_many))


def refused(things, tests):
    """The refusal of the first entry that fails a test, by the first test that it fails; None where there is none."""
    for place, thing in enumerate(things, start=1):
        for number, fails in tests:
            if fails(place, thing):
                return Answer(number, place)
    return None


def put_out(written, room, cycle=0):
    """The answer of a call that refuses no entry."""
    if len(written) > room:
        return Answer(OUTPUT_SHORT, len(written))
    return Answer(GOOD, len(written), written, cycle)


def entries_of(octets):
    """The entries of a list that is not refused."""
    return tuple(Entry(piece.header[0], *VALUE.unpack(piece.value)) for piece in pieces(octets))


def octets_of(entries):
    """The list of entries that are not refused."""
    return b"".join(ENTRY.pack(entry.operation, VALUE.size, entry.gates, entry.interval) for entry in entries)


def events_of(entries):
    """An event for each hold and release, at the sum of all intervals before it; and the sum of them all."""
    *starts, cycle = accumulate((entry.interval for entry in entries), initial=0)
    return tuple(Event(start, entry.operation) for start, entry in zip(starts, entries)
                 if entry.operation in (HOLD, RELEASE)), cycle


def read(octets, room):
    """The entries of a list, into memory for so many entries."""
    return refused(pieces(octets), READING) or put_out(entries_of(octets), room)


def write(entries, room):
    """The list of entries, into memory for so many octets."""
    entries = [Entry(*words) for words in entries]
    return refused(entries, WRITING) or put_out(octets_of(entries), room)


def events(octets, room):
    """The events of a list, into memory for so many events."""
    answer = refused(pieces(octets), READING)
    if answer is not None:
        return answer
    made, cycle = events_of(entries_of(octets))
    return put_out(made, room, cycle)
