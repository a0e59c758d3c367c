"""Captures: document 02, request (vii): a pcap file of a trace's mFrames, and a trace read back from one.

A capture is a header of 24 octets and, for each mFrame, a header of 16 and the mFrame's octets, from the preamble
on. The header's first four octets say in which order the octets of every number of the file stand. Where the request
leaves something open, README.md says how it is read here.

A capture for eyes is that of the same trace, but with the mCRC that the usual viewer expects where document 01's is
right. What is right says the receiver, which is given all mFrames in order.
"""

import io
from dataclasses import dataclass
from typing import NamedTuple

import crc
import receiving
import trace

# Where each number stands that is looked at, in the file's header and in a record's. Between them are the time zone,
# the accuracy and the snap length, and before a record's lengths its seconds and microseconds: they are not read.
FILE_HEADER_OCTETS = 24
MAGIC, MAJOR, MINOR, LINK_TYPE = slice(0, 4), slice(4, 6), slice(6, 8), slice(20, 24)
RECORD_HEADER_OCTETS = 16
STORED, ORIGINAL = slice(8, 12), slice(12, 16)

# The magic A1B2C3D4 as it is found in a file, and the order that it tells.
ORDERS = {b"\xD4\xC3\xB2\xA1": "little", b"\xA1\xB2\xC3\xD4": "big"}
VERSION = (2, 4)
ETHERNET_MPACKETS = 274
GREATEST_CONTENT = 1600

# What is written before all records and, for each, before its lengths.
WRITTEN_HEADER = bytes.fromhex("D4C3B2A1 0200 0400 00000000 00000000 40060000 12010000")
WRITTEN_TIMES = bytes.fromhex("00000000 00000000")

GOOD = 0
FILE_HEADER_CUT = 70
MAGIC_UNKNOWN = 71
VERSION_UNKNOWN = 72
LINK_TYPE_UNKNOWN = 73
RECORD_HEADER_CUT = 74
STORED_TOO_LONG = 75
LENGTHS_DIFFER = 76
CONTENT_CUT = 77
OUTPUT_SHORT = 78


@dataclass(frozen=True)
class Answer:
    """What a call answers, and what it writes to the front of the memory that it is lent: where it refuses, nothing.

    The value is, at 0, how many octets are written; at 50 to 53 and 74 to 77 which record is refused, the first being
    1; at 70 to 73 it is 0; at 78 how many octets there must be room for.
    """

    number: int
    value: int
    written: bytes = b""


class Piece(NamedTuple):
    """What a capture has of one record, all of it or what is left before the capture's end."""

    header: bytes
    stored: int
    original: int
    content: bytes


def order_of(capture):
    """The order of the octets in the numbers of a capture whose magic is known."""
    return ORDERS[capture[MAGIC]]


def number_in(octets, field, order):
    return int.from_bytes(octets[field], order)


def pieces(capture):
    """The records of a capture taken apart, by each one's own stored length, whatever that is."""
    order = order_of(capture)
    rest = io.BytesIO(capture[FILE_HEADER_OCTETS:])
    while header := rest.read(RECORD_HEADER_OCTETS):
        stored = number_in(header, STORED, order)
        yield Piece(header, stored, number_in(header, ORIGINAL, order), rest.read(stored))


def has_no_whole_header(capture):
    return len(capture) < FILE_HEADER_OCTETS


def has_another_magic(capture):
    return capture[MAGIC] not in ORDERS


def has_another_version(capture):
    order = order_of(capture)
    return (number_in(capture, MAJOR, order), number_in(capture, MINOR, order)) != VERSION


def has_another_link_type(capture):
    return number_in(capture, LINK_TYPE, order_of(capture)) != ETHERNET_MPACKETS


def is_cut_in_its_header(piece):
    return len(piece.header) < RECORD_HEADER_OCTETS


def is_too_long(piece):
    return piece.stored > GREATEST_CONTENT


def was_not_stored_whole(piece):
    return piece.stored != piece.original


def is_cut_in_its_content(piece):
    return len(piece.content) < piece.stored


# What a capture is tested for, and behind that each of its records, in order.
FILE = ((FILE_HEADER_CUT, has_no_whole_header), (MAGIC_UNKNOWN, has_another_magic),
        (VERSION_UNKNOWN, has_another_version), (LINK_TYPE_UNKNOWN, has_another_link_type))
RECORD = ((RECORD_HEADER_CUT, is_cut_in_its_header), (STORED_TOO_LONG, is_too_long),
          (LENGTHS_DIFFER, was_not_stored_whole), (CONTENT_CUT, is_cut_in_its_content))


def first_failed(thing, tests):
    """The number of the first test that a capture or a piece of it fails; None where it passes them all."""
    return next((number for number, fails in tests if fails(thing)), None)


def refused_capture(capture):
    """The refusal of a capture by its header or by its first record that fails a test; None where there is none."""
    number = first_failed(capture, FILE)
    if number is not None:
        return Answer(number, 0)
    for place, piece in enumerate(pieces(capture), start=1):
        number = first_failed(piece, RECORD)
        if number is not None:
            return Answer(number, place)
    return None


def refused_trace(records):
    """The refusal of a trace's records, of which only the last can be refused; None where it is not."""
    match records:
        case [*_, trace.Refused(number)]:
            return Answer(number, len(records))
    return None


def put_out(written, room):
    """The answer of a call that refuses no record."""
    if len(written) > room:
        return Answer(OUTPUT_SHORT, len(written))
    return Answer(GOOD, len(written), written)


def record_of(content):
    """The record of an mFrame, which is stored whole: its length stands there twice."""
    return WRITTEN_TIMES + 2 * len(content).to_bytes(4, "little") + content


def capture_of(contents):
    return WRITTEN_HEADER + b"".join(record_of(content) for content in contents)


def trace_of(capture):
    """The trace of a capture that is not refused."""
    return trace.written(piece.content for piece in pieces(capture))


def octets_checked(content, answer, memory):
    """What the mCRC of an mFrame that was answered so is taken over; None where it has no mCRC that is right.

    Of a fragment it is all of the frame so far, which is what the receiver kept; of V and R it is their own data.
    """
    match answer.number:
        case receiving.FRAGMENT_KEPT:
            return bytes(memory[:answer.detail])
        case receiving.VERIFY_HEARD | receiving.RESPOND_HEARD:
            return receiving.head_of(content).behind[:-crc.CHECK_OCTETS]
    return None


def with_check(content, check):
    """An mFrame with another check in the place of its own."""
    return content[:-crc.CHECK_OCTETS] + check


def for_eyes(contents):
    """mFrames with the standard's mCRC in the place of each of document 01's that is right."""
    memory, record = bytearray(receiving.LEAST_ROOM), receiving.fresh()
    for content in contents:
        answer, record = receiving.receive(memory, record, content)
        checked = octets_checked(content, answer, memory)
        yield content if checked is None else with_check(content, crc.standard_mcrc(checked))


def capture_for_eyes(contents):
    return capture_of(for_eyes(contents))


def laid_out(octets, room, layout):
    """A trace's mFrames in another layout, into memory for so many octets."""
    records = list(trace.records(octets))
    return refused_trace(records) or put_out(layout(record.content for record in records), room)


def write(octets, room):
    """The capture of a trace, into memory for so many octets."""
    return laid_out(octets, room, capture_of)


def show(octets, room):
    """The capture for eyes of a trace, into memory for so many octets."""
    return laid_out(octets, room, capture_for_eyes)


def read(capture, room):
    """The trace of a capture, into memory for so many octets."""
    return refused_capture(capture) or put_out(trace_of(capture), room)
