"""The house trace: document 01, "Trace and listing".

A record is the length of its content (2 octets), its kind (2 octets), both little-endian,
and its content.
"""

import struct
from dataclasses import dataclass

HEADER = struct.Struct("<HH")
GREATEST_CONTENT = 1600
MFRAME_KIND = 1

HEADER_CUT = 50
CONTENT_TOO_LONG = 51
KIND_UNKNOWN = 52
CONTENT_CUT = 53


@dataclass(frozen=True)
class Record:
    """A good record: an mFrame as received."""

    content: bytes


@dataclass(frozen=True)
class Refused:
    """A record that is refused, for the reason with this number."""

    number: int


def record_at(octets, place):
    """The record that begins at `place`, and the place behind it; after a refused one nothing is read."""
    header = octets[place:place + HEADER.size]
    if len(header) < HEADER.size:
        return Refused(HEADER_CUT), None
    length, kind = HEADER.unpack(header)
    if length > GREATEST_CONTENT:
        return Refused(CONTENT_TOO_LONG), None
    if kind != MFRAME_KIND:
        return Refused(KIND_UNKNOWN), None
    content = octets[place + HEADER.size:place + HEADER.size + length]
    if len(content) < length:
        return Refused(CONTENT_CUT), None
    return Record(content), place + HEADER.size + length


def records(octets):
    """The records in order. A refused one is the last; where no octet is left, the trace is at its end."""
    place = 0
    while place is not None and place < len(octets):
        record, place = record_at(octets, place)
        yield record


def written(mframes):
    """A trace of mFrames."""
    return b"".join(HEADER.pack(len(octets), MFRAME_KIND) + octets for octets in mframes)
