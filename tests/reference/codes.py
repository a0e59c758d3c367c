"""Delimiters, fragment codes and the two counts: document 01, "Octets of an mFrame".

The frame count and the fragment count are two different things that both go round
modulo 4; each has its own functions, and none takes one for the other.
"""

from dataclasses import dataclass

EXPRESS = "express"
START = "start"
CONTINUATION = "continuation"
VERIFY = "verify"
RESPOND = "respond"

COUNTS = 4


@dataclass(frozen=True)
class Delimiter:
    """One of the eleven. Only starts and continuations carry a frame count, the others None."""

    code: int
    kind: str
    frame_count: int | None


@dataclass(frozen=True)
class Unknown:
    """An octet that is none of the eleven, with the least number of bits by which it differs from one."""

    differing_bits: int


DELIMITERS = (
    Delimiter(0xD5, EXPRESS, None),
    Delimiter(0xE6, START, 0),
    Delimiter(0x4C, START, 1),
    Delimiter(0x7F, START, 2),
    Delimiter(0xB3, START, 3),
    Delimiter(0x61, CONTINUATION, 0),
    Delimiter(0x52, CONTINUATION, 1),
    Delimiter(0x9E, CONTINUATION, 2),
    # The drafts have AD here; document 01 takes 2A of the published table.
    Delimiter(0x2A, CONTINUATION, 3),
    Delimiter(0x07, VERIFY, None),
    Delimiter(0x19, RESPOND, None),
)

# The code behind the delimiter of a continuation, by fragment count. The four are also the
# start delimiters, but the place tells the two apart, so this is a list of its own.
FRAGMENT_CODES = (0xE6, 0x4C, 0x7F, 0xB3)


def differing_bits(one, other):
    """In how many of their bits two octets differ."""
    return format(one ^ other, "b").count("1")


def least_differing_bits(octet):
    """The least number of bits by which `octet` differs from any of the eleven; 0 for one of them."""
    return min(differing_bits(octet, delimiter.code) for delimiter in DELIMITERS)


def as_delimiter(octet):
    """The delimiter that `octet` is, or Unknown."""
    for delimiter in DELIMITERS:
        if delimiter.code == octet:
            return delimiter
    return Unknown(least_differing_bits(octet))


def lone_code(kind):
    """The code of a kind that has a single delimiter: express, verify or respond."""
    for delimiter in DELIMITERS:
        if delimiter.kind == kind and delimiter.frame_count is None:
            return delimiter.code
    raise ValueError(f"a delimiter of kind {kind} carries a frame count")


def delimiter_code(kind, frame_count):
    """The code of a start or continuation that carries `frame_count`."""
    for delimiter in DELIMITERS:
        if delimiter.kind == kind and delimiter.frame_count == frame_count % COUNTS:
            return delimiter.code
    raise ValueError(f"a delimiter of kind {kind} carries no frame count")


def start_code(frame_count):
    """The start delimiter of a frame; a count made by hand over 3 is taken modulo 4."""
    return delimiter_code(START, frame_count)


def continuation_code(frame_count):
    """The continuation delimiter of a frame; a count made by hand over 3 is taken modulo 4."""
    return delimiter_code(CONTINUATION, frame_count)


def next_frame_count(frame_count):
    """The count of the preemptable frame sent after this one."""
    return (frame_count + 1) % COUNTS


def previous_frame_count(frame_count):
    """The count of the frame before: what a continuation carries when the record holds the next one."""
    return (frame_count - 1) % COUNTS


def fragment_code(fragment_count):
    """The code behind the delimiter of a continuation; a count made by hand over 3 is taken modulo 4."""
    return FRAGMENT_CODES[fragment_count % COUNTS]


def as_fragment_count(octet):
    """The fragment count that `octet` codes, or None."""
    if octet in FRAGMENT_CODES:
        return FRAGMENT_CODES.index(octet)
    return None


def next_fragment_count(fragment_count):
    """The count of the continuation after this one."""
    return (fragment_count + 1) % COUNTS
