"""Whole mFrames, octet by octet: document 01, "Octets of an mFrame", and what document 02, (vi) lets arrive of them.

As it is sent, an mFrame is a header of 8 octets, data, and four check octets. On the way it can lose any of its
leading octets 55, so that one that arrives has a header of 1 to 9 octets.
"""

import codes
import crc

PREAMBLE = 0x55
# As many octets 55 may stand before a delimiter, and as few as none.
MOST_PREAMBLE = 7

LEAST_BODY = 60
GREATEST_BODY = 1518

# What stands behind the header: data and four check octets.
LEAST_BEHIND_HEADER = LEAST_BODY + crc.CHECK_OCTETS
GREATEST_BEHIND_HEADER = GREATEST_BODY + crc.CHECK_OCTETS

# What a sender writes: every header has eight octets.
SENT_HEADER_OCTETS = 8
LONGEST_SENT = SENT_HEADER_OCTETS + GREATEST_BEHIND_HEADER

# What a receiver does not refuse for its length: from a delimiter alone to a continuation behind seven octets 55.
SHORTEST_ACCEPTED = 1 + LEAST_BEHIND_HEADER
LONGEST_ACCEPTED = MOST_PREAMBLE + 2 + GREATEST_BEHIND_HEADER

# What V and R carry.
VERIFICATION_DATA = bytes(60)


def header(preamble, *codes_behind):
    """So many octets of preamble, then the delimiter and, in a continuation, the fragment code."""
    return bytes([PREAMBLE] * preamble + [*codes_behind])


def late_header(code):
    """Seven octets of preamble, then the delimiter: E, S, V and R as they are sent."""
    return header(7, code)


def early_header(code, fragment_code):
    """Six octets of preamble, the delimiter and a fragment code: C as it is sent."""
    return header(6, code, fragment_code)


def express(body):
    return late_header(codes.lone_code(codes.EXPRESS)) + body + crc.fcs(body)


def verify():
    return late_header(codes.lone_code(codes.VERIFY)) + VERIFICATION_DATA + crc.mcrc(VERIFICATION_DATA)


def respond():
    return late_header(codes.lone_code(codes.RESPOND)) + VERIFICATION_DATA + crc.mcrc(VERIFICATION_DATA)


def start(frame_count, data, check):
    """The first mFrame of a preemptable frame; `check` says whether more is to come."""
    return late_header(codes.start_code(frame_count)) + data + check


def continuation(frame_count, fragment_count, data, check):
    """A later mFrame of a preemptable frame; `check` says whether more is to come."""
    return (early_header(codes.continuation_code(frame_count), codes.fragment_code(fragment_count))
            + data + check)
