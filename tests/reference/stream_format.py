"""How the questions on document 02's request (iv), the octets that come one at a time, are laid out in octets.

The table in README.md describes the same layout in words. Record and buffer are laid out as the receiving questions
have them, and have their numbers.
"""

import struct

from receive_format import BUFFER, BUFFER_FIELDS, LENGTH_FIELD, RECORD

AREA, STATE, OCTETS, END = 3, 4, 5, 6

NAMES = {RECORD: "record", BUFFER: "buffer", AREA: "area", STATE: "state", OCTETS: "octets", END: "end"}

# Little-endian, without gaps: B is one octet, I four.
STATE_FIELDS = struct.Struct("<IB")


def area_question(room, fill):
    return bytes([AREA]) + BUFFER_FIELDS.pack(room, fill)


def state_question(state):
    return bytes([STATE]) + STATE_FIELDS.pack(state.count, state.more)


def octets_question(octets):
    return bytes([OCTETS]) + LENGTH_FIELD.pack(len(octets)) + octets


def end_question():
    return bytes([END])
