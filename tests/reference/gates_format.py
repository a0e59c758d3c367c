"""How the questions on document 02's request (i), the gate control lists, are laid out in octets.

The table in README.md describes the same layout in words.
"""

import struct

READ, WRITE, EVENTS = 1, 2, 3

NAMES = {READ: "read", WRITE: "write", EVENTS: "events"}

# Little-endian, without gaps: B is one octet, H two, I four, Q eight. How many octets or entries follow, room and fill.
FIELDS = struct.Struct("<HHB")
# An entry: operation, gates, interval. An event: time, operation.
ENTRY = struct.Struct("<III")
EVENT = struct.Struct("<QQ")

# No question gives more entries, or lends room for more entries or events.
MOST_ROWS = 300


def read_question(octets, room, fill):
    return bytes([READ]) + FIELDS.pack(len(octets), room, fill) + octets


def write_question(entries, room, fill):
    return bytes([WRITE]) + FIELDS.pack(len(entries), room, fill) + b"".join(ENTRY.pack(*entry) for entry in entries)


def events_question(octets, room, fill):
    return bytes([EVENTS]) + FIELDS.pack(len(octets), room, fill) + octets
