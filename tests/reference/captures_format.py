"""How the questions on document 02's request (vii), the captures, are laid out in octets.

The table in README.md describes the same layout in words.
"""

import struct

WRITE, READ = 1, 2

NAMES = {WRITE: "write", READ: "read"}

# Little-endian, without gaps: H is two octets, B one. How many octets follow, room and fill.
FIELDS = struct.Struct("<HHB")

# No question gives more octets, or lends room for more: five of the longest records fit, as a capture too.
MOST_OCTETS = 8192


def question(kind, octets, room, fill):
    """A trace to be written, or a capture to be read."""
    return bytes([kind]) + FIELDS.pack(len(octets), room, fill) + octets
