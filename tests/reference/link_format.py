"""How the entries of the link are laid out in octets: the seed and the turns of one game after the other.

README.md describes the same layout in words.
"""

import struct

# Little-endian, without gaps: I is four octets.
ENTRY_FIELDS = struct.Struct("<II")


def entry_question(seed, turns):
    return ENTRY_FIELDS.pack(seed, turns)
