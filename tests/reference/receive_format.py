"""How the questions on document 01's "Receiving" are laid out in octets.

The table in README.md describes the same layout in words.
"""

import struct

RECORD, BUFFER, MFRAME = 1, 2, 3

NAMES = {RECORD: "record", BUFFER: "buffer", MFRAME: "mframe"}

# Little-endian, without gaps: B is one octet, H two, I four, Q eight.
RECORD_FIELDS = struct.Struct("<BBBQIIIII")
BUFFER_FIELDS = struct.Struct("<HB")
LENGTH_FIELD = struct.Struct("<H")


def record_question(record):
    assembly, counters = record.assembly, record.counters
    return bytes([RECORD]) + RECORD_FIELDS.pack(
        assembly.assembling, assembly.frame_count, assembly.next_fragment_count, assembly.kept, assembly.register,
        counters.assembly_errors, counters.delimiter_errors, counters.assembled, counters.fragments)


def buffer_question(room, fill):
    return bytes([BUFFER]) + BUFFER_FIELDS.pack(room, fill)


def mframe_question(octets):
    return bytes([MFRAME]) + LENGTH_FIELD.pack(len(octets)) + octets
