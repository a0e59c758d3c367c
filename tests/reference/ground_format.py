"""How the questions on document 01's "Octets of an mFrame" and its cut are laid out in octets.

The table in README.md describes the same layout in words.
"""

import struct

from reader import SINGLE_OCTET

CHECK, OCTET, COUNT, CUT, ENDING, LAY = 1, 2, 3, 4, 5, 6

NAMES = {CHECK: "check", OCTET: "octet", COUNT: "count", CUT: "cut", ENDING: "ending", LAY: "lay"}

# Little-endian, without gaps: B is one octet, H two, I four, Q eight.
REGISTER_AND_LENGTH = struct.Struct("<IH")
CUT_FIELDS = struct.Struct("<QQBBQ")
LAY_FIELDS = struct.Struct("<HHH")


def check_question(register, octets):
    return bytes([CHECK]) + REGISTER_AND_LENGTH.pack(register, len(octets)) + octets


def octet_question(octet):
    return bytes([OCTET]) + SINGLE_OCTET.pack(octet)


def count_question(count):
    return bytes([COUNT]) + SINGLE_OCTET.pack(count)


def cut_question(frame_octets, sent, extra, asked, on_wire):
    return bytes([CUT]) + CUT_FIELDS.pack(frame_octets, sent, extra, asked, on_wire)


def ending_question(register, octets):
    return bytes([ENDING]) + REGISTER_AND_LENGTH.pack(register, len(octets)) + octets


def lay_question(memory, piece, place):
    return bytes([LAY]) + LAY_FIELDS.pack(len(memory), len(piece), place) + memory + piece
