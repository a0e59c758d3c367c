"""How the questions on document 01's "Sending" are laid out in octets.

The table in README.md describes the same layout in words.
"""

import struct

EXPRESS, VERIFY, RESPOND, RECORD, BODY, PREEMPTABLE, SETTINGS = 1, 2, 3, 4, 5, 6, 7

NAMES = {EXPRESS: "express", VERIFY: "verify", RESPOND: "respond", RECORD: "record", BODY: "body",
         PREEMPTABLE: "preemptable", SETTINGS: "settings"}

# Little-endian, without gaps: B is one octet, H two, Q eight.
EXPRESS_FIELDS = struct.Struct("<HHB")
LENDING_FIELDS = struct.Struct("<HB")
RECORD_FIELDS = struct.Struct("<BBBBQQB")
LENGTH_FIELD = struct.Struct("<H")
PREEMPTABLE_FIELDS = struct.Struct("<BQHB")
SETTINGS_FIELDS = struct.Struct("<BBB")


def express_question(body, room, fill):
    return bytes([EXPRESS]) + EXPRESS_FIELDS.pack(len(body), room, fill) + body


def verify_question(room, fill):
    return bytes([VERIFY]) + LENDING_FIELDS.pack(room, fill)


def respond_question(room, fill):
    return bytes([RESPOND]) + LENDING_FIELDS.pack(room, fill)


def record_question(record):
    return bytes([RECORD]) + RECORD_FIELDS.pack(
        record.active, record.hold, record.extra, record.next_frame_count,
        record.length, record.sent, record.next_fragment_count)


def body_question(body):
    return bytes([BODY]) + LENGTH_FIELD.pack(len(body)) + body


def preemptable_question(asked, on_wire, room, fill):
    return bytes([PREEMPTABLE]) + PREEMPTABLE_FIELDS.pack(asked, on_wire, room, fill)


def settings_question(active, hold, extra):
    return bytes([SETTINGS]) + SETTINGS_FIELDS.pack(active, hold, extra)
