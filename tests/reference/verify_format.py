"""How the questions on document 01's "Verification" and document 02's request (v) are laid out in octets.

The table in README.md describes the same layout in words.
"""

import struct

RECORD, EVENT = 1, 2

NAMES = {RECORD: "record", EVENT: "event"}

# Without gaps: the record's fields have one octet each; behind the event's number stands a wait of four octets.
RECORD_FIELDS = struct.Struct("<BBBBB")
EVENT_FIELDS = struct.Struct("<BI")


def record_question(record):
    return bytes([RECORD]) + RECORD_FIELDS.pack(record.phase.value, record.attempt, record.left, record.owed,
                                                record.wait)


def event_question(event, wait):
    """The wait stands there for every event, though only enable looks at it, so that all questions have one length."""
    return bytes([EVENT]) + EVENT_FIELDS.pack(event.value, wait)
