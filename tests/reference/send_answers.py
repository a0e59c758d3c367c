"""Answers questions on document 01's "Sending" in lines of text.

The questions are read back from their octets, so that what is stored is what was answered.
"""

from dataclasses import replace

import send_format as layout
import sending
from digest import digest
from reader import answered, as_flag, lent_memory


def outcome(answer):
    """The words of an answer: length and done, or the refusal."""
    match answer:
        case sending.Sent(length, done):
            return f"{length} {int(done)}"
        case sending.Refused(number):
            return f"refused {number}"


def record_words(record):
    return (f"{int(record.active)} {int(record.hold)} {record.extra} {record.next_frame_count}"
            f" {record.length} {record.sent} {record.next_fragment_count}")


class Answering:
    """The kept record and body, and the lines that answer one question after the other."""

    def __init__(self):
        self.record = sending.fresh()
        self.body = b""

    def whole_line(self, name, room, fill, call):
        memory = lent_memory(room, fill)
        answer = call(memory)
        return f"{name} {outcome(answer)} {digest(memory)}"

    def preemptable_line(self, asked, on_wire, room, fill):
        memory = lent_memory(room, fill)
        ask = on_wire if asked else sending.NO_ASK
        answer, self.record = sending.preemptable(memory, self.record, self.body, ask)
        return f"preemptable {outcome(answer)} {digest(memory)} {record_words(self.record)}"

    def answer_one(self, reader):
        """The lines that answer the next question: one, or none where it only sets what is kept."""
        kind = reader.single_octet()
        if kind == layout.EXPRESS:
            length, room, fill = reader.fields(layout.EXPRESS_FIELDS)
            body = reader.run(length)
            return [self.whole_line("express", room, fill, lambda memory: sending.express(memory, body))]
        if kind == layout.VERIFY:
            return [self.whole_line("verify", *reader.fields(layout.LENDING_FIELDS), sending.verify)]
        if kind == layout.RESPOND:
            return [self.whole_line("respond", *reader.fields(layout.LENDING_FIELDS), sending.respond)]
        if kind == layout.RECORD:
            active, hold, *numbers = reader.fields(layout.RECORD_FIELDS)
            self.record = sending.SendingRecord(as_flag(active), as_flag(hold), *numbers)
            return []
        if kind == layout.BODY:
            self.body = reader.run(*reader.fields(layout.LENGTH_FIELD))
            return []
        if kind == layout.PREEMPTABLE:
            return [self.preemptable_line(*reader.fields(layout.PREEMPTABLE_FIELDS))]
        if kind == layout.SETTINGS:
            active, hold, extra = reader.fields(layout.SETTINGS_FIELDS)
            self.record = replace(self.record, active=as_flag(active), hold=as_flag(hold), extra=extra)
            return []
        raise ValueError(f"no question begins with octet {kind}")


def answers(questions):
    """The whole answer to a run of questions, each line ended by one LF."""
    return answered(questions, Answering().answer_one)
