"""Answers questions on document 02's request (iv), the octets that come one at a time, in lines of text.

The questions are read back from their octets, so that what is stored is what was answered.
"""

from collections import Counter

import octet_by_octet
import receiving
import stream_format as layout
from digest import digest
from octet_by_octet import AREA_SHORT, END, STATE_UNSOUND, WAITS, State
from reader import answered, as_flag, lent_memory
from receive_answers import record_in, record_words
from receiving import Answer


class Answering:
    """The kept state and record, the kept area and memory, and the lines that answer one question after the other."""

    def __init__(self):
        self.state = octet_by_octet.EMPTY
        self.record = receiving.fresh()
        self.area = bytearray()
        self.memory = bytearray()

    def call(self, given):
        """One call on what is kept; it hands all of it on."""
        answer, self.state, self.record = octet_by_octet.call(given, self.state, self.area, self.record, self.memory)
        return answer

    def state_words(self):
        return f"{self.state.count} {int(self.state.more)}"

    def octets_line(self, octets):
        met = Counter(self.call(octet) for octet in octets)
        return (f"octets {met[WAITS]} {met[Answer(AREA_SHORT)]} {met[Answer(STATE_UNSOUND)]}"
                f" {self.state_words()} {digest(self.area)}")

    def end_line(self):
        answer = self.call(END)
        return (f"end {answer.number} {answer.detail} {self.state_words()} {record_words(self.record)}"
                f" {digest(self.area)} {digest(self.memory)}")

    def set_kept(self, kind, reader):
        """What a question that puts nothing out sets."""
        if kind == layout.RECORD:
            self.record = record_in(reader)
        elif kind == layout.BUFFER:
            self.memory = lent_memory(*reader.fields(layout.BUFFER_FIELDS))
        elif kind == layout.AREA:
            self.area = lent_memory(*reader.fields(layout.BUFFER_FIELDS))
        else:
            count, more = reader.fields(layout.STATE_FIELDS)
            self.state = State(count, as_flag(more))

    def answer_one(self, reader):
        """The lines that answer the next question: one, or none where it only sets what is kept."""
        kind = reader.single_octet()
        if kind == layout.OCTETS:
            return [self.octets_line(reader.run(*reader.fields(layout.LENGTH_FIELD)))]
        if kind == layout.END:
            return [self.end_line()]
        if kind not in layout.NAMES:
            raise ValueError(f"no question begins with octet {kind}")
        self.set_kept(kind, reader)
        return []


def answers(questions):
    """The whole answer to a run of questions, each line ended by one LF."""
    return answered(questions, Answering().answer_one)
