"""Answers questions on document 01's "Receiving" in lines of text.

The questions are read back from their octets, so that what is stored is what was answered.
"""

import receive_format as layout
import receiving
from digest import digest
from reader import answered, as_flag, lent_memory


def record_words(record):
    assembly, counters = record.assembly, record.counters
    return (f"{int(assembly.assembling)} {assembly.frame_count} {assembly.next_fragment_count}"
            f" {assembly.kept} {assembly.register:08x}"
            f" {counters.assembly_errors} {counters.delimiter_errors} {counters.assembled} {counters.fragments}")


def record_in(reader):
    """The record that a question sets."""
    assembling, frame, fragment, kept, register, *counters = reader.fields(layout.RECORD_FIELDS)
    return receiving.ReceivingRecord(
        receiving.Assembly(as_flag(assembling), frame, fragment, kept, register),
        receiving.Counters(*counters))


class Answering:
    """The kept record and memory, and the lines that answer one question after the other."""

    def __init__(self):
        self.record = receiving.fresh()
        self.memory = bytearray()

    def mframe_line(self, octets):
        answer, self.record = receiving.receive(self.memory, self.record, octets)
        begin, length = receiving.express_body(octets)
        return (f"{answer.number} {answer.detail} {record_words(self.record)} {digest(self.memory)}"
                f" {begin} {length} {digest(octets[begin:begin + length])}")

    def answer_one(self, reader):
        """The lines that answer the next question: one, or none where it only sets what is kept."""
        kind = reader.single_octet()
        if kind == layout.RECORD:
            self.record = record_in(reader)
            return []
        if kind == layout.BUFFER:
            self.memory = lent_memory(*reader.fields(layout.BUFFER_FIELDS))
            return []
        if kind == layout.MFRAME:
            return [self.mframe_line(reader.run(*reader.fields(layout.LENGTH_FIELD)))]
        raise ValueError(f"no question begins with octet {kind}")


def answers(questions):
    """The whole answer to a run of questions, each line ended by one LF."""
    return answered(questions, Answering().answer_one)
