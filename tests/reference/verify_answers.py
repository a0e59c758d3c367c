"""Answers questions on document 01's "Verification" and document 02's request (v) in lines of text.

The questions are read back from their octets, so that what is stored is what was answered.
"""

import verification
import verify_format as layout
from reader import answered, as_flag


def outcome(answer):
    """The words of an answer: 1 where a V is ordered, else 0, or the refusal."""
    match answer:
        case verification.Went(ordered):
            return str(int(ordered))
        case verification.Refused(number):
            return f"refused {number}"


def words(record):
    """The record's five numbers, in the order of the question that sets it."""
    return f"{record.phase.value} {record.attempt} {record.left} {int(record.owed)} {record.wait}"


class Answering:
    """The kept record, and the lines that answer one question after the other."""

    def __init__(self):
        self.record = verification.fresh()

    def answer_one(self, reader):
        """The lines that answer the next question: one, or none where it only sets what is kept."""
        kind = reader.single_octet()
        if kind == layout.RECORD:
            phase, attempt, left, owed, wait = reader.fields(layout.RECORD_FIELDS)
            self.record = verification.VerificationRecord(verification.Phase(phase), attempt, left, as_flag(owed), wait)
            return []
        if kind == layout.EVENT:
            event, wait = reader.fields(layout.EVENT_FIELDS)
            answer, self.record = verification.happen(self.record, verification.Event(event), wait)
            return [f"{outcome(answer)} {words(self.record)}"]
        raise ValueError(f"no question begins with octet {kind}")


def answers(questions):
    """The whole answer to a run of questions, each line ended by one LF."""
    return answered(questions, Answering().answer_one)
