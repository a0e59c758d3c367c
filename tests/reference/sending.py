"""The sending side: document 01, "Sending".

Each call is lent memory and writes one mFrame to its front. What a preemptable call
must know from one mFrame to the next is in its record, which is handed in and back.
"""

from dataclasses import dataclass, replace

import codes
import crc
import mframe
from cut import WHOLE, cut

# However short the mFrame: room for the longest is always asked for.
LEAST_ROOM = mframe.LONGEST_SENT

# A frame in progress has sent no less, and has no less of its body left.
LEAST_SENT = 60
LEAST_LEFT = 60

BUFFER_SHORT = 30
RECORD_OUT_OF_RANGE = 31
BODY_LENGTH = 32
OTHER_LENGTH_THAN_BEGUN = 33
HELD = 34

# Where a call carries no ask; otherwise the ask is the number t.
NO_ASK = None


@dataclass(frozen=True)
class SendingRecord:
    """What the preemptable call keeps. The last three fields are 0 when no frame is in progress."""

    active: bool
    hold: bool
    extra: int
    next_frame_count: int
    length: int
    sent: int
    next_fragment_count: int

    def in_progress(self):
        return self.length != 0


def fresh(active=False, hold=False, extra=0):
    """Both counts 0 and no frame in progress; document 01 leaves the three settings open."""
    return SendingRecord(active, hold, extra, 0, 0, 0, 0)


@dataclass(frozen=True)
class Sent:
    """An mFrame was written: its length in octets, and whether the frame is done with it."""

    length: int
    done: bool


@dataclass(frozen=True)
class Refused:
    """Nothing was written, for the reason with this number."""

    number: int


def in_range(record):
    """Whether each field of the record is one that document 01 allows."""
    if record.extra > 3 or record.next_frame_count > 3:
        return False
    if not record.in_progress():
        return record.sent == 0 and record.next_fragment_count == 0
    return (mframe.LEAST_BODY <= record.length <= mframe.GREATEST_BODY
            and LEAST_SENT <= record.sent <= record.length - LEAST_LEFT
            and record.next_fragment_count <= 3)


def first_of(refusals):
    """The number of the first refusal that applies, or None; they are given in the table's order."""
    return next((number for number, applies in refusals if applies), None)


def buffer_refusal(room):
    return (BUFFER_SHORT, room < LEAST_ROOM)


def body_refusal(body):
    return (BODY_LENGTH, not mframe.LEAST_BODY <= len(body) <= mframe.GREATEST_BODY)


def preemptable_refusal(room, record, body):
    return first_of([
        buffer_refusal(room),
        (RECORD_OUT_OF_RANGE, not in_range(record)),
        body_refusal(body),
        (OTHER_LENGTH_THAN_BEGUN, record.in_progress() and len(body) != record.length),
        (HELD, record.active and record.hold),
    ])


def written(memory, octets, done):
    """Lays the mFrame at the memory's front; what is behind it stays."""
    memory[:len(octets)] = octets
    return Sent(len(octets), done)


def express(memory, body):
    """Sends a whole express frame."""
    number = first_of([buffer_refusal(len(memory)), body_refusal(body)])
    if number is not None:
        return Refused(number)
    return written(memory, mframe.express(body), done=True)


def verify(memory):
    """Sends a V."""
    number = first_of([buffer_refusal(len(memory))])
    return written(memory, mframe.verify(), done=True) if number is None else Refused(number)


def respond(memory):
    """Sends an R."""
    number = first_of([buffer_refusal(len(memory))])
    return written(memory, mframe.respond(), done=True) if number is None else Refused(number)


def preemptable(memory, record, body, ask):
    """Sends the next part of a preemptable frame; gives the answer and the record afterwards.

    The body is the whole one each time, and the check is taken anew over all of it that
    was sent: the record holds no check.
    """
    body = bytes(body)
    number = preemptable_refusal(len(memory), record, body)
    if number is not None:
        return Refused(number), record
    if not record.active and not record.in_progress():
        return written(memory, mframe.express(body), done=True), record

    asked = record.active and ask is not NO_ASK
    carried = cut(len(body) + crc.CHECK_OCTETS, record.sent, record.extra, asked, ask)
    done = carried is WHOLE
    sent_after = len(body) if done else record.sent + carried
    data = body[record.sent:sent_after]
    check = crc.fcs(body) if done else crc.mcrc(body[:sent_after])

    if record.in_progress():
        # The frame's own count is the one before the record's, which moved on with the S.
        frame_count = codes.previous_frame_count(record.next_frame_count)
        octets = mframe.continuation(frame_count, record.next_fragment_count, data, check)
        after = replace(record, next_fragment_count=codes.next_fragment_count(record.next_fragment_count))
    else:
        octets = mframe.start(record.next_frame_count, data, check)
        # The first continuation is number 0.
        after = replace(record, next_frame_count=codes.next_frame_count(record.next_frame_count),
                        next_fragment_count=0)

    if done:
        after = replace(after, length=0, sent=0, next_fragment_count=0)
    else:
        after = replace(after, length=len(body), sent=sent_after)
    return written(memory, octets, done), after
