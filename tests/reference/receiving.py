"""The receiving side: document 01, "Receiving" and "Counters", with the shortened preambles of document 02, (vi).

An mFrame is first taken apart: its head, and what stands behind it. Then it is found which
number answers it, and last what that number means for the record, the counters and the lent
memory. These are kept apart, as document 01 lists them apart.
"""

from dataclasses import dataclass, replace
from typing import NamedTuple

import codes
import crc
import mframe

LEAST_ROOM = mframe.GREATEST_BODY

EXPRESS_DELIVERED = 0
PREEMPTABLE_DELIVERED = 1
FRAGMENT_KEPT = 2
VERIFY_HEARD = 3
RESPOND_HEARD = 4

BUFFER_SHORT = 10
RECORD_OUT_OF_RANGE = 11
MFRAME_SHORT = 12
MFRAME_LONG = 13
PREAMBLE_LONG = 14
DELIMITER_UNKNOWN = 15
# 16 is not given any more, since document 02, (vi) lets every delimiter stand in any place.
FRAGMENT_CODE_UNKNOWN = 17

EXPRESS_DAMAGED = 20
VERIFICATION_DAMAGED = 21
NOTHING_IN_ASSEMBLY = 22
COUNT_NOT_EXPECTED = 23
FRAME_TOO_LONG = 24
PART_DAMAGED = 25

COUNTER_VALUES = 2**32


@dataclass(frozen=True)
class Counters:
    """Document 01's four counters, in its order."""

    assembly_errors: int
    delimiter_errors: int
    assembled: int
    fragments: int


@dataclass(frozen=True)
class Assembly:
    """The five fields of the record that tell of a frame in assembly; `register` is the running CRC."""

    assembling: bool
    frame_count: int
    next_fragment_count: int
    kept: int
    register: int


@dataclass(frozen=True)
class ReceivingRecord:
    assembly: Assembly
    counters: Counters


NOT_ASSEMBLING = Assembly(False, 0, 0, 0, 0)


def fresh():
    return ReceivingRecord(NOT_ASSEMBLING, Counters(0, 0, 0, 0))


@dataclass(frozen=True)
class Answer:
    """A number of document 01's table, with its detail: body length for 0 and 1, octets kept
    for 2, bits for 15, else 0."""

    number: int
    detail: int = 0


def in_range(assembly):
    """Whether the record's assembly is one that document 01 allows. The register of an open one is not tested."""
    if not assembly.assembling:
        return assembly == NOT_ASSEMBLING
    return (assembly.frame_count <= 3 and assembly.next_fragment_count <= 3
            and mframe.LEAST_BODY <= assembly.kept <= mframe.GREATEST_BODY)


class Head(NamedTuple):
    """An mFrame taken apart. What the octets end before is None, and behind it stands nothing."""

    preamble: int
    delimiter: codes.Delimiter | codes.Unknown | None
    # The octet in the fragment code's place, which only a continuation has.
    fragment_code: int | None
    behind: bytes

    def is_of(self, kind):
        return isinstance(self.delimiter, codes.Delimiter) and self.delimiter.kind == kind


def first_and_others(octets):
    """The first octet, None where there is none, and those behind it."""
    return (octets[0] if octets else None), octets[1:]


def head_of(octets):
    """The leading octets 55 are stripped off, however many; the delimiter is the first of what is left."""
    stripped = octets.lstrip(bytes([mframe.PREAMBLE]))
    code, behind = first_and_others(stripped)
    head = Head(len(octets) - len(stripped), None if code is None else codes.as_delimiter(code), None, behind)
    if head.is_of(codes.CONTINUATION):
        fragment_code, behind = first_and_others(behind)
        head = head._replace(fragment_code=fragment_code, behind=behind)
    return head


# What is refused, in document 02's order: the number, and whether it applies, given the room of the lent memory, the
# assembly and the head. 12 is also the answer to octets that end in the head, because nothing stands behind it then.
REFUSALS = (
    (BUFFER_SHORT, lambda room, _assembly, _head: room < LEAST_ROOM),
    (RECORD_OUT_OF_RANGE, lambda _room, assembly, _head: not in_range(assembly)),
    (PREAMBLE_LONG, lambda _room, _assembly, head: head.preamble > mframe.MOST_PREAMBLE),
    (DELIMITER_UNKNOWN, lambda _room, _assembly, head: isinstance(head.delimiter, codes.Unknown)),
    (FRAGMENT_CODE_UNKNOWN, lambda _room, _assembly, head: head.fragment_code is not None
     and codes.as_fragment_count(head.fragment_code) is None),
    (MFRAME_SHORT, lambda _room, _assembly, head: len(head.behind) < mframe.LEAST_BEHIND_HEADER),
    (MFRAME_LONG, lambda _room, _assembly, head: len(head.behind) > mframe.GREATEST_BEHIND_HEADER),
)


def refusal(room, assembly, head):
    """The answer from 10 to 17 that applies, the first in the order, or None."""
    number = next((number for number, applies in REFUSALS if applies(room, assembly, head)), None)
    if number is None:
        return None
    return Answer(number, head.delimiter.differing_bits if number == DELIMITER_UNKNOWN else 0)


def whole_answer(kind, behind):
    """The answer to an unrefused E, V or R. For E only the FCS is good, for V and R only the mCRC."""
    end = crc.ending(crc.ALL_ONES, behind)
    if kind == codes.EXPRESS:
        if isinstance(end, crc.Done):
            return Answer(EXPRESS_DELIVERED, end.data_octets)
        return Answer(EXPRESS_DAMAGED)
    if isinstance(end, crc.More):
        return Answer(VERIFY_HEARD if kind == codes.VERIFY else RESPOND_HEARD)
    return Answer(VERIFICATION_DAMAGED)


def continuation_drop(assembly, frame_count, fragment_count, data_octets, end):
    """The number from 22 to 25 that applies to a continuation, tested in this order, or None."""
    drops = [
        (NOTHING_IN_ASSEMBLY, not assembly.assembling),
        (COUNT_NOT_EXPECTED, frame_count != assembly.frame_count
         or fragment_count != assembly.next_fragment_count),
        (FRAME_TOO_LONG, assembly.kept + data_octets > mframe.GREATEST_BODY),
        (PART_DAMAGED, isinstance(end, crc.Damaged)),
    ]
    return next((number for number, applies in drops if applies), None)


def part_answer(assembly, head):
    """The answer to an unrefused S or C, and the assembly afterwards."""
    is_start = head.is_of(codes.START)
    frame_count = head.delimiter.frame_count
    # A start opens a fresh assembly, whatever was open before.
    register, kept = (crc.ALL_ONES, 0) if is_start else (assembly.register, assembly.kept)
    end = crc.ending(register, head.behind)
    if is_start:
        drop = PART_DAMAGED if isinstance(end, crc.Damaged) else None
        next_fragment_count = 0
    else:
        fragment_count = codes.as_fragment_count(head.fragment_code)
        data_octets = len(head.behind) - crc.CHECK_OCTETS
        drop = continuation_drop(assembly, frame_count, fragment_count, data_octets, end)
        next_fragment_count = codes.next_fragment_count(fragment_count)
    if drop is not None:
        return Answer(drop), NOT_ASSEMBLING
    kept += end.data_octets
    if isinstance(end, crc.Done):
        return Answer(PREEMPTABLE_DELIVERED, kept), NOT_ASSEMBLING
    return Answer(FRAGMENT_KEPT, kept), Assembly(True, frame_count, next_fragment_count, kept, end.register)


def counters_after(counters, assembling, kind, number):
    """The counters after an answer, each by its line in document 01's list.

    `assembling` is whether an assembly was open before, `kind` what kind of mFrame it was,
    None for a refused one.
    """
    abandoned = assembling and (kind == codes.START
                                or number in (COUNT_NOT_EXPECTED, FRAME_TOO_LONG, PART_DAMAGED))
    damaged_start = kind == codes.START and number == PART_DAMAGED
    delimiter_error = number in (DELIMITER_UNKNOWN, FRAGMENT_CODE_UNKNOWN, NOTHING_IN_ASSEMBLY)
    # What a continuation completes took two mFrames or more; what a start completes took one.
    assembled = kind == codes.CONTINUATION and number == PREEMPTABLE_DELIVERED
    fragment = kind == codes.CONTINUATION and number in (PREEMPTABLE_DELIVERED, FRAGMENT_KEPT)
    return Counters(
        (counters.assembly_errors + abandoned + damaged_start) % COUNTER_VALUES,
        (counters.delimiter_errors + delimiter_error) % COUNTER_VALUES,
        (counters.assembled + assembled) % COUNTER_VALUES,
        (counters.fragments + fragment) % COUNTER_VALUES,
    )


def receive(memory, record, octets):
    """Takes one mFrame; gives the answer and the record afterwards. The lent memory is written to in place."""
    head = head_of(bytes(octets))
    assembly = record.assembly
    answer = refusal(len(memory), assembly, head)
    kind = None
    if answer is None:
        kind = head.delimiter.kind
        if kind in (codes.START, codes.CONTINUATION):
            answer, assembly = part_answer(record.assembly, head)
        else:
            answer = whole_answer(kind, head.behind)
    if answer.number in (PREEMPTABLE_DELIVERED, FRAGMENT_KEPT):
        data = head.behind[:-crc.CHECK_OCTETS]
        memory[answer.detail - len(data):answer.detail] = data
    counters = counters_after(record.counters, record.assembly.assembling, kind, answer.number)
    return answer, replace(record, assembly=assembly, counters=counters)


def express_body(octets):
    """Where in the mFrame the express body begins and how long it is.

    It is what stands between the header and the last four octets if a fresh record and 1,518
    octets of memory would give answer 0, else the empty part at the front.
    """
    answer, _ = receive(bytearray(LEAST_ROOM), fresh(), octets)
    if answer.number != EXPRESS_DELIVERED:
        return 0, 0
    behind = head_of(bytes(octets)).behind
    return len(octets) - len(behind), len(behind) - crc.CHECK_OCTETS
