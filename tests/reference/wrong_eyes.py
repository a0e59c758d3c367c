"""Captures for eyes that are wrong in one rule each.

Each is a patch of captures.py or of what it goes by, receiving.py, codes.py and crc.py. Tests, stored questions and
stored captures must tell every one of them from the right one. What can be wrong in any capture of a trace, whomever it
is for, is in wrong_captures.py.
"""

from dataclasses import replace
from typing import NamedTuple
from unittest import mock

import captures
import codes
import crc
import receiving
import wrong_receiving
from receiving import NOT_ASSEMBLING
from wrong_captures import replaced

RIGHT_CHECKED, RIGHT_FOR_EYES = captures.octets_checked, captures.for_eyes
RIGHT_RECEIVE, RIGHT_DROP, RIGHT_STANDARD = receiving.receive, receiving.continuation_drop, crc.standard_mcrc


class Received(NamedTuple):
    """An mFrame with its answer, the assembly before it, the lent memory after it, and what is shown of it by right."""

    content: bytes
    answer: receiving.Answer
    before: receiving.Assembly
    memory: bytes
    right: bytes

    @property
    def number(self):
        return self.answer.number

    @property
    def head(self):
        return receiving.head_of(self.content)

    @property
    def data(self):
        return self.head.behind[:-crc.CHECK_OCTETS]

    def is_of(self, *kinds):
        return any(self.head.is_of(kind) for kind in kinds)

    def with_check_over(self, octets):
        """With the standard's mCRC over other octets."""
        return captures.with_check(self.content, crc.standard_mcrc(octets))

    def inverted(self):
        """With the last four octets inverted, whatever they are."""
        end = self.content[-crc.CHECK_OCTETS:]
        return self.content[:-crc.CHECK_OCTETS] + bytes(octet ^ 0xFF for octet in end)


def received(contents):
    """Each mFrame as a fresh receiver takes them, one after the other."""
    contents = list(contents)
    memory, record = bytearray(receiving.LEAST_ROOM), receiving.fresh()
    for content, right in zip(contents, RIGHT_FOR_EYES(contents)):
        before = record.assembly
        answer, record = receiving.receive(memory, record, content)
        yield Received(content, answer, before, bytes(memory), right)


def eyes_as(change):
    """mFrames changed otherwise, each for itself."""
    return replaced("for_eyes", lambda contents: map(change, received(contents)))


def left_where(test):
    """What meets the test is left as it is."""
    return eyes_as(lambda mframe: mframe.content if test(mframe) else mframe.right)


def inverted_where(test):
    """What meets the test has its last four octets inverted, whatever they are."""
    return eyes_as(lambda mframe: mframe.inverted() if test(mframe) else mframe.right)


def over_where(test, octets):
    """What meets the test has the standard's mCRC over other octets."""
    return eyes_as(lambda mframe: mframe.with_check_over(octets(mframe)) if test(mframe) else mframe.right)


FRAGMENT, VERIFY, RESPOND = receiving.FRAGMENT_KEPT, receiving.VERIFY_HEARD, receiving.RESPOND_HEARD
# The answers to what is not changed that records of a trace can have.
OTHER_ANSWERS = (0, 1, 12, 13, 14, 15, 17, 20, 21, 22, 23, 24, 25)


def is_changed(mframe):
    return mframe.number in (FRAGMENT, VERIFY, RESPOND)


def is_fragment(mframe):
    return mframe.number == FRAGMENT


def is_verification(mframe):
    return mframe.number in (VERIFY, RESPOND)


def is_start(mframe):
    return mframe.is_of(codes.START)


def is_continuation(mframe):
    return mframe.is_of(codes.CONTINUATION)


# Another way that is right: the standard's mCRC is document 01's with every bit turned, so that nothing need be summed.
BY_INVERTING = eyes_as(lambda mframe: mframe.inverted() if is_changed(mframe) else mframe.content)


def has_check(mframe, check):
    """Whether an mFrame has this check over its own data."""
    return mframe.head.behind[-crc.CHECK_OCTETS:] == check(mframe.data)


def of_delivered_frames(contents):
    """A fragment is changed only where its frame is put together in the end."""
    shown, waiting = [], []
    for mframe in received(contents):
        if is_start(mframe):
            waiting = []
        if is_fragment(mframe):
            waiting.append((len(shown), mframe.right))
        if mframe.number == receiving.PREEMPTABLE_DELIVERED:
            for place, right in waiting:
                shown[place] = right
        shown.append(mframe.content if is_fragment(mframe) else mframe.right)
    return shown


def left_behind(test):
    """All is left as it is behind the first mFrame that meets the test."""
    def for_eyes(contents):
        met = False
        for mframe in received(contents):
            yield mframe.content if met else mframe.right
            met = met or test(mframe)
    return replaced("for_eyes", for_eyes)


# Wrong in which mFrames they change.
CHANGED = {
    "nothing is changed": left_where(lambda _: True),
    **{f"{number} is left": left_where(lambda mframe, number=number: mframe.number == number)
       for number in (FRAGMENT, VERIFY, RESPOND)},
    "V and R are left": left_where(is_verification),
    "V and R with other data are left": left_where(lambda mframe: is_verification(mframe) and any(mframe.data)),
    "V and R of another length are left": left_where(lambda mframe: is_verification(mframe) and len(mframe.data) != 60),
    "starts are left": left_where(is_start),
    "continuations are left": left_where(is_continuation),
    **{f"starts of frame count {count} are left": left_where(
        lambda mframe, count=count: is_start(mframe) and mframe.head.delimiter.frame_count == count)
       for count in range(4)},
    **{f"continuations of frame count {count} are left": left_where(
        lambda mframe, count=count: is_continuation(mframe) and mframe.head.delimiter.frame_count == count)
       for count in range(4)},
    **{f"continuations of fragment count {count} are left": left_where(
        lambda mframe, count=count: is_continuation(mframe)
        and mframe.head.fragment_code == codes.fragment_code(count)) for count in range(4)},
    **{f"{name} behind {preamble} octets 55 are left": left_where(
        lambda mframe, test=test, preamble=preamble: test(mframe) and mframe.head.preamble == preamble)
       for name, test in (("starts", is_start), ("continuations", is_continuation), ("V and R", is_verification))
       for preamble in range(8)},
    **{f"over {most} octets all is left": left_where(lambda mframe, most=most: len(mframe.content) > most)
       for most in (72, 256, 1024, 1518, 1529)},
    "what is over an open assembly is left": left_where(lambda mframe: mframe.before.assembling),
    "fragments of frames that are not put together are left": replaced("for_eyes", of_delivered_frames),
    "the first alone is changed": left_behind(is_changed),
    **{f"all is left behind a {number}": left_behind(lambda mframe, number=number: mframe.number == number)
       for number in OTHER_ANSWERS},
    **{f"{number} is changed as well": inverted_where(lambda mframe, number=number: mframe.number == number)
       for number in OTHER_ANSWERS},
    "a frame in one part is changed as well": inverted_where(lambda mframe: is_start(mframe) and mframe.number == 1),
    "the last fragment is changed as well": inverted_where(
        lambda mframe: is_continuation(mframe) and mframe.number == 1),
    "every fragment is changed": inverted_where(lambda mframe: is_start(mframe) or is_continuation(mframe)),
    "every V and R is changed": inverted_where(lambda mframe: mframe.is_of(codes.VERIFY, codes.RESPOND)),
    "all but E is changed": inverted_where(lambda mframe: not mframe.is_of(codes.EXPRESS)),
    "all is changed": inverted_where(lambda _: True),
    "an mCRC over the mFrame's own data decides": eyes_as(
        lambda mframe: mframe.inverted() if has_check(mframe, crc.mcrc) else mframe.content),
    "E with an mCRC is changed as well": inverted_where(
        lambda mframe: mframe.is_of(codes.EXPRESS) and has_check(mframe, crc.mcrc)),
    "a continuation with an mCRC over its own data is changed as well": inverted_where(
        lambda mframe: is_continuation(mframe) and has_check(mframe, crc.mcrc)),
    "the standard's mCRC is changed back": inverted_where(lambda mframe: has_check(mframe, RIGHT_STANDARD)),
    "wrong checks of starts are mended": over_where(
        lambda mframe: is_start(mframe) and mframe.number == 25, lambda mframe: mframe.data),
    "wrong checks of continuations are mended": over_where(
        lambda mframe: is_continuation(mframe) and mframe.number == 25,
        lambda mframe: mframe.memory[:mframe.before.kept] + mframe.data),
    "wrong checks of V and R are mended": over_where(lambda mframe: mframe.number == 21, lambda mframe: mframe.data),
}


def receiving_as(receive):
    return lambda: mock.patch.object(receiving, "receive", receive)


def receiver_with(change):
    """A receiver whose record is another afterwards: given the one before, the head, the answer and the one after."""
    def receive(memory, record, octets):
        answer, after = RIGHT_RECEIVE(memory, record, octets)
        return answer, change(record, receiving.head_of(octets), answer.number, after)
    return receiving_as(receive)


def with_assembly(test, assembly):
    """A receiver whose assembly is another where head and answer meet the test: given the assembly before and after."""
    return receiver_with(lambda record, head, number, after: replace(
        after, assembly=assembly(record.assembly, after.assembly)) if test(head, number) else after)


def going_on_behind_its_end(record, head, number, after):
    """The last fragment of a frame leaves it open, as one before it would."""
    if number != receiving.PREEMPTABLE_DELIVERED or not head.is_of(codes.CONTINUATION):
        return after
    before, data = record.assembly, head.behind[:-crc.CHECK_OCTETS]
    return replace(after, assembly=replace(
        before, next_fragment_count=codes.next_fragment_count(before.next_fragment_count), kept=before.kept + len(data),
        register=crc.register_after(before.register, data)))


def ended_where(test):
    return with_assembly(test, lambda _before, _after: NOT_ASSEMBLING)


def open_where(test):
    return with_assembly(test, lambda before, _after: before)


def dropping(drop):
    """A receiver with other tests for 22 to 25: given the assembly, both counts, the number of octets and the end."""
    return lambda: mock.patch.object(receiving, "continuation_drop", drop)


def unless_24(most):
    """Another limit of the octets kept."""
    def drop(assembly, frame_count, fragment_count, data_octets, end):
        number = RIGHT_DROP(replace(assembly, kept=0), frame_count, fragment_count, data_octets, end)
        too_long = assembly.kept + data_octets > most
        return 24 if too_long and number in (None, 25) else number
    return dropping(drop)


def with_checks_begun_anew(memory, record, octets):
    """No check goes on from the one before."""
    if record.assembly.assembling:
        record = replace(record, assembly=replace(record.assembly, register=crc.ALL_ONES))
    return RIGHT_RECEIVE(memory, record, octets)


def each_afresh(contents):
    """Each mFrame is given to a fresh receiver."""
    for content in contents:
        yield from RIGHT_FOR_EYES([content])


def with_a_cleared_buffer(memory, record, octets):
    """The buffer is not kept between two mFrames."""
    memory[:] = bytes(len(memory))
    return RIGHT_RECEIVE(memory, record, octets)


def going_on_from_trace_to_trace():
    """The receiver is not fresh where a trace begins."""
    memory, record = bytearray(receiving.LEAST_ROOM), receiving.fresh()

    def receive(lent, _record, octets):
        nonlocal record
        answer, record = RIGHT_RECEIVE(memory, record, octets)
        lent[:] = memory
        return answer, record
    return receiving_as(receive)()


# Wrong in what they keep from one mFrame to the next.
KEPT = {
    "each mFrame for itself": replaced("for_eyes", each_afresh),
    "the buffer is not kept": receiving_as(with_a_cleared_buffer),
    "the receiver goes on from trace to trace": going_on_from_trace_to_trace,
    "each check begun anew": receiving_as(with_checks_begun_anew),
    **{f"{number} ends an assembly": ended_where(lambda _head, answered, number=number: answered == number)
       for number in (0, 3, 4, 12, 13, 14, 15, 17, 20, 21)},
    **{f"a continuation answered {number} ends no assembly": open_where(
        lambda head, answered, number=number: head.is_of(codes.CONTINUATION) and answered == number)
       for number in (1, 23, 24, 25)},
    **{f"a start answered {number} ends no assembly": open_where(
        lambda head, answered, number=number: head.is_of(codes.START) and answered == number) for number in (1, 25)},
    "a frame goes on behind its end": receiver_with(going_on_behind_its_end),
    "a start over an open assembly opens none": with_assembly(
        lambda head, answered: head.is_of(codes.START) and answered == FRAGMENT,
        lambda before, after: before if before.assembling else after),
    "a start over an open assembly leaves none": with_assembly(
        lambda head, answered: head.is_of(codes.START) and answered == FRAGMENT,
        lambda before, after: NOT_ASSEMBLING if before.assembling else after),
    "the first continuation is numbered 1": with_assembly(
        lambda head, answered: head.is_of(codes.START) and answered == FRAGMENT,
        lambda _before, after: replace(after, next_fragment_count=1)),
    "the fragment count does not go round": lambda: mock.patch.object(
        codes, "next_fragment_count", lambda count: min(3, count + 1)),
    "the fragment count goes round after 3": lambda: mock.patch.object(
        codes, "next_fragment_count", lambda count: (count + 1) % 3),
    "the fragment count is not looked at": dropping(lambda assembly, frame_count, _fragment_count, *rest: RIGHT_DROP(
        assembly, frame_count, assembly.next_fragment_count, *rest)),
    "the frame count is not looked at": dropping(lambda assembly, _frame_count, *rest: RIGHT_DROP(
        assembly, assembly.frame_count, *rest)),
    **{f"{most} octets of a frame at most": unless_24(most) for most in (1458, 1517, 1519, 4000)},
}


def over(octets):
    """The standard's mCRC over other octets wherever there is to be one."""
    return over_where(is_changed, octets)


def checked(mframe):
    """What it is to be taken over."""
    return RIGHT_CHECKED(mframe.content, mframe.answer, mframe.memory)


def standard_as(change):
    """Another check in the standard's place, made of the FCS."""
    return lambda: mock.patch.object(crc, "standard_mcrc", lambda octets: bytes(change(*crc.fcs(octets))))


def checked_at(change):
    """The check in another place of the mFrame."""
    return replaced("with_check", change)


# Wrong in the check that they write, and where.
CHECKS = {
    "begun anew in each mFrame": over(lambda mframe: mframe.data),
    "without the mFrame's own data": over(lambda mframe: checked(mframe)[:-len(mframe.data)]),
    "the mFrame's own data first": over(lambda mframe: mframe.data + checked(mframe)[:-len(mframe.data)]),
    "with the check that is there": over(lambda mframe: checked(mframe) + mframe.content[-4:]),
    "with the header": over(lambda mframe: mframe.content[:-len(mframe.head.behind)] + checked(mframe)),
    "with the delimiter": over(lambda mframe: bytes([mframe.head.delimiter.code]) + checked(mframe)),
    "over the whole buffer": over(lambda mframe: mframe.memory),
    "over 60 octets": over(lambda mframe: checked(mframe)[:60]),
    "over one octet less": over(lambda mframe: checked(mframe)[:-1]),
    "over all but the first octet": over(lambda mframe: checked(mframe)[1:]),
    "of V and R over zeros": over_where(is_verification, lambda mframe: bytes(len(mframe.data))),
    "of V and R over 60 zeros": over_where(is_verification, lambda _: bytes(60)),
    "of V and R over the frame in assembly too": over_where(
        is_verification, lambda mframe: mframe.memory[:mframe.before.kept] + mframe.data),
    "of V and R over the frame in assembly": over_where(
        is_verification, lambda mframe: mframe.memory[:mframe.before.kept]),
    "the FCS": standard_as(lambda *fcs: fcs),
    **{f"octets {' and '.join(map(str, places))} of the FCS inverted": standard_as(
        lambda *fcs, places=places: [octet ^ 0xFF * (place in places) for place, octet in enumerate(fcs)])
       for places in ((0,), (1,), (2,), (3,), (0, 2), (0, 3), (1, 2), (1, 3), (0, 1, 2), (0, 1, 3), (0, 1, 2, 3))},
    "the reverse order": standard_as(lambda first, second, third, fourth: [fourth, third, second ^ 0xFF, first ^ 0xFF]),
    "the halves exchanged": standard_as(
        lambda first, second, third, fourth: [third, fourth, first ^ 0xFF, second ^ 0xFF]),
    "half of each octet inverted": standard_as(
        lambda first, second, third, fourth: [first ^ 0x0F, second ^ 0x0F, third, fourth]),
    "zeros": standard_as(lambda *_: bytes(4)),
    "behind the check that is there": checked_at(lambda content, check: content + check),
    "no check": checked_at(lambda content, _check: content[:-4]),
    "over the end of the data": checked_at(lambda content, check: content[:-8] + check + content[-4:]),
    "its first two octets alone": checked_at(lambda content, check: content[:-4] + check[:2] + content[-2:]),
    "its last two octets alone": checked_at(lambda content, check: content[:-2] + check[2:]),
    "where 72 octets end": checked_at(lambda content, check: content[:68] + check + content[72:]),
    "behind a header of 8 octets": checked_at(lambda content, check: content[:8] + check + content[12:]),
    "with a whole preamble": checked_at(lambda content, check: (b"\x55" * 7 + content.lstrip(b"\x55"))[:-4] + check),
}

# Receivers that are wrong in an mFrame's head. Which refusal it was, and what is heard of E, no capture shows.
NOT_SHOWN = ("from nine octets 55 on it is 13", "octets 55 alone are 14 from seven on", "octets 55 alone are never 14",
             "an eighth octet 55 is an unknown delimiter", "the header of E ends at place 8")
RECEIVERS = {
    **{name: wrong for group in ("preambles", "lengths", "heads")
       for name, wrong in wrong_receiving.GROUPS[group].items() if name not in NOT_SHOWN},
    **{name: wrong for name, wrong in wrong_receiving.GROUPS["parts"].items()
       if name.startswith(("the check from", "the octets kept from"))},
}

EYES = {**CHANGED, **KEPT, **CHECKS, **RECEIVERS}
