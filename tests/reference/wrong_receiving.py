"""Receivers that are wrong in one rule of document 02's request (vi) each: heads, the order of refusals, lengths, places.

Each is a patch of receiving.py. The stored receiving questions must tell every one of them from the right one.
"""

import re
from dataclasses import replace
from unittest import mock

import codes
import crc
import receiving
from receiving import (BUFFER_SHORT, DELIMITER_UNKNOWN, FRAGMENT_CODE_UNKNOWN, MFRAME_LONG, MFRAME_SHORT,
                       PREAMBLE_LONG, RECORD_OUT_OF_RANGE, REFUSALS, Answer, Head)

# The answer that is not given any more.
OUT_OF_PLACE = 16

RIGHT_HEAD = receiving.head_of
RIGHT_REFUSAL = receiving.refusal
RIGHT_BODY = receiving.express_body
RIGHT_COUNTERS = receiving.counters_after
RIGHT_RECEIVE = receiving.receive

APPLIES = dict(REFUSALS)
KNOWN = bytes(delimiter.code for delimiter in codes.DELIMITERS)


def replaced(name, wrong):
    return lambda: mock.patch.object(receiving, name, wrong)


def testing(number, test):
    """Another test of the head in the place of the one with this number."""
    return replaced("REFUSALS", tuple((other, (lambda _room, _assembly, head: test(head)) if other == number else right)
                                      for other, right in REFUSALS))


def tested_first(number, test):
    """This number is the answer where the test applies to the head and no 10 or 11 comes before."""
    return replaced("REFUSALS", (*REFUSALS[:2], (number, lambda _room, _assembly, head: test(head)), *REFUSALS[2:]))


def is_continuation(head):
    return head.is_of(codes.CONTINUATION)


def is_other(head):
    return isinstance(head.delimiter, codes.Delimiter) and not is_continuation(head)


def ends_before_the_delimiter(head):
    return head.delimiter is None


def ends_before_the_fragment_code(head):
    return is_continuation(head) and head.fragment_code is None


# Wrong in how many octets 55 they take, and before what.
PREAMBLES = {
    "no more than six octets 55": testing(PREAMBLE_LONG, lambda head: head.preamble > 6),
    "eight octets 55 are taken": testing(PREAMBLE_LONG, lambda head: head.preamble > 8),
    "any number of octets 55 is taken": testing(PREAMBLE_LONG, lambda head: False),
    "eight octets 55 alone are 14": testing(PREAMBLE_LONG, lambda head: head.preamble == 8),
    "from nine octets 55 on it is 13": tested_first(MFRAME_LONG, lambda head: head.preamble > 8),
    "a delimiter without octets 55 is 14": testing(PREAMBLE_LONG, lambda head: not 1 <= head.preamble <= 7),
    "a delimiter without octets 55 is 12": tested_first(MFRAME_SHORT, lambda head: head.preamble == 0),
    "one octet 55 is 14": testing(PREAMBLE_LONG, lambda head: head.preamble in (1, *range(8, 5000))),
    "fewer than six octets 55 are 14": testing(PREAMBLE_LONG, lambda head: not 6 <= head.preamble <= 7),
    "fewer than seven octets 55 before E, S, V and R are 14": testing(
        PREAMBLE_LONG, lambda head: head.preamble > 7 or (is_other(head) and head.preamble < 7)),
    "seven octets 55 before a continuation are 14": testing(
        PREAMBLE_LONG, lambda head: head.preamble > 6 + (not is_continuation(head))),
    "seven octets 55 before a continuation are 16": tested_first(
        OUT_OF_PLACE, lambda head: is_continuation(head) and head.preamble == 7),
    "six octets 55 before E, S, V and R are 16": tested_first(
        OUT_OF_PLACE, lambda head: is_other(head) and head.preamble == 6),
    "a shortened continuation is 16": tested_first(
        OUT_OF_PLACE, lambda head: is_continuation(head) and head.preamble < 6),
    "eight octets 55 before a continuation are taken": testing(
        PREAMBLE_LONG, lambda head: head.preamble > 7 + is_continuation(head)),
    "octets 55 alone are 14 from seven on": testing(
        PREAMBLE_LONG, lambda head: head.preamble > 7 or (ends_before_the_delimiter(head) and head.preamble == 7)),
    "octets 55 alone are never 14": testing(
        PREAMBLE_LONG, lambda head: head.preamble > 7 and not ends_before_the_delimiter(head)),
}


def tested_before(first, second):
    """Where both numbers apply, and none that comes before them, the answer is the one that must come later."""
    def refusal(room, assembly, head):
        right = RIGHT_REFUSAL(room, assembly, head)
        if right is None or right.number != second or not APPLIES[first](room, assembly, head):
            return right
        return Answer(first, head.delimiter.differing_bits if first == DELIMITER_UNKNOWN else 0)
    return replaced("refusal", refusal)


def in_order(*order):
    return replaced("REFUSALS", tuple((number, APPLIES[number]) for number in order))


# What can apply together with a number and comes behind it. 15 and 17 cannot both apply, nor can 12 and 13.
BEHIND = {BUFFER_SHORT: (11, 14, 15, 17, 12, 13), RECORD_OUT_OF_RANGE: (14, 15, 17, 12, 13),
          PREAMBLE_LONG: (15, 17, 12, 13), DELIMITER_UNKNOWN: (12, 13), FRAGMENT_CODE_UNKNOWN: (12, 13)}

# Wrong in the order.
ORDER = {
    **{f"{first} before {second}": tested_before(first, second) for second, behind in BEHIND.items() for first in behind},
    "the order of document 01": in_order(10, 11, 12, 13, 14, 15, 17),
}


def in_place_of_12(answer, applies):
    """What ends too early has another answer where this applies to the head."""
    def refusal(room, assembly, head):
        right = RIGHT_REFUSAL(room, assembly, head)
        return answer if right == Answer(MFRAME_SHORT) and applies(head) else right
    return replaced("refusal", refusal)


# Wrong in what they answer where the octets end in the head.
ENDS = {
    "no delimiter is 14": in_place_of_12(Answer(PREAMBLE_LONG), ends_before_the_delimiter),
    "no delimiter is 15": in_place_of_12(Answer(DELIMITER_UNKNOWN), ends_before_the_delimiter),
    "no delimiter is 15 with the bits of 55": in_place_of_12(Answer(DELIMITER_UNKNOWN, 1), ends_before_the_delimiter),
    "no octets at all are 14": in_place_of_12(Answer(PREAMBLE_LONG), lambda head: head == Head(0, None, None, b"")),
    "no octets at all are 13": in_place_of_12(Answer(MFRAME_LONG), lambda head: head == Head(0, None, None, b"")),
    "no fragment code is 17": in_place_of_12(Answer(FRAGMENT_CODE_UNKNOWN), ends_before_the_fragment_code),
    "no fragment code is 15": in_place_of_12(Answer(DELIMITER_UNKNOWN), ends_before_the_fragment_code),
    "nothing behind a fragment code is 17": in_place_of_12(
        Answer(FRAGMENT_CODE_UNKNOWN), lambda head: head.fragment_code is not None and head.behind == b""),
    "nothing behind a delimiter is 15": in_place_of_12(
        Answer(DELIMITER_UNKNOWN), lambda head: is_other(head) and head.behind == b""),
}


def over_all(octets_behind, head):
    """How many octets there are in all."""
    return head.preamble + 1 + is_continuation(head) + octets_behind


# Wrong in the lengths, given how many octets stand behind the header and the head.
def too_short(test):
    return testing(MFRAME_SHORT, lambda head: test(len(head.behind), head))


def too_long(test):
    return testing(MFRAME_LONG, lambda head: test(len(head.behind), head))


LENGTHS = {
    "63 octets behind the header are enough": too_short(lambda behind, _: behind < 63),
    "64 octets behind the header are too few": too_short(lambda behind, _: behind < 65),
    "72 octets in all": too_short(lambda behind, head: over_all(behind, head) < 72),
    "65 octets in all are enough": too_short(lambda behind, head: over_all(behind, head) < 65),
    "64 octets behind place 7": too_short(lambda behind, head: over_all(behind, head) - 8 < 64),
    "of a continuation the fragment code is among the 64": too_short(
        lambda behind, head: behind + is_continuation(head) < 64),
    "the delimiter is among the 64": too_short(lambda behind, _: behind + 1 < 64),
    "nothing is too short": too_short(lambda behind, head: head.delimiter is None
                                      or ends_before_the_fragment_code(head)),
    "1,522 octets behind the header are too many": too_long(lambda behind, _: behind > 1521),
    "1,523 octets behind the header are taken": too_long(lambda behind, _: behind > 1523),
    "1,530 octets in all are the most": too_long(lambda behind, head: behind > 1522 or over_all(behind, head) > 1530),
    "1,530 octets in all, wherever the header ends": too_long(lambda behind, head: over_all(behind, head) > 1530),
    "1,531 octets in all, wherever the header ends": too_long(lambda behind, head: over_all(behind, head) > 1531),
    "1,522 octets behind place 7": too_long(lambda behind, head: over_all(behind, head) - 8 > 1522),
    "of a continuation the fragment code is among the 1,522": too_long(
        lambda behind, head: behind + is_continuation(head) > 1522),
    "a continuation may have 1,523": too_long(lambda behind, head: behind - is_continuation(head) > 1522),
    "nothing is too long": too_long(lambda *_: False),
}


def delimiter_at(octets, place):
    """The head of octets whose delimiter is at this place, whatever stands before it."""
    code = octets[place:place + 1]
    head = RIGHT_HEAD(code + octets[place + 1:]) if code != b"\x55" else Head(0, codes.as_delimiter(0x55), None, b"")
    return head._replace(preamble=place)


def at_place_6_or_7(octets):
    """The delimiter where document 01 has it."""
    return delimiter_at(octets, 7 if octets[6:7] == b"\x55" else 6)


def behind_seven_at_most(octets):
    """Seven octets 55 are taken off and no more, so that an eighth is an unknown delimiter."""
    return delimiter_at(octets, min(RIGHT_HEAD(octets).preamble, 7))


def at_the_first_known(octets):
    """Whatever is none of the eleven is skipped."""
    found = re.search(b"[" + re.escape(KNOWN) + b"]", octets)
    return delimiter_at(octets, found.start()) if found else RIGHT_HEAD(octets)


def behind_the_last_leading(octets):
    """Of the first eight octets the last 55 ends the preamble, whatever stands before it."""
    return delimiter_at(octets, octets[:7].rfind(b"\x55") + 1)


def changed_head(change):
    """The right head, changed: given the octets and the head."""
    return replaced("head_of", lambda octets: change(octets, RIGHT_HEAD(octets)))


def behind_from(place, applies=lambda head: True):
    """What stands behind the header begins at a place that is worked out from the head, where it applies to it."""
    return changed_head(lambda octets, head: head._replace(behind=octets[place(head):]) if applies(head) else head)


def with_fragment_code_at_7(octets, head):
    return head._replace(fragment_code=octets[7] if is_continuation(head) and len(octets) > 7 else head.fragment_code)


def with_fragment_code_behind_six_alone(octets, head):
    """A continuation has its fragment code where six octets 55 come before it, else the count is 0."""
    if not is_continuation(head) or head.preamble == 6:
        return head
    return head._replace(fragment_code=codes.fragment_code(0), behind=octets[head.preamble + 1:])


# Wrong in where they find the head and what belongs to it.
HEADS = {
    "the delimiter at place 6 or 7": replaced("head_of", at_place_6_or_7),
    "the delimiter at place 7": replaced("head_of", lambda octets: delimiter_at(octets, 7)),
    "an eighth octet 55 is an unknown delimiter": replaced("head_of", behind_seven_at_most),
    "unknown octets before a delimiter are skipped": replaced("head_of", at_the_first_known),
    "other octets among the 55s are skipped": replaced("head_of", behind_the_last_leading),
    "54 is taken for 55": changed_head(lambda octets, _: RIGHT_HEAD(
        b"\x55" * (len(octets) - len(octets.lstrip(b"\x54\x55"))) + octets.lstrip(b"\x54\x55"))),
    "octets 55 behind the delimiter are stripped": changed_head(
        lambda _, head: head._replace(behind=head.behind.lstrip(b"\x55"))),
    "a second delimiter behind the first is stripped": changed_head(
        lambda _, head: head._replace(behind=head.behind[head.behind[:1] == b"\xD5":])),
    "the fragment code is at place 7": changed_head(with_fragment_code_at_7),
    "a fragment code behind six octets 55 alone": changed_head(with_fragment_code_behind_six_alone),
    "a fragment code of 55 is skipped": changed_head(
        lambda octets, head: RIGHT_HEAD(octets[:head.preamble + 1] + octets[head.preamble + 2:])
        if head.fragment_code == 0x55 else head),
    "the header of E ends at place 8": behind_from(lambda _: 8, lambda head: head.is_of(codes.EXPRESS)),
    "the header of S ends at place 8": behind_from(lambda _: 8, lambda head: head.is_of(codes.START)),
    "the header of C ends at place 8": behind_from(lambda _: 8, is_continuation),
    "the header of V and R ends at place 8": behind_from(
        lambda _: 8, lambda head: head.is_of(codes.VERIFY) or head.is_of(codes.RESPOND)),
    "every header ends at place 8": behind_from(lambda _: 8),
    "the fragment code is data": behind_from(lambda head: head.preamble + 1, is_continuation),
    "the delimiter is data": behind_from(lambda head: head.preamble, is_other),
    "S has a fragment code as well": behind_from(lambda head: head.preamble + 2, lambda head: head.is_of(codes.START)),
}


def checked_from(place):
    """The check is taken over other octets than those that are handed on: given the octets and the head."""
    def receive(memory, record, octets):
        octets = bytes(octets)
        moved = octets[place(RIGHT_HEAD(octets)):]
        right = crc.ending
        with mock.patch.object(crc, "ending", lambda register, behind: right(register, moved)):
            return RIGHT_RECEIVE(memory, record, octets)
    return replaced("receive", receive)


def kept_from(place):
    """The data of S and C are laid in the memory from another place of the mFrame on: given the head."""
    def receive(memory, record, octets):
        octets = bytes(octets)
        head = RIGHT_HEAD(octets)
        answer, after = RIGHT_RECEIVE(memory, record, octets)
        if answer.number in (receiving.PREEMPTABLE_DELIVERED, receiving.FRAGMENT_KEPT):
            begin = answer.detail - (len(head.behind) - crc.CHECK_OCTETS)
            memory[begin:answer.detail] = (octets[place(head):] + octets)[:answer.detail - begin]
        return answer, after
    return replaced("receive", receive)


def body_at(place):
    """The express body is handed back from another place on, with the right length: given the octets' preamble."""
    def express_body(octets):
        begin, length = RIGHT_BODY(octets)
        return (place(begin - 1), length) if length else (0, 0)
    return replaced("express_body", express_body)


def body_only_behind(*preambles):
    """The express body is handed back behind so many octets 55 alone."""
    return replaced("express_body", lambda octets: RIGHT_BODY(octets) if RIGHT_HEAD(octets).preamble in preambles
                    else (0, 0))


# Wrong in what they check, and in the part of the mFrame that they hand back.
PARTS = {
    "the check from place 8 on": checked_from(lambda _: 8),
    "the check from the front on": checked_from(lambda _: 0),
    "the check from the delimiter on": checked_from(lambda head: head.preamble),
    "the check from one behind the delimiter on": checked_from(lambda head: head.preamble + 1),
    "the octets kept from place 8 on": kept_from(lambda _: 8),
    "the octets kept from the front on": kept_from(lambda _: 0),
    "the octets kept from the delimiter on": kept_from(lambda head: head.preamble),
    "the body from place 8 on": body_at(lambda _: 8),
    "the body from the delimiter on": body_at(lambda preamble: preamble),
    "the body from the front on": body_at(lambda _: 0),
    "the body from one too late": body_at(lambda preamble: preamble + 2),
    "no body behind fewer than seven octets 55": body_only_behind(7),
    "no body where there is no 55": body_only_behind(*range(1, 8)),
    "as long a body as behind a header of eight octets": replaced(
        "express_body", lambda octets: (RIGHT_BODY(octets)[0], max(0, len(octets) - 12) if RIGHT_BODY(octets)[1] else 0)),
}


def also_counting(*numbers):
    """These count as delimiter errors as well."""
    def counters_after(counters, assembling, kind, number):
        return RIGHT_COUNTERS(counters, assembling, kind, DELIMITER_UNKNOWN if number in numbers else number)
    return replaced("counters_after", counters_after)


def not_counting(*numbers):
    """These do not count as delimiter errors."""
    def counters_after(counters, assembling, kind, number):
        return RIGHT_COUNTERS(counters, assembling, kind, MFRAME_SHORT if number in numbers else number)
    return replaced("counters_after", counters_after)


def shortened_and(answered):
    """What is shortened and not refused is answered otherwise: given the right answer and the records before and after."""
    def receive(memory, record, octets):
        answer, after = RIGHT_RECEIVE(memory, record, octets)
        if answer.number < 10 and RIGHT_HEAD(bytes(octets)).preamble < 6:
            return answered(answer, record, after)
        return answer, after
    return replaced("receive", receive)


def counted(answer, _record, after):
    errors = (after.counters.delimiter_errors + 1) % receiving.COUNTER_VALUES
    return answer, replace(after, counters=replace(after.counters, delimiter_errors=errors))


# Wrong in what they count, and in the answer to a shortened mFrame and its detail.
ANSWERS = {
    "14 counts as a delimiter error": also_counting(PREAMBLE_LONG),
    "12 counts as a delimiter error": also_counting(MFRAME_SHORT),
    "13 counts as a delimiter error": also_counting(MFRAME_LONG),
    "15 does not count": not_counting(DELIMITER_UNKNOWN),
    "17 does not count": not_counting(FRAGMENT_CODE_UNKNOWN),
    "a shortened mFrame counts as a delimiter error": shortened_and(counted),
    "a shortened mFrame changes nothing": shortened_and(lambda answer, record, _after: (answer, record)),
    "a shortened mFrame has no detail": shortened_and(lambda answer, _record, after: (Answer(answer.number), after)),
    "an unknown delimiter has the bits of 55": changed_head(lambda _, head: head._replace(
        delimiter=codes.Unknown(1)) if isinstance(head.delimiter, codes.Unknown) else head),
    "a delimiter with one bit wrong is taken for E": changed_head(lambda _, head: head._replace(
        delimiter=codes.as_delimiter(0xD5)) if head.delimiter == codes.Unknown(1) else head),
}


def behind_one_number(preamble, kind):
    """Wrong where exactly so many octets 55 stand before a delimiter of this kind, and only there."""
    def meant(head):
        return head.preamble == preamble and head.is_of(kind)

    where = f"of {kind} behind {preamble} octets 55"
    if preamble > 7:
        return {f"{where} nothing is 14": testing(PREAMBLE_LONG, lambda head: head.preamble > 7 and not meant(head))}
    return {
        f"{where} all is 14": testing(PREAMBLE_LONG, lambda head: head.preamble > 7 or meant(head)),
        f"{where} 63 octets are enough": too_short(lambda behind, head: behind < 64 - meant(head)),
        f"{where} 64 octets are too few": too_short(lambda behind, head: behind < 64 + meant(head)),
        f"{where} the header ends an octet early": behind_from(
            lambda head: head.preamble + is_continuation(head), meant),
        f"{where} 1,522 octets are too many": too_long(lambda behind, head: behind > 1522 - meant(head)),
        f"{where} 1,523 octets are taken": too_long(lambda behind, head: behind > 1522 + meant(head)),
    }


KINDS = (codes.EXPRESS, codes.START, codes.CONTINUATION, codes.VERIFY, codes.RESPOND)
NUMBERS = {name: wrong for preamble in range(10) for kind in KINDS
           for name, wrong in behind_one_number(preamble, kind).items()}

GROUPS = {"preambles": PREAMBLES, "order": ORDER, "ends in the head": ENDS, "lengths": LENGTHS, "heads": HEADS,
          "parts": PARTS, "answers": ANSWERS, "numbers": NUMBERS}
