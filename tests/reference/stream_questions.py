"""The questions asked about document 02's request (iv), the octets that come one at a time, with the limit of (vi).

Answers are not looked at here. Only what is kept is followed with the reference, so that it is set anew where a
question needs another state or record. mFrames are put together as for the receiving questions.
"""

from dataclasses import replace
from itertools import product

import codes
import exchange
import mframe
from chance import Chance
from octet_by_octet import END, MOST_OCTETS, State
from reader import LONGEST_RUN, lent_memory
from receive_format import buffer_question, record_question
from receive_questions import (DAMAGED, DONE, EXPRESS_CODE, GOOD_PREAMBLES, MORE, PREAMBLES, RESPOND_CODE, VERIFY_CODE,
                               YES_AND_NO, closed, continuation, each_kind, fitting, late, of_length, open_assembly,
                               start)
from receiving import LEAST_ROOM, NOT_ASSEMBLING, Counters, ReceivingRecord
from stream_answers import Answering
from stream_format import area_question, end_question, octets_question, state_question

SEED = 8060

AREAS = (0, 1, MOST_OCTETS - 1, MOST_OCTETS, MOST_OCTETS + 1, LONGEST_RUN)

# About the limit, and such that are below it where only their low bits, or a sign, are looked at.
COUNTS = (0, 1, MOST_OCTETS - 1, MOST_OCTETS, MOST_OCTETS + 1, MOST_OCTETS + 2, 2**8 + MOST_OCTETS, 2**16,
          2**16 + MOST_OCTETS, 2**31, 2**32 - 1)

UNSOUND = (State(MOST_OCTETS + 1, False), State(MOST_OCTETS + 1, True), State(0, True), State(40, True),
           State(MOST_OCTETS - 1, True), State(2**32 - 1, False))


class Script:
    """Questions one after the other, with all that is kept as they lead to it."""

    def __init__(self):
        self.questions = []
        self.kept = Answering()

    def set_record(self, assembly=NOT_ASSEMBLING, counters=Counters(0, 0, 0, 0)):
        self.kept.record = ReceivingRecord(assembly, counters)
        self.questions.append(record_question(self.kept.record))

    def set_buffer(self, room, fill):
        self.kept.memory = lent_memory(room, fill)
        self.questions.append(buffer_question(room, fill))

    def set_area(self, room, fill):
        self.kept.area = lent_memory(room, fill)
        self.questions.append(area_question(room, fill))

    def set_state(self, count, more=False):
        self.kept.state = State(count, more)
        self.questions.append(state_question(self.kept.state))

    def want(self, assembly):
        """Sets the record where it does not hold this assembly already; the counters stay."""
        if self.kept.record.assembly != assembly:
            self.set_record(assembly, self.kept.record.counters)

    def give(self, octets):
        """One question."""
        self.questions.append(octets_question(octets))
        for octet in octets:
            self.kept.call(octet)

    def give_in_pieces(self, octets, longest=LONGEST_RUN):
        """As many questions as it takes with so many octets in each."""
        for place in range(0, len(octets), longest):
            self.give(octets[place:place + longest])

    def end(self):
        self.questions.append(end_question())
        self.kept.call(END)

    def mframe(self, octets, longest=LONGEST_RUN):
        """Octets and their end."""
        self.give_in_pieces(octets, longest)
        self.end()

    def one_of_another_value(self):
        """An octet that stands neither where the next one goes nor about that place, where memory is as it was lent."""
        place = min(self.kept.state.count, len(self.kept.area) - 1)
        return bytes([(self.kept.area[place] + 100) % 256])


# Heads with which an mFrame is refused, however long it is: too many octets 55, unknown delimiters, unknown fragment codes.
REFUSED_HEADS = (mframe.header(8, EXPRESS_CODE), mframe.header(9, 0x00), mframe.header(MOST_OCTETS),
                 mframe.header(7, 0xAD), mframe.header(0, 0x00), mframe.header(3, 0x54),
                 mframe.header(7, codes.continuation_code(0), 0x00), mframe.header(0, codes.continuation_code(3), 0x55))

# Heads with which one is only too long.
OTHER_HEADS = (mframe.header(7, EXPRESS_CODE), mframe.header(0, codes.start_code(1)), mframe.header(0, RESPOND_CODE),
               mframe.header(7, codes.continuation_code(0), codes.fragment_code(0)))


def longest_express(chance):
    """E of as many octets as E can have: one fewer than there are places."""
    return late(EXPRESS_CODE, chance.octets(mframe.GREATEST_BODY), DONE)


def longest_mframe(chance, assembly=NOT_ASSEMBLING):
    """C behind seven octets 55 with as many octets as an mFrame can have. It is always dropped: nothing has room for it."""
    return fitting(assembly, chance.octets(mframe.GREATEST_BODY), MORE, preamble=7)


def areas_and_counts(script, chance):
    """18 and 19 at both sides, before each other and before 10 and 11, for an octet, for several and for an end."""
    good = open_assembly(chance, 1, 1, 90)
    for assembly, room in product((good, replace(good, kept=59)), (LEAST_ROOM, LEAST_ROOM - 1)):
        script.set_record(assembly, Counters(1, 2, 3, 4))
        script.set_buffer(room, 7)
        for area in AREAS:
            script.set_area(area, area % 256)
            for count, more in product(COUNTS, YES_AND_NO):
                for octets in (b"\xEE", b"\xDD\xCC\xBB"):
                    script.set_state(count, more)
                    script.give(octets)
                script.set_state(count, more)
                script.end()
    script.set_record()
    script.set_buffer(LEAST_ROOM, 7)
    script.set_state(0)


def every_count(script, _):
    """One octet at each state that counts no more than it may: no other place of the area has it."""
    script.set_area(MOST_OCTETS + 1, 33)
    for count in range(MOST_OCTETS + 1):
        script.set_state(count)
        script.give(script.one_of_another_value())
    script.set_state(MOST_OCTETS, True)
    script.give(script.one_of_another_value())
    # The same from the last place to the first, in an area that has none to spare.
    script.set_area(MOST_OCTETS, 200)
    for count in range(MOST_OCTETS, -1, -17):
        script.set_state(count)
        script.give(script.one_of_another_value())
    script.set_state(0)


def refused_and_dropped(chance, assembly):
    """mFrames that are answered otherwise than those of each_kind; the continuations go on from `assembly`."""
    data = chance.octets(60)
    express = late(EXPRESS_CODE, data, DONE)
    delimiter = codes.continuation_code(assembly.frame_count)
    other_count = (assembly.next_fragment_count + 1) % 4
    return [
        express[:71],
        express[7:71],
        mframe.header(7),
        mframe.header(8),
        mframe.header(0, delimiter),
        express[:5] + b"\x54" + express[6:],
        late(EXPRESS_CODE, data, DONE, 8),
        fitting(assembly, data, MORE, 9),
        late(0xAD, data, DONE),
        closed(mframe.early_header(0x00, EXPRESS_CODE), data, DONE),
        closed(mframe.header(7, delimiter, 0x55), data, MORE, assembly.register),
        closed(mframe.header(0, delimiter, 0x00), data, DONE, assembly.register),
        continuation(assembly.frame_count, other_count, assembly.register, data, MORE),
        fitting(assembly, chance.octets(mframe.GREATEST_BODY - 59), MORE),
    ]


def shortened_kinds(chance, assembly):
    """mFrames of each kind behind every number of octets 55; the continuations go on from `assembly`."""
    data = chance.octets(60)
    return [octets for preamble in GOOD_PREAMBLES for octets in (
        late(EXPRESS_CODE, data, DONE, preamble),
        fitting(assembly, data, DONE, preamble),
        start(preamble % 4, data, MORE, preamble),
        late(VERIFY_CODE, data, MORE, preamble),
        late(RESPOND_CODE, data, MORE, preamble),
    )]


def every_answer(script, chance):
    """Each kind with each end, without an assembly and with one open, in areas and memory of several sizes."""
    for area, room in ((MOST_OCTETS, LEAST_ROOM), (MOST_OCTETS + 1, LEAST_ROOM + 1), (LONGEST_RUN, LONGEST_RUN)):
        script.set_area(area, 5)
        script.set_buffer(room, 250)
        for assembly in (NOT_ASSEMBLING, open_assembly(chance, 3, 2, 60)):
            for octets in (each_kind(chance, assembly) + shortened_kinds(chance, assembly)
                           + refused_and_dropped(chance, assembly)):
                script.want(assembly)
                script.mframe(octets)
    # 24 at both sides.
    for kept, end in product((1458, 1459, 1518), (MORE, DONE)):
        assembly = open_assembly(chance, 0, 3, kept)
        script.want(assembly)
        script.mframe(fitting(assembly, chance.octets(60), end))
    # The record and the buffer that count are those at the end, whatever they were while octets came.
    script.give(start(2, chance.octets(60), MORE))
    script.set_record(open_assembly(chance, 1, 1, 70), Counters(9, 8, 7, 6))
    script.set_buffer(1600, 77)
    script.end()


def one_octet_a_question(script, chance):
    """A frame in two mFrames and E between them, octet by octet; then the last octets of the longest mFrame."""
    script.want(NOT_ASSEMBLING)
    first, last = exchange.Sender().frame(chance.octets(130), 0)
    for octets in (first, late(EXPRESS_CODE, chance.octets(61), DONE), last):
        script.mframe(octets, 1)
    for octets in (longest_express(chance), longest_mframe(chance), start(1, chance.octets(1518), DONE)):
        for behind in (-1, 0, 1, 5):
            whole = (octets + bytes(6))[:MOST_OCTETS + behind]
            script.give(whole[:1520])
            script.mframe(whole[1520:], 1)


def lengths(script, chance):
    """12 and 13 at both sides, with checks that would be good over all octets since the last end."""
    octets = chance.octets(5000)
    express_header = mframe.late_header(EXPRESS_CODE)
    script.set_area(MOST_OCTETS, 19)
    script.want(NOT_ASSEMBLING)
    for length in (0, 1, 2, 5, 6, 7, 8, 11, 12, 13, 70, 71, 72, 73, 1528, 1529, 1530, 1531, 1532, 2048, 5000):
        script.mframe(of_length(express_header, length, octets, DONE))
    for code, end in ((codes.start_code(2), MORE), (codes.start_code(3), DONE), (VERIFY_CODE, MORE)):
        for length in (71, 72, 1530, 1531):
            script.mframe(of_length(mframe.late_header(code), length, octets, end))
    for length in (71, 72, 1530, 1531):
        assembly = open_assembly(chance, 1, 3, 60)
        script.want(assembly)
        script.mframe(fitting(assembly, octets[:length - 12], DONE))
    # The same behind the shortest header and behind the longest.
    script.want(NOT_ASSEMBLING)
    for length in (1, 63, 64, 65, 66, 1523, 1524):
        script.mframe(of_length(mframe.header(0, EXPRESS_CODE), length, octets, DONE))
    for length in (72, 73, 1530, 1531, 1532):
        assembly = open_assembly(chance, 1, 3, 60)
        script.want(assembly)
        script.mframe(fitting(assembly, octets[:length - 13], DONE, preamble=7))


def octets_beyond(script, chance):
    """The longest mFrame with more behind it: nothing but that there was more is remembered, and until the end."""
    script.set_area(LONGEST_RUN, 60)
    script.want(NOT_ASSEMBLING)
    longest = longest_mframe(chance)
    for beyond in (b"\x55", b"\x55\x55", chance.octets(3)):
        # The first of these has the last place.
        script.mframe(longest_express(chance) + beyond)
    for beyond in (longest[-1:], b"\x55", b"\x00\x00", chance.octets(400), late(EXPRESS_CODE, bytes(60), DONE)):
        script.give(longest)
        script.mframe(beyond)
        # None of it is there any more.
        script.mframe(late(VERIFY_CODE, bytes(60), MORE))
    # Two ends that were not noticed: far more octets than there are places for.
    script.mframe(longest[:1000] + longest[:1000] + longest)
    script.mframe(longest)


def heads_of_over_long_ones(script, chance):
    """More octets than there are places for: the head decides all the same, and 13 only where nothing is wrong in it.

    Mostly the head is given and the state set by hand, as long runs make the file large.
    """
    good = open_assembly(chance, 0, 0, 80)
    script.set_area(MOST_OCTETS, 33)
    for room, assembly in ((LEAST_ROOM, NOT_ASSEMBLING), (LEAST_ROOM, good), (LEAST_ROOM - 1, good),
                           (LEAST_ROOM, replace(good, kept=59))):
        script.set_buffer(room, 12)
        for head in REFUSED_HEADS + OTHER_HEADS:
            for count, more in ((len(head), False), (MOST_OCTETS - 1, False), (MOST_OCTETS, False), (MOST_OCTETS, True)):
                script.want(assembly)
                script.set_state(0)
                script.give(head)
                script.set_state(count, more)
                script.end()
    script.set_buffer(LEAST_ROOM, 12)
    script.want(good)
    for head in REFUSED_HEADS:
        script.mframe((head + bytes(MOST_OCTETS + 1))[:MOST_OCTETS + 1])
        script.mframe(late(VERIFY_CODE, bytes(60), MORE, 3))
    # Octets 55 that fill the area; behind them a good mFrame, none of which has a place.
    script.mframe(mframe.header(MOST_OCTETS) + late(EXPRESS_CODE, bytes(60), DONE))
    script.mframe(mframe.header(MOST_OCTETS - 4) + late(EXPRESS_CODE, bytes(60), DONE))


def ends_in_the_head(script, chance):
    """The octets end in each place of the head, and a good mFrame follows each time."""
    for assembly in (NOT_ASSEMBLING, open_assembly(chance, 3, 0, 100)):
        for preamble in PREAMBLES:
            for behind in ((), (EXPRESS_CODE,), (0x54,), (codes.continuation_code(3),),
                           (codes.continuation_code(3), codes.fragment_code(0)), (codes.continuation_code(3), 0x55)):
                script.want(assembly)
                script.mframe(mframe.header(preamble, *behind))
        script.mframe(late(EXPRESS_CODE, chance.octets(60), DONE, 0))


def ends_without_octets(script, chance):
    """12, however often, with an assembly open and without; then an mFrame as if nothing had been."""
    assembly = open_assembly(chance, 2, 2, 400)
    for open_or_not in (NOT_ASSEMBLING, assembly):
        script.want(open_or_not)
        for _ in range(3):
            script.end()
        script.give(b"")
        script.end()
        script.mframe(fitting(assembly, chance.octets(60), MORE))
        script.end()


def refused_only_at_the_end(script, chance):
    """10 and 11 are no matter of an octet, come before 12 and 13, and leave no octet behind for the mFrame after."""
    good = open_assembly(chance, 1, 2, 300)
    assemblies = (good, replace(good, kept=1519), replace(good, assembling=False))
    refused = [pair for pair in product((LEAST_ROOM, LEAST_ROOM - 1, 0), assemblies) if pair != (LEAST_ROOM, good)]
    express = late(EXPRESS_CODE, chance.octets(60), DONE)
    longest = longest_mframe(chance, good)
    for number, (room, assembly) in enumerate(refused):
        # The longest with one octet too many and without it in turn, as long ones make the file large.
        for octets in (b"", b"\x55", express[:71], express, longest + bytes(number % 2)):
            script.set_buffer(room, 40)
            script.want(assembly)
            script.mframe(octets)
            script.end()
            script.set_buffer(LEAST_ROOM, 41)
            script.want(good)
            script.mframe(fitting(good, chance.octets(60), DONE))
    # Refused while it waits, and good again in time.
    script.set_buffer(0, 1)
    script.give(express[:50])
    script.set_buffer(LEAST_ROOM, 42)
    script.mframe(express[50:])


def interrupted(script, chance):
    """19 in the middle of an mFrame changes nothing: once the state is as it was, the mFrame goes on."""
    script.set_area(1600, 80)
    script.set_buffer(LEAST_ROOM, 3)
    script.want(NOT_ASSEMBLING)
    sender = exchange.Sender()
    for number, unsound in enumerate(UNSOUND):
        for octets in sender.frame(chance.octets(200), 0) + [late(VERIFY_CODE, bytes(60), MORE)]:
            place = 1 + 11 * number
            script.give(octets[:place])
            script.set_state(*unsound)
            script.give(b"\xAA\xAA\xAA")
            script.end()
            script.set_state(place)
            script.mframe(octets[place:])
    # 18 in an mFrame's middle: the area that is lent next has other octets, but the count goes on.
    octets = late(EXPRESS_CODE, chance.octets(60), DONE)
    script.give(octets[:30])
    script.set_area(MOST_OCTETS - 1, 9)
    script.give(octets[30:40])
    script.end()
    script.set_area(MOST_OCTETS, 9)
    script.mframe(octets[40:])
    script.mframe(octets)


def states_set_by_hand(script, chance):
    """The state alone says which octets came: fewer than stand in the area, more of them, as many and still more."""
    script.set_area(LONGEST_RUN, 10)
    script.want(NOT_ASSEMBLING)
    longest = longest_mframe(chance)
    short = late(EXPRESS_CODE, chance.octets(60), DONE)
    for octets in (short, short[7:], longest_express(chance), longest):
        script.mframe(octets)
        for count in (0, 1, 64, 65, 66, 71, 72, 73, MOST_OCTETS - 1, MOST_OCTETS):
            script.set_state(count)
            script.end()
        script.set_state(MOST_OCTETS, True)
        script.end()
    # The front of an mFrame stands there already.
    script.give(short[:70])
    script.set_state(12)
    script.mframe(short[12:])
    # What an end leaves in the area: the octets of the mFrame before, but for the first that came since.
    script.mframe(short[:1])
    script.set_state(72)
    script.end()
    # One that there was no place for, remembered or forgotten by hand.
    script.give(longest)
    script.give(b"\x55")
    script.set_state(MOST_OCTETS)
    script.end()
    script.give(longest)
    script.set_state(MOST_OCTETS, True)
    script.mframe(b"\x55\x55")


def frames_in_fragments(script, chance):
    """Frames in so many fragments that the fragment count goes round, with E, V and R between them."""
    script.set_area(MOST_OCTETS, 100)
    script.set_buffer(1530, 20)
    script.set_record()
    sender = exchange.Sender()
    for length, ask in ((1518, 0), (700, 70), (1518, 1458), (60, 0)):
        for octets in sender.frame(chance.octets(length), ask):
            script.mframe(octets, 100)
    for number, octets in enumerate(exchange.swallowed(sender.frame(chance.octets(600), 0), chance)):
        script.mframe(octets, 60)
        script.mframe(mframe.express(chance.octets(60 + number)))
        script.mframe(late(RESPOND_CODE if number % 2 else VERIFY_CODE, bytes(60), (MORE, MORE, DAMAGED)[number % 3]))
        script.mframe(late(0x00, chance.octets(60), DONE))


def in_random_pieces(script, chance, octets):
    """Octets in one question or in several, some of none at all."""
    place = 0
    while place < len(octets):
        length = len(octets) if chance.below(4) else chance.below(90)
        script.give(octets[place:place + length])
        place += length


def ends_out_of_place(script, chance, octets):
    """An mFrame and its end; of a hundred a few have their end too early, twice, behind noise or not at all."""
    which = chance.below(100)
    if which == 0:
        place = chance.below(len(octets) + 1)
        script.mframe(octets[:place])
        octets = octets[place:]
    in_random_pieces(script, chance, octets)
    if which == 1:
        # Until the area is full, and a few octets more or less.
        left = MOST_OCTETS - script.kept.state.count
        script.give(chance.octets(max(0, left + chance.between(-2, 2))))
    if which != 2:
        script.end()
    if which == 3:
        script.end()


def histories(script, chance):
    """Long exchanges with loss, damage and stray octets, from an empty state and a fresh record.

    In all but the last leading octets 55 are swallowed as well.
    """
    for area, room, count, greatest_body, trouble in ((1531, 1518, 500, 600, 4), (1700, 1600, 400, 1518, 15),
                                                      (1532, 1519, 400, 400, 40), (1531, 1518, 300, 1518, 1)):
        script.set_area(area, count % 256)
        script.set_buffer(room, count % 251)
        script.set_record()
        script.set_state(0)
        mframes = exchange.sent_in_turn(chance, count, greatest_body)
        if trouble > 1:
            mframes = exchange.swallowed(mframes, chance)
        for octets in exchange.over_a_noisy_row(mframes, chance, trouble):
            ends_out_of_place(script, chance, octets)
        script.end()


def random_settings(script, chance):
    """Settings, octets and ends in no order at all, about the limits more often than not."""
    good = open_assembly(chance, 1, 2, 100)
    assemblies = (NOT_ASSEMBLING, NOT_ASSEMBLING, good, good, replace(good, kept=59))
    mframes = each_kind(chance, good) + refused_and_dropped(chance, good)[:-1]
    for _ in range(1200):
        which = chance.below(16)
        if which == 0:
            counters = Counters(*(chance.register() for _ in range(4)))
            script.set_record(assemblies[chance.below(len(assemblies))], counters)
        elif which == 1:
            script.set_buffer(chance.between(LEAST_ROOM - 1, LEAST_ROOM + 3), chance.below(256))
        elif which == 2:
            script.set_area(chance.between(MOST_OCTETS - 1, MOST_OCTETS + 3), chance.below(256))
        elif which < 5:
            script.set_state(chance.between(MOST_OCTETS - 4, MOST_OCTETS + 1), chance.below(2) == 1)
        elif which == 5:
            script.set_state(chance.below(100), chance.below(4) == 0)
        elif which < 10:
            script.give(chance.octets(chance.below(7)))
        elif which < 13:
            script.give(mframes[chance.below(len(mframes))])
        else:
            script.end()


def all_questions():
    """Every question, in the order in which they are stored."""
    script = Script()
    chance = Chance(SEED)
    script.set_record()
    script.set_buffer(LEAST_ROOM, 1)
    script.set_area(MOST_OCTETS, 2)
    script.set_state(0)
    for part in (areas_and_counts, every_answer, one_octet_a_question, ends_in_the_head, ends_without_octets,
                 refused_only_at_the_end, interrupted, states_set_by_hand, octets_beyond, heads_of_over_long_ones,
                 lengths, every_count, frames_in_fragments, random_settings, histories):
        part(script, chance)
    return script.questions
