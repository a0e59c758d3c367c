"""The questions asked about document 01's "Receiving" and "Counters", with the heads of document 02, (vi).

Answers are not looked at here. Only the record is followed with the reference, so that
it is set anew where a question needs another one.
"""

from dataclasses import replace
from itertools import product

import codes
import crc
import exchange
import mframe
import receiving
import witness
from chance import Chance
from reader import lent_memory
from receive_format import buffer_question, mframe_question, record_question
from receiving import NOT_ASSEMBLING, Assembly, Counters, ReceivingRecord

GREATEST = 2**64 - 1
GREATEST_COUNT = 2**32 - 1
SEED = 8027

YES_AND_NO = (False, True)

EXPRESS_CODE = codes.lone_code(codes.EXPRESS)
VERIFY_CODE = codes.lone_code(codes.VERIFY)
RESPOND_CODE = codes.lone_code(codes.RESPOND)

MORE, DONE, DAMAGED = "more", "done", "damaged"

# As many octets 55 as may stand before a delimiter, and two that are too many.
GOOD_PREAMBLES = range(mframe.MOST_PREAMBLE + 1)
PREAMBLES = range(mframe.MOST_PREAMBLE + 3)

# None of the eleven: among them such as differ from 55 in one bit, and one bit from a delimiter.
UNKNOWN_DELIMITERS = (0x00, 0x54, 0x57, 0x5D, 0x45, 0xD4, 0xAD, 0xAA, 0xFF)
UNKNOWN_FRAGMENT_CODES = (0x00, 0x54, 0x55, 0x61, 0xD5, 0xE7)


class Script:
    """Questions one after the other, with the kept record and memory that they lead to."""

    def __init__(self):
        self.questions = []
        self.record = receiving.fresh()
        self.memory = bytearray()

    def set_record(self, assembly=NOT_ASSEMBLING, counters=Counters(0, 0, 0, 0)):
        self.record = ReceivingRecord(assembly, counters)
        self.questions.append(record_question(self.record))

    def set_buffer(self, room, fill):
        self.memory = lent_memory(room, fill)
        self.questions.append(buffer_question(room, fill))

    def want(self, assembly):
        """Sets the record where it does not hold this assembly already; the counters stay."""
        if self.record.assembly != assembly:
            self.set_record(assembly, self.record.counters)

    def give(self, octets):
        self.questions.append(mframe_question(octets))
        _, self.record = receiving.receive(self.memory, self.record, octets)


def check_octets(register, end):
    """Check octets that go on from `register` and say `end`."""
    if end == DONE:
        return crc.fcs_of_register(register)
    if end == MORE:
        return crc.mcrc_of_register(register)
    return exchange.with_bit_turned(crc.fcs_of_register(register), 9)


def closed(header, data, end, register=crc.ALL_ONES):
    """A header and data, closed with check octets that say `end`."""
    return header + data + check_octets(crc.register_after(register, data), end)


def start(frame_count, data, end, preamble=7):
    return closed(mframe.header(preamble, codes.start_code(frame_count)), data, end)


def continuation(frame_count, fragment_count, register, data, end, preamble=6):
    header = mframe.header(preamble, codes.continuation_code(frame_count), codes.fragment_code(fragment_count))
    return closed(header, data, end, register)


def fitting(assembly, data, end, preamble=6):
    """The continuation that `assembly` waits for."""
    return continuation(assembly.frame_count, assembly.next_fragment_count, assembly.register, data, end, preamble)


def late(code, data, end, preamble=7):
    """An mFrame of whatever kind without a fragment code, its delimiter at place 7 where nothing else is said."""
    return closed(mframe.header(preamble, code), data, end)


def open_assembly(chance, frame_count=0, next_fragment_count=0, kept=64):
    """An assembly made by hand; its running CRC is any number, because 11 does not test it."""
    return Assembly(True, frame_count, next_fragment_count, kept, chance.register())


def each_kind(chance, assembly):
    """Short mFrames of each kind with each end; the continuations go on from `assembly`."""
    data = chance.octets(60)
    mframes = []
    for end in (DONE, MORE, DAMAGED):
        for code in (EXPRESS_CODE, VERIFY_CODE, RESPOND_CODE, codes.start_code(1)):
            mframes.append(late(code, data, end))
        mframes.append(fitting(assembly, data, end))
    return mframes


def every_answer(script, chance):
    """Each kind with each end, from a fresh record and with an assembly open, in memory of several sizes."""
    for room in (1518, 1519, 2048):
        script.set_buffer(room, room % 251)
        for assembly in (NOT_ASSEMBLING, open_assembly(chance, 3, 2, 700)):
            for octets in each_kind(chance, assembly):
                script.want(assembly)
                script.give(octets)


def rooms(script, chance):
    """10 at both sides: it is tested first, whatever the mFrame is."""
    for room in (0, 1, 60, 72, 1516, 1517, 1518, 1519, 2047, 2048):
        script.set_buffer(room, 17 * room % 256)
        for assembly in (NOT_ASSEMBLING, open_assembly(chance, 1, 1, 60)):
            for octets in each_kind(chance, assembly)[:9] + [b"", bytes(8)]:
                script.want(assembly)
                script.give(octets)
    script.set_buffer(1518, 90)


def of_length(header, length, octets, end):
    """An mFrame of so many octets in all with a good check, where there is room for one."""
    behind = length - len(header)
    if behind < crc.CHECK_OCTETS:
        return (header + octets)[:length]
    return closed(header, octets[:behind - crc.CHECK_OCTETS], end)


def lengths(script, chance):
    """12 from the empty input on, and 13, with checks that would be good, behind headers as they are sent and shorter."""
    octets = chance.octets(2048)
    script.want(NOT_ASSEMBLING)
    for length in range(76):
        script.give(of_length(mframe.late_header(EXPRESS_CODE), length, octets, DONE))
    for length in range(1, 68):
        script.give(of_length(mframe.header(0, EXPRESS_CODE), length, octets, DONE))
    for code in (codes.start_code(2), VERIFY_CODE, RESPOND_CODE):
        for length in (0, 1, 6, 7, 8, 11, 12, 70, 71, 72, 73):
            script.give(of_length(mframe.late_header(code), length, octets, MORE))
    for length in (8, 11, 12, 70, 71, 72, 73):
        assembly = open_assembly(chance, 1, 3, 100)
        script.want(assembly)
        script.give(fitting(assembly, octets[:max(0, length - 12)], MORE)[:length])
    script.want(NOT_ASSEMBLING)
    for length in (1532, 2048):
        script.give(of_length(mframe.late_header(EXPRESS_CODE), length, octets, DONE))


def with_behind(chance, behind, preamble, script):
    """mFrames of every kind with so many octets behind the header, all of them with good checks; the C fits."""
    data = chance.octets(behind - crc.CHECK_OCTETS)
    assembly = open_assembly(chance, preamble % 4, 3, 60)
    for octets, open_or_not in [(late(EXPRESS_CODE, data, DONE, preamble), NOT_ASSEMBLING),
                                (fitting(assembly, data, DONE, preamble), assembly),
                                (start(preamble % 4, data, MORE, preamble), NOT_ASSEMBLING),
                                (late(VERIFY_CODE, data, MORE, preamble), assembly),
                                (late(RESPOND_CODE, data, MORE, preamble), NOT_ASSEMBLING)]:
        script.want(open_or_not)
        script.give(octets)


def limits(script, chance):
    """Both limits at both sides for headers of 1 to 9 octets, so that mFrames have 65 to 1,531 octets in all."""
    for preamble, behind in product(GOOD_PREAMBLES, (63, 64, 65, 1522, 1523)):
        with_behind(chance, behind, preamble, script)
    # As short in all as one with a longer header would have to be, and as long.
    for preamble, behind in ((0, 71), (1, 70), (6, 65), (0, 1529), (0, 1530)):
        script.want(NOT_ASSEMBLING)
        script.give(late(EXPRESS_CODE, chance.octets(behind - crc.CHECK_OCTETS), DONE, preamble))
    # The longest of all is a continuation: for no assembly, for another count, too much for one, damaged.
    data = chance.octets(1518)
    assembly = open_assembly(chance, 1, 1, 60)
    for open_or_not, fragment_count, end in ((NOT_ASSEMBLING, 1, MORE), (assembly, 2, DONE), (assembly, 1, MORE),
                                             (assembly, 1, DAMAGED)):
        script.want(open_or_not)
        script.give(continuation(1, fragment_count, assembly.register, data, end, preamble=7))


def ends_in_the_head(script, chance):
    """12: the octets end in each place of the head, before the delimiter, before the fragment code and behind either."""
    for assembly in (NOT_ASSEMBLING, open_assembly(chance, 2, 3, 90)):
        script.want(assembly)
        for length in (*range(13), 20, 63, 64, 65, 66, 71, 72, 73):
            script.give(bytes([mframe.PREAMBLE]) * length)
    for length in (1530, 1531, 1532, 2048):
        script.give(bytes([mframe.PREAMBLE]) * length)
    for preamble in PREAMBLES:
        for delimiter in codes.DELIMITERS:
            script.give(mframe.header(preamble, delimiter.code))
            if delimiter.kind == codes.CONTINUATION:
                script.give(mframe.header(preamble, delimiter.code, codes.fragment_code(delimiter.frame_count)))
        for octets in ([0x00], [0x54], [0x61, 0x55], [0x2A, 0x00], [EXPRESS_CODE, 0x55], [0x00, 0x55]):
            script.give(mframe.header(preamble, *octets))


def every_preamble(script, chance):
    """From none to nine octets 55 before every delimiter, with every fragment code, good and bad, and damaged checks."""
    data = chance.octets(60)
    assembly = open_assembly(chance, 2, 1, 200)
    for preamble in PREAMBLES:
        mframes = [late(EXPRESS_CODE, data, DONE, preamble), late(VERIFY_CODE, data, MORE, preamble),
                   late(RESPOND_CODE, data, MORE, preamble)]
        mframes += [start(count, data, MORE, preamble) for count in range(4)]
        mframes += [continuation(*counts, assembly.register, data, MORE, preamble)
                    for counts in product(range(4), range(4))]
        mframes += [late(code, data, DAMAGED, preamble)
                    for code in (EXPRESS_CODE, VERIFY_CODE, RESPOND_CODE, codes.start_code(3))]
        mframes += [start(0, data, DONE, preamble), fitting(assembly, data, DONE, preamble),
                    fitting(assembly, data, DAMAGED, preamble)]
        mframes += [late(code, data, DONE, preamble) for code in UNKNOWN_DELIMITERS]
        mframes += [closed(mframe.header(preamble, codes.continuation_code(2), code), data, MORE, assembly.register)
                    for code in UNKNOWN_FRAGMENT_CODES]
        for octets in mframes:
            script.want(assembly)
            script.give(octets)


def data_like_a_head(script, chance):
    """Data that begin with octets 55, or as another head: the first delimiter ends the header, and nothing else does."""
    assembly = open_assembly(chance, 1, 2, 70)
    fronts = [mframe.header(count) for count in (1, 2, 7, 8, 60)]
    fronts += [mframe.header(preamble, *behind) for preamble, behind in product(
        (0, 2, 7), ((EXPRESS_CODE,), (codes.start_code(2),), (codes.continuation_code(1), codes.fragment_code(2))))]
    for preamble, front in product((0, 1, 6, 7), fronts):
        data = front + chance.octets(max(0, 60 - len(front)))
        for octets in (late(EXPRESS_CODE, data, DONE, preamble), start(0, data, MORE, preamble),
                       fitting(assembly, data, MORE, preamble)):
            script.want(assembly)
            script.give(octets)


def other_octets_in_a_preamble(script, chance):
    """Each of places 0 to 5 with other octets, among them delimiters: what was a preamble ends there."""
    data = chance.octets(60)
    assembly = open_assembly(chance, 2, 1, 200)
    for place in range(6):
        for octet in (0x00, 0x54, 0xD4, 0xD5, 0xE6, 0x61, 0xAA, 0xFF):
            for octets in (late(EXPRESS_CODE, data, DONE), late(codes.start_code(1), data, MORE),
                           fitting(assembly, data, MORE)):
                script.want(assembly)
                script.give(octets[:place] + bytes([octet]) + octets[place + 1:])
    # Octets lost from the front, the last of them not of the preamble any more, and octets 55 too many.
    for octets in (late(EXPRESS_CODE, data + data, DONE), fitting(assembly, data + data, MORE)):
        for count in range(1, 10):
            script.want(assembly)
            script.give(octets[count:])
            script.want(assembly)
            script.give(bytes([mframe.PREAMBLE]) * count + octets)


def preambles_in_one_assembly(script, chance):
    """A start and its continuation, each with any number of octets 55; then frames in more parts of all numbers."""
    script.set_buffer(1530, 55)
    for of_start, of_continuation in product(GOOD_PREAMBLES, GOOD_PREAMBLES):
        script.want(NOT_ASSEMBLING)
        script.give(start(of_start % 4, chance.octets(60), MORE, of_start))
        script.give(fitting(script.record.assembly, chance.octets(61), DONE, of_continuation))
    for preambles in (GOOD_PREAMBLES, reversed(GOOD_PREAMBLES), (7, 0, 7, 0, 7, 0)):
        first, *others = preambles
        script.want(NOT_ASSEMBLING)
        script.give(start(3, chance.octets(62), MORE, first))
        for preamble in others:
            # E, V and R between them, shortened otherwise.
            script.give(late(EXPRESS_CODE, chance.octets(60), DONE, 7 - preamble))
            script.give(late(RESPOND_CODE, bytes(60), MORE, preamble))
            script.give(fitting(script.record.assembly, chance.octets(63), MORE, preamble))
        script.give(fitting(script.record.assembly, chance.octets(64), DONE, first))


def delimiters(script, chance):
    """All 256 octets behind some numbers of octets 55, as they stand and with an octet behind them that is a fragment
    code, another delimiter, neither."""
    data = chance.octets(60)
    for preamble, end in ((7, DONE), (0, MORE)):
        for octet in range(256):
            script.want(NOT_ASSEMBLING)
            script.give(late(octet, data, end, preamble))
    assembly = open_assembly(chance, 2, 0, 64)
    for preamble, second in ((6, 0xE6), (7, 0xE6), (3, 0x00)):
        for octet in range(256):
            script.want(assembly)
            script.give(closed(mframe.header(preamble, octet, second), data, MORE, assembly.register))


def fragment_codes(script, chance):
    """All 256 octets as fragment code, then all sixteen pairs of counts against four that are waited for."""
    data = chance.octets(60)
    assembly = open_assembly(chance, 2, 0, 64)
    for octet in range(256):
        script.want(assembly)
        script.give(closed(mframe.early_header(codes.continuation_code(2), octet), data, MORE, assembly.register))
    for expected in ((0, 0), (1, 3), (2, 1), (3, 2)):
        assembly = open_assembly(chance, *expected)
        for frame_count, fragment_count in product(range(4), range(4)):
            for end in (MORE, DONE):
                script.want(assembly)
                script.give(continuation(frame_count, fragment_count, assembly.register, data, end))


def order_of_refusals(script, chance):
    """10 to 17 in all combinations that can be had, each also with a check that is not good."""
    good = open_assembly(chance, 1, 2, 300)
    bad = replace(good, kept=59)
    heads = (
        (codes.continuation_code(1), codes.fragment_code(2)),
        (EXPRESS_CODE,),
        (0xAD,),
        (codes.continuation_code(1), 0x55),
        (codes.continuation_code(1), 0x00),
    )
    octets = chance.octets(2048)
    for short, wrong_record in product(YES_AND_NO, YES_AND_NO):
        script.set_buffer(1517 if short else 1518, 3)
        for behind, preamble, head, end in product((63, 64, 1523), (1, 7, 8), heads, (MORE, DAMAGED)):
            # Long ones are asked more sparingly: they make the file large.
            if behind == 1523 and (end == DAMAGED or (short and wrong_record) or preamble == 1 or head == heads[-1]):
                continue
            script.want(bad if wrong_record else good)
            script.give(closed(mframe.header(preamble, *head), octets[:behind - 4], end, good.register))
        # What ends in the head.
        for octets_of_head in (mframe.header(0), mframe.header(7), mframe.header(8), mframe.header(0, 0x61),
                               mframe.header(7, 0x61, 0x00), mframe.header(8, 0x61, 0xE6), mframe.header(0, 0x00),
                               mframe.header(8, 0x00)):
            script.want(bad if wrong_record else good)
            script.give(octets_of_head)
    script.set_buffer(1518, 3)


def records(script, chance):
    """11: each field at the ends of its range and just outside, with an assembly open and without."""
    registers = (0, 1, 2**31, 2**32 - 1, chance.register())
    assemblies = [replace(NOT_ASSEMBLING, frame_count=count) for count in (1, 3, 4, 255)]
    assemblies += [replace(NOT_ASSEMBLING, next_fragment_count=count) for count in (1, 3, 4, 255)]
    assemblies += [replace(NOT_ASSEMBLING, kept=kept) for kept in (1, 60, 1518, 2**16, 2**32, 2**63, GREATEST)]
    assemblies += [replace(NOT_ASSEMBLING, register=register) for register in registers]
    good = open_assembly(chance, 1, 1, 600)
    assemblies += [replace(good, frame_count=count) for count in (0, 1, 2, 3, 4, 5, 128, 255)]
    assemblies += [replace(good, next_fragment_count=count) for count in (0, 1, 2, 3, 4, 5, 128, 255)]
    assemblies += [replace(good, kept=kept) for kept in
                   (0, 1, 59, 60, 61, 1457, 1458, 1459, 1517, 1518, 1519, 2**16 + 100, 2**32 + 100, 2**63, GREATEST)]
    assemblies += [replace(good, register=register) for register in registers]
    # As not assembling, but said to be, and the other way round.
    assemblies += [replace(NOT_ASSEMBLING, assembling=True), replace(good, assembling=False), NOT_ASSEMBLING]
    data = chance.octets(60)
    for assembly in assemblies:
        for octets in (late(EXPRESS_CODE, data, DONE), late(VERIFY_CODE, data, MORE), start(3, data, MORE),
                       fitting(assembly, data, MORE), fitting(assembly, data, DONE), late(0x00, data, DONE)):
            script.want(assembly)
            script.give(octets)


def running_checks(script, chance):
    """A continuation's check goes on from the record's running CRC, whatever the octets kept are."""
    kept = chance.octets(64)
    data = chance.octets(70)
    script.set_buffer(1600, 11)
    script.want(NOT_ASSEMBLING)
    script.give(start(1, kept, MORE))
    true_register = crc.register_after(crc.ALL_ONES, kept)
    for register in (true_register, 0, crc.ALL_ONES, true_register ^ 1, true_register ^ crc.ALL_ONES,
                     chance.register()):
        assembly = Assembly(True, 1, 0, 64, register)
        for end in (MORE, DONE):
            # Made for the record, made for the octets kept, made for a check begun anew.
            for made_for in (register, true_register, crc.ALL_ONES):
                script.want(assembly)
                script.give(continuation(1, 0, made_for, data, end))


def whole_checks(script, chance):
    """E, V and R with every sort of check; their data may be anything and, of V and R, of any length."""
    for data in (bytes(60), chance.octets(60), chance.octets(61), bytes(200), chance.octets(1518)):
        register = crc.register_after(crc.ALL_ONES, data)
        fcs, mcrc = crc.fcs_of_register(register), crc.mcrc_of_register(register)
        checks = [fcs, mcrc]
        if len(data) < 1518:
            # The standard's own mCRC, the octets turned round, the complement forgotten, zeros, one bit wrong.
            checks += [bytes([fcs[0] ^ 0xFF, fcs[1] ^ 0xFF, fcs[2], fcs[3]]), fcs[::-1], mcrc[::-1],
                       bytes(octet ^ 0xFF for octet in fcs), bytes(4)]
            checks += [exchange.with_bit_turned(check, place) for check in (fcs, mcrc) for place in (0, 15, 16, 31)]
        for code in (EXPRESS_CODE, VERIFY_CODE, RESPOND_CODE):
            for check in checks:
                script.give(mframe.late_header(code) + data + check)


def starts_over_an_open_assembly(script, chance):
    """An assembly still open is abandoned first; a damaged start adds one more and leaves the memory alone."""
    script.set_buffer(1700, 99)
    for frame_count, kept, length, end in product(range(4), (60, 800), (60, 130), (MORE, DONE, DAMAGED)):
        script.want(open_assembly(chance, 2, 1, kept))
        script.give(start(frame_count, chance.octets(length), end))
        # What would have gone on is now for the new one, or for none.
        script.give(continuation(2, 1, chance.register(), chance.octets(60), MORE))
    # Starts one after the other, without end.
    script.want(NOT_ASSEMBLING)
    for number in range(12):
        script.give(start(number % 4, chance.octets(60 + number), (MORE, MORE, DAMAGED, DONE, MORE)[number % 5]))


def drops_of_continuations(script, chance):
    """22, 23, 24 and 25 in all combinations, then 24 at both sides with many sums."""
    data = chance.octets(60)
    for assembling, wrong_frame, wrong_fragment, too_long, end in product(
            YES_AND_NO, YES_AND_NO, YES_AND_NO, YES_AND_NO, (MORE, DONE, DAMAGED)):
        assembly = open_assembly(chance, 2, 3, 1459 if too_long else 1458)
        script.want(assembly if assembling else NOT_ASSEMBLING)
        script.give(continuation(1 if wrong_frame else 2, 0 if wrong_fragment else 3, assembly.register, data, end))
        # Whatever it was: the one that would have fitted afterwards.
        script.give(continuation(2, 0, chance.register(), data, DONE))
    for kept, length in ((60, 1458), (60, 1459), (61, 1457), (700, 818), (700, 819), (1457, 60), (1457, 61),
                         (1457, 62), (1458, 60), (1458, 61), (1459, 60), (1517, 60), (1518, 60), (1518, 61)):
        octets = chance.octets(length)
        for end in (MORE, DONE) if length > 1000 else (MORE, DONE, DAMAGED):
            assembly = open_assembly(chance, 0, 1, kept)
            script.want(assembly)
            script.give(fitting(assembly, octets, end))
    # As many octets as a body can have, and still more to come: nothing can be added.
    for frame_count in (1, 2):
        script.want(NOT_ASSEMBLING)
        script.give(start(1, chance.octets(1518), MORE))
        script.give(continuation(frame_count, 0, script.record.assembly.register, data, DONE))
    script.want(NOT_ASSEMBLING)
    script.give(start(1, chance.octets(1458), MORE))
    script.give(fitting(script.record.assembly, data, MORE))
    script.give(fitting(script.record.assembly, data, DONE))


def counters_going_round(script, chance):
    """Every way in which a counter moves, and some in which none does, from 0 and from the last numbers."""
    data = chance.octets(60)
    assembly = open_assembly(chance, 1, 2, 1458)
    full = replace(assembly, kept=1459)
    ways = [
        (assembly, start(3, data, MORE)), (assembly, start(3, data, DONE)), (assembly, start(3, data, DAMAGED)),
        (NOT_ASSEMBLING, start(3, data, MORE)), (NOT_ASSEMBLING, start(3, data, DONE)),
        (NOT_ASSEMBLING, start(3, data, DAMAGED)),
        (assembly, continuation(0, 2, assembly.register, data, MORE)),
        (assembly, continuation(1, 3, assembly.register, data, DONE)),
        (full, fitting(full, data, MORE)), (full, fitting(full, data, DAMAGED)),
        (assembly, fitting(assembly, data, DAMAGED)), (assembly, fitting(assembly, data, MORE)),
        (assembly, fitting(assembly, data, DONE)),
    ]
    for open_or_not in (NOT_ASSEMBLING, assembly):
        ways += [(open_or_not, octets) for octets in (
            late(0x00, data, DONE), late(0x00, data, DONE, 8), late(0x00, data, DONE, 0), b"", b"\x00",
            closed(mframe.early_header(codes.continuation_code(1), 0x00), data, MORE, assembly.register),
            mframe.header(7, codes.continuation_code(1)), mframe.header(7, codes.continuation_code(1), 0x00),
            late(EXPRESS_CODE, data, DONE), late(EXPRESS_CODE, data, MORE, 1), late(VERIFY_CODE, data, MORE),
            late(RESPOND_CODE, data, DONE), late(EXPRESS_CODE, data, DONE, 8), late(EXPRESS_CODE, data[1:], DONE),
            late(EXPRESS_CODE, bytes(1519), DONE))]
    ways.append((NOT_ASSEMBLING, fitting(assembly, data, MORE)))
    last = GREATEST_COUNT
    for open_or_not, octets in ways:
        settings = [Counters(last, last, last, last), Counters(0, 0, 0, 0), Counters(last - 1, last - 1, last, last),
                    Counters(2**31 - 1, 2**16 - 1, 2**8 - 1, 2**31)]
        for counters in settings[:2] if len(octets) > 1000 else settings:
            script.set_record(open_or_not, counters)
            script.give(octets)
    # Refused for the record: not even the counters move.
    script.set_record(replace(assembly, kept=59), Counters(last, last, last, last))
    script.give(late(0x00, data, DONE))
    script.set_record()


def many_fragments(script, chance):
    """Frames in so many fragments that the fragment count goes round, undisturbed and disturbed."""
    script.set_buffer(1518, 200)
    script.want(NOT_ASSEMBLING)
    sender = exchange.Sender()
    for length in (1518, 1517, 700, 384, 124):
        for octets in sender.frame(chance.octets(length), 0):
            script.give(octets)
    for length, ask in ((1518, 700), (1518, 1458), (1000, 300), (60, 0)):
        for octets in sender.frame(chance.octets(length), ask):
            script.give(octets)
    # E, V and R between any two fragments close nothing.
    for number, octets in enumerate(sender.frame(chance.octets(800), 0)):
        script.give(octets)
        script.give(mframe.express(chance.octets(60 + number)))
        script.give(mframe.verify() if number % 2 else mframe.respond())
        # Damaged ones and ones of no kind do not either.
        script.give(late(EXPRESS_CODE, chance.octets(60), MORE))
        script.give(late(VERIFY_CODE, chance.octets(60), DONE))
        script.give(late(0x00, chance.octets(60), DONE))


def losses(script, chance):
    """Fragments lost: one, two, three, and four, after which the count is the expected one again."""
    for lost in range(1, 6):
        for at in (0, 1, 2, 5):
            sender = exchange.Sender(next_frame_count=lost % 4)
            mframes = sender.frame(chance.octets(120 + 60 * 8), 0)
            script.want(NOT_ASSEMBLING)
            for octets in mframes[:at] + mframes[at + lost:]:
                script.give(octets)
            # The next frame is delivered all the same.
            for octets in sender.frame(chance.octets(130), 0):
                script.give(octets)
    # The end of one frame and the start of the next, or whole frames, are lost.
    for skipped in range(1, 10):
        sender = exchange.Sender()
        mframes = [octets for _ in range(6) for octets in sender.frame(chance.octets(188), 0)]
        script.want(NOT_ASSEMBLING)
        for octets in mframes[:2] + mframes[2 + skipped:]:
            script.give(octets)
    # The same mFrame twice, and two the wrong way round.
    sender = exchange.Sender()
    mframes = sender.frame(chance.octets(500), 0)
    for place in range(len(mframes)):
        script.want(NOT_ASSEMBLING)
        for octets in mframes[:place + 1] + mframes[place:]:
            script.give(octets)
    for place in range(len(mframes) - 1):
        script.want(NOT_ASSEMBLING)
        for octets in mframes[:place] + [mframes[place + 1], mframes[place]] + mframes[place + 2:]:
            script.give(octets)
    # After 23 nothing is in assembly: what would have fitted is 22.
    assembly = open_assembly(chance, 1, 1, 100)
    script.want(assembly)
    script.give(continuation(1, 2, assembly.register, chance.octets(60), MORE))
    script.give(fitting(assembly, chance.octets(60), MORE))


def damage_anywhere(script, chance):
    """One bit wrong in each octet of an mFrame of each kind."""
    data = chance.octets(60)
    assembly = open_assembly(chance, 3, 1, 64)
    for octets in (late(EXPRESS_CODE, data, DONE), late(VERIFY_CODE, data, MORE), start(2, data, MORE),
                   fitting(assembly, data, DONE)):
        for place in range(len(octets)):
            script.want(assembly)
            script.give(exchange.with_bit_turned(octets, 8 * place + (3 * place + len(octets)) % 8))


def damage_in_a_shortened_head(script, chance):
    """Every bit of every octet of a shortened head wrong: a preamble ends too early, or begins behind another octet."""
    data = chance.octets(60)
    assembly = open_assembly(chance, 1, 0, 64)
    for octets, head in ((late(EXPRESS_CODE, data, DONE, 2), 3), (fitting(assembly, data, DONE, 1), 3),
                         (start(1, data, MORE, 0), 1), (fitting(assembly, data, MORE, 7), 9)):
        for place in range(8 * head):
            script.want(assembly)
            script.give(exchange.with_bit_turned(octets, place))


def random_histories(script, chance):
    """Long exchanges with loss, damage, doubling, overtaking and stray octets, from a fresh record.

    In all but one leading octets 55 are swallowed as well.
    """
    for room, count, greatest_body, trouble in ((1518, 900, 600, 4), (1518, 800, 1518, 12), (2048, 550, 400, 30),
                                                (1600, 550, 1518, 1)):
        script.set_buffer(room, count % 256)
        script.set_record()
        mframes = exchange.sent_in_turn(chance, count, greatest_body)
        if count != 900:
            mframes = exchange.swallowed(mframes, chance)
        for octets in exchange.over_a_noisy_row(mframes, chance, trouble):
            script.give(octets)


def four_lost_in_a_row(script, _):
    """A frame of which four mFrames are lost, so made that nothing shows it: a body is delivered that nobody sent."""
    script.set_buffer(1518, 77)
    script.set_record()
    for octets in witness.arriving():
        script.give(octets)


def all_questions():
    """Every question, in the order in which they are stored."""
    script = Script()
    chance = Chance(SEED)
    script.set_record()
    script.set_buffer(1518, 1)
    for part in (every_answer, rooms, lengths, limits, ends_in_the_head, every_preamble, data_like_a_head,
                 other_octets_in_a_preamble, delimiters, fragment_codes, order_of_refusals, records, running_checks,
                 whole_checks, starts_over_an_open_assembly, drops_of_continuations, counters_going_round,
                 many_fragments, preambles_in_one_assembly, losses, damage_anywhere, damage_in_a_shortened_head,
                 random_histories, four_lost_in_a_row):
        part(script, chance)
    return script.questions
