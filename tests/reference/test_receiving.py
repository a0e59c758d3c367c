"""Tests of receiving.py: document 01, "Receiving", "Counters" and what "Easy to get wrong" says of the receiver.

mFrames are put together here from written-out headers and zlib's check. The counters of
long histories are counted a second time from the answers alone. Of document 02, (vi) the
heads are found a second time, by an expression, and the refusals by the sentences of the paper.
"""

import re
import unittest
import zlib
from dataclasses import replace
from itertools import product

import exchange
import receiving
from chance import Chance
from receiving import NOT_ASSEMBLING, Answer, Assembly, Counters, ReceivingRecord

GREATEST = 2**64 - 1
LAST = 2**32 - 1
E, V, R = (bytes.fromhex("55555555555555" + code) for code in ("D5", "07", "19"))
S = [bytes.fromhex("55555555555555" + code) for code in ("E6", "4C", "7F", "B3")]
# C[frame count][fragment count]
C = [[bytes.fromhex("555555555555" + delimiter + code) for code in ("E6", "4C", "7F", "B3")]
     for delimiter in ("61", "52", "9E", "2A")]

DATA = bytes(range(100, 160))


def fcs(octets, register=LAST):
    return zlib.crc32(octets, register ^ LAST).to_bytes(4, "little")


def mcrc(octets, register=LAST):
    return (zlib.crc32(octets, register ^ LAST) ^ 0xFFFF0000).to_bytes(4, "little")


def register_of(octets):
    return zlib.crc32(octets) ^ LAST


def done(header, data, before=b""):
    return header + data + fcs(before + data)


def more(header, data, before=b""):
    return header + data + mcrc(before + data)


def spoiled(octets):
    """The last check octet with one bit wrong."""
    return octets[:-1] + bytes([octets[-1] ^ 1])


def opened(kept=bytes(64), frame=0, fragment=0):
    return Assembly(True, frame, fragment, len(kept), register_of(kept))


def memory_of(room=1600):
    return bytearray(place * 7 % 251 for place in range(room))


class Case(unittest.TestCase):
    def give(self, octets, assembly=NOT_ASSEMBLING, counters=Counters(0, 0, 0, 0), memory=None):
        """One mFrame; gives the answer, the assembly afterwards and the counters."""
        memory = memory_of() if memory is None else memory
        answer, record = receiving.receive(memory, ReceivingRecord(assembly, counters), octets)
        return answer, record.assembly, record.counters

    def assert_given(self, octets, assembly, answer, after, moved, written=b"", at=0):
        """Answer, assembly afterwards, how far each counter moved, and what was written where; the rest stays."""
        memory = memory_of()
        expected = memory_of()
        expected[at:at + len(written)] = written
        counters = Counters(7, LAST, LAST - 1, 0)
        found = self.give(octets, assembly, counters, memory)
        self.assertEqual(found[0], Answer(*answer))
        self.assertEqual(found[1], after)
        self.assertEqual(found[2], Counters(7 + moved[0], (LAST + moved[1]) % 2**32,
                                            (LAST - 1 + moved[2]) % 2**32, moved[3]))
        self.assertEqual(memory, expected)

    def assert_refused(self, octets, number, assembly=NOT_ASSEMBLING, bits=0):
        counted = 1 if number in (15, 17) else 0
        self.assert_given(octets, assembly, (number, bits), assembly, (0, counted, 0, 0))


class Answers(Case):
    """Document 01's table from 0 to 4 and from 20 to 25, with all that happens."""

    def test_express(self):
        for assembly in (NOT_ASSEMBLING, opened()):
            self.assert_given(done(E, DATA), assembly, (0, 60), assembly, (0, 0, 0, 0))
            for wrong in (spoiled(done(E, DATA)), more(E, DATA)):
                self.assert_given(wrong, assembly, (20, 0), assembly, (0, 0, 0, 0))

    def test_verify_and_respond(self):
        for assembly, (header, number) in product((NOT_ASSEMBLING, opened()), ((V, 3), (R, 4))):
            # The data is not looked at, nor how much of it there is.
            for data in (bytes(60), DATA, bytes(1518)):
                self.assert_given(more(header, data), assembly, (number, 0), assembly, (0, 0, 0, 0))
                for wrong in (spoiled(more(header, data)), done(header, data)):
                    self.assert_given(wrong, assembly, (21, 0), assembly, (0, 0, 0, 0))

    def test_starts(self):
        for count in range(4):
            after = Assembly(True, count, 0, 60, register_of(DATA))
            self.assert_given(done(S[count], DATA), NOT_ASSEMBLING, (1, 60), NOT_ASSEMBLING, (0, 0, 0, 0), DATA)
            self.assert_given(more(S[count], DATA), NOT_ASSEMBLING, (2, 60), after, (0, 0, 0, 0), DATA)
            self.assert_given(spoiled(done(S[count], DATA)), NOT_ASSEMBLING, (25, 0), NOT_ASSEMBLING, (1, 0, 0, 0))

    def test_starts_over_an_open_assembly(self):
        for count in range(4):
            after = Assembly(True, count, 0, 60, register_of(DATA))
            self.assert_given(done(S[count], DATA), opened(), (1, 60), NOT_ASSEMBLING, (1, 0, 0, 0), DATA)
            self.assert_given(more(S[count], DATA), opened(), (2, 60), after, (1, 0, 0, 0), DATA)
            self.assert_given(spoiled(done(S[count], DATA)), opened(), (25, 0), NOT_ASSEMBLING, (2, 0, 0, 0))

    def test_continuations(self):
        kept = bytes(range(70))
        for frame, fragment in product(range(4), range(4)):
            assembly = opened(kept, frame, fragment)
            after = Assembly(True, frame, (fragment + 1) % 4, 130, register_of(kept + DATA))
            octets = more(C[frame][fragment], DATA, kept)
            self.assert_given(octets, assembly, (2, 130), after, (0, 0, 0, 1), DATA, at=70)
            octets = done(C[frame][fragment], DATA, kept)
            self.assert_given(octets, assembly, (1, 130), NOT_ASSEMBLING, (0, 0, 1, 1), DATA, at=70)
            self.assert_given(spoiled(octets), assembly, (25, 0), NOT_ASSEMBLING, (1, 0, 0, 0))

    def test_continuation_of_nothing(self):
        for octets in (more(C[0][0], DATA), spoiled(more(C[3][2], DATA))):
            self.assert_given(octets, NOT_ASSEMBLING, (22, 0), NOT_ASSEMBLING, (0, 1, 0, 0))

    def test_other_counts(self):
        kept = bytes(70)
        for frame, fragment in product(range(4), range(4)):
            if (frame, fragment) != (2, 1):
                for octets in (more(C[frame][fragment], DATA, kept), spoiled(more(C[frame][fragment], DATA, kept))):
                    self.assert_given(octets, opened(kept, 2, 1), (23, 0), NOT_ASSEMBLING, (1, 0, 0, 0))

    def test_too_long(self):
        kept = bytes(1458)
        full = kept + DATA
        self.assert_given(done(C[0][0], DATA, kept), opened(kept), (1, 1518), NOT_ASSEMBLING, (0, 0, 1, 1), DATA, 1458)
        self.assert_given(more(C[0][0], DATA, kept), opened(kept), (2, 1518),
                          Assembly(True, 0, 1, 1518, register_of(full)), (0, 0, 0, 1), DATA, 1458)
        kept = bytes(1459)
        for octets in (done(C[0][0], DATA, kept), spoiled(done(C[0][0], DATA, kept))):
            self.assert_given(octets, opened(kept), (24, 0), NOT_ASSEMBLING, (1, 0, 0, 0))
            # 23 is tested before 24.
            self.assert_given(octets, opened(kept, fragment=1), (23, 0), NOT_ASSEMBLING, (1, 0, 0, 0))

    def test_a_start_may_fill_the_memory(self):
        body = Chance(71).octets(1518)
        answer, assembly, counters = self.give(more(S[0], body))
        self.assertEqual((answer, assembly.kept), (Answer(2, 1518), 1518))
        self.assertEqual(self.give(done(C[0][0], DATA, body), assembly, counters),
                         (Answer(24), NOT_ASSEMBLING, Counters(1, 0, 0, 0)))

    def test_a_check_begun_anew(self):
        kept = bytes(range(70))
        for octets in (more(C[0][0], DATA), done(C[0][0], DATA)):
            self.assert_given(octets, opened(kept), (25, 0), NOT_ASSEMBLING, (1, 0, 0, 0))

    def test_the_running_check_of_the_record_is_taken_as_it_is(self):
        assembly = Assembly(True, 1, 2, 100, 0x12345678)
        self.assert_given(C[1][2] + DATA + fcs(DATA, 0x12345678), assembly, (1, 160), NOT_ASSEMBLING,
                          (0, 0, 1, 1), DATA, 100)
        self.assert_given(done(C[1][2], DATA, bytes(100)), assembly, (25, 0), NOT_ASSEMBLING, (1, 0, 0, 0))

    def test_the_standards_own_mcrc_is_not_document_01s(self):
        right = mcrc(DATA)
        other = bytes(octet ^ 0xFF for octet in right)
        self.assert_given(V + DATA + other, NOT_ASSEMBLING, (21, 0), NOT_ASSEMBLING, (0, 0, 0, 0))
        self.assert_given(S[0] + DATA + other, NOT_ASSEMBLING, (25, 0), NOT_ASSEMBLING, (1, 0, 0, 0))


class Refusals(Case):
    def test_memory(self):
        for room, octets in product((0, 1517), (done(E, DATA), more(V, DATA), done(S[0], DATA), b"")):
            memory = memory_of(room)
            self.assertEqual(self.give(octets, opened(), memory=memory), (Answer(10), opened(), Counters(0, 0, 0, 0)))
            self.assertEqual(memory, memory_of(room))
        self.assertEqual(self.give(done(E, DATA), memory=memory_of(1518))[0], Answer(0, 60))

    def test_records_without_an_assembly(self):
        for change in ({"frame_count": 1}, {"next_fragment_count": 1}, {"kept": 1}, {"kept": 60}, {"register": 1},
                       {"register": LAST}, {"frame_count": 255}, {"kept": GREATEST}):
            assembly = replace(NOT_ASSEMBLING, **change)
            for octets in (done(E, DATA), more(C[0][0], DATA), bytes(72), b""):
                self.assert_refused(octets, 11, assembly)

    def test_records_with_an_assembly(self):
        good = opened(bytes(100), 1, 1)
        for change in ({"frame_count": 4}, {"frame_count": 255}, {"next_fragment_count": 4},
                       {"next_fragment_count": 255}, {"kept": 0}, {"kept": 59}, {"kept": 1519},
                       {"kept": 2**32 + 100}, {"kept": GREATEST}):
            self.assert_refused(done(E, DATA), 11, replace(good, **change))
        for change in ({"frame_count": 0}, {"frame_count": 3}, {"next_fragment_count": 0}, {"next_fragment_count": 3},
                       {"kept": 60}, {"kept": 1518}, {"register": 0}, {"register": LAST}):
            self.assertEqual(self.give(done(E, DATA), replace(good, **change))[0], Answer(0, 60))

    def test_lengths(self):
        for length in (0, 1, 6, 7, 8, 11, 12, 71):
            self.assert_refused((E + bytes(64))[:length], 12)
        # The check would be good, but the mFrame is too short or too long.
        self.assert_refused(done(E, bytes(59)), 12)
        self.assert_refused(done(E, bytes(1519)), 13)
        for length in (60, 1518):
            self.assertEqual(self.give(done(E, bytes(length)))[0], Answer(0, length))

    def test_every_octet_as_delimiter(self):
        # Nothing is in assembly, so that a C is 22; behind its fragment code stand as many octets as there must.
        known = {0xD5: 0, 0xE6: 1, 0x4C: 1, 0x7F: 1, 0xB3: 1, 0x07: 21, 0x19: 21}
        for preamble, octet in product(range(8), range(256)):
            if octet == 0x55:
                continue
            is_continuation = octet in (0x61, 0x52, 0x9E, 0x2A)
            header = bytes([0x55] * preamble + [octet]) + (b"\x7F" if is_continuation else b"")
            answer, _, counters = self.give(done(header, DATA))
            self.assertEqual(answer.number, 22 if is_continuation else known.get(octet, 15))
            self.assertEqual(counters.delimiter_errors, 1 if answer.number in (15, 22) else 0)
        for preamble, (octet, bits) in product(range(8), ((0xAD, 4), (0x54, 2), (0x57, 2), (0x5D, 2), (0xD4, 1))):
            self.assert_refused(done(bytes([0x55] * preamble + [octet]), DATA), 15, bits=bits)
        # It is the first octet that is not 55 that counts, even where the next would be good.
        self.assert_refused(done(bytes([0x55] * 6 + [0xAD, 0xD5]), DATA), 15, bits=4)

    def test_every_fragment_code(self):
        for preamble, octet in product(range(8), range(256)):
            answer = self.give(more(bytes([0x55] * preamble + [0x61, octet]), DATA, bytes(64)), opened())[0]
            self.assertEqual(answer.number, {0xE6: 2, 0x4C: 23, 0x7F: 23, 0xB3: 23}.get(octet, 17))

    def test_order(self):
        bad_record = replace(opened(), kept=59)
        faults = (  # what follows the octets 55, and the number it is refused with, if any
            ("AD", 15), ("00", 15), ("61 55", 17), ("2A 00", 17), ("D5", None), ("61 E6", None))
        for short, wrong_record, behind, preamble, (header, number) in product(
                (False, True), (False, True), (0, 1, 63, 64, 1522, 1523, 5000), (0, 3, 7, 8, 9), faults):
            header = b"\x55" * preamble + bytes.fromhex(header)
            lengths = 12 if behind < 64 else 13 if behind > 1522 else None
            expected = 10 if short else 11 if wrong_record else 14 if preamble > 7 else number or lengths
            answer = self.give((header + bytes(5000))[:len(header) + behind], bad_record if wrong_record else opened(),
                               memory=memory_of(1517 if short else 1518))[0]
            if expected is None:
                self.assertIn(answer.number, (20, 24, 25))
            else:
                self.assertEqual(answer.number, expected)


HEADERS = [*(E, V, R), *S, *(header for headers in C for header in headers)]

# Octets 55; a C and the octet behind it, or another octet, where there are such; all the rest.
HEAD = re.compile(rb"(\x55*)(?:([\x61\x52\x9E\x2A])(.?)|(.))?(.*)", re.DOTALL)


def refused_by_the_paper(octets):
    """The number from 12 to 17 that answers, or None, with document 02's order and an expression for the head."""
    leading, continuation, code, other, behind = HEAD.fullmatch(octets).groups()
    if len(leading) >= 8:
        return 14
    if other and other not in b"\xD5\xE6\x4C\x7F\xB3\x07\x19":
        return 15
    if continuation and code and code not in b"\xE6\x4C\x7F\xB3":
        return 17
    return 12 if len(behind) < 64 else 13 if len(behind) > 1522 else None


class ShortenedPreambles(Case):
    """Document 02, (vi): from no to seven octets 55 before any delimiter. Each test is a sentence of it."""

    def variants(self, octets):
        """The same mFrame behind none to seven octets 55."""
        rest = octets.lstrip(b"\x55")
        return [b"\x55" * preamble + rest for preamble in range(8)]

    def test_any_number_before_any_delimiter(self):
        # Whatever the mFrame and the record: answer, assembly, counters and memory are those of the mFrame as it is sent.
        for header, make, assembly in product(HEADERS, (done, more), (NOT_ASSEMBLING, opened(bytes(60), 2, 1))):
            for octets in (make(header, DATA), make(header, DATA, bytes(60)), spoiled(make(header, DATA))):
                memory = memory_of()
                expected = self.give(octets, assembly, memory=memory), memory
                for variant in self.variants(octets):
                    memory = memory_of()
                    self.assertEqual((self.give(variant, assembly, memory=memory), memory), expected)

    def test_eight_or_more(self):
        for preamble, header in product((8, 9, 10, 64, 1522, 5000), ("", "D5", "61E6", "00", "6155")):
            for behind in (b"", bytes(64), bytes(1523)):
                self.assert_refused(b"\x55" * preamble + bytes.fromhex(header) + behind, 14, opened())

    def test_octets_that_end_before_their_delimiter(self):
        for preamble in range(8):
            self.assert_refused(b"\x55" * preamble, 12, opened())

    def test_octets_that_end_before_their_fragment_code_or_behind_it(self):
        for header in HEADERS:
            for variant in self.variants(header):
                self.assert_refused(variant, 12, opened())
                if header[6] != 0x55:
                    self.assert_refused(variant[:-1], 12, opened())

    def test_a_lone_octet(self):
        for octet in range(256):
            known = octet in (0x55, 0xD5, 0xE6, 0x4C, 0x7F, 0xB3, 0x61, 0x52, 0x9E, 0x2A, 0x07, 0x19)
            self.assertEqual(self.give(bytes([octet]))[0].number, 12 if known else 15)

    def test_both_limits_from_the_headers_end(self):
        for header, (behind, number) in product(HEADERS, ((63, 12), (64, None), (1522, None), (1523, 13))):
            for variant in self.variants(header + bytes(behind)):
                if number is None:
                    self.assertGreaterEqual(self.give(variant, opened())[0].number, 20)
                else:
                    self.assert_refused(variant, number, opened())

    def test_the_shortest_and_the_longest(self):
        shortest = done(b"\xD5", DATA)
        self.assertEqual((len(shortest), self.give(shortest)[0]), (65, Answer(0, 60)))
        longest = more(b"\x55" * 7 + b"\x61\xE6", bytes(1518), bytes(64))
        self.assertEqual(len(longest), 1531)
        self.assert_given(longest, opened(), (24, 0), NOT_ASSEMBLING, (1, 0, 0, 0))
        self.assert_given(longest, NOT_ASSEMBLING, (22, 0), NOT_ASSEMBLING, (0, 1, 0, 0))
        self.assert_given(longest, opened(frame=1), (23, 0), NOT_ASSEMBLING, (1, 0, 0, 0))

    def test_data_that_begin_with_octets_55(self):
        for header, data in product((E, S[1], C[0][0]), (b"\x55" * 60, b"\x55" + bytes(59), b"\x55\x55\xD5" + DATA)):
            before = bytes(64) if header == C[0][0] else b""
            for variant in self.variants(done(header, data, before)):
                memory = memory_of()
                answer = self.give(variant, opened(), memory=memory)[0]
                self.assertEqual(answer, Answer(0 if header == E else 1, len(before + data)))
                if header == E:
                    begin, length = receiving.express_body(variant)
                    self.assertEqual(variant[begin:begin + length], data)
                else:
                    self.assertEqual(memory[len(before):len(before + data)], data)

    def test_parts_of_one_frame_with_different_numbers(self):
        body = Chance(86).octets(180)
        first, second, third = exchange.Sender(next_frame_count=1).frame(body, 0)
        for of_first, of_second, of_third in product(range(8), range(8), range(8)):
            memory, record = memory_of(), receiving.fresh()
            for octets in (self.variants(first)[of_first], self.variants(second)[of_second],
                           self.variants(third)[of_third]):
                answer, record = receiving.receive(memory, record, octets)
            self.assertEqual((answer, memory[:180], record.counters), (Answer(1, 180), body, Counters(0, 0, 1, 2)))

    def test_every_short_run_of_some_octets(self):
        # Up to five octets, each of which is a 55, a delimiter, a fragment code or neither, with much, little or nothing
        # around them.
        met = set()
        for length in range(6):
            for word, preamble, behind in product(product(b"\x55\xD5\x61\xE6\x00", repeat=length), (0, 4, 6),
                                                  (0, 59, 64, 1518, 1530)):
                octets = b"\x55" * preamble + bytes(word) + bytes(behind)
                answer = receiving.refusal(1518, NOT_ASSEMBLING, receiving.head_of(octets))
                self.assertEqual(answer and answer.number, refused_by_the_paper(octets), octets[:20].hex())
                met.add(answer and answer.number)
        self.assertEqual(met, {None, 12, 13, 14, 15, 17})

    def test_16_no_longer_occurs(self):
        self.assertNotIn(16, [number for number, _ in receiving.REFUSALS])
        # What was 16 is now as good as anything else.
        self.assertEqual(self.give(done(bytes.fromhex("555555555555D5"), DATA))[0], Answer(0, 60))
        self.assertEqual(self.give(more(bytes.fromhex("5555555555555561E6"), DATA, bytes(64)), opened())[0],
                         Answer(2, 124))


class CountersGoingRound(Case):
    def test_each_way(self):
        kept = bytes(1458)
        full = bytes(1459)
        last = Counters(LAST, LAST, LAST, LAST)
        for octets, assembly, expected in (
            (more(S[0], DATA), opened(), (0, LAST, LAST, LAST)),
            (spoiled(more(S[0], DATA)), NOT_ASSEMBLING, (0, LAST, LAST, LAST)),
            (spoiled(more(S[0], DATA)), opened(), (1, LAST, LAST, LAST)),
            (more(C[1][0], DATA, kept), opened(kept), (0, LAST, LAST, LAST)),
            (more(C[0][0], DATA, full), opened(full), (0, LAST, LAST, LAST)),
            (spoiled(more(C[0][0], DATA, kept)), opened(kept), (0, LAST, LAST, LAST)),
            (done(bytes([0x55] * 7 + [0]), DATA), opened(), (LAST, 0, LAST, LAST)),
            (b"\x00", opened(), (LAST, 0, LAST, LAST)),
            (done(bytes([0x55] * 6 + [0x61, 0]), DATA), opened(), (LAST, 0, LAST, LAST)),
            (bytes([0x61, 0]), opened(), (LAST, 0, LAST, LAST)),
            (more(C[0][0], DATA), NOT_ASSEMBLING, (LAST, 0, LAST, LAST)),
            (done(C[0][0], DATA, kept), opened(kept), (LAST, LAST, 0, 0)),
            (more(C[0][0], DATA, kept), opened(kept), (LAST, LAST, LAST, 0)),
            (done(S[0], DATA), NOT_ASSEMBLING, (LAST, LAST, LAST, LAST)),
            (done(E, DATA), opened(), (LAST, LAST, LAST, LAST)),
            (done(bytes([0x55] * 8 + [0]), DATA), opened(), (LAST, LAST, LAST, LAST)),
            (b"", opened(), (LAST, LAST, LAST, LAST)),
            (b"\x61", opened(), (LAST, LAST, LAST, LAST)),
            (done(E, bytes(1519)), opened(), (LAST, LAST, LAST, LAST)),
        ):
            self.assertEqual(self.give(octets, assembly, last)[2], Counters(*expected))


class ExpressBody(Case):
    def test_the_part_of_the_mframe(self):
        for preamble, length in product(range(8), (60, 61, 1518)):
            self.assertEqual(receiving.express_body(done(E[7 - preamble:], bytes(length))), (preamble + 1, length))

    def test_else_the_empty_part_at_the_front(self):
        for octets in (b"", bytes(72), done(E, bytes(59)), done(E, bytes(1519)), more(E, DATA), spoiled(done(E, DATA)),
                       more(V, DATA), done(S[0], DATA), more(S[0], DATA), more(C[0][0], DATA),
                       done(bytes([0x55] * 6 + [0xD5, 0xD5]), DATA), done(b"\x55" + E, DATA), done(b"\xD5", bytes(59)),
                       spoiled(done(b"\xD5", DATA)), b"\x55" * 7, b"\xD5"):
            self.assertEqual(receiving.express_body(octets), (0, 0))


class EasyToGetWrong(Case):
    def test_express_does_not_close_an_assembly(self):
        body = Chance(72).octets(200)
        first, second, third = exchange.Sender().frame(body, 0)
        memory, record = memory_of(), receiving.fresh()
        answers = []
        for octets in (first, done(E, DATA), second, more(V, DATA), spoiled(done(E, DATA)), third):
            answer, record = receiving.receive(memory, record, octets)
            answers.append(answer.number)
        self.assertEqual(answers, [2, 0, 2, 3, 20, 1])
        self.assertEqual(memory[:200], body)

    def test_nothing_is_kept_after_23(self):
        first, second, third, fourth, fifth = exchange.Sender().frame(Chance(73).octets(320), 0)
        record, answers = receiving.fresh(), []
        for octets in (first, third, second, third, fourth, fifth):
            answer, record = receiving.receive(memory_of(), record, octets)
            answers.append(answer.number)
        self.assertEqual(answers, [2, 23, 22, 22, 22, 22])

    def test_four_lost_fragments_bring_the_count_back_but_not_the_check(self):
        mframes = exchange.Sender().frame(Chance(74).octets(60 * 8), 0)
        record, answers = receiving.fresh(), []
        for octets in mframes[:2] + mframes[6:]:
            answer, record = receiving.receive(memory_of(), record, octets)
            answers.append(answer.number)
        self.assertEqual(answers, [2, 2, 25, 22])

    def test_five_continuations(self):
        body = Chance(75).octets(60 * 6)
        mframes = exchange.Sender(next_frame_count=2).frame(body, 0)
        memory, record = memory_of(), receiving.fresh()
        for number, octets in enumerate(mframes[:-1]):
            answer, record = receiving.receive(memory, record, octets)
            kept = 60 * (number + 1)
            self.assertEqual(answer, Answer(2, kept))
            self.assertEqual(record.assembly, Assembly(True, 2, number % 4, kept, register_of(body[:kept])))
            # Octets past those kept are never written.
            self.assertEqual(memory, body[:kept] + memory_of()[kept:])
        answer, record = receiving.receive(memory, record, mframes[-1])
        self.assertEqual((answer, record), (Answer(1, 360), ReceivingRecord(NOT_ASSEMBLING, Counters(0, 0, 1, 5))))
        self.assertEqual(memory, body + memory_of()[360:])


def kind_of(octets):
    """S, C or another, by the header alone; only for mFrames that were not refused."""
    found = re.match(rb"\x55{0,7}(?:([\xE6\x4C\x7F\xB3])|([\x61\x52\x9E\x2A])|[\xD5\x07\x19])", octets, re.DOTALL)
    return "S" if found[1] else "C" if found[2] else "other"


class Histories(Case):
    """Long random exchanges. The counters are counted a second time from the answers."""

    def run_history(self, mframes):
        memory, record = memory_of(1518), receiving.fresh()
        starts = delivered = abandoned = damaged_starts = delimiters = assembled = fragments = 0
        parts = 0
        met = set()
        for octets in mframes:
            before = bytes(memory)
            answer, record = receiving.receive(memory, record, octets)
            number = answer.number
            met.add(number)
            kind = kind_of(octets) if number < 10 or number >= 20 else "refused"
            if kind == "S":
                starts += 1
                abandoned += parts > 0
                damaged_starts += number == 25
                parts = 1
            elif kind == "C":
                parts += 1
                abandoned += number in (23, 24, 25)
                fragments += number in (1, 2)
            if number in (1, 23, 24, 25) or (kind == "C" and number == 22):
                assembled += number == 1 and parts > 1
                parts = 0
            delivered += number == 1
            delimiters += number in (15, 17, 22)
            self.assertEqual(record.counters, Counters(abandoned + damaged_starts, delimiters, assembled, fragments))
            # The start sum of document 01.
            self.assertEqual(starts, delivered + record.counters.assembly_errors + record.assembly.assembling)
            self.assertEqual(record.assembly.assembling, parts > 0)
            # The running CRC is that of the octets kept, and the record stays in range.
            self.assertTrue(receiving.in_range(record.assembly))
            if record.assembly.assembling:
                self.assertEqual(record.assembly.register, register_of(bytes(memory[:record.assembly.kept])))
            if number not in (1, 2):
                self.assertEqual(memory, before)
            else:
                self.assertEqual(memory[answer.detail:], before[answer.detail:])
        return met

    def test_noisy_exchanges(self):
        met = set()
        for seed, trouble in ((76, 0), (77, 3), (78, 15), (79, 50), (80, 100)):
            chance = Chance(seed)
            mframes = exchange.sent_in_turn(chance, 600, 900)
            if seed % 2 == 0:
                mframes = exchange.swallowed(mframes, chance)
            met |= self.run_history(exchange.over_a_noisy_row(mframes, chance, trouble))
        self.assertLessEqual({0, 1, 2, 3, 4, 12, 14, 15, 17, 20, 21, 22, 23, 25}, met)

    def test_random_pieces(self):
        # Starts and continuations of all counts with good and bad checks, in no order at all.
        chance = Chance(81)
        pieces = []
        for frame in range(4):
            for data in (bytes(60), DATA, bytes(1500)):
                pieces += [more(S[frame], data), done(S[frame], data), spoiled(done(S[frame], data))]
            for fragment in range(4):
                pieces += [more(C[frame][fragment], DATA, bytes(60)), more(C[frame][fragment], DATA, DATA),
                           done(C[frame][fragment], DATA, bytes(60)), spoiled(done(C[frame][fragment], DATA, DATA))]
        met = self.run_history([pieces[chance.below(len(pieces))] for _ in range(4000)])
        self.assertEqual(met, {1, 2, 22, 23, 24, 25})


class Loss(Case):
    """Every frame that lost no mFrame is delivered, and no other, as long as never four S and C in a row are lost."""

    def exchange_with_loss(self, chance, frames, one_in):
        sender = exchange.Sender(next_frame_count=chance.below(4))
        given, expected, in_a_row = [], [], 0
        for _ in range(frames):
            body = chance.octets(chance.between(60, 700))
            mframes = sender.frame(body, chance.below(120))
            arrived = []
            for octets in mframes:
                # E, V and R between neither count in a run of losses nor break it.
                if chance.below(4) == 0:
                    given.append(done(E, DATA))
                if in_a_row < 3 and chance.below(one_in) == 0:
                    in_a_row += 1
                else:
                    in_a_row = 0
                    arrived.append(octets)
                    given.append(octets)
            if len(arrived) == len(mframes):
                expected.append(body)
        return given, expected

    def test_delivered_and_nothing_else(self):
        for seed, one_in in ((82, 1000), (83, 10), (84, 4), (85, 2)):
            given, expected = self.exchange_with_loss(Chance(seed), 150, one_in)
            if seed % 2 == 1:
                given = exchange.swallowed(given, Chance(seed))
            memory, record, delivered = memory_of(1518), receiving.fresh(), []
            for octets in given:
                answer, record = receiving.receive(memory, record, octets)
                if answer.number == 1:
                    delivered.append(bytes(memory[:answer.detail]))
            self.assertEqual(delivered, expected)
            self.assertGreater(len(expected), 5)


if __name__ == "__main__":
    unittest.main()
