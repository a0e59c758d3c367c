"""Tests of octet_by_octet.py: document 02, request (iv), sentence by sentence, with the limit of (vi).

Whatever the second receiver is given octet by octet, the first one is given whole, and both must come to the same.
mFrames are put together from written-out headers and zlib's check.
"""

import unittest
from dataclasses import replace
from itertools import product

import exchange
import octet_by_octet
import receiving
from by_hand import fcs, mcrc, memory
from chance import Chance
from octet_by_octet import EMPTY, END, WAITS, State
from receiving import NOT_ASSEMBLING, Answer, Assembly, Counters, ReceivingRecord

DATA = bytes(range(100, 160))
LONG = Chance(90).octets(1518)
E, S, V, R = (bytes.fromhex("55555555555555" + code) for code in ("D5", "E6", "07", "19"))
C = bytes.fromhex("55555555555561E6")
# Behind seven octets 55, as it can arrive.
LATE_C = b"\x55" + C

SHORT_EXPRESS = E + DATA + fcs(DATA)
# As long as E can be, and as long as any mFrame can be, which is one octet more.
LONGEST_EXPRESS = E + LONG + fcs(LONG)
LONGEST = LATE_C + LONG + mcrc(LONG)

OPEN = Assembly(True, 0, 0, 60, 0x12345678)
RECORDS = {
    "fresh": receiving.fresh(),
    "assembling": ReceivingRecord(OPEN, Counters(1, 2, 3, 4)),
    "last numbers": ReceivingRecord(NOT_ASSEMBLING, Counters(*[2**32 - 1] * 4)),
    "out of range": ReceivingRecord(replace(OPEN, kept=59), Counters(5, 6, 7, 8)),
}
UNSOUND = (State(1532, False), State(1532, True), State(0, True), State(1, True), State(1530, True),
           State(2**16 + 1531, True), State(2**31, False), State(2**32 - 1, False), State(2**32 - 1, True))
SOUND = (EMPTY, State(1, False), State(1530, False), State(1531, False), State(1531, True))


class Second:
    """The second receiver with all that its caller keeps."""

    def __init__(self, record=receiving.fresh(), room=1518, area=1531, state=EMPTY):
        self.record, self.state = record, state
        self.memory, self.area = bytearray(memory(room, 3)), bytearray(memory(area, 70))

    def call(self, given):
        answer, self.state, self.record = octet_by_octet.call(given, self.state, self.area, self.record, self.memory)
        return answer

    def run(self, octets):
        """Octets and their end; gives the answer to the end and whether it waited at every octet."""
        waited = [self.call(octet) for octet in octets]
        return self.call(END), waited == [WAITS] * len(octets)

    def kept(self):
        """All that a call could change."""
        return self.state, self.record, bytes(self.area), bytes(self.memory)


def first(octets, record, room=1518):
    """The first receiver on a whole run: its answer, and record and memory afterwards."""
    lent = bytearray(memory(room, 3))
    answer, record = receiving.receive(lent, record, octets)
    return answer, record, bytes(lent)


def runs():
    """Octets for every answer that does not need a certain record, and for some that do, up to 5,000 of them."""
    hit_preamble = b"\x54" + SHORT_EXPRESS[1:]
    unknown, no_fragment_code = (bytes.fromhex("555555555555" + code) + DATA + fcs(DATA) for code in ("55AD", "6155"))
    return [b"", b"\x55", b"\x55" * 8, b"\x61", SHORT_EXPRESS[:71], SHORT_EXPRESS, hit_preamble, unknown,
            no_fragment_code, b"\x55" + SHORT_EXPRESS, SHORT_EXPRESS[7:], SHORT_EXPRESS[3:], SHORT_EXPRESS[8:],
            SHORT_EXPRESS + b"\x00", V + bytes(60) + mcrc(bytes(60)), R + DATA + mcrc(DATA), R + DATA + fcs(DATA),
            S + DATA + mcrc(DATA), S[5:] + DATA + fcs(DATA), S + LONG + mcrc(LONG), C + DATA + fcs(DATA),
            LATE_C + DATA + fcs(DATA), C + LONG + bytes(4), LONGEST_EXPRESS[:1529], LONGEST_EXPRESS,
            LONGEST_EXPRESS + b"\x55", LONGEST_EXPRESS + b"\x55\x55", LONGEST[:1530], LONGEST, LONGEST + b"\x55",
            bytes(5000), b"\x55" * 5000, LATE_C[:8] + bytes(5000), E + bytes(5000)]


class Waiting(unittest.TestCase):
    """Up to an end it answers only that it waits."""

    def test_every_octet(self):
        second = Second(area=1600)
        record, lent = second.record, bytes(second.memory)
        for place, octet in enumerate(LONGEST):
            self.assertEqual(second.call(octet), WAITS)
            came = LONGEST[:place + 1]
            self.assertEqual(second.kept(), (State(place + 1, False), record, memory(1600, 70, came), lent))

    def test_every_value(self):
        for octet in range(256):
            second = Second(state=State(700, False))
            self.assertEqual(second.call(octet), WAITS)
            self.assertEqual((second.state, bytes(second.area)),
                             (State(701, False), memory(1531, 70, bytes([octet]), 700)))

    def test_every_place(self):
        for count, room in product(range(1531), (1531, 1532)):
            second = Second(area=room, state=State(count, False))
            octet = (second.area[count] + 1) % 256
            self.assertEqual(second.call(octet), WAITS)
            self.assertEqual((second.state, bytes(second.area)),
                             (State(count + 1, False), memory(room, 70, bytes([octet]), count)))

    def test_record_and_buffer_are_not_looked_at(self):
        # There is none to look at.
        area = bytearray(1531)
        self.assertEqual(octet_by_octet.call(7, EMPTY, area, None, None), (WAITS, State(1, False), None))
        self.assertEqual(octet_by_octet.call(7, State(1531, True), area, None, None), (WAITS, State(1531, True), None))


class AtTheEnd(unittest.TestCase):
    """At the end its answer, record and assembly buffer equal those of the first receiver on the octets since the last
    end."""

    def test_every_run(self):
        met = set()
        for octets, record, room, area in product(runs(), RECORDS.values(), (1517, 1518), (1531, 1700)):
            second = Second(record, room, area)
            answer, waited = second.run(octets)
            self.assertEqual((answer, second.record, bytes(second.memory)), first(octets, record, room))
            self.assertTrue(waited)
            # The area is left as it is, and the state is empty.
            self.assertEqual((bytes(second.area), second.state), (memory(area, 70, octets[:1531]), EMPTY))
            met.add(answer.number)
        self.assertEqual(met, {*range(5), *range(10, 16), 17, 20, 21, 22, 24, 25})

    def test_one_run_after_the_other(self):
        # Each begins where the state is empty, whatever the last one left in the area.
        short = [octets for octets in runs() if len(octets) < 100]
        for one, other in [*product(runs(), short), *product(short[:4], runs())]:
            second = Second()
            second.run(one)
            record, lent = second.record, bytearray(second.memory)
            expected = receiving.receive(lent, record, other)
            answer, waited = second.run(other)
            self.assertEqual(((answer, second.record), second.memory, waited), (expected, lent, True))

    def test_no_octets(self):
        for record, more_ends in product((RECORDS["fresh"], RECORDS["assembling"]), range(3)):
            second = Second(record)
            for _ in range(more_ends + 1):
                before = second.kept()
                self.assertEqual(second.call(END), Answer(12))
                self.assertEqual(second.kept(), before)

    def test_a_frame_in_parts(self):
        body = Chance(91).octets(400)
        second = Second()
        answers = []
        for octets in exchange.Sender().frame(body, 0):
            answers.append(second.run(octets)[0])
            answers.append(second.run(SHORT_EXPRESS)[0])
        self.assertEqual([answer.number for answer in answers], [2, 0, 2, 0, 2, 0, 2, 0, 2, 0, 1, 0])
        self.assertEqual(answers[-2], Answer(1, 400))
        self.assertEqual(second.memory[:400], body)
        self.assertEqual(second.record.counters, Counters(0, 0, 1, 5))

    def test_the_state_says_which_octets_came(self):
        for octets in (LONGEST_EXPRESS + b"\x00", LONGEST):
            second = Second(area=2000)
            second.run(octets)
            for count in (0, 1, 7, 8, 9, 71, 72, 73, 1529, 1530, 1531):
                second.record, second.state = receiving.fresh(), State(count, False)
                self.assertEqual(second.call(END), first(octets[:count], receiving.fresh())[0])


class Beyond(unittest.TestCase):
    """Beyond 1,531 it counts no octet but remembers that there were more."""

    def test_no_octet_is_counted(self):
        for room in (1531, 1532, 2000):
            second = Second(area=room)
            for octet in LONGEST:
                second.call(octet)
            self.assertEqual(second.state, State(1531, False))
            for octet in range(256):
                self.assertEqual(second.call(octet), WAITS)
                self.assertEqual((second.state, bytes(second.area)), (State(1531, True), memory(room, 70, LONGEST)))
            self.assertEqual(second.call(END), Answer(13))

    def test_exactly_1531_are_no_more(self):
        self.assertEqual(len(LONGEST), 1531)
        self.assertEqual(Second(RECORDS["assembling"]).run(LONGEST)[0], Answer(24))
        self.assertEqual(Second(RECORDS["assembling"]).run(LONGEST + b"\x00")[0], Answer(13))
        # Of E one octet fewer is the most.
        self.assertEqual(Second().run(LONGEST_EXPRESS)[0], Answer(0, 1518))
        self.assertEqual(Second().run(LONGEST_EXPRESS + b"\x00")[0], Answer(13))

    def test_what_came_beyond_makes_no_difference(self):
        """The octets kept and that there were more are enough: the first receiver asks no more of the others."""
        chance = Chance(92)
        longest = {LONGEST: 13, LONGEST_EXPRESS + b"\x55": 13, E[7:] + LONG + bytes(12): 13, S + LONG + bytes(5): 13,
                   V + LONG + bytes(5): 13, C + LONG + bytes(5): 13, b"\x55" * 1531: 14, b"\x55" + LONGEST[:1530]: 14,
                   b"\x55" * 1530 + b"\xD5": 14, bytes(1531): 15, E[:7] + bytes(1524): 15, C[:7] + bytes(1524): 17,
                   C[6:7] + b"\x55" * 1530: 17}
        beyond = [bytes([octet]) for octet in range(256)]
        beyond += [chance.octets(length) for length in (2, 3, 4, 5, 12, 72, 1530, 1531, 1532, 3470, 2**16, 2**16 + 72)]
        beyond += [SHORT_EXPRESS, LONGEST_EXPRESS, fcs(LONGEST_EXPRESS[8:]), mcrc(LONGEST_EXPRESS[8:])]
        for (octets, number), (name, record), room in product(longest.items(), RECORDS.items(), (1517, 1518)):
            with self.subTest(octets=octets[:9].hex(), record=name, room=room):
                self.assertEqual(len(octets), 1531)
                expected = 10 if room < 1518 else 11 if name == "out of range" else number
                answered = {first(octets + others, record, room) for others in beyond}
                # One answer, the right one, and one record, whatever came beyond; the memory stays as it was.
                self.assertEqual([(answer.number, lent) for answer, _, lent in answered], [(expected, memory(room, 3))])
                # What the second one asks about is one of these.
                asked = octet_by_octet.since_the_last_end(State(1531, True), bytearray(octets))
                self.assertEqual((asked[:1531], len(asked)), (octets, 1532))


class Refusals(unittest.TestCase):
    """18, area under 1,531, then 19, a state counting over 1,531 or remembering more below that, at every call and
    before all others. 18 and 19 change nothing."""

    def refused(self, given, number, **kept):
        second = Second(**kept)
        before = second.kept()
        self.assertEqual(second.call(given), Answer(number))
        self.assertEqual(second.kept(), before)

    def not_refused(self, given, **kept):
        answer = Second(**kept).call(given)
        self.assertNotIn(answer, (Answer(18), Answer(19)))
        self.assertEqual(answer == WAITS, given != END)

    def each(self, states, areas):
        """Every call that is given something, with good and bad records and buffers."""
        for given, state, area, record, room in product((END, 0, 0x55), states, areas, RECORDS.values(), (0, 1518)):
            yield given, {"state": state, "area": area, "record": record, "room": room}

    def test_the_area(self):
        for given, kept in self.each(SOUND + UNSOUND, (0, 1, 1518, 1530)):
            self.refused(given, 18, **kept)

    def test_the_state(self):
        for given, kept in self.each(UNSOUND, (1531, 1532, 2048)):
            self.refused(given, 19, **kept)

    def test_the_other_side_of_each_limit(self):
        for given, kept in self.each(SOUND, (1531, 1532, 2048)):
            self.not_refused(given, **kept)

    def test_every_count(self):
        for count in range(1540):
            for more in (False, True):
                unsound = count > 1531 or (more and count < 1531)
                for given in (END, 9):
                    self.assertEqual(Second(state=State(count, more)).call(given) == Answer(19), unsound)

    def test_10_and_11_at_the_end_alone(self):
        out_of_range = RECORDS["out of range"]
        for octets in (b"", SHORT_EXPRESS, LONGEST_EXPRESS, LONGEST_EXPRESS + b"\x00"):
            self.assertEqual(Second(out_of_range, 1517).run(octets), (Answer(10), True))
            self.assertEqual(Second(receiving.fresh(), 1517).run(octets), (Answer(10), True))
            self.assertEqual(Second(out_of_range, 1518).run(octets), (Answer(11), True))

    def test_one_in_the_middle_of_an_mframe(self):
        for unsound in UNSOUND:
            second = Second()
            for octet in SHORT_EXPRESS[:40]:
                second.call(octet)
            left = second.state
            second.state = unsound
            self.assertEqual([second.call(given) for given in (0, END, 0)], [Answer(19)] * 3)
            second.state = left
            self.assertEqual(second.run(SHORT_EXPRESS[40:]), (Answer(0, 60), True))


class AfterAnEnd(unittest.TestCase):
    """After an end otherwise answered the state is empty."""

    def test_every_sound_state(self):
        for count, more in [*((count, False) for count in range(1532)), (1531, True)]:
            second = Second(state=State(count, more))
            second.call(END)
            self.assertEqual(second.state, EMPTY)

    def test_a_good_mframe_after_each_answer(self):
        met = set()
        for octets, name, room in product(runs(), RECORDS, (1517, 1518)):
            second = Second(RECORDS[name], room)
            met.add(second.run(octets)[0].number)
            self.assertEqual(second.state, EMPTY)
            second.record, second.memory = receiving.fresh(), bytearray(1518)
            self.assertEqual(second.run(SHORT_EXPRESS), (Answer(0, 60), True))
        self.assertLessEqual({10, 11, 12, 13, 14, 15, 17}, met)


class Histories(unittest.TestCase):
    """Long random exchanges, octet by octet, beside the first receiver on whole runs."""

    def ends_out_of_place(self, chance, arrived):
        """What arrives between two ends: mostly an mFrame, but ends come too early or twice, or are missed."""
        joined = b""
        for octets in arrived:
            which = chance.below(30)
            if which == 0:
                place = chance.below(len(octets) + 1)
                yield joined + octets[:place]
                joined, octets = b"", octets[place:]
            elif which == 1:
                octets += chance.octets(chance.between(1400, 1600))
            elif which == 2:
                joined += octets
                continue
            yield joined + octets
            joined = b""
            if which == 3:
                yield b""

    def run_history(self, given, area, room):
        second, record, lent = Second(area=area, room=room), receiving.fresh(), bytearray(memory(room, 3))
        expected_area = bytearray(second.area)
        met = set()
        for octets in given:
            expected, record = receiving.receive(lent, record, octets)
            expected_area[:min(len(octets), 1531)] = octets[:1531]
            answer, waited = second.run(octets)
            self.assertEqual((answer, waited), (expected, True))
            self.assertEqual(second.kept(), (EMPTY, record, bytes(expected_area), bytes(lent)))
            met.add(answer.number)
        return met

    def test_noisy_exchanges(self):
        met, lengths = set(), set()
        for seed, trouble, area, room in ((93, 0, 1531, 1518), (94, 10, 1532, 1600), (95, 40, 1531, 1518),
                                          (96, 100, 2048, 1519)):
            chance = Chance(seed)
            mframes = exchange.swallowed(exchange.sent_in_turn(chance, 500, 900), chance)
            given = list(self.ends_out_of_place(chance, exchange.over_a_noisy_row(mframes, chance, trouble)))
            met |= self.run_history(given, area, room)
            lengths |= {len(octets) for octets in given}
        self.assertLessEqual({*range(5), 12, 13, 14, 15, 17, 20, 21, 22, 23, 25}, met)
        # Empty runs, and some on both sides of the limit.
        self.assertIn(0, lengths)
        self.assertGreater(len([length for length in lengths if 1400 < length <= 1531]), 5)
        self.assertGreater(len([length for length in lengths if length > 1531]), 20)


if __name__ == "__main__":
    unittest.main()
