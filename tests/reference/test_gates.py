"""Tests of gates.py: document 02, request (i), sentence by sentence.

CASES and WRITING_CASES tell every reader and writer of wrong_gates.py, which are wrong in one rule each.
"""

import unittest

import gates
import wrong_gates
from chance import Chance
from gates import Answer, Entry, Event

GREATEST_WORD = 2**32 - 1
# More room than any list needs, in entries, octets and events.
ENOUGH = 1792

# Operation, length, gate octet, interval: source 001, octet by octet.
SET = bytes.fromhex("00 05 A5 01 02 03 04")
HOLD = bytes.fromhex("01 05 00 00 00 00 0A")
RELEASE = bytes.fromhex("02 05 FF FF FF FF FF")

FULL = HOLD * 256


def random_entries(chance, count):
    return [Entry(chance.below(3), chance.below(256), chance.register()) for _ in range(count)]


def entry(operation, length, there=None):
    """An entry of any operation and length, with so many octets of value there, else with all."""
    return bytes([operation, length]) + b"\x11" * (length if there is None else there)


def outcome(answer):
    """Number and value. A refusal writes nothing and has no cycle."""
    if answer.number != 0:
        assert (len(answer.written), answer.cycle) == (0, 0), "a refusal writes nothing"
    return answer.number, answer.value


def reading(octets, room=ENOUGH):
    return outcome(gates.read(octets, room))


def writing(entries, room=ENOUGH):
    return outcome(gates.write(entries, room))


class Layout(unittest.TestCase):
    """Length 5 for each operation (gate octet, then interval in nanoseconds, high octet first)."""

    ENTRIES = (Entry(0, 0xA5, 0x01020304), Entry(1, 0, 10), Entry(2, 255, GREATEST_WORD))

    def test_read(self):
        self.assertEqual(gates.read(SET + HOLD + RELEASE, 3), Answer(0, 3, self.ENTRIES))

    def test_write(self):
        self.assertEqual(gates.write(self.ENTRIES, 21), Answer(0, 21, SET + HOLD + RELEASE))

    def test_every_octet_of_an_interval(self):
        for place, weight in enumerate((2**24, 2**16, 2**8, 1)):
            octets = bytearray(entry(0, 5, 0) + bytes(5))
            octets[3 + place] = 0x81
            self.assertEqual(gates.read(bytes(octets), 1).written, (Entry(0, 0, 0x81 * weight),))
            self.assertEqual(gates.write([(0, 0, 0x81 * weight)], 7).written, bytes(octets))

    def test_every_operation_and_gate_octet(self):
        for operation in range(3):
            for gate_octet in range(256):
                octets = bytes([operation, 5, gate_octet, 0, 0, 0, 1])
                self.assertEqual(gates.read(octets, 1).written, ((operation, gate_octet, 1),))
                self.assertEqual(gates.write([(operation, gate_octet, 1)], 7).written, octets)

    def test_no_entries(self):
        self.assertEqual(gates.read(b"", 0), Answer(0, 0, ()))
        self.assertEqual(gates.write([], 0), Answer(0, 0, b""))
        self.assertEqual(gates.events(b"", 0), Answer(0, 0, (), 0))


class Events(unittest.TestCase):
    """List an event for each operation 1 or 2 with the 64-bit sum of all intervals before it."""

    def test_events(self):
        self.assertEqual(gates.events(SET + HOLD + SET + RELEASE + HOLD, 3),
                         Answer(0, 3, (Event(0x01020304, 1), Event(0x02040612, 2), Event(0x102040611, 1)), 0x10204061B))

    def test_the_first_is_at_0(self):
        self.assertEqual(gates.events(HOLD, 1), Answer(0, 1, (Event(0, 1),), 10))

    def test_no_event_for_operation_0(self):
        self.assertEqual(gates.events(SET * 4, 0), Answer(0, 0, (), 4 * 0x01020304))

    def test_the_greatest_sum(self):
        # Of 256 greatest intervals 255 stand before the last entry; the cycle has them all, and 64 bits hold it.
        answer = gates.events(RELEASE * 256, 256)
        self.assertEqual(answer.written[-1], Event(255 * GREATEST_WORD, 2))
        self.assertEqual(answer.written[-1].time, 1095216660225)
        self.assertEqual((answer.number, answer.value, answer.cycle), (0, 256, 1099511627520))
        self.assertLess(answer.cycle, 2**64)

    def test_they_are_those_of_the_entries(self):
        # Counted a second time, entry by entry, from what read() gives.
        chance = Chance(8042)
        for _ in range(200):
            octets = gates.write(random_entries(chance, chance.below(257)), ENOUGH).written
            now, expected = 0, []
            for operation, _, interval in gates.read(octets, 256).written:
                if operation != 0:
                    expected.append((now, operation))
                now += interval
            answer = gates.events(octets, 256)
            self.assertEqual((list(answer.written), answer.cycle), (expected, now))
            times = [event.time for event in answer.written]
            self.assertEqual(times, sorted(times))


class RoundTrips(unittest.TestCase):
    """Both round trips hold for every list accepted."""

    def test_read_and_written_back(self):
        chance = Chance(8043)
        for count in (*range(8), 255, 256, *(chance.below(257) for _ in range(200))):
            octets = b"".join(bytes([chance.below(3), 5]) + chance.octets(5) for _ in range(count))
            entries = gates.read(octets, count).written
            self.assertEqual(len(entries), count)
            self.assertEqual(gates.write(entries, 7 * count).written, octets)

    def test_written_and_read_back(self):
        chance = Chance(8044)
        for count in (*range(8), 255, 256, *(chance.below(257) for _ in range(200))):
            entries = random_entries(chance, count)
            octets = gates.write(entries, 7 * count).written
            self.assertEqual(len(octets), 7 * count)
            self.assertEqual(list(gates.read(octets, count).written), entries)

    def test_what_a_damaged_list_still_gives_is_written_back(self):
        # Where a list is still accepted, it comes back as it is now.
        chance = Chance(8045)
        accepted = 0
        for _ in range(3000):
            octets = bytearray(SET + HOLD + RELEASE)
            octets[chance.below(len(octets))] ^= 1 << chance.below(8)
            answer = gates.read(bytes(octets), 3)
            self.assertIn(answer.number, (0, 60, 61, 62))
            if answer.number == 0:
                accepted += 1
                self.assertEqual(gates.write(answer.written, 21).written, bytes(octets))
        self.assertGreater(accepted, 1000)
        self.assertLess(accepted, 2900)


# Each list with what its reading answers: refusals, entry by entry and in each in the paper's order.
CASES = {
    # 60, header or value cut.
    "operation alone": (b"\x00", (60, 1)),
    "unknown operation alone": (b"\x09", (60, 1)),
    "header alone": (b"\x00\x05", (60, 1)),
    "gate octet and no interval": (entry(0, 5, 1), (60, 1)),
    "all but the last octet": (SET[:-1], (60, 1)),
    "second entry cut": (SET + HOLD[:-1], (60, 2)),
    "length 1 with none there": (entry(0, 1, 0), (60, 1)),
    "length 4 with three there": (entry(0, 4, 3), (60, 1)),
    "length 6 with five there": (entry(0, 6, 5), (60, 1)),
    "length 255 with 254 there": (entry(0, 255, 254), (60, 1)),
    # 60 before 61 and 62.
    "operation 9, length 200, five octets there": (entry(9, 200, 5), (60, 1)),
    "operation 9, length 5, four octets there": (entry(9, 5, 4), (60, 1)),
    "operation 255, length 255, none there": (entry(255, 255, 0), (60, 1)),
    # 61, operation over 2; before 62.
    "operation 3": (entry(3, 5), (61, 1)),
    "operation 255": (entry(255, 5), (61, 1)),
    "operation 128": (entry(128, 5), (61, 1)),
    "operation 3 and length 4": (entry(3, 4), (61, 1)),
    "operation 3 and length 0": (entry(3, 0), (61, 1)),
    "operation 3 and length 255": (entry(3, 255), (61, 1)),
    # 62, length not 5.
    "length 0": (entry(0, 0), (62, 1)),
    "length 4 with four octets there": (entry(0, 4), (62, 1)),
    "length 4 with more entries behind": (entry(0, 4) + SET, (62, 1)),
    "length 6": (entry(1, 6), (62, 1)),
    "length 255": (entry(2, 255), (62, 1)),
    # 5 in its low bits.
    "length 133": (entry(0, 133), (62, 1)),
    # Entry by entry: an earlier entry is refused, whatever the numbers.
    "61 before a cut entry": (SET + entry(3, 5) + SET[:-1], (61, 2)),
    "62 before a cut entry": (SET + entry(0, 4) + SET[:-1], (62, 2)),
    "62 before 61": (SET + entry(0, 6) + entry(3, 5), (62, 2)),
    "61 before another 61": (entry(3, 5) + entry(4, 5), (61, 1)),
    # 63, a 257th entry that passed these.
    "256 entries": (FULL, (0, 256)),
    "257 entries": (FULL + SET, (63, 257)),
    "258 entries": (FULL + SET + SET, (63, 257)),
    "257th cut in its header": (FULL + b"\x00", (60, 257)),
    "257th cut in its value": (FULL + SET[:-1], (60, 257)),
    "257th of operation 3": (FULL + entry(3, 5), (61, 257)),
    "257th of length 4": (FULL + entry(0, 4), (62, 257)),
    "257th of length 255": (FULL + entry(0, 255), (62, 257)),
    "257th of operation 9 and length 255, cut": (FULL + entry(9, 255, 254), (60, 257)),
    # Later entries are not looked at.
    "258th of operation 3": (FULL + SET + entry(3, 5), (63, 257)),
    "258th cut": (FULL + SET + SET[:-1], (63, 257)),
    "256th of length 4, 257 in all": (HOLD * 255 + entry(1, 4) + SET, (62, 256)),
}

# The same for writing: words that no list can hold are 61.
WRITING_CASES = {
    "operation 3": ([(0, 0, 0), (3, 0, 0)], (61, 2)),
    "operation 256, whose low octet is 0": ([(256, 0, 0)], (61, 1)),
    "operation 257, whose low octet is 1": ([(257, 0, 0)], (61, 1)),
    "greatest operation": ([(GREATEST_WORD, 0, 0)], (61, 1)),
    "gates 255": ([(0, 255, 0)], (0, 7)),
    "gates 256": ([(0, 256, 0)], (61, 1)),
    "greatest gates": ([(2, GREATEST_WORD, 0)], (61, 1)),
    "greatest interval": ([(2, 255, GREATEST_WORD)], (0, 7)),
    "256 entries": ([(1, 2, 3)] * 256, (0, 1792)),
    "257 entries": ([(1, 2, 3)] * 257, (63, 257)),
    "257th of operation 3": ([(1, 2, 3)] * 256 + [(3, 2, 3)], (61, 257)),
    "257th of gates 256": ([(1, 2, 3)] * 256 + [(1, 256, 3)], (61, 257)),
    "258th of operation 3": ([(1, 2, 3)] * 257 + [(3, 2, 3)], (63, 257)),
}


class Refusals(unittest.TestCase):
    """Refusals, entry by entry and in each in this order; then 64, lent output too short. A refusal writes nothing."""

    def test_reading(self):
        for name, (octets, expected) in CASES.items():
            with self.subTest(name):
                self.assertEqual(reading(octets), expected)

    def test_events_refuse_the_same(self):
        for name, (octets, expected) in CASES.items():
            if expected[0] != 0:
                with self.subTest(name):
                    self.assertEqual(outcome(gates.events(octets, ENOUGH)), expected)

    def test_writing(self):
        for name, (entries, expected) in WRITING_CASES.items():
            with self.subTest(name):
                self.assertEqual(writing(entries), expected)

    def test_64_comes_after_all_others(self):
        for octets, expected in CASES.values():
            if expected[0] != 0:
                self.assertEqual(reading(octets, 0), expected)
                self.assertEqual(outcome(gates.events(octets, 0)), expected)
        for entries, expected in WRITING_CASES.values():
            if expected[0] != 0:
                self.assertEqual(writing(entries, 0), expected)

    def test_every_operation_with_every_length(self):
        for operation in range(256):
            for length in range(256):
                expected = (61, 1) if operation > 2 else (62, 1) if length != 5 else (0, 1)
                self.assertEqual(reading(entry(operation, length)), expected)
                if length > 0:
                    self.assertEqual(reading(entry(operation, length, length - 1)), (60, 1))


class Rooms(unittest.TestCase):
    """64, lent output too short: each call for its own output."""

    def test_each_for_its_own(self):
        octets = SET + HOLD + SET + RELEASE + SET
        for room in range(7):
            self.assertEqual(reading(octets, room), (0, 5) if room >= 5 else (64, 5))
            self.assertEqual(outcome(gates.events(octets, room)), (0, 2) if room >= 2 else (64, 2))
        entries = gates.read(octets, 5).written
        for room in range(40):
            self.assertEqual(writing(entries, room), (0, 35) if room >= 35 else (64, 35))

    def test_the_longest_list(self):
        self.assertEqual([reading(FULL, room) for room in (0, 255, 256, 257)],
                         [(64, 256), (64, 256), (0, 256), (0, 256)])
        self.assertEqual([outcome(gates.events(FULL, room)) for room in (0, 255, 256, 257)],
                         [(64, 256), (64, 256), (0, 256), (0, 256)])
        entries = gates.read(FULL, 256).written
        self.assertEqual([writing(entries, room) for room in (0, 1791, 1792, 1793)],
                         [(64, 1792), (64, 1792), (0, 1792), (0, 1792)])

    def test_a_cycle_is_told_only_where_the_events_are(self):
        self.assertEqual(gates.events(HOLD, 0), Answer(64, 1, (), 0))
        self.assertEqual(gates.events(HOLD, 1).cycle, 10)


def told(call, cases):
    """Whether some case is answered otherwise than it must be."""
    return any(call(given) != expected for given, expected in cases.values())


class WrongOnes(unittest.TestCase):
    def test_wrong_readers(self):
        self.assertFalse(told(reading, CASES))
        for name, wrong in wrong_gates.READERS.items():
            with self.subTest(name), wrong():
                self.assertTrue(told(reading, CASES))

    def test_wrong_writers(self):
        self.assertFalse(told(writing, WRITING_CASES))
        for name, wrong in wrong_gates.WRITERS.items():
            with self.subTest(name), wrong():
                self.assertTrue(told(writing, WRITING_CASES))


if __name__ == "__main__":
    unittest.main()
