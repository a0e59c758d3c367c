"""Tests of witness.py: with four mFrames lost in a row the third demand does not hold, with three it does."""

import unittest
import zlib
from itertools import combinations

import crc
import exchange
import receiving
import witness
from chance import Chance

LOST = (1, 2, 3, 4)


def register_of(octets):
    return zlib.crc32(octets) ^ 0xFFFFFFFF


def received(mframes):
    """The numbers answered by a fresh receiver, and the preemptable bodies delivered."""
    memory, record = bytearray(1518), receiving.fresh()
    numbers, delivered = [], []
    for octets in mframes:
        answer, record = receiving.receive(memory, record, octets)
        numbers.append(answer.number)
        if answer.number == 1:
            delivered.append(bytes(memory[:answer.detail]))
    return numbers, delivered


class FourOctets(unittest.TestCase):
    def test_the_division_read_backwards(self):
        chance = Chance(110)
        for bits in (0, 1, 2**31, 2**32 - 1, *(chance.register() for _ in range(100))):
            self.assertEqual(witness.bits_that_leave(crc.remainder(bits << 32)), bits)
            self.assertEqual(crc.remainder(witness.bits_that_leave(bits) << 32), bits)

    def test_any_register_can_be_led_to_any_other(self):
        chance = Chance(111)
        ends = (0, 1, 2**31, 2**32 - 1)
        for register, target in [(one, other) for one in ends for other in ends] + [
                (chance.register(), chance.register()) for _ in range(100)]:
            octets = witness.octets_that_lead(register, target)
            self.assertEqual(len(octets), 4)
            self.assertEqual(zlib.crc32(octets, register ^ 0xFFFFFFFF) ^ 0xFFFFFFFF, target)

    def test_the_check_comes_back_behind_anything(self):
        chance = Chance(112)
        for length in (0, 1, 3, 4, 60, 252, 1000):
            before, between = chance.octets(chance.between(60, 200)), chance.octets(length)
            octets = witness.returning(before, between)
            self.assertEqual(octets[:-4], between)
            self.assertEqual(register_of(before + octets), register_of(before))


class Witness(unittest.TestCase):
    def test_the_frame(self):
        body = witness.body()
        mframes = witness.mframes()
        self.assertEqual([octets[6:8].hex() for octets in mframes], ["55e6", "61e6", "614c", "617f", "61b3", "61e6"])
        self.assertEqual([octets[8:-4] for octets in mframes],
                         [body[:60], body[60:120], body[120:180], body[180:240], body[240:300], body[300:]])
        self.assertEqual(len(body), 360)
        self.assertEqual(register_of(body[:60]), register_of(body[:300]))
        # In between it does not come back.
        self.assertEqual(len({register_of(body[:sent]) for sent in (60, 120, 180, 240, 300, 360)}), 5)

    def test_with_nothing_lost(self):
        self.assertEqual(received(witness.mframes()), ([2, 2, 2, 2, 2, 1], [witness.body()]))

    def test_with_the_four_lost_a_body_is_delivered_that_nobody_sent(self):
        body = witness.body()
        numbers, delivered = received(witness.arriving())
        self.assertEqual(numbers, [2, 1])
        self.assertEqual(delivered, [body[:60] + body[300:]])
        self.assertEqual(delivered, [witness.body_never_sent()])
        self.assertNotEqual(delivered, [body])

    def test_with_fewer_lost_it_is_noticed(self):
        mframes = witness.mframes()
        for count in (1, 2, 3):
            for lost in combinations(LOST, count):
                numbers, delivered = received([octets for place, octets in enumerate(mframes) if place not in lost])
                self.assertEqual(delivered, [], lost)
                self.assertEqual(numbers.count(23), 1, lost)

    def test_with_four_others_or_five_lost_it_is_noticed(self):
        mframes = witness.mframes()
        for lost in [*combinations(range(6), 4), *combinations(range(6), 5)]:
            if lost != LOST:
                _, delivered = received([octets for place, octets in enumerate(mframes) if place not in lost])
                self.assertEqual(delivered, [], lost)

    def test_with_the_four_lost_of_another_frame_it_is_noticed(self):
        # The same but for one bit of a lost part: the count is the expected one, the check is not.
        body = exchange.with_bit_turned(witness.body(), 8 * 200)
        first, *_, last = exchange.Sender().frame(body, 0)
        self.assertEqual(received([first, last]), ([2, 25], []))


if __name__ == "__main__":
    unittest.main()
