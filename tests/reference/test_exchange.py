"""Tests of exchange.py: the noisy row must really lose, damage, double, overtake and add."""

import unittest

import exchange
import mframe
from chance import Chance


class Senders(unittest.TestCase):
    def test_a_frame_in_three_parts(self):
        body = Chance(61).octets(200)
        sender = exchange.Sender(next_frame_count=3)
        mframes = sender.frame(body, 0)
        self.assertEqual([octets[6:8].hex() for octets in mframes], ["55b3", "2ae6", "2a4c"])
        self.assertEqual(b"".join(octets[8:-4] for octets in mframes), body)
        self.assertEqual([octets[6:8].hex() for octets in sender.frame(body)], ["55e6"])


class Noise(unittest.TestCase):
    def test_one_bit_turned(self):
        self.assertEqual(exchange.with_bit_turned(bytes(3), 0), bytes([1, 0, 0]))
        self.assertEqual(exchange.with_bit_turned(bytes(3), 15), bytes([0, 128, 0]))
        self.assertEqual(exchange.with_bit_turned(bytes(3), 16), bytes([0, 0, 1]))

    def test_no_trouble_changes_nothing(self):
        mframes = exchange.sent_in_turn(Chance(62), 200, 500)
        self.assertEqual(len(mframes), 200)
        self.assertEqual(exchange.over_a_noisy_row(mframes, Chance(63), 0), mframes)

    def test_every_sort_of_trouble_is_met(self):
        # No two are the same, so that each can be told by its octets.
        mframes = [mframe.express(number.to_bytes(60, "little")) for number in range(600)]
        arrived = exchange.over_a_noisy_row(mframes, Chance(64), 30)
        places = {octets: place for place, octets in enumerate(arrived)}
        self.assertGreater(sum(octets not in places for octets in mframes), 20)
        self.assertGreater(sum(arrived.count(octets) == 2 for octets in mframes), 5)
        self.assertGreater(sum(octets not in mframes for octets in arrived), 50)
        known = [places[octets] for octets in mframes if octets in places]
        self.assertGreater(sum(left > right for left, right in zip(known, known[1:])), 5)

    def test_leading_octets_are_swallowed_and_no_others(self):
        mframes = exchange.sent_in_turn(Chance(66), 400, 500)
        left = exchange.swallowed(mframes, Chance(67))
        numbers = {"late": set(), "early": set()}
        for octets, rest in zip(mframes, left, strict=True):
            self.assertTrue(octets.endswith(rest))
            lost = octets[:len(octets) - len(rest)]
            self.assertEqual(lost.count(0x55), len(lost))
            numbers["early" if octets[6] != 0x55 else "late"].add(len(lost))
        # All numbers are met: none is lost, some are, all are.
        self.assertEqual(numbers, {"late": set(range(8)), "early": set(range(7))})

    def test_leading(self):
        for octets, count in ((b"", 0), (b"\x55", 1), (b"\x55\x55\xD5\x55", 2), (b"\xD5\x55", 0)):
            self.assertEqual(exchange.leading(octets), count)

    def test_damage_in_a_shortened_head(self):
        # Bits are turned in delimiter and fragment code wherever they stand, the octets behind being zeros.
        chance = Chance(68)
        for preamble in range(8):
            octets = mframe.header(preamble, 0x61, 0xE6) + bytes(1000)
            altered = [exchange.damaged(octets, chance) for _ in range(200)]
            heads = {one[:preamble + 2] for one in altered if len(one) == len(octets) and not any(one[preamble + 2:])}
            self.assertGreater(len({head for head in heads if head[:preamble] == octets[:preamble]}), 5)

    def test_damage_is_mostly_seen(self):
        chance = Chance(65)
        octets = mframe.express(chance.octets(100))
        altered = [exchange.damaged(octets, chance) for _ in range(200)]
        self.assertGreater(sum(one != octets for one in altered), 190)
        self.assertGreater(sum(len(one) != len(octets) for one in altered), 40)


if __name__ == "__main__":
    unittest.main()
