"""Tests of sending.py: document 01, "Sending" and what its "Easy to get wrong" says of the sender.

Expected mFrames are put together here from written-out headers and zlib's check.
"""

import unittest
import zlib
from dataclasses import replace
from itertools import product

import sending
from chance import Chance
from sending import Refused, SendingRecord, Sent

GREATEST = 2**64 - 1
STARTS = ("55555555555555E6", "555555555555554C", "555555555555557F", "55555555555555B3")
CONTINUATIONS = ("55555555555561", "55555555555552", "5555555555559E", "5555555555552A")
FRAGMENT_CODES = ("E6", "4C", "7F", "B3")


def fcs(octets):
    return zlib.crc32(octets).to_bytes(4, "little")


def mcrc(octets):
    return (zlib.crc32(octets) ^ 0xFFFF0000).to_bytes(4, "little")


def memory_of(room):
    return bytearray(place * 7 % 251 for place in range(room))


def sender(**changes):
    return replace(SendingRecord(True, False, 0, 0, 0, 0, 0), **changes)


class Case(unittest.TestCase):
    def assert_written(self, call, expected, room=1600):
        """`call` answers the length of `expected` and writes it; what is behind it stays."""
        memory = memory_of(room)
        answer = call(memory)
        self.assertEqual(answer.length, len(expected))
        self.assertEqual(memory[:len(expected)], expected)
        self.assertEqual(memory[len(expected):], memory_of(room)[len(expected):])
        return answer

    def send(self, record, body, ask, expected):
        """A preemptable call that writes `expected`; gives done and the record afterwards."""
        kept = {}

        def call(memory):
            answer, kept["record"] = sending.preemptable(memory, record, body, ask)
            return answer

        return self.assert_written(call, expected).done, kept["record"]

    def assert_refused(self, number, record, body, ask=None, room=1530):
        memory = memory_of(room)
        self.assertEqual(sending.preemptable(memory, record, body, ask), (Refused(number), record))
        self.assertEqual(memory, memory_of(room))

    def assert_accepted(self, record, body, ask=None, room=1530):
        self.assertIsInstance(sending.preemptable(memory_of(room), record, body, ask)[0], Sent)


class WholeMFrames(Case):
    def test_express(self):
        chance = Chance(41)
        for length in (60, 61, 800, 1517, 1518):
            body = chance.octets(length)
            for room in (1530, 1531, 2000):
                answer = self.assert_written(lambda memory: sending.express(memory, body),
                                             bytes.fromhex("55555555555555D5") + body + fcs(body), room)
                self.assertEqual(answer, Sent(length + 12, True))

    def test_verify_and_respond(self):
        zeros = bytes(60)
        for call, code in ((sending.verify, "07"), (sending.respond, "19")):
            for room in (1530, 2000):
                answer = self.assert_written(call, bytes.fromhex("55555555555555" + code) + zeros + mcrc(zeros), room)
                self.assertEqual(answer, Sent(72, True))

    def test_express_refusals_in_order(self):
        for room, length, number in ((1529, 60, 30), (1529, 59, 30), (0, 1519, 30), (1530, 59, 32),
                                     (1530, 1519, 32), (1530, 0, 32)):
            memory = memory_of(room)
            self.assertEqual(sending.express(memory, bytes(length)), Refused(number))
            self.assertEqual(memory, memory_of(room))

    def test_verify_and_respond_know_only_30(self):
        for call in (sending.verify, sending.respond):
            for room in (0, 72, 1529):
                memory = memory_of(room)
                self.assertEqual(call(memory), Refused(30))
                self.assertEqual(memory, memory_of(room))


class FirstMFrames(Case):
    def test_marked_cuts(self):
        # Document 01, "Marked examples", as document 02, (ii) has them: L, extra, t and the octets carried, None for the whole frame.
        for frame_octets, extra, ask, carried in (
            (124, 0, 0, 60), (123, 0, 0, None), (128, 0, 65, None), (1522, 0, 1458, 1458),
            (1522, 0, 1459, None), (316, 3, 0, 252),
        ):
            body = Chance(frame_octets).octets(frame_octets - 4)
            header = bytes.fromhex(STARTS[2])
            record = sender(extra=extra, next_frame_count=2)
            if carried is None:
                done, after = self.send(record, body, ask, header + body + fcs(body))
                self.assertEqual((done, after), (True, sender(extra=extra, next_frame_count=3)))
            else:
                part = body[:carried]
                done, after = self.send(record, body, ask, header + part + mcrc(part))
                self.assertEqual((done, after), (False, sender(extra=extra, next_frame_count=3,
                                                               length=len(body), sent=carried)))

    def test_without_an_ask_the_frame_goes_whole(self):
        body = Chance(42).octets(1518)
        for count in range(4):
            done, after = self.send(sender(next_frame_count=count), body, None,
                                    bytes.fromhex(STARTS[count]) + body + fcs(body))
            self.assertEqual((done, after), (True, sender(next_frame_count=(count + 1) % 4)))

    def test_the_greatest_t(self):
        body = Chance(43).octets(1518)
        for ask in (1519, 2**32, GREATEST):
            self.assertTrue(self.send(sender(), body, ask, bytes.fromhex(STARTS[0]) + body + fcs(body))[0])

    def test_not_active(self):
        body = Chance(44).octets(300)
        for hold, extra, count, ask in product((False, True), (0, 3), (0, 3), (None, 0, 100)):
            record = SendingRecord(False, hold, extra, count, 0, 0, 0)
            done, after = self.send(record, body, ask, bytes.fromhex("55555555555555D5") + body + fcs(body))
            # The frame count is not moved on by a frame sent with E.
            self.assertEqual((done, after), (True, record))


class Continuations(Case):
    def test_a_frame_in_seven_parts(self):
        # The first continuation is numbered 0, and the fifth is 0 again.
        body = Chance(45).octets(60 * 7)
        record = sender(next_frame_count=3)
        done, record = self.send(record, body, 0, bytes.fromhex(STARTS[3]) + body[:60] + mcrc(body[:60]))
        for number, code in enumerate(("E6", "4C", "7F", "B3", "E6")):
            self.assertFalse(done)
            self.assertEqual(record, sender(length=len(body), sent=60 * (number + 1), next_fragment_count=number % 4))
            sent = 60 * (number + 1)
            # The check is over all of the frame so far, not over this part.
            done, record = self.send(record, body, 0, bytes.fromhex(CONTINUATIONS[3] + code)
                                     + body[sent:sent + 60] + mcrc(body[:sent + 60]))
        done, record = self.send(record, body, 0,
                                 bytes.fromhex(CONTINUATIONS[3] + "4C") + body[360:] + fcs(body))
        self.assertEqual((done, record), (True, sender()))

    def test_every_pair_of_counts(self):
        body = Chance(46).octets(260)
        for frame_count, fragment_count in product(range(4), range(4)):
            header = bytes.fromhex(CONTINUATIONS[frame_count] + FRAGMENT_CODES[fragment_count])
            following = (frame_count + 1) % 4
            record = sender(next_frame_count=following, length=260, sent=70, next_fragment_count=fragment_count)
            done, after = self.send(record, body, 71, header + body[70:141] + mcrc(body[:141]))
            self.assertEqual((done, after), (False, sender(next_frame_count=following, length=260, sent=141,
                                                           next_fragment_count=(fragment_count + 1) % 4)))
            done, after = self.send(record, body, None, header + body[70:] + fcs(body))
            self.assertEqual((done, after), (True, sender(next_frame_count=following)))

    def test_the_last_lawful_cut(self):
        # L is 264, 70 are sent: 130 leave 64, 131 leave too little.
        body = Chance(47).octets(260)
        record = sender(next_frame_count=1, length=260, sent=70)
        header = bytes.fromhex(CONTINUATIONS[0] + "E6")
        done, after = self.send(record, body, 130, header + body[70:200] + mcrc(body[:200]))
        self.assertEqual((done, after.sent), (False, 200))
        self.assertTrue(self.send(record, body, 131, header + body[70:] + fcs(body))[0])

    def test_no_longer_active_runs_to_the_end(self):
        body = Chance(48).octets(1000)
        for hold, ask in product((False, True), (None, 0, 64, GREATEST)):
            record = SendingRecord(False, hold, 0, 1, 1000, 64, 2)
            done, after = self.send(record, body, ask, bytes.fromhex(CONTINUATIONS[0] + "7F") + body[64:] + fcs(body))
            self.assertEqual((done, after), (True, SendingRecord(False, hold, 0, 1, 0, 0, 0)))

    def test_nothing_is_remembered_of_not_having_been_active(self):
        body = Chance(49).octets(400)
        _, record = sending.preemptable(memory_of(1530), sender(), body, 0)
        off_and_on = replace(replace(record, active=False), active=True)
        self.assertEqual(sending.preemptable(memory_of(1530), off_and_on, body, 0),
                         sending.preemptable(memory_of(1530), record, body, 0))

    def test_extra_is_taken_as_it_is_at_the_call(self):
        body = Chance(50).octets(1000)
        _, record = sending.preemptable(memory_of(1530), sender(), body, 0)
        _, record = sending.preemptable(memory_of(1530), replace(record, extra=3), body, 0)
        self.assertEqual(record.sent, 60 + 252)
        _, record = sending.preemptable(memory_of(1530), replace(record, extra=1), body, 0)
        self.assertEqual(record.sent, 60 + 252 + 124)

    def test_a_refusal_in_the_middle_changes_nothing(self):
        body = Chance(51).octets(400)
        _, record = sending.preemptable(memory_of(1530), sender(), body, 0)
        self.assert_refused(34, replace(record, hold=True), body, 0)
        self.assert_refused(33, record, body[:-1], 0)
        self.assert_refused(30, record, body, 0, room=1529)
        done, _ = self.send(record, body, 0, bytes.fromhex(CONTINUATIONS[0] + "E6") + body[60:120] + mcrc(body[:120]))
        self.assertFalse(done)


class Records(Case):
    """31 and the other side of each of its limits."""

    BODIES = {length: bytes(length) for length in (60, 61, 119, 120, 200, 1518, 1519)}

    def test_settings_and_counts(self):
        for active in (False, True):
            for frame in ({}, {"length": 200, "sent": 60, "next_fragment_count": 3}):
                good = sender(active=active, **frame)
                for extra in (0, 1, 2, 3):
                    self.assert_accepted(replace(good, extra=extra), self.BODIES[200])
                for count in (0, 1, 2, 3):
                    self.assert_accepted(replace(good, next_frame_count=count), self.BODIES[200])
                for wrong in (4, 5, 255):
                    self.assert_refused(31, replace(good, extra=wrong), self.BODIES[200])
                    self.assert_refused(31, replace(good, next_frame_count=wrong), self.BODIES[200])

    def test_no_frame_in_progress(self):
        for active in (False, True):
            for sent in (1, 60, GREATEST):
                self.assert_refused(31, sender(active=active, sent=sent), self.BODIES[200])
            for count in (1, 3, 4, 255):
                self.assert_refused(31, sender(active=active, next_fragment_count=count), self.BODIES[200])

    def test_octets_sent(self):
        for length, sent, good in ((200, 59, False), (200, 60, True), (200, 140, True), (200, 141, False),
                                   (200, 0, False), (200, 200, False), (200, GREATEST, False), (200, 2**32 + 64, False),
                                   (120, 60, True), (120, 61, False), (119, 60, False), (119, 59, False),
                                   (60, 0, False), (60, 60, False), (1518, 1458, True), (1518, 1459, False)):
            record = sender(length=length, sent=sent)
            if good:
                self.assert_accepted(record, self.BODIES[length])
            else:
                self.assert_refused(31, record, self.BODIES[length])

    def test_lengths(self):
        for length in (1, 59, 60, 119, 1519, 2**32 + 200, GREATEST):
            self.assert_refused(31, sender(length=length, sent=60), self.BODIES[200])
        self.assert_refused(31, sender(length=1519, sent=60), self.BODIES[1519])

    def test_fragment_counts(self):
        for count in range(4):
            self.assert_accepted(sender(length=200, sent=64, next_fragment_count=count), self.BODIES[200])
        for count in (4, 5, 255):
            self.assert_refused(31, sender(length=200, sent=64, next_fragment_count=count), self.BODIES[200])


class Refusals(Case):
    def test_rooms(self):
        for room in (0, 72, 1529):
            self.assert_refused(30, sender(), bytes(60), room=room)
        for room in (1530, 1531):
            self.assert_accepted(sender(), bytes(60), room=room)

    def test_bodies(self):
        for active in (False, True):
            for length in (0, 59, 1519, 2048):
                self.assert_refused(32, sender(active=active), bytes(length))
            for length in (60, 1518):
                self.assert_accepted(sender(active=active), bytes(length))

    def test_other_lengths_than_the_frame_in_progress(self):
        for active in (False, True):
            record = sender(active=active, length=200, sent=64)
            for length in (60, 199, 201, 1518):
                self.assert_refused(33, record, bytes(length))
            self.assert_accepted(record, bytes(200))

    def test_other_octets_of_the_same_length_are_not_noticed(self):
        record = sender(next_frame_count=1, length=200, sent=64)
        body = bytes([9]) * 200
        self.send(record, body, None, bytes.fromhex(CONTINUATIONS[0] + "E6") + body[64:] + fcs(body))

    def test_hold(self):
        for frame in ({}, {"length": 200, "sent": 64}):
            for ask in (None, 0, GREATEST):
                self.assert_refused(34, sender(hold=True, **frame), bytes(200), ask)
                self.assert_accepted(sender(hold=False, **frame), bytes(200), ask)
                self.assert_accepted(sender(active=False, hold=True, **frame), bytes(200), ask)

    def test_the_first_in_the_table_counts(self):
        for wrong in product((False, True), repeat=5):
            short, bad_record, bad_body, other_length, held = wrong
            record = sender(active=held, hold=held, extra=4 if bad_record else 0)
            if other_length:
                record = replace(record, length=200, sent=64)
            body = bytes(59 if bad_body else 201)
            room = 1529 if short else 1530
            if any(wrong):
                self.assert_refused(30 + wrong.index(True), record, body, 0, room)
            else:
                self.assert_accepted(record, body, 0, room)


class WholeFrames(Case):
    """Random frames sent to their end with random asks."""

    def test_the_parts_make_up_the_frame(self):
        chance = Chance(52)
        record = sending.fresh(active=True)
        parts_met = set()
        for number in range(200):
            record = replace(record, extra=chance.below(4))
            body = chance.octets(chance.between(60, 1518))
            data, parts, done = b"", 0, False
            while not done:
                memory = memory_of(1530)
                ask = None if chance.below(10) == 0 else chance.below(300)
                answer, record = sending.preemptable(memory, record, body, ask)
                mframe = bytes(memory[:answer.length])
                if parts == 0:
                    self.assertEqual(mframe[:8].hex().upper(), STARTS[number % 4])
                else:
                    self.assertEqual(mframe[:8].hex().upper(),
                                     CONTINUATIONS[number % 4] + FRAGMENT_CODES[(parts - 1) % 4])
                data, parts, done = data + mframe[8:-4], parts + 1, answer.done
                self.assertEqual(mframe[-4:], fcs(body) if done else mcrc(data))
                # Every part is a lawful mFrame, and a record that was handed back is in range.
                self.assertTrue(72 <= len(mframe) <= 1530)
                self.assertTrue(sending.in_range(record))
                if not done:
                    # With its mCRC.
                    self.assertGreaterEqual(len(mframe) - 8, 64 * (1 + record.extra))
                    self.assertGreaterEqual(len(mframe) - 12, 0 if ask is None else ask)
            self.assertEqual(data, body)
            self.assertEqual((record.length, record.sent, record.next_fragment_count), (0, 0, 0))
            parts_met.add(parts)
        # Frames of one part, of two, and of so many that the fragment count went round.
        self.assertLessEqual({1, 2, 6}, parts_met)

    def test_frame_counts_go_round_over_frames_sent_with_s_only(self):
        record = sending.fresh(active=True)
        body = bytes(100)
        counts = []
        for number in range(30):
            record = replace(record, active=number % 3 != 1)
            memory = memory_of(1530)
            _, record = sending.preemptable(memory, record, body, None)
            if record.active:
                counts.append(bytes(memory[:8]).hex().upper())
            else:
                self.assertEqual(memory[7], 0xD5)
        self.assertEqual(counts, [STARTS[number % 4] for number in range(20)])


if __name__ == "__main__":
    unittest.main()
