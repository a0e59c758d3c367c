"""Tests of link.py and of the stored games: the third demand, with two oracles that link.py knows nothing of.

The first looks at the mFrames on the wire and at what was lost, and says which bodies must
be delivered. The second plays the whole game anew after README.md's table, without any
mFrame: its receiver has neither counts nor checks but simply knows which part of which
frame it is given. It has no octets to drop either, so that what the link drops can make no
difference to it.
"""

import re
import unittest
import zlib
from itertools import product
from unittest import mock

import exchange
import link
import link_answers
import link_questions
import receiving
import witness
import wrong_receiving
from chance import Chance

# The whole header of a start, and of E, behind any number of octets 55 that is not refused.
START = re.compile(rb"\x55{0,7}[\xE6\x4C\x7F\xB3]")
EXPRESS = re.compile(rb"\x55{0,7}\xD5")


def check(octets):
    return zlib.crc32(octets).to_bytes(4, "little").hex()


def kind_of(octets):
    """E, V, R, S or C, by the header alone, as it is sent."""
    if octets[6] != 0x55:
        return "C"
    return {0xD5: "E", 0x07: "V", 0x19: "R"}.get(octets[7], "S")


class Frame:
    """A preemptable frame as it is seen on the wire."""

    def __init__(self, body):
        self.body = body
        self.sent = b""
        self.fates = []
        # The kinds of what arrived between two of its mFrames.
        self.between = set()

    def ended(self):
        return self.sent == self.body

    def delivered(self):
        return self.ended() and "lost" not in self.fates


def frames_on_the_wire(passages):
    """All preemptable frames: a start begins one, and it is at its end when its data are the whole body."""
    frames = []
    for passage in passages:
        kind = kind_of(passage.octets)
        if kind in "SC":
            if kind == "S":
                frames.append(Frame(passage.body))
            frames[-1].sent += passage.octets[8:-4]
            frames[-1].fates.append("lost" if passage.lost else "arrived")
        elif frames and not frames[-1].ended() and not passage.lost:
            frames[-1].between.add(kind)
    return frames


def signs(passages):
    """A sign for each mFrame: S and C that arrived are a dot, lost ones an x, the others their letter."""
    return "".join(kind if kind in "EVR" else "x" if passage.lost else "."
                   for passage, kind in ((passage, kind_of(passage.octets)) for passage in passages))


def runs_on_the_wire(passages):
    """How many S and C were lost in a row, for each place where some were."""
    preemptable = "".join(sign for sign in signs(passages) if sign not in "EVR")
    return [len(run) for run in preemptable.split(".") if run]


def delivered(played, number):
    return [heard.body for heard in played.heard if heard.answer.number == number]


def as_demanded(played):
    """Whether both lanes delivered what the third demand says."""
    preemptable = [frame.body for frame in frames_on_the_wire(played.passages) if frame.delivered()]
    express = [passage.body for passage in played.passages if kind_of(passage.octets) == "E" and not passage.lost]
    return delivered(played, 1) == preemptable and delivered(played, 0) == express


class SecondPlay:
    """The game after README.md's table, in lines, with frames that have names in place of mFrames."""

    def __init__(self, seed, turns):
        self.x = seed
        self.lines = []
        self.hold, self.extra = False, 0
        # The frame in progress: its name, body, octets sent, parts sent, and whether none was lost.
        self.frame, self.names = None, 0
        # The receiver: the name of the frame in assembly and how many of its parts are there.
        self.opened = None
        self.run = 0
        self.sent = self.whole = self.delivered = self.express = self.longest_run = self.pieces = 0
        self.errors = self.delimiters = self.assembled = self.fragments = 0
        for _ in range(turns):
            self.turn(self.draw(16))
        self.lines.append(" ".join(map(str, (
            "end", self.sent, self.whole, self.delivered, self.express, self.longest_run, self.pieces,
            self.errors, self.delimiters, self.assembled, self.fragments))))

    def draw(self, k):
        self.x = self.x * 1664525 + 1013904223 & 0xFFFFFFFF
        return (self.x >> 16) % k

    def body(self):
        octets = bytearray(60 + self.draw(1459))
        y = self.x
        for place in range(len(octets)):
            y = y * 1664525 + 1013904223 & 0xFFFFFFFF
            octets[place] = y >> 16 & 0xFF
        return bytes(octets)

    def turn(self, d):
        if d == 0:
            body = self.body()
            if self.draw(3):
                self.draw(9)
                self.express += 1
                self.lines.append(f"0 {len(body)} {check(body)}")
        elif d in (1, 2):
            if self.draw(3):
                self.draw(9)
                self.lines.append(("3 0", "4 0")[d - 1])
        elif d == 3:
            self.hold = self.draw(4) == 0
        elif d == 4:
            self.extra = self.draw(4)
        else:
            frame = self.frame or (None, self.body(), 0, 0, True)
            asked, t = self.draw(4) > 0, self.draw(400)
            if not self.hold:
                self.part(*frame, asked, t)

    def part(self, name, body, sent, parts, none_lost, asked, t):
        if name is None:
            name = self.names
            self.names += 1
        # Where a cut leaves less than 64 octets, the FCS among them, there is none.
        end = sent + max(t, 60 + 64 * self.extra)
        done = not asked or len(body) + 4 - end < 64
        end = len(body) if done else end
        lost = self.draw(3) == 0 and self.run < 3
        self.run = self.run + 1 if lost else 0
        self.longest_run = max(self.longest_run, self.run)
        self.pieces = max(self.pieces, parts + 1)
        none_lost = none_lost and not lost
        self.sent += done
        self.whole += done and none_lost
        self.frame = None if done else (name, body, end, parts + 1, none_lost)
        if not lost:
            self.draw(9)
            self.arrive(name, parts, body[:end], done)

    def arrive(self, name, parts, octets, done):
        if parts == 0:
            self.errors += self.opened is not None
        elif self.opened is None:
            self.delimiters += 1
            self.lines.append("22 0")
            return
        elif self.opened != (name, parts):
            self.errors += 1
            self.opened = None
            self.lines.append("23 0")
            return
        self.fragments += parts > 0
        self.delivered += done
        self.assembled += done and parts > 0
        self.opened = None if done else (name, parts + 1)
        self.lines.append(f"1 {len(octets)} {check(octets)}" if done else f"2 {len(octets)}")


class Draws(unittest.TestCase):
    def test_the_numbers(self):
        # From 0: 1013904223, 1196435762, 3519870697, and so on.
        self.assertEqual([link.following(number) for number in (0, 1013904223, 1196435762)],
                         [1013904223, 1196435762, 3519870697])
        self.assertEqual(link.following(2**32 - 1), (1013904223 - 1664525) % 2**32)

    def test_draws(self):
        draws = link.Draws(0)
        self.assertEqual([draws.draw(2**16), draws.draw(10), draws.draw(16)], [15470, 6, 53708 % 16])
        self.assertEqual(draws.state, 3519870697)

    def test_bodies(self):
        self.assertEqual(link.body_from(0, 3), bytes([15470 % 256, 18256 % 256, 53708 % 256]))
        self.assertEqual(link.body_from(1013904223, 2), bytes([18256 % 256, 53708 % 256]))
        draws = link.Draws(0)
        body = draws.body()
        self.assertEqual(len(body), 60 + 15470 % 1459)
        self.assertEqual(body[:2], bytes([18256 % 256, 53708 % 256]))
        # The body itself draws nothing.
        self.assertEqual(draws.state, 1013904223)


class OneLink(unittest.TestCase):
    """A link that is told what to do."""

    def linked(self, fates, drops=(), longest_run=3):
        """A link on which what is marked x is to be lost; of what arrives so many octets are dropped, then none."""
        wanted, dropped = iter(fates), iter(drops)
        return link.Link(lambda: next(wanted) == "x", lambda: next(dropped, 0), longest_run)

    def test_fresh(self):
        fresh = link.Link(None)
        self.assertEqual(fresh.memory, bytes(1518))
        self.assertEqual((fresh.sender.active, fresh.sender.hold, fresh.sender.extra), (True, False, 0))
        self.assertEqual(link_answers.lines(fresh), ["end 0 0 0 0 0 0 0 0 0 0"])

    def test_each_kind(self):
        body = Chance(120).octets(130)
        played = self.linked(".......")
        played.express(body)
        played.verify()
        played.respond()
        played.preemptable(body, 0)
        played.express(body[:60])
        played.preemptable(body)
        played.set_extra(1)
        played.preemptable(body, 0)
        self.assertEqual(link_answers.lines(played), [
            f"0 130 {check(body)}", "3 0", "4 0", "2 60", f"0 60 {check(body[:60])}", f"1 130 {check(body)}",
            f"1 130 {check(body)}", "end 2 2 2 2 0 2 0 0 1 1"])

    def test_leading_octets_are_dropped_as_far_as_there_are_such(self):
        for octets, most in (("55555555555555D55555", 7), ("55555555555561E65555", 6), ("D555", 0), ("5555", 2), ("", 0)):
            octets = bytes.fromhex(octets)
            for dropped in range(12):
                self.assertEqual(link.shortened(octets, dropped), octets[min(dropped, most):])

    def test_every_number_of_every_kind(self):
        body = Chance(127).octets(180)
        expected = None
        for drops in [*((number,) * 7 for number in range(9)), (0, 8, 3, 7, 1, 6, 4), (5, 0, 7, 2, 6, 0, 3)]:
            played = self.linked("." * 7, drops)
            played.express(body)
            played.preemptable(body, 0)
            played.verify()
            played.preemptable(body, 0)
            played.respond()
            played.preemptable(body, 0)
            played.preemptable(body[:60])
            self.assertEqual([len(passage.octets) - len(passage.arrived) for passage in played.passages],
                             [min(number, most) for number, most in zip(drops, (7, 7, 7, 6, 7, 6, 7))])
            expected = expected or link_answers.lines(played)
            self.assertEqual(link_answers.lines(played), expected)
        self.assertEqual([line.split()[0] for line in expected], ["0", "2", "3", "2", "4", "1", "1", "end"])

    def test_every_two_numbers_in_a_frame(self):
        body = Chance(128).octets(120)
        for drops in product(range(8), range(7)):
            played = self.linked("..", drops)
            played.preemptable(body, 0)
            played.preemptable(body, 0)
            self.assertEqual(delivered(played, 1), [body])

    def test_what_is_lost_is_not_asked_about(self):
        body = Chance(129).octets(60)
        played = self.linked("x.x.", (3, 5))
        for _ in range(4):
            played.preemptable(body)
        self.assertEqual([passage.arrived and 72 - len(passage.arrived) for passage in played.passages],
                         [None, 3, None, 5])

    def test_a_held_call_has_no_fate(self):
        body = Chance(121).octets(60)
        played = self.linked(".")
        played.set_hold(True)
        played.preemptable(body)
        self.assertEqual((played.refusals, played.passages, played.heard), ([34], [], []))
        played.set_hold(False)
        played.preemptable(body)
        self.assertEqual(delivered(played, 1), [body])

    def test_other_kinds_are_not_counted_in_a_run(self):
        body = Chance(122).octets(60)
        played = self.linked("x.xxxx.xx")
        for call in "pepevprpp":
            {"p": lambda: played.preemptable(body), "e": lambda: played.express(body),
             "v": played.verify, "r": played.respond}[call]()
        # The fourth that was to be lost arrives, although E, V and R were between; then a new run begins.
        self.assertEqual([passage.lost for passage in played.passages],
                         [True, False, True, True, True, True, False, False, True])
        self.assertEqual(link_answers.end_line(played), "end 5 1 1 1 3 1 0 0 0 0")

    def test_a_frame_that_is_not_ended(self):
        body = Chance(123).octets(400)
        played = self.linked("....")
        for ask in (None, 0, 0, 0):
            played.preemptable(body, ask)
        self.assertEqual(link_answers.lines(played)[1:], ["2 60", "2 120", "2 180", "end 1 1 1 0 0 3 0 0 0 2"])


class RunsOfFour(unittest.TestCase):
    """The bound of the third demand is tight."""

    def play_witness(self, longest_run):
        """The witness between two other frames, with E, V and R on the way; its four are to be lost."""
        before, after = Chance(124).octets(90), Chance(125).octets(70)
        wanted = iter(["."] + ["."] + list("x.") * 4 + ["."] + ["."])
        dropped = iter([0, 3, 7, 6, 8, 1, 0, 5, 2, 4, 7, 3])
        played = link.Link(lambda: next(wanted) == "x", lambda: next(dropped), longest_run)
        played.preemptable(before)
        for number in range(6):
            played.preemptable(witness.body(), witness.ASK)
            if number in (1, 2, 3, 4):
                (lambda: played.express(before), played.verify, played.respond)[number % 3]()
        played.preemptable(after)
        self.assertEqual(len(played.passages), 12)
        return played, before, after

    def test_with_four_a_body_is_delivered_that_nobody_sent(self):
        played, before, after = self.play_witness(longest_run=4)
        self.assertEqual(runs_on_the_wire(played.passages), [4])
        self.assertFalse(as_demanded(played))
        self.assertEqual(delivered(played, 1), [before, witness.body_never_sent(), after])
        self.assertNotIn(witness.body_never_sent(), [passage.body for passage in played.passages])
        # By the wire alone, two bodies ended without a loss.
        self.assertEqual([frame.delivered() for frame in frames_on_the_wire(played.passages)], [True, False, True])

    def test_with_three_it_is_as_demanded(self):
        for played, before, after in (self.play_witness(longest_run) for longest_run in (0, 1, 2, 3)):
            self.assertTrue(as_demanded(played))
            self.assertEqual(delivered(played, 1)[-1], after)
        self.assertEqual(delivered(played, 1), [before, after])

    def test_games_with_four(self):
        # In each of these the four are continuations of one frame. The check of a drawn body does not
        # come back, so that it is noticed: but by the check alone.
        for seed in (225, 364, 413):
            played = link.play(seed, 150, longest_run=4)
            self.assertIn(25, [heard.answer.number for heard in played.heard])
            self.assertEqual(max(runs_on_the_wire(played.passages)), 4)
            self.assertTrue(as_demanded(played))
            # With three in a row it never comes to that, and another game follows from there on.
            played = link.play(seed, 150)
            self.assertNotIn(25, [heard.answer.number for heard in played.heard])
            self.assertEqual(max(runs_on_the_wire(played.passages)), 3)


class Answers(unittest.TestCase):
    def test_nothing_played(self):
        self.assertEqual(link_answers.answers(b""), b"")
        self.assertEqual(link_answers.answers(bytes(8)), b"end 0 0 0 0 0 0 0 0 0 0\n")

    def test_entries_are_read_little_endian(self):
        entries = bytes.fromhex("01 02 03 04 05 00 00 00 0C 00 00 00 0C 00 00 00")
        expected = SecondPlay(0x04030201, 5).lines + SecondPlay(12, 12).lines
        self.assertEqual(link_answers.answers(entries).decode("ascii").splitlines(), expected)

    def test_the_game_of_the_readme(self):
        self.assertEqual(link_answers.lines(link.play(269, 12)), [
            "2 177", "0 560 f7b65acf", "23 0", "2 91", "2 343", "1 570 b252a64a", "end 2 1 1 1 1 3 1 0 1 2"])

    def test_entries_that_break_the_layout(self):
        for octets in (1, 4, 7, 9):
            with self.assertRaises(ValueError):
                link_answers.answers(bytes(octets))


class AfterAnything(unittest.TestCase):
    """The third demand's last sentence: from the next unrefused start on, a receiver is as good as a fresh one."""

    def bodies_from(self, record, memory, mframes):
        bodies = []
        for octets in mframes:
            answer, record = receiving.receive(memory, record, octets)
            if answer.number == 0:
                bodies.append(octets[EXPRESS.match(octets).end():-4])
            if answer.number == 1:
                bodies.append(bytes(memory[:answer.detail]))
        return bodies

    def test_after_noise(self):
        chance = Chance(126)
        mframes = exchange.swallowed(exchange.sent_in_turn(chance, 600, 300), chance)
        mframes = exchange.over_a_noisy_row(mframes, chance, 40)
        memory, record = bytearray(1518), receiving.fresh()
        compared = 0
        for place, octets in enumerate(mframes[:-30]):
            start = START.match(octets)
            if start and 64 <= len(octets) - start.end() <= 1522:
                following = mframes[place:place + 30]
                self.assertEqual(self.bodies_from(record, bytearray(memory), following),
                                 self.bodies_from(receiving.fresh(), bytearray(1518), following), place)
                compared += record.assembly.assembling
            _, record = receiving.receive(memory, record, octets)
        # Often something was still in assembly.
        self.assertGreater(compared, 15)


class OtherSeeds(unittest.TestCase):
    def test_without_drops_the_same_is_heard(self):
        # The numbers are drawn all the same, but what arrives is what was written.
        for seed in range(7100, 7110):
            played = link.play(seed, 100)
            self.assertTrue(any(passage.arrived not in (None, passage.octets) for passage in played.passages))
            with mock.patch.object(link, "shortened", lambda octets, _: octets):
                undropped = link.play(seed, 100)
            self.assertTrue(all(passage.arrived in (None, passage.octets) for passage in undropped.passages))
            self.assertEqual((undropped.heard, undropped.receiver), (played.heard, played.receiver))
            self.assertEqual(bytes(undropped.memory), bytes(played.memory))

    def test_as_demanded(self):
        for seed in (0, 1, 2**31 - 1, 2**32 - 2, *range(7000, 7026)):
            played = link.play(seed, 60)
            self.assertTrue(as_demanded(played), seed)
            self.assertEqual(link_answers.lines(played), SecondPlay(seed, 60).lines, seed)


class WrongReceivers(unittest.TestCase):
    """With a receiver that is wrong in the heads the third demand is not met where octets are dropped, and else it is."""

    def test_each(self):
        for group, name in (
                ("preambles", "a delimiter without octets 55 is 14"), ("preambles", "one octet 55 is 14"),
                ("preambles", "fewer than six octets 55 are 14"), ("preambles", "a shortened continuation is 16"),
                ("heads", "the delimiter at place 6 or 7"), ("heads", "the header of E ends at place 8"),
                ("heads", "the header of S ends at place 8"), ("heads", "the header of C ends at place 8"),
                ("heads", "the fragment code is at place 7"), ("parts", "the body from place 8 on"),
                ("parts", "the octets kept from place 8 on"), ("parts", "the check from place 8 on")):
            with self.subTest(name), wrong_receiving.GROUPS[group][name]():
                self.assertFalse(as_demanded(link.play(7200, 150)))
                with mock.patch.object(link, "shortened", lambda octets, _: octets):
                    self.assertTrue(as_demanded(link.play(7200, 150)))


class StoredGames(unittest.TestCase):
    """The games that are stored; the exact numbers are those that README.md names."""

    @classmethod
    def setUpClass(cls):
        cls.entries = link_questions.all_entries()
        cls.games = [link.play(*entry) for entry in cls.entries]
        cls.frames = [frame for played in cls.games for frame in frames_on_the_wire(played.passages)]

    def test_as_demanded(self):
        for entry, played in zip(self.entries, self.games):
            self.assertTrue(as_demanded(played), entry)
            self.assertLessEqual(set(runs_on_the_wire(played.passages)), {1, 2, 3})

    def test_the_same_in_a_second_play(self):
        for entry, played in zip(self.entries, self.games):
            self.assertEqual(link_answers.lines(played), SecondPlay(*entry).lines, entry)

    def test_frames(self):
        self.assertEqual(sum(frame.ended() for frame in self.frames), 5051)
        self.assertEqual(sum(frame.delivered() for frame in self.frames), 2206)
        self.assertEqual(sum(len(delivered(played, 1)) for played in self.games), 2206)
        # The shortest bodies and the longest are among them.
        lengths = {len(frame.body) for frame in self.frames}
        self.assertEqual((min(lengths), max(lengths)), (60, 1518))

    def test_every_number_of_octets_is_dropped(self):
        met = {}
        for played in self.games:
            for passage in played.passages:
                if not passage.lost:
                    dropped = len(passage.octets) - len(passage.arrived)
                    self.assertEqual(passage.octets, b"\x55" * dropped + passage.arrived)
                    numbers = met.setdefault(kind_of(passage.octets), [0] * 8)
                    numbers[dropped] += 1
        for kind in "EVRS":
            self.assertGreater(min(met[kind]), 50, kind)
            # All seven for 7 and for 8, so more often than any other number.
            self.assertGreater(met[kind][7], 1.3 * max(met[kind][:7]), kind)
        self.assertGreater(min(met["C"][:7]), 400)
        self.assertEqual(met["C"][7], 0)
        # All six for 6, 7 and 8.
        self.assertGreater(met["C"][6], 2 * max(met["C"][:6]))

    def test_every_answer_that_there_can_be(self):
        answered = {heard.answer.number for played in self.games for heard in played.heard}
        self.assertEqual(answered, {0, 1, 2, 3, 4, 22, 23})
        self.assertEqual({number for played in self.games for number in played.refusals}, {34})

    def test_runs(self):
        self.assertEqual(sum(runs_on_the_wire(played.passages).count(3) for played in self.games), 296)
        # Also with E, V and R among them.
        for among in "EVR":
            self.assertGreater(sum(signs(played.passages).count(f"x{among}xx") for played in self.games), 5)

    def test_pieces(self):
        whole = [len(frame.fates) for frame in self.frames if frame.delivered()]
        # More than four; of six the fragment count is 0 for the second time.
        self.assertEqual(sum(pieces > 4 for pieces in whole), 47)
        self.assertGreaterEqual(sum(pieces > 5 for pieces in whole), 10)
        self.assertEqual(max(len(frame.fates) for frame in self.frames), 10)

    def test_other_kinds_between_pieces(self):
        for kind in "EVR":
            self.assertGreater(sum(kind in frame.between for frame in self.frames if frame.delivered()), 90)

    def test_losses_everywhere(self):
        # The first mFrame alone, the last alone, one in the middle, all.
        for fates in (["lost", "arrived"], ["arrived", "lost"], ["arrived", "lost", "arrived"], ["lost"] * 3):
            self.assertGreater(sum(frame.ended() and frame.fates == fates for frame in self.frames), 5, fates)

    def test_sizes_stay_small(self):
        self.assertLess(sum(len(line) + 1 for played in self.games for line in link_answers.lines(played)), 700_000)
        self.assertLess(8 * len(self.entries), 1000)


if __name__ == "__main__":
    unittest.main()
