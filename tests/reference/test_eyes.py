"""Tests of captures for eyes, sentence by sentence, with the octets written out.

SHOWN tells all of wrong_eyes.py, which are wrong in one rule each; WRITING_CASES and EXAMPLES of test_captures.py tell
every writer of wrong_captures.py where it shows, too.
"""

import unittest
from unittest import mock

import captures
import crc
import mmlist
import trace
import traces
import wrong_captures
import wrong_eyes
from by_hand import fcs, mcrc, standard_mcrc
from captures import Answer
from test_captures import EXAMPLES, HEADER, TRACE_EMPTY, TRACE_RECORD, WRITING_CASES, outcome, told

# More room than any of these needs.
ENOUGH = 1_000_000


def showing(octets, room=ENOUGH):
    return outcome(captures.show(octets, room))


class Refusals(unittest.TestCase):
    """As the plain capture of the same trace."""

    def test_cases(self):
        for name, (octets, expected) in WRITING_CASES.items():
            with self.subTest(name):
                self.assertEqual(showing(octets), expected)

    def test_78_comes_after_all_others(self):
        for octets, (number, value) in WRITING_CASES.values():
            short = (78, value) if number == 0 and value > 0 else (number, value)
            self.assertEqual(showing(octets, 0), short)


class Rooms(unittest.TestCase):
    def test_every_room(self):
        octets = TRACE_RECORD + TRACE_EMPTY
        for room in range(80):
            self.assertEqual(showing(octets, room), (0, 59) if room >= 59 else (78, 59))

    def test_no_records(self):
        for room in range(30):
            self.assertEqual(showing(b"", room), (0, 24) if room >= 24 else (78, 24))


# Data of mFrames: three that make a frame of 183 octets, and more than a frame can have.
FIRST, SECOND, THIRD = bytes(range(1, 61)), bytes(range(61, 122)), bytes(range(122, 184))
ALL = FIRST + SECOND + THIRD
LONG = bytes(place % 251 for place in range(1600))

STARTS, CONTINUATIONS = bytes.fromhex("E6 4C 7F B3"), bytes.fromhex("61 52 9E 2A")
FRAGMENT_CODES = bytes.fromhex("E6 4C 7F B3")


def nothing(_octets):
    return bytes(4)


def of_zeros(octets):
    """The mCRC of other data."""
    return mcrc(bytes(len(octets)))


def lone(code, data, check, preamble=7):
    """E, V, R or a start: so many octets 55, the delimiter, data and a check over it."""
    return b"\x55" * preamble + bytes([code]) + data + check(data)


def express(check=fcs):
    return lone(0xD5, FIRST, check)


def verify(data=bytes(60), check=mcrc, preamble=7):
    return lone(0x07, data, check, preamble)


def respond(data=bytes(60), check=mcrc, preamble=7):
    return lone(0x19, data, check, preamble)


def start(count, data=FIRST, check=mcrc, preamble=7):
    return lone(STARTS[count], data, check, preamble)


def going_on(count, number, before, data, check=mcrc, preamble=6):
    """A continuation: its check is over all octets before it and its own."""
    return (b"\x55" * preamble + bytes([CONTINUATIONS[count], FRAGMENT_CODES[number]]) + data + check(before + data))


def parts(count):
    """The frame of 183 octets in three mFrames."""
    return [start(count), going_on(count, 0, FIRST, SECOND), going_on(count, 1, FIRST + SECOND, THIRD, fcs)]


def in_seven():
    """A frame in seven mFrames, so that the fragment count goes round."""
    return [start(2, LONG[:60]),
            *(going_on(2, number % 4, LONG[:place], LONG[place:place + 60], mcrc if place < 360 else fcs)
              for number, place in enumerate(range(60, 420, 60)))]


# mFrames, and the places of those whose mCRC is right, counted from 0.
SHOWN = {
    "nothing": ([], ()),
    "V": ([verify()], (0,)),
    "R": ([respond()], (0,)),
    "V and R with other data": (
        [call(data) for call in (verify, respond) for data in (FIRST, SECOND, LONG[:1518])], (0, 1, 2, 3, 4, 5)),
    "V and R with another check": (
        [call(FIRST, check) for call in (verify, respond) for check in (fcs, standard_mcrc, nothing, of_zeros)], ()),
    "E": ([express()], ()),
    "E with another check": ([express(check) for check in (mcrc, standard_mcrc, nothing)], ()),
    "a frame in one": ([start(0, FIRST, fcs)], ()),
    "a frame in one, longest": ([start(0, LONG[:1518], fcs)], ()),
    "a start": ([start(0)], (0,)),
    "a start, longest": ([start(1, LONG[:1518])], (0,)),
    "a start with another check": ([start(0, FIRST, standard_mcrc), start(0, FIRST, nothing)], ()),
    "frames in three": ([octets for count in range(4) for octets in parts(count)], (0, 1, 3, 4, 6, 7, 9, 10)),
    "a frame in seven": (in_seven(), (0, 1, 2, 3, 4, 5)),
    "presses between": ([parts(1)[0], express(), parts(1)[1], express(), express(), parts(1)[2]], (0, 2)),
    **{f"{name} between": ([start(3), between, going_on(3, 0, FIRST, SECOND)], changed) for name, between, changed in (
        ("V", verify(SECOND), (0, 1, 2)), ("R", respond(SECOND), (0, 1, 2)),
        ("E with a wrong FCS", express(nothing), (0, 2)), ("V with a wrong mCRC", verify(check=nothing), (0, 2)),
        ("R with a wrong mCRC", respond(check=nothing), (0, 2)),
        ("no octets", b"", (0, 2)), ("three octets", b"\x55\x55\x07", (0, 2)),
        ("59 octets of data", verify(bytes(59)), (0, 2)),
        ("59 octets of data of a continuation", going_on(3, 0, FIRST, SECOND[:59]), (0, 2)),
        ("1,519 octets of data", verify(LONG[:1519]), (0, 2)), ("eight octets 55", verify(preamble=8), (0, 2)),
        ("an unknown delimiter", lone(0xAD, FIRST, mcrc), (0, 2)),
        ("eight octets 55 of a continuation", going_on(3, 0, FIRST, SECOND, preamble=8), (0, 2)),
        ("an unknown fragment code", b"\x55" * 6 + b"\x2A\x55" + SECOND + mcrc(FIRST + SECOND), (0, 2)),
        ("a 55 before the fragment code", b"\x55" * 6 + b"\x2A\x55\xE6" + SECOND + mcrc(FIRST + SECOND), (0, 2)),
        # What follows a start belongs to that, or to nothing.
        ("a whole frame", start(3, SECOND, fcs), (0,)), ("a damaged start", start(3, SECOND, nothing), (0,)),
        ("another start", start(3, SECOND), (0, 1)), ("the same start", start(3), (0, 1, 2)),
        # What ends an assembly does so for good.
        ("another frame count", going_on(2, 0, FIRST, SECOND), (0,)),
        ("another fragment count", going_on(3, 1, FIRST, SECOND), (0,)),
        ("the standard's mCRC", going_on(3, 0, FIRST, SECOND, standard_mcrc), (0,)),
        ("a check begun anew", going_on(3, 0, b"", SECOND), (0,)),
        ("a check over all but this", going_on(3, 0, FIRST, SECOND, lambda _: mcrc(FIRST)), (0,)),
        ("a continuation of 1,531 octets", going_on(3, 0, FIRST, LONG[:1518], preamble=7), (0,)),
        ("a continuation of 1,532 octets", going_on(3, 0, FIRST, LONG[:1519], preamble=7), (0, 2)))},
    "a continuation alone, then V": ([going_on(0, 0, b"", SECOND), going_on(0, 0, FIRST, SECOND), verify()], (2,)),
    "a damaged start, then V": ([start(0, FIRST, nothing), verify()], (1,)),
    "the second of three lost": ([parts(0)[0], going_on(0, 1, FIRST + SECOND, THIRD), *parts(1)], (0, 2, 3)),
    "behind the end": ([start(0), going_on(0, 0, FIRST, SECOND, fcs), going_on(0, 1, FIRST + SECOND, THIRD)], (0,)),
    "behind the end, the same again": (
        [start(0), going_on(0, 0, FIRST, SECOND, fcs), going_on(0, 0, FIRST, SECOND)], (0,)),
    "as many octets as can be": ([start(0, LONG[:1458]), going_on(0, 0, LONG[:1458], LONG[1458:1518])], (0, 1)),
    "one octet more, one that would fit, and V": (
        [start(0, LONG[:1458]), going_on(0, 0, LONG[:1458], LONG[1458:1519]),
         going_on(0, 0, LONG[:1458], LONG[1458:1518]), verify()], (0, 3)),
    "every preamble": ([call(preamble=preamble) for call in (verify, respond) for preamble in range(10)],
                       (*range(8), *range(10, 18))),
    **{f"a frame behind {preamble} octets 55": (
        [start(1, preamble=preamble), going_on(1, 0, FIRST, SECOND, preamble=preamble)], (0, 1) if preamble < 8 else ())
       for preamble in range(9)},
    "another octet among those of the preamble": (
        [octets + verify(preamble=6) for octets in (b"\x00", b"\x54", b"\x55\x00")], ()),
    **{f"data that begins with {front.hex()}": (
        [verify(front + SECOND), start(0, front + SECOND), going_on(0, 0, front + SECOND, front + THIRD)], (0, 1, 2))
       for front in (b"\x55", b"\xD5", b"\x55\xD5", b"\x61\xE6")},
    "few octets": ([octet * length for octet in (b"\x00", b"\x55", b"\x07") for length in range(6)], ()),
    "an end inside a frame": (parts(0)[:2], (0, 1)),
    "what would go on with it": (parts(0)[2:] + [going_on(0, 1, FIRST + SECOND, THIRD)], ()),
    "a start again, and what would go on with it": ([start(0)], (0,)),
    "what would go on with the start": ([going_on(0, 0, FIRST, SECOND)], ()),
}


def other_in_four(octets):
    """The last four octets inverted: of document 01's mCRC that gives the standard's."""
    return octets[:-4] + bytes(octet ^ 0xFF for octet in octets[-4:])


def eyes_by_hand(mframes, places):
    """The trace of these mFrames, and its capture for eyes when those at these places are changed."""
    shown = [other_in_four(octets) if place in places else octets for place, octets in enumerate(mframes)]
    return trace.written(mframes), captures.write(trace.written(shown), ENOUGH).written


EYES = [eyes_by_hand(*case) for case in SHOWN.values()]


class Eyes(unittest.TestCase):
    """Captures of request (vii), each mCRC that is right by document 01 replaced by the one that the viewer expects."""

    def test_octets_by_hand(self):
        verify_octets = bytes.fromhex("4800 0100 55555555555555 07") + bytes(60) + bytes.fromhex("0889EDFB")
        self.assertEqual(verify_octets, trace.written([verify()]))
        shown = (HEADER + bytes.fromhex("00000000 00000000 48000000 48000000 55555555555555 07") + bytes(60)
                 + bytes.fromhex("F7761204"))
        self.assertEqual(captures.show(verify_octets, ENOUGH), Answer(0, len(shown), shown))

    def test_the_frame_so_far(self):
        # Each check is over all of the frame's octets up to it; the last one stays the FCS.
        given = trace.written(parts(1))
        shown = trace.written([start(1, FIRST, standard_mcrc), going_on(1, 0, FIRST, SECOND, standard_mcrc),
                               going_on(1, 1, FIRST + SECOND, THIRD, fcs)])
        self.assertEqual(captures.show(given, ENOUGH), captures.write(shown, ENOUGH))

    def test_cases(self):
        for name, case in SHOWN.items():
            octets, capture = eyes_by_hand(*case)
            with self.subTest(name):
                self.assertEqual(captures.show(octets, ENOUGH), Answer(0, len(capture), capture))

    def test_what_differs_from_the_plain_capture(self):
        # Of stored traces, which have every answer: the last four octets where the listing has 2, 3 or 4, all of them.
        for octets in (traces.row(), traces.answers()):
            answers = [int(line.split()[1]) for line in mmlist.lines(octets) if line[0].isdigit()]
            places = [place for place, number in enumerate(answers) if number in (2, 3, 4)]
            self.assertGreater(len(places), 10)
            mframes = [record.content for record in trace.records(octets)]
            self.assertEqual(captures.show(octets, ENOUGH).written, eyes_by_hand(mframes, places)[1])

    def test_a_receiver_by_the_standard(self):
        # It hears in the capture for eyes what ours hears on the wire.
        def standard(register):
            return bytes(octet ^ 0xFF for octet in right(register))

        octets, right = traces.row(), crc.mcrc_of_register
        shown = captures.read(captures.show(octets, ENOUGH).written, ENOUGH).written
        expected = mmlist.listing(octets)
        self.assertNotEqual(mmlist.listing(shown), expected)
        with mock.patch.object(crc, "mcrc_of_register", standard):
            self.assertEqual(mmlist.listing(shown), expected)

    def test_without_fragments_it_is_the_plain_capture(self):
        for octets, capture in EXAMPLES:
            self.assertEqual(captures.show(octets, ENOUGH), Answer(0, len(capture), capture))
        octets = trace.written([express(), start(0, FIRST, fcs), b"", express(nothing), start(1, LONG[:1518], fcs)])
        self.assertEqual(captures.show(octets, ENOUGH), captures.write(octets, ENOUGH))

    def test_a_refusal_behind_fragments(self):
        good = trace.written(parts(0))
        for fault, number in (("00", 50), ("41060100", 51), ("00000200", 52), ("01000100", 53)):
            fault = bytes.fromhex(fault)
            for octets, place in ((good + fault, 4), (fault, 1)):
                for room in (0, 300, ENOUGH):
                    self.assertEqual(showing(octets, room), (number, place))

    def test_every_room(self):
        octets, capture = eyes_by_hand(parts(0), (0, 1))
        for room in range(len(capture) + 2):
            expected = (0, len(capture)) if room >= len(capture) else (78, len(capture))
            self.assertEqual(showing(octets, room), expected)


def another(examples):
    """Whether something else is shown of some example."""
    return any(captures.show(given, ENOUGH).written != expected for given, expected in examples)


class WrongOnes(unittest.TestCase):
    def test_wrong_writers(self):
        self.assertFalse(told(showing, WRITING_CASES))
        with wrong_captures.judged_by(wrong_captures.TRACE_TESTS)():
            self.assertFalse(told(showing, WRITING_CASES))
        for name, wrong in wrong_captures.WRITERS.items():
            with self.subTest(name), wrong():
                self.assertTrue(told(showing, WRITING_CASES))

    def test_wrong_in_what_they_show(self):
        self.assertFalse(another(EYES))
        for wrong_ones, examples in ((wrong_captures.CAPTURES, EXAMPLES), (wrong_eyes.EYES, EYES)):
            for name, wrong in wrong_ones.items():
                with self.subTest(name), wrong():
                    self.assertTrue(another(examples))


if __name__ == "__main__":
    unittest.main()
