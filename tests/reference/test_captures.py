"""Tests of captures.py: document 02, request (vii), sentence by sentence, with the octets written out.

CASES, WRITING_CASES and EXAMPLES tell every reader and writer of wrong_captures.py, which are wrong in one rule each.
"""

import unittest

import captures
import wrong_captures
from captures import Answer
from chance import Chance

# Magic, version, time zone, accuracy, snap length and link type.
HEADER = bytes.fromhex("D4C3B2A1 0200 0400 00000000 00000000 40060000 12010000")
BIG_HEADER = bytes.fromhex("A1B2C3D4 0002 0004 00000000 00000000 00000640 00000112")
# The same with every octet that is not looked at another than 0.
OTHER_HEADER = bytes.fromhex("D4C3B2A1 0200 0400 100E0000 06000000 FFFF0000 12010000")
BIG_OTHER_HEADER = bytes.fromhex("A1B2C3D4 0002 0004 FFFFF1F0 FFFFFFFF 00000001 00000112")

# Seconds, microseconds, stored length, original length, content.
RECORD = bytes.fromhex("00000000 00000000 03000000 03000000 55D501")
BIG_RECORD = bytes.fromhex("00000000 00000000 00000003 00000003 55D501")
TIMED_RECORD = bytes.fromhex("80436D38 3F420F00 03000000 03000000 55D501")
BIG_TIMED_RECORD = bytes.fromhex("FFFFFFFF FFFFFFFF 00000003 00000003 55D501")
EMPTY = bytes(16)

# Length, kind, content.
TRACE_RECORD = bytes.fromhex("0300 0100 55D501")
TRACE_EMPTY = bytes.fromhex("0000 0100")

# More room than any of these needs.
ENOUGH = 100_000


def lengths(stored, original, content=b"", order="little"):
    """A record that says so, with as many octets of content as are given."""
    return bytes(8) + stored.to_bytes(4, order) + original.to_bytes(4, order) + content


def outcome(answer):
    """Number and value. A refusal writes nothing."""
    if answer.number != 0:
        assert answer.written == b"", "a refusal writes nothing"
    else:
        assert answer.value == len(answer.written), "the value is how many octets are written"
    return answer.number, answer.value


def reading(octets, room=ENOUGH):
    return outcome(captures.read(octets, room))


def writing(octets, room=ENOUGH):
    return outcome(captures.write(octets, room))


# Traces with their captures, as they are written.
EXAMPLES = (
    (b"", HEADER),
    (TRACE_RECORD, HEADER + RECORD),
    (TRACE_EMPTY, HEADER + EMPTY),
    (TRACE_RECORD + TRACE_EMPTY + bytes.fromhex("0100 0100 AA"),
     HEADER + RECORD + EMPTY + bytes.fromhex("00000000 00000000 01000000 01000000 AA")),
    (bytes.fromhex("0201 0100") + bytes(range(256)) + b"\xD4\xC3",
     HEADER + bytes.fromhex("00000000 00000000 02010000 02010000") + bytes(range(256)) + b"\xD4\xC3"),
    (bytes.fromhex("4006 0100") + b"\x55" * 1600,
     HEADER + bytes.fromhex("00000000 00000000 40060000 40060000") + b"\x55" * 1600),
)


class Layout(unittest.TestCase):
    """Write little-endian with times and the other header fields 0; read both byte orders, ignoring those."""

    def test_written_and_read_back(self):
        for octets, capture in EXAMPLES:
            self.assertEqual(captures.write(octets, ENOUGH), Answer(0, len(capture), capture))
            self.assertEqual(captures.read(capture, ENOUGH), Answer(0, len(octets), octets))

    def test_both_orders(self):
        expected = Answer(0, 11, TRACE_RECORD + TRACE_EMPTY)
        self.assertEqual(captures.read(HEADER + RECORD + EMPTY, 11), expected)
        self.assertEqual(captures.read(BIG_HEADER + BIG_RECORD + EMPTY, 11), expected)

    def test_what_is_ignored(self):
        expected = Answer(0, 14, 2 * TRACE_RECORD)
        for header in (HEADER, OTHER_HEADER):
            self.assertEqual(captures.read(header + RECORD + TIMED_RECORD, 14), expected)
        for header in (BIG_HEADER, BIG_OTHER_HEADER):
            self.assertEqual(captures.read(header + BIG_RECORD + BIG_TIMED_RECORD, 14), expected)

    def test_every_octet_of_both_headers(self):
        # An octet that is looked at is refused where it is another; the others may be any.
        for capture, low in ((HEADER + RECORD, 32), (BIG_HEADER + BIG_RECORD, 35)):
            refused = dict.fromkeys(range(4), 71) | dict.fromkeys(range(4, 8), 72) | dict.fromkeys(range(20, 24), 73)
            # With another low octet a stored length of 3 is under 1,600 still, and differs from the original length.
            refused |= dict.fromkeys(range(32, 36), 75) | {low: 76} | dict.fromkeys(range(36, 40), 76)
            for place in range(40):
                octets = bytearray(capture)
                octets[place] ^= 0x10
                self.assertEqual(reading(bytes(octets))[0], refused.get(place, 0), place)


class RoundTrips(unittest.TestCase):
    """Trace to pcap to trace gives the same octets."""

    def test_traces(self):
        chance = Chance(8072)
        for count in (*range(8), 300, *(chance.below(40) for _ in range(200))):
            mframes = [chance.octets(chance.below(80)) for _ in range(count)]
            octets = b"".join(len(mframe).to_bytes(2, "little") + b"\x01\x00" + mframe for mframe in mframes)
            capture = captures.write(octets, ENOUGH)
            self.assertEqual((capture.number, capture.value), (0, 24 + len(octets) + 12 * count))
            self.assertEqual(captures.read(capture.written, len(octets)), Answer(0, len(octets), octets))

    def test_what_a_damaged_capture_still_gives_is_a_trace(self):
        # Where a capture is still read, writing it gives the same again but for what is not looked at.
        chance = Chance(8073)
        read = 0
        for _ in range(3000):
            octets = bytearray(HEADER + RECORD + EMPTY + RECORD)
            octets[chance.below(len(octets))] ^= 1 << chance.below(8)
            answer = captures.read(bytes(octets), ENOUGH)
            self.assertIn(answer.number, (0, 71, 72, 73, 74, 75, 76, 77))
            if answer.number == 0:
                read += 1
                again = captures.write(answer.written, ENOUGH).written
                self.assertEqual(len(again), len(octets))
                self.assertEqual(captures.read(again, ENOUGH), answer)
        self.assertGreater(read, 1000)
        self.assertLess(read, 2500)


# Each capture with what its reading answers: refusals, the header's and then record by record.
CASES = {
    # 70, file header cut: before the others, whatever is there.
    "nothing": (b"", (70, 0)),
    "three octets": (HEADER[:3], (70, 0)),
    "a magic alone": (HEADER[:4], (70, 0)),
    "23 octets": (HEADER[:23], (70, 0)),
    "23 octets, big-endian": (BIG_HEADER[:23], (70, 0)),
    "three octets of another file": (b"\x0A\x0D\x0D", (70, 0)),
    "23 octets of no meaning": (b"\xFF" * 23, (70, 0)),
    "23 octets with version 2.3": (HEADER[:6] + b"\x03\x00" + HEADER[8:23], (70, 0)),
    "23 octets with link type 1": (HEADER[:20] + b"\x01\x00\x00", (70, 0)),
    "a header": (HEADER, (0, 0)),
    "a header, big-endian": (BIG_HEADER, (0, 0)),
    "other headers": (OTHER_HEADER + TIMED_RECORD, (0, 7)),
    "other headers, big-endian": (BIG_OTHER_HEADER + BIG_TIMED_RECORD, (0, 7)),
    "snap length 0": (HEADER[:16] + bytes(4) + HEADER[20:] + RECORD, (0, 7)),
    "snap length 1,601": (HEADER[:16] + b"\x41\x06\x00\x00" + HEADER[20:] + RECORD, (0, 7)),
    "snap length 2": (HEADER[:16] + b"\x02\x00\x00\x00" + HEADER[20:] + RECORD, (0, 7)),
    "1,000,000 microseconds": (HEADER + RECORD[:4] + b"\x40\x42\x0F\x00" + RECORD[8:], (0, 7)),
    "a second": (HEADER + b"\x01" + RECORD[1:], (0, 7)),
    # 71, magic: before version and link type.
    "nanoseconds": (b"\x4D\x3C\xB2\xA1" + HEADER[4:], (71, 0)),
    "nanoseconds, big-endian": (b"\xA1\xB2\x3C\x4D" + BIG_HEADER[4:], (71, 0)),
    "older magic": (b"\x34\xCD\xB2\xA1" + HEADER[4:], (71, 0)),
    "pcapng": (b"\x0A\x0D\x0D\x0A" + HEADER[4:], (71, 0)),
    "magic in pairs": (b"\xB2\xA1\xD4\xC3" + HEADER[4:], (71, 0)),
    "magic in pairs, big-endian": (b"\xC3\xD4\xA1\xB2" + BIG_HEADER[4:], (71, 0)),
    "first octet of the magic": (b"\xD4\x00\x00\x00" + HEADER[4:], (71, 0)),
    "front of the magic": (b"\xD4\xC3\xB2\x00" + HEADER[4:], (71, 0)),
    "end of the magic": (b"\xD5\xC3\xB2\xA1" + HEADER[4:], (71, 0)),
    "zeros": (bytes(24), (71, 0)),
    "magic and version": (b"\x00" + HEADER[1:4] + bytes(4) + HEADER[8:], (71, 0)),
    "magic and link type": (b"\x00" + HEADER[1:20] + bytes(4), (71, 0)),
    "magic and a cut record": (b"\x00" + HEADER[1:] + b"\x00", (71, 0)),
    # 72, version: before the link type.
    **{f"version {octets}": (HEADER[:4] + bytes.fromhex(octets) + HEADER[8:], (72, 0)) for octets in (
        "0200 0300", "0200 0500", "0100 0400", "0300 0400", "0400 0200", "0002 0004", "0201 0400", "0200 0401",
        "0200 0480", "0280 0400", "0300 0000", "0100 0500", "0000 0000")},
    **{f"version {octets}, big-endian": (BIG_HEADER[:4] + bytes.fromhex(octets) + BIG_HEADER[8:], (72, 0))
       for octets in ("0002 0003", "0002 0005", "0200 0400", "0004 0002")},
    "version and link type": (HEADER[:4] + bytes(4) + HEADER[8:20] + bytes(4), (72, 0)),
    "version and a cut record": (HEADER[:4] + bytes(4) + HEADER[8:] + b"\x00", (72, 0)),
    # 73, link type: all of it.
    **{f"link type {octets}": (HEADER[:20] + bytes.fromhex(octets), (73, 0)) for octets in (
        "01000000", "11010000", "13010000", "12000000", "12030000", "12050000", "12010100", "12010001", "12010004",
        "12010010", "12010080", "00001201", "00000112", "FFFFFFFF")},
    **{f"link type {octets}, big-endian": (BIG_HEADER[:20] + bytes.fromhex(octets), (73, 0)) for octets in (
        "00000001", "12010000", "00010112", "01120000")},
    "link type and a cut record": (HEADER[:20] + bytes(4) + b"\x00", (73, 0)),
    # 74, record header cut: before the others.
    **{f"{there} octets of a record": (HEADER + RECORD[:there], (74, 1)) for there in (1, 7, 8, 11, 12, 15)},
    "a second record's header cut": (HEADER + RECORD + RECORD[:15], (74, 2)),
    "a header cut, big-endian": (BIG_HEADER + BIG_RECORD + EMPTY + BIG_RECORD[:15], (74, 3)),
    "a header cut that says too much": (HEADER + lengths(1601, 1601)[:15], (74, 1)),
    "a header cut that says another length": (HEADER + lengths(3, 0x04000003)[:15], (74, 1)),
    "15 octets of the greatest lengths": (HEADER + b"\xFF" * 15, (74, 1)),
    "an empty record": (HEADER + EMPTY, (0, 4)),
    "empty records": (BIG_HEADER + EMPTY * 3, (0, 12)),
    # 75, stored length over 1,600: before 76 and 77.
    "1,599 octets": (HEADER + lengths(1599, 1599, bytes(1599)), (0, 1603)),
    "1,600 octets": (HEADER + lengths(1600, 1600, bytes(1600)), (0, 1604)),
    "1,600 octets, big-endian": (BIG_HEADER + lengths(1600, 1600, bytes(1600), "big"), (0, 1604)),
    "1,601 octets": (HEADER + lengths(1601, 1601, bytes(1601)), (75, 1)),
    "1,601 octets, big-endian": (BIG_HEADER + lengths(1601, 1601, bytes(1601), "big"), (75, 1)),
    "1,601 octets and none there": (HEADER + lengths(1601, 1601), (75, 1)),
    "1,601 octets of 1,602": (HEADER + lengths(1601, 1602, bytes(1601)), (75, 1)),
    "1,601 octets of 1,600, one missing": (HEADER + lengths(1601, 1600, bytes(1600)), (75, 1)),
    **{f"{length} octets, three there": (HEADER + EMPTY + lengths(length, length, b"abc"), (75, 2)) for length in (
        2048, 2**16 + 3, 2**24 + 3, 2**31, 2**31 + 3, 2**32 - 1)},
    **{f"{length} octets, three there, big-endian": (BIG_HEADER + lengths(length, length, b"abc", "big"), (75, 1))
       for length in (2**16 + 3, 2**31 + 3, 2**32 - 1)},
    "lengths in the other order": (HEADER + BIG_RECORD, (75, 1)),
    "lengths in the other order, big-endian": (BIG_HEADER + RECORD, (75, 1)),
    # 76, stored and original length differ: before 77.
    "three octets of four": (HEADER + lengths(3, 4, b"abc"), (76, 1)),
    "three octets of two": (HEADER + lengths(3, 2, b"abc"), (76, 1)),
    "three octets of none": (HEADER + lengths(3, 0, b"abc"), (76, 1)),
    "no octets of one": (HEADER + lengths(0, 1), (76, 1)),
    "no octets of 1,601": (HEADER + lengths(0, 1601), (76, 1)),
    **{f"three octets of 3 + {more}": (HEADER + RECORD + lengths(3, 3 + more, b"abc"), (76, 2))
       for more in (2**8, 2**11, 2**16, 2**24, 2**31)},
    "three octets of four, big-endian": (BIG_HEADER + BIG_RECORD + lengths(3, 4, b"abc", "big"), (76, 2)),
    "original length in the other order": (HEADER + RECORD[:12] + BIG_RECORD[12:], (76, 1)),
    "original length in the other order, big-endian": (BIG_HEADER + BIG_RECORD[:12] + RECORD[12:], (76, 1)),
    "three octets of four, one missing": (HEADER + lengths(3, 4, b"ab"), (76, 1)),
    # 77, content cut.
    "one octet missing": (HEADER + RECORD[:-1], (77, 1)),
    "one octet missing, big-endian": (BIG_HEADER + EMPTY + BIG_RECORD[:-1], (77, 2)),
    "all octets missing": (HEADER + lengths(1, 1), (77, 1)),
    "one of 1,600 octets missing": (HEADER + lengths(1600, 1600, bytes(1599)), (77, 1)),
    # Record by record: an earlier record is refused, whatever the numbers.
    "75 before a cut record": (HEADER + lengths(1601, 1601, bytes(1601)) + b"\x00", (75, 1)),
    "76 before a cut header": (HEADER + lengths(3, 4, b"abc") + b"\x00", (76, 1)),
    "76 before 75": (HEADER + lengths(3, 4, b"abc") + lengths(1601, 1601), (76, 1)),
    "76 before another 76": (HEADER + EMPTY + lengths(3, 4, b"abc") + lengths(0, 4), (76, 2)),
    "record 256 refused": (HEADER + EMPTY * 255 + b"\x00", (74, 256)),
    "record 301 refused": (BIG_HEADER + EMPTY * 300 + lengths(0, 1, b"", "big"), (76, 301)),
}

# The same for writing: document 01's refusals of a trace.
WRITING_CASES = {
    # 50, header cut.
    **{f"{there} octets of a record": (TRACE_RECORD[:there], (50, 1)) for there in (1, 2, 3)},
    "a second record's header cut": (TRACE_RECORD + b"\xFF\xFF\xFF", (50, 2)),
    "two octets that say too much": (b"\x41\x06", (50, 1)),
    # 51, length over 1,600: before 52 and 53.
    "1,599 octets": (b"\x3F\x06\x01\x00" + bytes(1599), (0, 1639)),
    "1,600 octets": (b"\x40\x06\x01\x00" + bytes(1600), (0, 1640)),
    "1,601 octets": (b"\x41\x06\x01\x00" + bytes(1601), (51, 1)),
    "1,601 octets and none there": (b"\x41\x06\x01\x00", (51, 1)),
    "1,601 octets of kind 2": (b"\x41\x06\x02\x00" + bytes(1601), (51, 1)),
    "32,771 octets, three there": (b"\x03\x80\x01\x00abc", (51, 1)),
    # 52, kind not 1: before 53.
    **{f"kind {kind.hex()}": (TRACE_EMPTY + b"\x03\x00" + kind + b"abc", (52, 2))
       for kind in (b"\x00\x00", b"\x02\x00", b"\x03\x00", b"\x00\x01", b"\x01\x01", b"\x01\x80")},
    "kind 2 and an octet missing": (b"\x03\x00\x02\x00ab", (52, 1)),
    # 53, content cut.
    "one octet missing": (TRACE_RECORD[:-1], (53, 1)),
    "all octets missing": (TRACE_RECORD + b"\x01\x00\x01\x00", (53, 2)),
    # Record by record.
    "52 before a cut header": (b"\x00\x00\x02\x00" + b"\x00", (52, 1)),
    "52 before 51": (TRACE_RECORD + b"\x00\x00\x02\x00" + b"\x41\x06\x01\x00", (52, 2)),
    "51 before a cut header": (b"\x41\x06\x01\x00" + bytes(1601) + b"\x00", (51, 1)),
    "empty": (b"", (0, 24)),
    "an empty record": (TRACE_EMPTY, (0, 40)),
    "record 301 refused": (TRACE_EMPTY * 300 + b"\x00", (50, 301)),
}


class Refusals(unittest.TestCase):
    """Refusals in their order, record by record; then 78, lent output too short, last. A refusal writes nothing."""

    def test_reading(self):
        for name, (octets, expected) in CASES.items():
            with self.subTest(name):
                self.assertEqual(reading(octets), expected)

    def test_writing(self):
        for name, (octets, expected) in WRITING_CASES.items():
            with self.subTest(name):
                self.assertEqual(writing(octets), expected)

    def test_78_comes_after_all_others(self):
        for call, cases in ((reading, CASES), (writing, WRITING_CASES)):
            for octets, (number, value) in cases.values():
                short = (78, value) if number == 0 and value > 0 else (number, value)
                self.assertEqual(call(octets, 0), short)


class Rooms(unittest.TestCase):
    """78, lent output too short: as many octets must there be room for as would be written."""

    def test_every_room(self):
        octets, capture = TRACE_RECORD + TRACE_EMPTY, HEADER + RECORD + EMPTY
        for room in range(80):
            self.assertEqual(writing(octets, room), (0, 59) if room >= 59 else (78, 59))
            self.assertEqual(reading(capture, room), (0, 11) if room >= 11 else (78, 11))

    def test_no_records(self):
        for room in range(30):
            self.assertEqual(writing(b"", room), (0, 24) if room >= 24 else (78, 24))
            self.assertEqual(reading(HEADER, room), (0, 0))


def told(call, cases):
    """Whether some case is answered otherwise than it must be."""
    return any(call(given) != expected for given, expected in cases.values())


def another(call, examples):
    """Whether something else is written for some example."""
    return any(call(given, ENOUGH).written != expected for given, expected in examples)


class WrongOnes(unittest.TestCase):
    def test_wrong_readers(self):
        self.assertFalse(told(reading, CASES))
        for name, wrong in wrong_captures.READERS.items():
            with self.subTest(name), wrong():
                self.assertTrue(told(reading, CASES))

    def test_wrong_writers(self):
        self.assertFalse(told(writing, WRITING_CASES))
        with wrong_captures.judged_by(wrong_captures.TRACE_TESTS)():
            self.assertFalse(told(writing, WRITING_CASES))
        for name, wrong in wrong_captures.WRITERS.items():
            with self.subTest(name), wrong():
                self.assertTrue(told(writing, WRITING_CASES))

    def test_wrong_in_what_they_read_or_write(self):
        for wrong_ones, call, examples in (
                (wrong_captures.TRACES, captures.read, [(capture, octets) for octets, capture in EXAMPLES]),
                (wrong_captures.CAPTURES, captures.write, EXAMPLES)):
            for name, wrong in wrong_ones.items():
                with self.subTest(name), wrong():
                    self.assertTrue(another(call, examples))


if __name__ == "__main__":
    unittest.main()
