"""What mmpcap reads of files that the viewer's own tools made: in both byte orders the same trace, and of what is no such capture the refusal.

The tools write in the byte order of the machine that they run on. A big-endian file is made by editcap of a big-endian machine, under an emulator,
where tests/viewer/run could unpack one; and everywhere by turning over a file of the editcap at hand, which the viewer must find to say the same.
"""

import struct
import unittest

from made import contents, good_traces
from viewer import BIG_ENDIAN_EDITCAP, EDITCAP, Captures, about, asked, in_full

LITTLE, BIG = bytes.fromhex("D4C3B2A1"), bytes.fromhex("A1B2C3D4")
# The file's header, and a record's.
FILE, RECORD = "IHHiIII", "IIII"
ELSEWHERE = unittest.skipUnless(BIG_ENDIAN_EDITCAP, "no editcap of a big-endian machine")
# A day and a part of a second: the times of a capture are 0 as mmpcap writes it.
LATER = ("-t", "86400.25")

NO_MICROSECONDS = "mmpcap: this is no pcap file with times in microseconds: it begins with A1B2C3D4 in neither byte order (71).\n"
REFUSED = (
    (("-F", "nsecpcap"), NO_MICROSECONDS),
    (("-F", "pcapng"), NO_MICROSECONDS),
    (("-F", "pcap", "-T", "ether"), "mmpcap: the capture's link type is not 274, Ethernet mPackets (73).\n"),
    (("-F", "pcap", "-s", "40"), "mmpcap: record 1 was not stored whole: its stored and its original length differ (76).\n"),
)


def turned_over(octets):
    """A little-endian capture as a big-endian one: every field of its headers turned over, contents as they are."""
    made = [struct.pack(">" + FILE, *struct.unpack_from("<" + FILE, octets))]
    place = struct.calcsize("<" + FILE)
    while place < len(octets):
        fields = struct.unpack_from("<" + RECORD, octets, place)
        content = place + struct.calcsize("<" + RECORD)
        place = content + fields[2]
        made += [struct.pack(">" + RECORD, *fields), octets[content:place]]
    return b"".join(made)


class ReadBack(Captures):
    def test_as_it_was_written(self):
        for name, octets in good_traces().items():
            with self.subTest(trace=name):
                self.assertEqual(self.read(self.captured(octets)), octets)

    def test_little_endian(self):
        for name, octets in good_traces().items():
            made = self.edited(EDITCAP, "-F", "pcap", *LATER, source=self.captured(octets))
            with self.subTest(trace=name):
                self.assertEqual(made.read_bytes()[:4], LITTLE)
                self.assertEqual(self.read(made), octets)

    def test_two_captures_in_one(self):
        """mergecap puts a second capture behind a first, with a snap length of its own choice."""
        octets = good_traces()["row"]
        both = self.folder / "both.pcap"
        asked("mergecap", "-a", "-F", "pcap", "-w", both, *2 * [self.captured(octets)])
        self.assertEqual(self.read(both), octets + octets)

    def test_by_way_of_pcapng(self):
        """The viewer saves pcapng unless it is told otherwise; editcap makes a pcap file of that again."""
        octets = good_traces()["row"]
        saved = self.edited(EDITCAP, "-F", "pcapng", source=self.captured(octets), name="saved.pcapng")
        self.assertEqual(self.read(self.edited(EDITCAP, "-F", "pcap", source=saved)), octets)

    def test_big_endian(self):
        """Turned over here; the viewer says the same of both, in full."""
        for name, octets in good_traces().items():
            little = self.edited(EDITCAP, "-F", "pcap", *LATER, source=self.captured(octets))
            big = self.folder / "big.pcap"
            big.write_bytes(turned_over(little.read_bytes()))
            with self.subTest(trace=name):
                self.assertEqual(big.read_bytes()[:4], BIG)
                self.assertEqual(about(big), about(little))
                # Compared as one, since a difference of texts of this length would not be shown before long.
                self.assertTrue(in_full(big) == in_full(little), "the viewer says another thing of the file turned over")
                self.assertEqual(self.read(big), octets)

    @ELSEWHERE
    def test_big_endian_by_its_own_tools(self):
        for name, octets in good_traces().items():
            capture = self.captured(octets)
            made = self.edited(BIG_ENDIAN_EDITCAP, "-F", "pcap", *LATER, source=capture)
            here = self.edited(EDITCAP, "-F", "pcap", *LATER, source=capture, name="here.pcap")
            with self.subTest(trace=name):
                self.assertEqual(made.read_bytes()[:4], BIG)
                self.assertEqual(made.read_bytes(), turned_over(here.read_bytes()))
                self.assertEqual(self.read(made), octets)


class Refused(Captures):
    """Files that are no capture of whole mFrames with times in microseconds: each its sentence, and no trace is left."""

    def refuses(self, editcap):
        capture = self.captured(good_traces()["every kind"])
        self.assertGreater(len(contents(good_traces()["every kind"])[0]), 40)
        for options, sentence in REFUSED:
            made, target = self.edited(editcap, *options, source=capture), self.folder / "refused.trace"
            with self.subTest(options=options):
                self.assertEqual(self.said("read", made, target), sentence)
                self.assertFalse(target.exists())

    def test_little_endian(self):
        self.refuses(EDITCAP)

    @ELSEWHERE
    def test_big_endian(self):
        self.refuses(BIG_ENDIAN_EDITCAP)
