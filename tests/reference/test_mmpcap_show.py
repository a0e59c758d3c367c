"""Tests of mmpcap.py where it makes captures for eyes, as files and as sentences."""

import unittest

import test_mmpcap
from by_hand import mcrc, standard_mcrc
from mmpcap import made
from test_mmpcap import CAPTURE, HEADER, SAME, TRACE

# A V of 65 octets.
V_TRACE = bytes.fromhex("4100 0100 07") + bytes(60) + mcrc(bytes(60))
V_EYES = HEADER + bytes.fromhex("00000000 00000000 41000000 41000000 07") + bytes(60) + standard_mcrc(bytes(60))


class Made(unittest.TestCase):
    def test_for_eyes(self):
        self.assertEqual(made("show", V_TRACE), (V_EYES, ""))
        self.assertEqual(made("show", TRACE), (CAPTURE, ""))

    def test_no_records(self):
        self.assertEqual(made("show", b""), (HEADER, ""))

    def test_refused_as_it_is_for_the_plain_one(self):
        for octets in (TRACE[:2], TRACE + b"\x00", TRACE + bytes.fromhex("41060100"), TRACE + bytes.fromhex("00000200"), TRACE + TRACE[:6]):
            self.assertEqual(made("show", octets), made("write", octets))
            self.assertIsNone(made("show", octets)[0])


class Command(unittest.TestCase):
    setUp = test_mmpcap.Command.setUp
    end_of, content = test_mmpcap.Command.end_of, test_mmpcap.Command.content

    def test_for_eyes(self):
        (self.folder / "row.trace").write_bytes(V_TRACE)
        self.assertEqual(self.end_of("show", "row.trace", "row.eyes.pcap"), (0, b""))
        self.assertEqual((self.content("row.eyes.pcap"), self.content("row.pcap")), (V_EYES, CAPTURE))

    def test_standard_input(self):
        self.assertEqual(self.end_of("show", "-", "new.eyes.pcap", stdin=V_TRACE), (0, b""))
        self.assertEqual(self.content("new.eyes.pcap"), V_EYES)

    def test_what_is_refused_makes_nothing(self):
        said = b"mmpcap: record 3 is cut off: the trace ends inside its header (50).\n"
        for target in ("new.pcap", "row.pcap"):
            self.assertEqual(self.end_of("show", "-", target, stdin=TRACE + b"\x00"), (1, said))
        self.assertFalse((self.folder / "new.pcap").exists())
        self.assertEqual(self.content("row.pcap"), CAPTURE)

    def test_the_same_name(self):
        self.assertEqual(self.end_of("show", "row.trace", "row.trace"), (1, SAME))

    def test_files_that_fail(self):
        for words, said in (
                (("show", "missing", "new"), b"mmpcap: the trace could not be opened.\n"),
                (("show", "row.trace", "missing/new"), b"mmpcap: the capture could not be written.\n")):
            with self.subTest(words=words):
                self.assertEqual(self.end_of(*words), (1, said))


if __name__ == "__main__":
    unittest.main()
