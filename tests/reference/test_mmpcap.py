"""Tests of mmpcap.py: document 02, request (vii), as files and as sentences."""

import subprocess
import sys
import tempfile
import unittest
from pathlib import Path

from mmpcap import made

TRACE = bytes.fromhex("0300 0100 55D501  0000 0100")
HEADER = bytes.fromhex("D4C3B2A1 0200 0400 00000000 00000000 40060000 12010000")
RECORD = bytes.fromhex("00000000 00000000 03000000 03000000 55D501")
CAPTURE = HEADER + RECORD + bytes(16)

USAGE = (b"mmpcap: a capture is made from a trace or read back, as in: mmpcap write row.trace row.pcap,"
         b" or: mmpcap read row.pcap row.trace\n")
SAME = b"mmpcap: the trace and the capture have the same name.\n"


class Made(unittest.TestCase):
    def test_both_ways(self):
        self.assertEqual(made("write", TRACE), (CAPTURE, ""))
        self.assertEqual(made("read", CAPTURE), (TRACE, ""))

    def test_no_records(self):
        self.assertEqual(made("write", b""), (HEADER, ""))
        self.assertEqual(made("read", HEADER), (b"", ""))

    def test_sentences_of_traces(self):
        for octets, sentence in (
                (TRACE + b"\x00", "record 3 is cut off: the trace ends inside its header (50)."),
                (TRACE + b"\x41\x06\x01\x00", "record 3 says that its content is longer than 1,600 octets (51)."),
                (TRACE + b"\x00\x00\x02\x00", "record 3 is of a kind other than 1 (52)."),
                (TRACE + TRACE[:6], "record 3 is cut off: the trace ends inside it (53).")):
            with self.subTest(sentence):
                self.assertEqual(made("write", octets), (None, f"mmpcap: {sentence}\n"))

    def test_sentences_of_captures(self):
        for octets, sentence in (
                (HEADER[:23], "the capture is cut off: it ends inside its header of 24 octets (70)."),
                (b"\x4D" + HEADER[1:], "this is no pcap file with times in microseconds:"
                                       " it begins with A1B2C3D4 in neither byte order (71)."),
                (HEADER[:6] + b"\x03" + HEADER[7:], "the capture's version is not 2.4 (72)."),
                (HEADER[:20] + b"\x01\x00\x00\x00", "the capture's link type is not 274, Ethernet mPackets (73)."),
                (CAPTURE + RECORD[:15], "record 3 is cut off: the capture ends inside its header (74)."),
                (CAPTURE + RECORD[:9] + b"\x10" + RECORD[10:],
                 "record 3 says that more than 1,600 octets of it are stored (75)."),
                (CAPTURE + RECORD[:12] + b"\x04" + RECORD[13:],
                 "record 3 was not stored whole: its stored and its original length differ (76)."),
                (CAPTURE + RECORD[:-1], "record 3 is cut off: the capture ends inside its content (77).")):
            with self.subTest(sentence):
                self.assertEqual(made("read", octets), (None, f"mmpcap: {sentence}\n"))


class Command(unittest.TestCase):
    def setUp(self):
        room = tempfile.TemporaryDirectory()
        self.addCleanup(room.cleanup)
        self.folder = Path(room.name)
        (self.folder / "row.trace").write_bytes(TRACE)
        (self.folder / "row.pcap").write_bytes(CAPTURE)

    def end_of(self, *words, stdin=b""):
        """Status and what was said; nothing is ever written to standard output."""
        done = subprocess.run([sys.executable, str(Path(__file__).with_name("mmpcap.py")), *words], input=stdin,
                              cwd=self.folder, capture_output=True, check=False)
        self.assertEqual(done.stdout, b"")
        return done.returncode, done.stderr

    def content(self, name):
        return (self.folder / name).read_bytes()

    def test_both_ways(self):
        self.assertEqual(self.end_of("write", "row.trace", "new.pcap"), (0, b""))
        self.assertEqual(self.end_of("read", "row.pcap", "new.trace"), (0, b""))
        self.assertEqual((self.content("new.pcap"), self.content("new.trace")), (CAPTURE, TRACE))

    def test_standard_input(self):
        self.assertEqual(self.end_of("write", "-", "new.pcap", stdin=TRACE), (0, b""))
        self.assertEqual(self.content("new.pcap"), CAPTURE)

    def test_standard_input_and_a_file_of_its_sign(self):
        self.assertEqual(self.end_of("write", "-", "-", stdin=TRACE), (0, b""))
        self.assertEqual(self.end_of("read", "./-", "new.trace"), (0, b""))
        self.assertEqual((self.content("-"), self.content("new.trace")), (CAPTURE, TRACE))

    def test_what_is_refused_makes_nothing(self):
        said = b"mmpcap: record 3 is cut off: the trace ends inside its header (50).\n"
        for target in ("new.pcap", "row.pcap"):
            self.assertEqual(self.end_of("write", "-", target, stdin=TRACE + b"\x00"), (1, said))
        self.assertFalse((self.folder / "new.pcap").exists())
        self.assertEqual(self.content("row.pcap"), CAPTURE)

    def test_words(self):
        for words in ((), ("write",), ("write", "row.trace"), ("list", "row.trace", "new.pcap"),
                      ("write", "row.trace", "new.pcap", "new.pcap")):
            self.assertEqual(self.end_of(*words), (1, USAGE))
        self.assertEqual(self.end_of("write", "row.trace", "row.trace"), (1, SAME))

    def test_files_that_fail(self):
        for words, said in (
                (("write", "missing", "new"), b"mmpcap: the trace could not be opened.\n"),
                (("read", "missing", "new"), b"mmpcap: the capture could not be opened.\n"),
                (("write", ".", "new"), b"mmpcap: the trace could not be read.\n"),
                (("read", ".", "new"), b"mmpcap: the capture could not be read.\n"),
                (("write", "row.trace", "missing/new"), b"mmpcap: the capture could not be written.\n"),
                (("read", "row.pcap", "missing/new"), b"mmpcap: the trace could not be written.\n")):
            with self.subTest(words=words):
                self.assertEqual(self.end_of(*words), (1, said))


if __name__ == "__main__":
    unittest.main()
