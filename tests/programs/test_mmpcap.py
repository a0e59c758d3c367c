"""mmpcap as a program: traces written as captures and read back, every sentence, and what becomes of the file it makes.

The program must be built (scripts/prove mmpcap). Most tests go both ways, from a trace to its capture and back. The reference says what the stored
captures of tests/captures and refused traces give; capture_octets.py lays the octets of all others. test_failures.py has the inputs that fail
for any program, test_commands.py the command around mmpcap.
"""

import contextlib
import functools
import itertools
import os
import pty
import resource
import shutil
import socket
import stat
import struct
import subprocess
import threading
import unittest
from pathlib import Path
from typing import NamedTuple

import inputs
import running
from capture_octets import MAGIC, capture_of, contents_of, file_header, record_header, trace_header, trace_of

ROOT = Path(__file__).resolve().parents[2]
COMMAND = [str(ROOT / "scripts" / "run-program"), "mmpcap"]
TRACES = ROOT / "tests" / "traces"
CAPTURES = ROOT / "tests" / "captures"
SAMPLE = ROOT / "crates" / "mmlist" / "stdin"

# Contents of every length that matters.
CONTENTS = [bytes(place * 7 % 256 for place in range(length)) for length in (72, 0, 1, 255, 256, 1599, 1600)]

USE = "a capture is made from a trace or read back, as in: mmpcap write row.trace row.pcap, or: mmpcap read row.pcap row.trace"
SAME = "the trace and the capture have the same name."
UNOPENED = "the {taken} could not be opened."
UNREAD = "the {taken} could not be read."
TERMINAL = "the {taken} is a terminal; name a file, or give it on standard input."
OCCUPIED = "the name of the {made} is taken by what is no file that may be written."
NOT_BESIDE = "no file could be made beside the {made}."
UNWRITTEN = "the {made} could not be written."
UNNAMED = "the {made} could not be given its name."


class Way(NamedTuple):
    """The word, what is taken and made by it, and an example of each."""

    word: str
    taken: str
    made: str
    octets: bytes
    result: bytes

    def sentence(self, text):
        return text.format(taken=self.taken, made=self.made)


WRITE = Way("write", "trace", "capture", trace_of(CONTENTS), capture_of(CONTENTS))
READ = Way("read", "capture", "trace", WRITE.result, WRITE.octets)
WAYS = (WRITE, READ)


def state(path):
    """What stands at a path: its kind and mode, and what it holds or points to."""
    kind = path.lstat().st_mode
    if stat.S_ISLNK(kind):
        return kind, os.readlink(path)
    return kind, path.read_bytes() if stat.S_ISREG(kind) else None


@contextlib.contextmanager
def with_mode(path, mode):
    """Meanwhile the path has this mode, with which even a test may be unable to look at it."""
    usual = stat.S_IMODE(path.stat().st_mode)
    path.chmod(mode)
    try:
        yield
    finally:
        path.chmod(usual)


def both_ways(test):
    """The test each way, in a folder of its own that has the file `taken`."""
    @functools.wraps(test)
    def run(self):
        room = self.folder
        for way in WAYS:
            self.folder = room / way.word
            self.folder.mkdir()
            self.file(way.octets, "taken")
            with self.subTest(way=way.word):
                test(self, way)

    return run


class Mmpcap(running.Called, unittest.TestCase):
    command = COMMAND

    def all_files(self):
        return {path.relative_to(self.folder): state(path) for path in self.folder.rglob("*")}

    def makes(self, way, taken, made, result=None, **how):
        """mmpcap says nothing, and the file that it made has the way's result or another; it is taken away again."""
        self.assertEqual(self.said(way.word, taken, made, **how), (b"", b""))
        path = self.folder / os.fsdecode(made)
        # Long contents are not shown where they differ.
        self.assertTrue(path.read_bytes() == (way.result if result is None else result), f"{made!r} has other octets")
        path.unlink()

    def refuses(self, way, text, taken="taken", made="made", meanwhile=contextlib.nullcontext(), **how):
        """mmpcap says the sentence, and every file is as it was before. While it goes on, something may be as it is not for the test."""
        before = self.all_files()
        with meanwhile:
            said = self.said(way.word, taken, made, **how)
        self.assertEqual(said, (b"", f"mmpcap: {way.sentence(text)}\n".encode()))
        self.assertEqual(self.all_files(), before)


class Octets(Mmpcap):
    def test_an_example_by_hand(self):
        trace = bytes.fromhex("0300 0100 5555d5" "0000 0100")
        capture = bytes.fromhex("d4c3b2a1 0200 0400 00000000 00000000 40060000 12010000"
                                "00000000 00000000 03000000 03000000 5555d5"
                                "00000000 00000000 00000000 00000000")
        self.file(trace, "row.trace")
        self.makes(WRITE, "row.trace", "row.pcap", capture)
        self.file(capture, "row.pcap")
        self.makes(READ, "row.pcap", "back.trace", trace)

    def test_no_records(self):
        self.file(b"", "row.trace")
        for taken in ("row.trace", "/dev/null", "-"):
            with self.subTest(taken=taken):
                self.makes(WRITE, taken, "row.pcap", file_header())
        self.file(file_header(), "row.pcap")
        self.makes(READ, "row.pcap", "back.trace", b"")

    @both_ways
    def test_every_length_that_matters(self, way):
        self.makes(way, "taken", "made")

    def test_what_is_ignored_in_a_capture(self):
        fields = ({"zone": 0xFFFFFFFF}, {"accuracy": 1}, {"snap": 0}, {"snap": 65535}, {"snap": 0xFFFFFFFF}, {"times": (1, 999_999)},
                  {"times": (0xFFFFFFFF, 0xFFFFFFFF)})
        for order, field in itertools.product("<>", ({}, *fields)):
            with self.subTest(order=order, field=field):
                self.file(capture_of(CONTENTS, order, **field), "row.pcap")
                self.makes(READ, "row.pcap", "back.trace")


class Stored(Mmpcap):
    """The stored traces, and what the reference says of the captures and traces in tests/captures."""

    def said_of(self, name):
        """What is said of a stored file: nothing, or a sentence."""
        path = CAPTURES / f"{name}.said"
        return path.read_bytes() if path.exists() else b""

    def stored(self, ending):
        return sorted(path.stem for path in CAPTURES.glob(f"*.{ending}"))

    def test_there_and_back(self):
        good = [path for path in sorted(TRACES.glob("*.trace")) if not path.stem.startswith("refused")]
        self.assertEqual([path.stem for path in good], ["answers", "empty", "long"])
        for path in (*good, SAMPLE):
            with self.subTest(path=path.name):
                trace = path.read_bytes()
                self.makes(WRITE, str(path), "row.pcap", capture_of(contents_of(trace)))
                self.file(capture_of(contents_of(trace)), "row.pcap")
                self.makes(READ, "row.pcap", "back.trace", trace)

    def test_captures(self):
        for name in self.stored("pcap"):
            with self.subTest(name=name):
                said = self.said_of(name)
                self.assertEqual(self.said("read", str(CAPTURES / f"{name}.pcap"), "back.trace"), (b"", said))
                made = self.folder / "back.trace"
                self.assertEqual(made.exists(), not said)
                if not said:
                    self.assertEqual(made.read_bytes(), (CAPTURES / f"{name}.trace").read_bytes())
                    made.unlink()

    def test_good_traces(self):
        # What is read from another maker's capture is written as ours.
        names = [name for name in self.stored("trace") if name in self.stored("pcap") and not name.startswith("other_")]
        self.assertEqual(names, ["empty", "empty_record", "lengths", "like_headers", "long", "row"])
        for name in names:
            with self.subTest(name=name):
                self.makes(WRITE, str(CAPTURES / f"{name}.trace"), "row.pcap", (CAPTURES / f"{name}.pcap").read_bytes())

    def test_refused_traces(self):
        for name in sorted(set(self.stored("trace")) - set(self.stored("pcap"))):
            with self.subTest(name=name):
                said = self.said_of(name)
                self.assertNotEqual(said, b"")
                self.assertEqual(self.said("write", str(CAPTURES / f"{name}.trace"), "row.pcap"), (b"", said))
                self.assertEqual(self.all_files(), {})

    def test_every_kind_is_stored(self):
        said = [self.said_of(name) for name in self.stored("said")]
        self.assertTrue(all(text.startswith(b"mmpcap: ") and text.endswith(b").\n") for text in said))
        self.assertEqual({int(text[-5:-3]) for text in said}, {*range(50, 54), *range(70, 78)})
        orders = {(CAPTURES / f"{name}.pcap").read_bytes()[:4] for name in set(self.stored("pcap")) & set(self.stored("trace"))}
        self.assertEqual(orders, {struct.pack("<I", MAGIC), struct.pack(">I", MAGIC)})


# What a refused record of a trace begins with, and what is said of it.
BAD_IN_TRACES = {
    "record {} is cut off: the trace ends inside its header (50).": (b"\x00", b"\x41\x06", b"\xff\xff\xff"),
    "record {} says that its content is longer than 1,600 octets (51).": (
        trace_header(1601), trace_header(1601) + bytes(1601), trace_header(65535), trace_header(1601, kind=2)),
    "record {} is of a kind other than 1 (52).": (
        *(trace_header(0, kind) for kind in (0, 2, 255, 256, 257, 0x8001, 65535)), trace_header(1600, 2), trace_header(3, 0) + bytes(3)),
    "record {} is cut off: the trace ends inside it (53).": (trace_header(1), trace_header(256) + bytes(255), trace_header(1600) + bytes(1599)),
}


def bad_in_captures(order):
    """What a refused record of a capture begins with in this byte order, and what is said of it."""
    def header(stored, original):
        return record_header(order, (0, 0), stored, original)

    return {
        "record {} is cut off: the capture ends inside its header (74).": (b"\x00", header(1601, 0)[:15], b"\xff" * 15),
        "record {} says that more than 1,600 octets of it are stored (75).": (
            header(1601, 1601), header(1601, 1601) + bytes(1601), header(1601, 1600), *(header(length, length) for length in (
                65536, 65537, 0x40000000, 0x80000001, 0xFFFFFFFF))),
        "record {} was not stored whole: its stored and its original length differ (76).": (
            header(0, 1), header(1, 0), header(1600, 1601), header(72, 72 + 65536) + bytes(72), header(64, 0x40000000)),
        "record {} is cut off: the capture ends inside its content (77).": (
            header(1, 1), header(256, 256) + bytes(255), header(1600, 1600) + bytes(1599)),
    }


def bad_headers(order):
    """File headers that are refused, in this byte order, and what is said of them: each is 70, 71, 72 or 73 in this order."""
    other = {"<": ">", ">": "<"}[order]
    return {
        "the capture is cut off: it ends inside its header of 24 octets (70).": (
            b"", b"\xd4", file_header(order)[:4], file_header(order)[:23], file_header(order, magic=0)[:23]),
        "this is no pcap file with times in microseconds: it begins with A1B2C3D4 in neither byte order (71).": (
            *(file_header(order, magic=magic) for magic in (0xA1B23C4D, 0x0A0D0D0A, 0xA1B2C3D5, 0xB2A1D4C3, 0)),
            file_header(order, magic=0, version=(2, 3)), file_header(order, magic=0, link=1)),
        "the capture's version is not 2.4 (72).": (
            *(file_header(order, version=version) for version in ((2, 3), (2, 5), (1, 4), (3, 4), (4, 2), (0x0200, 0x0400))),
            file_header(order)[:4] + file_header(other)[4:], file_header(order, version=(2, 3), link=1)),
        "the capture's link type is not 274, Ethernet mPackets (73).": (
            *(file_header(order, link=link) for link in (0, 1, 273, 275, 18, 0x10112, 0x80000112, 0x12010000)),),
    }


class Refused(Mmpcap):
    """A refused file is told by one sentence, whether or not there is an old file, and leaves no trace of a new one."""

    def each(self, way, sentences, before=b"", number=""):
        """Each of these, behind good octets, is refused; every second time there is a file of the name already."""
        for text, beginnings in sentences.items():
            for beginning, old in zip(beginnings, itertools.cycle((b"", b"old"))):
                with self.subTest(text=text, octets=beginning[:24].hex(" "), before=len(before)):
                    self.file(before + beginning, "taken")
                    (self.folder / "made").unlink(missing_ok=True)
                    if old:
                        self.file(old, "made")
                    self.refuses(way, text.format(number))

    def test_traces(self):
        self.each(WRITE, BAD_IN_TRACES, number=1)
        self.each(WRITE, BAD_IN_TRACES, trace_of(CONTENTS[:2]), number=3)

    def test_captures(self):
        for order in "<>":
            self.each(READ, bad_in_captures(order), file_header(order), number=1)
            self.each(READ, bad_in_captures(order), capture_of(CONTENTS[:2], order), number=3)

    def test_headers_of_captures(self):
        for order in "<>":
            self.each(READ, bad_headers(order))
            # What is wrong in the header goes before what is wrong behind it.
            self.each(READ, {text: [octets + bytes(3) for octets in headers if len(octets) == 24]
                             for text, headers in bad_headers(order).items()})

    def test_what_comes_behind_changes_nothing(self):
        self.file(trace_header(1601) + bytes(1601) + trace_header(0, kind=2), "taken")
        self.refuses(WRITE, "record 1 says that its content is longer than 1,600 octets (51).")
        self.file(trace_header(0, kind=2) + trace_of(CONTENTS), "taken")
        self.refuses(WRITE, "record 1 is of a kind other than 1 (52).")
        self.file(file_header() + record_header(stored=1, original=2) + record_header(stored=1601), "taken")
        self.refuses(READ, "record 1 was not stored whole: its stored and its original length differ (76).")

    def test_each_takes_its_own_kind_of_file(self):
        # A capture begins with C3D4, over 1,600; four octets of a trace make no magic.
        self.file(READ.octets, "taken")
        self.refuses(WRITE, "record 1 says that its content is longer than 1,600 octets (51).")
        self.file(WRITE.octets, "taken")
        self.refuses(READ, next(text for text in bad_headers("<") if text.endswith("(71).")))

    def test_a_late_record(self):
        # Far more than is held at once, so that some has been written before the refusal.
        contents = list(contents_of((TRACES / "long.trace").read_bytes()))
        last = len(contents) + 1
        self.assertEqual(last, 20_001)
        self.file(trace_of(contents) + b"\x00", "taken")
        self.refuses(WRITE, f"record {last} is cut off: the trace ends inside its header (50).")
        self.file(capture_of(contents) + record_header(stored=5, original=5) + bytes(4), "taken")
        self.refuses(READ, f"record {last} is cut off: the capture ends inside its content (77).")

    def test_octets_without_an_end(self):
        self.refuses(WRITE, "record 1 is of a kind other than 1 (52).", taken="/dev/zero")
        self.refuses(READ, next(text for text in bad_headers("<") if text.endswith("(71).")), taken="/dev/zero")


class Words(Mmpcap):
    def test_wrong_words(self):
        self.file(WRITE.octets, "taken")
        before = self.all_files()
        for words in ((), ("write",), ("read",), ("write", "taken"), ("taken", "made"), ("write", "taken", "made", "more"),
                      ("write", "taken", "made", ""), ("copy", "taken", "made"), ("", "taken", "made"), ("Write", "taken", "made"),
                      ("writ", "taken", "made"), ("writes", "taken", "made"), ("reads", "taken", "made"), ("rea", "taken", "made"),
                      ("taken", "write", "made"), ("-", "taken", "made"), ("--help",), ("copy", "taken", "taken")):
            with self.subTest(words=words):
                self.assertEqual(self.said(*words), (b"", f"mmpcap: {USE}\n".encode()))
        self.assertEqual(self.all_files(), before)

    @both_ways
    def test_the_same_name(self, way):
        for name in ("taken", "missing", str(self.folder / "taken")):
            self.refuses(way, SAME, taken=name, made=name)

    @both_ways
    def test_names_that_are_nearly_the_same(self, way):
        for name in ("take", "takem", "taken.", "uaken", "Taken"):
            with self.subTest(name=name):
                self.makes(way, "taken", name)


class Names(Mmpcap):
    NAMES = ("row.trace", "two  words", "it's", 'a "b"', "$HOME", "--help", "-x", "--", "write", "é", "two\nlines", "a line\n",
             "a*b?", "back\\slash", "%s%n", " ")

    @both_ways
    def test_each_name(self, way):
        for name in self.NAMES:
            with self.subTest(name=name):
                self.makes(way, "taken", name)
                (self.folder / os.fsdecode(name)).write_bytes(way.octets)
                self.makes(way, name, "made")

    @both_ways
    def test_a_name_that_is_no_text(self, way):
        # The library that the programs stand on names files by UTF-8 text.
        name = b"\xff\xfe"
        self.refuses(way, NOT_BESIDE, made=name)
        (self.folder / os.fsdecode(name)).write_bytes(way.octets)
        self.refuses(way, UNOPENED, taken=name)

    @both_ways
    def test_folders(self, way):
        (self.folder / "sub").mkdir()
        for made in ("sub/made", "./made", "sub/../made", str(self.folder / "made")):
            with self.subTest(made=made):
                self.makes(way, "taken", made)
                self.makes(way, str(self.folder / "taken"), made)

    @both_ways
    def test_a_dash_is_standard_input(self, way):
        self.file(b"not this", "-")
        self.makes(way, "-", "made", stdin=inputs.piped([way.octets]))
        self.file(way.octets, "-")
        self.makes(way, "./-", "made", stdin=inputs.piped([b"not this"]))
        with open(self.folder / "taken", "rb") as file:
            self.makes(way, "-", "made", stdin=file)

    @both_ways
    def test_a_dash_is_the_name_of_what_is_made(self, way):
        self.makes(way, "taken", "-")
        # Standard input has no name, so that this is not one name twice.
        self.makes(way, "-", "-", stdin=inputs.piped([way.octets]))

    @both_ways
    def test_a_name_goes_before_standard_input(self, way):
        self.makes(way, "taken", "made", stdin=inputs.piped([b"not this"]))

    @both_ways
    def test_streams_that_are_not_needed(self, way):
        for redirection in ("<&-", ">&-", ">/dev/full", "<&- >&-"):
            with self.subTest(redirection=redirection):
                self.makes(way, "taken", "made", redirection=redirection)

    @both_ways
    def test_the_longest_names(self, way):
        # The file beside has six octets more, as in .part0.
        self.makes(way, "taken", "x" * 249)
        for length in (250, 255):
            self.refuses(way, NOT_BESIDE, made="x" * length)
            self.file(b"old", "x" * length)
            self.refuses(way, NOT_BESIDE, made="x" * length)
        self.file(way.octets, "y" * 255)
        self.makes(way, "y" * 255, "made")

    @both_ways
    def test_the_longest_paths(self, way):
        taken, made = "./" * 2044 + "//taken", "./" * 2042 + "/made"
        self.assertEqual((len(taken), len(made)), (4095, 4089))
        self.makes(way, taken, made)
        for more in range(1, 7):
            self.refuses(way, NOT_BESIDE, made="./" * 2042 + "/" * more + "/made")

    @both_ways
    def test_names_of_no_file(self, way):
        for name in ("missing", "", "taken/", "no folder/taken", "x" * 256, "./" * 2045 + "/taken", "x/" * 3000):
            with self.subTest(name=name[:20]):
                self.refuses(way, UNOPENED, taken=name)

    @both_ways
    def test_an_empty_name_for_what_is_made(self, way):
        # Any of these sentences will do, but no file may come of it.
        before = self.all_files()
        output, sentence = self.said(way.word, "taken", "")
        self.assertIn((output, sentence.decode()),
                      [(b"", f"mmpcap: {way.sentence(text)}\n") for text in (NOT_BESIDE, UNNAMED, OCCUPIED)])
        self.assertEqual(self.all_files(), before)


class Inputs(Mmpcap):
    @both_ways
    def test_pieces(self, way):
        for size in (2, 3, 5, 15, 23, 25, 1603, 1605, 1615, 1617):
            pieces = [way.octets[place:place + size] for place in range(0, len(way.octets), size)]
            with self.subTest(size=size):
                self.makes(way, "-", "made", stdin=inputs.in_pieces(pieces))

    @both_ways
    def test_single_octets(self, way):
        pieces = [way.octets[place:place + 1] for place in range(len(way.octets))]
        self.makes(way, "-", "made", stdin=inputs.in_pieces(pieces))
        self.makes(way, "-", "made", stdin=inputs.piped(pieces))

    @both_ways
    def test_a_named_pipe(self, way):
        os.mkfifo(self.folder / "pipe")
        # A daemon, as it would wait for ever for a program that does not open the pipe.
        threading.Thread(target=(self.folder / "pipe").write_bytes, args=[way.octets], daemon=True).start()
        self.makes(way, "pipe", "made")

    @both_ways
    def test_a_read_that_fails(self, way):
        # Between records, in a header and in a content: a file that is not there whole is neither good nor cut.
        for length in (0, 3, 23, len(way.octets) - 1601, len(way.octets) - 1, len(way.octets)):
            with self.subTest(length=length):
                self.refuses(way, UNREAD, taken="-", stdin=inputs.failing_behind(way.octets[:length]))

    def test_a_read_that_fails_late(self):
        octets = (TRACES / "long.trace").read_bytes()
        for way, given in ((WRITE, octets), (READ, capture_of(contents_of(octets)))):
            with self.subTest(way=way.word):
                self.refuses(way, UNREAD, taken="-", stdin=inputs.failing_behind(given))

    @both_ways
    def test_a_folder_or_a_closed_input(self, way):
        (self.folder / "folder").mkdir()
        self.refuses(way, UNREAD, taken="folder")
        self.refuses(way, UNREAD, taken="-", redirection="<folder")
        self.refuses(way, UNREAD, taken="-", redirection="<&-")

    @both_ways
    def test_a_socket_that_is_named(self, way):
        with socket.socket(socket.AF_UNIX) as listening:
            listening.bind(str(self.folder / "socket"))
            self.refuses(way, UNOPENED, taken="socket")

    @both_ways
    def test_a_terminal(self, way):
        try:
            keyboard, terminal = pty.openpty()
        except OSError:
            self.skipTest("this machine has no pseudo-terminals")
        with open(keyboard, "wb", buffering=0), open(terminal, "rb", buffering=0) as stream:
            self.refuses(way, TERMINAL, taken=os.ttyname(terminal))
            self.makes(way, "taken", "made", stdin=open(os.dup(terminal), "rb", buffering=0))
            self.refuses(way, TERMINAL, taken="-", stdin=stream)


class Occupied(Mmpcap):
    """Nothing but a file that may be written is replaced."""

    @both_ways
    def test_a_folder(self, way):
        (self.folder / "made").mkdir()
        (self.folder / "made" / "within").write_bytes(b"old")
        (self.folder / "empty").mkdir()
        for made in ("made", "made/", "empty", ".", ".."):
            with self.subTest(made=made):
                self.refuses(way, OCCUPIED, made=made)

    @both_ways
    def test_a_link(self, way):
        self.file(b"old", "elsewhere")
        (self.folder / "folder").mkdir()
        for place in ("elsewhere", "taken", "nowhere", "made", "folder"):
            (self.folder / "made").unlink(missing_ok=True)
            (self.folder / "made").symlink_to(place)
            with self.subTest(place=place):
                self.refuses(way, OCCUPIED)

    @both_ways
    def test_a_pipe(self, way):
        os.mkfifo(self.folder / "made")
        self.refuses(way, OCCUPIED)

    @both_ways
    def test_a_pipe_that_is_read(self, way):
        os.mkfifo(self.folder / "made")
        reader = os.open(self.folder / "made", os.O_RDONLY | os.O_NONBLOCK)
        self.addCleanup(os.close, reader)
        self.refuses(way, OCCUPIED)
        self.assertEqual(os.read(reader, 1), b"")

    @both_ways
    def test_a_socket(self, way):
        with socket.socket(socket.AF_UNIX) as listening:
            listening.bind(str(self.folder / "made"))
            self.refuses(way, OCCUPIED)

    @both_ways
    def test_a_device(self, way):
        try:
            # A null device of the test's own.
            os.mknod(self.folder / "made", stat.S_IFCHR | 0o666, os.makedev(1, 3))
        except PermissionError:
            self.skipTest("who runs this may make no device")
        self.refuses(way, OCCUPIED)


class Modes(Mmpcap):
    """mmpcap as one who is bound by the modes of files, as root is not."""

    def setUp(self):
        super().setUp()
        if os.geteuid() == 0:
            self.command = ["setpriv", "--bounding-set", "-dac_override,-dac_read_search", *COMMAND]
            # In a project of somebody else's, root that is bound may not reach the program.
            if not shutil.which("setpriv") or self.words_on_none() != f"mmpcap: {USE}\n".encode():
                self.skipTest("root is not bound by the modes of files, or cannot reach mmpcap where it is")

    def words_on_none(self):
        """What the command says that is given no words."""
        return subprocess.run(self.command, cwd=self.folder, capture_output=True, timeout=self.patience, check=False).stderr

    @both_ways
    def test_a_file_that_may_not_be_written(self, way):
        self.file(b"old", "made").chmod(0o444)
        self.refuses(way, OCCUPIED)

    @both_ways
    def test_a_folder_that_may_not_be_written_or_searched(self, way):
        (self.folder / "sub").mkdir()
        self.file(b"old", "sub/old")
        # Not to be written, and not to be searched: then nobody can tell what stands at a name there.
        for mode, made in itertools.product((0o555, 0o644), ("sub/made", "sub/old")):
            with self.subTest(mode=oct(mode), made=made):
                self.refuses(way, NOT_BESIDE, made=made, meanwhile=with_mode(self.folder / "sub", mode))

    @both_ways
    def test_a_file_that_may_not_be_read(self, way):
        closed = self.file(WRITE.octets, "closed")
        self.refuses(way, UNOPENED, taken="closed", meanwhile=with_mode(closed, 0o200))


class Beside(Mmpcap):
    """The file that is made beside the target, and renamed at the very end."""

    @both_ways
    def test_a_missing_folder(self, way):
        for made in ("missing/made", "missing/"):
            with self.subTest(made=made):
                self.refuses(way, NOT_BESIDE, made=made)

    @both_ways
    def test_leftovers_do_not_stand_in_the_way(self, way):
        # Of any kind, a link to nowhere among them; they are left as they are.
        self.file(b"left", "made.part0")
        (self.folder / "made.part1").symlink_to("nowhere")
        (self.folder / "made.part2").mkdir()
        os.mkfifo(self.folder / "made.part3")
        for number in range(4, 9):
            self.file(b"left", f"made.part{number}")
            before = self.all_files()
            self.makes(way, "taken", "made")
            self.assertEqual(self.all_files(), before)

    @both_ways
    def test_ten_leftovers_do(self, way):
        for number in range(10):
            self.file(b"left", f"made.part{number}")
        self.refuses(way, NOT_BESIDE)

    @both_ways
    def test_an_old_file_is_replaced_not_overwritten(self, way):
        old = self.file(b"old" * 10_000, "made")
        os.link(old, self.folder / "same")
        self.makes(way, "taken", "made")
        self.assertEqual((self.folder / "same").read_bytes(), b"old" * 10_000)

    @both_ways
    def test_the_mode(self, way):
        for umask, mode in ((0o022, 0o644), (0o077, 0o600), (0o002, 0o664), (0, 0o666)):
            with self.subTest(umask=umask):
                self.assertEqual(self.said(way.word, "taken", "made", umask=umask), (b"", b""))
                self.assertEqual(stat.S_IMODE((self.folder / "made").stat().st_mode), mode)
                (self.folder / "made").unlink()


class Going(Mmpcap):
    """mmpcap while it waits for more: then the file beside is there, and the target is as it was."""

    def waiting(self, way):
        """mmpcap, which has been given far more than it holds at once, and the event upon which its input ends."""
        octets = (TRACES / "long.trace").read_bytes()
        given, rest = threading.Event(), threading.Event()
        self.addCleanup(rest.set)

        def pieces():
            yield octets if way is WRITE else capture_of(contents_of(octets))
            given.set()
            rest.wait()

        process = self.begun(way.word, "-", "made", stdin=inputs.piped(pieces()))
        self.assertTrue(given.wait(self.patience), "mmpcap does not read on")
        self.assertTrue((self.folder / "made.part0").exists(), "no file was made beside the target")
        return process, rest

    def fails(self, way, process, rest, left):
        """With its input at an end mmpcap says that its file has no name, and leaves these names."""
        rest.set()
        self.assertEqual(self.ended(process), (b"", f"mmpcap: {way.sentence(UNNAMED)}\n".encode()))
        self.assertEqual(sorted(path.name for path in self.folder.iterdir()), left)

    @both_ways
    def test_the_target_is_as_it_was_until_the_end(self, way):
        self.file(b"old", "made")
        process, rest = self.waiting(way)
        self.assertEqual((self.folder / "made").read_bytes(), b"old")
        rest.set()
        self.assertEqual(self.ended(process), (b"", b""))
        self.assertGreater((self.folder / "made").stat().st_size, 1_000_000)
        self.assertEqual(sorted(path.name for path in self.folder.iterdir()), ["made", "taken"])

    @both_ways
    def test_a_folder_takes_the_name_meanwhile(self, way):
        process, rest = self.waiting(way)
        (self.folder / "made").mkdir()
        self.fails(way, process, rest, ["made", "taken"])
        (self.folder / "made").rmdir()

    @both_ways
    def test_the_file_beside_goes_away_meanwhile(self, way):
        process, rest = self.waiting(way)
        (self.folder / "made.part0").unlink()
        self.fails(way, process, rest, ["taken"])


class Full(Mmpcap):
    """A file that can grow no further, as on a full disk: the system tells a write so, where it need not signal it as well."""

    def limited(self, size):
        # Python ignores the signal, and hands that on where it is not told otherwise.
        return {"restore_signals": False, "preexec_fn": lambda: resource.setrlimit(resource.RLIMIT_FSIZE, (size, size))}

    @both_ways
    def test_any_octet_may_be_the_first_that_has_no_room(self, way):
        for size in (0, 1, 23, 24, 25, 100, len(way.result) - 1):
            with self.subTest(size=size):
                self.refuses(way, UNWRITTEN, **self.limited(size))
        self.makes(way, "taken", "made", **self.limited(len(way.result)))

    @both_ways
    def test_an_old_file_stays(self, way):
        self.file(b"old", "made")
        self.refuses(way, UNWRITTEN, **self.limited(100))

    def test_much_was_written_before(self):
        octets = (TRACES / "long.trace").read_bytes()
        for way, given in ((WRITE, octets), (READ, capture_of(contents_of(octets)))):
            with self.subTest(way=way.word):
                self.file(given, "taken")
                self.refuses(way, UNWRITTEN, **self.limited(1_000_000))


class Length(Mmpcap):
    TIMES = 80

    def fed(self, way, pieces):
        """The most memory that was taken with an input in these pieces, in KiB; the output is `made`."""
        output, most = running.fed([*COMMAND, way.word, "-", "made"], pieces, cwd=self.folder)
        self.assertEqual(output, b"")
        return most

    def made_of(self, first, piece, times):
        """Whether the file has the first octets and then a piece so many times, and no more."""
        with open(self.folder / "made", "rb") as file:
            return (file.read(len(first)) == first and all(file.read(len(piece)) == piece for _ in range(times)) and file.read(1) == b"")

    def test_memory_does_not_grow_with_the_file(self):
        trace = (TRACES / "long.trace").read_bytes()
        records = capture_of(contents_of(trace))[24:]
        self.assertGreater(self.TIMES * len(trace), 100_000_000)
        for way, (first, piece), result in ((WRITE, (b"", trace), (file_header(), records)),
                                            (READ, (file_header(), records), (b"", trace))):
            with self.subTest(way=way.word):
                small = self.fed(way, (first, piece))
                self.assertTrue(self.made_of(*result, 1))
                large = self.fed(way, itertools.chain([first], itertools.repeat(piece, self.TIMES)))
                self.assertTrue(self.made_of(*result, self.TIMES))
                self.assertLess(large, small + 1024)


if __name__ == "__main__":
    unittest.main()
