"""mmpcap, and the viewer's own tools, as the tests call them. mmpcap must be built (scripts/prove mmpcap)."""

import io
import os
import subprocess
import tempfile
import unittest
import xml.etree.ElementTree as ElementTree
from dataclasses import dataclass
from pathlib import Path

ROOT = Path(__file__).resolve().parents[2]
# Without a home nobody's own settings change what the viewer shows.
SURROUNDINGS = {**os.environ, "HOME": "/nonexistent", "XDG_CONFIG_HOME": "/nonexistent", "LC_ALL": "C.UTF-8"}
EDITCAP = ["editcap"]
# editcap of a big-endian machine, where tests/viewer/run has unpacked one.
UNPACKED = os.environ.get("SEATPORT_BIG_ENDIAN")
BIG_ENDIAN_EDITCAP = UNPACKED and ["qemu-s390x", "-L", UNPACKED, f"{UNPACKED}/usr/bin/editcap"]

# The viewer goes through a file once when it opens it, and shows a record with what it then knows of later ones; so tshark does with -2. Without, it
# lists a record before it reads the next.
TWO_PASSES, ONE_PASS = ("-2",), ()

# What stands around an mFrame's own layers: the record as such, and octets that were not taken apart.
NO_LAYERS = ("geninfo", "frame", "fake-field-wrapper")


@dataclass(frozen=True)
class Shown:
    """A record in the viewer's words: its line in the list, the layers it was taken apart into, and what is said of the preemption header."""

    line: str
    layers: tuple
    preamble: str | None
    delimiter: str | None
    fragment_count: str | None
    check: str | None
    put_together: str | None
    # Header, data and check octets.
    pieces: tuple
    # Of a frame that was put together here: the numbers of its records, and its octets.
    records: tuple
    octets: bytes


def asked(*command):
    """What a tool of the viewer writes."""
    done = subprocess.run(command, env=SURROUNDINGS, stdin=subprocess.DEVNULL, capture_output=True, timeout=600, check=False)
    if done.returncode != 0:
        raise AssertionError(f"{command} ended with {done.returncode}: {done.stderr.decode()}")
    return done.stdout


def about(capture):
    """What capinfos says of a file, line by line: its type, its encapsulation, the most octets kept of a record, the number of records."""
    said = asked("capinfos", "-M", "-t", "-E", "-l", "-c", capture).decode().splitlines()
    return [" ".join(line.split()) for line in said if not line.startswith("File name:")]


def in_full(capture):
    """All that tshark says of all records, as one text."""
    return asked("tshark", "-n", "-r", capture, "-V").decode()


def lines_of(capture, column, passes):
    """The list, line by line: the usual columns, or one by its letters."""
    chosen = ("-o", f'gui.column.format:"Column","%{column}"') if column else ()
    return asked("tshark", *passes, "-n", "-r", capture, *chosen).decode().split("\n")[:-1]


def listed(capture, column=None, passes=TWO_PASSES):
    """The same with blanks left out."""
    return [" ".join(line.split()) for line in lines_of(capture, column, passes)]


def shown(capture, passes=ONE_PASS):
    """Every record of a capture, as tshark shows it."""
    tree = io.BytesIO(asked("tshark", *passes, "-n", "-r", capture, "-T", "pdml", "-J", "fpp"))
    packets = [taken_from(packet) for _, packet in ElementTree.iterparse(tree) if packet.tag == "packet"]
    return [Shown(line.strip(), *packet) for line, packet in zip(lines_of(capture, "i", passes), packets, strict=True)]


def found(capture, expression):
    """The numbers of the records that a display filter of the viewer finds."""
    return [int(number) for number in asked("tshark", *TWO_PASSES, "-n", "-r", capture, "-Y", expression, "-T", "fields",
                                            "-e", "frame.number").split()]


def taken_from(packet):
    """All of a record but its line."""
    layers = tuple(layer.get("name") for layer in packet if layer.get("name") not in NO_LAYERS)
    fields = {field.get("name"): field for field in packet.iterfind("proto[@name='fpp']//field")}
    # The same four octets are named by what they are taken for.
    check = "fpp.crc32" if "fpp.crc32" in fields else "fpp.mcrc32"
    words = [fields[name].get("showname") if name in fields else None for name in
             ("fpp.preamble", "fpp.preamble.smd", "fpp.preamble.frag_count", check, "fpp.fragments")]
    pieces = tuple(octets_of(fields[name]) for name in ("fpp.preamble", "fpp.mdata", check) if name in fields)
    parts = list(packet.iterfind("proto[@name='fpp']//field[@name='fpp.fragment']"))
    records, octets = tuple(int(part.get("show")) for part in parts), b"".join(map(octets_of, parts))
    packet.clear()
    return layers, *words, pieces, records, octets


def octets_of(field):
    return bytes.fromhex(field.get("value", ""))


class Captures(unittest.TestCase):
    """A folder for traces and captures, and mmpcap to make the one of the other."""

    def setUp(self):
        room = tempfile.TemporaryDirectory()
        self.addCleanup(room.cleanup)
        self.folder = Path(room.name)

    def said(self, word, source, target):
        """What mmpcap says on standard error; its status must be 1 exactly where it says anything. It writes nothing else."""
        done = subprocess.run([str(ROOT / "scripts" / "run-program"), "mmpcap", word, source, target], stdin=subprocess.DEVNULL,
                              capture_output=True, timeout=600, check=False)
        self.assertEqual((done.returncode, done.stdout), (1 if done.stderr else 0, b""))
        return done.stderr.decode()

    def captured(self, octets):
        """The plain capture that mmpcap makes of a trace."""
        return self.made_of(octets, "write", "row.pcap")

    def for_eyes(self, octets):
        """The capture for eyes that mmpcap makes of a trace."""
        return self.made_of(octets, "show", "row.eyes.pcap")

    def made_of(self, octets, word, name):
        source, capture = self.folder / "row.trace", self.folder / name
        source.write_bytes(octets)
        self.assertEqual(self.said(word, source, capture), "")
        return capture

    def read(self, capture):
        """The trace that mmpcap makes of a capture."""
        target = self.folder / "read.trace"
        self.assertEqual(self.said("read", capture, target), "")
        return target.read_bytes()

    def edited(self, editcap, *options, source, name="edited.pcap"):
        """A file that editcap makes of a capture."""
        made = self.folder / name
        asked(*editcap, *options, source, made)
        return made
