"""Captures made from traces, captures for eyes too, and traces read back from captures: document 02, request (vii).

    python3 tests/reference/mmpcap.py write row.trace row.pcap
    python3 tests/reference/mmpcap.py show row.trace row.eyes.pcap
    python3 tests/reference/mmpcap.py read row.pcap row.trace

makes the second file from the first, which may be - for standard input. Where the first is refused it makes nothing
and says one sentence, on standard error. What mmpcap does besides, so that a file is there whole or not at all, is not
played here.
"""

import os
import sys
from pathlib import Path

import captures
import trace

USAGE = ("a capture is made from a trace or read back, as in: mmpcap write row.trace row.pcap,"
         " or: mmpcap read row.pcap row.trace")

# What each word makes of what. Each is also the name of its call.
WORDS = {"write": ("trace", "capture"), "show": ("trace", "capture"), "read": ("capture", "trace")}

OF_A_RECORD = {
    trace.HEADER_CUT: "is cut off: the trace ends inside its header",
    trace.CONTENT_TOO_LONG: "says that its content is longer than 1,600 octets",
    trace.KIND_UNKNOWN: "is of a kind other than 1",
    trace.CONTENT_CUT: "is cut off: the trace ends inside it",
    captures.RECORD_HEADER_CUT: "is cut off: the capture ends inside its header",
    captures.STORED_TOO_LONG: "says that more than 1,600 octets of it are stored",
    captures.LENGTHS_DIFFER: "was not stored whole: its stored and its original length differ",
    captures.CONTENT_CUT: "is cut off: the capture ends inside its content",
}

OF_THE_FILE = {
    captures.FILE_HEADER_CUT: "the capture is cut off: it ends inside its header of 24 octets",
    captures.MAGIC_UNKNOWN: "this is no pcap file with times in microseconds:"
                            " it begins with A1B2C3D4 in neither byte order",
    captures.VERSION_UNKNOWN: "the capture's version is not 2.4",
    captures.LINK_TYPE_UNKNOWN: "the capture's link type is not 274, Ethernet mPackets",
}


def sentence(answer):
    """What is said of a refused trace or capture."""
    words = OF_THE_FILE.get(answer.number) or f"record {answer.value} {OF_A_RECORD[answer.number]}"
    return f"mmpcap: {words} ({answer.number}).\n"


def made(word, octets):
    """The octets that mmpcap makes of a trace or a capture, None where it makes no file; and then what it says."""
    # A file has room for all of it.
    answer = getattr(captures, word)(octets, sys.maxsize)
    return (answer.written, "") if answer.number == captures.GOOD else (None, sentence(answer))


def taken(name, what):
    """All octets of the first file."""
    try:
        source = 0 if name == "-" else os.open(name, os.O_RDONLY)
    except (OSError, ValueError):
        sys.exit(f"mmpcap: the {what} could not be opened.")
    if os.isatty(source):
        sys.exit(f"mmpcap: the {what} is a terminal; name a file, or give it on standard input.")
    try:
        with open(source, "rb") as stream:
            return stream.read()
    except OSError:
        sys.exit(f"mmpcap: the {what} could not be read.")


def run(words):
    """The command line."""
    if len(words) != 3 or words[0] not in WORDS:
        sys.exit(f"mmpcap: {USAGE}")
    word, source, target = words
    of_source, of_target = WORDS[word]
    # Standard input has no name: the second - is that of a file.
    if source == target and source != "-":
        sys.exit("mmpcap: the trace and the capture have the same name.")
    octets, said = made(word, taken(source, of_source))
    if said:
        sys.exit(said.rstrip("\n"))
    try:
        Path(target).write_bytes(octets)
    except (OSError, ValueError):
        sys.exit(f"mmpcap: the {of_target} could not be written.")


if __name__ == "__main__":
    run(sys.argv[1:])
