"""The octets of traces and captures, for the tests of mmpcap: document 01, "Trace", and document 02, request (vii).

A capture is a pcap file of link type 274. Its fields can be given what they should not be. A capture for eyes has other octets in each right mCRC.
"""

import struct
import zlib

MAGIC = 0xA1B2C3D4
MPACKETS = 274
MOST = 1600

# The two octets of the FCS that an mCRC has inverted: as it goes over the wire, and as the viewer expects it.
WIRE, EYES = (2, 3), (0, 1)
# The receiver's answers that say that an mCRC is right.
RIGHT_MCRC = (2, 3, 4)


def file_header(order="<", magic=MAGIC, version=(2, 4), zone=0, accuracy=0, snap=MOST, link=MPACKETS):
    return struct.pack(f"{order}IHHIIII", magic, *version, zone, accuracy, snap, link)


def record_header(order="<", times=(0, 0), stored=0, original=0):
    return struct.pack(f"{order}IIII", *times, stored, original)


def capture_of(contents, order="<", times=(0, 0), **fields):
    """A capture with these contents, and with these times in each record."""
    return file_header(order, **fields) + b"".join(
        record_header(order, times, len(content), len(content)) + content for content in contents)


def trace_header(length, kind=1):
    return struct.pack("<HH", length, kind)


def trace_of(contents):
    return b"".join(trace_header(len(content)) + content for content in contents)


def contents_of(trace):
    """The contents of a good trace."""
    at = 0
    while at < len(trace):
        length, _ = struct.unpack_from("<HH", trace, at)
        yield trace[at + 4:at + 4 + length]
        at += 4 + length


def check(octets, inverted=()):
    """The check octets of a frame's octets so far: the FCS, of which an mCRC has two inverted."""
    return bytes(octet ^ 0xFF if place in inverted else octet for place, octet in enumerate(struct.pack("<I", zlib.crc32(octets))))


def row(inverted):
    """V, R, and a photograph in three parts, into which a press breaks; in each mCRC these two octets of the FCS are inverted."""
    late, early = b"\x55" * 7, b"\x55" * 6
    nothing, press, photograph = bytes(60), bytes(range(60)), bytes(place * 5 % 256 for place in range(200))
    return [late + b"\x07" + nothing + check(nothing, inverted),
            late + b"\x19" + nothing + check(nothing, inverted),
            late + b"\xE6" + photograph[:60] + check(photograph[:60], inverted),
            late + b"\xD5" + press + check(press),
            early + b"\x61\xE6" + photograph[60:130] + check(photograph[:130], inverted),
            early + b"\x61\x4C" + photograph[130:] + check(photograph)]


def shown(contents, listing):
    """The contents of a trace as its capture for eyes has them, by its listing: document 01's mCRC and the viewer's differ in all four octets."""
    answers = [int(line.split()[1]) for line in listing.decode().splitlines()[1:-1]]
    return [content[:-4] + bytes(octet ^ 0xFF for octet in content[-4:]) if answer in RIGHT_MCRC else content
            for content, answer in zip(contents, answers, strict=True)]
