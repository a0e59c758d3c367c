"""Makes the stored captures and traces, and what mmpcap makes and says of them: document 02, request (vii).

    python3 tests/reference/captures_files.py            writes all files
    python3 tests/reference/captures_files.py --check    writes nothing, compares
"""

import sys

import mmpcap
import stored
import trace
import traces
from captures_questions import MODIFIED, NANOSECONDS, ORDERS, PCAPNG, file_header, record_header
from chance import Chance

SEED = 8074
LONG_RECORDS = 3_000

# What rt ci has mmpcap read: the capture of the row.
SAMPLE = "crates/mmpcap/data/sample.pcap"

# A capture of another maker: an hour east of Greenwich, microseconds, and the longest snap length that is usual.
ANOTHER_MAKER = {"zone": 3600, "accuracy": 6, "snap": 262_144}
ALL_BITS = {"zone": 2**32 - 1, "accuracy": 2**32 - 1, "snap": 2**32 - 1}


def header(order="little", **other):
    """The header of a file, as a rule little-endian; any number in it may be another."""
    return file_header(order, **other)


def record(content, order="little", stored_octets=None, original=None, times=(0, 0)):
    """A record; where its lengths are not named, they are those of the content that is there."""
    stored_octets = len(content) if stored_octets is None else stored_octets
    original = stored_octets if original is None else original
    return record_header(order, stored_octets, original, *times) + content


def some(count, most=40):
    """So many mFrames' octets, always the same."""
    chance = Chance(SEED + count)
    return [chance.octets(chance.below(most + 1)) for _ in range(count)]


def records(contents, order="little"):
    """Records whose times are 0."""
    return b"".join(record(content, order) for content in contents)


def capture(contents, order="little", **other):
    return header(order, **other) + records(contents, order)


def timed(contents, order, **other):
    """A capture with times as they are met: the seconds of a day in 2026, microseconds below a million."""
    chance = Chance(SEED)
    return header(order, **other) + b"".join(
        record(content, order, times=(1_794_844_800 + number, chance.below(1_000_000)))
        for number, content in enumerate(contents))


def every_kind_of_length():
    """Records about each length that may matter, from none to 1,600 octets."""
    chance = Chance(SEED + 1)
    return [chance.octets(length) for length in (0, 1, 2, 3, 4, 15, 16, 17, 0, 255, 256, 257, 1531, 1599, 1600, 0)]


def like_headers():
    """Content that looks like what stands around it, that begins as an mFrame does, and every octet."""
    return [header(), header("big"), record(b"abc"), record(b"abc", "big"), trace.written([b"abc"]),
            b"\x55" * 7 + b"\xD5", bytes(range(256)), bytes(16), b"\xFF" * 24]


def good_traces():
    """Traces that are written, and read back from what was written, by name."""
    return {
        "row": traces.row(),
        "empty": b"",
        "empty_record": trace.written([b""]),
        "lengths": trace.written(every_kind_of_length()),
        "like_headers": trace.written(like_headers()),
        "long": trace.written(some(LONG_RECORDS)),
    }


def other_captures():
    """Good captures that are not as they are written here, and are only read, by name."""
    any_times = header("big", **ALL_BITS) + b"".join(
        record(content, "big", times=(2**32 - 1, 2**32 - 1)) for content in some(7))
    return {
        "other_big": capture(some(6), "big"),
        "other_big_empty": header("big"),
        "other_big_lengths": timed(every_kind_of_length(), "big", **ANOTHER_MAKER),
        "other_big_like_headers": timed(like_headers(), "big", **ANOTHER_MAKER),
        "other_big_long": timed(some(LONG_RECORDS), "big", **ANOTHER_MAKER),
        "other_big_every_bit": any_times,
        "other_little": timed(some(6), "little", **ANOTHER_MAKER),
        "other_little_seconds": header() + record(b"abc", times=(1, 0)),
        "other_little_microseconds": header() + record(b"abc", times=(0, 2**32 - 1)),
        "other_snap_length_0": capture(some(3), snap=0),
        "other_snap_length_1": capture(some(3), snap=1),
        "other_snap_length_1601": capture(some(3), snap=1601),
    }


def captures_with_another_magic():
    """Captures whose header is cut, or has another magic, 70 and 71, by name. What is behind it is not looked at."""
    good, big = records(some(3)), records(some(3), "big")
    return {
        "file_header_missing": b"",
        "file_header_cut_3": header()[:3],
        "file_header_cut_4": header()[:4],
        "file_header_cut_23": header()[:23],
        "file_header_cut_23_big": header("big")[:23],
        "file_header_cut_nanoseconds": header(magic=NANOSECONDS)[:23],
        "file_header_cut_version_2_3": header(minor=3)[:23],
        "file_header_cut_link_type_1": header(link=1)[:23],
        "nanoseconds": header(magic=NANOSECONDS) + good,
        "nanoseconds_big": header("big", magic=NANOSECONDS) + big,
        "pcapng": header(magic=PCAPNG) + good,
        "older_magic": header(magic=MODIFIED) + good,
        "magic_front": header(magic=0xA0B2C3D4) + good,
        "magic_end": header(magic=0xA1B2C3D5) + good,
        "magic_one_octet": header("big", magic=0xA1000000) + big,
        "magic_one_octet_little": header(magic=0x000000D4) + good,
        "magic_in_pairs": header(magic=0xC3D4A1B2) + good,
        "magic_and_version": header(magic=NANOSECONDS, minor=3) + good,
        "magic_and_link_type": header(magic=NANOSECONDS, link=1) + good,
        "a_trace_as_a_capture": traces.row(),
    }


def captures_of_another_kind():
    """Captures with another version or link type, 72 and 73, by name. What is behind the header is not looked at."""
    good, big = records(some(3)), records(some(3), "big")
    return {
        "version_2_3": header(minor=3) + good,
        "version_2_5_big": header("big", minor=5) + big,
        "version_1_4": header(major=1) + good,
        "version_3_4_big": header("big", major=3) + big,
        "version_4_2": header(major=4, minor=2) + good,
        "version_high_octets": header(major=0x0102, minor=0x8004) + good,
        "version_high_bits": header(major=0x8002, minor=0x8004) + good,
        "version_other_order": header(major=0x0200, minor=0x0400) + good,
        "version_other_order_big": header("big", major=0x0200, minor=0x0400) + big,
        "version_and_link_type": header(minor=3, link=1) + good,
        "link_type_1": header(link=1) + good,
        "link_type_273_big": header("big", link=273) + big,
        "link_type_275": header(link=275) + good,
        "link_type_18": header(link=18) + good,
        "link_type_other_order": header(link=0x12010000) + good,
        "link_type_other_order_big": header("big", link=0x12010000) + big,
        "link_type_high_half": header(link=274 << 16) + good,
        "link_type_and_cut_record": header(link=1) + good + b"\x00",
        **{f"link_type_bit_{bit}": header(ORDERS[bit % 2], link=274 + 2**bit) + (good, big)[bit % 2]
           for bit in (9, 10, 16, 24, 26, 28, 31)},
    }


def captures_with_another_length():
    """Captures with a record that says too much, or was not stored whole, 75 and 76, by name."""
    good, big = capture(some(3)), capture(some(3), "big")
    too_long = Chance(SEED + 2).octets(1601)
    return {
        "stored_1601": good + record(too_long) + record(b"abc"),
        "stored_1601_big": big + record(too_long, "big") + b"\x00",
        "stored_1601_of_1600_cut": good + record(b"abc", stored_octets=1601, original=1600),
        "stored_2048_cut": good + record(b"abc", stored_octets=2048),
        "stored_65539": good + record(b"abc", stored_octets=2**16 + 3),
        "stored_2_24_big": big + record(b"abc", "big", 2**24 + 3),
        "stored_2_31_big": big + record(b"abc", "big", 2**31 + 3),
        "stored_greatest": good + record(b"abc", stored_octets=2**32 - 1),
        "stored_other_order": good + record(b"abc", "big"),
        "stored_other_order_big": big + record(b"abc", "little"),
        "original_more": good + record(b"abc", original=4) + record(b"abc"),
        "original_less_big": big + record(b"abc", "big", original=2) + record(b"abc", "big"),
        "original_0": good + record(b"abc", original=0),
        "original_1601_of_none": good + record(b"", original=1601),
        "original_other_order_big": big + record(b"", "big") + record(b"abc", "big", original=3 << 24),
        **{f"original_bit_{bit}": good + record(b"abc", original=3 + 2**bit) for bit in (8, 11, 16, 24, 31)},
        # The first record that is refused decides.
        "original_before_stored": good + record(b"abc", original=4) + record(b"abc", stored_octets=1601),
        "original_before_cut_header": big + record(b"abc", "big", original=4) + b"\x00",
        # 76 comes before 77.
        "original_and_cut": good + record(b"ab", stored_octets=3, original=4),
    }


def cut_captures():
    """Captures that end inside a record, 74 and 77, by name."""
    good, big = capture(some(3)), capture(some(3), "big")
    return {
        **{f"record_header_cut_{there}": good + record(b"abc")[:there] for there in (1, 8, 11, 12, 15)},
        "record_header_cut_15_big": big + record(b"abc", "big")[:15],
        "record_header_cut_first": header() + record(b"abc")[:7],
        # No lengths are there: whatever they begin with, there is nothing else to say.
        "record_header_cut_greatest": good + b"\xFF" * 15,
        "content_cut_by_one": good + record(b"ab", stored_octets=3),
        "content_cut_by_one_big": big + record(b"", "big") + record(b"ab", "big", 3),
        "content_cut_all": good + record(b"", stored_octets=1),
        "content_cut_1600": good + record(bytes(1599), stored_octets=1600),
        "long_cut": capture(some(LONG_RECORDS)) + record(b"ab", stored_octets=3),
    }


def refused_captures():
    return {**captures_with_another_magic(), **captures_of_another_kind(), **captures_with_another_length(),
            **cut_captures()}


def refused_traces():
    """Traces that are refused, 50 to 53, by name. What is behind is not looked at."""
    good, behind = trace.written(some(3)), trace.written([b"abc"])

    def record_of(length, kind, there):
        return good + trace.HEADER.pack(length, kind) + bytes(range(1, there + 1))

    return {
        "trace_header_cut_1": good + b"\x03",
        "trace_header_cut_3": good + b"\xFF\xFF\xFF",
        "trace_header_cut_first": b"\x41\x06",
        "trace_length_1601": good + trace.HEADER.pack(1601, 1) + bytes(1601) + behind,
        "trace_length_1601_kind_2": record_of(1601, 2, 3),
        "trace_length_32771": record_of(2**15 + 3, 1, 3),
        "trace_length_then_cut": good + trace.HEADER.pack(1601, 1) + bytes(1601) + b"\x00",
        **{f"trace_kind_{kind}": record_of(3, kind, 3) + behind for kind in (0, 2, 3, 256, 257, 2**15 + 1)},
        # 52 comes before 53, and a record before the next.
        "trace_kind_2_cut": record_of(3, 2, 2),
        "trace_kind_before_length": record_of(0, 2, 0) + trace.HEADER.pack(1601, 1),
        "trace_content_cut_by_one": record_of(3, 1, 2),
        "trace_content_cut_all": record_of(1, 1, 0),
        "trace_content_cut_1600": good + trace.HEADER.pack(1600, 1) + bytes(1599),
        "a_capture_as_a_trace": capture(some(3)),
        # A record's number of more than two octets.
        "trace_record_65537": trace.written([b""] * 65_536) + b"\x00",
    }


def file(name, ending, octets):
    return stored.StoredFile(f"tests/captures/{name}.{ending}", octets, is_text=ending == "said")


def converted(word, name, octets, of_source, of_target):
    """A file that is given to mmpcap, and what it makes of it or says of it."""
    output, sentence = mmpcap.made(word, octets)
    made = file(name, of_target, output) if output is not None else file(name, "said", sentence.encode("ascii"))
    return [file(name, of_source, octets), made]


def files():
    made = []
    for name, octets in {**good_traces(), **refused_traces()}.items():
        made += converted("write", name, octets, "trace", "pcap")
    for name, octets in {**other_captures(), **refused_captures()}.items():
        made += converted("read", name, octets, "pcap", "trace")
    sample, _ = mmpcap.made("write", traces.row())
    return [*made, stored.StoredFile(SAMPLE, sample, is_text=False)]


if __name__ == "__main__":
    sys.exit(stored.run(files(), sys.argv[1:]))
