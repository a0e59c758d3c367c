"""Readers and writers of captures that are wrong in one rule of document 02's request (vii) each.

Each is a patch of captures.py, or of trace.py where a trace is written as a capture. Tests, stored questions and stored
captures must tell every one of them from the right one, and where it writes from a trace also as a capture for eyes.
"""

import io
from contextlib import ExitStack
from itertools import islice, permutations
from unittest import mock

import captures
import trace
from captures import ORIGINAL, STORED, Answer, Piece

RIGHT = {name: getattr(captures, name) for name in (
    "FILE", "RECORD", "ORDERS", "pieces", "refused_capture", "refused_trace", "put_out", "record_of", "capture_of",
    "trace_of", "capture_for_eyes", "read", "write", "show")}
LITTLE, BIG = RIGHT["ORDERS"]
NANOSECONDS = {b"\x4D\x3C\xB2\xA1": "little", b"\xA1\xB2\x3C\x4D": "big"}


def replaced(name, wrong):
    return lambda: mock.patch.object(captures, name, wrong)


def any_order_of(capture):
    """The order of a capture that a wrong test let pass: big-endian where one octet of the magic speaks for it."""
    return captures.ORDERS.get(capture[captures.MAGIC], "big" if capture[:1] == b"\xA1" else "little")


class Wrong:
    """A patch with which any capture can be read that the patched tests let pass."""

    def __init__(self, *patches):
        # An order that the patch has in mind itself is laid over the other one.
        self.patches = (replaced("order_of", any_order_of), *patches)
        self.open = ExitStack()

    def __enter__(self):
        for patch in self.patches:
            self.open.enter_context(patch())

    def __exit__(self, *_):
        self.open.close()


def wrong_ones(patches):
    return {name: (lambda patch=patch: Wrong(patch)) for name, patch in patches.items()}


def testing(tests, number, test):
    """Another test in the place of the one with this number."""
    return replaced(tests, tuple((other, test if other == number else right) for other, right in RIGHT[tests]))


def testing_also(tests, number, test):
    """One test more, behind the others."""
    return replaced(tests, (*RIGHT[tests], (number, test)))


def in_other_orders(tests):
    """The same tests in every other order."""
    return {"tests in the order " + ", ".join(str(number) for number, _ in order): replaced(tests, order)
            for order in permutations(RIGHT[tests]) if order != RIGHT[tests]}


def number_at(place, octets=4):
    """A number of a capture's header, as its magic has the order."""
    return lambda capture: captures.number_in(capture, slice(place, place + octets), captures.order_of(capture))


MAJOR, MINOR, LINK_TYPE = number_at(4, 2), number_at(6, 2), number_at(20)
ZONE, ACCURACY, SNAP_LENGTH = number_at(8), number_at(12), number_at(16)


def always(order):
    return lambda _capture: order


def version_unless(good):
    return testing("FILE", 72, lambda capture: not good(MAJOR(capture), MINOR(capture)))


def link_type_unless(good):
    return testing("FILE", 73, lambda capture: not good(LINK_TYPE(capture)))


def in_one_order(tests, order):
    """These tests of the header read their numbers in one order, whatever the magic."""
    def wrong(test):
        def told(capture):
            with mock.patch.object(captures, "order_of", always(order)):
                return test(capture)
        return told
    return replaced("FILE", tuple((number, wrong(test) if number in tests else test) for number, test in RIGHT["FILE"]))


# Wrong in the file's header.
HEADERS = wrong_ones({
    **in_other_orders("FILE"),
    "23 octets are a header": testing("FILE", 70, lambda capture: len(capture) < 23),
    "24 octets are no header": testing("FILE", 70, lambda capture: len(capture) <= 24),
    "a header is cut only in its magic": testing("FILE", 70, lambda capture: len(capture) < 4),
    "a header is cut only behind its magic": testing("FILE", 70, lambda capture: 4 <= len(capture) < 24),
    "no octets are no header to be cut": testing("FILE", 70, lambda capture: 0 < len(capture) < 24),
    "a capture must have a record": testing("FILE", 70, lambda capture: len(capture) < 40),
    "no header is cut": testing("FILE", 70, lambda _: False),
    "little-endian only": replaced("ORDERS", {LITTLE: "little"}),
    "big-endian only": replaced("ORDERS", {BIG: "big"}),
    "the orders exchanged": replaced("ORDERS", {LITTLE: "big", BIG: "little"}),
    "all is little-endian": replaced("order_of", always("little")),
    "all is big-endian": replaced("order_of", always("big")),
    "nanoseconds are taken": replaced("ORDERS", {**RIGHT["ORDERS"], **NANOSECONDS}),
    "nanoseconds are taken, little-endian": replaced("ORDERS", {**RIGHT["ORDERS"], b"\x4D\x3C\xB2\xA1": "little"}),
    "the older magic is taken": replaced("ORDERS", {**RIGHT["ORDERS"], b"\x34\xCD\xB2\xA1": "little"}),
    "pcapng is taken": replaced("ORDERS", {**RIGHT["ORDERS"], b"\x0A\x0D\x0D\x0A": "little"}),
    "the magic's octets in pairs": replaced("ORDERS", {**RIGHT["ORDERS"], b"\xB2\xA1\xD4\xC3": "little"}),
    "the magic's octets in any order": testing("FILE", 71, lambda capture: sorted(capture[:4]) != sorted(BIG)),
    "the front of the magic counts": testing("FILE", 71, lambda capture: capture[:2] not in (LITTLE[:2], BIG[:2])),
    "the end of the magic counts": testing("FILE", 71, lambda capture: capture[2:4] not in (LITTLE[2:], BIG[2:])),
    "an octet of the magic counts": testing("FILE", 71, lambda capture: capture[:1] not in (LITTLE[:1], BIG[:1])),
    "no magic is looked at": testing("FILE", 71, lambda _: False),
    "the minor version is not looked at": version_unless(lambda major, minor: major == 2),
    "the major version is not looked at": version_unless(lambda major, minor: minor == 4),
    "no version is looked at": version_unless(lambda major, minor: True),
    "a later minor version is taken": version_unless(lambda major, minor: major == 2 and minor >= 4),
    "an earlier minor version is taken": version_unless(lambda major, minor: major == 2 and minor <= 4),
    "a later version is taken": version_unless(lambda major, minor: (major, minor) >= (2, 4)),
    "an earlier version is taken": version_unless(lambda major, minor: (major, minor) <= (2, 4)),
    "the minor version stands first": version_unless(lambda major, minor: (major, minor) == (4, 2)),
    "the version in the other order": version_unless(lambda major, minor: (major, minor) in ((2, 4), (0x200, 0x400))),
    "the low octets of the version count": version_unless(lambda major, minor: (major % 256, minor % 256) == (2, 4)),
    "fifteen bits of the version count": version_unless(lambda major, minor: (major % 2**15, minor % 2**15) == (2, 4)),
    "the version is little-endian": in_one_order((72,), "little"),
    "the version is big-endian": in_one_order((72,), "big"),
    **{f"{bits} bits of the link type count": link_type_unless(lambda link, bits=bits: link % 2**bits == 274)
       for bits in (9, 10, 16, 24, 26, 28, 31)},
    "the low octet of the link type counts": link_type_unless(lambda link: link % 256 == 18),
    "the low half of the link type is not looked at": link_type_unless(lambda link: link // 2**16 == 0),
    "the high half of the link type may have it": link_type_unless(lambda link: 274 in (link, link // 2**16)),
    "plain Ethernet is taken": link_type_unless(lambda link: link in (1, 274)),
    "any link type up to 274": link_type_unless(lambda link: link <= 274),
    "any link type from 274 on": link_type_unless(lambda link: link >= 274),
    "no link type is looked at": link_type_unless(lambda link: True),
    "link type 273": link_type_unless(lambda link: link == 273),
    "the link type in either order": link_type_unless(lambda link: link in (274, 0x12010000)),
    "the link type is little-endian": in_one_order((73,), "little"),
    "the link type is big-endian": in_one_order((73,), "big"),
    "the snap length must be 1,600": testing_also("FILE", 73, lambda capture: SNAP_LENGTH(capture) != 1600),
    "the snap length must be 1,600 at least": testing_also("FILE", 73, lambda capture: SNAP_LENGTH(capture) < 1600),
    "the snap length must be 1,600 at most": testing_also("FILE", 73, lambda capture: SNAP_LENGTH(capture) > 1600),
    "the snap length must not be 0": testing_also("FILE", 73, lambda capture: SNAP_LENGTH(capture) == 0),
    "the time zone must be 0": testing_also("FILE", 73, lambda capture: ZONE(capture) != 0),
    "the accuracy must be 0": testing_also("FILE", 73, lambda capture: ACCURACY(capture) != 0),
})


def record_unless(number, good):
    return testing("RECORD", number, lambda piece: not good(piece))


def with_lengths(change):
    """The records of a capture, their two lengths changed before they are looked at."""
    def pieces(capture):
        order = captures.order_of(capture)
        rest = io.BytesIO(capture[24:])
        while header := rest.read(16):
            stored, original = change(header[STORED], header[ORIGINAL], order)
            yield Piece(header, stored, original, rest.read(stored))
    return replaced("pieces", pieces)


def in_bits(bits):
    return with_lengths(lambda stored, original, order: (int.from_bytes(stored, order) % 2**bits,
                                                         int.from_bytes(original, order) % 2**bits))


def without_cut_headers(capture):
    """What is less than a header is taken for the capture's end."""
    return (piece for piece in RIGHT["pieces"](capture) if len(piece.header) == 16)


def with_one_more(capture):
    """Where nothing is left, another record is looked for."""
    yield from RIGHT["pieces"](capture)
    yield Piece(b"", 0, 0, b"")


def until_an_empty_one(capture):
    """A record of no content is taken for the capture's end."""
    for piece in RIGHT["pieces"](capture):
        if piece.stored == 0:
            return
        yield piece


def bounded_by_the_snap_length(capture):
    """A record may be as long as the capture's own snap length says."""
    answer = RIGHT["refused_capture"](capture)
    if answer is not None:
        return answer
    for place, piece in enumerate(RIGHT["pieces"](capture), start=1):
        if piece.stored > SNAP_LENGTH(capture):
            return Answer(75, place)
    return None


def number_by_number(capture):
    """The least number that any record is refused with, instead of the first record that is refused."""
    right = RIGHT["refused_capture"](capture)
    if right is None or right.value == 0:
        return right
    found = [Answer(number, place) for number, fails in RIGHT["RECORD"]
             for place, piece in enumerate(RIGHT["pieces"](capture), start=1)
             if fails(piece) and (number == 74 or len(piece.header) == 16)]
    return found[0]


def told_as(refused, change):
    """The number that is told of a refused record, changed."""
    def wrong(given):
        answer = RIGHT[refused](given)
        return answer and Answer(answer.number, change(answer))
    return replaced(refused, wrong)


def numbered(refused):
    """Wrong in which record they tell."""
    return {
        "records counted from 0": told_as(refused, lambda answer: max(0, answer.value - 1)),
        "the file's header counted as a record": told_as(refused, lambda answer: answer.value + 1),
        "one octet of a record's number": told_as(refused, lambda answer: answer.value % 256),
        "no record's number": told_as(refused, lambda answer: 0),
    }


# Wrong in the records of a capture.
RECORDS = wrong_ones({
    **in_other_orders("RECORD"),
    **{f"{octets} octets are a record's header": record_unless(
        74, lambda piece, octets=octets: len(piece.header) >= octets) for octets in (1, 8, 12, 15)},
    "16 octets are no record's header": testing("RECORD", 74, lambda piece: len(piece.header) <= 16),
    "a cut header is the end": replaced("pieces", without_cut_headers),
    "the end is a cut header": replaced("pieces", with_one_more),
    "an empty record is the end": replaced("pieces", until_an_empty_one),
    "an empty record is refused": record_unless(75, lambda piece: 0 < piece.stored <= 1600),
    **{f"{most} octets at most": record_unless(75, lambda piece, most=most: piece.stored <= most)
       for most in (1518, 1531, 1599, 1601, 65_535)},
    "any length": record_unless(75, lambda piece: True),
    "the snap length is the most": replaced("refused_capture", bounded_by_the_snap_length),
    "the original length must not be over 1,600": record_unless(75, lambda piece: piece.original <= 1600),
    "neither length must be over 1,600": record_unless(75, lambda piece: max(piece.stored, piece.original) <= 1600),
    **{f"{bits} bits of a length count": in_bits(bits) for bits in (8, 11, 16, 24, 31)},
    **{f"{bits} bits of a length count when it is too great": record_unless(
        75, lambda piece, bits=bits: piece.stored % 2**bits <= 1600) for bits in (16, 24, 31)},
    "a length from 2^31 on is below 0": record_unless(75, lambda piece: piece.stored <= 1600 or piece.stored >= 2**31),
    "more may have been there than is stored": record_unless(76, lambda piece: piece.stored <= piece.original),
    "less may have been there than is stored": record_unless(76, lambda piece: piece.stored >= piece.original),
    "lengths may differ": record_unless(76, lambda piece: True),
    "an original length of 0 is none": record_unless(76, lambda piece: piece.original in (0, piece.stored)),
    **{f"lengths may differ in bits from {bits} on": record_unless(
        76, lambda piece, bits=bits: (piece.stored - piece.original) % 2**bits == 0) for bits in (8, 16, 24, 31)},
    "content may be cut": record_unless(77, lambda piece: True),
    "an octet of content may be missing": record_unless(77, lambda piece: len(piece.content) >= piece.stored - 1),
    "content of no octets is cut": record_unless(77, lambda piece: len(piece.content) >= max(1, piece.stored)),
    "lengths are little-endian": with_lengths(
        lambda *lengths_and_order: [int.from_bytes(octets, "little") for octets in lengths_and_order[:2]]),
    "lengths are big-endian": with_lengths(
        lambda *lengths_and_order: [int.from_bytes(octets, "big") for octets in lengths_and_order[:2]]),
    "the original length is little-endian": with_lengths(
        lambda stored, original, order: (int.from_bytes(stored, order), int.from_bytes(original, "little"))),
    "the stored length is little-endian": with_lengths(
        lambda stored, original, order: (int.from_bytes(stored, "little"), int.from_bytes(original, order))),
    "the original length stands first": with_lengths(
        lambda stored, original, order: (int.from_bytes(original, order), int.from_bytes(stored, order))),
    "the times must be 0": testing_also("RECORD", 77, lambda piece: any(piece.header[:8])),
    "the seconds must be 0": testing_also("RECORD", 77, lambda piece: any(piece.header[:4])),
    "microseconds are less than a million": testing_also("RECORD", 77, lambda piece: min(
        int.from_bytes(piece.header[4:8], order) for order in ("little", "big")) >= 1_000_000),
    "number by number": replaced("refused_capture", number_by_number),
    **numbered("refused_capture"),
})


def read_as(record):
    """A record of the trace that is read, laid out otherwise."""
    return replaced("trace_of", lambda capture: b"".join(record(piece.content) for piece in captures.pieces(capture)))


# Wrong in what they read.
TRACES = wrong_ones({
    "kind 0": read_as(lambda content: len(content).to_bytes(2, "little") + b"\x00\x00" + content),
    "a big-endian kind": read_as(lambda content: len(content).to_bytes(2, "little") + b"\x00\x01" + content),
    "a big-endian length": read_as(lambda content: len(content).to_bytes(2, "big") + b"\x01\x00" + content),
    "the kind first": read_as(lambda content: b"\x01\x00" + len(content).to_bytes(2, "little") + content),
    "lengths of four octets": read_as(lambda content: len(content).to_bytes(4, "little") + content),
    "the length counts the header": read_as(
        lambda content: (len(content) + 4).to_bytes(2, "little") + b"\x01\x00" + content),
    "one octet of a length": read_as(lambda content: bytes([len(content) % 256, 0, 1, 0]) + content),
    "empty records left out": read_as(lambda content: trace.written([content] if content else [])),
    "without the preamble": read_as(lambda content: trace.written([content.lstrip(b"\x55")])),
    "the first record alone": replaced("trace_of", lambda capture: trace.written(
        piece.content for piece in islice(captures.pieces(capture), 1))),
    "in the reverse order": replaced("trace_of", lambda capture: trace.written(
        [piece.content for piece in captures.pieces(capture)][::-1])),
})


# What a record of a trace is tested for, as a table: header, length, kind and content.
TRACE_TESTS = {
    50: lambda header, _length, _kind, _content: len(header) < 4,
    51: lambda _header, length, _kind, _content: length > 1600,
    52: lambda _header, _length, kind, _content: kind != 1,
    53: lambda _header, length, _kind, content: len(content) < length,
}


def judged_by(tests):
    """Traces whose records are judged by these tests, in their order."""
    def record_at(octets, place):
        header = octets[place:place + 4]
        length, kind = int.from_bytes(header[:2], "little"), int.from_bytes(header[2:], "little")
        content = octets[place + 4:place + 4 + length]
        for number, fails in tests.items():
            if fails(header, length, kind, content):
                return trace.Refused(number), None
        return trace.Record(content), place + 4 + length
    return lambda: mock.patch.object(trace, "record_at", record_at)


def judging(number, good):
    """Another test in the place of the one with this number; it is given length, kind and content."""
    return judged_by({**TRACE_TESTS, number: lambda _header, *rest: not good(*rest)})


def without_a_cut_header():
    """What is less than a header is taken for the trace's end."""
    right = trace.records
    return mock.patch.object(trace, "records", lambda octets: (
        record for record in right(octets) if record != trace.Refused(50)))


# Wrong in the records of a trace that is to be written.
WRITERS = {
    **{"tests in the order " + ", ".join(map(str, order)): judged_by({number: TRACE_TESTS[number] for number in order})
       for order in permutations(TRACE_TESTS) if order != tuple(TRACE_TESTS)},
    "a cut header is the end": without_a_cut_header,
    "two octets are a header": judged_by({**TRACE_TESTS, 50: lambda header, *_: len(header) < 2}),
    **{f"{most} octets at most": judging(51, lambda length, _kind, _content, most=most: length <= most)
       for most in (1531, 1599, 1601)},
    "any length": judging(51, lambda *_: True),
    "fifteen bits of the length count": judging(51, lambda length, _kind, _content: length % 2**15 <= 1600),
    "an empty record is refused": judging(51, lambda length, _kind, _content: 0 < length <= 1600),
    "the low octet of the kind counts": judging(52, lambda _length, kind, _content: kind % 256 == 1),
    "fifteen bits of the kind count": judging(52, lambda _length, kind, _content: kind % 2**15 == 1),
    "a big-endian kind": judging(52, lambda _length, kind, _content: kind == 256),
    "kind 0 is taken": judging(52, lambda _length, kind, _content: kind <= 1),
    "kind 2 is taken": judging(52, lambda _length, kind, _content: kind in (1, 2)),
    "an odd kind is taken": judging(52, lambda _length, kind, _content: kind % 2 == 1),
    "any kind": judging(52, lambda *_: True),
    "content may be cut": judging(53, lambda *_: True),
    "an octet of content may be missing": judging(53, lambda length, _kind, content: len(content) >= length - 1),
    "a refused record is the end": replaced("refused_trace", lambda records: (
        records and isinstance(records[-1], trace.Refused) and records.pop()) and None),
    **numbered("refused_trace"),
}


def header_with(place, octets):
    """A capture whose header has other octets from a place on."""
    changed = bytes.fromhex(octets)
    header = captures.WRITTEN_HEADER
    return replaced("WRITTEN_HEADER", header[:place] + changed + header[place + len(changed):])


def written_as(record):
    return replaced("record_of", record)


def lengths_as(layout):
    """A record whose two lengths are laid out otherwise."""
    return written_as(lambda content: bytes(8) + layout(len(content)) + content)


def capture_as(change):
    return replaced("capture_of", lambda contents: change(list(contents)))


def numbered_times(contents):
    """Each record has its number as its microseconds."""
    return captures.WRITTEN_HEADER + b"".join(bytes(4) + number.to_bytes(4, "little") + RIGHT["record_of"](content)[8:]
                                              for number, content in enumerate(contents))


# Wrong in what they write.
CAPTURES = {
    "the magic big-endian": header_with(0, "A1B2C3D4"),
    "the magic of nanoseconds": header_with(0, "4D3CB2A1"),
    "the version big-endian": header_with(4, "0002 0004"),
    "version 4.2": header_with(4, "0400 0200"),
    "a time zone": header_with(8, "100E0000"),
    "an accuracy": header_with(12, "06000000"),
    "snap length 0": header_with(16, "00000000"),
    "snap length 65,535": header_with(16, "FFFF0000"),
    "snap length 262,144": header_with(16, "00000400"),
    "snap length 1,531": header_with(16, "FB050000"),
    "the snap length big-endian": header_with(16, "00000640"),
    "the snap length behind the link type": header_with(16, "12010000 40060000"),
    "plain Ethernet": header_with(20, "01000000"),
    "the link type big-endian": header_with(20, "00000112"),
    "link type 275": header_with(20, "13010000"),
    "an FCS length in the link type": header_with(20, "12010044"),
    "all is big-endian": lambda: mock.patch.multiple(
        captures, WRITTEN_HEADER=bytes.fromhex("A1B2C3D4 0002 0004 00000000 00000000 00000640 00000112"),
        record_of=lambda content: bytes(8) + 2 * len(content).to_bytes(4, "big") + content),
    "lengths big-endian": lengths_as(lambda length: 2 * length.to_bytes(4, "big")),
    "lengths of two octets": lengths_as(lambda length: 2 * length.to_bytes(2, "little")),
    "one octet of a length": lengths_as(lambda length: 2 * (length % 256).to_bytes(4, "little")),
    "one length": lengths_as(lambda length: length.to_bytes(4, "little")),
    "an original length of 0": lengths_as(lambda length: length.to_bytes(4, "little") + bytes(4)),
    "a stored length of 0": lengths_as(lambda length: bytes(4) + length.to_bytes(4, "little")),
    "an original length of 1,600": lengths_as(lambda length: length.to_bytes(4, "little") + b"\x40\x06\x00\x00"),
    "a length that counts the trace's header": lengths_as(lambda length: 2 * (length + 4).to_bytes(4, "little")),
    "the trace's header with the content": written_as(lambda content: RIGHT["record_of"](trace.written([content]))),
    "times of four octets": replaced("WRITTEN_TIMES", bytes(4)),
    "lengths before the times": written_as(lambda content: 2 * len(content).to_bytes(4, "little") + bytes(8) + content),
    "times that count": capture_as(numbered_times),
    "records of whole words": written_as(lambda content: RIGHT["record_of"](content) + bytes(-len(content) % 4)),
    "without the preamble": written_as(lambda content: RIGHT["record_of"](content.lstrip(b"\x55"))),
    "empty records left out": capture_as(lambda contents: RIGHT["capture_of"](filter(None, contents))),
    "no header where there is no record": capture_as(
        lambda contents: RIGHT["capture_of"](contents) if contents else b""),
    "a header before each record": capture_as(lambda contents: b"".join(
        RIGHT["capture_of"]([content]) for content in contents) or captures.WRITTEN_HEADER),
    "in the reverse order": capture_as(lambda contents: RIGHT["capture_of"](contents[::-1])),
    "the last record left out": capture_as(lambda contents: RIGHT["capture_of"](contents[:-1])),
}


def putting(change):
    """What is put out, changed: given what should be written, and the room."""
    return replaced("put_out", change)


def where_short(change):
    """An answer of 78, changed."""
    def put_out(written, room):
        return RIGHT["put_out"](written, room) if len(written) <= room else change(written, room)
    return putting(put_out)


# Wrong in what they do with the memory that they are lent.
ROOMS = {
    "one more than fits": putting(lambda written, room: RIGHT["put_out"](written, room + 1)),
    "one room unused": putting(lambda written, room: RIGHT["put_out"](written, room - 1)),
    "what fits is written": where_short(lambda written, room: Answer(78, len(written), written[:room])),
    "the header is written though the room is short": where_short(
        lambda written, room: Answer(78, len(written), written[:4] if room >= 4 else b"")),
    "one less is asked for": where_short(lambda written, _room: Answer(78, len(written) - 1)),
    "what is missing is asked for": where_short(lambda written, room: Answer(78, len(written) - room)),
    "the room is told": where_short(lambda _written, room: Answer(78, room)),
    "nothing is told of the room": where_short(lambda *_: Answer(78, 0)),
    "all of the room is told": putting(
        lambda written, room: RIGHT["put_out"](written, room) if len(written) > room else Answer(0, room, written)),
    "the room behind is cleared": putting(
        lambda written, room: RIGHT["put_out"](written, room) if len(written) > room
        else Answer(0, len(written), written.ljust(room, b"\x00"))),
}


def contents_before(call, given, count):
    """The contents of the first so many records, all good, of a trace or of a capture."""
    things = RIGHT["pieces"](given) if call == "read" else trace.records(given)
    return [thing.content for thing in islice(things, count)]


# What each call makes of contents.
LAYOUTS = {"write": RIGHT["capture_of"], "read": trace.written, "show": RIGHT["capture_for_eyes"]}


def some_written(call, given, room):
    """What is before the refused record is written all the same."""
    answer = RIGHT[call](given, room)
    if answer.number in (0, 70, 71, 72, 73, 78):
        return answer
    before = LAYOUTS[call](contents_before(call, given, answer.value - 1))
    return Answer(answer.number, answer.value, before[:room])


def short_at_once(call, given, room):
    """78 as soon as the room is used up, before the records behind are looked at."""
    answer = RIGHT[call](given, room)
    if answer.number in (0, 70, 71, 72, 73, 78):
        return answer
    before = LAYOUTS[call](contents_before(call, given, answer.value - 1))
    return Answer(78, len(before)) if len(before) > room else answer


def short_first(call, given, room):
    """78 before all else, where there is no room for an empty output."""
    answer = RIGHT[call](given, room)
    least = 4 if call == "read" else 24
    return answer if room >= least or answer.number in (0, 78) else Answer(78, least)


def room_for_as_many(call, given, room):
    """The room must be as long as what is given."""
    answer = RIGHT[call](given, room)
    return Answer(78, len(given)) if answer.number == 0 and room < len(given) else answer


def told_for_16(call, given, room):
    """16 octets are reckoned for each record, where its header there and here differ by 12."""
    answer = RIGHT[call](given, room)
    if answer.number != 78:
        return answer
    count = len(contents_before(call, given, None))
    return Answer(78, answer.value + (-4 * count if call == "read" else 4 * count))


def calling(call, wrong):
    return replaced(call, lambda given, room: wrong(call, given, room))


def refusing(call):
    return {"records before the refused one are written": calling(call, some_written),
            "78 before the records behind": calling(call, short_at_once),
            "78 before all else": calling(call, short_first),
            "16 octets reckoned for each record": calling(call, told_for_16)}


# Wrong in what is answered where something is refused, each call for itself.
REFUSING = {call: refusing(call) for call in ("read", "write")}
# A capture is longer than its trace, so that of a write this would be no fault.
REFUSING["read"]["room for as many octets as are given"] = calling("read", room_for_as_many)
REFUSING_TO_SHOW = refusing("show")

READERS = {**HEADERS, **RECORDS}
