"""What the viewer shows of captures that mmpcap wrote, in its own words.

Its words on fragments, V and R are those on a bad check: document 01 inverts the last two octets of the check, the standard, and with it the viewer,
the first two (docs/DECISIONS.md, 1). The same mFrames with the standard's check are shown beside them: it is that rule alone that the viewer
has a quarrel with.
"""

from made import (DATAGRAM, REQUEST, answered, codes, contents, crc, cut, every_kind, exchange, good_traces, mframe, published, trace,
                  whole, with_preamble)
from viewer import Captures, about, shown

ASKS = ("Who has 10.0.0.2? Tell 10.0.0.1", ("fpp", "eth", "arp"))
SENDS = ("4000 → 4001 Len=400", ("fpp", "eth", "ip", "udp"))
# What an mFrame is that was not taken apart.
ALONE = ("fpp",)
# What a record is in which no delimiter, or no fragment code, was found: an Ethernet frame from its first octet on.
NO_HEADER = "no preemption header"
COUNTS = range(codes.COUNTS)


def right(what, octets):
    return f"{what}: 0x{octets[-4:].hex()} [correct]"


def wrong(what, octets, due):
    return f"{what}: 0x{octets[-4:].hex()} incorrect, should be 0x{due[-4:].hex()}"


def right_mcrc(octets):
    return right("mCRC", octets)


def bad_mcrc(octets):
    """The words on document 01's mCRC: the standard's was due (docs/DECISIONS.md, 1)."""
    return wrong("mCRC", octets, published(octets))


def row(record):
    """A record's line and layers, and the words on its delimiter, fragment count and check."""
    return record.line, record.layers, record.delimiter, record.fragment_count, record.check


def delimiter(octets, name):
    return f"SMD: 0x{octets.lstrip(exchange.LEADING)[0]:02x} [SMD-{name}]"


def fragment_count(octets, count):
    return f"Fragment count: 0x{octets.lstrip(exchange.LEADING)[1]:02x} [#{count}]"


def continued(frame_count, parts, check):
    """The rows of continuations that are not put together."""
    return [(f"[Continuation fragment: SMD-C{frame_count}] [#{number % 4}]", ALONE, delimiter(part, f"C{frame_count}"),
             fragment_count(part, number % 4), check(part)) for number, part in enumerate(parts)]


def in_short(record):
    """What becomes of a record: whether it is taken apart, or how its line names it, and the words on its check."""
    if record.check is None:
        return NO_HEADER
    kind = "taken apart" if "eth" in record.layers else record.line.strip("[]").partition(":")[0]
    what, _, words = record.check.partition(": ")
    return f"{kind}, {what} {'correct' if words.endswith(' [correct]') else 'incorrect'}"


class Files(Captures):
    def test_type_link_type_length_and_number(self):
        for name, octets in good_traces().items():
            with self.subTest(trace=name):
                self.assertEqual(about(self.captured(octets)), [
                    "File type: pcap", "File encapsulation: ether-mpacket", "Packet size limit: file hdr: 1600 bytes",
                    f"Number of packets: {len(contents(octets))}"])


class Shows(Captures):
    def setUp(self):
        super().setUp()
        self.maxDiff = None

    def shown(self, mframes):
        """What the viewer shows of these mFrames; it must find the pieces of each where document 01 has them."""
        records = shown(self.captured(trace.written(mframes)))
        for record, octets in zip(records, mframes, strict=True):
            self.assertEqual(record.pieces, (octets[:8], octets[8:-4], octets[-4:]))
            self.assertEqual(record.preamble, f"Preamble: {octets[:8].hex()} [Preamble length: Normal]")
        return records

    def test_express_and_whole_frames_are_taken_apart(self):
        frames = [(mframe.express(REQUEST), "E", ASKS), (mframe.express(DATAGRAM), "E", SENDS)]
        frames += [(whole(count, body), f"S{count}", shows) for count in COUNTS for body, shows in ((REQUEST, ASKS), (DATAGRAM, SENDS))]
        self.assertEqual([row(record) for record in self.shown([octets for octets, _, _ in frames])],
                         [(*shows, delimiter(octets, name), None, right("CRC", octets)) for octets, name, shows in frames])

    def test_wrong_fcs(self):
        """An express frame is then not taken apart, and a preemptable one taken for a fragment that is corrupted, of which an mCRC was due."""
        express, start = (exchange.with_bit_turned(octets, 8 * 30) for octets in (mframe.express(REQUEST), whole(2, REQUEST)))
        body = express[8:-4]
        self.assertEqual([row(record) for record in self.shown([express, start])], [
            ("[Express]", ALONE, delimiter(express, "E"), None, wrong("CRC", express, crc.fcs(body))),
            ("[Corrupted fragment: SMD-S2]", ALONE, delimiter(start, "S2"), None, wrong("mCRC", start, published(crc.mcrc(body))))])

    def test_document_01s_fragments_are_not_put_together(self):
        """The start is corrupted, the mCRC of those between bad; the last has the FCS, which is correct, and called an mCRC."""
        for count in COUNTS:
            start, *between, last = parts = cut(count)
            records = self.shown(parts)
            self.assertEqual([row(record) for record in records], [
                (f"[Corrupted fragment: SMD-S{count}]", ALONE, delimiter(start, f"S{count}"), None, bad_mcrc(start)),
                *continued(count, [*between, last], lambda part: right_mcrc(part) if part is last else bad_mcrc(part))])
            self.assertEqual({record.put_together for record in records}, {None})

    def test_the_same_fragments_with_the_standards_check_are_put_together(self):
        for count in COUNTS:
            *before, last = cut(count)
            start, *between = map(published, before)
            parts = [start, *between, last]
            records = self.shown(parts)
            self.assertEqual([row(record) for record in records], [
                (f"[Initial fragment: SMD-S{count}]", ALONE, delimiter(start, f"S{count}"), None, right_mcrc(start)),
                *continued(count, between, right_mcrc),
                (*SENDS, delimiter(last, f"C{count}"), fragment_count(last, len(between) % 4), right("CRC", last))])
            lengths = ", ".join(f"#{number}({len(part) - 12})" for number, part in enumerate(parts, start=1))
            self.assertEqual([record.put_together for record in records],
                             [None] * len(before) + [f"{len(parts)} Message fragments ({len(DATAGRAM)} bytes): {lengths}"])

    def test_v_and_r(self):
        """Known for what they are, with a bad mCRC; with the standard's it is correct."""
        ours = (mframe.verify(), mframe.respond())
        for pair, check in ((ours, bad_mcrc), (tuple(map(published, ours)), right_mcrc)):
            self.assertEqual([row(record) for record in self.shown(pair)],
                             [(line, ALONE, delimiter(octets, name), None, check(octets))
                              for octets, line, name in zip(pair, ("[Verify]", "[Respond]"), "VR")])

    def test_preambles(self):
        """Behind none to seven octets 55, and behind eight, which the port refuses (14), an mFrame is shown as behind the usual ones.

        Only the words on the preamble tell how many bits are missing, or too many.
        """
        mframes = every_kind()
        usual = [row(record) for record in self.shown(mframes)]
        for preamble in range(9):
            given = [with_preamble(octets, preamble) for octets in mframes]
            records = shown(self.captured(trace.written(given)))
            self.assertEqual([record.preamble for record in records], [self.words_on_preamble(octets) for octets in given])
            self.assertEqual([row(record) for record in records], usual)

    def words_on_preamble(self, octets):
        front = exchange.leading(octets)
        header = octets[:front + (2 if octets[front] in map(codes.continuation_code, COUNTS) else 1)]
        bits = 8 * (len(header) - 8)
        length = "Normal" if bits == 0 else f"{'Shortened' if bits < 0 else 'Lengthened'} by {abs(bits)} bits"
        return f"Preamble: {header.hex()} [Preamble length: {length}]"


class Stored(Captures):
    """The viewer beside the receiver's answers to stored traces: it agrees on every FCS of a whole frame, and never on an mCRC."""

    # What it shows of the other refusals and drops depends on what came before. So it does of the last fragment of a frame that is delivered (1):
    # after damage it can find its check bad.
    SHOWN_AS = {
        0: {"taken apart, CRC correct"},
        1: {"taken apart, CRC correct", "Continuation fragment, mCRC correct", "Continuation fragment, mCRC incorrect"},
        2: {"Corrupted fragment, mCRC incorrect", "Continuation fragment, mCRC incorrect"},
        3: {"Verify, mCRC incorrect"},
        4: {"Respond, mCRC incorrect"},
        15: {NO_HEADER},
        17: {NO_HEADER},
        20: {"Express, CRC incorrect"},
    }

    def test_answers(self):
        for name in ("row", "answers", "long"):
            answers, records = answered(name), shown(self.captured(good_traces()[name]))
            self.assertLessEqual(set(self.SHOWN_AS), set(answers))
            others = [(number, answer, record) for number, (answer, record) in enumerate(zip(answers, records, strict=True), start=1)
                      if answer in self.SHOWN_AS and in_short(record) not in self.SHOWN_AS[answer]]
            with self.subTest(trace=name):
                self.assertEqual(others, [])
                self.assertEqual({record.put_together for record in records}, {None})
