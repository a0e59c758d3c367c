"""The viewer's words on an mFrame, as the tests expect them."""

from made import codes, exchange, published

ASKS = ("Who has 10.0.0.2? Tell 10.0.0.1", ("fpp", "eth", "arp"))
SENDS = ("4000 → 4001 Len=400", ("fpp", "eth", "ip", "udp"))
# What an mFrame is that was not taken apart.
ALONE = ("fpp",)
# What a record is in which no delimiter, or no fragment code, was found: an Ethernet frame from its first octet on.
NO_HEADER = "no preemption header"
COUNTS = range(codes.COUNTS)


def right(what, octets):
    return f"{what}: 0x{octets[-4:].hex()} [correct]"


def wrong(what, octets, due):
    return f"{what}: 0x{octets[-4:].hex()} incorrect, should be 0x{due[-4:].hex()}"


def right_mcrc(octets):
    return right("mCRC", octets)


def bad_mcrc(octets):
    """The words on document 01's mCRC: the standard's was due (docs/DECISIONS.md, 1)."""
    return wrong("mCRC", octets, published(octets))


def delimiter(octets, name):
    return f"SMD: 0x{octets.lstrip(exchange.LEADING)[0]:02x} [SMD-{name}]"


def fragment_count(octets, count):
    return f"Fragment count: 0x{octets.lstrip(exchange.LEADING)[1]:02x} [#{count}]"


def row(record):
    """A record's line and layers, and the words on its delimiter, fragment count and check."""
    return record.line, record.layers, record.delimiter, record.fragment_count, record.check


def started(kind, frame_count, part, check, end=""):
    """The row of a first fragment, which is of the kind Initial or Corrupted, with what stands at the end of its line."""
    return f"[{kind} fragment: SMD-S{frame_count}]{end}", ALONE, delimiter(part, f"S{frame_count}"), None, check(part)


def continued(frame_count, parts, check, end=""):
    """The rows of continuations at which no frame is put together."""
    return [(f"[Continuation fragment: SMD-C{frame_count}] [#{number % codes.COUNTS}]{end}", ALONE, delimiter(part, f"C{frame_count}"),
             fragment_count(part, number % codes.COUNTS), check(part)) for number, part in enumerate(parts)]


def verifications(pair, check):
    """The rows of a V and an R."""
    return [(line, ALONE, delimiter(octets, name), None, check(octets)) for octets, line, name in zip(pair, ("[Verify]", "[Respond]"), "VR")]


def header(octets):
    """Leading octets 55, the delimiter and, in a continuation, the fragment code."""
    front = exchange.leading(octets)
    return octets[:front + (2 if octets[front] in map(codes.continuation_code, COUNTS) else 1)]


def pieces(octets):
    """Header, data and check octets."""
    front = header(octets)
    return front, octets[len(front):-4], octets[-4:]


def on_preamble(octets):
    """The words on the header, which tell how many bits are missing, or too many."""
    bits = 8 * (len(header(octets)) - 8)
    length = "Normal" if bits == 0 else f"{'Shortened' if bits < 0 else 'Lengthened'} by {abs(bits)} bits"
    return f"Preamble: {header(octets).hex()} [Preamble length: {length}]"


def in_short(record):
    """What becomes of a record: whether it is taken apart, or how its line names it, and the words on its check."""
    if record.check is None:
        return NO_HEADER
    kind = "taken apart" if "eth" in record.layers else record.line.strip("[]").partition(":")[0]
    what, _, words = record.check.partition(": ")
    return f"{kind}, {what} {'correct' if words.endswith(' [correct]') else 'incorrect'}"


def not_as(shown_as, numbers, records):
    """The records that are shown in other words than the receiver's answer to them lets expect: the record's number, the answer, the record."""
    return [(place, number, record) for place, (number, record) in enumerate(zip(numbers, records, strict=True), start=1)
            if number in shown_as and in_short(record) not in shown_as[number]]
