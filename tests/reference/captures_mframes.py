"""The mFrames that captures for eyes are asked about, chosen by what document 01's receiver must keep apart.

Each function gives lists of mFrames, and each list is a trace of its own. Answers are not looked at here.
"""

from itertools import product

import codes
import crc
import exchange
import mframe
import trace

EXPRESS, VERIFY, RESPOND = map(codes.lone_code, (codes.EXPRESS, codes.VERIFY, codes.RESPOND))
COUNTS = range(codes.COUNTS)
STARTS = tuple(map(codes.start_code, COUNTS))


def closed(header, data, check=crc.mcrc):
    """An mFrame with its own check."""
    return header + data + check(data)


def start(frame_count, data, check=crc.mcrc):
    return mframe.start(frame_count, data, check(data))


def going_on(frame_count, fragment_count, before, data, check=crc.mcrc):
    """A continuation behind octets that came before it."""
    return mframe.continuation(frame_count, fragment_count, data, check(before + data))


def frame(frame_count, body, ask=0):
    """A frame cut as the ask says: an ask of 0 cuts as often as can be, behind every 60 octets."""
    return exchange.Sender(next_frame_count=frame_count).frame(body, ask)


def press(chance):
    return mframe.express(chance.octets(60))


def inverted(check):
    """All four octets of a check inverted."""
    return lambda octets: bytes(octet ^ 0xFF for octet in check(octets))


def turned_round(check):
    """The octets of a check in the reverse order."""
    return lambda octets: check(octets)[::-1]


# The three that there are, and what may be taken for one of them.
CHECKS = (crc.fcs, crc.mcrc, crc.standard_mcrc, inverted(crc.fcs), turned_round(crc.fcs), turned_round(crc.mcrc),
          turned_round(crc.standard_mcrc), lambda _octets: bytes(4))


def every_check(chance):
    """Each kind with each check: over its own data, and of a continuation also over the frame so far."""
    for code in (EXPRESS, VERIFY, RESPOND, *STARTS):
        yield [closed(mframe.late_header(code), chance.octets(60), check) for check in CHECKS]
    first, data = chance.octets(60), chance.octets(60)
    for before in (first, b""):
        yield [octets for check in CHECKS for octets in (start(1, first), going_on(1, 0, before, data, check))]
    yield [going_on(1, 0, first, data, check) for check in CHECKS]


def every_bit_of_a_check(chance):
    """The mCRC of V, of a start and of a continuation with each of its bits turned."""
    first, data = chance.octets(60), chance.octets(61)
    verify, opening, next_part = mframe.verify(), start(0, first), going_on(0, 0, first, data)
    for bit in range(-8 * crc.CHECK_OCTETS, 0):
        yield [exchange.with_bit_turned(octets, 8 * len(octets) + bit) for octets in (verify, opening)] + [
            opening, exchange.with_bit_turned(next_part, 8 * len(next_part) + bit)]


def frames(chance):
    """Frames in one part to nine and in as many as can be, of every frame count, alone and with a press behind each."""
    for parts in range(1, 10):
        mframes = frame(parts % 4, chance.octets(60 * parts + chance.below(4)))
        yield mframes
        yield [octets for part in mframes for octets in (part, press(chance))]
    yield frame(2, chance.octets(1518))
    # Cut seldom, and one frame after the other.
    yield [octets for count in COUNTS for octets in frame(count, chance.octets(400), 100 + 20 * count)]


def disturbed_frames(chance):
    """A frame in six parts of which one is lost, comes twice, or comes before the one before it; a good one behind."""
    for place in range(6):
        parts, good = frame(place % 4, chance.octets(360)), frame(place % 4, chance.octets(130))
        yield parts[:place] + parts[place + 1:] + good
        yield parts[:place] + [parts[place]] * 2 + parts[place + 1:] + good
        yield parts[:place] + parts[place:place + 2][::-1] + parts[place + 2:] + good
    # Two frames of which the parts come by turns.
    for count in (0, 1):
        pairs = zip(frame(0, chance.octets(240)), frame(count, chance.octets(240)))
        yield [octets for pair in pairs for octets in pair]


def verify_rest():
    """What stands behind the header of a V."""
    return closed(b"", mframe.VERIFICATION_DATA)


def between_two_fragments(chance):
    """What comes between two fragments: all that leaves an assembly open, and what ends it."""
    body = chance.octets(250)
    first, second, third, last = frame(1, body)
    data, long = chance.octets(60), chance.octets(1519)
    for between in (
            press(chance), mframe.verify(), mframe.respond(),
            # Wrong checks of E, V and R; nothing, too short, too long, eight octets 55, unknown codes.
            *(closed(mframe.late_header(code), data, check) for code, check in (
                (EXPRESS, crc.mcrc), (VERIFY, crc.fcs), (RESPOND, crc.standard_mcrc))),
            b"", b"\x55" * 7, first[:40], mframe.express(data)[:-9], closed(mframe.late_header(VERIFY), long),
            mframe.header(8, VERIFY) + verify_rest(), mframe.late_header(0xAD) + verify_rest(),
            mframe.early_header(codes.continuation_code(1), 0x61) + verify_rest(),
            # Starts that are whole, damaged and cut, of the same count and of another.
            *(start(count, data, check) for count, check in product((1, 2), (crc.fcs, crc.standard_mcrc, crc.mcrc))),
            # Continuations that are the expected one by one count alone, or by none.
            *(going_on(frame_count, fragment_count, body[:60], data) for frame_count, fragment_count in (
                (1, 1), (2, 0), (0, 0), (1, 3), (2, 1))),
            # Damaged ones.
            going_on(1, 0, body[:60], data, crc.standard_mcrc), going_on(1, 0, b"", data)):
        yield [between, first, between, second, third, last]


def every_count(chance):
    """Behind a start, and behind its first continuation, every frame count and fragment count."""
    body = chance.octets(180)
    for frame_count in (0, 2):
        opening = start(frame_count, body[:60])
        second = going_on(frame_count, 0, body[:60], body[60:120])
        yield [octets for counts in product(COUNTS, COUNTS)
               for octets in (opening, going_on(*counts, body[:60], body[60:120]))]
        yield [octets for count in COUNTS
               for octets in (opening, second, going_on(frame_count, count, body[:120], body[120:]))]


def what_fits_by_chance(chance):
    """Behind what ends an assembly, a continuation that would have gone on with it."""
    first, data, more = chance.octets(1400), chance.octets(60), chance.octets(119)
    opening, fits = start(3, first), going_on(3, 0, first, data)
    for ending in (going_on(3, 1, first, data), going_on(2, 0, first, data), going_on(3, 0, first, more),
                   going_on(3, 0, first, data, crc.standard_mcrc), start(3, data, crc.fcs),
                   start(3, data, crc.standard_mcrc)):
        yield [opening, ending, fits]
    # Behind the last fragment of a frame, and behind a frame in one part.
    first = chance.octets(60)
    whole = [start(0, first), going_on(0, 0, first, data, crc.fcs)]
    yield [*whole, going_on(0, 1, first + data, more)]
    yield [*whole, going_on(0, 0, first, data)]
    yield [start(0, first, crc.fcs), going_on(0, 0, first, data)]


def checks_over_other_octets(chance):
    """Checks over the mFrame alone, over all but the first or the last one, with checks or headers among the octets."""
    first, second, third = chance.octets(60), chance.octets(62), chance.octets(64)
    before = [start(2, first), going_on(2, 0, first, second)]
    for others, check in product(
            (b"", first, second, second + first, before[0][8:] + before[1][8:], before[0] + before[1],
             bytes(len(first + second))), (crc.mcrc, crc.fcs)):
        yield [*before, going_on(2, 1, others, third, check)]
    yield [*before, going_on(2, 1, first + second, third), going_on(2, 2, first + second + third, second, crc.fcs)]
    # Of V, R and a start, over the header too, over another V's data, or going on with what came before.
    for code in (VERIFY, RESPOND, STARTS[0]):
        header = mframe.late_header(code)
        for others in (header, header[-1:]):
            yield [header + third + crc.mcrc(others + third)]
        yield [*before, header + third + crc.mcrc(first + second + third)]
        yield [header + third + crc.mcrc(mframe.VERIFICATION_DATA)]


def frames_at_the_limit(chance):
    """Octets kept and data of 1,518 together, and of one more; a V behind, and what would have gone on."""
    octets = chance.octets(1579)
    for kept in (60, 759, 1458):
        for together in (1517, 1518, 1519):
            if together - kept >= 60:
                yield [start(0, octets[:kept]), going_on(0, 0, octets[:kept], octets[kept:together]), mframe.verify()]
    # A start has all of them, so that nothing can go on with it.
    yield [start(0, octets[:1518]), going_on(0, 0, octets[:1518], octets[1518:1578])]
    # A continuation of 1,531 octets ends the assembly, one of 1,532 does not: then comes one that would go on with it.
    for length in (1518, 1519):
        yield [start(0, octets[:60]), b"\x55" + going_on(0, 0, octets[:60], octets[60:60 + length]),
               going_on(0, 0, octets[:60], octets[60:120])]


def every_length(chance):
    """63, 64 and 65 octets behind every good header, and 1,522 and 1,523 behind some; V and R with any data."""
    first = chance.octets(60)
    for preamble, behind in product(range(mframe.MOST_PREAMBLE + 1), (63, 64, 65)):
        data = chance.octets(behind - crc.CHECK_OCTETS)
        lone = [closed(mframe.header(preamble, code), data) for code in (VERIFY, RESPOND, STARTS[3])]
        header = mframe.header(preamble, codes.continuation_code(3), codes.fragment_code(0))
        yield [*lone, start(3, first), header + data + crc.mcrc(first + data)]
    for code, preamble, behind in product((VERIFY, RESPOND, STARTS[1]), (0, 7), (1522, 1523)):
        yield [closed(mframe.header(preamble, code), chance.octets(behind - crc.CHECK_OCTETS))]
    for code, length in product((VERIFY, RESPOND), (60, 62, 64, 100, 777)):
        yield [closed(mframe.late_header(code), chance.octets(length), check) for check in (crc.mcrc, crc.fcs)]
    yield [closed(mframe.late_header(code), chance.octets(trace.GREATEST_CONTENT - 12)) for code in (VERIFY, STARTS[0])]


def behind(preamble, mframes):
    """The mFrames behind so many octets 55 each."""
    return [mframe.header(preamble) + octets.lstrip(exchange.LEADING) for octets in mframes]


def every_preamble(chance):
    """V, R and a frame in three parts behind none to nine octets 55, and parts of different numbers."""
    for preamble in range(mframe.MOST_PREAMBLE + 3):
        yield behind(preamble, [mframe.verify(), mframe.respond(), *frame(preamble % 4, chance.octets(180))])
    for preambles in ((7, 0, 3, 6, 1), (0, 7, 5, 0, 4), (6, 8, 6, 6, 6), (6, 9, 6, 6, 6)):
        yield [octets for preamble, part in zip(preambles, frame(3, chance.octets(300)))
               for octets in behind(preamble, [part])]


def unknown_heads(chance):
    """Octets other than 55 in the preamble of V, of a start and of its continuation; and a 55 behind a delimiter."""
    first, second, last = frame(2, chance.octets(180))
    for octets, place in product((b"\x00", b"\x54", b"\xD5", b"\x07"), (0, 3)):
        verify, opening, next_part = (content[:place] + octets + content[place + 1:]
                                      for content in (mframe.verify(), first, second))
        yield [verify, opening, next_part, first, next_part, second, last]
    yield [first, second[:7] + b"\x55" + second[7:], second, last]


def data_like_a_head(chance):
    """Data and earlier data that begin with octets 55 or as a head does."""
    for front in (b"\x55", b"\x55" * 8, b"\xD5", b"\x55\x55\x07", b"\x61\xE6", b"\xE6"):
        data = (front + chance.octets(60))[:60]
        for preamble in (0, 5):
            yield behind(preamble, [closed(mframe.late_header(VERIFY), data), start(2, data),
                                    going_on(2, 0, data, data), going_on(2, 1, data + data, data, crc.fcs)])


def short_ones(_chance):
    """Records of no octet to five, all 55 or none, and heads with nothing behind them, before and between fragments."""
    for octet in (b"\x00", b"\x55", b"\x07", b"\xE6"):
        yield [octet * length for length in range(6)]
    yield [mframe.header(preamble, *codes_behind) for preamble in (0, 7)
           for codes_behind in ((VERIFY,), (RESPOND,), (STARTS[0],), (0x61,), (0x61, 0xE6))]
    first, second, last = frame(0, bytes(range(180)))
    yield [b"", first, b"", second[:4], second, second[-4:], b"\x55", last, b""]


def ends_inside_a_frame(chance):
    """Traces that end while a frame is in assembly, each with one behind that begins with what would go on."""
    first, second, third, last = frame(0, chance.octets(250))
    for place in (1, 2, 3):
        parts = [first, second, third, last]
        yield parts[:place]
        yield parts[place:]


def noisy_rows(chance):
    """Exchanges over a noisy row, with swallowed preambles."""
    for trouble in (0, 10, 25, 50):
        sent = exchange.sent_in_turn(chance, 45, 300)
        yield exchange.swallowed(exchange.over_a_noisy_row(sent, chance, trouble), chance)


def without_fragments(chance):
    """Presses and frames that nobody cut, and what is refused: no mCRC that is right."""
    whole = [start(count, chance.octets(60 + count), crc.fcs) for count in COUNTS]
    yield [press(chance), *whole, press(chance)]
    yield [press(chance), b"", *whole, bytes(80), b"\x55" * 90]


def with_presses(chance):
    """V, a frame in three parts with presses between them, and a start that nothing follows: of each kind something."""
    first, second, last = frame(2, chance.octets(190))
    return [mframe.verify(), first, press(chance), second, press(chance), last, start(3, chance.octets(60))]


PARTS = (every_check, every_bit_of_a_check, frames, disturbed_frames, between_two_fragments, every_count,
         what_fits_by_chance, checks_over_other_octets, frames_at_the_limit, every_length, every_preamble,
         unknown_heads, data_like_a_head, short_ones, ends_inside_a_frame, noisy_rows, without_fragments)


def all_lists(chance):
    return [mframes for part in PARTS for mframes in part(chance)]
