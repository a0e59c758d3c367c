"""Makes the stored traces and their listings: document 01, "Trace and listing", with the heads of document 02, (vi).

    python3 tests/reference/traces.py            writes all files
    python3 tests/reference/traces.py --check    writes nothing, compares
"""

import sys

import crc
import exchange
import mframe
import mmlist
import stored
import trace
from chance import Chance
from exchange import with_bit_turned

SEED = 8031
LONG_TRACE_RECORDS = 20_000


def example():
    """The four records that document 01 prints, octet by octet."""
    short = bytes.fromhex("03 00 01 00 55 55 55")
    headers = (bytes([0x55] * 7 + [0xAD]), bytes([0x55] * 6 + [0x61, 0xE6]), bytes([0x55] * 7 + [0xD5]))
    return short + b"".join(bytes.fromhex("48 00 01 00") + header + bytes(64) for header in headers)


def row():
    """A long row with noise on it: buttons are pressed while photographs are sent, and not all arrives."""
    chance = Chance(SEED)
    sender = exchange.Sender()

    def press(number):
        return mframe.express(bytes([number]) + b"seat button pressed" + bytes(40))

    mframes = [mframe.verify(), mframe.respond()]
    # A short preemptable frame goes whole; then presses break into a photograph.
    mframes += sender.frame(chance.octets(90))
    first, second, third, fourth = sender.frame(chance.octets(1100), 300)
    mframes += [first, press(1), second, press(2), press(3), third, fourth]
    # Of the second photograph a fragment is lost; what follows of it is of no use.
    parts = sender.frame(chance.octets(640), 100)
    mframes += [parts[0], press(4), parts[1], *parts[3:]]
    # With the next start the port is in step again.
    mframes += sender.frame(chance.octets(400), 150)
    # Now the noise: a start is hit in its delimiter, so that its fragments belong to nothing.
    parts = sender.frame(chance.octets(300), 0)
    mframes += [with_bit_turned(parts[0], 57), *parts[1:]]
    # A fragment code is hit, then the data of a fragment, then its preamble, which ends where it is hit.
    parts = sender.frame(chance.octets(300), 0)
    mframes += [parts[0], with_bit_turned(parts[1], 58), *parts[2:]]
    parts = sender.frame(chance.octets(260), 0)
    mframes += [parts[0], with_bit_turned(parts[1], 8 * 30), parts[2]]
    parts = sender.frame(chance.octets(130), 0)
    mframes += [parts[0], with_bit_turned(parts[1], 3)]
    # The port still waits for that fragment when the next frame starts. A press is hit, and sent again.
    mframes += sender.frame(chance.octets(61))
    mframes += [with_bit_turned(press(5), 8 * 12 + 1), press(5)]
    # A press that lost an octet of its preamble is delivered all the same; a piece of one is not.
    mframes += [press(6)[1:], press(6)[40:]]
    # The verification is repeated; the first V is hit.
    mframes += [with_bit_turned(mframe.verify(), 8 * 70), mframe.verify(), mframe.respond()]
    mframes += sender.frame(chance.octets(200), 64)
    return trace.written(mframes)


def every_answer(chance):
    """mFrames that are answered 0 to 4, 12 to 15, 17 and 20 to 25; 10 and 11 cannot be had from a listing."""
    data = chance.octets(60)
    fcs, mcrc = crc.fcs(data), crc.mcrc(data)
    first, second, third = exchange.Sender().frame(chance.octets(200), 0)
    full = chance.octets(1518)
    too_much = chance.octets(1519)
    header, late, early = mframe.header, mframe.late_header, mframe.early_header
    return [
        # 0, 1 of one mFrame, 2, 2 and 1 of three, 3, 4.
        mframe.express(data), mframe.start(1, data, fcs), first, second, third, mframe.verify(), mframe.respond(),
        # 12 twice, 13, 14.
        b"", late(0xD5) + bytes(63), late(0xD5) + too_much + crc.fcs(too_much), header(8, 0xD5) + data + fcs,
        # 15 three times; a C behind seven octets 55 and an E behind six, whose heads are good; 17.
        late(0xAD) + data + fcs, late(0x54) + data + fcs, early(0xD4, 0xD5) + data + fcs,
        header(7, 0x2A, 0xE6) + data + mcrc, header(6, 0xD5) + data + fcs, early(0x2A, 0x2A) + data + mcrc,
        # 20 and 21 with the other's check; 22.
        late(0xD5) + data + mcrc, late(0x07) + data + fcs, late(0x19) + data + fcs, second,
        # 23 by the fragment count, after which the right one is 22; 23 by the frame count.
        first, third, second, first, mframe.continuation(1, 0, data, mcrc),
        # 24; 25 of a continuation whose check was begun anew, and of a start.
        mframe.start(2, full, crc.mcrc(full)), mframe.continuation(2, 0, data, crc.fcs(full + data)),
        first, mframe.continuation(0, 0, data, mcrc), mframe.start(3, data, bytes(4)),
        # A damaged start and a good one over an open assembly.
        first, mframe.start(3, data, bytes(4)), first, first, second, third,
        # Bodies as long as can be: in one mFrame, express, in two.
        mframe.start(0, full, crc.fcs(full)), mframe.express(full),
        mframe.start(1, full[:1458], crc.mcrc(full[:1458])),
        mframe.continuation(1, 0, full[1458:], crc.fcs(full)),
    ]


def damage_in_every_field(chance):
    """Each octet of the header, some of the data and each of the check, one bit wrong, for every kind."""
    first, second, third = exchange.Sender(next_frame_count=3).frame(chance.octets(200), 0)
    places = (*range(8), 8, 9, 30, -5, -4, -3, -2, -1)
    mframes = []
    for octets, before in ((mframe.express(chance.octets(60)), []), (mframe.verify(), []), (mframe.respond(), []),
                           (first, []), (second, [first]), (third, [first, second])):
        for place in places:
            mframes += before + [with_bit_turned(octets, 8 * (place % len(octets)) + chance.below(8))]
    return mframes


def every_refused_length(chance):
    """Good records of 0 to 71 and of 1,531 to 1,600 octets, with headers of all kinds; a fragment waits between."""
    first, second, third = exchange.Sender().frame(chance.octets(200), 0)
    headers = (mframe.late_header(0xD5), mframe.late_header(0xE6), mframe.early_header(0x61, 0xE6),
               mframe.late_header(0x07), mframe.late_header(0x00), bytes(8))
    mframes = [first]
    for number, length in enumerate((*range(72), *range(1531, 1601))):
        mframes.append((headers[number % len(headers)] + chance.octets(length))[:length])
    return mframes + [second, third]


def verification_with_any_data(chance):
    """V and R of many lengths whose data are not zeros, with a right check and with wrong ones: only the check decides."""
    mframes = []
    for length in (60, 61, 64, 100, 777, 1517, 1518):
        data = chance.octets(length)
        for header in (mframe.late_header(0x07), mframe.late_header(0x19)):
            # 3 or 4; 21 by a turned bit, with the FCS, and with the mCRC of what V and R carry by the paper.
            whole = header + data + crc.mcrc(data)
            mframes += [whole, with_bit_turned(whole, 8 * (len(whole) - 1)), header + data + crc.fcs(data),
                        header + data + crc.mcrc(mframe.VERIFICATION_DATA)]
    return mframes


def drops_that_meet(chance):
    """Continuations to which two or three of 22 to 25 apply: the first of them answers."""
    data, much = chance.octets(60), chance.octets(1500)
    first = mframe.start(0, data, crc.mcrc(data))
    long = mframe.start(0, much, crc.mcrc(much))
    fits, over = crc.fcs(data + data), crc.fcs(much + data)

    def after(start, *continuation):
        return [start, mframe.continuation(*continuation)]

    return [
        # 22 of other counts than 0, with bad check octets.
        mframe.continuation(2, 1, data, bytes(4)), mframe.continuation(0, 0, data, bytes(4)),
        # 23 by either count: alone, with 25, with 24, with both.
        *after(first, 1, 0, data, fits), *after(first, 0, 1, data, fits),
        *after(first, 1, 0, data, bytes(4)), *after(first, 0, 1, data, bytes(4)),
        *after(long, 1, 0, data, over), *after(long, 0, 1, data, over),
        *after(long, 1, 0, data, bytes(4)), *after(long, 0, 1, data, bytes(4)),
        # 24 alone, with 25; 25 alone.
        *after(long, 0, 0, data, over), *after(long, 0, 0, data, bytes(4)), *after(first, 0, 0, data, bytes(4)),
    ]


def at_the_limit(chance):
    """Octets kept and data of 1,518 together, which are kept or delivered, and of 1,519, which are 24, however right the check."""
    octets = chance.octets(1519)
    mframes = []
    for kept in (60, 64, 759, 1458, 1459):
        for together in (1518, 1519):
            if together - kept < 60:
                continue
            for check in (crc.fcs, crc.mcrc):
                mframes += [mframe.start(3, octets[:kept], crc.mcrc(octets[:kept])),
                            mframe.continuation(3, 0, octets[kept:together], check(octets[:together]))]
    return mframes


def checks_begun_anew(chance):
    """Continuations whose check is right over their own data, or from an earlier fragment on, and not over the frame: 25."""
    body = chance.octets(200)
    first, second, third = exchange.Sender().frame(body, 0)
    own, later = body[60:120], body[120:]
    mframes = []
    for check in (crc.fcs, crc.mcrc):
        mframes += [first, mframe.continuation(0, 0, own, check(own)),
                    first, second, mframe.continuation(0, 1, later, check(later)),
                    first, second, mframe.continuation(0, 1, later, check(own + later))]
    # Undisturbed, the same frame is delivered.
    return mframes + [first, second, third]


def every_preamble(chance):
    """Behind none to nine octets 55: E, V, R, a frame in one mFrame and one in two, and an unknown delimiter near 55 or E.

    Then frames in parts of different numbers.
    """
    body = chance.octets(120)
    fcs, mcrc = crc.fcs(body[:60]), crc.mcrc(body[:60])
    mframes = []
    for preamble in range(10):
        mframes += [mframe.header(preamble, code) + body[:60] + check
                    for code, check in ((0xD5, fcs), (0x07, mcrc), (0x19, mcrc), (0xE6, fcs), (0x4C, mcrc))]
        mframes += [mframe.header(preamble, 0x52, 0xE6) + body[60:] + crc.fcs(body),
                    mframe.header(preamble, (0xD4, 0x54)[preamble % 2]) + body[:60] + fcs]
    for left in ((7, 0, 3, 6, 1), (0, 6, 5, 0, 4)):
        mframes += [octets[-len(octets.lstrip(exchange.LEADING)) - preamble:] for octets, preamble in zip(
            exchange.Sender(next_frame_count=2).frame(chance.octets(300), 0), left)]
    return mframes


def ends_in_the_head():
    """Octets 55 alone, then delimiters with nothing behind them, and continuations without and with a fragment code."""
    mframes = [mframe.header(preamble) for preamble in (0, 1, 6, 7, 8, 9, 72, 1600)]
    for preamble in (0, 3, 6, 7, 8):
        mframes += [mframe.header(preamble, *behind) for behind in (
            (0xD5,), (0xE6,), (0x00,), (0x61,), (0x61, 0xE6), (0x61, 0x55))]
    return mframes


def limits_behind_the_header(chance):
    """63 and 64, 1,522 and 1,523 octets behind headers of 1 to 9 octets, the checks being right; C behind its start."""
    first = chance.octets(60)
    mframes = []
    for behind in (63, 64, 1522, 1523):
        data = chance.octets(behind - crc.CHECK_OCTETS)
        for preamble in range(8) if behind < 1000 else (0, 6, 7):
            mframes += [mframe.header(preamble, 0xD5) + data + crc.fcs(data),
                        mframe.header(7 - preamble, 0xB3) + first + crc.mcrc(first),
                        mframe.header(preamble, 0x2A, 0xE6) + data + crc.fcs(first + data)]
    return mframes


def refusals_that_meet(chance):
    """Heads to which two of 14, 15, 17, 12 and 13 apply: the first in this order answers."""
    heads = (mframe.header(8, 0xD5), mframe.header(8, 0x00), mframe.header(8, 0x61, 0x00), mframe.header(7, 0x57),
             mframe.header(0, 0xAD), mframe.header(7, 0x61, 0x55), mframe.header(0, 0x2A, 0xD5))
    return [head + chance.octets(behind) for behind in (0, 1, 63, 64, 1523, 1590) for head in heads]


def data_like_a_head(chance):
    """Data that begin with octets 55 or with delimiters, in E, in a start and in its continuation."""
    mframes = []
    for front in (b"\x55", b"\x55" * 8, b"\xD5", b"\x55\x55\xD5", b"\x61\xE6", b"\xE6"):
        data = (front + chance.octets(60))[:60]
        for preamble in (0, 5):
            mframes += [mframe.header(preamble, 0xD5) + data + crc.fcs(data),
                        mframe.header(preamble, 0x7F) + data + crc.mcrc(data),
                        mframe.header(preamble, 0x9E, 0xE6) + data + crc.fcs(data + data)]
    return mframes


def shortened_preambles():
    """What document 02, (vi) brought: heads of every length, and what is refused of them."""
    chance = Chance(SEED + 5)
    return (every_preamble(chance) + ends_in_the_head() + limits_behind_the_header(chance)
            + refusals_that_meet(chance) + data_like_a_head(chance))


def answers():
    chance, more = Chance(SEED + 1), Chance(SEED + 4)
    return trace.written(every_answer(chance) + damage_in_every_field(chance) + every_refused_length(chance)
                         + verification_with_any_data(more) + drops_that_meet(more) + at_the_limit(more)
                         + checks_begun_anew(more) + shortened_preambles())


def small_parts(chance, count):
    """So many mFrames, nearly all as short as can be: the trace is to have many records and not many octets."""
    sender = exchange.Sender()
    mframes = []
    while len(mframes) < count:
        which = chance.below(12)
        if which == 0:
            mframes.append(mframe.verify() if chance.below(2) == 0 else mframe.respond())
        elif which < 4:
            mframes.append(mframe.express(chance.octets(chance.between(60, 62))))
        elif which < 11:
            # Parts of 60 octets each, seldom some more, and a little over 60 in the last.
            pieces = chance.below(4) if chance.below(30) else chance.between(4, 22)
            body = chance.octets(min(1518, 60 * pieces + chance.between(60, 64)))
            for octets in sender.frame(body, chance.below(65)):
                mframes.append(octets)
                # A press breaks in where a fragment ends.
                if chance.below(6) == 0:
                    mframes.append(mframe.express(chance.octets(60)))
        elif chance.below(25) == 0:
            mframes += sender.frame(chance.octets(chance.between(200, 1518)), chance.below(1500))
    return mframes


def piece_of_noise(chance):
    """Mostly a few octets, some of them as a head begins; seldom one that is longer than any mFrame."""
    if chance.below(250) == 0:
        head = mframe.header(chance.below(8), 0xD5) if chance.below(2) == 0 else b""
        return head + chance.octets(chance.between(1531, 1600) - len(head))
    which = chance.below(3)
    if which == 0:
        return mframe.header(chance.below(10), *[(), (0xD5,), (0xE6,), (0x61,)][chance.below(4)])
    return mframe.header(chance.below(3)) + chance.octets(chance.below(40))


def long():
    """20,000 records: a long exchange with loss, damage and shortened preambles, and pieces of noise in great number."""
    chance = Chance(SEED + 2)
    mframes = []
    sent = exchange.swallowed(small_parts(chance, LONG_TRACE_RECORDS), chance)
    for octets in exchange.over_a_noisy_row(sent, chance, 7):
        mframes.append(octets)
        if chance.below(7) == 0:
            mframes.append(piece_of_noise(chance))
    return trace.written(mframes[:LONG_TRACE_RECORDS])


def before_a_refused_record():
    """Some good records, of which each counter has something, and an assembly left open."""
    first, second, third = exchange.Sender().frame(Chance(SEED + 3).octets(190), 0)
    return trace.written([first, second, third, second, first, first])


def behind_a_refused_record():
    """What must not be read any more."""
    return trace.written([mframe.verify(), mframe.respond()])


def all_traces():
    """Every trace by its name."""
    good, behind = before_a_refused_record(), behind_a_refused_record()
    whole = mframe.verify()
    return {
        "example": example(),
        "row": row(),
        "answers": answers(),
        "long": long(),
        # Three octets of a header, as they could begin a good record.
        "refused_50": good + trace.HEADER.pack(72, 1)[:3],
        # One octet too long, all there, and of another kind as well: 51 comes first.
        "refused_51": good + trace.HEADER.pack(1601, 2) + bytes(1601) + behind,
        # 257 has a 1 in its lower octet. The content is cut as well: 52 comes first.
        "refused_52": good + trace.HEADER.pack(72, 257) + whole[:50],
        # All of a V but its last octet.
        "refused_53": good + trace.HEADER.pack(72, 1) + whole[:-1],
        "empty": b"",
    }


# The programs that have a trace of their own: document 01's example, and the sample that `make list` lists.
PROGRAMS = {"example": "test_example", "row": "mmlist"}


def places(name):
    """Where a trace and its listing are stored: with the program that has it as its own, else in tests/traces."""
    if name in PROGRAMS:
        return f"crates/{PROGRAMS[name]}/stdin", f"crates/{PROGRAMS[name]}/stdout"
    return f"tests/traces/{name}.trace", f"tests/traces/{name}.listing"


def files():
    made = []
    for name, octets in all_traces().items():
        of_trace, of_listing = places(name)
        made.append(stored.StoredFile(of_trace, octets, is_text=False))
        made.append(stored.StoredFile(of_listing, mmlist.listing(octets).encode("ascii"), is_text=True))
    return made


if __name__ == "__main__":
    sys.exit(stored.run(files(), sys.argv[1:]))
