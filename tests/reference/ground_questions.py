"""The questions asked about document 01's "Octets of an mFrame", the ending and the cut.

Answers are not looked at here: only the check octets that an ending question needs
are made with the reference.
"""

import crc
from chance import Chance
from cut import least_part
from ground_format import (
    check_question,
    count_question,
    cut_question,
    ending_question,
    lay_question,
    octet_question,
)

GREATEST = 2**64 - 1
SEED = 8023


def octet_questions():
    return [octet_question(octet) for octet in range(256)]


def count_questions():
    return [count_question(count) for count in range(256)]


def check_questions(chance):
    return [
        check_question(crc.ALL_ONES, b"123456789"),
        check_question(crc.ALL_ONES, b""),
        check_question(0, b""),
        check_question(0, b"123456789"),
        check_question(0, bytes(9)),
        check_question(crc.ALL_ONES, bytes(60)),
        check_question(crc.ALL_ONES, bytes([0xFF]) * 9),
        check_question(crc.ALL_ONES, chance.octets(1600)),
        check_question(chance.register(), bytes(place % 256 for place in range(1600))),
    ]


def marked_cuts():
    """Document 01, "Marked examples", as document 02, (ii) has them."""
    return [
        cut_question(124, 0, 0, 1, 0),
        cut_question(123, 0, 0, 1, 0),
        cut_question(128, 0, 0, 1, 65),
        cut_question(1522, 0, 0, 1, 1458),
        cut_question(1522, 0, 0, 1, 1459),
        cut_question(316, 0, 3, 1, 0),
    ]


def cuts_at_the_limits():
    """Both sides of each limit, for the four settings of extra and for some that only a hand makes."""
    questions = []
    for extra in (0, 1, 2, 3):
        least = least_part(extra)
        for remaining in (least + 63, least + 64, least + 65, least + 66, 1522):
            for sent in (0, 60, 701):
                for on_wire in (0, least - 1, least, least + 1, remaining - 65, remaining - 64,
                                remaining - 63, GREATEST):
                    questions.append(cut_question(remaining + sent, sent, extra, 1, on_wire))
    for extra in (4, 17, 128, 255):
        least = least_part(extra)
        for remaining in (least + 63, least + 64, least + 65):
            for sent in (0, 60):
                for on_wire in (0, least, least + 1, remaining - 64, remaining - 63):
                    questions.append(cut_question(remaining + sent, sent, extra, 1, on_wire))
    return questions


def cuts_of_every_short_body():
    return [cut_question(body + 4, 0, 0, 1, 0) for body in range(60, 141)]


def cuts_of_the_longest_bodies():
    questions = []
    for body in (1517, 1518):
        frame_octets = body + 4
        # The most that may have been sent so that a cut is still lawful.
        most = frame_octets - 64 - least_part(0)
        for sent in (0, 60, 1320, most - 1, most, most + 1, body - 60):
            for on_wire in (0, least_part(0), least_part(0) + 1, 1457, 1458, 1459):
                questions.append(cut_question(frame_octets, sent, 0, 1, on_wire))
    return questions


def cuts_with_too_much_sent():
    """Octets sent up to and beyond the frame: nothing can be cut off what does not remain."""
    questions = []
    for extra in (0, 3):
        least = least_part(extra)
        for frame_octets in (0, 64, 124, 1522):
            # The last two lines: where sent and the least part and 64, then sent and 64 alone, go round in 64 bits.
            for sent in (frame_octets, frame_octets + 1, frame_octets + 64, frame_octets + 64 + least, 2**32, 2**63,
                         GREATEST - 64 - least, GREATEST - 63 - least,
                         GREATEST - 63, GREATEST):
                questions.append(cut_question(frame_octets, sent, extra, 1, 0))
    return questions


def cuts_without_ask():
    """No ask, whatever t says; and asks that are not written as 1."""
    questions = []
    for frame_octets in (64, 124, 1522, GREATEST):
        for sent in (0, 60):
            for on_wire in (0, 60, GREATEST):
                questions.append(cut_question(frame_octets, sent, 0, 0, on_wire))
    for asked in (2, 16, 128, 255):
        questions.append(cut_question(1522, 0, 1, asked, 300))
    return questions


def cuts_of_huge_numbers():
    """Numbers beyond 16, 32 and 63 bits.

    The reference tries every n from 0 on, so each of these has an end within reach for
    one of two reasons: the least lawful n is small because t is, or fewer than 20,000
    octets remain (L - s), after which no n is lawful.
    """
    questions = []
    # t is small, so the answer is small however much remains.
    for frame_octets in (70_000, 2**16 + 10, 2**32 + 10, 2**63, GREATEST):
        for extra in (0, 3, 255):
            least = least_part(extra)
            for on_wire in (0, least, least + 1):
                questions.append(cut_question(frame_octets, 0, extra, 1, on_wire))
        questions.append(cut_question(frame_octets, 1394, 0, 1, 5000))
    # 65,536 is still within reach.
    questions.append(cut_question(70_000, 0, 0, 1, 65_536))
    questions.append(cut_question(65_600, 0, 0, 1, 65_536))
    questions.append(cut_question(65_599, 0, 0, 1, 65_536))
    # Little remains, so that no n can be lawful from there on, however large t is.
    for frame_octets in (2**32 + 5, 2**63 + 5, GREATEST):
        for extra in (0, 3, 255):
            least = least_part(extra)
            for remaining in (0, 63, 64, least, least + 63, least + 64, least + 65):
                for on_wire in (0, least + 1, GREATEST - 63):
                    questions.append(cut_question(frame_octets, frame_octets - remaining, extra, 1, on_wire))
    # The frame is short, and t is beyond it by far.
    for frame_octets in (0, 63, 64, 123, 124, 1522):
        for on_wire in (2**8, 2**16, 2**32, 2**32 + 64, 2**63, GREATEST - 64, GREATEST - 63, GREATEST - 62,
                        GREATEST):
            questions.append(cut_question(frame_octets, 0, 0, 1, on_wire))
    return questions


def random_cuts(chance):
    questions = []
    for _ in range(300):
        frame_octets = chance.between(60, 1518) + 4
        # One in three has nothing sent yet, as most frames do.
        sent = 0 if chance.below(3) == 0 else chance.between(60, frame_octets)
        extra = chance.below(4)
        asked = 0 if chance.below(20) == 0 else 1
        # t mostly within what remains, sometimes beyond it.
        on_wire = chance.below(frame_octets - sent + 100)
        questions.append(cut_question(frame_octets, sent, extra, asked, on_wire))
    return questions


def cut_questions(chance):
    questions = (marked_cuts() + cuts_at_the_limits() + cuts_of_every_short_body()
                 + cuts_of_the_longest_bodies() + cuts_with_too_much_sent() + cuts_without_ask()
                 + cuts_of_huge_numbers() + random_cuts(chance))
    # Limits fall together at places; each question is kept once, in the order made.
    return list(dict.fromkeys(questions))


def with_wrong_bit(check, place):
    """The four check octets with one of their 32 bits the other way round."""
    return (int.from_bytes(check, "little") ^ (1 << place)).to_bytes(4, "little")


def endings_of(register, data, wrong_places):
    """Right and wrong endings of the same data."""
    after = crc.register_after(register, data)
    fcs = crc.fcs_of_register(after)
    mcrc = crc.mcrc_of_register(after)
    checks = [fcs, mcrc]
    # The standard's own mCRC, by which it is the first two octets that differ from the FCS.
    checks.append(bytes([fcs[0] ^ 0xFF, fcs[1] ^ 0xFF, fcs[2], fcs[3]]))
    # Highest octet first, and all four inverted: the complement forgotten.
    checks.append(fcs[::-1])
    checks.append(mcrc[::-1])
    checks.append(bytes(octet ^ 0xFF for octet in fcs))
    for place in wrong_places:
        checks.append(with_wrong_bit(fcs, place))
        checks.append(with_wrong_bit(mcrc, place))
    return [ending_question(register, data + check) for check in checks]


def endings_too_short(chance):
    """Fewer than four octets in all, among them the beginning of a right check."""
    questions = []
    for register in (crc.ALL_ONES, 0, chance.register()):
        for length in range(4):
            questions.append(ending_question(register, crc.fcs_of_register(register)[:length]))
            questions.append(ending_question(register, bytes(length)))
    return questions


def endings_begun_anew(chance):
    """A later part of a frame whose check was wrongly begun with all ones, and the right one beside it."""
    questions = []
    for length in (60, 64, 200):
        register = crc.register_after(crc.ALL_ONES, chance.octets(64))
        data = chance.octets(length)
        for check in (crc.fcs(data), crc.mcrc(data)):
            questions.append(ending_question(register, data + check))
        questions.extend(endings_of(register, data, ()))
    return questions


def ending_questions(chance):
    questions = endings_too_short(chance)
    all_places = range(32)
    for length in range(9):
        for register in (crc.ALL_ONES, chance.register()):
            questions.extend(endings_of(register, chance.octets(length), all_places))
    questions.extend(endings_of(0, b"", all_places))
    questions.extend(endings_of(crc.ALL_ONES, chance.octets(64), all_places))
    questions.extend(endings_of(chance.register(), chance.octets(64), (0, 15, 16, 31)))
    # The longest body: FCS, mCRC and the standard's own mCRC. All 32 wrong places were
    # asked above, and so long a question for each of them would only make the file larger.
    for register in (crc.ALL_ONES, chance.register()):
        questions.extend(endings_of(register, chance.octets(1518), ())[:3])
    # The longest run of octets that the format allows.
    questions.append(endings_of(crc.ALL_ONES, chance.octets(2044), ())[0])
    # 60 zero octets and an mCRC are what V and R carry.
    questions.extend(endings_of(crc.ALL_ONES, bytes(60), ()))
    questions.extend(endings_begun_anew(chance))
    for _ in range(20):
        register = chance.register()
        questions.extend(endings_of(register, chance.octets(chance.below(120)), (chance.below(32),))[:2])
        # Octets that mean nothing.
        questions.append(ending_question(register, chance.octets(chance.below(20))))
    return questions


def short_lays(chance):
    """Pieces of every length from 0 to 40 in a memory of 56 octets."""
    questions = []
    for length in range(41):
        piece = chance.octets(length)
        # In front, at two places of other alignment, at the very end, and one octet too far.
        for place in (0, 3 + length % 8, 16, 56 - length, 57 - length):
            questions.append(lay_question(chance.octets(56), piece, place))
    return questions


def lays_at_odd_ends(chance):
    """No memory, no piece, places far outside, and sums that do not fit 16 bits."""
    return [
        lay_question(b"", b"", 0),
        lay_question(b"", b"", 1),
        lay_question(b"", b"\x01", 0),
        lay_question(b"\x01", b"", 0),
        lay_question(b"\x01", b"", 1),
        lay_question(b"\x01", b"", 2),
        lay_question(b"\x01", b"\x02", 0),
        lay_question(b"\x01", b"\x02", 1),
        lay_question(b"\x01", b"\x02", 65_535),
        lay_question(chance.octets(8), chance.octets(8), 65_528),
        lay_question(chance.octets(8), chance.octets(9), 65_528),
        lay_question(chance.octets(8), chance.octets(9), 0),
        lay_question(chance.octets(8), b"", 65_535),
        lay_question(chance.octets(2048), chance.octets(2048), 0),
        lay_question(chance.octets(1518), chance.octets(60), 1458),
        lay_question(chance.octets(1518), chance.octets(60), 1459),
    ]


def long_lays(chance):
    """Pieces of about 1,500 octets, with place and length at every distance from a multiple of 8."""
    questions = []
    for place in range(8):
        for length in range(1480, 1488):
            # Some octets always remain behind the piece, so that one written too far is seen.
            questions.append(lay_question(chance.octets(1498), chance.octets(length), place))
    return questions


def lay_questions(chance):
    return short_lays(chance) + lays_at_odd_ends(chance) + long_lays(chance)


def all_questions():
    """Every question, in the order in which they are stored."""
    chance = Chance(SEED)
    return (octet_questions() + count_questions() + check_questions(chance) + cut_questions(chance)
            + ending_questions(chance) + lay_questions(chance))
