"""The questions asked about document 02's request (vii), the captures.

Answers are not looked at here: traces, captures and the rooms that are lent are chosen by what is put into them.
"""

from itertools import permutations, product

from captures_format import MOST_OCTETS, READ, WRITE, question
from chance import Chance

SEED = 8071
ORDERS = ("little", "big")
GREATEST_WORD = 2**32 - 1

# Document 02's magic, that of times in nanoseconds, that of another old form, and a pcapng file's first block.
MAGIC, NANOSECONDS, MODIFIED, PCAPNG = 0xA1B2C3D4, 0xA1B23C4D, 0xA1B2CD34, 0x0A0D0D0A

FILE_HEADER = {"magic": 4, "major": 2, "minor": 2, "zone": 4, "accuracy": 4, "snap": 4, "link": 4}
USUAL = {"magic": MAGIC, "major": 2, "minor": 4, "zone": 0, "accuracy": 0, "snap": 1600, "link": 274}

# Stored lengths that are too great, each with a low part that would do: about each octet of a word, and about its sign.
TOO_GREAT = (1601, 1602, 2048, 65_535, 2**16, 2**16 + 1, 2**16 + 3, 2**16 + 1600, 2**24, 2**24 + 3, 2**31 - 1, 2**31,
             2**31 + 3, GREATEST_WORD - 1600, GREATEST_WORD - 2, GREATEST_WORD)


def filling(length, first=0x11):
    """So many octets, each another than the next."""
    return bytes((first + place) % 256 for place in range(length))


def file_header(order, **other):
    """The 24 octets before all records; any number in them may be another."""
    return b"".join({**USUAL, **other}[name].to_bytes(octets, order) for name, octets in FILE_HEADER.items())


def record_header(order, stored, original, seconds=0, microseconds=0):
    return b"".join(number.to_bytes(4, order) for number in (seconds, microseconds, stored, original))


def record(order, length, there=None, original=None):
    """A record that says so, with so many octets of content there; else it is whole."""
    return (record_header(order, length, length if original is None else original)
            + filling(length if there is None else there))


def trace_record(length, there=None, kind=1):
    """A record of a trace that says so, with so many octets of content there; else it is whole."""
    return length.to_bytes(2, "little") + kind.to_bytes(2, "little") + filling(length if there is None else there)


def capture_of(order, contents):
    return file_header(order) + b"".join(
        record_header(order, len(content), len(content)) + content for content in contents)


def trace_of(contents):
    return b"".join(trace_record(len(content), 0) + content for content in contents)


def some_contents(chance, count, most=12):
    return [chance.octets(chance.below(most + 1)) for _ in range(count)]


def with_bit_turned(octets, bit):
    place = bit // 8
    return octets[:place] + bytes([octets[place] ^ 1 << bit % 8]) + octets[place + 1:]


class Script:
    """Questions one after the other."""

    def __init__(self):
        self.questions = []

    def ask(self, kind, octets, room):
        # The first octet of the memory that is lent changes from call to call.
        fill = (37 * len(self.questions)) % 256
        self.questions.append(question(kind, octets, min(room, MOST_OCTETS), fill))

    def read(self, capture, room=None):
        """Where no room is named, more than the capture has octets, and so more than its trace needs."""
        self.ask(READ, capture, len(capture) + 24 if room is None else room)

    def write(self, trace, room=None):
        """Where no room is named, more than a trace as long can need: at most it has a record in every four octets."""
        self.ask(WRITE, trace, 4 * len(trace) + 30 if room is None else room)

    def refused(self, call, octets):
        """With room, and with none."""
        call(octets)
        call(octets, 0)

    def about(self, call, octets, needed):
        """A call with no room, one octet too little, just enough, and more."""
        for room in (0, needed - 1, needed, needed + 1, needed + 40):
            if room >= 0:
                call(octets, room)

    def every_room(self, contents):
        """Both calls on a trace and its capture in both orders, with every room about what each needs."""
        trace, captures = trace_of(contents), [capture_of(order, contents) for order in ORDERS]
        self.about(self.write, trace, len(captures[0]))
        for capture in captures:
            self.about(self.read, capture, len(trace))


def no_records(script, _chance):
    for room in (0, 1, 23, 24, 25, 300, MOST_OCTETS):
        script.write(b"", room)
        script.read(file_header("little"), room)
        script.read(file_header("big"), room)


def every_small_room(script, _chance):
    """Three records, the second of no content: every room from none to more than either call needs."""
    contents = [filling(5), b"", filling(2, 0xC0)]
    for room in range(90):
        script.write(trace_of(contents), room)
        script.read(capture_of(ORDERS[room % 2], contents), room)


def cut_file_headers(script, _chance):
    """Ended behind each octet, also where magic, version or link type would be refused: 70 comes first."""
    headers = [file_header(order, **other) for order in ORDERS
               for other in ({}, {"magic": NANOSECONDS}, {"major": 4, "minor": 2}, {"link": 1})]
    for header, there in product((*headers, bytes(24), b"\xFF" * 24), range(24)):
        script.read(header[:there])
    script.read(b"", 0)


def every_bit_of_the_headers(script, _chance):
    """Of both headers each bit turned in turn, in both orders, a record behind."""
    for order in ORDERS:
        octets = file_header(order) + record(order, 3)
        for bit in range(8 * 40):
            script.read(with_bit_turned(octets, bit))


def magics(script, _chance):
    """Other kinds of files, and the right octets in every order, with all the rest in either order."""
    numbers = (NANOSECONDS, MODIFIED, PCAPNG, 0, GREATEST_WORD, 0x1A2B3C4D, 0xA1A1A1A1, 2 * MAGIC % 2**32)
    known = [number.to_bytes(4, order) for number, order in product(numbers, ORDERS)]
    shuffled = [bytes(octets) for octets in permutations(MAGIC.to_bytes(4, "big"))]
    for magic, order in product((*known, *shuffled), ORDERS):
        script.read(magic + file_header(order)[4:] + record(order, 2))


def versions(script, _chance):
    """Versions about 2.4, and those whose octets or halves would be right in another place."""
    numbers = (0, 1, 2, 3, 4, 5, 24, 0x0102, 0x0104, 0x0200, 0x0202, 0x0204, 0x0400, 0x0402, 0x8002, 0x8004, 0xFFFF)
    for order, major, minor in product(ORDERS, numbers, numbers):
        if major in (2, 4, 0x0200) or minor in (4, 2, 0x0400):
            script.read(file_header(order, major=major, minor=minor) + record(order, 1))


def link_types(script, _chance):
    """Others, and those that have 274 in some of their bits."""
    numbers = (0, 1, 18, 113, 147, 256, 273, 275, 276, 0x1201, 274 << 8, 274 << 16, 0x1201 << 16, 274 + 2**16,
               274 + 2**24, 274 + 2**26, 274 + 2**28, 274 + 2**31, 274 + 0xF000_0000, 274 * 65_537, GREATEST_WORD)
    for order, number in product(ORDERS, numbers):
        script.read(file_header(order, link=number) + record(order, 1))


def fields_that_are_not_looked_at(script, chance):
    """Zone, accuracy, snap length and times, each alone and all together, about every limit that one may think of."""
    numbers = (1, 2, 3, 1599, 1601, 65_535, 262_144, 999_999, 1_000_000, 2**31, GREATEST_WORD)
    names = ("zone", "accuracy", "snap", "seconds", "microseconds")
    for order, number, name in product(ORDERS, (0, *numbers), names):
        in_file, in_record = ({name: number}, {}) if name in FILE_HEADER else ({}, {name: number})
        script.read(file_header(order, **in_file) + record_header(order, 3, 3, **in_record) + filling(3))
    for order, number in product(ORDERS, numbers):
        header = file_header(order, zone=number, accuracy=GREATEST_WORD - number, snap=number)
        records = [record_header(order, length, length, number, chance.register()) + chance.octets(length)
                   for length in (4, 0, 1)]
        script.read(header + b"".join(records), 17)


def faults_of_a_file_header_that_meet(script, _chance):
    """Each of 70 to 73 with each other, and with records that are good, refused or cut."""
    for order, magic, version, link in product(ORDERS, (MAGIC, NANOSECONDS), ((2, 4), (2, 3)), (274, 1)):
        header = file_header(order, magic=magic, major=version[0], minor=version[1], link=link)
        behind = (b"", record(order, 2), record(order, 2, original=3), record(order, 9, 4), b"\x00")
        script.read(header[:23])
        for octets in behind:
            script.refused(script.read, header + octets)


def cut_record_headers(script, chance):
    """Ended behind each octet of a record's header, also where its lengths would be refused."""
    for order, before in product(ORDERS, (0, 2)):
        good = capture_of(order, some_contents(chance, before))
        headers = (bytes(16), record_header(order, 3, 3), record_header(order, 1601, 1601), b"\xFF" * 16)
        for header, there in product(headers, range(1, 16)):
            script.read(good + header[:there])


def lengths(script, _chance):
    """Records of every kind of length, whole, with one octet behind, and one octet short."""
    for order, length in product(ORDERS, (0, 1, 2, 15, 16, 17)):
        capture = file_header(order) + record(order, length)
        script.about(script.read, capture, length + 4)
        script.read(capture + b"\x00")
        if length > 0:
            script.refused(script.read, capture[:-1])
    for order, length in product(ORDERS, (255, 256, 257, 1599, 1600)):
        capture = file_header(order) + record(order, length)
        script.read(capture, length + 4)
        script.read(capture[:-1])


def lengths_that_are_too_great(script, chance):
    """Over 1,600, with no octet there, with as many as the low part asks for, and the whole record once."""
    for order, length in product(ORDERS, TOO_GREAT):
        good = capture_of(order, some_contents(chance, chance.below(3)))
        low_part = length % 2**16
        for there in (0, 3, low_part if low_part < 100 else 1):
            script.read(good + record(order, length, there))
        script.read(good + record(order, length, 4), 0)
    for order, length in product(ORDERS, (1601, 1602)):
        script.read(file_header(order) + record(order, length) + record(order, 1))
        script.read(file_header(order) + record(order, length, length - 1))


def lengths_in_the_other_order(script, _chance):
    """Lengths of which one or both are written in the other order: one that is not 0 is too great, or differs."""
    for order, other in (ORDERS, ORDERS[::-1]):
        for length in (1, 3, 0x0101, 0x0201, 1600):
            in_order, turned = length.to_bytes(4, order), length.to_bytes(4, other)
            for numbers in (turned + turned, in_order + turned, turned + in_order):
                script.read(file_header(order) + bytes(8) + numbers + filling(length % 256))


def lengths_that_differ(script, chance):
    """A stored and another original length, the content there or cut, and a record behind."""
    for order, stored in product(ORDERS, (0, 1, 3, 20)):
        others = (stored + 1, stored - 1, 0, 1, 60, 1600, 1601, stored + 2**8, stored + 2**16, stored + 2**24,
                  stored + 2**31, GREATEST_WORD)
        for original in sorted({other for other in others if other >= 0} - {stored}):
            good = capture_of(order, some_contents(chance, chance.below(3)))
            script.refused(script.read, good + record(order, stored, original=original) + record(order, 1))
            script.read(good + record(order, stored, max(0, stored - 1), original))


def faults_of_a_record_that_meet(script, chance):
    """Stored too much, stored in part and cut, each with each, behind some good records; and the header cut as well."""
    for order, stored, missing, more in product(ORDERS, (0, 5, 1601, 2**16 + 5, GREATEST_WORD), (0, 1), (-1, 0, 1)):
        good = capture_of(order, some_contents(chance, chance.below(4)))
        original = (stored + more) % 2**32
        there = max(0, stored % 2**16 % 1596 - missing)
        octets = good + record(order, stored, there, original)
        script.refused(script.read, octets)
        script.read(octets[:len(good) + chance.between(1, 15)])


def faults_in_two_records(script, chance):
    """The first record that is refused decides, whatever the next one is."""
    for order, between in product(ORDERS, (0, 1, 2)):
        good = b"".join(record(order, chance.below(4)) for _ in range(between))
        whole = (record(order, 4, original=5), record(order, 0, original=1), record(order, 6, original=2**16 + 6))
        cut = (record(order, 3)[:9], record(order, 4, 3), record(order, 1601, 2), record(order, 5, 0, 4), b"\xFF")
        for first, second in product(whole, (*whole, *cut)):
            script.read(file_header(order) + good + first + good + second)
    for order in ORDERS:
        too_long = file_header(order) + record(order, 2) + record(order, 1601)
        for second in (record(order, 4, original=5), record(order, 4, 3), record(order, 1601, 2), b"\x00"):
            script.read(too_long + second)


def contents_like_headers(script, chance):
    """Content that begins as an mFrame does, or looks like a header or a record; and every octet."""
    fronts = [b"\x55" * 7 + b"\xD5" + filling(9), b"\x55", file_header("little"), file_header("big"),
              record("little", 3), record("big", 3), trace_record(2), b"\xFF" * 17, bytes(17), bytes(range(256))]
    for front in fronts[:-1]:
        script.every_room([front])
    script.every_room(fronts)
    script.every_room([fronts[chance.below(len(fronts) - 1)] for _ in range(9)])
    # A capture given as a trace, and a trace as a capture.
    for octets in (capture_of("little", fronts), capture_of("big", fronts), trace_of(fronts)):
        script.write(octets)
        script.read(octets)


def cuts(script, chance):
    """Captures and traces of four records, ended behind each octet."""
    contents = some_contents(chance, 4, 7)
    for octets, call in ((capture_of("little", contents), script.read), (capture_of("big", contents), script.read),
                         (trace_of(contents), script.write)):
        for there in range(len(octets) + 1):
            call(octets[:there])


def trace_headers(script, chance):
    """Of a trace's record: headers that are cut, every bit turned, and lengths and kinds about each limit."""
    good = trace_of(some_contents(chance, 3))
    for header, there, before in product((trace_record(3, 0), trace_record(0xFFFF, 0, 0xFFFF), trace_record(0, 0, 2)),
                                         (1, 2, 3), (b"", good)):
        script.refused(script.write, before + header[:there])
    for bit in range(32):
        script.write(with_bit_turned(trace_record(3) + trace_record(1), bit))
    for length, kind, there in product((0, 1, 5, 1600, 1601, 1602, 2048, 0x8005, 0xFFFF),
                                       (0, 1, 2, 255, 256, 257, 0x8001, 0xFFFF), (0, 4, 5, 6)):
        script.write(good[:chance.below(2) * len(good)] + trace_record(length, there, kind))


def trace_lengths(script, _chance):
    """Records of a trace about the greatest length, whole and one octet short, of a good kind and of another."""
    for length in (1, 255, 256, 257, 1599, 1600):
        script.write(trace_record(length), length + 40)
        script.write(trace_record(length), length + 39)
        script.write(trace_record(length, length - 1))
    script.write(trace_record(1600, kind=2))
    script.write(trace_record(1601, kind=2) + trace_record(1))
    script.write(trace_record(1601) + trace_record(1), 0)
    script.write(trace_record(1601, 1600))


def trace_faults_in_two_records(script, chance):
    """The first record that is refused decides, each fault once alone; a whole record of 1,601 octets before others."""
    faults = (trace_record(3, kind=2), trace_record(0, kind=0), trace_record(3, 2), b"\x01\x00\x01", b"\xFF",
              trace_record(1601, 2), trace_record(9, 0, 257))
    for before, first, second in product((0, 1, 2), (*faults[:2], b""), faults):
        good = trace_of(some_contents(chance, before))
        script.refused(script.write, good + first + good + second)
    for second in (*faults[:4], faults[5]):
        script.write(trace_record(1) + trace_record(1601) + second)


def long_ones(script, chance):
    """As much as a question holds: five of the longest records, and very many that are empty."""
    longest = [chance.octets(1600) for _ in range(5)]
    script.write(trace_of(longest), 24 + 5 * 1616)
    script.read(capture_of("big", longest), 5 * 1604)
    # 510 empty records fill a capture; in a trace four times as many have room, whose capture has none.
    script.read(capture_of("little", [b""] * 510))
    script.write(trace_of([b""] * 510), 24 + 16 * 510)
    script.write(trace_of([b""] * 511), MOST_OCTETS)
    script.write(trace_of([b""] * 2048), MOST_OCTETS)


def late_refusals(script, _chance):
    """A record that is refused behind 254, 255 and some more that are empty: its number has two octets."""
    for before, fault in product((254, 255), (b"\x07", trace_record(1601, 0), trace_record(0, kind=2),
                                              trace_record(4, 3))):
        script.write(trace_of([b""] * before) + fault)
    for before, order in ((254, "little"), (255, "big")):
        script.read(capture_of(order, [b""] * before) + record(order, 4, original=5))
    script.read(capture_of("big", [b""] * 255) + b"\x07")
    script.read(capture_of("little", [b""] * 300) + record("little", 4, 3), 0)


def random_ones(script, chance):
    """Good traces and captures of every small number of records, and of some greater ones."""
    for count in range(9):
        script.every_room(some_contents(chance, count, 9))
    for _ in range(2):
        script.every_room(some_contents(chance, chance.between(9, 16), 40))


def random_capture(chance):
    """A good capture of another maker: any order, times and numbers that are not looked at."""
    order = ORDERS[chance.below(2)]
    header = file_header(order, zone=chance.register(), accuracy=chance.register(), snap=chance.register())
    contents = some_contents(chance, chance.below(5), 30)
    return header + b"".join(record_header(order, len(content), len(content), chance.register(), chance.register())
                             + content for content in contents)


def damaged(octets, chance):
    """Octets with one of five kinds of damage."""
    place = chance.below(len(octets))
    which = chance.below(5)
    if which < 2:
        return with_bit_turned(octets, 8 * place + chance.below(8))
    if which == 2:
        return octets[:place] + octets[place + 1:]
    if which == 3:
        return octets[:place] + bytes([chance.below(8)]) + octets[place:]
    return octets[:place]


def damaged_ones(script, chance):
    """Captures and traces before and after damage, with much room and with little."""
    for _ in range(90):
        capture = random_capture(chance)
        script.read(capture, chance.below(100))
        script.read(damaged(capture, chance), chance.below(100) if chance.below(3) == 0 else None)
    for _ in range(200):
        trace = trace_of(some_contents(chance, chance.between(1, 5), 20))
        script.write(damaged(trace, chance), chance.below(200) if chance.below(3) == 0 else None)


def any_octets(script, chance):
    """Octets of no meaning, behind a good header of a capture, and as a trace; most of them small."""
    for turn in range(120):
        octets = bytes(chance.below(4) if chance.below(3) else 0 for _ in range(chance.below(60)))
        script.read(file_header(ORDERS[turn % 2]) + octets)
        script.write(octets)
        script.read(chance.octets(chance.below(40)))


PARTS = (no_records, every_small_room, cut_file_headers, every_bit_of_the_headers, magics, versions, link_types,
         fields_that_are_not_looked_at, faults_of_a_file_header_that_meet, cut_record_headers, lengths,
         lengths_that_are_too_great, lengths_in_the_other_order, lengths_that_differ, faults_of_a_record_that_meet,
         faults_in_two_records, contents_like_headers, cuts, trace_headers, trace_lengths, trace_faults_in_two_records,
         long_ones, late_refusals, random_ones, damaged_ones, any_octets)


def all_questions():
    """Every question, in the order in which they are stored."""
    script = Script()
    chance = Chance(SEED)
    for part in PARTS:
        part(script, chance)
    return script.questions
