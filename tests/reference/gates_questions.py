"""The questions asked about document 02's request (i), the gate control lists.

Answers are not looked at here: the lists, and the rooms that are lent, are chosen by what is put into them.
"""

from itertools import product

from chance import Chance
from gates_format import MOST_ROWS, events_question, read_question, write_question
from reader import LONGEST_RUN

GREATEST_WORD = 2**32 - 1
SEED = 8046

# A list that is full, and those next to it; the most entries that a question can give as octets, and as words.
LENGTHS_ABOUT_THE_LIMIT = (255, 256, 257, 258)
MOST_ENTRIES_IN_OCTETS = LONGEST_RUN // 7

# About each octet of a word, and about its sign.
INTERVALS = (0, 1, 255, 256, 65_535, 65_536, 2**24 - 1, 2**24, 2**31 - 1, 2**31, GREATEST_WORD - 1, GREATEST_WORD)


def octets_of(entries):
    """The list of good entries."""
    return b"".join(bytes([operation, 5, gate_octet]) + interval.to_bytes(4, "big")
                    for operation, gate_octet, interval in entries)


def entry(operation, length, there, filling=0x11):
    """An entry with any operation and length, of whose value so many octets are there."""
    return bytes([operation, length]) + bytes((filling + place) % 256 for place in range(there))


def random_entries(chance, count):
    """So many good entries; operation 0 is as common as the other two together."""
    return [(max(0, chance.below(4) - 1), chance.below(256), chance.register()) for _ in range(count)]


class Script:
    """Questions one after the other."""

    def __init__(self):
        self.questions = []

    def fill(self):
        """The first octet of the memory that is lent next; it changes from call to call."""
        return (37 * len(self.questions)) % 256

    def read(self, octets, room=MOST_ROWS):
        self.questions.append(read_question(octets, room, self.fill()))

    def events(self, octets, room=MOST_ROWS):
        self.questions.append(events_question(octets, room, self.fill()))

    def write(self, entries, room=LONGEST_RUN):
        self.questions.append(write_question(entries, room, self.fill()))

    def taken(self, octets, room=MOST_ROWS):
        """Both calls that take a list."""
        self.read(octets, room)
        self.events(octets, room)

    def refused(self, octets):
        """Both calls, with room for anything and with none."""
        self.taken(octets)
        self.taken(octets, 0)

    def every_room(self, entries):
        """All three calls on good entries, each with one too few for its own output, just enough, and one more."""
        octets = octets_of(entries)
        with_events = sum(operation > 0 for operation, _, _ in entries)
        for more in (-1, 0, 1):
            for call, needed, given in ((self.read, len(entries), octets), (self.events, with_events, octets),
                                        (self.write, len(octets), entries)):
                if needed + more >= 0:
                    call(given, needed + more)


def no_entries(script, _chance):
    for room in (0, 1, MOST_ROWS):
        script.taken(b"", room)
        script.write([], room)


def every_octet_of_an_entry(script, _chance):
    """Every operation; every gate octet; intervals about each octet, as a sum as well."""
    for operation in range(256):
        script.taken(entry(operation, 5, 5), 1)
        script.write([(operation, 1, 2)], 7)
    for gate_octet in range(256):
        script.read(octets_of([(gate_octet % 3, gate_octet, 3)]), 1)
        script.write([(gate_octet % 3, gate_octet, 3)], 7)
    for operation, interval in product((0, 1, 2), INTERVALS):
        entries = [(operation, 0xC0, interval), (1, 0x3F, interval), (2, 0xFF, 1)]
        script.taken(octets_of(entries), 3)
        script.write(entries, 21)


def every_length_of_a_value(script, _chance):
    """Whole, and with its last octet missing; some of them as events too."""
    for length in range(256):
        for there in (length, length - 1):
            if there >= 0:
                octets = entry(length % 3, length, there)
                script.read(octets)
                if length < 14 or length % 128 in (4, 5, 6, 127):
                    script.events(octets)


def cuts(script, chance):
    """Lists of four entries, ended behind each octet."""
    for _ in range(4):
        octets = octets_of(random_entries(chance, 4))
        for there in range(len(octets) + 1):
            script.taken(octets[:there])


def refusals_that_meet(script, chance):
    """An entry that is cut, of an unknown operation, of another length or several of these, behind some good ones."""
    for operation, length, missing in product((0, 2, 3, 9, 255), (0, 4, 5, 6, 200, 255), (0, 1, 5, 195, 255)):
        if missing > length:
            continue
        before = octets_of(random_entries(chance, chance.below(4)))
        octets = before + entry(operation, length, length - missing)
        script.taken(octets)
        if missing == 0:
            # What is behind a whole entry is another matter.
            script.refused(octets + octets_of(random_entries(chance, 1)))
        else:
            script.taken(octets, 0)


def faults_in_two_entries(script, chance):
    """The first entry that is refused decides, whatever the next one is."""
    whole = (entry(3, 5, 5), entry(255, 0, 0), entry(9, 6, 6), entry(0, 4, 4), entry(1, 6, 6), entry(2, 0, 0))
    cut = (b"\x01", b"\x09", entry(0, 5, 4), entry(7, 9, 8))
    for first, second, between in product(whole, whole + cut, (0, 1, 2)):
        good = octets_of(random_entries(chance, between))
        script.taken(good + first + good + second)
    for first, second in product(whole, cut):
        script.refused(first + second)


def lists_about_the_limit(script, chance):
    """255 to 258 entries and as many as a question holds, with every room about them."""
    for count in (*LENGTHS_ABOUT_THE_LIMIT, MOST_ENTRIES_IN_OCTETS):
        octets = octets_of(random_entries(chance, count))
        for room in (0, 255, 256, 257, MOST_ROWS):
            script.taken(octets, room)
    script.every_room(random_entries(chance, 255))
    script.every_room(random_entries(chance, 256))
    script.every_room([(1 + number % 2, number, 1) for number in range(256)])


def the_last_of_a_long_list(script, chance):
    """The 255th to 258th entry cut, of an unknown operation or of another length; a good one behind."""
    good = octets_of(random_entries(chance, 257))
    behind = octets_of(random_entries(chance, 1))
    whole = (entry(3, 5, 5), entry(9, 4, 4), entry(0, 4, 4), entry(2, 6, 6), entry(1, 0, 0))
    cut = (b"\x00", b"\x09", entry(0, 5, 0), entry(1, 5, 4), entry(9, 200, 5))
    for before in (254, 255, 256, 257):
        for octets in (*(last + behind for last in whole), *cut):
            script.taken(good[:7 * before] + octets)
    # The longest that a question holds, 2,048 octets: a value of 254 that is there, and one of 255 that is cut.
    for before, last in product((255, 256), (entry(0, 254, 254), entry(9, 254, 254), entry(0, 255, 254))):
        script.refused(good[:7 * before] + last)


def long_sums(script, chance):
    """Sums far beyond 32 bits, up to the greatest that a list can have."""
    for operations in ((0,), (1,), (2,), (0, 1, 2), (0, 0, 0, 1)):
        entries = [(operations[number % len(operations)], number, GREATEST_WORD) for number in range(256)]
        script.events(octets_of(entries))
    for interval in (2**31, 2**30 + 1, 2**24, GREATEST_WORD - 1):
        script.events(octets_of([(1 + number % 2, 255, interval) for number in range(256)]), 256)
    for count in range(1, 12):
        script.events(octets_of([(1, 0, GREATEST_WORD)] * count + [(2, 0, count)]), count + 1)
    for _ in range(4):
        script.events(octets_of(random_entries(chance, 256)), 256)


def words_that_no_list_holds(script, chance):
    """Every limit of each word, of an entry behind some good ones; words whose low octets would be good."""
    operations = (0, 1, 2, 3, 4, 255, 256, 257, 258, 2**16 + 1, 2**24 + 2, 2**31, GREATEST_WORD)
    gate_words = (0, 1, 254, 255, 256, 257, 511, 2**16, 2**24 + 255, 2**31, GREATEST_WORD)
    for operation, gate_word in product(operations, gate_words):
        words = (operation, gate_word, INTERVALS[chance.below(len(INTERVALS))])
        entries = random_entries(chance, chance.below(4)) + [words]
        script.write(entries)
        script.write(entries, 0)
        script.write(entries + [(3, 256, 0)], 7 * len(entries) + 7)


def writing_about_the_limit(script, chance):
    """255 to 300 entries with every room about them; an entry that is refused at each place about the limit."""
    for count in (*LENGTHS_ABOUT_THE_LIMIT, MOST_ROWS):
        entries = random_entries(chance, count)
        for room in (0, 7 * 256 - 1, 7 * 256, 7 * 256 + 1, LONGEST_RUN):
            script.write(entries, room)
    for place, words in product((254, 255, 256, 257), ((3, 0, 0), (0, 256, 0))):
        entries = random_entries(chance, 258)
        entries[place] = words
        script.write(entries)


def small_lists(script, chance):
    """Good lists of every small length, and of some greater ones."""
    for count in range(13):
        for _ in range(8):
            script.every_room(random_entries(chance, count))
    for _ in range(20):
        script.every_room(random_entries(chance, chance.between(13, 60)))


def damaged(octets, chance):
    """A list with one of six kinds of damage."""
    place = chance.below(len(octets))
    which = chance.below(6)
    if which < 2:
        turned = octets[place] ^ 1 << chance.below(8)
        return octets[:place] + bytes([turned]) + octets[place + 1:]
    if which == 2:
        return octets[:place] + octets[place + 1:]
    if which == 3:
        return octets[:place] + bytes([chance.below(8)]) + octets[place:]
    if which == 4:
        return octets[:place]
    # A length octet of any size.
    place -= place % 7
    return octets[:place + 1] + bytes([chance.below(12)]) + octets[place + 2:]


def damaged_lists(script, chance):
    for _ in range(400):
        octets = damaged(octets_of(random_entries(chance, chance.between(1, 9))), chance)
        script.taken(octets, chance.below(11) if chance.below(4) == 0 else MOST_ROWS)


def any_octets(script, chance):
    """Octets of no meaning, most of them small, so that some lists come to their end."""
    for _ in range(150):
        octets = b""
        for _ in range(chance.below(5)):
            length = chance.between(4, 6) if chance.below(3) == 0 else 5
            octets += bytes([chance.below(4), length]) + chance.octets(5)
        script.taken(octets + bytes(chance.below(8) for _ in range(chance.below(9))))
    for _ in range(60):
        script.taken(chance.octets(chance.below(40)))


def random_words(script, chance):
    """Entries most of whose words are good."""
    for _ in range(250):
        entries = random_entries(chance, chance.below(9))
        if entries and chance.below(3) == 0:
            words = list(entries.pop())
            words[chance.below(2)] = chance.register() if chance.below(2) else chance.below(600)
            entries.insert(chance.below(len(entries) + 1), tuple(words))
        script.write(entries, chance.below(70) if chance.below(3) == 0 else LONGEST_RUN)


def all_questions():
    """Every question, in the order in which they are stored."""
    script = Script()
    chance = Chance(SEED)
    for part in (no_entries, every_octet_of_an_entry, every_length_of_a_value, cuts, refusals_that_meet,
                 faults_in_two_entries, lists_about_the_limit, the_last_of_a_long_list, long_sums,
                 words_that_no_list_holds, writing_about_the_limit, small_lists, damaged_lists, any_octets,
                 random_words):
        part(script, chance)
    return script.questions
