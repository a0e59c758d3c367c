"""What the viewer shows of captures for eyes, in its own words, beside what a receiver makes of the same trace.

In a capture for eyes each mCRC that is right by document 01 is the standard's, so that the viewer puts photographs together. They are those that the
receiver delivers, but for three things: the viewer keeps to no length, it passes over an octet 50 in front, and it understands what another maker's
box cut.
"""

import itertools

import viewer
from made import (DATAGRAM, REQUEST, answered, answers, captures, codes, contents, contents_of_capture, crc, cut, delivered, every_kind, exchange,
                  good_traces, is_continuation, mframe, published, trace, whole, with_preamble)
from rule import HALF, put_together
from viewer import EDITCAP, ONE_PASS, ROOT, TWO_PASSES, Captures, about, found, listed
from words import (ASKS, COUNTS, NO_HEADER, SENDS, continued, delimiter, fragment_count, in_short, not_as, on_preamble, pieces, right, right_mcrc,
                   row, started, verifications, wrong)

PARTS = cut(0)
# A frame that nobody cut: behind it no assembly is open.
NEXT = whole(3, REQUEST)
PRESS = mframe.express(REQUEST)
VERIFICATION = (mframe.verify(), mframe.respond())
# The rows of both in a capture for eyes.
VERIFIED = verifications(list(map(published, VERIFICATION)), right_mcrc)
DATA = DATAGRAM[:60]

# Display filters: photographs that were put together, check octets that are wrong, and fragments that came to nothing.
PUT_TOGETHER = "fpp.fragments"
WRONG_CHECK = "fpp.mcrc32_bad || fpp.crc32_bad"
TO_NOTHING = "fpp.mcrc32 && !fpp.reassembled.in && !(fpp.preamble.smd in {0x07, 0x19})"

# The answers to what a receiver does not take for its preamble or its length: the viewer takes it.
BY_LENGTH = (12, 13, 14, 24)

# Where an mFrame can stand: before, between and behind the datagram's parts.
PLACES = range(len(PARTS) + 1)


def at_each_place(*mframes):
    """For each of these mFrames, and each place, the datagram with the mFrame there, and the next frame."""
    return [part for octets in mframes for place in PLACES for part in (*PARTS[:place], octets, *PARTS[place:], NEXT)]


def in_place(place, octets):
    """The datagram's parts with an mFrame in the place of one."""
    return [*PARTS[:place], octets, *PARTS[place + 1:]]


def hit(octets):
    """The mFrame over and over, each time with one bit turned: each of the header, and one of every octet behind it."""
    places = (*range(8 * 8), *(8 * octet + octet % 8 for octet in range(8, len(octets))))
    return [exchange.with_bit_turned(octets, place) for place in places]


def differing(one, other):
    """The numbers under which two tables have different things."""
    return sorted(number for number in one.keys() | other.keys() if one.get(number) != other.get(number))


def shown(capture, passes=TWO_PASSES):
    """Every record of a capture, as the viewer shows it that has gone through the file once."""
    return viewer.shown(capture, passes)


class Eyes(Captures):
    def setUp(self):
        super().setUp()
        self.maxDiff = None

    def seen(self, mframes):
        """What the viewer shows of the capture for eyes of these mFrames. It puts together what its rule predicts."""
        capture = self.for_eyes(trace.written(mframes))
        records = shown(capture)
        self.assertEqual(differing(self.together(records), put_together(contents_of_capture(capture))), [])
        return records

    def together(self, records):
        """What was put together, by the number of the last record: the numbers of all, and the octets. Its FCS is right, and it is taken apart."""
        last = {number: record for number, record in enumerate(records, start=1) if record.put_together}
        self.assertLessEqual({in_short(record) for record in last.values()}, {"taken apart, CRC correct"})
        return {number: (record.records, record.octets) for number, record in last.items()}

    def bodies(self, records):
        return {number: octets for number, (_, octets) in self.together(records).items()}

    def nothing_together(self, records):
        self.assertEqual([record.line for record in records if record.put_together or "Reassembled" in record.line], [])

    def agrees(self, mframes, count):
        """The receiver delivers so many frames of several mFrames, and the viewer puts them together, and no others."""
        due = delivered(mframes)
        self.assertEqual(len(due), count)
        self.assertEqual(differing(self.bodies(self.seen(mframes)), due), [])


class Files(Eyes):
    def test_as_of_the_plain_capture(self):
        """Type, link type, snap length, number of records, and all octets but the check octets of what is answered 2, 3 or 4."""
        for name, octets in good_traces().items():
            plain, eyes = self.captured(octets), self.for_eyes(octets)
            mframes = contents(octets)
            due = [published(given) if number in (2, 3, 4) else given for given, (number, _) in zip(mframes, answers(mframes), strict=True)]
            with self.subTest(trace=name):
                self.assertEqual(about(eyes), about(plain))
                # Compared as one, since a difference of files of this length would not be shown before long.
                self.assertTrue(eyes.read_bytes() == captures.capture_of(due), "another file")

    def test_saved_by_the_viewers_tools(self):
        """The viewer shows the same of a file that its tools made of it, as pcapng and as pcap."""
        capture = self.for_eyes(good_traces()["row"])
        saved = self.edited(EDITCAP, "-F", "pcapng", source=capture, name="saved.pcapng")
        for made in (saved, self.edited(EDITCAP, "-F", "pcap", source=saved)):
            self.assertEqual(shown(made), shown(capture))

    def test_read_back_it_is_another_trace(self):
        """The standard's mCRC is wrong by document 01: V and R are answered 21, starts of several 25, and their continuations 22."""
        mframes = every_kind()
        read = contents(self.read(self.for_eyes(trace.written(mframes))))
        became = {}
        for (before, _), (after, _) in zip(answers(mframes), answers(read), strict=True):
            became.setdefault(before, set()).add(after)
        self.assertEqual(became, {0: {0}, 1: {1, 22}, 2: {25, 22}, 3: {21}, 4: {21}})
        self.assertEqual(delivered(read), {})

    def test_one_pass(self):
        """Where a fragment is put together its line tells once the whole file was read. All else is shown at the first pass."""
        capture = self.for_eyes(good_traces()["row"])
        twice, once = listed(capture), listed(capture, passes=ONE_PASS)
        self.assertNotEqual(twice, once)
        self.assertEqual([line.partition(" [Reassembled in #")[0] for line in twice], once)
        self.assertEqual(self.together(shown(capture, ONE_PASS)), self.together(shown(capture)))

    def test_the_lists_in_the_documents(self):
        """README.md and docs/VIEWER.md have lines of the sample's list as they are, but for blanks."""
        lines = listed(self.for_eyes(good_traces()["row"]))
        for name, first, last in (("README.md", 1, 19), ("docs/VIEWER.md", 11, 17)):
            told = [" ".join(line.split()) for line in (ROOT / name).read_text().splitlines() if " 0.000000 " in line]
            with self.subTest(document=name):
                self.assertEqual(told, lines[first - 1:last])

    def test_filters(self):
        """What the viewer's filters, as docs/VIEWER.md tells them, find in the sample, by the receiver's answers."""
        document = (ROOT / "docs" / "VIEWER.md").read_text().replace("\\|", "|")
        for expression in (PUT_TOGETHER, WRONG_CHECK, TO_NOTHING):
            self.assertIn(f"| `{expression}` |", document)
        numbers, capture = answered("row"), self.for_eyes(good_traces()["row"])
        together = self.together(shown(capture))
        kept = {number for records, _ in together.values() for number in records}
        fragments = [number for number, answer in enumerate(numbers, start=1) if answer in (2, 22, 23, 25)]
        self.assertEqual(found(capture, PUT_TOGETHER), list(together))
        self.assertEqual(found(capture, WRONG_CHECK), [number for number, answer in enumerate(numbers, start=1) if answer in range(20, 26)])
        self.assertEqual(found(capture, TO_NOTHING), [number for number in fragments if number not in kept])


class Unharmed(Eyes):
    def test_fragments_are_put_together(self):
        for count in COUNTS:
            *before, last = parts = cut(count)
            start, *between = map(published, before)
            records = self.seen(parts)
            end = f" [Reassembled in #{len(parts)}]"
            self.assertEqual([row(record) for record in records], [
                started("Initial", count, start, right_mcrc, end),
                *continued(count, between, right_mcrc, end),
                (*SENDS, delimiter(last, f"C{count}"), fragment_count(last, len(between) % codes.COUNTS), right("CRC", last))])
            self.assertEqual([record.pieces for record in records], [pieces(part) for part in (start, *between, last)])
            lengths = ", ".join(f"#{number}({len(part) - 12})" for number, part in enumerate(parts, start=1))
            self.assertEqual([record.put_together for record in records],
                             [None] * len(before) + [f"{len(parts)} Message fragments ({len(DATAGRAM)} bytes): {lengths}"])
            self.assertEqual(self.together(records), {len(parts): (tuple(range(1, len(parts) + 1)), DATAGRAM)})

    def test_v_and_r(self):
        self.assertEqual([row(record) for record in self.seen(VERIFICATION)], VERIFIED)

    def test_presses_between(self):
        """A press that breaks in is a frame of its own, and so are V and R; around them the photograph is put together."""
        records = self.seen([octets for part in PARTS for octets in (part, PRESS, *VERIFICATION)])
        for place in range(0, len(records), 4):
            self.assertEqual([row(record) for record in records[place + 1:place + 4]],
                             [(*ASKS, delimiter(PRESS, "E"), None, right("CRC", PRESS)), *VERIFIED])
        numbers = range(1, len(records) + 1, 4)
        self.assertEqual(self.together(records), {numbers[-1]: (tuple(numbers), DATAGRAM)})

    def test_preambles(self):
        """Behind none to seven octets 55, another number in each mFrame, all is shown as behind the usual ones."""
        mframes = every_kind()
        usual = self.seen(mframes)
        for first in range(8):
            given = [with_preamble(octets, (first + 3 * place) % 8) for place, octets in enumerate(mframes)]
            records = self.seen(given)
            self.assertEqual([record.preamble for record in records], [on_preamble(octets) for octets in given])
            self.assertEqual([row(record) for record in records], [row(record) for record in usual])
            self.assertEqual(self.together(records), self.together(usual))

    def test_addresses_in_the_list(self):
        """A first fragment's are taken from where they stand behind a whole preamble; those of the frame put together are its own."""
        for preamble, address in ((7, "02:00:00:00:00:02"), (5, "00:00:00:02:02:00")):
            capture = self.for_eyes(trace.written([with_preamble(PARTS[0], preamble), *PARTS[1:]]))
            self.assertEqual(listed(capture, "ud"), [address, *[""] * (len(PARTS) - 2), "10.0.0.2"])


class Lost(Eyes):
    def test_a_fragment(self):
        """The one behind it does not have the count that is due, and is judged by its own data alone; so its mCRC is called incorrect."""
        _, *continuations = PARTS
        records = self.seen([part for lost in continuations for part in PARTS if part != lost])
        rows = continued(0, continuations, lambda part: wrong("mCRC", part, published(crc.mcrc(pieces(part)[1]))))
        for place in range(1, len(continuations)):
            self.assertEqual(row(records[(place - 1) * len(continuations) + place]), rows[place])

    def test_the_next_photograph(self):
        """Whatever was lost of one, the next is put together."""
        everything = range(len(PARTS))
        choices = [left for count in everything for left in itertools.combinations(everything, count)]
        self.agrees([octets for left in choices for octets in (*(PARTS[place] for place in left), *cut(1))], len(choices))

    def test_any(self):
        """Before the first that is lost each check is correct, behind it none, and no line tells where the fragment is put together.

        Where the last alone is lost, nothing else tells of the loss. With four in a row the counts come round, and the check tells.
        """
        everything = range(len(PARTS))
        choices = [left for count in everything for left in itertools.combinations(everything, count)]
        records = self.seen([octets for left in choices for octets in (NEXT, *(PARTS[place] for place in left))])
        expected = []
        for left in choices:
            lost = min(set(everything) - set(left))
            expected += ["taken apart, CRC correct", *(
                f"{'Continuation' if place else 'Initial'} fragment, mCRC {'correct' if place < lost else 'incorrect'}" for place in left)]
        self.assertEqual([in_short(record) for record in records], expected)
        self.nothing_together(records)


class Damaged(Eyes):
    def test_a_part(self):
        """Whatever bit of a part is turned, the frame is not put together, and the next one is."""
        hits = [in_place(place, turned) for place, part in enumerate(PARTS) for turned in hit(part)]
        self.agrees([octets for parts in hits for octets in (*parts, *cut(1))], len(hits))

    def test_words(self):
        """The part that is hit, and each behind it, has a check that is called incorrect.

        Only where nothing but check octets was hit the last one's is correct; it is not put together all the same.
        """
        last = len(PARTS) - 1
        mframes, expected = [], []
        for place, part in enumerate(PARTS):
            for octet, at_the_end in ((30, "incorrect"), (len(part) - 1, "correct")):
                mframes += in_place(place, exchange.with_bit_turned(part, 8 * octet))
                expected += [f"{'Initial' if place else 'Corrupted'} fragment, mCRC {'correct' if place else 'incorrect'}",
                             *(f"Continuation fragment, mCRC {'correct' if number < place else 'incorrect'}" for number in range(1, last)),
                             f"Continuation fragment, mCRC {'incorrect' if place == last else at_the_end}"]
        records = self.seen(mframes)
        self.assertEqual([in_short(record) for record in records], expected)
        self.nothing_together(records)

    def test_a_last_part_that_comes_twice(self):
        """Its check is called correct both times, and the frame put together once."""
        records = self.seen([*PARTS, PARTS[-1]])
        self.assertEqual(in_short(records[-1]), "Continuation fragment, mCRC correct")
        self.assertEqual(self.bodies(records), {len(PARTS): DATAGRAM})

    def test_what_comes_between(self):
        """What is no start and no continuation disturbs nobody: whole, damaged, with an unknown code, or cut down to a head."""
        late, early, start, continuation = mframe.late_header, mframe.early_header, codes.start_code(0), codes.continuation_code(0)
        between = (PRESS, *VERIFICATION, late(0xAD) + DATA + crc.mcrc(DATA), early(continuation, 0x61) + DATA + crc.mcrc(DATA),
                   b"", mframe.header(72), late(start), late(continuation), early(continuation, codes.fragment_code(0)))
        self.agrees(at_each_place(*between), len(between) * len(PLACES))
        turned = [*hit(PRESS), *hit(VERIFICATION[0]), *hit(VERIFICATION[1])]
        self.agrees([part for octets in turned for part in (*PARTS[:3], octets, *PARTS[3:])], len(turned))

    def test_out_of_order(self):
        """Parts repeated or exchanged, and parts of another frame between: only before the start and behind the last they do no harm."""
        self.agrees([octets for place in range(len(PARTS)) for octets in (*PARTS[:place + 1], *PARTS[place:])], 2)
        self.agrees([octets for place in range(1, len(PARTS))
                     for octets in (*PARTS[:place - 1], PARTS[place], PARTS[place - 1], *PARTS[place + 1:])], 0)
        others = (NEXT, *cut(1))
        self.agrees(at_each_place(*others), 2 * len(others))

    def test_two_frames_of_the_same_count(self):
        """The end of the one does not fit the beginning of the other: its check tells."""
        other = exchange.Sender().frame(bytes(reversed(DATAGRAM)), 0)
        self.agrees([octets for place in range(1, len(PARTS)) for octets in (*PARTS[:place], *other[place:], *cut(1))], len(PARTS) - 1)


class Differences(Eyes):
    """Where the viewer puts together what a receiver does not deliver, or the other way round."""

    def test_a_part_that_is_refused(self):
        """A start or a continuation that the receiver does not take for its preamble or its length changes nothing there.

        The viewer takes it for a part, so that the frame around it is not put together.
        """
        good, too_long = DATA + crc.fcs(DATA), bytes(1591)
        kinds = [(number, octets) for code in (bytes([codes.start_code(1)]), bytes([codes.continuation_code(0), codes.fragment_code(0)]))
                 for number, octets in ((12, code + DATA[:30]), (13, code + too_long), (14, mframe.header(8) + code + good),
                                        (15, HALF + mframe.header(6) + code + good))]
        mframes = at_each_place(*(octets for _, octets in kinds))
        self.assertEqual([number for number, _ in answers(mframes) if number > 4], [number for number, _ in kinds for _ in PLACES])
        due = list(delivered(mframes))
        self.assertEqual(len(due), len(kinds) * len(PLACES))
        unharmed = (0, len(PARTS))
        self.assertEqual(self.bodies(self.seen(mframes)),
                         {number: DATAGRAM for place, number in enumerate(due) if place % len(PLACES) in unharmed})

    def test_a_last_part_that_is_not_taken(self):
        """With all else right the viewer puts the frame together, though the receiver does not take its last part."""
        *before, last = PARTS
        for number, parts in ((12, self.in_two(bytes(100))), (13, self.in_two(bytes(1580))), (14, [*before, with_preamble(last, 8)]),
                              (15, [*before, HALF + last]), (24, self.in_two(bytes(1519)))):
            self.assertEqual([answer for answer, _ in answers(parts)], [2] * (len(parts) - 1) + [number])
            octets = b"".join(pieces(part.removeprefix(HALF))[1] for part in parts)
            self.assertEqual(self.together(self.seen(parts)), {len(parts): (tuple(range(1, len(parts) + 1)), octets)})

    def in_two(self, body):
        """The first 60 octets of a body, and the others."""
        return [mframe.start(0, body[:60], crc.mcrc(body[:60])), mframe.continuation(0, 0, body[60:], crc.fcs(body))]

    def test_another_maker(self):
        """What has the standard's mCRC on the row the receiver drops (25, 22, 21). The viewer understands it, in either capture."""
        mframes = [*map(published, PARTS[:-1]), PARTS[-1], *map(published, VERIFICATION)]
        self.assertEqual([answer for answer, _ in answers(mframes)], [25, *[22] * 6, 21, 21])
        plain, eyes = self.captured(trace.written(mframes)), self.for_eyes(trace.written(mframes))
        self.assertEqual(eyes.read_bytes(), plain.read_bytes())
        records = shown(plain)
        self.assertEqual(self.bodies(records), {len(PARTS): DATAGRAM})
        self.assertEqual([row(record) for record in records[len(PARTS):]], VERIFIED)


class Stored(Eyes):
    """The viewer beside the receiver's answers to stored traces."""

    # How many frames of several mFrames are delivered, how many of these are not put together, and how many others are (docs/VIEWER.md).
    FRAMES = {"row": (3, 0, 0), "answers": (39, 1, 21), "every answer": (124, 1, 0), "long": (2835, 9, 1)}

    # A last fragment that belongs to nothing (22) has an FCS that can be right by what came before: it was repeated, or of one before it only the
    # check octets were hit.
    SHOWN_AS = {
        0: {"taken apart, CRC correct"},
        1: {"taken apart, CRC correct"},
        2: {"Initial fragment, mCRC correct", "Continuation fragment, mCRC correct"},
        3: {"Verify, mCRC correct"},
        4: {"Respond, mCRC correct"},
        15: {NO_HEADER},
        17: {NO_HEADER},
        20: {"Express, CRC incorrect"},
        21: {"Verify, mCRC incorrect", "Respond, mCRC incorrect"},
        22: {"Continuation fragment, mCRC incorrect", "Continuation fragment, mCRC correct"},
        23: {"Continuation fragment, mCRC incorrect"},
        25: {"Corrupted fragment, mCRC incorrect", "Continuation fragment, mCRC incorrect"},
    }

    def test_frames(self):
        """What is delivered and put together has the same octets. Where the two differ is what the viewer's rule predicts."""
        for name, counted in self.FRAMES.items():
            mframes = contents(good_traces()[name])
            due, together = delivered(mframes), self.bodies(self.seen(mframes))
            with self.subTest(trace=name):
                self.assertEqual(list(due), [number for number, (octets, answer) in enumerate(zip(mframes, answered(name), strict=True), start=1)
                                             if answer == 1 and is_continuation(octets)])
                self.assertEqual([number for number in due.keys() & together.keys() if due[number] != together[number]], [])
                self.assertEqual((len(due), len(due.keys() - together.keys()), len(together.keys() - due.keys())), counted)

    def test_without_what_is_not_taken_for_its_length(self):
        """Then the two agree on every frame, and on every check but those of other makers, which the trace of every answer has."""
        for name in self.FRAMES:
            mframes = [octets for octets, number in zip(contents(good_traces()[name]), answered(name), strict=True) if number not in BY_LENGTH]
            numbers, records = [number for number, _ in answers(mframes)], self.seen(mframes)
            with self.subTest(trace=name):
                self.assertEqual(differing(self.bodies(records), delivered(mframes)), [])
                if name != "every answer":
                    self.assertEqual(set(numbers), set(self.SHOWN_AS))
                    self.assertEqual(not_as(self.SHOWN_AS, numbers, records), [])


class Told(Eyes):
    """What the comparison would tell of a capture for eyes that is not one."""

    def test_the_plain_capture(self):
        octets = good_traces()["row"]
        self.assertEqual(self.together(shown(self.captured(octets))), {})
        self.assertEqual(len(self.together(shown(self.for_eyes(octets)))), 3)

    def test_another_check_octet(self):
        """With a bit of any check octet of any part turned the frame is not put together."""
        parts = contents_of_capture(self.for_eyes(trace.written(PARTS)))
        wrong_ones = [octets for place, part in enumerate(parts) for octet in range(len(part) - 4, len(part))
                      for octets in (*parts[:place], exchange.with_bit_turned(part, 8 * octet), *parts[place + 1:])]
        made = self.folder / "wrong.pcap"
        made.write_bytes(captures.capture_of([*parts, *wrong_ones]))
        self.assertEqual(self.bodies(shown(made)), {len(parts): DATAGRAM})
