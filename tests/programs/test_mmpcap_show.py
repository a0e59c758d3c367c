"""mmpcap show as a program: traces shown as captures for eyes, every sentence, and what becomes of the file it makes.

The program must be built (scripts/prove mmpcap). What test_mmpcap.py asks of each way, from a trace to its capture and back, is asked here of the
third; tests that it has of one way alone stand here anew. capture_octets.py lays the octets, and the listing of a trace says what is for eyes.
"""

import itertools
import threading
import unittest
from unittest import mock

import inputs
import test_mmpcap
from capture_octets import EYES, WIRE, capture_of, contents_of, file_header, row, shown, trace_header, trace_of
from test_mmpcap import BAD_IN_TRACES, CAPTURES, READ, ROOT, TRACES, UNREAD, UNWRITTEN, USE, Way

# Contents that are no mFrames, behind mFrames of every kind.
CONTENTS, SHOWN = row(WIRE) + test_mmpcap.CONTENTS, row(EYES) + test_mmpcap.CONTENTS
SHOW = Way("show", "trace", "capture", trace_of(CONTENTS), capture_of(SHOWN))
MADE_FOR_EYES = ROOT / "tests" / "eyes"
TOO_LONG = "record 1 says that its content is longer than 1,600 octets (51)."


def listed(trace, listing):
    """This way, with a trace whose listing says what is for eyes."""
    octets = trace.read_bytes()
    return SHOW._replace(octets=octets, result=capture_of(shown(list(contents_of(octets)), listing.read_bytes())))


# Far more than is held at once.
LONG = listed(TRACES / "long.trace", TRACES / "long.listing")


class Shows(test_mmpcap.Mmpcap):
    """Where test_mmpcap.py goes both ways, this goes the third."""

    def setUp(self):
        super().setUp()
        patch = mock.patch.object(test_mmpcap, "WAYS", (SHOW,))
        patch.start()
        self.addCleanup(patch.stop)


def of_each_way(case):
    """A test case with the tests of another that are run each way, and no other."""
    others = {name: None for name in dir(case) if name.startswith("test") and not hasattr(getattr(case, name), "__wrapped__")}
    return type(f"{case.__name__}EachWay", (Shows, case), {"__module__": __name__, **others})


Octets, Words, Names, Inputs, Occupied, Modes, Beside, Full = map(of_each_way, (
    test_mmpcap.Octets, test_mmpcap.Words, test_mmpcap.Names, test_mmpcap.Inputs, test_mmpcap.Occupied, test_mmpcap.Modes, test_mmpcap.Beside,
    test_mmpcap.Full))


class Going(of_each_way(test_mmpcap.Going)):
    """What is given of a trace to be written is given to be shown."""

    def setUp(self):
        super().setUp()
        patch = mock.patch.object(test_mmpcap, "WRITE", SHOW)
        patch.start()
        self.addCleanup(patch.stop)


class OctetsShown(Shows):
    def test_an_example_by_hand(self):
        # A V, and the same with the check octets that the viewer expects, which are wrong on the wire and so stay.
        on_the_wire, for_eyes = (f"55555555555555 07 {'00' * 60} {check}" for check in ("0889edfb", "f7761204"))
        self.file(bytes.fromhex(f"4800 0100 {on_the_wire} 4800 0100 {for_eyes}"), "row.trace")
        self.makes(SHOW, "row.trace", "row.eyes.pcap",
                   file_header() + bytes.fromhex(f"00000000 00000000 48000000 48000000 {for_eyes}" * 2))

    def test_what_is_for_eyes_is_read_as_it_is(self):
        self.file(SHOW.result, "row.eyes.pcap")
        self.makes(READ, "row.eyes.pcap", "back.trace", trace_of(SHOWN))

    def test_no_records(self):
        self.file(b"", "row.trace")
        for taken in ("row.trace", "/dev/null", "-"):
            with self.subTest(taken=taken):
                self.makes(SHOW, taken, "row.pcap", file_header())

    def test_mframes_are_written_and_read_as_they_are(self):
        self.file(SHOW.octets, "row.trace")
        self.makes(test_mmpcap.WRITE, "row.trace", "row.pcap", capture_of(CONTENTS))
        self.file(capture_of(CONTENTS), "row.pcap")
        self.makes(READ, "row.pcap", "back.trace", SHOW.octets)


class StoredShown(Shows):
    """The stored traces, and what the reference makes of the traces in tests/captures and tests/eyes."""

    def test_listed_traces(self):
        sample = ROOT / "crates" / "mmlist"
        good = [path for path in sorted(TRACES.glob("*.trace")) if not path.stem.startswith("refused")]
        self.assertEqual([path.stem for path in good], ["answers", "empty", "long"])
        for trace, listing in (*((path, path.with_suffix(".listing")) for path in good), (sample / "stdin", sample / "stdout")):
            with self.subTest(trace=trace.name):
                self.makes(SHOW, str(trace), "made", listed(trace, listing).result)

    def test_good_traces(self):
        own = sorted(path.stem for path in MADE_FOR_EYES.glob("*.trace"))
        self.assertEqual(own, ["ends_in_assembly", "every_answer", "far_apart"])
        names = sorted(path.name.partition(".")[0] for path in MADE_FOR_EYES.glob("*.eyes.pcap"))
        self.assertEqual(names, sorted([*own, "empty", "empty_record", "lengths", "like_headers", "long", "row"]))
        for name in names:
            folder = MADE_FOR_EYES if name in own else CAPTURES
            with self.subTest(name=name):
                self.makes(SHOW, str(folder / f"{name}.trace"), "made", (MADE_FOR_EYES / f"{name}.eyes.pcap").read_bytes())

    def test_own_traces_are_written_and_read_back(self):
        for trace in sorted(MADE_FOR_EYES.glob("*.trace")):
            with self.subTest(name=trace.stem):
                self.makes(test_mmpcap.WRITE, str(trace), "made", trace.with_suffix(".pcap").read_bytes())
                self.makes(READ, str(trace.with_suffix(".pcap")), "made", trace.read_bytes())

    def test_refused_traces(self):
        refused = sorted(path for path in CAPTURES.glob("*.trace") if not path.with_suffix(".pcap").exists())
        self.assertGreater(len(refused), 10)
        for trace in refused:
            with self.subTest(name=trace.stem):
                self.assertEqual(self.said("show", str(trace), "row.pcap"), (b"", trace.with_suffix(".said").read_bytes()))
                self.assertEqual(self.all_files(), {})


class RefusedShown(Shows):
    each = test_mmpcap.Refused.each

    def test_traces(self):
        self.each(SHOW, BAD_IN_TRACES, number=1)
        self.each(SHOW, BAD_IN_TRACES, trace_of(CONTENTS[:2]), number=3)

    def test_what_comes_behind_changes_nothing(self):
        self.file(trace_header(1601) + bytes(1601) + trace_header(0, kind=2), "taken")
        self.refuses(SHOW, TOO_LONG)
        self.file(trace_header(0, kind=2) + trace_of(CONTENTS), "taken")
        self.refuses(SHOW, "record 1 is of a kind other than 1 (52).")

    def test_a_capture_is_no_trace(self):
        # It begins with C3D4, over 1,600.
        self.file(READ.octets, "taken")
        self.refuses(SHOW, TOO_LONG)

    def test_a_late_record(self):
        # So late that some has been written before the refusal.
        self.file(LONG.octets + b"\x00", "taken")
        self.refuses(SHOW, "record 20001 is cut off: the trace ends inside its header (50).")

    def test_octets_without_an_end(self):
        self.refuses(SHOW, "record 1 is of a kind other than 1 (52).", taken="/dev/zero")


class WordsShown(Shows):
    def test_wrong_words(self):
        self.file(SHOW.octets, "taken")
        before = self.all_files()
        for words in (("show",), ("show", "taken"), ("show", "taken", "made", "more"), ("show", "taken", "made", ""), ("taken", "show", "made"),
                      ("sho", "taken", "made"), ("shows", "taken", "made"), ("Show", "taken", "made"), ("show ", "taken", "made")):
            with self.subTest(words=words):
                self.assertEqual(self.said(*words), (b"", f"mmpcap: {USE}\n".encode()))
        self.assertEqual(self.all_files(), before)


class LongShown(Shows):
    """Far more than is held at once."""

    limited, fed, made_of = test_mmpcap.Full.limited, test_mmpcap.Length.fed, test_mmpcap.Length.made_of

    def test_a_read_that_fails_late(self):
        self.refuses(SHOW, UNREAD, taken="-", stdin=inputs.failing_behind(LONG.octets))

    def test_much_was_written_before(self):
        self.file(LONG.octets, "taken")
        self.refuses(SHOW, UNWRITTEN, **self.limited(1_000_000))

    def test_the_target_is_as_it_was_until_the_end(self):
        self.file(b"old", "made")
        given, rest = threading.Event(), threading.Event()
        self.addCleanup(rest.set)

        def pieces():
            yield LONG.octets
            given.set()
            rest.wait()

        process = self.begun("show", "-", "made", stdin=inputs.piped(pieces()))
        self.assertTrue(given.wait(self.patience), "mmpcap does not read on")
        self.assertTrue((self.folder / "made.part0").exists(), "no file was made beside the target")
        self.assertEqual((self.folder / "made").read_bytes(), b"old")
        rest.set()
        self.assertEqual(self.ended(process), (b"", b""))
        self.assertTrue((self.folder / "made").read_bytes() == LONG.result, "made has other octets")

    def test_memory_does_not_grow_with_the_file(self):
        # The long trace begins with a start, by which any photograph before it is given up: each time it is shown alike.
        times, result = test_mmpcap.Length.TIMES, (file_header(), LONG.result.removeprefix(file_header()))
        small = self.fed(SHOW, (LONG.octets,))
        self.assertTrue(self.made_of(*result, 1))
        large = self.fed(SHOW, itertools.repeat(LONG.octets, times))
        self.assertTrue(self.made_of(*result, times))
        self.assertLess(large, small + 1024)


if __name__ == "__main__":
    unittest.main()
