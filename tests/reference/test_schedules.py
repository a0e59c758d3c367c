"""Tests of schedules.py: the stored lists contain what document 02's request (i) is to be run with.

That they do is shown by wrong_gates.py: what is said of the stored lists tells all that read or list them wrongly.
"""

import unittest
from unittest import mock

import mmholds
import schedules
import wrong_gates

# Each stored list with its length in octets, and what is said of it where that is a sentence: number and entry.
REFUSED = {
    "cut_in_header": (22, 60, 4), "cut_behind_header": (23, 60, 4), "cut_behind_gates": (24, 60, 4),
    "cut_in_interval": (25, 60, 4), "cut_before_last_octet": (27, 60, 4), "cut_first_entry": (5, 60, 1),
    "cut_header_of_operation_9": (22, 60, 4), "cut_length_200": (28, 60, 4), "cut_length_255": (277, 60, 4),
    "operation_3": (49, 61, 5), "operation_255": (40, 61, 5), "operation_and_length": (48, 61, 5),
    "operation_behind_length": (57, 62, 5), "length_0": (44, 62, 5), "length_4": (34, 62, 5), "length_6": (50, 62, 5),
    "length_133": (177, 62, 5), "length_255": (290, 62, 5),
    "entries_257": (1799, 63, 257), "entries_258": (1809, 63, 257), "last_cut_header": (1793, 60, 257),
    "last_cut_value": (1798, 60, 257), "last_operation_3": (1806, 61, 257), "last_length_4": (1805, 62, 257),
    "last_length_255": (2049, 62, 257), "last_operation_9_length_255": (2049, 61, 257),
    "last_cut_length_255": (2048, 60, 257),
    "long": (70_007, 63, 257), "long_operation_3": (70_007, 61, 3), "long_length_255": (70_007, 62, 256),
}
GOOD = {"hall": 56, "empty": 0, "one": 7, "quiet": 21, "same_time": 56, "octets_of_an_interval": 28, "greatest": 1792,
        "random": 1792}


class Schedules(unittest.TestCase):
    @classmethod
    def setUpClass(cls):
        cls.lists = schedules.all_schedules()
        cls.said = {name: mmholds.said(octets) for name, octets in cls.lists.items()}

    def lines(self, name):
        output, sentence = self.said[name]
        self.assertEqual(sentence, "")
        return output.splitlines()

    def test_names_and_lengths(self):
        lengths = {**GOOD, **{name: length for name, (length, _, _) in REFUSED.items()}}
        self.assertEqual({name: len(octets) for name, octets in self.lists.items()}, lengths)

    def test_hall(self):
        # Typed by hand: holds for 1.2 ms, the last millisecond of which is the window for presses, twice in 10 ms.
        self.assertEqual(self.lines("hall"), ["3800000 hold", "5000000 release", "7800000 hold", "9000000 release",
                                              "cycle 10000000"])
        self.assertEqual(self.lists["hall"][:14].hex(" "), "00 05 3f 00 39 fb c0 01 05 40 00 03 0d 40")

    def test_good_lists(self):
        self.assertEqual(self.lines("empty"), ["cycle 0"])
        self.assertEqual(self.lines("one"), ["0 hold", "cycle 1000000"])
        self.assertEqual(self.lines("quiet"), ["cycle 3000000"])
        self.assertEqual(self.lines("same_time"), [
            "0 hold", "0 release", "0 hold", "4294967295 release", "4294967295 release", "4294967296 hold",
            "4294967297 hold", "cycle 4294967297"])
        self.assertEqual(self.lines("octets_of_an_interval"), ["0 hold", "1 hold", "257 hold", "65793 hold",
                                                               "cycle 16843009"])
        greatest = self.lines("greatest")
        self.assertEqual((len(greatest), greatest[0], greatest[-2:]),
                         (171, "4294967295 hold", ["1090921692930 release", "cycle 1099511627520"]))
        self.assertGreater(len(self.lines("random")), 100)

    def test_refused_lists(self):
        for name, (_, number, entry) in REFUSED.items():
            with self.subTest(name):
                output, sentence = self.said[name]
                self.assertEqual(output, "")
                self.assertTrue(sentence.startswith(f"mmholds: entry {entry} "), sentence)
                self.assertTrue(sentence.endswith(f" ({number}).\n"), sentence)

    def test_sentence_or_lines_are_stored(self):
        stored = {file.path: file.content for file in schedules.files()}
        self.assertEqual(stored["tests/schedules/length_0.holds"],
                         b"mmholds: entry 5 has a length other than 5 (62).\n")
        self.assertEqual(stored["tests/schedules/one.holds"], b"0 hold\ncycle 1000000\n")
        self.assertEqual(stored["crates/mmholds/stdin"], self.lists["hall"])
        self.assertEqual(len(stored), 2 * len(self.lists))

    def told(self):
        """Whether something else is said of some list."""
        return any(mmholds.said(octets) != self.said[name] for name, octets in self.lists.items())

    def test_wrong_ones_are_told_from_a_right_one(self):
        self.assertFalse(self.told())
        # Some list an event that is neither hold nor release.
        with mock.patch.dict(mmholds.WORDS, {0: "set"}):
            for wrong_ones in (wrong_gates.READERS, wrong_gates.VALUES, wrong_gates.EVENTS):
                for name, wrong in wrong_ones.items():
                    with self.subTest(name), wrong():
                        self.assertTrue(self.told())


if __name__ == "__main__":
    unittest.main()
