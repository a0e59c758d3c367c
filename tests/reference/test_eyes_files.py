"""Tests of eyes_files.py: the stored files contain what captures for eyes are to be made of.

That they do is shown by wrong_captures.py and wrong_eyes.py: what is made of the stored traces tells all that show them
wrongly.
"""

import unittest

import captures
import captures_files
import eyes_files
import mmpcap
import wrong_captures
import wrong_eyes

# Each capture of this folder with its length in octets, and how many records it has.
GOOD = {"every_answer": (182_582, 1502), "far_apart": (74_496, 51), "ends_in_assembly": (200, 2)}

# How many mFrames of each trace that is shown have another check in its capture for eyes.
CHANGED = {"row": 16, "empty": 0, "empty_record": 0, "lengths": 0, "like_headers": 0, "long": 0, "every_answer": 699,
           "far_apart": 2, "ends_in_assembly": 2}


def stored_by_name():
    """Of each name the stored files of tests/eyes, by their endings."""
    found = {}
    for file in eyes_files.files():
        folder, _, name = file.path.rpartition("/")
        assert folder == "tests/eyes"
        stem, _, ending = name.partition(".")
        assert ending not in found.setdefault(stem, {}), f"{file.path} is made twice"
        found[stem][ending] = file.content
    return found


class Files(unittest.TestCase):
    @classmethod
    def setUpClass(cls):
        cls.files = stored_by_name()

    def test_names(self):
        expected = dict.fromkeys(CHANGED, {"eyes.pcap"}) | dict.fromkeys(GOOD, {"pcap", "trace", "eyes.pcap"})
        self.assertEqual({name: set(endings) for name, endings in self.files.items()}, expected)

    def test_good_ones(self):
        for name, (length, count) in GOOD.items():
            with self.subTest(name):
                # The headers of a trace's records have 12 octets less.
                self.assertEqual((len(self.files[name]["pcap"]), len(self.files[name]["trace"])),
                                 (length, length - 24 - 12 * count))

    def test_good_ones_both_ways(self):
        for name in GOOD:
            with self.subTest(name):
                octets, capture = self.files[name]["trace"], self.files[name]["pcap"]
                self.assertEqual(mmpcap.made("read", capture), (octets, ""))
                self.assertEqual(mmpcap.made("write", octets), (capture, ""))

    def test_captures_for_eyes(self):
        # They differ from the plain ones in the last four octets of some records, and in each of these four.
        for name, count in CHANGED.items():
            with self.subTest(name):
                plain, _ = mmpcap.made("write", eyes_files.shown_traces()[name])
                plain, eyes = list(captures.pieces(plain)), list(captures.pieces(self.files[name]["eyes.pcap"]))
                changed = [(one, other) for one, other in zip(plain, eyes, strict=True) if one != other]
                self.assertEqual(len(changed), count)
                for one, other in changed:
                    self.assertEqual((one.header, one.content[:-4]), (other.header, other.content[:-4]))
                    self.assertEqual(bytes(octet ^ 0xFF for octet in one.content[-4:]), other.content[-4:])


class WrongOnes(unittest.TestCase):
    @classmethod
    def setUpClass(cls):
        """What is given to be shown, the short ones first, with what is made and said of it."""
        given = [*eyes_files.shown_traces().values(), *captures_files.refused_traces().values()]
        cls.given = sorted(((octets, mmpcap.made("show", octets)) for octets in given), key=lambda pair: len(pair[0]))

    def told(self):
        """Whether something else is made or said of some file."""
        return any(mmpcap.made("show", octets) != right for octets, right in self.given)

    def test_wrong_ones_are_told_from_a_right_one(self):
        # A program is fresh with each file that it is given.
        in_a_file = {name: wrong for name, wrong in wrong_eyes.EYES.items()
                     if name != "the receiver goes on from trace to trace"}
        self.assertFalse(self.told())
        for wrong_ones in (wrong_captures.WRITERS, wrong_captures.CAPTURES, in_a_file):
            for name, wrong in wrong_ones.items():
                with self.subTest(name), wrong():
                    self.assertTrue(self.told())


if __name__ == "__main__":
    unittest.main()
