"""Tests of the ground questions and answers: document 01, "Octets of an mFrame", the ending and the cut.

The questions are written here octet by octet, and the answers are typed by hand from
document 01, so that the layout itself is tested.
"""

import unittest
from collections import Counter

import ground_format
import ground_questions
from ground_answers import answers


def answer(hexadecimal):
    return answers(bytes.fromhex(hexadecimal)).decode("ascii")


class Answers(unittest.TestCase):
    def test_nothing_asked(self):
        self.assertEqual(answer(""), "")

    def test_check(self):
        nine = b"123456789".hex()
        lines = answer("01 FFFFFFFF 0900" + nine).splitlines()
        self.assertEqual(len(lines), 10)
        self.assertEqual(lines[0], "check 0 00000000 0000ffff")
        self.assertEqual(lines[9], "check 9 2639f4cb 26390b34")

    def test_check_reads_the_register_little_endian(self):
        # The register 01020304 complemented, low octet first.
        self.assertEqual(answer("01 04030201 0000"), "check 0 fbfcfdfe fbfc0201\n")

    def test_octet(self):
        self.assertEqual(answer("02 D5"), "octet 213 0 express 0 none\n")
        self.assertEqual(answer("02 B3"), "octet 179 0 start 3 3\n")
        self.assertEqual(answer("02 2A"), "octet 42 0 continuation 3 none\n")
        self.assertEqual(answer("02 07"), "octet 7 0 verify 0 none\n")
        self.assertEqual(answer("02 19"), "octet 25 0 respond 0 none\n")
        self.assertEqual(answer("02 AD"), "octet 173 4 unknown 4 none\n")

    def test_count(self):
        self.assertEqual(answer("03 00"), "count 0 1 3 230 97 1 230\n")
        self.assertEqual(answer("03 03"), "count 3 0 2 179 42 0 179\n")
        self.assertEqual(answer("03 FE"), "count 254 3 1 127 158 3 127\n")

    def test_cut(self):
        sent_none = "0000000000000000"
        self.assertEqual(answer("04 8000000000000000" + sent_none + "00 01 0000000000000000"), "cut 60\n")
        self.assertEqual(answer("04 8000000000000000" + sent_none + "00 00 0000000000000000"), "cut whole\n")
        self.assertEqual(answer("04 3B01000000000000" + sent_none + "03 01 0000000000000000"), "cut whole\n")
        self.assertEqual(answer("04 F205000000000000" + sent_none + "00 FF B205000000000000"), "cut 1458\n")
        self.assertEqual(answer("04 F205000000000000" + sent_none + "00 FF FFFFFFFFFFFFFFFF"), "cut whole\n")

    def test_ending(self):
        nine = b"123456789".hex()
        self.assertEqual(answer("05 FFFFFFFF 0D00" + nine + "2639F4CB"), "ending done 9\n")
        self.assertEqual(answer("05 FFFFFFFF 0D00" + nine + "26390B34"), "ending more 9 340bc6d9\n")
        self.assertEqual(answer("05 FFFFFFFF 0D00" + nine + "D9C6F4CB"), "ending damaged\n")
        self.assertEqual(answer("05 FFFFFFFF 0300 000000"), "ending damaged\n")
        # All eight digits of the register are written, also when it is 0.
        self.assertEqual(answer("05 00000000 0400 FFFF0000"), "ending more 0 00000000\n")

    def test_lay(self):
        self.assertEqual(answer("06 0400 0200 0100 A0A1A2A3 B0B1"), "lay a0b0b1a3\n")
        self.assertEqual(answer("06 0400 0200 0200 A0A1A2A3 B0B1"), "lay a0a1b0b1\n")
        self.assertEqual(answer("06 0400 0200 0300 A0A1A2A3 B0B1"), "lay no room\n")
        self.assertEqual(answer("06 0000 0000 0000"), "lay \n")
        self.assertEqual(answer("06 0100 0100 FFFF A0 B0"), "lay no room\n")

    def test_one_after_the_other(self):
        self.assertEqual(answer("02 55 03 01"), "octet 85 1 unknown 1 none\ncount 1 2 0 76 82 2 76\n")

    def test_questions_that_break_the_layout(self):
        for broken in ("00", "07", "02", "04 00", "05 FFFFFFFF 0100", "01 FFFFFFFF 0108" + "00" * 2049):
            with self.subTest(broken=broken[:20]), self.assertRaises(ValueError):
                answer(broken)


class Questions(unittest.TestCase):
    @classmethod
    def setUpClass(cls):
        cls.questions = ground_questions.all_questions()
        cls.answers = answers(b"".join(cls.questions)).decode("ascii").splitlines()

    def lines(self, name):
        return [line for line in self.answers if line.split()[0] == name]

    def test_the_same_every_time(self):
        self.assertEqual(self.questions, ground_questions.all_questions())

    def test_every_octet_and_count_is_asked_once(self):
        for kind in (ground_format.OCTET, ground_format.COUNT):
            asked = [question[1] for question in self.questions if question[0] == kind]
            self.assertEqual(asked, list(range(256)))

    def test_the_marked_cuts_come_first(self):
        self.assertEqual(self.lines("cut")[:6], ["cut 60", "cut whole", "cut whole", "cut 1458", "cut whole",
                                                 "cut 252"])

    def test_every_outcome_is_met_often(self):
        outcomes = Counter()
        for line in self.lines("cut"):
            outcomes["whole" if line == "cut whole" else "cut"] += 1
        for line in self.lines("ending"):
            outcomes[line.split()[1]] += 1
        for line in self.lines("lay"):
            outcomes["no room" if line == "lay no room" else "laid"] += 1
        for outcome in ("whole", "cut", "done", "more", "damaged", "no room", "laid"):
            self.assertGreaterEqual(outcomes[outcome], 40, outcome)

    def test_sizes_stay_small(self):
        self.assertLess(sum(len(question) for question in self.questions), 300_000)
        self.assertLess(sum(len(line) + 1 for line in self.answers), 500_000)


if __name__ == "__main__":
    unittest.main()
