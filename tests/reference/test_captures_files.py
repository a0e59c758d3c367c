"""Tests of captures_files.py: the stored files contain what document 02's request (vii) is to be run with.

That they do is shown by wrong_captures.py: what is made and said of the stored files tells all that read or write them
wrongly.
"""

import unittest

import captures_files
import mmpcap
import wrong_captures

# Of each refusal the stored captures and traces that have it.
REFUSED = {
    70: ("file_header_missing file_header_cut_3 file_header_cut_4 file_header_cut_23 file_header_cut_23_big"
         " file_header_cut_nanoseconds file_header_cut_version_2_3 file_header_cut_link_type_1"),
    71: ("nanoseconds nanoseconds_big pcapng older_magic magic_front magic_end magic_one_octet magic_one_octet_little"
         " magic_in_pairs magic_and_version magic_and_link_type a_trace_as_a_capture"),
    72: ("version_2_3 version_2_5_big version_1_4 version_3_4_big version_4_2 version_high_octets version_high_bits"
         " version_other_order version_other_order_big version_and_link_type"),
    73: ("link_type_1 link_type_273_big link_type_275 link_type_18 link_type_other_order link_type_other_order_big"
         " link_type_high_half link_type_and_cut_record link_type_bit_9 link_type_bit_10 link_type_bit_16"
         " link_type_bit_24 link_type_bit_26 link_type_bit_28 link_type_bit_31"),
    74: ("record_header_cut_1 record_header_cut_8 record_header_cut_11 record_header_cut_12 record_header_cut_15"
         " record_header_cut_15_big record_header_cut_first record_header_cut_greatest"),
    75: ("stored_1601 stored_1601_big stored_1601_of_1600_cut stored_2048_cut stored_65539 stored_2_24_big"
         " stored_2_31_big stored_greatest stored_other_order stored_other_order_big"),
    76: ("original_more original_less_big original_0 original_1601_of_none original_other_order_big original_bit_8"
         " original_bit_11 original_bit_16 original_bit_24 original_bit_31 original_before_stored"
         " original_before_cut_header original_and_cut"),
    77: "content_cut_by_one content_cut_by_one_big content_cut_all content_cut_1600 long_cut",
    50: "trace_header_cut_1 trace_header_cut_3 trace_header_cut_first trace_record_65537",
    51: ("trace_length_1601 trace_length_1601_kind_2 trace_length_32771 trace_length_then_cut"
         " a_capture_as_a_trace"),
    52: ("trace_kind_0 trace_kind_2 trace_kind_3 trace_kind_256 trace_kind_257 trace_kind_32769 trace_kind_2_cut"
         " trace_kind_before_length"),
    53: "trace_content_cut_by_one trace_content_cut_all trace_content_cut_1600",
}
# Which record it is, where that is not the one behind three good ones.
PLACES = {"record_header_cut_first": 1, "original_other_order_big": 5, "content_cut_by_one_big": 5, "long_cut": 3001,
          "trace_header_cut_first": 1, "a_capture_as_a_trace": 1, "trace_record_65537": 65_537}

# Each stored good capture with its length in octets, and how many records it has.
GOOD = {
    "row": (5324, 45), "empty": (24, 0), "empty_record": (40, 1), "lengths": (5836, 16), "like_headers": (565, 9),
    "long": (107_237, 3000), "other_big": (248, 6), "other_big_empty": (24, 0), "other_big_lengths": (5836, 16),
    "other_big_like_headers": (565, 9), "other_big_long": (107_237, 3000), "other_big_every_bit": (269, 7),
    "other_little": (248, 6), "other_little_seconds": (43, 1), "other_little_microseconds": (43, 1),
    "other_snap_length_0": (148, 3), "other_snap_length_1": (148, 3), "other_snap_length_1601": (148, 3),
}


def stored_by_name():
    """Of each name the stored files of tests/captures, by their endings."""
    found = {}
    for file in captures_files.files():
        if file.path == captures_files.SAMPLE:
            continue
        folder, _, name = file.path.rpartition("/")
        assert folder == "tests/captures"
        stem, _, ending = name.partition(".")
        assert ending not in found.setdefault(stem, {}), f"{file.path} is made twice"
        found[stem][ending] = file.content
    return found


class Files(unittest.TestCase):
    @classmethod
    def setUpClass(cls):
        cls.files = stored_by_name()

    def test_names(self):
        expected = dict.fromkeys(GOOD, {"pcap", "trace"})
        for number, names in REFUSED.items():
            expected |= dict.fromkeys(names.split(), {"trace" if number < 60 else "pcap", "said"})
        self.assertEqual({name: set(endings) for name, endings in self.files.items()}, expected)

    def test_good_ones(self):
        for name, (length, count) in GOOD.items():
            with self.subTest(name):
                # The headers of a trace's records have 12 octets less.
                self.assertEqual((len(self.files[name]["pcap"]), len(self.files[name]["trace"])),
                                 (length, length - 24 - 12 * count))

    def test_good_ones_both_ways(self):
        # What is as it is written goes both ways, what is another maker's comes back as it would be written here.
        for name in GOOD:
            with self.subTest(name):
                octets, capture = self.files[name]["trace"], self.files[name]["pcap"]
                self.assertEqual(mmpcap.made("read", capture), (octets, ""))
                written, _ = mmpcap.made("write", octets)
                self.assertEqual(written == capture, not name.startswith("other_"))
                self.assertEqual(mmpcap.made("read", written), (octets, ""))

    def test_the_sample_is_the_row(self):
        [sample] = [file for file in captures_files.files() if file.path == "crates/mmpcap/data/sample.pcap"]
        self.assertEqual((sample.content, sample.is_text), (self.files["row"]["pcap"], False))

    def test_octets_by_hand(self):
        self.assertEqual(self.files["empty_record"]["pcap"].hex(" ", -4),
                         "d4c3b2a1 02000400 00000000 00000000 40060000 12010000 00000000 00000000 00000000 00000000")
        self.assertEqual(self.files["other_little_seconds"]["pcap"][24:].hex(" ", -4),
                         "01000000 00000000 03000000 03000000 616263")
        self.assertEqual(self.files["other_big_long"]["pcap"][:28].hex(" ", -4),
                         "a1b2c3d4 00020004 00000e10 00000006 00040000 00000112 6afb2880")
        self.assertEqual(self.files["nanoseconds_big"]["pcap"][:4].hex(), "a1b23c4d")
        self.assertEqual(self.files["trace_kind_257"]["trace"][-14:].hex(" "),
                         "03 00 01 01 01 02 03 03 00 01 00 61 62 63")

    def test_refused_ones(self):
        for number, names in REFUSED.items():
            for name in names.split():
                with self.subTest(name):
                    said = self.files[name]["said"].decode("ascii")
                    front = "mmpcap: " if 70 <= number <= 73 else f"mmpcap: record {PLACES.get(name, 4)} "
                    self.assertTrue(said.startswith(front), said)
                    self.assertTrue(said.endswith(f" ({number}).\n"), said)

    def test_sentences_are_stored(self):
        self.assertEqual(self.files["original_more"]["said"],
                         b"mmpcap: record 4 was not stored whole: its stored and its original length differ (76).\n")
        self.assertEqual(self.files["trace_record_65537"]["said"],
                         b"mmpcap: record 65537 is cut off: the trace ends inside its header (50).\n")


class WrongOnes(unittest.TestCase):
    @classmethod
    def setUpClass(cls):
        """What is given to each word of mmpcap, the short ones first, with what is made and said of it."""
        cls.given = {"read": [], "write": []}
        for name, files in stored_by_name().items():
            for word, ending in (("read", "pcap"), ("write", "trace")):
                # A trace that was read from another maker's capture tells nothing more.
                if ending in files and not (word == "write" and name.startswith("other_")):
                    cls.given[word].append((files[ending], mmpcap.made(word, files[ending])))
        for pairs in cls.given.values():
            pairs.sort(key=lambda pair: len(pair[0]))

    def told(self, word):
        """Whether something else is made or said of some file."""
        return any(mmpcap.made(word, octets) != right for octets, right in self.given[word])

    def test_wrong_ones_are_told_from_a_right_one(self):
        for word, kinds in (("read", (wrong_captures.READERS, wrong_captures.TRACES)),
                            ("write", (wrong_captures.WRITERS, wrong_captures.CAPTURES))):
            self.assertFalse(self.told(word))
            for name, wrong in (pair for wrong_ones in kinds for pair in wrong_ones.items()):
                with self.subTest(name, word=word), wrong():
                    self.assertTrue(self.told(word))


if __name__ == "__main__":
    unittest.main()
