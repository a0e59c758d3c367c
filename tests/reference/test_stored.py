"""Tests of stored.py, which keeps the files of document 01's "All else is run and compared"."""

import contextlib
import io
import tempfile
import unittest
from pathlib import Path

import stored


class WriteAndCheck(unittest.TestCase):
    def setUp(self):
        folder = tempfile.TemporaryDirectory()
        self.addCleanup(folder.cleanup)
        self.root = Path(folder.name)
        self.files = [
            stored.StoredFile("some/folder/stdin", bytes([0, 10, 255, 7]), is_text=False),
            stored.StoredFile("some/folder/stdout", b"one\ntwo\nthree\n", is_text=True),
        ]

    def run_with(self, *arguments):
        """Exit status and all that was printed."""
        printed = io.StringIO()
        with contextlib.redirect_stdout(printed), contextlib.redirect_stderr(printed):
            status = stored.run(self.files, list(arguments), self.root)
        return status, printed.getvalue()

    def test_written_files_pass(self):
        self.assertEqual(self.run_with()[0], 0)
        self.assertEqual((self.root / "some/folder/stdin").read_bytes(), bytes([0, 10, 255, 7]))
        self.assertEqual(self.run_with("--check"), (0, ""))

    def test_missing_files_are_named_and_not_made(self):
        status, text = self.run_with("--check")
        self.assertEqual(status, 1)
        self.assertEqual(text, "some/folder/stdin is missing.\nsome/folder/stdout is missing.\n")
        self.assertEqual(list(self.root.iterdir()), [])

    def test_a_file_that_cannot_be_written(self):
        place = self.root / "some/folder/stdin"
        place.mkdir(parents=True)
        self.assertEqual(self.run_with(), (1, f"{place} could not be written.\n"))

    def altered(self, name, content):
        self.run_with()
        (self.root / name).write_bytes(content)
        status, text = self.run_with("--check")
        self.assertEqual(status, 1)
        self.assertEqual((self.root / name).read_bytes(), content)
        return text

    def test_a_changed_octet(self):
        self.assertEqual(self.altered("some/folder/stdin", bytes([0, 10, 254, 7])),
                         "some/folder/stdin differs from what the reference makes,"
                         " first at octet 2 (counted from 0).\n")

    def test_a_changed_line(self):
        self.assertEqual(self.altered("some/folder/stdout", b"one\ntvo\nthree\n"),
                         "some/folder/stdout differs from what the reference makes,"
                         " first at octet 5 (counted from 0), line 2 (counted from 1).\n")

    def test_a_missing_end(self):
        self.assertEqual(self.altered("some/folder/stdout", b"one\ntwo\nthree"),
                         "some/folder/stdout ends too early,"
                         " at octet 13 (counted from 0), line 3 (counted from 1).\n")

    def test_something_behind_the_end(self):
        self.assertEqual(self.altered("some/folder/stdin", bytes([0, 10, 255, 7, 0])),
                         "some/folder/stdin goes on too long, from octet 4 (counted from 0).\n")


if __name__ == "__main__":
    unittest.main()
