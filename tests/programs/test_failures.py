"""Every program where its input or its output fails: one sentence on standard error, and the program is at its end.

The programs must be built (scripts/prove). Their exit status says nothing of it; scripts/run-program gives 1 where one said something.
test_commands.py has the commands around them.
"""

import os
import pty
import signal
import subprocess
import tempfile
import unittest
from pathlib import Path

from inputs import failing_behind

ROOT = Path(__file__).resolve().parents[2]
RUN = str(ROOT / "scripts" / "run-program")
TRACES = ROOT / "tests" / "traces"
QUESTIONS = ("test_ground", "test_send", "test_receive", "test_stream", "test_verify", "test_link", "test_gates", "test_captures",
             "test_eyes")
LISTING = ("mmlist", "mmholds", *QUESTIONS)
READING = (*LISTING, "mmpcap")
WRITING = (*LISTING, "test_waits")

# Of each program that runs questions: some that are cut off, unknown, or ask for more than any has: 2,049 octets, those on
# captures 8,193, or 301 entries or events.
BROKEN = {
    "test_ground": ("00", "07", "ff", "01", "02", "03", "04" + "00" * 25, "05 00000000 0100", "06 0100 0100 0000 00",
                       "01 00000000 0108" + "00" * 2049, "06 0108 0000 0000" + "00" * 2049),
    "test_send": ("00", "08", "ff", "01 0000 0000", "01 0100 0000 00", "02 0000", "03", "04" + "00" * 20, "05 0100",
                     "06" + "00" * 11, "07 0000", "02 0108 00", "05 0108" + "00" * 2049),
    "test_receive": ("00", "04", "ff", "01" + "00" * 30, "02 0000", "03 0100", "02 0108 00", "03 0108" + "00" * 2049),
    "test_stream": ("00", "07", "ff", "01" + "00" * 30, "02 0000", "03 0000", "04" + "00" * 4, "05 00", "05 0100",
                       "02 0108 00", "03 0108 00", "05 0108" + "00" * 2049),
    "test_verify": ("00", "03", "ff", "01 000000", "02", "01 04000000", "02 02", "02 0a"),
    "test_link": ("00", "00" * 7),
    "test_gates": ("00", "04", "ff", "01 0000 0000", "01 0100 0000 00", "02 0100 0000 00" + "00" * 11, "03 0000",
                      "01 0000 2d01 00", "02 0000 0108 00", "03 0000 2d01 00", "01 0108 0000 00" + "00" * 2049,
                      "02 2d01 0000 00" + "00" * 3612, "03 0108 0000 00" + "00" * 2049),
    "test_captures": ("00", "03", "ff", "01 0000 0000", "02 0000 0000", "01 0100 0000 00", "02 0200 0000 00 00", "01 0000 0120 00",
                         "02 0000 0120 00", "01 0120 0000 00" + "00" * 8193, "02 0120 0000 00" + "00" * 8193),
    "test_eyes": ("00", "04", "ff", *(f"{kind} {rest}" for kind in ("01", "02", "03") for rest in (
                         "", "0000 0000", "0100 0000 00", "0200 0000 00 00", "0000 0120 00", "0120 0000 00" + "00" * 8193))),
}


# What a program says behind its name where a stream fails: those for the hall, and those that run questions.
SENTENCES = {
    "mmlist": {
        "terminal": "a trace is read on standard input, as in: mmlist <row.trace",
        "unread": "the trace could not be read.",
        "unwritten": "the listing could not be written.",
    },
    "mmholds": {
        "terminal": "a list is read from a file or from standard input, as in: mmholds hall.gates",
        "unread": "the list could not be read.",
        "unwritten": "the events could not be written.",
    },
    # What it writes goes to a file that it makes: test_mmpcap.py has where that fails.
    "mmpcap": {
        "terminal": "the trace is a terminal; name a file, or give it on standard input.",
        "unread": "the trace could not be read.",
    },
}
OF_QUESTIONS = {
    "terminal": "the stored questions are read on standard input, as in: scripts/run-program {name} <crates/{name}/stdin",
    "unread": "the questions could not be read.",
    "unwritten": "the output could not be written.",
    "broken": "a question is cut off, or is none that tests/reference/README.md describes.",
}


def said(name, case):
    return f"{name}: {SENTENCES.get(name, OF_QUESTIONS)[case].format(name=name)}\n".encode("ascii")


def at_a_terminal(name):
    return said(name, "terminal")


def unread(name):
    return said(name, "unread")


def unwritten(name):
    return said(name, "unwritten")


def broken(name):
    return said(name, "broken")


def nothing_listed(name):
    """What a program writes where no octet could be read: a listing has its first and its last line all the same."""
    return b"mm 1\nend 0 0 0 0\n" if name == "mmlist" else b""


def stored(name):
    """The octets stored for a program, to be read and to be written; test_waits reads nothing."""
    folder = ROOT / "crates" / name
    source = folder / "stdin"
    return source.read_bytes() if source.exists() else b"", (folder / "stdout").read_bytes()


def run(name, *words, redirection="", **streams):
    """Runs a program, its streams redirected by the shell where Python cannot, as by `>&-`."""
    streams = {"stdout": subprocess.PIPE, "stderr": subprocess.PIPE, "timeout": 60, **streams}
    return subprocess.run(["sh", "-c", f'exec "$@" {redirection}', "sh", RUN, name, *words], check=False, **streams)


class Failures(unittest.TestCase):
    def setUp(self):
        room = tempfile.TemporaryDirectory()
        self.addCleanup(room.cleanup)
        self.folder = Path(room.name)

    def words(self, name):
        """The words with which a program reads standard input: mmpcap must be told so, and what to make."""
        return ("write", "-", str(self.folder / "row.pcap")) if name == "mmpcap" else ()

    def each(self, names, sentence, answers=lambda name: b"", **how):
        """Each program writes its answers, here none, and says its sentence once; status 1 where there is one. No file is made."""
        for name in names:
            with self.subTest(name=name):
                done = run(name, *self.words(name), **how)
                self.assertEqual((done.stdout or b"", done.stderr), (answers(name), sentence(name)))
                self.assertEqual(done.returncode, 1 if sentence(name) else 0)
                self.assertEqual(list(self.folder.iterdir()), [])


class Input(Failures):
    def test_stored_octets_are_taken_without_a_word(self):
        for name in WRITING:
            octets, answers = stored(name)
            self.each([name], lambda name: b"", lambda name: answers, input=octets)

    def test_a_terminal(self):
        try:
            keyboard, terminal = pty.openpty()
        except OSError:
            self.skipTest("this machine has no pseudo-terminals")
        try:
            self.each(READING, at_a_terminal, stdin=terminal)
        finally:
            os.close(keyboard)
            os.close(terminal)

    def test_a_folder(self):
        self.each(READING, unread, nothing_listed, redirection="<crates", cwd=ROOT)

    def test_a_closed_input(self):
        self.each(READING, unread, nothing_listed, redirection="<&-")


class Traces(Failures):
    """mmlist, where a trace is cut or refused, or cannot be read to its end."""

    REFUSED = {
        50: b"mmlist: record 7 is cut off: the trace ends inside its header (50).\n",
        51: b"mmlist: record 7 says that its content is longer than 1,600 octets (51).\n",
        52: b"mmlist: record 7 is of a kind other than 1 (52).\n",
        53: b"mmlist: record 7 is cut off: the trace ends inside it (53).\n",
    }

    def stored(self, name):
        return (TRACES / f"{name}.trace").read_bytes(), (TRACES / f"{name}.listing").read_bytes()

    def fails_behind(self, octets, listing, sentence):
        with failing_behind(octets) as source:
            self.each(["mmlist"], lambda name: sentence, lambda name: listing, stdin=source)

    def test_a_refused_record(self):
        for number, sentence in self.REFUSED.items():
            with self.subTest(number=number):
                octets, listing = self.stored(f"refused_{number}")
                self.each(["mmlist"], lambda name: sentence, lambda name: listing, input=octets)

    def test_the_sentence_stands_behind_the_listing(self):
        octets, listing = self.stored("refused_53")
        done = run("mmlist", input=octets, stderr=subprocess.STDOUT)
        self.assertEqual(done.stdout, listing + self.REFUSED[53])

    def test_a_trace_that_is_named(self):
        # Whoever names a file would take a listing of standard input for that file's.
        octets, _ = self.stored("answers")
        self.each(["mmlist"], at_a_terminal, redirection="row.trace", input=octets)

    def test_a_read_that_fails_between_records(self):
        for name in ("answers", "empty"):
            with self.subTest(name=name):
                octets, listing = self.stored(name)
                self.fails_behind(octets, listing, unread("mmlist"))

    def test_a_read_that_fails_inside_a_record(self):
        # Nothing is known of a record that did not come whole, so that there is no line for it.
        for number in (50, 53):
            with self.subTest(number=number):
                octets, listing = self.stored(f"refused_{number}")
                self.fails_behind(octets, listing.replace(b"stop 7 %d\n" % number, b""), unread("mmlist"))

    def test_a_read_that_fails_behind_a_header_that_is_refused(self):
        # The header says enough: the trace would be read no further in any case.
        for number in (51, 52):
            with self.subTest(number=number):
                octets, listing = self.stored(f"refused_{number}")
                self.fails_behind(octets, listing, self.REFUSED[number])

    def test_neither_read_nor_written(self):
        with failing_behind(b"") as source:
            self.each(["mmlist"], unwritten, redirection=">/dev/full", stdin=source)


class Output(Failures):
    def test_a_full_device(self):
        for name in WRITING:
            self.each([name], unwritten, redirection=">/dev/full", input=stored(name)[0])

    def test_a_closed_output(self):
        for name in WRITING:
            self.each([name], unwritten, redirection=">&-", input=stored(name)[0])

    def gone(self, name, **how):
        """What a program says that writes to a pipe nobody reads, and its end."""
        reader, writer = os.pipe()
        os.close(reader)
        try:
            done = run(name, stdout=writer, input=stored(name)[0], **how)
        finally:
            os.close(writer)
        return done.stderr, done.returncode

    def test_a_reader_that_goes_away(self):
        for name in WRITING:
            with self.subTest(name=name):
                self.assertEqual(self.gone(name), (b"", -signal.SIGPIPE))

    def test_a_reader_that_goes_away_unsignalled(self):
        # Python ignores the signal, and hands that on where it is not told otherwise.
        for name in WRITING:
            with self.subTest(name=name):
                self.assertEqual(self.gone(name, restore_signals=False)[0], unwritten(name))


class Questions(Failures):
    def test_no_question(self):
        self.each(QUESTIONS, lambda name: b"", input=b"")

    def test_broken_ones(self):
        for name, questions in BROKEN.items():
            for question in questions:
                with self.subTest(question=question[:40]):
                    self.each([name], broken, input=bytes.fromhex(question))

    def test_those_before_a_broken_one_are_answered(self):
        for name in QUESTIONS:
            octets, answers = stored(name)
            self.each([name], broken, lambda name: answers, input=octets + b"\xff")


if __name__ == "__main__":
    unittest.main()
