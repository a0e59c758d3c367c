"""The command that makes both captures of a trace, the plain one and the one for eyes: scripts/captures and make captures, wherever called and
whatever a file is named.

mmpcap must be built and unchanged (scripts/prove mmpcap).
"""

import contextlib
import os
import re
import shutil
import signal
import threading
import unittest

import played_kit
from capture_octets import capture_of, contents_of, shown
from test_commands import CAPTURE, ROOT, TRACES, Commands, Given, Names


class Fed:
    @contextlib.contextmanager
    def fed_pipe(self, octets):
        """Meanwhile there is a pipe that gives these octets to whoever opens it, which must be done."""
        pipe = self.folder / "pipe"
        os.mkfifo(pipe)
        # A daemon, as it would wait for ever for a command that does not open the pipe.
        feeder = threading.Thread(target=pipe.write_bytes, args=[octets], daemon=True)
        feeder.start()
        try:
            yield
            feeder.join(60)
            self.assertFalse(feeder.is_alive(), "nobody opened the pipe")
        finally:
            pipe.unlink()


def for_eyes(capture):
    """The capture for eyes beside a plain one."""
    return capture.with_name(capture.name.removesuffix(".pcap") + ".eyes.pcap")


class Captures(Fed, Given):
    """The captures are files, and the command says where, and what each is for."""

    word, variable, program = "captures", "TRACE", "mmpcap"
    unread, empty = "The trace {} cannot be read.", "The name of the trace is empty."
    two = "The captures of one trace are made at a time, as in: scripts/captures row.trace"
    told = (rb"(?P<eyes>.+) is written for eyes: its fragments, V and R have the check octets that the viewer expects, not those of the wire; "
            rb"open it in Wireshark, or list it with: tshark -2 -n -r (?P=eyes)\n"
            rb"(?P<plain>.+) is written for keeping: it has the octets of the wire, unaltered, and mmpcap reads them back; "
            rb"the viewer calls its fragments, V and R bad\.\n")

    def setUp(self):
        super().setUp()
        for capture in (CAPTURE, for_eyes(CAPTURE)):
            self.put_aside(capture)

    def put_aside(self, capture):
        """A capture of the sample that somebody has is put aside, and back when the test is over; no other is left there."""
        aside = capture.with_name(f"{capture.name}.aside")
        # One that stands aside already is from a test that was killed, and so is what stands in its place.
        if os.path.lexists(capture) and not os.path.lexists(aside):
            capture.rename(aside)

        def put_back():
            capture.unlink(missing_ok=True)
            if os.path.lexists(aside):
                aside.rename(capture)

        self.addCleanup(put_back)

    def sample(self):
        """The trace that ships with the project, its plain capture and its capture for eyes."""
        folder = ROOT / "crates" / "mmlist"
        octets = (folder / "stdin").read_bytes()
        contents = list(contents_of(octets))
        return octets, capture_of(contents), capture_of(shown(contents, (folder / "stdout").read_bytes()))

    def listed(self, output):
        """The output tells the sample's captures alone; the plain one's path. Both are taken away again."""
        told = re.fullmatch(self.told, output)
        self.assertTrue(told, output)
        capture, eyes = (self.named(told[name]) for name in ("plain", "eyes"))
        self.assertEqual(eyes, for_eyes(capture))
        self.assertEqual((capture.read_bytes(), eyes.read_bytes()), self.sample()[1:])
        capture.unlink()
        eyes.unlink()
        return capture

    def named(self, word):
        """The path that a shell takes out of a word, as it would where a command with it is copied."""
        return self.folder / os.fsdecode(self.run_in_folder(["bash", "-c", b'printf "%s" ' + word]).stdout)


class NamesOfBoth(Names, Captures):
    # Of each trace, the capture.
    ENDINGS = {"row.trace": "row.pcap", "row": "row.pcap", "row.trace.old": "row.trace.old.pcap", "row.trace.trace": "row.trace.pcap",
               "row.TRACE": "row.TRACE.pcap", "row.pcap": "row.pcap.pcap", "rowtrace": "rowtrace.pcap", ".trace": ".pcap",
               "sub/row.trace": "sub/row.pcap", "sub.trace/row": "sub.trace/row.pcap", "-x.trace": "-x.pcap", "./-": "./-.pcap",
               "two  words.trace": "two  words.pcap", "it's.trace": "it's.pcap", "$HOME.trace": "$HOME.pcap",
               "two\nlines.trace": "two\nlines.pcap", "a line\n": "a line\n.pcap", "eyes.trace": "eyes.pcap", "roweyes": "roweyes.pcap",
               "row.eyes.pcap": "row.eyes.pcap.pcap", "row.Eyes.trace": "row.Eyes.pcap", "sub.eyes/row": "sub.eyes/row.pcap"}
    # Traces whose plain capture would have the name of another's capture for eyes, and that name.
    LIKE_EYES = {"row.eyes.trace": "row.eyes.pcap", "row.eyes": "row.eyes.pcap", ".eyes.trace": ".eyes.pcap",
                 "sub/row.eyes.trace": "sub/row.eyes.pcap", "it's.eyes.trace": "it's.eyes.pcap", "row.eyes.eyes": "row.eyes.eyes.pcap"}

    def test_endings(self):
        for folder in ("sub", "sub.trace", "sub.eyes"):
            (self.folder / folder).mkdir()
        for name, capture in self.ENDINGS.items():
            (self.folder / name).write_bytes(self.sample()[0])
            for command in self.both(name):
                with self.subTest(command=command):
                    self.assertEqual(self.lists(command), self.folder / capture)

    def test_the_name_of_a_capture_for_eyes(self):
        (self.folder / "sub").mkdir()
        for name, capture in self.LIKE_EYES.items():
            (self.folder / name).write_bytes(self.sample()[0])
            before = sorted(self.folder.rglob("*"))
            sentence = (f"The plain capture of {name} would be {capture}, which is the name of another trace's capture for eyes; "
                        "give the trace another name.")
            with self.subTest(name=name):
                self.refuses(self.script(name), sentence)
                self.refuses(self.make(name), sentence, status=2)
                self.assertEqual(sorted(self.folder.rglob("*")), before)

    def test_the_sample_stands_in_target(self):
        for command in self.both():
            with self.subTest(command=command):
                self.assertEqual(self.lists(command), CAPTURE)

    def test_make_in_another_folder_takes_a_name_there(self):
        (self.folder / "sub").mkdir()
        (self.folder / "sub" / "row.trace").write_bytes(self.sample()[0])
        done = self.run_in_folder([*self.make("row.trace"), "-C", "sub"])
        self.assertEqual((done.returncode, done.stderr), (0, b""))
        self.assertEqual(sorted(path.name for path in (self.folder / "sub").iterdir()), ["row.eyes.pcap", "row.pcap", "row.trace"])

    def test_standard_input_has_no_name(self):
        sentence = ("A capture needs a name, and standard input has none to go by: scripts/run-program mmpcap show - row.eyes.pcap "
                    "gives it one.")
        for name in ("-", "/dev/stdin"):
            with self.subTest(name=name):
                self.refuses(self.script(name), sentence, input=self.sample()[0])
                self.refuses(self.make(name), sentence, status=2, input=self.sample()[0])
        self.assertEqual(list(self.folder.iterdir()), [])


class Pipes:
    def test_a_named_pipe(self):
        for command in self.both("pipe"):
            with self.subTest(command=command), self.fed_pipe(self.sample()[0]):
                self.lists(command)


class FilesOfBoth(Pipes, Captures):
    REFUSED = TRACES / "refused_53.trace"
    CUT_OFF = "mmpcap: record 7 is cut off: the trace ends inside it (53)."
    TAKEN = "mmpcap: the name of the capture is taken by what is no file that may be written."
    HALF = "row.pcap is written; row.eyes.pcap is not, and an old one is as it was."

    def setUp(self):
        super().setUp()
        self.file("row.trace", self.sample()[0])
        # Where what is kept for a while is kept.
        self.kept = self.folder / "kept"
        self.kept.mkdir()

    def file(self, name, octets):
        (self.folder / name).write_bytes(octets)

    def run_in_folder(self, command, **how):
        return super().run_in_folder(command, **{"env": {**os.environ, "TMPDIR": str(self.kept)}, **how})

    def all_files(self):
        """What is in the folder, and what each file holds."""
        return {path.name: path.read_bytes() if path.is_file() else None for path in self.folder.iterdir()}

    def fails(self, name, *sentences, written=None):
        """Of a trace both commands say these sentences alone, and write nothing, or this; nothing is kept."""
        for command, status, of_make in zip(self.both(name), (1, 2), (0, 1)):
            before = self.all_files()
            with self.subTest(command=command):
                done = self.run_in_folder(command)
                lines = done.stderr.decode().splitlines()
                self.assertEqual((done.returncode, done.stdout, lines[:len(sentences)], len(lines)),
                                 (status, b"", list(sentences), len(sentences) + of_make))
                self.assertEqual(self.all_files(), before | (written or {}))
                self.assertEqual(list(self.kept.iterdir()), [])

    def test_a_refused_trace(self):
        shutil.copy(self.REFUSED, self.folder / "row.trace")
        self.fails("row.trace", self.CUT_OFF)
        self.file("row.pcap", b"old")
        self.file("row.eyes.pcap", b"old, for eyes")
        self.fails("row.trace", self.CUT_OFF)

    def test_old_captures_are_replaced(self):
        for old in ("row.pcap", "row.eyes.pcap"):
            self.file(old, b"old" * 100_000)
        self.lists(self.script("row.trace"))

    def test_a_name_that_is_taken(self):
        (self.folder / "row.pcap").mkdir()
        self.file("row.eyes.pcap", b"old, for eyes")
        self.fails("row.trace", self.TAKEN)

    def test_a_name_for_eyes_that_is_taken(self):
        (self.folder / "row.eyes.pcap").mkdir()
        self.fails("row.trace", self.TAKEN, self.HALF, written={"row.pcap": self.sample()[1]})

    def test_a_pipe_is_kept_for_no_longer_than_it_is_needed(self):
        with self.fed_pipe(self.sample()[0]):
            self.lists(self.script("pipe"))
        self.assertEqual(list(self.kept.iterdir()), [])
        with self.fed_pipe(self.REFUSED.read_bytes()):
            self.refuses(self.script("pipe"), self.CUT_OFF)
        self.assertEqual(list(self.kept.iterdir()), [])
        self.assertFalse((self.folder / "pipe.pcap").exists())

    def test_only_a_pipe_is_kept(self):
        surroundings = {**os.environ, "TMPDIR": str(self.folder / "missing")}
        self.lists(self.script("row.trace"), env=surroundings)
        before = self.all_files()
        os.mkfifo(self.folder / "pipe")
        done = self.run_in_folder(self.script("pipe"), env=surroundings)
        self.assertEqual((done.returncode, done.stdout, len(done.stderr.splitlines())), (1, b"", 1))
        self.assertEqual(self.all_files(), before | {"pipe": None})

    def test_a_signal_while_a_pipe_is_read(self):
        os.mkfifo(self.folder / "pipe")
        opened, ended = threading.Event(), threading.Event()
        self.addCleanup(ended.set)

        def keep_open():
            with open(self.folder / "pipe", "wb"):
                opened.set()
                ended.wait()

        threading.Thread(target=keep_open, daemon=True).start()
        process = self.begun(self.script("pipe"), env={**os.environ, "TMPDIR": str(self.kept)})
        self.assertTrue(opened.wait(60), "nobody opened the pipe")
        self.assertNotEqual(list(self.kept.iterdir()), [])
        os.killpg(process.pid, signal.SIGTERM)
        process.communicate(timeout=60)
        self.assertEqual(list(self.kept.iterdir()), [])


class Steps(Fed, Commands):
    """What mmpcap is told by scripts/captures, and what is said where it fails at a step."""

    # A pipe is read only once, so that its trace is read back from the plain capture.
    STEPS = {"row.trace": ["write", "show"], "pipe": ["write", "read", "show"]}

    def setUp(self):
        super().setUp()
        (self.folder / "target" / "bin").mkdir(parents=True)
        shutil.copytree(ROOT / "scripts", self.folder / "scripts")
        # What is played is called proved.
        played_kit.executable(self.folder / "scripts" / "prove", "#!/bin/sh\n")
        self.environment = played_kit.for_played_programs(self.folder)
        (self.folder / "row.trace").write_bytes(b"a trace")
        (self.folder / "kept").mkdir()
        self.environment["TMPDIR"] = str(self.folder / "kept")

    def captured(self, name, failing="none"):
        """The steps of which a capture is made by an mmpcap that copies, and fails at one; what is written and said, and the status."""
        played_kit.executable(self.folder / "target" / "bin" / "mmpcap", f"""#!/bin/sh
                         echo "$1" >>steps
                         if [ "$1" = {failing} ]; then echo no >&2; exit; fi
                         if [ "$2" != - ]; then exec <"$2"; fi
                         cat >"$3"
""")
        with self.fed_pipe(b"a trace") if name == "pipe" else contextlib.nullcontext():
            done = self.run_in_folder([str(self.folder / "scripts" / "captures"), name], env=self.environment)
        steps = (self.folder / "steps").read_text().split()
        (self.folder / "steps").unlink()
        self.assertEqual(list((self.folder / "kept").iterdir()), [])
        return steps, len(done.stdout.splitlines()), done.stderr.decode().splitlines(), done.returncode

    def test_each_step(self):
        for name, steps in self.STEPS.items():
            with self.subTest(name=name):
                self.assertEqual(self.captured(name), (steps, 2, [], 0))
                capture = self.folder / f"{name.removesuffix('.trace')}.pcap"
                self.assertEqual([path.read_bytes() for path in (capture, for_eyes(capture))], [b"a trace"] * 2)

    def test_a_step_that_fails(self):
        for name, steps in self.STEPS.items():
            before = name.removesuffix(".trace")
            half = f"{before}.pcap is written; {before}.eyes.pcap is not, and an old one is as it was."
            for number, step in enumerate(steps):
                with self.subTest(name=name, step=step):
                    self.assertEqual(self.captured(name, step), (steps[:number + 1], 0, ["no", half] if number else ["no"], 1))


if __name__ == "__main__":
    unittest.main()
