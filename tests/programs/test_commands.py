"""The commands around the programs: scripts/list, scripts/holds, scripts/capture, scripts/run-program and make, wherever called and whatever a
file is named.

mmlist, mmholds and mmpcap must be built and unchanged (scripts/prove mmlist mmholds mmpcap). Where rt itself matters, a stand-in is on the path
before it (played_kit.py).
"""

import os
import re
import select
import shutil
import signal
import socket
import subprocess
import tempfile
import threading
import unittest
from pathlib import Path

import played_kit
import running
from capture_octets import capture_of, contents_of

ROOT = Path(__file__).resolve().parents[2]
TRACES = ROOT / "tests" / "traces"
# Where the capture of the sample is written.
CAPTURE = ROOT / "target" / "sample.pcap"

# A line of rt on a crate of which nothing was left to check.
UNCHANGED = "echo 'crate trace: modules loaded=78 checked=0'"

# Names that a shell or make would take apart, or take for something else.
NAMES = ("plain.file", "it's.file", 'a "b".file', "two  words.file", "$HOME.file", "$(x) `y`.file", "a#b.file",
         "$(shell touch carried_out)", "a$(b", "$(error no)", "${HOME}", "$$.file",
         "a;b&c|d.file", "a*b?.file", "back\\slash.file", "-x.file", "--.file", "é.file", "two\nlines.file")


def make(*words):
    return ["make", "--no-print-directory", "-f", str(ROOT / "Makefile"), *words]


class Commands(unittest.TestCase):
    def setUp(self):
        room = tempfile.TemporaryDirectory()
        self.addCleanup(room.cleanup)
        self.folder = Path(room.name)

    def run_in_folder(self, command, **how):
        if "input" not in how:
            how.setdefault("stdin", subprocess.DEVNULL)
        return subprocess.run(command, cwd=self.folder, stdout=subprocess.PIPE, stderr=subprocess.PIPE, timeout=600,
                              check=False, **how)

    def begun(self, command, **how):
        """The command, going on; whatever is left of it when the test ends is ended too."""
        process = subprocess.Popen(command, cwd=self.folder, stdin=subprocess.DEVNULL, stdout=subprocess.PIPE,
                                   stderr=subprocess.PIPE, start_new_session=True, **how)
        self.addCleanup(running.end, process)
        return process

    def next_line(self, stream):
        self.assertTrue(select.select([stream], [], [], 60)[0], "no line came within a minute")
        return stream.readline()

    def refuses(self, command, sentence, status=1, **how):
        """The command lists nothing and says this sentence; make adds a line of its own."""
        done = self.run_in_folder(command, **how)
        self.assertEqual((done.returncode, done.stdout, done.stderr.splitlines()[:1]),
                         (status, b"", [sentence.encode()]))


class Given(Commands):
    """A command that gives a file to a program: the word of make and of the script, make's variable, and the program."""

    word = variable = program = ""

    def script(self, *names):
        return [str(ROOT / "scripts" / self.word), *names]

    def make(self, *names):
        return make(self.word, *(f"{self.variable}={name}" for name in names))

    def both(self, *names):
        return self.script(*names), self.make(*names)

    def sample(self):
        """The file that ships with the project, and what the program writes of it."""
        folder = ROOT / "crates" / self.program
        return (folder / "stdin").read_bytes(), (folder / "stdout").read_bytes()

    def listed(self, output):
        """The output is what the program writes of the sample."""
        self.assertEqual(output, self.sample()[1])

    def lists(self, command, **how):
        """The command lists the sample and says nothing."""
        done = self.run_in_folder(command, **how)
        self.assertEqual((done.returncode, done.stderr), (0, b""))
        return self.listed(done.stdout)


class List(Given):
    word, variable, program = "list", "TRACE", "mmlist"
    unread = "The trace {} cannot be read."
    empty = "The name of the trace is empty."
    two = "One trace is listed at a time, as in: scripts/list row.trace"
    unwritten = "mmlist: the listing could not be written."
    # A file that is refused, what is written of it all the same, and what is said.
    refused = ("tests/traces/refused_53.trace", (TRACES / "refused_53.listing").read_bytes(),
               b"mmlist: record 7 is cut off: the trace ends inside it (53).\n")


class Holds(Given):
    word, variable, program = "holds", "LIST", "mmholds"
    unread = "The list {} cannot be read."
    empty = "The name of the list is empty."
    two = "One list is read at a time, as in: scripts/holds hall.gates"
    unwritten = "mmholds: the events could not be written."
    refused = ("tests/schedules/length_4.gates", b"", b"mmholds: entry 5 has a length other than 5 (62).\n")


class Capture(Given):
    """The capture is a file, and the command says where."""

    word, variable, program = "capture", "TRACE", "mmpcap"
    unread, empty = List.unread, List.empty
    two = "One capture is made at a time, as in: scripts/capture row.trace"

    def setUp(self):
        """A capture of the sample that somebody has is put aside, and back when the test is over; no other is left there."""
        super().setUp()
        aside = CAPTURE.with_name("sample.pcap.aside")
        # One that stands aside already is from a test that was killed, and so is what stands in its place.
        if os.path.lexists(CAPTURE) and not os.path.lexists(aside):
            CAPTURE.rename(aside)

        def put_back():
            CAPTURE.unlink(missing_ok=True)
            if os.path.lexists(aside):
                aside.rename(CAPTURE)

        self.addCleanup(put_back)

    def sample(self):
        """The trace that ships with the project, and its capture."""
        octets = (ROOT / "crates" / "mmlist" / "stdin").read_bytes()
        return octets, capture_of(contents_of(octets))

    def listed(self, output):
        """The output says the name of the sample's capture alone; that file, which is taken away again."""
        told = re.fullmatch(rb"(.+) is written: open it in Wireshark, or list it with: tshark -r (.+)\n", output)
        self.assertTrue(told, output)
        # A shell takes the name out of the command that is told, as it would where that is copied.
        words = [self.run_in_folder(["bash", "-c", b'printf "%s" ' + word]).stdout for word in told.groups()]
        self.assertEqual(words[0], words[1])
        capture = self.folder / os.fsdecode(words[0])
        self.assertEqual(capture.read_bytes(), self.sample()[1])
        capture.unlink()
        return capture


class Names:
    def test_none_is_the_sample(self):
        for command in self.both():
            with self.subTest(command=command):
                self.lists(command)

    def test_an_empty_name(self):
        self.refuses(self.script(""), self.empty)
        self.refuses(self.make(""), self.empty, status=2)

    def test_a_name_that_make_takes_for_a_goal(self):
        done = self.run_in_folder([*self.make(), "a.file"])
        self.assertEqual((done.returncode, done.stdout), (2, b""))
        self.assertIn(b"A file is named so: make list TRACE=row.trace, make holds LIST=hall.gates, make capture TRACE=row.trace",
                      done.stderr)

    def test_each_name_in_the_callers_folder(self):
        for name in NAMES:
            (self.folder / name).write_bytes(self.sample()[0])
            for command in self.both(name):
                with self.subTest(command=command):
                    self.lists(command)
        self.assertFalse((self.folder / "carried_out").exists())

    def test_a_name_from_the_environment(self):
        (self.folder / "$HOME's.file").write_bytes(self.sample()[0])
        self.lists(self.make(), env={**os.environ, self.variable: "$HOME's.file"})

    def test_a_name_with_folders(self):
        (self.folder / "sub").mkdir()
        (self.folder / "a.file").write_bytes(self.sample()[0])
        for name in ("sub/../a.file", "./a.file", str(self.folder / "a.file")):
            with self.subTest(name=name):
                self.lists(self.script(name))

    def test_make_in_another_folder_takes_a_name_there(self):
        name = f"crates/{self.program}/stdin"
        self.lists(["make", "--no-print-directory", "-C", str(ROOT), self.word, f"{self.variable}={name}"])

    def test_a_link_to_the_script(self):
        (self.folder / "link").symlink_to(self.script()[0])
        self.lists([str(self.folder / "link")])

    def test_missing_a_folder_or_not_to_be_opened(self):
        (self.folder / "folder").mkdir()
        listening = socket.socket(socket.AF_UNIX)
        self.addCleanup(listening.close)
        listening.bind(str(self.folder / "socket"))
        for name in ("missing", "folder", "socket", "it's missing", "-missing", "%s"):
            with self.subTest(name=name):
                self.refuses(self.script(name), self.unread.format(name))
                self.refuses(self.make(name), self.unread.format(name), status=2)

    def test_two_files(self):
        self.refuses(self.script("a", "b"), self.two)


class NamesOfTraces(Names, List):
    pass


class NamesOfLists(Names, Holds):
    pass


class NamesOfCaptures(Names, Capture):
    # Of each trace, the capture.
    ENDINGS = {"row.trace": "row.pcap", "row": "row.pcap", "row.trace.old": "row.trace.old.pcap", "row.trace.trace": "row.trace.pcap",
               "row.TRACE": "row.TRACE.pcap", "row.pcap": "row.pcap.pcap", "rowtrace": "rowtrace.pcap", ".trace": ".pcap",
               "sub/row.trace": "sub/row.pcap", "sub.trace/row": "sub.trace/row.pcap", "-x.trace": "-x.pcap", "./-": "./-.pcap",
               "two  words.trace": "two  words.pcap", "it's.trace": "it's.pcap", "$HOME.trace": "$HOME.pcap",
               "two\nlines.trace": "two\nlines.pcap", "a line\n": "a line\n.pcap"}

    def test_endings(self):
        for folder in ("sub", "sub.trace"):
            (self.folder / folder).mkdir()
        for name, capture in self.ENDINGS.items():
            (self.folder / name).write_bytes(self.sample()[0])
            for command in self.both(name):
                with self.subTest(command=command):
                    self.assertEqual(self.lists(command), self.folder / capture)

    def test_the_sample_stands_in_target(self):
        for command in self.both():
            with self.subTest(command=command):
                self.assertEqual(self.lists(command), CAPTURE)

    def test_make_in_another_folder_takes_a_name_there(self):
        (self.folder / "sub").mkdir()
        (self.folder / "sub" / "row.trace").write_bytes(self.sample()[0])
        done = self.run_in_folder([*self.make("row.trace"), "-C", "sub"])
        self.assertEqual((done.returncode, done.stderr), (0, b""))
        self.assertEqual(sorted(path.name for path in (self.folder / "sub").iterdir()), ["row.pcap", "row.trace"])

    def test_standard_input_has_no_name(self):
        sentence = ("A capture needs a name, and standard input has none to go by: scripts/run-program mmpcap write - row.pcap "
                    "gives it one.")
        for name in ("-", "/dev/stdin"):
            with self.subTest(name=name):
                self.refuses(self.script(name), sentence, input=self.sample()[0])
                self.refuses(self.make(name), sentence, status=2, input=self.sample()[0])
        self.assertEqual(list(self.folder.iterdir()), [])


class Pipes:
    def test_a_named_pipe(self):
        pipe = self.folder / "pipe"
        os.mkfifo(pipe)
        for command in self.both("pipe"):
            with self.subTest(command=command):
                # A daemon, as it would wait for ever for a command that does not open the pipe.
                feeder = threading.Thread(target=pipe.write_bytes, args=[self.sample()[0]], daemon=True)
                feeder.start()
                self.lists(command)
                feeder.join()


class Streams(Pipes):
    def test_standard_input(self):
        octets, _ = self.sample()
        (self.folder / "a.file").write_bytes(octets)
        for command in (*self.both("-"), *self.both("/dev/stdin")):
            with self.subTest(command=command):
                self.lists(command, input=octets)
                with open(self.folder / "a.file", "rb") as file:
                    self.lists(command, stdin=file)

    def test_a_socket_as_standard_input(self):
        reader, writer = socket.socketpair()
        with reader:
            with writer:
                writer.sendall(self.sample()[0])
            self.lists(self.script("/dev/stdin"), stdin=reader)

    def test_a_closed_standard_input(self):
        self.refuses(["sh", "-c", 'exec "$@" <&-', "sh", *self.script("-")], self.unread.format("-"))

    def test_an_output_that_cannot_be_written(self):
        for redirection in (">/dev/full", ">&-"):
            with self.subTest(redirection=redirection):
                self.refuses(["sh", "-c", f'exec "$@" {redirection}', "sh", *self.script()], self.unwritten)

    def test_a_reader_that_goes_away(self):
        for command in self.both():
            reader, writer = os.pipe()
            os.close(reader)
            with self.subTest(command=command), open(writer, "wb") as output:
                done = subprocess.run(command, cwd=self.folder, stdin=subprocess.DEVNULL, stdout=output,
                                      stderr=subprocess.PIPE, timeout=600, check=False)
                self.assertEqual((done.returncode, done.stderr), (0, b""))

    def test_a_refused_file(self):
        name, written, said = self.refused
        for command, status, of_make in zip(self.both(str(ROOT / name)), (1, 2), (0, 1)):
            done = self.run_in_folder(command)
            lines = done.stderr.splitlines(keepends=True)
            self.assertEqual((done.returncode, done.stdout, lines[:1], len(lines)), (status, written, [said], 1 + of_make))


class StreamsOfTraces(Streams, List):
    pass


class StreamsOfLists(Streams, Holds):
    pass


class FilesOfCaptures(Pipes, Capture):
    def fails(self, command, sentence, status):
        """The command says this sentence alone, and that nothing is written."""
        before = sorted(path.name for path in self.folder.iterdir())
        self.refuses(command, sentence, status)
        self.assertEqual(sorted(path.name for path in self.folder.iterdir()), before)

    def test_a_refused_trace(self):
        shutil.copy(TRACES / "refused_53.trace", self.folder / "row.trace")
        sentence = "mmpcap: record 7 is cut off: the trace ends inside it (53)."
        for command, status in zip(self.both("row.trace"), (1, 2)):
            with self.subTest(command=command):
                self.fails(command, sentence, status)
        (self.folder / "row.pcap").write_bytes(b"old")
        self.fails(self.script("row.trace"), sentence, 1)
        self.assertEqual((self.folder / "row.pcap").read_bytes(), b"old")

    def test_an_old_capture_is_replaced(self):
        (self.folder / "row.trace").write_bytes(self.sample()[0])
        (self.folder / "row.pcap").write_bytes(b"old" * 100_000)
        self.lists(self.script("row.trace"))

    def test_a_name_that_is_taken(self):
        (self.folder / "row.trace").write_bytes(self.sample()[0])
        (self.folder / "row.pcap").mkdir()
        for command, status in zip(self.both("row.trace"), (1, 2)):
            with self.subTest(command=command):
                self.fails(command, "mmpcap: the name of the capture is taken by what is no file that may be written.", status)


class Proving:
    """What a script says of rt, which a stand-in plays."""

    def setUp(self):
        super().setUp()
        self.proving = f"Proving and building {self.program}; what was proved before is not proved again.\n".encode()
        self.proved = f"crate {self.program}: modules loaded=2 checked=31\n".encode()
        self.tell_proved = f"echo '{self.proved.decode().strip()}'"

    def listing_with(self, script):
        """The script, begun, with this as rt."""
        return self.begun(self.script(), env=played_kit.for_real_programs(self.folder, script))

    def ends(self, process, said):
        """The script has listed the sample, and said this."""
        output, sentences = process.communicate(timeout=60)
        self.assertEqual((process.returncode, sentences), (0, said))
        self.listed(output)

    def test_nothing_to_prove_is_not_said(self):
        self.ends(self.listing_with(f"{UNCHANGED}; echo 'rt: chose --jobs 2 for trace'"), b"")

    def test_it_is_the_program_that_is_proved(self):
        # The stand-in goes by the folder in which it is called, as rt would.
        self.ends(self.listing_with(f'[ "$*" = run ] && [ "${{PWD%/*/*}}/crates/{self.program}" = "$PWD" ] || exit 1'), b"")

    def test_what_is_proved_is_said(self):
        self.ends(self.listing_with(f"{UNCHANGED}; echo logic=proved; {self.tell_proved}; echo logic=proved"),
                  self.proving + self.proved)

    def test_it_is_said_while_a_crate_is_proved(self):
        # The stand-in does not go on before the sentence was read.
        os.mkfifo(self.folder / "go")
        process = self.listing_with(f"{UNCHANGED}; read -r _ <'{self.folder}/go'; {self.tell_proved}")
        self.assertEqual(self.next_line(process.stderr), self.proving)
        (self.folder / "go").write_text("\n")
        self.ends(process, self.proved)

    def test_a_proof_that_fails(self):
        failed = f"fn {self.program}::main: not proved\n".encode()
        unbuilt = f"{self.program} could not be proved, so it was not built.\n".encode()
        process = self.listing_with(f"echo 'error: no'; printf '{failed.decode()}'; exit 1")
        self.assertEqual((*process.communicate(timeout=60), process.returncode),
                         (b"", self.proving + failed + b"error: no\n" + failed + unbuilt, 1))

    def test_no_rt(self):
        for tool in ("bash", "dirname", "readlink"):
            (self.folder / tool).symlink_to(shutil.which(tool))
        self.refuses(self.script(), "The Rattle kit is missing: there is no rt on the path.", env={"PATH": str(self.folder)})


class ProvingMmlist(Proving, List):
    pass


class ProvingMmholds(Proving, Holds):
    pass


class ProvingMmpcap(Proving, Capture):
    pass


class RunProgram(Commands):
    """scripts/run-program in a project of its own, with a program that a shell plays."""

    def setUp(self):
        super().setUp()
        (self.folder / "target" / "bin").mkdir(parents=True)
        shutil.copytree(ROOT / "scripts", self.folder / "scripts")
        self.command = [str(self.folder / "scripts" / "run-program"), "talks"]
        self.environment = played_kit.for_played_programs(self.folder)

    def run_in_folder(self, command, **how):
        return super().run_in_folder(command, env=self.environment, **how)

    def begun(self, command, **how):
        return super().begun(command, env=self.environment, **how)

    def program(self, script):
        played_kit.executable(self.folder / "target" / "bin" / "talks", f"#!/bin/sh\n{script}\n")

    def ends(self, script, status, written, said, command=None):
        self.program(script)
        process = self.begun(command or self.command)
        self.assertEqual((*process.communicate(timeout=60), process.returncode), (written, said, status))

    def test_what_was_said_decides(self):
        self.ends("echo out", 0, b"out\n", b"")
        self.ends("echo out; echo no >&2; echo more", 1, b"out\nmore\n", b"no\n")
        self.ends("printf no >&2", 1, b"", b"no\n")
        self.ends("echo >&2", 1, b"", b"\n")
        self.ends("exit 7", 7, b"", b"")

    def test_a_closed_standard_error(self):
        for redirection in ("2>&-", "<&- 2>&-"):
            closed = ["sh", "-c", f'exec "$@" {redirection}', "sh", *self.command]
            with self.subTest(redirection=redirection):
                self.ends("echo out", 0, b"out\n", b"", closed)
                self.ends("echo out; echo no >&2; true", 1, b"out\n", b"", closed)

    def test_nothing_is_lost(self):
        much = b"".join(b"line %d\n" % number for number in range(1, 20_001))
        self.ends("i=1; while [ $i -le 20000 ]; do echo line $i; echo line $i >&2; i=$((i + 1)); done", 1, much, much)

    def test_it_is_said_while_the_program_goes_on(self):
        os.mkfifo(self.folder / "go")
        self.program(f"echo first; echo no >&2; read -r _ <'{self.folder}/go'; echo last")
        process = self.begun(self.command)
        self.assertEqual((self.next_line(process.stdout), self.next_line(process.stderr)), (b"first\n", b"no\n"))
        (self.folder / "go").write_text("\n")
        self.assertEqual((*process.communicate(timeout=60), process.returncode), (b"last\n", b"", 1))

    def test_a_program_that_a_signal_ends(self):
        self.program("kill -s PIPE $$")
        self.assertEqual(self.run_in_folder(self.command).returncode, -signal.SIGPIPE)

    def test_words_behind_the_name_go_to_the_program(self):
        for words in ((), ("hall.gates",), ("two  words", "", "-x", "$HOME", "*", "it's"), ("--",)):
            with self.subTest(words=words):
                expected = "".join(f"<{word}>" for word in words).encode()
                self.ends('for word; do printf "<%s>" "$word"; done', 0, expected, b"", [*self.command, *words])

    def test_no_program(self):
        nameless = "run-program: the name of a program is needed, as in: scripts/run-program mmholds hall.gates"
        self.refuses(self.command[:1], nameless)
        self.refuses([self.command[0], "", "hall.gates"], nameless)
        self.refuses([*self.command, "hall.gates"], "run-program: there is no target/bin/talks; scripts/prove talks proves and builds it.")
        self.refuses(self.command, "run-program: there is no target/bin/talks; scripts/prove talks proves and builds it.")


class Help(Commands):
    def test_every_target_has_a_line(self):
        text = "".join((ROOT / name).read_text() for name in ("Makefile", "tests/c/c.mk"))
        targets = " ".join(re.findall(r"^\.PHONY: (.*)$", text, re.MULTILINE)).split()
        self.assertLessEqual({"help", "list", "holds", "capture", "test", "c-test", "board", "bench"}, set(targets))
        for command in (make("help"), make()):
            done = self.run_in_folder(command)
            self.assertEqual((done.returncode, done.stderr), (0, b""))
            lines = [line.split(maxsplit=2) for line in done.stdout.decode().splitlines()]
            self.assertEqual([line[:2] for line in lines], [["make", target] for target in targets])
            self.assertTrue(all(len(line) == 3 for line in lines))


if __name__ == "__main__":
    unittest.main()
