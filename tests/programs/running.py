"""Running a program of the port as its tests need it: in a folder of its own, patiently but not for ever, and fed in pieces."""

import os
import signal
import subprocess
import tempfile
import threading
from pathlib import Path

import inputs

UNENDED = "the program did not end"


def end(process):
    """Ends a process that leads a session, and all that it began, where it goes on."""
    if process.returncode is None:
        os.killpg(process.pid, signal.SIGKILL)
        process.communicate()


class Called:
    """A test case's program, which has a command, and is called in a folder that nobody else has. Who needs less patience says so."""

    command = []
    environment = None
    patience = 60

    def setUp(self):
        room = tempfile.TemporaryDirectory()
        self.addCleanup(room.cleanup)
        self.folder = Path(room.name)

    def file(self, octets, name):
        """A file of the folder."""
        path = self.folder / name
        path.write_bytes(octets)
        return path

    def begun(self, *words, redirection="", stdin=subprocess.DEVNULL, **how):
        """The program, called with these words and going on, its streams redirected by the shell where Python cannot, as by `>&-`.

        Whatever is left of it when the test ends is ended too.
        """
        command = ["sh", "-c", f'exec "$@" {redirection}', "sh", *self.command, *words]
        process = subprocess.Popen(command, cwd=self.folder, stdin=stdin, stdout=subprocess.PIPE, stderr=subprocess.PIPE,
                                   env=self.environment, start_new_session=True, **how)
        self.addCleanup(end, process)
        if stdin is not subprocess.DEVNULL:
            stdin.close()
        return process

    def ended(self, process):
        """What the program wrote and said when it is at its end; its status must be 1 exactly where it says anything."""
        try:
            output, sentence = process.communicate(timeout=self.patience)
        except subprocess.TimeoutExpired:
            end(process)
            self.fail(UNENDED)
        self.assertEqual(process.returncode, 1 if sentence else 0)
        return output, sentence

    def said(self, *words, **how):
        return self.ended(self.begun(*words, **how))


def fed(command, pieces, status=0, patience=600, **how):
    """What a command writes whose input comes in these pieces, and the most memory of any of its processes in KiB; its status must be this one."""
    with inputs.piped(pieces) as source:
        process = subprocess.Popen(command, stdin=source, stdout=subprocess.PIPE, stderr=subprocess.DEVNULL, start_new_session=True, **how)
    limit = threading.Timer(patience, os.killpg, (process.pid, signal.SIGKILL))
    limit.start()
    try:
        with process.stdout:
            output = process.stdout.read()
        os.waitid(os.P_PID, process.pid, os.WEXITED | os.WNOWAIT)
    finally:
        limit.cancel()
        limit.join()
        # Until it is waited for below, the number is its own: nobody else is ended, but whatever is left of it.
        os.killpg(process.pid, signal.SIGKILL)
    _, code, usage = os.wait4(process.pid, 0)
    process.returncode = os.waitstatus_to_exitcode(code)
    if process.returncode != status:
        raise AssertionError(UNENDED if process.returncode == -signal.SIGKILL else f"the status is {process.returncode}, not {status}")
    return output, usage.ru_maxrss
