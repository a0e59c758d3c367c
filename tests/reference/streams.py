"""Standard input and output of the commands of the reference.

What a user can get wrong is answered by one sentence on standard error and status 1.
"""

import os
import sys


def taken(what, example):
    """All octets of standard input, which is no terminal; the example shows how they are given."""
    if sys.stdin is not None and sys.stdin.isatty():
        sys.exit(f"{what} is read on standard input, as in: {example}")
    try:
        with open(0, "rb", closefd=False) as source:
            return source.read()
    except OSError:
        sys.exit(f"{what} could not be read.")


def put(text):
    """Prints a text that is all of the output."""
    if sys.stdout is None:
        sys.exit("The output could not be written.")
    try:
        print(text, end="", flush=True)
    except OSError as error:
        # What is left goes nowhere, or Python would try to write it once more, and say so.
        os.dup2(os.open(os.devnull, os.O_WRONLY), sys.stdout.fileno())
        # A reader that has seen enough and went away needs no sentence.
        sys.exit(1 if isinstance(error, BrokenPipeError) else "The output could not be written.")
