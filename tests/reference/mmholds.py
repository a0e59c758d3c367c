"""The holds and releases of a gate control list: document 02, request (i).

    python3 tests/reference/mmholds.py < hall.gates

reads a list from standard input and prints a line for each hold and release, and one for the
cycle. Of a list that is refused it prints nothing but one sentence, on standard error.
"""

import sys

import gates
import streams

WORDS = {gates.HOLD: "hold", gates.RELEASE: "release"}

REFUSALS = {
    gates.CUT: "is cut off: the list ends inside it",
    gates.OPERATION_UNKNOWN: "has an operation other than 0, 1 and 2",
    gates.LENGTH_NOT_5: "has a length other than 5",
    gates.TOO_MANY: "is one too many: a list has 256 at most",
}


def lines(answer):
    """The lines of a list's events, in nanoseconds from the cycle's start."""
    for event in answer.written:
        yield f"{event.time} {WORDS[event.operation]}"
    yield f"cycle {answer.cycle}"


def said(octets):
    """What mmholds says of a list: lines on standard output, a sentence on standard error; one of them is empty."""
    answer = gates.events(octets, gates.MOST_ENTRIES)
    if answer.number != gates.GOOD:
        return "", f"mmholds: entry {answer.value} {REFUSALS[answer.number]} ({answer.number}).\n"
    return "".join(line + "\n" for line in lines(answer)), ""


if __name__ == "__main__":
    output, sentence = said(streams.taken("A list", "python3 tests/reference/mmholds.py <hall.gates"))
    if sentence:
        sys.exit(sentence.rstrip("\n"))
    streams.put(output)
