"""The listing of a trace: document 01, "Trace and listing".

    python3 tests/reference/mmlist.py < trace

reads a trace from standard input and prints its listing.
"""

import receiving
import streams
import trace


def lines(octets):
    """The listing's lines."""
    yield "mm 1"
    memory = bytearray(receiving.LEAST_ROOM)
    state = receiving.fresh()
    for number, record in enumerate(trace.records(octets), start=1):
        match record:
            case trace.Record(content):
                answer, state = receiving.receive(memory, state, content)
                yield f"{number} {answer.number} {answer.detail}"
            case trace.Refused(refusal):
                yield f"stop {number} {refusal}"
    counters = state.counters
    yield (f"end {counters.assembly_errors} {counters.delimiter_errors}"
           f" {counters.assembled} {counters.fragments}")


def listing(octets):
    """The whole listing, each line ended by one LF."""
    return "".join(line + "\n" for line in lines(octets))


if __name__ == "__main__":
    streams.put(listing(streams.taken("A trace", "python3 tests/reference/mmlist.py <row.trace")))
