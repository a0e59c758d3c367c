"""What the viewer is given: the stored traces, and real Ethernet frames in every kind of mFrame that document 01 knows.

The reference makes the mFrames, and tells what a receiver makes of them: it shares no code with the port.
"""

import sys
from pathlib import Path

ROOT = Path(__file__).resolve().parents[2]
sys.path.insert(0, str(ROOT / "tests" / "reference"))

import captures
import codes
import crc
import exchange
import mframe
import receiving
import trace
import traces

# ARP: 10.0.0.1 asks all who has 10.0.0.2.
REQUEST = bytes.fromhex("ffffffffffff 020000000001 0806"
                        "0001 0800 06 04 0001 020000000001 0a000001 000000000000 0a000002").ljust(mframe.LEAST_BODY, b"\0")
# UDP over IPv4, from 10.0.0.1, port 4000, to 10.0.0.2, port 4001: 400 octets.
DATAGRAM = bytes.fromhex("020000000002 020000000001 0800"
                         "45 00 01ac 0001 0000 40 11 653e 0a000001 0a000002"
                         "0fa0 0fa1 0198 0000") + bytes(range(100)) * 4


def whole(frame_count, body):
    """A preemptable frame that nobody cuts."""
    return mframe.start(frame_count, body, crc.fcs(body))


def cut(frame_count):
    """The datagram cut as often as can be: a start and six continuations, so that their count goes round."""
    return exchange.Sender(next_frame_count=frame_count).frame(DATAGRAM, 0)


def published(octets):
    """An mFrame with the standard's mCRC in place of document 01's: of the FCS the other two octets inverted, so that all four differ."""
    return octets[:-crc.CHECK_OCTETS] + bytes(octet ^ 0xFF for octet in octets[-crc.CHECK_OCTETS:])


def every_kind():
    """E, S0 to S3 whole, V, R, and for each frame count a frame in seven parts."""
    counts = range(codes.COUNTS)
    return [mframe.express(REQUEST), *(whole(count, DATAGRAM) for count in counts), mframe.verify(), mframe.respond(),
            *(part for count in counts for part in cut(count))]


def with_preamble(octets, preamble):
    """An mFrame with so many octets 55 before its delimiter."""
    return mframe.header(preamble) + octets.lstrip(exchange.LEADING)


def good_traces():
    """Every good trace by its name: the sample (row), document 01's example, those of tests/traces, one of every answer and one of every kind."""
    names = [path.stem for path in (ROOT / "tests" / "traces").glob("*.trace") if not path.stem.startswith("refused_")]
    stored = {name: (ROOT / traces.places(name)[0]).read_bytes() for name in (*traces.PROGRAMS, *names)}
    every_answer = (ROOT / "tests" / "eyes" / "every_answer.trace").read_bytes()
    return stored | {"every answer": every_answer, "every kind": trace.written(every_kind())}


def answered(name):
    """The receiver's answers to the records of a good trace: from its listing or, where none is stored, from the reference."""
    listing = ROOT / traces.places(name)[1]
    if not listing.exists():
        return [number for number, _ in answers(contents(good_traces()[name]))]
    return [int(line.split()[1]) for line in listing.read_text().splitlines()[1:-1]]


def contents(octets):
    return [record.content for record in trace.records(octets)]


def contents_of_capture(capture):
    return [piece.content for piece in captures.pieces(capture.read_bytes())]


def answers(mframes):
    """The numbers that a fresh receiver answers, and beside each number 1 the body that is delivered."""
    memory, record = bytearray(receiving.LEAST_ROOM), receiving.fresh()
    for octets in mframes:
        answer, record = receiving.receive(memory, record, octets)
        yield answer.number, bytes(memory[:answer.detail]) if answer.number == receiving.PREEMPTABLE_DELIVERED else None


def is_continuation(octets):
    return receiving.head_of(octets).is_of(codes.CONTINUATION)


def delivered(mframes):
    """What a receiver delivers of frames in several mFrames: the body, by the number of the last one's record."""
    return {number: body for number, (octets, (_, body)) in enumerate(zip(mframes, answers(mframes)), start=1)
            if body is not None and is_continuation(octets)}
