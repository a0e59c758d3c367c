"""Makes the stored captures for eyes, and the traces that only they are made of: document 02, request (vii).

    python3 tests/reference/eyes_files.py            writes all files
    python3 tests/reference/eyes_files.py --check    writes nothing, compares
"""

import sys

import captures_files
import captures_mframes
import mframe
import mmpcap
import stored
import trace
from captures_files import SEED
from chance import Chance


def every_answer():
    """All mFrames that captures for eyes are asked about, one after the other: every answer, where it matters."""
    return [octets for mframes in captures_mframes.all_lists(Chance(SEED)) for octets in mframes]


def far_apart():
    """A photograph in three parts, with far more presses behind its start than anybody holds at a time."""
    chance = Chance(SEED + 3)
    presses = [mframe.express(chance.octets(mframe.GREATEST_BODY))] * 45
    first, second, last = captures_mframes.frame(1, chance.octets(180))
    return [first, *presses, second, *presses[:3], last]


def own_traces():
    """Traces that are written, read back from what was written, and shown, by name; tests/captures has none of them."""
    return {
        "every_answer": trace.written(every_answer()),
        "far_apart": trace.written(far_apart()),
        "ends_in_assembly": trace.written(captures_mframes.frame(2, bytes(range(200)))[:2]),
    }


def shown_traces():
    """Every trace of which there is a capture for eyes."""
    return {**captures_files.good_traces(), **own_traces()}


def made(word, octets):
    """What mmpcap makes of a good trace."""
    output, _ = mmpcap.made(word, octets)
    return output


def file(name, ending, octets):
    return stored.StoredFile(f"tests/eyes/{name}.{ending}", octets, is_text=False)


def files():
    own = [one for name, octets in own_traces().items()
           for one in (file(name, "trace", octets), file(name, "pcap", made("write", octets)))]
    # Of a trace that is refused the same is said whatever is to be made of it.
    return [*own, *(file(name, "eyes.pcap", made("show", octets)) for name, octets in shown_traces().items())]


if __name__ == "__main__":
    sys.exit(stored.run(files(), sys.argv[1:]))
