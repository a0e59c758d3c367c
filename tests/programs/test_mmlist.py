"""mmlist as a program: every stored trace, however it comes.

The program must be built (scripts/prove mmlist). rt itself holds to the reference what mmlist lists for the sample, and test_example
for document 01's own example; here mmlist lists the traces of tests/traces, is fed by pipes in pieces, and with 100 million octets,
for which its memory must not grow. test_failures.py has inputs and outputs that fail.
"""

import unittest
from pathlib import Path

import running

ROOT = Path(__file__).resolve().parents[2]
COMMAND = [str(ROOT / "scripts" / "run-program"), "mmlist"]
TRACES = ROOT / "tests" / "traces"
SAMPLE = ROOT / "crates" / "mmlist"


def sample():
    """The sample that ships with the project, and its listing."""
    return (SAMPLE / "stdin").read_bytes(), (SAMPLE / "stdout").read_bytes()


def stored(name):
    """A trace of tests/traces, and its listing."""
    return (TRACES / f"{name}.trace").read_bytes(), (TRACES / f"{name}.listing").read_bytes()


def fed(pieces, **how):
    """The listing of a trace that comes in these pieces, and the most memory of any of its processes in KiB."""
    return running.fed(COMMAND, pieces, **how)


class Stored(unittest.TestCase):
    def test_each_trace_is_listed_as_the_reference_lists_it(self):
        names = sorted(path.stem for path in TRACES.glob("*.trace"))
        self.assertEqual(names, ["answers", "empty", "long", "refused_50", "refused_51", "refused_52", "refused_53"])
        for name in names:
            with self.subTest(name=name):
                trace, listing = stored(name)
                self.assertEqual(fed([trace], status=1 if name.startswith("refused") else 0)[0], listing)


class Pieces(unittest.TestCase):
    def test_single_octets(self):
        trace, listing = sample()
        self.assertEqual(fed(trace[place:place + 1] for place in range(len(trace)))[0], listing)

    def test_pieces_that_cut_headers_and_contents(self):
        trace, listing = stored("answers")
        for size in (3, 5, 1603, 1605, 65_535, 65_537):
            with self.subTest(size=size):
                pieces = [trace[place:place + size] for place in range(0, len(trace), size)]
                self.assertEqual(fed(pieces)[0], listing)


class Length(unittest.TestCase):
    def test_memory_does_not_grow_with_the_trace(self):
        trace, _ = stored("long")
        records = 20_000
        _, small = fed([trace])
        times = 80
        listing, large = fed(trace for _ in range(times))
        self.assertGreater(times * len(trace), 100_000_000)
        self.assertEqual(listing.count(b"\n"), times * records + 2)
        self.assertLess(large, small + 1024)


if __name__ == "__main__":
    unittest.main()
