#!/usr/bin/env python3
"""tables.py FOLDER ARCHIVE OPTIONS: the tables of docs/BOARD.md from what tests/board/run made with these options.

The archive gives code, tables and stack by function, plain.o in the folder the same in plain C, rows the instructions that
QEMU counted. Ends with status 1 where a goal is missed.
"""

import re
import sys
from pathlib import Path

ROOT = Path(__file__).resolve().parents[2]
sys.path.insert(0, str(ROOT / "tests/c"))
from elf import Object, members

FUNCTION = 2
CALLS = {10, 30, 51, 102}  # R_ARM_THM_CALL, _JUMP24, _JUMP19, _JUMP11: all by which Thumb code goes to another function

# The goals.
MEMORY = 12 * 1024
STACK = 1024
LONG, LONG_RATIO, SHORT_RATIO = 256, 0.75, 1.25
# They would miss the goal of short rows, and were left without one when that was seen: docs/DECISIONS.md, 82 and 91.
NO_RATIO = {"eight 55s received", "trace of 16 presses written", "trace of 64 empty ones written", "capture of 16 presses read",
            "capture of 64 empty ones read"}
WIRE, GAP = 10_000_000, 12
CLOCK, CYCLES = 48_000_000, 2

missed = []


def goal(name, value, limit, unit=""):
    met = value <= limit
    if not met:
        missed.append(name)
    print(f"goal {'met' if met else 'MISSED'}: {name} {value:,}{unit}, at most {limit:,}{unit}")


def table(head, lines):
    lines = [[str(x) for x in line] for line in lines]
    wide = [max(len(line[i]) for line in [head] + lines) for i in range(len(head))]
    def row(cells):
        return "| " + " | ".join(c.ljust(w) if i == 0 else c.rjust(w) for i, (c, w) in enumerate(zip(cells, wide))) + " |"
    print(row(head))
    print("|" + "|".join(("-" * (w + 1) + ("-" if i == 0 else ":")) for i, w in enumerate(wide)) + "|")
    for line in lines:
        print(row(line))
    print()


def leb128(octets, at):
    value = shift = 0
    while True:
        value |= (octets[at] & 127) << shift
        if octets[at] < 128:
            return value
        at, shift = at + 1, shift + 7


class Code:
    """The functions of an object, each in a section of its own: octets, stack frame, and whom it calls."""

    def __init__(self, thing):
        sections, symbols = thing.sections, thing.symbols
        name = {s.section: s.name for s in symbols if s.kind == FUNCTION}
        self.size = {name[i]: s.size for i, s in enumerate(sections) if s.code and i in name}
        self.frame = {name[s.link]: leb128(s.octets, 4) for s in sections if s.name == ".stack_sizes" and s.link in name}
        self.calls = {n: set() for n in self.size}
        for i, section in enumerate(sections):
            if i in name:
                for r in section.relocations:
                    symbol = symbols[r.symbol]
                    if r.kind in CALLS:
                        self.calls[name[i]].add(symbol.name or name[symbol.section])
                    elif symbol.kind == FUNCTION:
                        sys.exit(f"{name[i]} takes the address of {symbol.name}: who calls it is not known")
        self.tables = {s.name: s.size for s in sections if s.read_only and s.name.startswith(".rodata") and s.size}
        self.writable = sum(s.size for s in sections if s.writable)
        self.exported = sorted(s.name for s in symbols if s.kind == FUNCTION and s.name.startswith(("seatport_", "plain_")))

    def octets(self):
        return sum(self.size.values()) + sum(self.tables.values())


def depth(name, codes, way=()):
    """The most stack below and with a function: frames summed along the calls. No function calls itself."""
    if name in way:
        sys.exit(f"{name} calls itself")
    code = next((c for c in codes if name in c.frame), None)
    if code is None:
        sys.exit(f"no frame is known of {name}")
    return code.frame[name] + max((depth(n, codes, way + (name,)) for n in code.calls[name]), default=0)


def limit_of(name, octets):
    """The goal of a row, or None. A call on a list, which sums nothing, has that of a short one."""
    if name in NO_RATIO:
        return None
    return LONG_RATIO if octets >= LONG and not name.startswith("list ") else SHORT_RATIO


def needs_as_said(options, names):
    """Under the options of which docs/BOARD.md speaks, it and the header name what the port calls of the C library, and nothing else."""
    words = f"Compiled with `{options}`, the port calls of the C library"
    sentence = f"{words} {', '.join(f'`{name}`' for name in sorted(names))}."
    print(sentence)
    page = (ROOT / "docs/BOARD.md").read_text()
    if words not in page:
        return
    for path, said in (("include/seatport.h", set(re.findall(r"__aeabi_\w+", (ROOT / "include/seatport.h").read_text())) == names),
                       ("docs/BOARD.md", sentence in page)):
        if not said:
            missed.append(f"{path} says something else of the C library")


def as_octets_come(taken):
    """The cycles that the wire leaves: to an octet until the next one, to an end in the gap behind it, to all calls of an mFrame."""
    cycles = 8 * CLOCK / WIRE
    against = {"octet, waiting": 1, "octet beyond 1,531": 1, "end after 72": GAP, "end after 1,530": GAP}
    calls = [(name, octets, taken[name]) for name, octets in against.items()]
    calls += [(f"{n:,} octets and the end", n + GAP, n * taken["octet, waiting"] + taken[f"end after {n:,}"]) for n in (72, 1530)]
    print(f"As octets come: an octet of the wire takes {cycles:.1f} cycles at {CLOCK // 1_000_000} MHz\n")
    table(["calls", "octets of wire", "cycles", "instructions", "cycles an instruction may take"],
          [[name, f"{octets:,}", f"{octets * cycles:,.1f}", f"{n:,}", f"{octets * cycles / n:.2f}"] for name, octets, n in calls])
    name, octets, n = calls[-1]
    print(f"No goal is set for these. {name}: {n * CYCLES / CLOCK * 1000:.3f} ms at {CYCLES} cycles each; the wire takes "
          f"{octets * 8 / WIRE * 1000:.3f} ms.\n")


def instructions(rows):
    """The rows, each beside its goal, and what follows from them."""
    print("\nInstructions of one call; of a photograph cut most often, of all calls that send it; of an unknown delimiter, the mean "
          "over all octets as many bits away; of an octet given by itself, the mean over those of an mFrame\n")
    lines, taken = [], {}
    for line in rows:
        name, octets, ours, theirs, *more = line.split("|")
        if more:
            sys.exit(f"{name}: port and plain C {more[0]}")
        octets, ours, theirs = int(octets), int(ours), int(theirs)
        taken[name] = ours
        limit = limit_of(name, octets)
        if limit is not None and ours > limit * theirs:
            missed.append(name)
        lines.append([name, f"{octets:,}", f"{ours:,}", f"{theirs:,}", f"{ours / theirs:.2f}", "none" if limit is None else f"{limit:.2f}"])
    table(["call", "octets", "port", "plain C", "ratio", "goal"], lines)
    print("No goal is set for " + "; ".join(sorted(NO_RATIO)) + ": docs/DECISIONS.md, 82 and 91.\n")
    as_octets_come(taken)
    both_ways(taken["express 1,530 received"] + taken["photograph sent express"])


def both_ways(both):
    """The longest mFrame received and sent, beside the wire's time for one."""
    wire = 1530 * 8 / WIRE * 1000
    time = both * CYCLES / CLOCK * 1000
    print(f"1,530 octets received and 1,530 sent: {both:,} instructions, {time:.3f} ms at {CLOCK // 1_000_000} MHz and "
          f"{CYCLES} cycles each; the wire takes {wire:.3f} ms for one. Margin {wire - time:.3f} ms, {100 * (1 - time / wire):.0f} %.")
    if time > wire:
        missed.append("1,530 octets both ways")


def main():
    made = Path(sys.argv[1])
    handed_over, = members(Path(sys.argv[2]).read_bytes())
    port = Code(handed_over)
    plain, library = (Code(Object((made / f"{name}.o").read_bytes())) for name in ("plain", "library"))

    print("\nCode and read-only tables, octets\n")
    lines = sorted(([n, f"{s:,}"] for n, s in port.size.items()), key=lambda l: (-int(l[1].replace(",", "")), l[0]))
    lines += [[f"table {n.removeprefix('.rodata').lstrip('.')}", f"{s:,}"] for n, s in sorted(port.tables.items(), key=lambda t: -t[1])]
    table(["function", "octets"], lines + [["in all", f"{port.octets():,}"], ["plain C in all", f"{plain.octets():,}"]])
    needs_as_said(sys.argv[3], handed_over.undefined())
    goal("code and tables", port.octets(), MEMORY)
    goal("working memory of its own", port.writable, 0)

    print("\nMost stack of each call, octets, frames summed along its calls\n")
    deepest = {n: depth(n, [port, library]) for n in port.exported}
    beside = {n: depth(n, [plain, library]) for n in plain.exported}
    twin = {"seatport_step": "plain_event"}
    table(["call", "port", "plain C"],
          [[n, deepest[n], beside[twin.get(n, n.replace("seatport", "plain"))]] for n in port.exported])
    goal("stack", max(deepest.values()), STACK)

    rows = made / "rows"
    if rows.exists():
        instructions(rows.read_text().splitlines())
    if missed:
        print(f"Goals missed: {'; '.join(missed)}.")
    else:
        print("All goals met." if rows.exists() else "All goals met but for instructions, which were not counted.")
    sys.exit(1 if missed else 0)


if __name__ == "__main__":
    main()
