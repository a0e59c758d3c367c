#!/usr/bin/env python3
"""tables.py FOLDER: the benchmark's table from the files that callgrind wrote there."""

import re
import sys
from pathlib import Path


def main():
    counts = {}
    for file in Path(sys.argv[1]).glob("callgrind.*"):
        text = file.read_text()
        name = re.search(r"^desc: Trigger: Client Request: (.*)\|(\d+)\|(\d+)\|(\w+)$", text, re.M)
        total = re.search(r"^(?:summary|totals): (\d+)", text, re.M)
        if name and total:
            counts[int(file.suffix[1:])] = (name[1], int(name[2]), int(name[3])), name[4], int(total[1])
    rows = {}
    for _, (row, what, total) in sorted(counts.items()):
        rows.setdefault(row, {})[what] = total
    print(f"\n| {'call':32} |      octets |    port | plain C | ratio |")
    print(f"|{'-' * 34}|------------:|--------:|--------:|------:|")
    for (name, octets, calls), found in rows.items():
        port, plain = (round((found[what] - found["nothing"]) / calls) for what in ("port", "plain"))
        print(f"| {name:32} | {octets:>11,} | {port:>7,} | {plain:>7,} | {port / plain:>5.2f} |")
    print()


if __name__ == "__main__":
    main()
