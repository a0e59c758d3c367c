#!/usr/bin/env python3
"""crc_table.py ARCHIVE: fails unless the compiler made a table of the check octets' loop.

The loop of crates/crc takes bit steps, which the compiler turns into one table of 256 words in read-only memory. Nothing
proves that it does, and without the table the port is eight times slower.
"""

import struct
import sys
from pathlib import Path

sys.path.insert(0, str(Path(__file__).resolve().parent))
from elf import members


def entry(octet):
    for _ in range(8):
        octet = octet >> 1 ^ (0xEDB88320 if octet & 1 else 0)
    return octet


def main():
    table = struct.pack("<256I", *map(entry, range(256)))
    objects = list(members(Path(sys.argv[1]).read_bytes()))
    found = [section.name for thing in objects for section in thing.sections if section.read_only and table in section.octets]
    if not found:
        sys.exit(f"{sys.argv[1]}: the loop of the check octets was not turned into a table")
    print(f"{len(table)} octets in {', '.join(found)}")


if __name__ == "__main__":
    main()
