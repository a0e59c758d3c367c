#!/usr/bin/env python3
"""needs.py ARCHIVE: what the objects of an archive take and what they call of others, in one line."""

import sys
from pathlib import Path

sys.path.insert(0, str(Path(__file__).resolve().parent))
from elf import members


def main():
    objects = list(members(Path(sys.argv[1]).read_bytes()))
    if not objects:
        sys.exit(1)
    sections = [section for thing in objects for section in thing.sections]
    code = sum(s.size for s in sections if s.code)
    tables = sum(s.size for s in sections if s.read_only and s.name.startswith(".rodata"))
    memory = sum(s.size for s in sections if s.writable)
    wanted = sorted(set().union(*(thing.undefined() for thing in objects)))
    print(f"{code:,} octets of code, {tables:,} of tables, {memory:,} of working memory; "
          f"of the C library it calls {', '.join(wanted) or 'nothing'}")


if __name__ == "__main__":
    main()
