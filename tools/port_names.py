#!/usr/bin/env python3
"""Brings this repository's own definitions and lemmas to today's spelling: words in snake case.

usage: python3 tools/port_names.py [--dry]        at the top, once, right behind the kit's port.py

It renames what the files of specs/ and proofs/ themselves declare (not what stands in a function's folder of proofs/, whose names are those of
goals): `delimiterOf` becomes `delimiter_of`, `four-apart` becomes `four_apart`. A lemma that would get the name of a definition is called
`_lem` behind it. Names that a file takes from a library stay in that file. The new names go into crates/, must-fail edits too, and into the pages.
"""

import collections
import glob
import os
import re
import sys

DECLARED = re.compile(r"^((?:abbrev |unfoldable |pub |record |data |ruleset )*)([^\s:(){}=]+)\s*(?:[:({]|where\b)")
FIELD = re.compile(r"^  (?:pub )?([^\s:(){}=]+) :")
NOT_NAMES = ("use ", "--", "module", "unfolding", "mod ", "pub mod", "mutual", "infix", "syntax")
TOKEN = re.compile(r"[^\s(){}\[\],;.:`|\"]+")
USE = re.compile(r"(?m)^(?:pub |ghost )*use ([^\s;]+?)(?:\.\{([^}]*)\})?(?: as \S+)?;?$")
PAGES = ["README.md", "docs/ANSWERS.md", "docs/ARCHITECTURE.md", "docs/BOARD.md", "docs/DECISIONS.md", "docs/PROMISES.md", "docs/PROVING.md", "docs/VIEWER.md"]


def snake(name):
    if name[0].isupper():
        return name
    name = name.replace("mFrame", "mframe")
    name = re.sub(r"(?<=[a-z0-9])([A-Z])", lambda m: "_" + m.group(1).lower(), name)
    return name.replace("-", "_")


def read(path):
    with open(path, encoding="utf-8") as f:
        return f.read()


def own_files():
    return sorted(glob.glob("crates/*/specs/*.antt") + glob.glob("crates/*/proofs/*.antt"))


def sources():
    return sorted(glob.glob("crates/*/specs/*.antt") + glob.glob("crates/*/proofs/**/*.antt", recursive=True) + glob.glob("crates/*/src/*.rt"))


def declared(text):
    for line in text.splitlines():
        if line.startswith(NOT_NAMES):
            continue
        m = DECLARED.match(line) or FIELD.match(line)
        if m:
            yield m.groups()[-1]


def from_library(text, crates):
    """The names that the file takes from elsewhere than this repository's crates."""
    names = set()
    for path, listed in USE.findall(text):
        parts = path.split(".")
        if parts[0] == "Rattle" and len(parts) > 1 and parts[1] in crates:
            continue
        names |= {n.split(" as ")[-1].strip() for n in (listed or "").split(",")}
    return names


def main(dry):
    crates = {d.split("/")[1] for d in glob.glob("crates/*/")}
    found = collections.defaultdict(set)
    for p in own_files():
        for n in declared(read(p)):
            found[n].add(p)
    tokens = {p: set(TOKEN.findall(re.sub(r"(?m)--.*$|//.*$", "", read(p)))) for p in sources()}
    to_old = collections.defaultdict(set)
    for n in found:
        to_old[snake(n)].add(n)
    definitions = {n for n, ps in found.items() if any("/specs/" in p for p in ps)}
    new = {}
    for to, olds in sorted(to_old.items()):
        rivals = olds | ({to} & set(found))
        together = {n for n in rivals for ts in tokens.values() if n in ts and len(ts & rivals) > 1}
        for n in olds - {to}:
            new[n] = to
        if together:
            # One keeps the plain name: the definition, if there is one.
            first = sorted(together, key=lambda n: (n not in definitions, "-" in n, n != to, n))[0]
            for n in sorted(together - {first}):
                new[n] = to + "_lem"
            print(f"{to}: {', '.join(sorted(together))}; the plain name is for {first}")
    print(len(new), "names")
    KNOWN.update(snake(n) for n in found)
    if dry:
        print(new)
        return
    for p in sources():
        text = read(p)
        keep = from_library(text, crates)
        put(p, text, in_code(p, lambda n: n if n in keep else new.get(n, n)))
    for p in sorted(glob.glob("crates/*/must-fail/*.edit")):
        lines = read(p).split("\n")
        kind = next(l for l in lines if l.startswith("file: "))
        turn = in_code(kind, lambda n: new.get(n, n))
        put(p, read(p), lambda text: "\n".join(l[:5] + turn(l[5:]) if l.startswith(("old: ", "new: ")) else in_quotes(l, new) for l in lines))
    for p in PAGES:
        put(p, read(p), lambda text: in_quotes(text, new))


def in_quotes(text, new):
    """The text with the new names where it has names, which is between backticks."""
    return re.sub(r"`[^`\n]+`", lambda q: TOKEN.sub(lambda m: new.get(m.group(0), snake_known(m.group(0), new)), q.group(0)), text)


def snake_known(name, new):
    """A name that the kit's own script respelled before."""
    to = snake(name)
    return to if to in KNOWN and not name.startswith("-") else name


KNOWN = set()


def in_code(path, turn):
    """Turns the names of a text, but for those in comments and in a source's strings; between backticks in comments too."""
    comment = "--" if path.endswith(".antt") else "//"
    parts = re.compile(r"(?m)(?P<comment>(?<!\S)" + comment + r".*$)" + (r'|(?P<string>b?"(?:[^"\\]|\\.)*")' if comment == "//" else "") + r"|(?P<name>" + TOKEN.pattern + ")")

    def one(m):
        if m.group("name"):
            return turn(m.group("name"))
        if m.group("comment"):
            return re.sub(r"`[^`\n]+`", lambda q: TOKEN.sub(lambda t: turn(t.group(0)), q.group(0)), m.group(0))
        return m.group(0)

    return lambda text: parts.sub(one, text)


def put(path, text, turn):
    turned = turn(text)
    if turned != text:
        with open(path, "w", encoding="utf-8") as f:
            f.write(turned)


main("--dry" in sys.argv[1:])
