#!/usr/bin/env python3
"""Counts the places of docs/DESIGN-PASS.md, points 1 to 8, in what stands in crates/*/src, and lists them: tools/places.py [--in FOLDER] [POINT ..],
of this checkout or of one in FOLDER.

It finds by form alone what may be an old one; which of these are, and why one stays, is read and told on that page.
"""
import pathlib
import re
import sys
from collections import defaultdict

ROOT = pathlib.Path(__file__).resolve().parent.parent
HEAD = re.compile(r"^[ \t]*(?:pub(?:\(\w+\))? )?(?:extern \"C\" )?fn (\w+)", re.M)
TYPE = re.compile(r"^[ \t]*(?:pub(?:\(\w+\))? )?(enum|struct) (\w+)[^{;(]*\{", re.M)


def sources():
    for path in sorted(ROOT.glob("crates/*/src/*.rt")):
        text = path.read_text(encoding="utf-8")
        text = re.sub(r"//[^\n]*", "", text)
        yield path.relative_to(ROOT).as_posix(), text


def block(text, start):
    """What stands between the brace at or behind start and its partner."""
    begin = text.index("{", start)
    depth = 0
    for place in range(begin, len(text)):
        depth += {"{": 1, "}": -1}.get(text[place], 0)
        if depth == 0:
            return text[begin + 1:place], place + 1
    raise SystemExit(f"A brace has no partner behind {text[start:start + 60]!r}.")


def line_of(text, place):
    return text.count("\n", 0, place) + 1


def functions(text):
    """Name, line, parameters, clauses and body of each function that has a body."""
    for found in HEAD.finditer(text):
        place = found.end()
        clauses = []
        while True:
            brace = text.find("{", place)
            stop = text.find(";", place)
            if brace < 0 or 0 <= stop < brace and "[" not in text[place:stop]:
                break
            before = text[place:brace]
            inside, after = block(text, brace)
            word = re.search(r"\b(requires|ensures|ghost)\b(?: \w+:?)?\s*$", before.rstrip() + " ")
            if not word:
                yield found.group(1), line_of(text, found.start()), text[found.end():brace], clauses, inside
                break
            clauses.append((word.group(1), " ".join(inside.split())))
            place = after


def variants(inside):
    depth = 0
    name = ""
    for part in re.split(r"([{}(),])", inside):
        if part and part in "{(":
            depth += 1
            name += part
        elif part and part in "})":
            depth -= 1
            name += part
        elif part == "," and depth == 0:
            if name.strip():
                yield name.strip()
            name = ""
        else:
            name += part
    if name.strip():
        yield name.strip()


def point_1(path, text):
    for found in TYPE.finditer(text):
        inside, _ = block(text, found.start())
        kind, name = found.groups()
        if kind == "enum":
            all_of = list(variants(inside))
            if len(all_of) <= 3 and any("(" in v or "{" in v for v in all_of) or any(v == "None" for v in all_of):
                yield line_of(text, found.start()), f"enum {name}: {', '.join(v.split('(')[0].split('{')[0].strip() for v in all_of)}"
        else:
            flags = re.findall(r"(\w+): bool", inside)
            if flags:
                yield line_of(text, found.start()), f"struct {name}: flag {', '.join(flags)}"
    for name, line, _, _, body in functions(text):
        if re.search(r"\{ (?:1[0-9]|[3-7][0-9]) \} else", body) or re.search(r"\breturn (?:1[0-9]|[3-7][0-9]);", body) or re.search(r"(?:^|[\n;}])\s*(?:1[0-9]|[3-7][0-9])\s*$", body):
            yield line, f"fn {name}: a refusal's number"
        if re.match(r"(is_known|is_event|\w+_fits)$", name):
            yield line, f"fn {name}: a test before a conversion"


def shape(body, parameters):
    """A body with its types, numbers, texts and outer names put aside."""
    body = re.sub(r'b?"[^"]*"', "TEXT", body)
    body = re.sub(r"\b\w+::", "", body)
    body = re.sub(r"\b(?:0x)?[0-9A-F_]*[0-9](?:u8|u32|u64|usize)?\b", "N", body)
    body = re.sub(r"\b[A-Z]\w*\b", "T", body)
    names = {}
    def known(found):
        word = found.group(0)
        if word in ("if", "else", "return", "let", "mut", "match", "while", "for", "in", "as", "T", "N", "TEXT", "self", "true", "false"):
            return word
        return names.setdefault(word, f"v{len(names)}")
    return re.sub(r"\b[a-z_]\w*\b", known, " ".join(body.split()))


def point_2(all_sources):
    groups = defaultdict(list)
    for path, text in all_sources:
        if path.startswith("crates/seatport_c/"):
            continue
        for name, line, parameters, _, body in functions(text):
            form = shape(body, parameters)
            if len(form.split()) >= 4:
                groups[form].append(f"{path}:{line} {name}")
    for members in groups.values():
        if len(members) > 1:
            yield members


def point_3(path, text):
    for found in re.finditer(r"^[ \t]*(?:while|loop)\b|\bfor \w+ in [\w()]+\.\.=?\w*", text, re.M):
        if "u32::MAX" in text[found.start():found.end() + 12] or "u64::MAX" in text[found.start():found.end() + 12]:
            continue
        yield line_of(text, found.start()), " ".join(text[found.start():text.index("\n", found.start())].split())


def point_4(path, text):
    for name, line, parameters, _, body in functions(text):
        arms = re.findall(r"=>\s*([^,\n]+)", body)
        if arms and set(a.strip() for a in arms) <= {"true", "false"}:
            yield line, f"fn {name}: a match that says true or false"
        chain = len(re.findall(r"return (?:true|false);", body))
        if chain:
            yield line, f"fn {name}: true or false returned {chain} times"
        if re.search(r"\w+\.0 [=!]= \w+\.0", body):
            yield line, f"fn {name}: equality by the number inside"
        if re.search(r"std::num::wrapping_", body):
            yield line, f"fn {name}: a free function in place of a method"
        if re.search(r"\bif (\w+) < (\w+) \{ (?:\1|\2) \} else \{ (?:\1|\2) \}|\bif (\w+) <= (\w+) \{ \w+ \} else \{ \w+ \}", " ".join(body.split())):
            yield line, f"fn {name}: least or greatest by hand"
        if re.search(r"\bas (?:u16|u32|u64|usize)\b", body) and "[" not in body and len(body.split()) <= 4:
            yield line, f"fn {name}: a conversion by hand"
        copied = re.findall(r"(\w+): (?:self|r|record|s)\.\1,", body)
        if len(copied) > 1:
            yield line, f"fn {name}: {len(copied)} fields copied by hand"
        if re.search(r"\b(?:phase|number|event)_(?:of|number)$", name) and "match" in body:
            yield line, f"fn {name}: a conversion by hand"
        if re.search(r"\b(?:say|say_number|tell|record|write_all)\(\s*rt\b|stderr\(\)", body):
            yield line, f"fn {name}: a sentence put together by hand"


def point_5(all_sources):
    facts = defaultdict(set)
    pairs = defaultdict(set)
    for path, text in all_sources:
        if path.startswith("crates/seatport"):
            continue
        for name, line, parameters, clauses, _ in functions(text):
            place = f"{path}:{line} {name}"
            for kind, clause in clauses:
                if kind == "requires":
                    for fact in re.split(r"×", clause):
                        facts[re.sub(r"\b\d+\b", "N", fact.strip(" ()"))].add(place)
            named = [" ".join(p.split()) for p in re.findall(r"\b\w+: [^,()]+", parameters)]
            named = [p for p in named if not p.startswith(("rt:", "self"))]
            for i, a in enumerate(named):
                for b in named[i + 1:]:
                    pairs[f"{a} with {b}"].add(place)
    for what in (facts, pairs):
        for key, places in sorted(what.items()):
            if len(places) >= 3:
                yield key, sorted(places)


def point_6(path, text):
    for name, line, parameters, _, _ in functions(text):
        flat = " ".join(parameters.split())
        if re.search(r"out: &mut \[[^,]*, at: usize", flat):
            yield line, f"fn {name}: memory with a place beside it"
        elif re.search(r"&(?:mut )?\[[^,]*, (?:n|from|to|waiting|room|last): (?:usize|u32)", flat):
            yield line, f"fn {name}: a slice with a length beside it"


def point_7(path, text):
    for found in re.finditer(r"\bmatch (next|found|made|self\.next|q\.octet\(0\))", text):
        yield line_of(text, found.start()), f"match {found.group(1)}"


def point_8():
    for path in sorted(ROOT.glob("crates/*/proofs/**/*.antt")):
        text = path.read_text(encoding="utf-8")
        if path.name in ("Answers.antt", "Invariants.antt"):
            yield path.relative_to(ROOT).as_posix(), len(text.splitlines())


def main(points):
    everything = list(sources())
    for number, finder in (("1", point_1), ("3", point_3), ("4", point_4), ("6", point_6), ("7", point_7)):
        if number in points:
            places = [f"{path}:{line} {what}" for path, text in everything for line, what in finder(path, text)]
            print(f"point {number}: {len(places)}", *places, sep="\n  ")
    if "2" in points:
        groups = list(point_2(everything))
        print(f"point 2: {len(groups)} groups of {sum(map(len, groups))}")
        for members in groups:
            print("  " + "; ".join(members))
    if "5" in points:
        found = list(point_5(everything))
        print(f"point 5: {len(found)}")
        for key, places in found:
            print(f"  {key}: {len(places)}: {'; '.join(places)}")
    if "8" in points:
        found = list(point_8())
        print(f"point 8: {sum(n for _, n in found)} lines in {len(found)} files of answers and invariants")


words = sys.argv[1:]
if words[:1] == ["--in"]:
    ROOT = pathlib.Path(words[1]).resolve()
    words = words[2:]
main(words or list("12345678"))
