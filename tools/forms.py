#!/usr/bin/env python3
"""Lists, point by point, the places of docs/DESIGN-PASS.md in the source: python3 tools/forms.py [POINT]

It reads crates/*/src/*.rt as text: what it lists is to be looked at, not what is wrong."""
import collections
import glob
import os
import re
import sys

os.chdir(os.path.join(os.path.dirname(os.path.abspath(__file__)), ".."))
HEAD = re.compile(r"^( *)(pub(?:\([a-z]+\))? )?(?:const )?fn (\w+)(<.*?>)?\(", re.M)


def sources():
    for path in sorted(glob.glob("crates/*/src/*.rt")):
        yield path, open(path, encoding="utf-8").read()


def functions():
    """Each function: its place, its name, its parameters, its clauses, its body."""
    for path, text in sources():
        for head in HEAD.finditer(text):
            depth, at = 1, head.end()
            while depth:
                depth += {"(": 1, ")": -1}.get(text[at], 0)
                at += 1
            params = text[head.end() : at - 1]
            rest = text[at:]
            indent = head.group(1)
            body = re.search(r"(?:^%s| )\{\n(.*?)^%s\}|\{\}$|;$" % (indent, indent), rest, re.M | re.S)
            line = text.count("\n", 0, head.start()) + 1
            yield f"{path}:{line}", head.group(3), params, rest[: body.start()], body.group(1) or ""


def lines(pattern):
    for path, text in sources():
        for number, line in enumerate(text.split("\n"), 1):
            if re.search(pattern, line) and not line.lstrip().startswith("//"):
                yield f"{path}:{number}", line.strip()


def point_1():
    for path, text in sources():
        for enum in re.finditer(r"^(?:pub(?:\(\w+\))? )?enum (\w+)[^{]*\{(.*?)^\}", text, re.M | re.S):
            variants = re.findall(r"^    (\w+)", enum.group(2), re.M)
            if len(variants) <= 3 or variants[0] in ("Accepted", "Ok", "None", "Nobody", "Nothing"):
                yield f"{path}", f"enum {enum.group(1)}: {', '.join(variants)}"
    yield from lines(r"^\s*(pub(\(\w+\))? )?(number|kind|phase|fleet|centre|home|owner): (Option<)?u(8|32|size)")
    yield from lines(r"fn \w*(number|phase|kind_of|arm|digit|text_of)\w*\(.*\) -> (Option<)?(u8|u32|usize|Kind|Phase|Text)\b")
    yield from lines(r"number: \d")
    # what a theorem's function gives back
    for place, name, params, clauses, body in functions():
        if re.match(r" -> u8\n *ensures \{ [A-Z]\w+ \}", clauses):
            yield place, f"{name} gives back a number"


def point_2():
    """Bodies that are one text when names of types, variables and numbers are blanked."""
    kinds = collections.defaultdict(list)
    for place, name, params, clauses, body in functions():
        shape = re.sub(r"//.*", "", body)
        shape = re.sub(r'b?"[^"]*"|\b\d\w*', "#", shape)
        names = {}
        shape = re.sub(r"\b[A-Za-z_]\w*\b", lambda m: names.setdefault(m.group(0), f"n{len(names)}"), shape)
        shape = re.sub(r"\s+", " ", shape).strip()
        if len(shape) > 40:
            kinds[shape].append(f"{place} {name}")
    for shape, places in kinds.items():
        if len(places) > 1:
            yield " | ".join(places), f"{len(places)} alike"


def point_3():
    yield from lines(r"^\s*for \w+ in \(?[\w.()]+\.\.|^\s*while (?!let)")


def point_4():
    yield from lines(r"fn (eq|ne|cmp|partial_cmp|clone|fmt|default|same|is_just|sure|flag|one_more|starts_with|is_digit|is_letter)\b")


def point_5():
    facts = collections.defaultdict(list)
    groups = collections.defaultdict(set)
    for place, name, params, clauses, body in functions():
        crate = place.split("/")[1]
        for fact in re.findall(r"requires(?: \w+)? \{ (.*) \}", clauses):
            facts[crate, fact].append(name)
        own = [re.sub(r"\s+", " ", p).strip().replace("mut ", "") for p in re.split(r",(?![^<]*>)", params)]
        own = [p for p in own if ":" in p]
        for i, a in enumerate(own):
            for b in own[i + 1 :]:
                for c in own[own.index(b) + 1 :]:
                    groups[crate, a, b, c].add(place)
    for (crate, fact), names in facts.items():
        if len(names) > 2:
            yield crate, f"{len(names)} contracts ask: {fact}"
    seen = collections.defaultdict(list)
    for (crate, *trio), places in groups.items():
        if len(places) > 2:
            seen[crate, tuple(sorted(places))].append(trio)
    for (crate, places), trios in seen.items():
        names = sorted({p for trio in trios for p in trio})
        yield crate, f"{len(places)} functions take: {', '.join(names)}"


def point_6():
    for path, text in sources():
        for struct in re.finditer(r"struct (\w+)[^{;]*\{(.*?)^\}", text, re.M | re.S):
            fields = re.findall(r"^    (?:pub(?:\(\w+\))? )?(\w+): ([^\n]*),", struct.group(2), re.M)
            rows = [n for n, t in fields if re.match(r"(&'a )?(Vec<|\[)", t)]
            counts = [n for n, t in fields if t == "usize"]
            if len(rows) > 1 or (rows and counts):
                yield path, f"struct {struct.group(1)}: {', '.join(rows + counts)}"
    for place, name, params, clauses, body in functions():
        indexed = set(re.findall(r"\b(\w+)\[(\w+)(?: as usize)?\]", body))
        by_index = collections.defaultdict(set)
        for array, index in indexed:
            by_index[index].add(array)
        for index, arrays in by_index.items():
            if len(arrays) > 1:
                yield place, f"{name}: {', '.join(sorted(arrays))} at {index}"


def point_7():
    for place, name, params, clauses, body in functions():
        flags = re.findall(r"(\w+): (?:bool|Program)\b", params)
        if flags:
            yield place, f"{name}: {', '.join(flags)}"


def main():
    points = {n[6:]: f for n, f in globals().items() if n.startswith("point_")}
    for number, find in points.items():
        if len(sys.argv) > 1 and number != sys.argv[1]:
            continue
        found = list(find())
        print(f"== {number}: {len(found)}")
        for place, what in found:
            print(f"{place}: {what}")


main()
