#!/usr/bin/env python3
"""Gives this repository's own definitions, fields and lemmas the spelling of today's Rattle. Run once, at the top, after port.py.

A word is in snake case. A dash stays where it joins two names, as in `all-each`; a plain word is joined by `_`, as in `append_swap`.
Names of Rust code and names that the check makes (goals and their steps) stay. Names that would fall together are reported, and stay.
"""
import collections
import glob
import re

TOKEN = re.compile(r"[A-Za-z_][\w'≢≡-]*")
SIGNATURE = re.compile(r"^(\s*)((?:abbrev |unfoldable |pub )*)([A-Za-z_][\w'≢≡-]*) : (.*)$")
STRING = re.compile(r'b?"(?:[^"\\]|\\.)*"')
STD_NAMES = {"append", "length", "map", "take", "drop", "cond", "reverse"}
# Names that would fall together with a definition, or with a word of std, that the same file names.
APART = {
    "any-drawing": "any_drawing_lem",
    "attack-on": "attack_on_lem",
    "bit-and": "bit_and_lem",
    "bit-or": "bit_or_lem",
    "by-region": "region_by_region",
    "has-unit": "has_unit_lem",
    "is-accepted": "is_accepted_lem",
    "last-aimed": "last_aimed_lem",
    "marked-line": "marked_line_lem",
    "nobody-gains": "nobody_gains_lem",
    "on-board": "on_the_board",
    "retreat-lines": "retreat_lines_lem",
}
# Roots whose next part is a name that the check made.
MADE = {"c", "w", "l", "g", "goal"}


def antt_files():
    return sorted(glob.glob("crates/*/specs/**/*.antt", recursive=True) + glob.glob("crates/*/proofs/**/*.antt", recursive=True))


def snake(word):
    word = re.sub(r"([a-z0-9])([A-Z])", lambda m: m.group(1) + "_" + m.group(2).lower(), word)
    return word


def is_camel(word):
    return bool(re.search(r"[a-z][A-Z]", word)) and not word[0].isupper()


def declared():
    """Names of definitions (of specs/, all), of fields; names that answer goals."""
    in_specs, every, fields, answers = set(), set(), set(), set()
    for path in antt_files():
        for line in open(path):
            match = SIGNATURE.match(line)
            if not match:
                continue
            indent, _, name, kind = match.groups()
            if kind.startswith("goal."):
                answers.add(name)
                continue
            every.add(name)
            if indent:
                fields.add(name)
            elif "/specs/" in path:
                in_specs.add(name)
    return in_specs, every, fields, answers


def spelled(name, names):
    parts = [snake(part) if is_camel(part) else part for part in name.split("-")]
    text = parts[0]
    for before, part in zip(parts, parts[1:]):
        # "no-way": neither is a name; "all-each": both are
        both = before in names and part in names
        text += ("-" if both else "_") + part
    return text


def respelled(in_specs, every, answers):
    names = {snake(n) if is_camel(n) else n for n in in_specs} | STD_NAMES
    table = {}
    for name in every:
        if name[0].isupper() or name in answers:
            continue
        new = APART.get(name) or spelled(name, names)
        if new != name:
            table[name] = new
    return table


def code_camels():
    """Names in clauses that no .antt file declares: ghost members and names under `as`."""
    found = set()
    for path in glob.glob("crates/*/src/**/*.rt", recursive=True):
        for line in open(path):
            line = STRING.sub("", line.split("//")[0])
            found |= {t for t in TOKEN.findall(line) if is_camel(t)}
    return found


def code_tokens():
    found = set()
    for path in glob.glob("crates/*/src/**/*.rt", recursive=True):
        for line in open(path):
            found |= set(TOKEN.findall(line.split("//")[0]))
    return found


def turned(text, table, fields, path):
    made = "/proofs/" in path and path.count("/") > 3

    def one(match):
        word = match.group(0)
        new = table.get(word)
        if new is None:
            return word
        before = text[: match.start()]
        if before.endswith("."):
            root = re.search(r"([A-Za-z_][\w'-]*)\.$", before)
            head = root.group(1) if root else ""
            whole = re.search(r"([\w'.-]+)\.$", before)
            first = whole.group(1) if whole else ""
            module = re.search(r"(?:Rattle|specs|proofs)\b", first) is not None
            if module or "-" not in word:
                return new
            if (made or head == "goal") and first in MADE:
                return word
            return new if word in fields else word
        return new

    return TOKEN.sub(one, text)


def main():
    in_specs, every, fields, answers = declared()
    table = respelled(in_specs, every, answers)
    for word in code_camels():
        table.setdefault(word, snake(word))
    # two names that become one, or a name that stands already
    tokens = collections.defaultdict(set)
    for path in antt_files():
        for line in open(path):
            tokens[path] |= set(TOKEN.findall(line.split("--")[0]))
    for path in glob.glob("crates/*/src/**/*.rt", recursive=True):
        for line in open(path):
            tokens[path] |= set(TOKEN.findall(STRING.sub("", line.split("//")[0])))
    for path, words in sorted(tokens.items()):
        back = collections.defaultdict(set)
        for word in words:
            back[table.get(word, word)].add(word)
        for new, olds in back.items():
            if len(olds) > 1:
                print("together:", path, new, sorted(olds))
    for path in antt_files():
        made = "/proofs/" in path and path.count("/") > 3
        out = []
        for line in open(path):
            match = SIGNATURE.match(line)
            code, dashes, comment = line.partition("--")
            comment = re.sub(TOKEN, lambda m: table.get(m.group(0), m.group(0)) if is_camel(m.group(0)) else m.group(0), comment)
            out.append(turned(code, table, fields, path) + dashes + comment)
        open(path, "w").write("".join(out))
    for path in glob.glob("crates/*/src/**/*.rt", recursive=True):
        out = []
        for line in open(path):
            code, slashes, comment = line.partition("//")
            pieces, place = [], 0
            for match in STRING.finditer(code):
                pieces += [turned(code[place : match.start()], table, fields, path), match.group(0)]
                place = match.end()
            pieces.append(turned(code[place:], table, fields, path))
            comment = re.sub(TOKEN, lambda m: table.get(m.group(0), m.group(0)) if is_camel(m.group(0)) else m.group(0), comment)
            out.append("".join(pieces) + slashes + comment)
        open(path, "w").write("".join(out))
    # pages: names between backticks
    for path in ["README.md"] + sorted(glob.glob("docs/*.md") + glob.glob("crates/*/*.md") + glob.glob("bench/**/*.md", recursive=True)):
        text = open(path).read()
        text = re.sub(r"`[^`\n]+`", lambda m: re.sub(TOKEN, lambda t: table.get(t.group(0), t.group(0)), m.group(0)), text)
        open(path, "w").write(text)


main()
