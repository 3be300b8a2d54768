#!/usr/bin/env python3
"""The definitions of crates/*/specs as JavaScript, on standard output, so that their own text can be run.

This reads only the part of the notation that the definitions use: clauses with patterns, records, lambdas, applications, a few operators.
It is a help for testing. What the definitions mean is what the checker reads.
"""
import glob
import os
import re
import sys

CRATES = ["values", "geography", "board", "assignment", "paths", "strength", "deciding", "game", "calls"]
# What words.js calls; these and what they rest on are written.
ROOTS = [
    ("calls.Begin", "begin_verdict"),
    ("calls.Begin", "begin_board"),
    ("calls.Begin", "begin_game"),
    ("calls.Turn", "turn_verdict"),
    ("calls.Turn", "turn_game"),
    ("calls.Turn", "turn_last"),
    ("calls.Verdict", "number"),
    ("calls.Verdict", "is_accepted"),
    ("game.Game", "is_moves"),
]
LIBRARY = {"Rattle.std.specs.Prelude"}
VARIANTS = {"Some", "None", "Ok", "Err"}
LIBRARY_ARITY = {"cond": 3, "not": 1, "nat_eq": 2, "nat_lt": 2, "nat_le": 2, "length": 1, "slice_index": 2, "slice_index_or": 3, "get_or": 3, "take": 2, "drop": 2, "map": 2, "suc": 1}
# Precedence, and which way it groups.
OPERATORS = {"∷": (5, "r"), "++": (5, "r"), "==": (4, "l"), "&&": (3, "l"), "||": (2, "l"), "+": (6, "l"), "-": (6, "l"), "*": (7, "l"), "/": (7, "l"), "%": (7, "l"), "^": (8, "r")}
TOKEN = re.compile(r"\s+|--[^\n]*|(λ|→|∷|\+\+|&&|\|\||==|≡|×|[(){};,=]|\.\w[\w-]*|\d+|[^\s(){};,.=∷]+(?:\.(?=\s))?|\.)")


def tokens(text):
    found, place = [], 0
    while place < len(text):
        match = TOKEN.match(text, place)
        if not match:
            raise SyntaxError(text[place : place + 40])
        place = match.end()
        if match.group(1):
            found.append(match.group(1))
    return found


class Parser:
    """Terms: ('name', n) ('number', n) ('nil',) ('lambda', names, body) ('field', term, n) ('record', fields) ('infix', op, a, b) ('apply', head, arguments)."""

    def __init__(self, tokens):
        self.tokens, self.place = tokens, 0

    def peek(self):
        return self.tokens[self.place] if self.place < len(self.tokens) else None

    def next(self):
        self.place += 1
        return self.tokens[self.place - 1]

    def expect(self, token):
        if self.next() != token:
            raise SyntaxError(f"expected {token}: {self.tokens[self.place - 4 : self.place + 3]}")

    def term(self, above=0):
        if self.peek() == "λ":
            return self.function()
        left = self.application()
        while self.peek() in OPERATORS:
            operator = self.peek()
            level, side = OPERATORS[operator]
            if level < above:
                break
            self.next()
            left = ("infix", operator, left, self.term(level if side == "r" else level + 1))
        return left

    def function(self):
        self.next()
        names = []
        while not names or not names[-1].endswith("."):
            names.append(self.next())
        names[-1] = names[-1][:-1]
        return ("lambda", names, self.term())

    def application(self):
        head = self.tight()
        while True:
            token = self.peek()
            if token is None or token in OPERATORS or token in (")", "}", ";", ",", "="):
                return head
            argument = self.tight()
            head = ("apply", head[1], head[2] + [argument]) if head[0] == "apply" else ("apply", head, [argument])

    def tight(self):
        """An atom with the projections that are written tight behind it."""
        head = self.atom()
        while (self.peek() or "").startswith(".") and len(self.peek()) > 1:
            head = ("field", head, self.next()[1:])
        return head

    def atom(self):
        token = self.next()
        if token == "(":
            inner = self.term()
            self.expect(")")
            return inner
        if token == "λ":
            self.place -= 1
            return self.function()
        if token == "record":
            return self.record()
        if token.isdigit():
            return ("number", token)
        return ("nil",) if token == "[]" else ("name", token)

    def record(self):
        self.expect("{")
        fields = []
        while self.peek() != "}":
            name = self.next()
            self.expect("=")
            fields.append((name, self.term()))
            if self.peek() == ";":
                self.next()
        self.next()
        return ("record", fields)


class Patterns:
    """The patterns on the left of a clause."""

    def __init__(self, tokens, scope):
        self.tokens, self.scope, self.place = tokens, scope, 0

    def all(self):
        found = []
        while self.place < len(self.tokens):
            found.append(self.one())
        return found

    def one(self):
        token = self.tokens[self.place]
        self.place += 1
        if token == "(":
            return self.grouped()
        if token in ("[]", "zero", "suc", "true", "false"):
            return (token,)
        kind = self.scope.get(token)
        return ("variant", token, []) if kind and kind[0] == "variant" else ("name", token)

    def grouped(self):
        parts, cons = [self.one()], False
        while self.tokens[self.place] != ")":
            if self.tokens[self.place] == "∷":
                cons = True
                self.place += 1
            parts.append(self.one())
        self.place += 1
        if cons:
            whole = parts.pop()
            while parts:
                whole = ("cons", parts.pop(), whole)
            return whole
        if parts[0][0] == "suc":
            return ("suc", parts[1])
        if parts[0][0] == "variant":
            return ("variant", parts[0][1], parts[1:])
        return parts[0]


def local(name):
    return "v_" + re.sub(r"\W", "_", name)


def matched(pattern, value, tests, names):
    kind = pattern[0]
    if kind == "name":
        names.append((pattern[1], value))
    elif kind == "[]":
        tests.append(f"{value}===null")
    elif kind == "cons":
        tests.append(f"{value}!==null")
        matched(pattern[1], value + ".head", tests, names)
        matched(pattern[2], value + ".tail", tests, names)
    elif kind == "zero":
        tests.append(f"{value}===0")
    elif kind == "suc":
        tests.append(f"{value}>0")
        matched(pattern[1], f"({value}-1)", tests, names)
    elif kind in ("true", "false"):
        tests.append(f"{value}==={kind}")
    else:
        tests.append(f'{value}.variant==="{pattern[1]}"')
        for place, part in enumerate(pattern[2]):
            matched(part, f"{value}.parts[{place}]", tests, names)


class Definitions:
    def __init__(self):
        self.clauses, self.scopes, self.wanted, self.written = {}, {}, list(ROOTS), {}

    def load(self, crate, path):
        module = f"{crate}.{os.path.basename(path)[:-5]}"
        scope, current = {}, None
        for item in items(open(path).read()):
            declared = re.match(r"(?:abbrev|unfoldable)\s+pub (\S+) : (.*)$", item)
            if item.startswith("use "):
                self.use(item, scope)
            elif declared:
                # types are for the checker only
                current = None if declared.group(2).strip().endswith("Type 0") else declared.group(1)
                if current:
                    scope[current] = ("definition", module, current)
                    self.clauses[module, current] = []
            elif item.startswith("pub "):
                current = None
            elif current and item.split()[0] == current:
                self.clauses[module, current].append(sides(item))
        self.scopes[module] = scope

    def use(self, item, scope):
        names = re.match(r"use (\S+?)\.\{(.*?),?\s*\}$", item)
        if not names:
            return
        path, names = names.groups()
        ours = re.match(r"Rattle\.(\w+)\.specs\.(\w+)$", path)
        for name in (n.strip() for n in names.split(",")):
            if path.endswith("TheVariants") or (path in LIBRARY and name in VARIANTS):
                scope[name] = ("variant", name)
            elif path in LIBRARY:
                scope[name] = ("library", name)
            elif ours:
                scope[name] = ("definition", f"{ours.group(1)}.{ours.group(2)}", name)

    def write(self):
        while self.wanted:
            module, name = self.wanted.pop()
            if (module, name) not in self.written:
                self.written[module, name] = None
                self.written[module, name] = self.function(module, name)
        return "\n".join(self.written.values())

    def patterns(self, module, left):
        return Patterns(left, self.scopes[module]).all()

    def arity(self, module, name):
        return len(self.patterns(module, self.clauses[module, name][0][0]))

    def function(self, module, name):
        parameters = [f"p{i}" for i in range(self.arity(module, name))]
        body = ""
        for left, right in self.clauses[module, name]:
            tests, names = [], []
            for pattern, value in zip(self.patterns(module, left), parameters):
                matched(pattern, value, tests, names)
            parser = Parser(right)
            term = parser.term()
            if parser.peek() is not None:
                raise SyntaxError(f"{module} {name}: {right[parser.place:]}")
            code = "".join(f"const {local(n)}={v};" for n, v in names) + f"return {self.term(term, self.scopes[module], {n for n, _ in names})};"
            body += f"if({'&&'.join(tests) or 'true'}){{{code}}}\n"
        return f"function {called(module, name)}({','.join(parameters)}){{{body}throw Error('no clause of {name}');}}"

    def term(self, term, scope, bound):
        kind = term[0]
        if kind == "number":
            return term[1]
        if kind == "nil":
            return "null"
        if kind == "lambda":
            return "(" + "".join(f"{local(n)}=>" for n in term[1]) + self.term(term[2], scope, bound | set(term[1])) + ")"
        if kind == "field":
            return f"{self.term(term[1], scope, bound)}.{term[2]}"
        if kind == "record":
            return "({" + ",".join(f"{n}:{self.term(t, scope, bound)}" for n, t in term[1]) + "})"
        if kind == "infix":
            return infix(term[1], self.term(term[2], scope, bound), self.term(term[3], scope, bound))
        head, arguments = (term, []) if kind == "name" else (term[1], [self.term(a, scope, bound) for a in term[2]])
        if head[0] != "name" or head[1] in bound:
            return (local(head[1]) if head[0] == "name" else self.term(head, scope, bound)) + "".join(f"({a})" for a in arguments)
        return self.named(head[1], arguments, scope)

    def named(self, name, arguments, scope):
        if name in ("true", "false"):
            return name
        if name == "zero":
            return "0"
        kind = scope[name]
        if kind[0] == "variant":
            return f'({{variant:"{name}",parts:[{",".join(arguments)}]}})'
        if name == "cond" and len(arguments) == 3:
            return f"({arguments[0]}?{arguments[1]}:{arguments[2]})"
        if kind[0] == "library":
            arity, function = LIBRARY_ARITY[name], f"library.{name}"
        else:
            self.wanted.append(kind[1:])
            arity, function = self.arity(*kind[1:]), called(*kind[1:])
        if len(arguments) >= arity:
            return f"{function}({','.join(arguments[:arity])})" + "".join(f"({a})" for a in arguments[arity:])
        return partial(arity, function, arguments)


def items(text):
    """The declarations of a file, each on one line."""
    found = []
    for line in text.split("\n"):
        if not line.strip() or line.strip().startswith("--"):
            continue
        if line[0].isspace() or line.startswith("}"):
            found[-1] += " " + line.strip()
        else:
            found.append(line)
    return found


def sides(clause):
    """The tokens of the patterns, and those of the right side."""
    all_tokens, depth = tokens(clause), 0
    for place, token in enumerate(all_tokens):
        depth += token in ("(", "{")
        depth -= token in (")", "}")
        if token == "=" and depth == 0:
            return all_tokens[1:place], all_tokens[place + 1 :]
    raise SyntaxError(clause)


def called(module, name):
    return f"{module}.{name}".replace(".", "_").replace("-", "_")


def partial(arity, function, arguments):
    """A function that waits for the arguments that are missing."""
    given = [f"a{i}" for i in range(len(arguments))]
    missing = [f"b{i}" for i in range(arity - len(arguments))]
    waiting = "".join(f"{b}=>" for b in missing) + f"{function}({','.join(given + missing)})"
    return f"(({','.join(given)})=>{waiting})({','.join(arguments)})"


def infix(operator, left, right):
    if operator == "∷":
        return f"({{head:{left},tail:{right}}})"
    if operator == "++":
        return f"library.append({left},{right})"
    if operator == "==":
        return f"({left}==={right})"
    if operator == "-":
        return f"Math.max(0,{left}-{right})"
    if operator == "/":
        return f"Math.floor({left}/{right})"
    return f"({left}{'**' if operator == '^' else operator}{right})"


def main():
    root = os.path.join(os.path.dirname(os.path.abspath(__file__)), "..", "..") if len(sys.argv) < 2 else sys.argv[1]
    definitions = Definitions()
    for crate in CRATES:
        for path in sorted(glob.glob(os.path.join(root, "crates", crate, "specs", "*.antt"))):
            definitions.load(crate, path)
    print(definitions.write())


main()
