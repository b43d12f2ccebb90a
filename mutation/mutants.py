"""The changes: small edits of the bodies of functions. Contracts, ghost lines, comments and declarations are never touched."""
import ast
import hashlib
import random
import re

from source import OPEN, close_of, is_call, parts_of, path_to, spelt

COMPARISONS = {"<": ["<=", "=="], "<=": ["<", "=="], "==": ["!=", "<="], "!=": ["==", "<"]}
OPERATORS = {"+": "-", "-": "+", "*": "+", "/": "%", "%": "/", "&": "|", "|": "&", "<<": ">>", ">>": "<<", "+=": "-=", "-=": "+="}
NUMBERS = {"u8", "u16", "u32", "u64", "usize"}


class Mutant:
    """One edit of a function's body: the text from `start` to `end` of its file becomes `new`, which may call another `callee`."""

    def __init__(self, function, kind, start, end, new, callee=None):
        self.function, self.kind, self.start, self.end, self.new = function, kind, start, end, new
        self.callee = callee
        text = function.file.text
        begin = text.rfind("\n", 0, start) + 1
        stop = text.find("\n", end)
        self.old_line = " ".join(text[begin:stop].split())
        self.new_line = " ".join((text[begin:start] + new + text[end:stop]).split())
        self.name = None

    @property
    def crate(self):
        return self.function.file.crate

    @property
    def line(self):
        return self.function.file.text.count("\n", 0, self.start) + 1

    def text(self):
        """The file's whole text with the edit."""
        text = self.function.file.text
        return text[: self.start] + self.new + text[self.end :]


class Body:
    """A function's body: which names are bound where, by type, and the edits that fit."""

    def __init__(self, tree, function):
        self.tree, self.function, self.file = tree, function, function.file
        self.tokens = self.file.tokens
        self.patterns = []
        self.bound = [(name, kind, function.start, function.end) for name, kind in function.parameters if name != "self"]
        for at in range(function.start, function.end):
            if self.tokens[at].text == "=>":
                self.read_arm(at)
        for at in range(function.start, function.end):
            if self.tokens[at].text == "let":
                self.read_let(at)
            if self.tokens[at].text == "for" and self.tokens[at + 1].text != "_":
                self.bound.append((self.tokens[at + 1].text, "usize", at, close_of(self.tokens, self.body_of(at))))

    # ---- names and types

    def block_end(self, at):
        """The end of the block that `at` stands in."""
        depth = 0
        while depth >= 0:
            at += 1
            if self.tokens[at].text in OPEN:
                depth += 1
            elif self.tokens[at].text in OPEN.values():
                depth -= 1
        return at

    def read_arm(self, at):
        begin, depth = at - 1, 0
        while depth or self.tokens[begin].text not in (",", "{", "}"):
            depth += {")": 1, "(": -1}.get(self.tokens[begin].text, 0)
            begin -= 1
        begin += 1
        self.patterns.append((begin, at))
        end = close_of(self.tokens, at + 1) if self.tokens[at + 1].text == "{" else self.arm_end(at)
        names = [t.text for t in self.tokens[begin:at]]
        if "(" in names:
            bracket = begin + names.index("(")
            if self.tokens[bracket - 1].kind != "word" or bracket == begin:
                return
            path = path_to(self.tokens, bracket - 1)[0]
            cases = self.tree.enum_at(self.file, self.function.owner, path[:-1]) or {}
            for (a, _), kind in zip(parts_of(self.tokens, bracket + 1, at - 1), cases.get(path[-1], [])):
                self.bound.append((self.tokens[a].text, kind, at, end))

    def arm_end(self, at):
        end = self.block_end(at)
        return parts_of(self.tokens, at + 1, end)[0][1]

    def read_let(self, at):
        name = at + 2 if self.tokens[at + 1].text == "mut" else at + 1
        end = self.block_end(at)
        stop = parts_of(self.tokens, at, end, ";")[0][1]
        if self.tokens[name + 1].text == ":":
            kind = self.tokens[name + 2].text
        else:
            kind = self.type_of(name + 2, stop)
        self.bound.append((self.tokens[name].text, kind, stop, end))

    def names_at(self, at):
        """The names in scope and their types."""
        return {name: kind for name, kind, start, end in self.bound if start <= at < end}

    def callee(self, at):
        """The function that the name before a bracket calls, or none that is known."""
        path, dotted = path_to(self.tokens, at)
        if dotted:
            found = self.tree.methods(path[-1])
            return found[0] if len(found) == 1 else None
        return self.tree.function_at(self.file, self.function.owner, path)

    def type_of(self, start, end):
        """The type of an expression; None where it is not seen at once."""
        tokens = self.tokens
        if end - start >= 2 and tokens[end - 2].text == "as":
            return tokens[end - 1].text
        if end - start == 1 and tokens[start].kind == "number":
            suffix = re.search(r"[ui](?:8|16|32|64|size)$", tokens[start].text)
            return suffix.group() if suffix else "u8" if tokens[start].text.startswith("b'") else "usize"
        if end - start == 1 and tokens[start].kind == "word":
            return self.names_at(start).get(tokens[start].text)
        if [t.text for t in tokens[end - 4 : end]] == [".", "len", "(", ")"]:
            return "usize"
        if tokens[start].kind == "word":
            at = start
            while tokens[at + 1].text == "::":
                at += 2
            if at + 1 < end and tokens[at + 1].text in "([" and close_of(tokens, at + 1) == end - 1:
                if tokens[at + 1].text == "[":
                    return "u8" if spelt(tokens[at + 2 : end - 1]).find("..") < 0 else None
                found = self.callee(at)
                return found.result if found else None
        for at in range(start, end):
            if tokens[at].text in OPERATORS and at > start:
                return self.type_of(start, at)
        return None

    # ---- the edits

    def edit(self, kind, first, last, new, callee=None):
        return Mutant(self.function, kind, self.tokens[first].start, self.tokens[last].end, new, callee)

    def edits(self):
        found = []
        for at in range(self.function.start + 1, self.function.end - 1):
            if any(a <= at < b for a, b in self.patterns):
                continue
            for change in (self.comparison, self.operator, self.number, self.truth, self.name, self.case, self.call, self.condition, self.statement):
                found += change(at)
        return numbered(found)

    def comparison(self, at):
        sign = self.tokens[at].text
        near = self.tokens[at - 1].text == ")" and self.tokens[at + 1].text == "("
        new = COMPARISONS.get(sign, [])[: 1 if near else 2]
        if sign == "==" and self.tokens[at + 1].text == "0":
            new = ["!="]  # up to 0 is 0
        return [self.edit("comparison", at, at, other) for other in new if self.can_follow(at, other)]

    def can_follow(self, at, sign):
        """After a cast, `<` would open a list of types."""
        return not (self.tokens[at - 2].text == "as" and sign.startswith("<") and sign != "<=")

    def operator(self, at):
        sign = self.tokens[at].text
        before = self.tokens[at - 1]
        if sign == "!":
            return [self.edit("operator", at, at, "")]
        if sign not in OPERATORS or not (before.kind in ("word", "number") or before.text in ")]"):
            return []
        if before.text in ("return", "mut", "match", "if", "in", "else") or not self.can_follow(at, OPERATORS[sign]):
            return []
        if sign == "|" and self.ends_parameters(at):
            return []
        return [self.edit("operator", at, at, OPERATORS[sign])]

    def ends_parameters(self, at):
        """Whether the bar closes the parameters of a closure."""
        for i in range(at - 1, self.function.start, -1):
            if self.tokens[i].text == "|":
                return self.tokens[i - 1].text in "(,=" or self.tokens[i - 1].text == "move"
            if self.tokens[i].text in (";", "{", "}"):
                return False
        return False

    def number(self, at):
        token = self.tokens[at]
        if token.kind != "number" or self.tokens[at - 1].text == ".":
            return []
        if token.text.startswith("b'"):
            code = ast.literal_eval(token.text)[0]
            return [self.edit("constant", at, at, byte_literal(code + step)) for step in (1, -1)]
        digits, suffix = re.match(r"(0x[0-9a-fA-F]+|[\d_]+)(.*)", token.text).groups()
        value = int(digits.replace("_", ""), 0)
        kind = "neighbouring byte" if self.is_place(at) else "constant"
        steps = [s for s in (1, -1) if value + s >= 0 and value + s not in (256, 65536, 1 << 32)]
        return [self.edit(kind, at, at, f"{value + step}{suffix}") for step in steps]

    def is_place(self, at):
        """Whether the token stands in the brackets of an index or a range."""
        depth = 0
        while at > self.function.start:
            at -= 1
            text = self.tokens[at].text
            if text in ")]}":
                depth += 1
            elif text in OPEN:
                if depth == 0:
                    return text == "[" and self.tokens[at - 1].kind == "word"
                depth -= 1
            elif text == ";" and depth == 0:
                return False
        return False

    def truth(self, at):
        other = {"true": "false", "false": "true"}.get(self.tokens[at].text)
        return [self.edit("true or false", at, at, other)] if other else []

    def name(self, at):
        token, before, after = self.tokens[at], self.tokens[at - 1].text, self.tokens[at + 1].text
        if token.kind != "word" or before in (".", "::", "let", "mut") or after in ("::", "(", ":", "=", "+=", "-="):
            return []
        names = self.names_at(at)
        kind = names.get(token.text)
        others = [n for n, k in names.items() if k == kind and n != token.text] if kind else []
        if kind in NUMBERS and before in "(," and after in "),":
            others.append("0")
        return [self.edit("operand", at, at, other) for other in others]

    def case(self, at):
        """Another case of the enum, or another constant of the type, that holds the same."""
        if self.tokens[at - 1].text != "::" or self.tokens[at + 1].text == "::" or not self.tokens[at].text[0].isupper():
            return []
        path = path_to(self.tokens, at)[0]
        cases = self.tree.enum_at(self.file, self.function.owner, path[:-1]) or {}
        others = [c for c, held in cases.items() if c != path[-1] and held == cases.get(path[-1])]
        constants = self.file.constants
        if path[:-1] == ["Self"] and (self.function.owner, path[-1]) in constants:
            kind = constants[self.function.owner, path[-1]]
            others += [n for (o, n), k in constants.items() if o == self.function.owner and k == kind and n != path[-1]]
        return [self.edit("case", at, at, other) for other in others]

    def call(self, at):
        if not is_call(self.tokens, at):
            return []
        found = self.callee(at)
        if not found:
            return []
        return self.other_callees(at, found) + self.swapped_arguments(at, found)

    def other_callees(self, at, found):
        path = path_to(self.tokens, at)[0]
        here = self.function.path
        named = len(path) == 1 and not found.owner
        others = []
        for other in self.tree.functions.values():
            if named:
                seen = other.path == "::".join(self.tree.full_path(self.file, None, [other.name]))
            else:
                seen = other.file is found.file and other.owner == found.owner and (other.public or other.file is self.file)
            if seen and other.signature == found.signature and other.path not in (found.path, here):
                if here not in self.tree.reaches(other):
                    others.append(other)
        return [self.edit("callee", at, at, other.name, other) for other in others]

    def swapped_arguments(self, at, found):
        text = self.file.text
        given = parts_of(self.tokens, at + 2, close_of(self.tokens, at + 1))
        kinds = [kind for name, kind in found.parameters if name != "self"]
        edits = []
        for i in range(len(given) - 1):
            one, two = ((self.tokens[a].start, self.tokens[b - 1].end) for a, b in given[i : i + 2])
            if kinds[i] == kinds[i + 1] and text[slice(*one)] != text[slice(*two)]:
                swapped = text[slice(*two)] + text[one[1] : two[0]] + text[slice(*one)]
                edits.append(Mutant(self.function, "operands swapped", one[0], two[1], swapped))
        return edits

    def body_of(self, at):
        """Where the block of an `if`, a `while` or a `for` opens."""
        at += 1
        while self.tokens[at].text != "{":
            at = close_of(self.tokens, at) + 1 if self.tokens[at].text in OPEN else at + 1
        return at

    def condition(self, at):
        if self.tokens[at].text not in ("if", "while") or self.tokens[at + 1].text == "let":
            return []
        end = self.body_of(at)
        text = self.file.text[self.tokens[at + 1].start : self.tokens[end - 1].end]
        plain = all(t.text not in COMPARISONS for t in self.tokens[at + 1 : end])
        return [self.edit("negated condition", at + 1, end - 1, f"!{text}" if plain else f"!({text})")]

    def statement(self, at):
        """A statement that binds nothing and returns nothing is left out; so is an `if` that has no `else`."""
        if self.tokens[at - 1].text not in ("{", "}", ";", "=>"):
            return []
        first = self.tokens[at].text
        if self.tokens[at].kind != "word" or first in ("let", "return", "break", "continue", "while", "for", "loop", "match", "else"):
            return []
        end = self.block_end(at)
        if first == "if":
            close = close_of(self.tokens, self.body_of(at))
            return [] if self.tokens[close + 1].text == "else" else [self.edit("statement left out", at, close, "")]
        stop = parts_of(self.tokens, at, end, ";")[0][1]
        if self.tokens[stop].text != ";" or self.tokens[at - 1].text == "=>":
            return []
        return [self.edit("statement left out", at, stop, "")]


def byte_literal(code):
    plain = 32 <= code < 127 and chr(code) not in "'\\"
    return f"b'{chr(code)}'" if plain else f"b'\\x{code:02x}'"


def numbered(found):
    """The mutants by name: the function's path and a sum of the two lines, which no change elsewhere alters."""
    seen = {}
    for mutant in found:
        said = f"{mutant.kind}|{mutant.old_line}|{mutant.new_line}"
        seen[said] = seen.get(said, 0) + 1
        sum_of = hashlib.sha256(f"{said}|{seen[said]}".encode()).hexdigest()
        mutant.name = f"{mutant.function.path}#{sum_of[:6]}"
    return found


def places(tree, function):
    """Every edit that fits."""
    return Body(tree, function).edits()


def chosen(tree, function, seed, count):
    """Of a function's places, `count` or by default two, and one more for every 40, going round the kinds of change."""
    found = places(tree, function)
    count = count or 2 + len(found) // 40
    draw = random.Random(f"{seed} {function.path}")
    kinds = {}
    for mutant in found:
        kinds.setdefault(mutant.kind, []).append(mutant)
    for kind in kinds.values():
        draw.shuffle(kind)
    order = sorted(kinds)
    draw.shuffle(order)
    picked = []
    while len(picked) < min(count, len(found)):
        for kind in order:
            if kinds[kind] and len(picked) < count:
                picked.append(kinds[kind].pop())
    return picked
