"""Reads Rattle source: tokens, and of each file its functions, enums, constants and imports. No more of the language than the
crates here use."""
import hashlib
import pathlib
import re

root = pathlib.Path(__file__).resolve().parent.parent

TOKEN = re.compile(
    r"""(?P<blank>\s+|//[^\n]*)
    |(?P<number>b'(?:\\.|[^'\\])'|0x[0-9a-fA-F]+(?:[ui](?:8|16|32|64|size))?|\d[\d_]*(?:[ui](?:8|16|32|64|size))?)
    |(?P<text>b"(?:\\.|[^"\\])*"|"[^"]*")
    |(?P<word>'?[A-Za-z_]\w*)
    |(?P<sign>\.\.=|\.\.|::|->|=>|<=|>=|==|!=|&&|\|\||<<|>>|\+=|-=|.)""",
    re.VERBOSE | re.DOTALL,
)
OPEN = {"(": ")", "[": "]", "{": "}"}


class Trouble(Exception):
    """What ends a run without a result."""


def digest_of(places):
    """A sum of the files, and of all files below the folders, with their names."""
    found = hashlib.sha256()
    for file in (p for place in places for p in [place, *sorted(place.rglob("*"))] if p.is_file()):
        found.update(str(file.relative_to(root)).encode() + b"\0" + file.read_bytes())
    return found.hexdigest()


class Token:
    """A word, number, text or sign, and where it stands in the file."""

    def __init__(self, kind, text, start, end):
        self.kind, self.text, self.start, self.end = kind, text, start, end


def tokens_of(text):
    found = []
    for match in TOKEN.finditer(text):
        if match.lastgroup != "blank":
            found.append(Token(match.lastgroup, match.group(), match.start(), match.end()))
    return found


def close_of(tokens, at):
    """The place of the bracket that closes the one at `at`."""
    depth = 0
    for i in range(at, len(tokens)):
        if tokens[i].text in OPEN:
            depth += 1
        elif tokens[i].text in OPEN.values():
            depth -= 1
            if depth == 0:
                return i
    raise ValueError("a bracket is not closed")


def parts_of(tokens, start, end, sign=","):
    """The ranges between `sign`s that stand in no bracket of tokens[start:end]; an empty one at the end is left out."""
    found, depth, begun = [], 0, start
    for i in range(start, end):
        if tokens[i].text in OPEN:
            depth += 1
        elif tokens[i].text in OPEN.values():
            depth -= 1
        elif tokens[i].text == sign and depth == 0:
            found.append((begun, i))
            begun = i + 1
    if begun < end:
        found.append((begun, end))
    return found


def paths_of(words, before=()):
    """The paths that a `use` names, its groups written out."""
    path = list(before)
    for i, word in enumerate(words):
        if word == "{":
            return [found for part in split_group(words[i + 1 : -1]) for found in paths_of(part, path)]
        if word != "::":
            path.append(word)
    return [path]


def split_group(words):
    """The parts of a group, between the commas that stand in no inner one."""
    found, depth = [[]], 0
    for word in words:
        depth += (word == "{") - (word == "}")
        if word == "," and depth == 0:
            found.append([])
        else:
            found[-1].append(word)
    return [part for part in found if part]


def spelt(tokens):
    return " ".join(token.text for token in tokens)


def past_types(tokens, at):
    """Past the parameters `<..>` of a function or an impl, if it has any."""
    if tokens[at].text != "<":
        return at
    depth = 0
    while True:
        depth += {"<": 1, ">": -1, ">>": -2}.get(tokens[at].text, 0)
        at += 1
        if depth == 0:
            return at


def impl_of(words):
    """Of an impl, by the words before its brace: its type's name, and the name that the prover gives it, which is the type's and then
    the trait's, each with what it is made of."""
    parameters = []
    if words[0] == "<":
        depth = 0
        for i, word in enumerate(words):
            depth += {"<": 1, ">": -1, ">>": -2}.get(word, 0)
            if depth == 1 and words[i] in ("<", ","):
                parameters.append(words[i + 1])
            if depth == 0:
                words = words[i + 1 :]
                break

    def name(part):
        if part == ["(", ")"]:
            return "Unit"
        found = [w for w in part if re.match(r"[A-Za-z]\w*$", w) and w not in parameters]
        return "".join(w[0].upper() + w[1:] for w in found)

    if "for" not in words:
        return words[0], words[0]
    at = words.index("for")
    first = next((w for w in words[at + 1 :] if re.match(r"[A-Za-z]", w)), "Unit")
    return first, name(words[at + 1 :]) + name(words[:at])


class Function:
    """A function: where it stands, the type that owns it and the name that the prover gives that impl, its parameters and result by
    type, and the tokens of its body."""

    def __init__(self, file, impl, name, public, parameters, result, start, end):
        self.file, self.name, self.public = file, name, public
        self.owner, self.impl = impl or (None, None)
        self.parameters, self.result = parameters, result
        self.start, self.end = start, end

    @property
    def path(self):
        return "::".join([*self.file.path, *([self.impl] if self.impl else []), self.name])

    @property
    def spelt_path(self):
        """The path by which code names it."""
        return "::".join([*self.file.path, *([self.owner] if self.owner else []), self.name])

    @property
    def signature(self):
        return tuple(kind for _, kind in self.parameters), self.result


class File:
    """A file of a crate: its tokens and items."""

    def __init__(self, crate, place, text=None):
        self.crate, self.place = crate, place
        self.text = place.read_text(encoding="utf-8") if text is None else text
        self.tokens = tokens_of(self.text)
        self.path = [crate] if place.stem in ("lib", "main") else [crate, place.stem]
        self.functions, self.enums, self.constants, self.imports = [], {}, {}, {}
        self.ghosts, self.types = [], set(re.findall(r"(?m)^\s*(?:pub )?(?:struct|enum) (\w+)", self.text))
        self.read_items(0, len(self.tokens), None)

    def read_items(self, at, end, impl):
        tokens, public = self.tokens, False
        owner = impl[0] if impl else None
        while at < end:
            word = tokens[at].text
            if word == "#":
                bracket = at + 2 if tokens[at + 1].text == "!" else at + 1
                close = close_of(tokens, bracket) + 1
                if tokens[bracket + 1].text == "tactic":
                    self.ghosts.append((at, close))
                at = close
                continue
            if word == "pub":
                public = True
                at += 1
                if tokens[at].text == "(":
                    at = close_of(tokens, at) + 1
                continue
            if word == "ghost":
                close = self.past_ghost(at)
                self.ghosts.append((at, close))
                at = close
            elif word == "use":
                close = self.past(at, ";")
                if [t.text for t in tokens[at + 1 : close - 1]] == ["std", "::", "marker", "::", "Model"]:
                    self.ghosts.append((at, close))
                for path in paths_of([t.text for t in tokens[at + 1 : close - 1]]):
                    self.imports[path[-1]] = [self.crate, *path[1:]] if path[0] == "crate" else path
                at = close
            elif word in ("impl", "trait"):
                open_at = self.past(at, "{") - 1
                close = close_of(tokens, open_at)
                of = impl_of([t.text for t in tokens[at + 1 : open_at]])
                if word == "impl" and of[1].endswith("Model"):
                    self.ghosts.append((at, close + 1))
                else:
                    self.read_items(open_at + 1, close, of)
                at = close + 1
            elif word == "enum":
                at = self.read_enum(at)
            elif word == "struct":
                at = self.past_struct(at)
            elif word == "const":
                close = self.past(at, ";")
                self.constants[owner, tokens[at + 1].text] = tokens[at + 3].text
                at = close
            elif word == "fn":
                at = self.read_function(at, impl, public)
            else:
                at += 1
                continue
            public = False

    def past(self, at, sign):
        while self.tokens[at].text != sign:
            at += 1
        return at + 1

    def past_ghost(self, at):
        """Past a ghost item, whose `;` stands in no bracket."""
        while self.tokens[at].text != ";":
            at = close_of(self.tokens, at) + 1 if self.tokens[at].text in OPEN else at + 1
        return at + 1

    def past_struct(self, at):
        at += 2
        while self.tokens[at].text not in ("(", "{", ";"):
            at += 1
        if self.tokens[at].text == ";":
            return at + 1
        close = close_of(self.tokens, at)
        if self.tokens[at].text == "(":
            return self.past(close, ";")
        for begin, end in parts_of(self.tokens, at + 1, close):
            words = [t.text for t in self.tokens[begin:end]]
            if "ghost" in words[:2]:
                self.ghosts.append((begin, end + 1 if self.tokens[end].text == "," else end))
        return close + 1

    def read_enum(self, at):
        name, open_at = self.tokens[at + 1].text, at + 2
        close = close_of(self.tokens, open_at)
        cases = {}
        for begin, end in parts_of(self.tokens, open_at + 1, close):
            held = parts_of(self.tokens, begin + 2, end - 1) if end - begin > 1 else []
            cases[self.tokens[begin].text] = [spelt(self.tokens[a:b]) for a, b in held]
        self.enums[name] = cases
        return close + 1

    def read_function(self, at, impl, public):
        tokens, name = self.tokens, self.tokens[at + 1].text
        open_at = past_types(tokens, at + 2)
        close = close_of(tokens, open_at)
        parameters = []
        for begin, end in parts_of(tokens, open_at + 1, close):
            if tokens[end - 1].text == "self":
                parameters.append(("self", "Self"))
                continue
            if tokens[begin].text == "mut":
                begin += 1
            kind = spelt(tokens[begin + 2 : end]) if end - begin > 1 else "Self"
            parameters.append((tokens[begin].text, kind))
        at, result = close + 1, "()"
        if tokens[at].text == "->":
            begin = at + 1
            while tokens[at].text not in ("requires", "ensures", "ghost", "where", "{", ";"):
                at = close_of(tokens, at) + 1 if tokens[at].text in OPEN else at + 1
            result = spelt(tokens[begin:at])
        while tokens[at].text not in ("requires", "ensures", "ghost", "{", ";"):
            at += 1
        while tokens[at].text in ("requires", "ensures", "ghost"):
            end = close_of(tokens, self.past(at, "{") - 1) + 1
            self.ghosts.append((at, end))
            at = end
        if tokens[at].text == ";":
            return at + 1
        end = close_of(tokens, at) + 1
        self.functions.append(Function(self, impl, name, public, parameters, result, at, end))
        return end


class Tree:
    """All crates' files, and what a path in one of them leads to."""

    def __init__(self, base, crates):
        self.crates = crates
        self.files = [File(c, p) for c in crates for p in sorted((base / "crates" / c / "src").glob("*.rt"))]
        self.functions = {f.path: f for file in self.files for f in file.functions}
        self.spelt, self.foreign = {}, {}
        for f in self.functions.values():
            self.spelt.setdefault(f.spelt_path, f)
            if f.owner and f.owner not in f.file.types:
                self.foreign.setdefault((f.owner, f.name), f)
        self.enums = {"::".join([*file.path, name]): cases for file in self.files for name, cases in file.enums.items()}
        self.modules = {tuple(file.path) for file in self.files}
        self.reached = {}

    def full_path(self, file, owner, path):
        """The whole path of one that stands in `file`, in an impl of `owner` or in none."""
        if not path:
            return []
        first, rest = path[0], path[1:]
        if first == "Self":
            return [*file.path, owner, *rest]
        if first == "crate":
            return [file.crate, *rest]
        if first in file.imports:
            whole = [*file.imports[first], *rest]
            return [file.crate, *whole] if (file.crate, whole[0]) in self.modules else whole
        if first in self.crates and rest:
            return path
        return [*file.path, *path]

    def function_at(self, file, owner, path):
        whole = "::".join(self.full_path(file, owner, path))
        return self.functions.get(whole) or self.spelt.get(whole) or self.foreign.get(tuple(path[-2:]))

    def enum_at(self, file, owner, path):
        """The cases of the enum of that path; none of a case by itself, as `Some` is."""
        return self.enums.get("::".join(self.full_path(file, owner, path))) if path else None

    def methods(self, name):
        """The methods of that name, of any type."""
        return [f for f in self.functions.values() if f.owner and f.name == name and f.parameters[:1] == [("self", "Self")]]

    def calls(self, function):
        """The functions whose names its body calls."""
        file, found = function.file, set()
        for at in range(function.start, function.end):
            if is_call(file.tokens, at):
                path, dotted = path_to(file.tokens, at)
                callees = self.methods(path[-1]) if dotted else [self.function_at(file, function.owner, path)]
                found |= {f.path for f in callees if f}
        return found

    def reaches(self, function):
        """The paths of all functions that it calls, or that these call."""
        if function.path not in self.reached:
            self.reached[function.path] = set()
            found = set()
            for path in self.calls(function):
                found |= {path} | self.reaches(self.functions[path])
            self.reached[function.path] = found
        return self.reached[function.path]


def is_call(tokens, at):
    """A name with a bracket after it, which is no keyword and no enum's case."""
    word = tokens[at]
    return word.kind == "word" and tokens[at + 1].text == "(" and word.text[0].islower() and word.text not in ("if", "while", "match", "return")


def path_to(tokens, at):
    """The words of the path that ends at `at`, and whether a dot stands before it."""
    path = [tokens[at].text]
    while tokens[at - 1].text == "::":
        at -= 2
        path.insert(0, tokens[at].text)
    return path, tokens[at - 1].text == "."


def crates_of(base):
    """Each crate's dependencies, in the order of crates.txt."""
    text = re.sub(r"#.*", "", (base / "crates.txt").read_text(encoding="utf-8"))
    return {name: deps.split() for name, deps in re.findall(r"(?m)^(\w+)(?: staticlib)?:(.*)$", text)}
