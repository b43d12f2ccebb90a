#!/usr/bin/env python3
"""Turns the repository's own words of antt to the spelling of today's Rattle.

usage: tools/snake_names.py [FOLDER]      once, after the toolchain's port.py; FOLDER is the repository's top

1. A word in camelCase, as inOrder, turns to in_order: definitions, lemmas, fields, variables. A fact keeps its capital, as all_Placed.
2. A lemma that then has its definition's name gets `_lem` behind it (LEMMAS).
3. A dash stays where it joins two names that the repository or the library defines, as in inserted-length; else it turns to a line,
   as in first_digit. A field or a constructor of specs/ has no dash. Where the new word is there already, the old one stays.

It reads .antt files and, in .rt files, the clauses and the `ghost use` items alone: names of src/ keep their spelling.
"""
import collections
import glob
import os
import re
import sys

WORD = re.compile(r"[A-Za-z_][A-Za-z0-9_'₀-₉]*(?:-[A-Za-z0-9_'₀-₉*+]+)*")
CAMEL = re.compile(r"(?<![A-Za-z0-9_'₀-₉])[a-z][a-z0-9_]*[A-Z][A-Za-z0-9_'₀-₉]*")

# Lemmas that have the snake form of a definition that stands beside them, by crate.
LEMMAS = {
    "calls_line": ["is_digit"],
    "cases": ["only_one", "key_twice"],
    "entry_tree": ["walk_at", "from_at"],
    "loop_back": ["in_order"],
    "regular_valid": ["in_order"],
    "refusals": ["in_size", "is_front", "on_step"],
    "regular_activation": ["tail_of"],
    "tx_queue": ["ready_at", "flag_at"],
    "tx_valid": ["ready_at", "flag_at"],
    "tx_change": ["flag_at"],
}

# Names of the library that a lemma's name may begin or end with.
LIBRARY = {"length", "take", "drop", "append", "get_or", "set", "replicate", "sum", "map", "suc", "zero", "eqb", "leb", "ltb", "le", "lt", "ne", "cond", "and", "or", "true", "false", "bit_and", "bit_or", "cons", "mod", "div", "min", "sub", "add", "mul", "not", "some", "none", "nil"}


def snake(word):
    word = re.sub(r"([a-z0-9])([A-Z])", r"\1_\2", word)
    word = re.sub(r"([A-Z])([A-Z][a-z])", r"\1_\2", word)
    return word.lower()


def is_fact(word):
    return "_" in word and all(not re.search(r"[a-z0-9][A-Z]", it) for it in word.split("_"))


def without_camel(text):
    return CAMEL.sub(lambda m: m[0] if is_fact(m[0]) else snake(m[0]), text)


def closing(text, start):
    deep = 0
    for i in range(start, len(text)):
        deep += (text[i] == "{") - (text[i] == "}")
        if not deep:
            return i + 1
    return len(text)


GHOST = re.compile(r"(?m)^[ \t]*ghost use [^;]*;|^[ \t]*(?:requires|ensures)\*?(?: \w+)? \{|^[ \t]*ghost \w+\s*[:=]\s*\{")


def in_clauses(turn, text):
    out, at = [], 0
    for m in GHOST.finditer(text):
        if m.start() < at:
            continue
        end = m.end() if m[0].endswith(";") else closing(text, m.end() - 1)
        out += [text[at : m.start()], turn(text[m.start() : end])]
        at = end
    return "".join([*out, text[at:]])


DEFINED = re.compile(r"^\s*(?:(?:abbrev|unfoldable|pub|record|data|ruleset)\s+)*([^\s:(){}=]+(?:\s+[^\s:(){}=]+)*)(?:\s+[({][^=]*)?\s+:(?:\s|$)")


def defined(text):
    found = set()
    for line in text.split("\n"):
        m = DEFINED.match(line.split("--")[0])
        if m:
            found.update(it for it in m[1].split() if WORD.fullmatch(it))
    return found


def main(argv):
    top = argv[1] if len(argv) > 1 else "."
    paths = sorted(it for it in glob.glob(os.path.join(top, "crates/**/*"), recursive=True) if it.endswith((".antt", ".rt")) and "/out/" not in it)
    texts = {}
    for path in paths:
        with open(path, encoding="utf-8") as f:
            texts[path] = f.read()
    old = dict(texts)
    crate = {it: os.path.relpath(it, os.path.join(top, "crates")).split(os.sep)[0] for it in paths}

    # lemmas first, since the definitions take their names
    for path in paths:
        if path.endswith(".antt"):
            for name in LEMMAS.get(crate[path], ()):
                texts[path] = re.sub(r"(?<![A-Za-z0-9_'.-])" + name + r"(?![A-Za-z0-9_'-])(?!\.(?:Statement|Tie|Given|Goals|\{))", name + "_lem", texts[path])
                if name == "from_at":
                    texts[path] = texts[path].replace("a.from_at ", "a.from_at_lem ").replace("at.from_at\n", "at.from_at_lem\n")

    for path in paths:
        texts[path] = without_camel(texts[path]) if path.endswith(".antt") else in_clauses(without_camel, texts[path])

    own, of_specs, others = set(), set(), set()
    for path in paths:
        if path.endswith("Proof.antt"):
            continue
        if path.endswith(".antt"):
            names = defined(texts[path])
            own |= names
            if "/specs/" in path:
                of_specs |= names
            for m in re.finditer(r"(?m)^(?:pub )?use ([A-Za-z_.+-]+)\.\{([^}]*)\}", texts[path]):
                if not re.match(r"Rattle\.(?!std\.)", m[1]):
                    others |= set(WORD.findall(m[2]))
    words = collections.Counter()
    for path in paths:
        words.update(WORD.findall(texts[path]))
    known = {it for it in own if "-" not in it} | LIBRARY
    turned = {}
    for name in sorted(own):
        if "-" not in name or name in others:
            continue
        parts = name.split("-")
        new = parts[0]
        for a, b in zip(parts, parts[1:]):
            joins = name not in of_specs and a in known and b in known
            new += ("-" if joins else "_") + b
        if new != name:
            turned[name] = new
    fall = collections.Counter(turned.values())
    for name, new in list(turned.items()):
        if words[new] or fall[new] > 1:
            print(f"stays: {name}, since {new} is there")
            del turned[name]

    def without_dash(text):
        return WORD.sub(lambda m: turned.get(m[0], m[0]), text)

    for path in paths:
        texts[path] = without_dash(texts[path]) if path.endswith(".antt") else in_clauses(without_dash, texts[path])
        if texts[path] != old[path]:
            with open(path, "w", encoding="utf-8") as f:
                f.write(texts[path])
    print(f"turned: {len(turned)} names with a dash")


if __name__ == "__main__":
    main(sys.argv)
