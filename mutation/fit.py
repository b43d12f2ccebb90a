"""Fits a function's proof files to an edit of its code. A goal or a fact is named by the code that it comes from, as `if-classes-gt32` by
`if 32 < classes`: where an edit changes that code, the proof asks for a name that is gone, and its refusal says nothing of the contract.
The name then becomes the nearest one that the prover offers and the file does not have, and the proof says of the edited code what it said
of the code before."""
import difflib
import re

import logs

# What may stand in a name: words that dashes join.
NAME = r"[\w'*+-]+"


def missing(said, name):
    """Each name that the function's proof files ask for in vain, the names that are offered in its place, and whether these stand in the
    code's order, the last one first."""
    folder, found, goals = f"proofs/{name.replace('::', '/')}/", [], []
    for part in logs.parts(said):
        if part.kind == "help" and part.text.startswith("help: `Goals` has no "):
            goals += re.findall(rf"`({NAME})`", part.text.partition("rattle asks for ")[2])
            goals += re.findall(rf"`({NAME})`", part.text.partition("its ways into a join: ")[2].partition(";")[0])
        if part.kind != "error" or not part.file.startswith(folder):
            continue
        if gone := re.search(rf"has no field `({NAME})`", part.text):
            fields = part.text.partition("the fields that can be named here are ")[2].partition("\n")[0]
            nearest = re.findall(rf"\.({NAME})", part.text.partition("(nearest: ")[2].partition(")")[0])
            found.append((gone[1], re.findall(rf"`({NAME})`", fields) or nearest, bool(fields)))
        elif gone := re.search(rf"has no `({NAME})` that can be named from here(?: \((?:names in it that begin alike: |did you mean )(.*?)\))?", part.text):
            found.append((gone[1], re.findall(rf"`({NAME})`", gone[2] or ""), False))
            further = part.text.partition("Further on in this line, not found: ")[2].partition("\n")[0]
            found += [(it, [], False) for it in re.findall(rf"`({NAME})`", further)]
    return sorted(((gone, [*offered, *goals], ordered) for gone, offered, ordered in found), key=lambda it: not it[2])


def change(gone, offered):
    """What differs between two names, with the word before it, or with a dash where that is a word of every name."""
    old, new = gone.split("-"), offered.split("-")
    start = 0
    while start < min(len(old), len(new)) - 1 and old[start] == new[start]:
        start += 1
    end = 0
    while end < min(len(old), len(new)) - start - 1 and old[-1 - end] == new[-1 - end]:
        end += 1
    after = "-" * (start > 0)
    if start > 0 and old[start - 1] not in ("if", "then", "else", "returns"):
        start, after = start - 1, ""
    return after + "-".join(old[start : len(old) - end]), after + "-".join(new[start : len(new) - end])


def stands(name, text):
    return re.search(rf"(?<![\w-]){re.escape(name)}(?![\w-])", text)


def renamings(said, name, text):
    """The changes of names that fit the proof files' text to the edited code."""
    found = {}
    for gone, offered, ordered in missing(said, name):
        unused = [it for it in dict.fromkeys(offered) if not stands(it, text)]
        nearest = difflib.get_close_matches(gone, unused, 1, 0.5)
        first = re.sub(r"-[2-9]$", "", gone)
        if nearest and ordered and first != gone and first in offered and offered.index(first) < offered.index(nearest[0]):
            # of several places with one name the edit changed the first: the others move up
            old, new = change(first, nearest[0])
            found.setdefault(old, new)
            for k in range(2, 10):
                found.setdefault(f"{old}-{k}", f"{old}-{k - 1}" if k > 2 else old)
            continue
        other = re.sub(r"-2$", "", nearest[0]) if nearest else ""
        if nearest and other != nearest[0] and stands(other, text) and text.index(gone) < text.index(other):
            # the edit gave a place the name of a later one, which moves down
            old, new = change(gone, other)
            found.setdefault(old, new)
            for k in range(1, 9):
                found.setdefault(f"{new}-{k}" if k > 1 else new, f"{new}-{k + 1}")
        elif nearest:
            old, new = change(gone, nearest[0])
            found.setdefault(old, new)
    return found


def renamed(text, found):
    """The text with all these changes of names made at once."""
    olds = sorted(found, key=len, reverse=True)
    before = {old: "" if old.startswith("-") else r"(?<![^\s.(‹«-])" for old in olds}
    return re.sub("|".join(rf"{before[old]}{re.escape(old)}(?![\w'])" for old in olds), lambda m: found[m[0]], text)


def fits(line, name):
    """Whether names of the line may change: an import only where it is of the function's own goals."""
    return not line.startswith("use ") or f".proofs.{name.replace('::', '.')}.Goals." in line


def fit(said, name, folder):
    """Renames in the function's proof files below the crate's folder; whether anything was changed."""
    files = [p for p in (folder / "proofs" / name.replace("::", "/")).glob("*.antt")]
    whole = "\n".join(p.read_text(encoding="utf-8") for p in files)
    found, changed = renamings(said, name, whole), False
    for file in files:
        text = file.read_text(encoding="utf-8")
        new = renamed(text, found) if found else text
        new = "\n".join(line if fits(was, name) else was for was, line in zip(text.split("\n"), new.split("\n")))
        if new != text:
            file.write_text(new, encoding="utf-8")
            changed = True
    return changed
