"""Puts mutants into a copy of the tree and has their crate checked there, over what an earlier check of the copy kept."""
import os
import pathlib
import re
import shutil
import subprocess
import tempfile

import logs
from source import Trouble, crates_of, root

WORK = root / "target/mutation"
PARTS = ("src", "specs", "proofs")


def link(one, other):
    """A second name for a file of a library, which rt removes before it makes it anew."""
    try:
        os.link(one, other)
    except OSError:
        shutil.copy2(one, other)


class Copy:
    """A copy of a crate that is changed, and of those that it stands on, with their libraries where they are built. It stands outside the
    repository, in which rt ci allows no other source files."""

    def __init__(self, crate, folder):
        self.crate, self.room = crate, tempfile.TemporaryDirectory(prefix=f"gomxeli-{folder}-")
        self.place = pathlib.Path(self.room.name)
        self.folder = self.place / "crates" / crate
        deps = crates_of(root)
        wanted = {crate: None}
        for name in wanted_below(deps, crate):
            wanted[name] = None
        lines = re.findall(r"(?m)^(\w+)(.*)$", (root / "crates.txt").read_text(encoding="utf-8"))
        (self.place / "crates.txt").write_text("".join(f"{name}{rest}\n" for name, rest in lines if name in wanted), encoding="utf-8")
        if (root / "HANDLES").exists():
            shutil.copy(root / "HANDLES", self.place)
        for name in wanted:
            here = root / "crates" / name
            for part in PARTS:
                if (here / part).exists():
                    shutil.copytree(here / part, self.place / "crates" / name / part)
            if name != crate and (here / "out/rlib/stamp").exists():
                shutil.copytree(here / "out/rlib", self.place / "crates" / name / "out/rlib", copy_function=link)
        if (root / "crates" / crate / "out/incremental").exists():
            shutil.copytree(root / "crates" / crate / "out/incremental", self.folder / "out/incremental")
        self.logs = WORK / f"{folder}.logs" / crate
        shutil.rmtree(self.logs, ignore_errors=True)
        self.logs.mkdir(parents=True)

    def check(self, name):
        """Checks the crate; its log."""
        ran = subprocess.run(
            ["nice", "rt", "check", "--jobs", "1"],
            cwd=self.folder,
            stdin=subprocess.DEVNULL,
            stdout=subprocess.PIPE,
            stderr=subprocess.STDOUT,
            check=False,
        )
        said = ran.stdout.decode("utf-8", "replace")
        (self.logs / f"{name}.log").write_text(said, encoding="utf-8")
        return said

    def text(self, path):
        return (self.folder / path).read_text(encoding="utf-8")

    def restore_all(self):
        """The crate's files as they stand in the repository."""
        for part in PARTS:
            shutil.rmtree(self.folder / part, ignore_errors=True)
            if (root / "crates" / self.crate / part).exists():
                shutil.copytree(root / "crates" / self.crate / part, self.folder / part)

    def remove(self):
        self.room.cleanup()

    def write(self, mutants):
        """The files of the crate, with these edits and no others."""
        for file in {m.function.file for m in mutants}:
            text = file.text
            for m in sorted((m for m in mutants if m.function.file is file), key=lambda m: -m.start):
                text = text[: m.start] + m.new + text[m.end :]
            (self.place / file.place.relative_to(root)).write_text(text, encoding="utf-8")

    def restore(self, mutants):
        for file in {m.function.file for m in mutants}:
            (self.place / file.place.relative_to(root)).write_text(file.text, encoding="utf-8")


def wanted_below(deps, crate):
    """The repository's crates that a crate stands on."""
    found = {}
    for dep in deps.get(crate, []):
        if dep in deps:
            found.update(dict.fromkeys([dep, *wanted_below(deps, dep)]))
    return list(found)


def batches(mutants, apart):
    """Mutants that are checked at once: any two of them may not be `apart`."""
    found = []
    for mutant in mutants:
        for batch in found:
            if not any(apart(mutant, other) or apart(other, mutant) for other in batch):
                batch.append(mutant)
                break
        else:
            found.append([mutant])
    return found


def called(tree, function):
    return {function.path} | tree.reaches(function)


def one_function(tree):
    """Two mutants of one function, or two that could make their functions call each other, are apart."""

    def apart(one, other):
        if one.function is other.function:
            return True
        return bool(one.callee and other.callee) and other.function.path in called(tree, one.callee)

    return apart


def no_calls(tree):
    """Two mutants are apart where the one's function calls the other's, with its edit or without."""

    def apart(one, other):
        here = called(tree, one.function) | (called(tree, one.callee) if one.callee else set())
        return other.function.path in here

    return apart


def without_code(said, batch):
    """The mutants of the batch that the front end rejects."""
    found = []
    for mutant in batch:
        function = mutant.function
        text, tokens = function.file.text, function.file.tokens
        first = text.count("\n", 0, tokens[function.start].start) + 1
        last = text.count("\n", 0, tokens[function.end - 1].end) + 1
        place = str(function.file.place.relative_to(root / "crates" / function.file.crate))
        if any(path == place and first <= line <= last for path, line, _ in logs.errors(said)):
            found.append(mutant)
    return found


def verdict(said, mutant):
    """What the log says of the mutant's function, and the words that tell. 'accepted': it is proved. 'fact': it is refused, an error in
    its own proof names a fact, and none says that the proof does not fit. 'unfit': it is refused for anything else. None: it waits for a
    function that it calls and that is refused, and has no error of its own."""
    crate, *inner = mutant.function.path.split("::")
    word = logs.verdicts(said, crate).get("::".join(inner))
    if not word:
        raise Trouble(f"the log says nothing of {mutant.function.path}")
    own = logs.own(said, "::".join(inner))
    if word == "proved":
        return "accepted", word
    if not own and "it calls" in word:
        return None
    unfit = [text for text in own if logs.UNFIT.search(text)]
    facts = logs.facts(own)
    if facts and not unfit:
        return "fact", facts[0]
    return "unfit", (unfit or own or [word])[0]


class Proving:
    """The checks of a crate's mutants."""

    def __init__(self, tree, crate, folder, tell):
        self.tree, self.crate, self.tell = tree, crate, tell
        self.copy, self.results, self.number = Copy(crate, folder), {}, 0
        if not logs.is_proved(self.copy.check("unchanged")):
            raise Trouble(f"{crate} is not proved as it stands: {self.copy.logs}/unchanged.log")

    def check(self, batch):
        """Checks the mutants at once; those that are still to be told."""
        self.number += 1
        self.copy.write(batch)
        said = self.copy.check(self.number)
        self.copy.restore(batch)
        if not logs.is_judged(said):
            rejected = without_code(said, batch)
            if not rejected:
                raise Trouble(f"no verdict and no place: {self.copy.logs}/{self.number}.log")
            self.results.update({m.name: ("no code", "") for m in rejected})
            rest = [m for m in batch if m not in rejected]
            return self.check(rest) if rest else []
        found = {m.name: verdict(said, m) for m in batch}
        self.results.update({name: told for name, told in found.items() if told})
        self.tell(f"{self.crate}: {len(self.results)} told by the prover")
        return [m for m in batch if not found[m.name]]


def prove(tree, crate, mutants, folder, tell):
    """Checks the mutants of a crate, in a copy in the folder; name to verdict and the words that tell. One mutant of each function is
    checked at once; what a function calls is known by its contract alone. Those that wait for a refused function are checked again
    without it."""
    proving = Proving(tree, crate, folder, tell)
    waiting = [m for batch in batches(mutants, one_function(tree)) for m in proving.check(batch)]
    for batch in batches(waiting, no_calls(tree)):
        if proving.check(batch):
            raise Trouble(f"a mutant waits for one that it does not call: {proving.copy.logs}")
    return proving.results
