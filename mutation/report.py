"""What is kept of a run, crate by crate, what is held of it, and the document that is made of it."""
import json

from proving import WORK
from source import digest_of, root

LISTED = root / "mutation/equivalent.txt"
DOCUMENT = root / "docs/MUTATION.md"


def digest(crate):
    """A sum of a crate's code, definitions and proofs."""
    return digest_of([root / "crates" / crate / part for part in ("src", "specs", "proofs")])


def keep(crate, results, seconds):
    WORK.mkdir(parents=True, exist_ok=True)
    said = {"seconds": seconds, "mutants": results}
    (WORK / f"{crate}.json").write_text(json.dumps(said, indent=1, ensure_ascii=False), encoding="utf-8")


def kept(crate):
    file = WORK / f"{crate}.json"
    return json.loads(file.read_text(encoding="utf-8")) if file.exists() else None


def still_good(crate, same_code):
    """The results that are kept of the crate as it stands, by name, and the seconds that they took; with `same_code` also those that
    were made before something around the same edit changed."""
    said, now = kept(crate), digest(crate)
    if not said:
        return {}, 0
    good = {r["name"]: r for r in said["mutants"] if same_code or r["digest"] == now}
    return good, said["seconds"] if good else 0


def listed():
    """The mutants that equivalent.txt lists: name to old line, new line and argument."""
    found = {}
    text = LISTED.read_text(encoding="utf-8") if LISTED.exists() else ""
    for block in text.split("\n\n"):
        lines = [line for line in block.splitlines() if not line.startswith("#") and line.strip()]
        if lines:
            name, old, new, *argument = (line.strip() for line in lines)
            found[name] = (old[2:].strip(), new[1:].strip(), " ".join(argument))
    return found


def counted(result):
    """What a mutant counts as."""
    verdict, run = result["verdict"], result["run"]
    if verdict == "accepted":
        return "accepted and caught" if run else "equivalent"
    if verdict == "unfit":
        return "unfit and caught" if run else "survived"
    return verdict


def faults(crate, results, complete):
    """What does not hold of a crate's results; `complete` where they are of all its mutants."""
    known, found = listed(), []
    for result in results:
        name, as_what = result["name"], counted(result)
        if as_what == "accepted and caught":
            found.append(f"{name}: the prover accepts it, and a run tells it from the Rust: a contract is too weak")
        elif as_what in ("equivalent", "survived") and name not in known:
            found.append(f"{name}: {as_what if as_what == 'survived' else 'accepted'}, and not listed as equivalent")
        elif as_what in ("equivalent", "survived") and known[name][:2] != (result["old"], result["new"]):
            found.append(f"{name}: equivalent.txt has other lines for it")
        elif as_what not in ("equivalent", "survived") and name in known:
            found.append(f"{name}: listed as equivalent, and it is not: {as_what}")
    if complete:
        there = {r["name"] for r in results}
        found += [f"{name}: listed as equivalent, and no mutant" for name in known if name.split("::")[0] == crate and name not in there]
    return found


COLUMNS = ("fact", "unfit and caught", "equivalent", "survived", "accepted and caught", "no code")


def counts(results):
    found = {what: sum(counted(r) == what for r in results) for what in COLUMNS}
    return {what: n for what, n in found.items() if n}


TEXT = """# Mutation

`mutation/run` changes the code of the calls, one small edit at a time, and holds that each of these mutants is found out: the prover refuses it for a fact that no longer holds, or it is compiled without its proof and a run tells it from the Rust, or it is listed as equivalent with the reason. `mutation/run --write-docs` made this document from the results that are kept.

## What is changed

The bodies of functions, of the exports of `gomxeli_c` and the crates behind them, and of the line of the program `calls`; never a contract, a ghost line, a comment or a declaration. Each function has two mutants, and one more for every 40 places where an edit fits; fewer where it has fewer places. They are drawn with the seed {seed}, going round the kinds of change:

{kinds}

A mutant's name is its function's path and a sum of its two lines, so that it stays the same while its function does. `mutation/run --list` prints all of them.

## What counts as refused

Each mutant is put into a copy of the crates, outside the repository, and its crate is checked there by `rt check`. One mutant of each function is checked at once: a function's proof knows the functions that it calls by their contracts alone, so that none of these mutants changes what is said of another. One that only waits for a refused function that it calls is checked again without it. The log then tells (`mutation/logs.py`, which `.ci/refused` uses too):

- **A fact**: the function is refused, an error in its own proof names a fact that does not hold, and none says that the proof does not fit. Four forms name one: `omega` shows numbers at which the goal fails ("the goal does not follow from what it read. All of that holds, and the goal fails .."); two propositions or values that have to be one differ ("the two types ..", "the two sides ..", "the two values ..", "the two indices ..", ".. ≟ ..", "expected type .. but this has type .."); the two ends of a path do ("must be a path whose two ends are equal"); the prover found values at which a goal fails ("the facts known there allow values at which this goal is false"). Errors that only wait for another are passed over ("depends on .., which was not admitted"). The fact is one that the proof states of the code; that the code then computes something else is likely and is not shown.
- **Unfit**: the function is refused for anything else. The proof names what the code has no more ("that can be named from here", "has no field"), a rewriting finds nothing to rewrite, or `search` finds no proof, in a proof or of a function that has no proof file. None of this shows that a fact fails, so the mutant is run.
- **Accepted**: the function is proved. The mutant is run too: if a run told it from the Rust, a contract would be too weak.
- **No code**: the compiler rejects the edit. It is left out of all other counts.

## How the others are run

Rattle's toolchain compiles only what is proved. But its text without contracts and ghost lines is Rust: `mutation/compiled.py` takes these and the prover's attributes out, and has `rustc` compile the crates, with overflow checks, into a shared library with the same exports. The programs of `driver/` and `oracle/` are built once by their own scripts, on an archive whose exports jump into that library. A mutant is run by the comparison with the Rust (`oracle/`: seed 1, 300,000 random calls and all written sequences and small states, of the kinds whose exports reach the function), then by `c_test`, then by `fuzz`, until one of them tells: another answer, other bytes, an index out of range, a sum that overflows, or no end. A mutant of `calls_line` is run by the program `calls` on `crates/calls/stdin`. The code as it stands passes all of these runs first, compiled in the same way.

## Counts

{table}

{told}{earlier}

## Equivalent mutants

{equivalent}

## Running it

    mutation/run                        # all crates, two at a time
    mutation/run --crate tx_queue       # one crate, or several by several such words
    mutation/run --only NAME            # one mutant, and what is said of it
    mutation/run --sample               # {sample} mutants of small crates, for the gate
    mutation/run --write-docs           # this document, from target/mutation/

It needs what `.ci/run` needs, with the Rust source. Results of a crate that has not changed are used again, unless `--anew` is said. The seconds above were measured with two crates at a time on two cores that had much other work too; together they are {minutes} minutes. It exits with 1 if a mutant is accepted or survives and `mutation/equivalent.txt` does not list it, if one that is listed is refused, told by a run or gone, or if the prover accepts what a run tells.
"""

EXAMPLES = {
    "comparison": "`<` becomes `<=` or `==`; `==` becomes `!=` or `<=`; and so on",
    "constant": "a number one more or one less",
    "neighbouring byte": "the same in an index or the ends of a range: `s[1034]` becomes `s[1035]`",
    "operand": "another name in scope of the same type; an argument becomes 0",
    "operands swapped": "two arguments of one type, next to each other",
    "operator": "`+` becomes `-`, `*` becomes `+`, `/` becomes `%`, `&` becomes `\\|`, `<<` becomes `>>`, and back; `!` goes",
    "case": "another case of the enum that holds the same, another constant of the type",
    "callee": "another function of the same signature: `inner_front` becomes `inner_back`",
    "negated condition": "`if c` becomes `if !c`, `while c` becomes `while !c`",
    "statement left out": "a store, a call or an `if` without `else`",
    "true or false": "the other one",
}


def row(cells):
    return "| " + " | ".join(map(str, cells)) + " |"


def kinds_table(results):
    rows = [row(["Change", "What", "Mutants"]), "|---|---|---|"]
    return "\n".join(rows + [row([kind, what, sum(r["kind"] == kind for r in results)]) for kind, what in EXAMPLES.items()])


def crates_table(per_crate):
    shown = {"fact": "Refused for a fact", "unfit and caught": "Unfit, told by a run", "equivalent": "Accepted, equivalent", "survived": "Unfit, equivalent"}
    rows = [row(["Crate", "Mutants", *shown.values(), "No code", "Seconds"]), "|---|" + "---|" * (len(shown) + 3)]
    total = [0] * (len(shown) + 3)
    for crate, said in per_crate.items():
        results = said["mutants"]
        cells = [sum(counted(r) == what for r in results) for what in shown]
        dropped = sum(r["verdict"] == "no code" for r in results)
        cells = [len(results) - dropped, *cells, dropped, said["seconds"]]
        total = [a + b for a, b in zip(total, cells)]
        rows.append(row([f"`{crate}`", *cells]))
    return "\n".join([*rows, row(["all", *total])])


def told_by(results):
    """How many the runs told, by program and by how."""
    ran = [r["run"] for r in results if r["run"]]
    by = {}
    for program, how in ran:
        key = f"`{program}`"
        by[key] = by.get(key, 0) + 1
    how = {"it stops": sum(h.startswith("it stops") for _, h in ran), "it does not end": sum(h == "it does not end" for _, h in ran)}
    first = ", ".join(f"{n} by {program}" for program, n in sorted(by.items(), key=lambda item: -item[1]))
    return f"Of the {len(ran)} told by a run, {first}; {how['it stops']} by an index out of range or an overflow, {how['it does not end']} because they do not end, the others by another answer, other bytes or another output."


def made_earlier(per_crate):
    """How many results are of an earlier state of their crates, which mutation/run --same-code let stand."""
    found = sum(r["digest"] != digest(crate) for crate, said in per_crate.items() for r in said["mutants"])
    if not found:
        return ""
    return (
        f"\n\n{found} of these results were made before a definition, a contract, a proof, a comment or another function of their crates"
        " changed, and let stand by `--same-code`: the edits are the same. `mutation/run` makes them anew."
    )


def equivalent_text():
    rows = []
    for name, (old, new, argument) in listed().items():
        rows.append(f"- `{name}`: `{old}` becomes `{new}`. {argument}" if new else f"- `{name}`: `{old}` is left out. {argument}")
    return "\n".join(rows) or "None."


def write(mutation, sample):
    """Writes the document; what does not hold of the results."""
    crates = mutation.crates()
    per_crate = {crate: kept(crate) for crate in crates}
    found = [f"{crate}: no results are kept" for crate, said in per_crate.items() if not said]
    for crate, said in per_crate.items():
        if said and set(r["name"] for r in said["mutants"]) != set(m.name for m in mutation.chosen(crate)):
            found.append(f"{crate}: its code has changed since its results were made")
    if found:
        return found
    for crate, said in per_crate.items():
        found += faults(crate, said["mutants"], True)
    results = [r for said in per_crate.values() for r in said["mutants"]]
    standing = [r for r in results if r["verdict"] != "no code"]
    DOCUMENT.write_text(
        TEXT.format(
            seed=mutation.options.seed,
            kinds=kinds_table(standing),
            table=crates_table(per_crate),
            told=told_by(standing),
            earlier=made_earlier(per_crate),
            equivalent=equivalent_text(),
            sample=sample,
            minutes=round(sum(said["seconds"] for said in per_crate.values()) / 60),
        ),
        encoding="utf-8",
    )
    return found
