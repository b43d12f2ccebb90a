"""What a check's log says of a function: shared by .ci/refused, which checks the must-fail edits, and by mutation/run."""
import re

# The proof file names what the code has no more: a goal, or a field of what is known there.
UNFIT = re.compile(r"that can be named from here|has no field")
# The edit is no code or no definition.
NO_CODE = re.compile(r"is not in scope|(?m:^(?:\./)?(?:src|specs)/[^ ]*: error)")
# A fact is named that does not hold: omega shows numbers at which it fails; two propositions or values that had to be one differ; a path's
# ends do; the prover found values at which a goal fails. What another tactic says of itself, as search that finds no proof, is no such fact.
FACT = re.compile(
    r"error: `[^`]*`: (?:`omega`: the goal does not follow from what it read\. All of that holds, and the goal fails[,.]"
    r"|`[^`\n]*`\s+≟ `"
    r"|(?!`)[\s\S]*(?:the two (?:types|sides|values|indices) |expected type `[\s\S]*but this has type `|must be a path whose two ends are equal))"
    r"|the facts known there allow values at which this goal is false|may be false: the known facts allow "
)
# A goal that no file answers, and that the prover does not prove by itself.
OPEN = re.compile(r"it is not proved that ")
# It waits for a declaration that is refused for its own reason.
WAITS = re.compile(r"was not admitted .*so this cannot be checked|declarations? that depends? on .* not checked")


def verdicts(said, crate):
    """Each function's verdict, by its path in the crate."""
    return dict(re.findall(rf"(?m)^fn {crate}::([\w:]+): (.*)$", said))


def refused(said, crate):
    """The functions that are refused for something of their own, and not because a function that they call is."""
    return {name for name, verdict in verdicts(said, crate).items() if verdict != "proved" and "it calls" not in verdict}


def is_proved(said):
    return bool(re.search(r"(?m)^logic=proved ", said))


def is_judged(said):
    """Whether the check came to an end: where it did not, the front end rejects the text, or the prover met a limit."""
    return bool(re.search(r"(?m)^logic=|^rattle: no verdict", said))


class Part:
    """A note, an error or a verdict: its kind, the file and line that it names, and its whole text."""

    def __init__(self, kind, file, line, text):
        self.kind, self.file, self.line, self.text = kind, file.removeprefix("./"), line, text


def parts(said):
    place = r"(?:(\S+?):(\d+):\d+: )?"
    starts = list(re.finditer(rf"(?m)^{place}(error|note|warning|help|fn|enum|struct|logic|library|crate|statements|checked|rt:)\b:? ?{place}.*$", said))
    found = []
    for i, match in enumerate(starts):
        end = starts[i + 1].start() if i + 1 < len(starts) else len(said)
        found.append(Part(match[3], match[1] or match[4] or "", int(match[2] or match[5] or 0), said[match.start() : end].strip()))
    return found


def errors(said):
    """Each error: its file, its line, and its whole text."""
    return [(part.file, part.line, part.text) for part in parts(said) if part.kind == "error"]


def law_refused(said):
    """Whether a law was refused, or was not checked since it depends on one that was."""
    return any(part.kind == "error" and re.fullmatch(r"proofs/\w+\.antt", part.file) for part in parts(said))


def own(said, name):
    """The errors in the function's own proof files, but those that wait for another's, each from its place in the file on; and the notes
    on its own goals: those that stand just before its verdict, and those that name a proof file of its."""
    folder, found, before, wrong = f"proofs/{name.replace('::', '/')}/", [], [], False
    for part in parts(said):
        own = part.file.startswith(folder) and "/" not in part.file[len(folder) :]
        if part.kind == "error" and own and not WAITS.search(part.text):
            found.append(part.text.partition(folder)[2])
            wrong = True
        elif part.kind == "note" and re.match(rf"note: `[^`]*` of {re.escape(folder)}[^/ ]* ", part.text):
            found.append(part.text)
        elif part.kind == "note":
            before.append(part.text)
        elif part.kind in ("fn", "enum", "struct"):
            if re.match(rf"fn \w+::{name}: no proof: expected answers in \S+$", part.text) and not wrong and law_refused(said):
                # the search was not begun, since a law that it is to use was not admitted: the function only waits
                return []
            if re.match(rf"fn \w+::{name}: ", part.text):
                found += [text for text in before if OPEN.search(text)]
            before = []
    return found


def facts(texts):
    """Those that name a fact."""
    return [text for text in texts if FACT.search(text) and not UNFIT.search(text)]


def told(said):
    """All facts that the log names, of any function or law."""
    return facts(part.text for part in parts(said) if part.kind in ("error", "note"))
