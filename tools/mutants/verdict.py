"""What the prover said of a check, and what each mutant that was in it is by that."""
import re

REFUSED, PROVED, UNREAD = "refused", "proved", "can't be read"
BY_NAME, BY_ANSWER, UNJUDGED = "refused by a name alone", "refused by an answer alone", "not judged"
# What the prover says where a text names something that isn't there.
NAMES = re.compile(r"has no field|is not in scope|has no `|is no name|was not admitted")


class Fault:
    """An error in a proof file."""

    def __init__(self, path, line, why):
        self.path, self.line, self.why, self.is_of_names = path, int(line) - 1, why, bool(NAMES.search(why))
        folder, _, self.file = path[len("proofs/") :].rpartition("/")
        self.folder = folder.split("/")
        found = re.match(r"`([^`]*)`", why)
        self.answer = found[1] if found else self.file

    def __str__(self):
        return f"{self.path}: {self.why}"


class Said:
    """What the prover said in one check."""

    def __init__(self, text):
        self.text, self.last = text, text.rstrip().rpartition("\n")[2]
        self.functions = dict(re.findall(r"(?m)^fn (\S+): (.*)$", text))
        self.items = {**dict(re.findall(r"(?m)^(?:struct|enum|impl|trait) (\S+): (.*)$", text)), **self.functions}
        self.faults = [Fault(*it) for it in re.findall(r"(?m)^(?:\./)?(proofs/\S+\.antt):(\d+):\d+: error: (.*)$", text)]
        errors = re.findall(r"(?m)^(?:\./)?((?:src|specs)/\S+):(\d+):\d+: error\b(.*)$", text)
        self.unread = [(path, int(line) - 1, why) for path, line, why in errors]

    def is_readable(self):
        return bool(self.functions) and not self.unread

    def is_proved(self):
        return self.last.startswith("logic=proved")

    def goals(self, names):
        """The goals of these functions that are left, each with the name of its function."""
        found = []
        for name in names:
            left = re.search(r"did not prove ((?:`[^`]*`(?:, )?)+)", self.items[name])
            found += [(name, it) for it in re.findall(r"`([^`]*)`", left[1])] if left else []
        return found

    def are_false(self, goals):
        """Whether the prover shows values at which one of these goals is false."""
        folders = {(name.partition("::")[2].replace("::", "/"), goal) for name, goal in goals}
        told = re.findall(r"(?m)^note: `(\S+)` of proofs/(\S+)/\w+\.antt may be false", self.text)
        return any((folder, goal) in folders for goal, folder in told)

    def faults_of(self, names, functions):
        """The errors in the proofs of these functions. (The proof of a cycle, and of a function that calls itself, stands in +NAME.)"""
        folders = [it.split("::")[1:] for it in names]
        folders += [[*it[:-1], f"+{it[-1]}"] for it in folders] + [[*it.modules, f"+{it.cycle}"] for it in functions if it.cycle]
        return [it for it in self.faults if it.folder in folders]


def verdict(mutant, said, is_alone):
    """What a check says of a mutant that was in it, and why; None where it has to be tried without the answers that don't fit."""
    functions = mutant.functions()
    names = set().union(*[it.among(said.functions) for it in functions]) if functions else set(said.items)
    faults = said.faults_of(names, functions) if functions else said.faults
    answers = [it for it in faults if it.file == "Answers.antt"]
    others = [it for it in faults if it.file != "Answers.antt"]
    goals = said.goals(names)
    if not functions and (known := of_definition(mutant.crate, said)):
        return known
    if not is_alone and any("not admitted" in it.why for it in faults):
        return UNJUDGED, "a proof rests on what another mutant of the same check took away"
    named = next((it for it in others if it.is_of_names or it.file == "Invariants.antt"), None)
    if named:
        return BY_NAME, str(named)
    if goals:
        return REFUSED, weakness(mutant.misfits + answers, said.are_false(goals), goals)
    if others:
        return REFUSED, ""
    if answers:
        mutant.leave_out(answers)
        return None, ""
    return unrefused(mutant, said, names)


def of_definition(crate, said):
    """What is known of a mutant in no function that makes a row false or a lemma fail; None where it does neither."""
    plain = [it for it in crate.without_lemmas(said.functions) if not said.faults_of([it], [])]
    faults = [it for it in said.faults if not it.is_of_names and it.file != "Invariants.antt"]
    computed = [it for it in faults if it.file == "Answers.antt" and crate.has_line(it.path, f"{it.answer} c = refl")]
    if said.goals(plain) or computed:
        return REFUSED, ""
    lemma = next((it for it in faults if it.file != "Answers.antt"), None)
    return (REFUSED, f"no row is false, and a lemma fails: {lemma}") if lemma else None


def weakness(misfits, is_false, goals):
    """What to say of a refusal where answers name what the mutant took away: without them any body may leave a goal."""
    if not any(it.is_of_names for it in misfits):
        return ""
    answers = ", ".join(sorted({it.answer for it in misfits}))
    left = ", ".join(sorted({it for _, it in goals}))
    sure = "which the prover shows to be false" if is_false else "and nothing says that it is false"
    return f"without the answers {answers}, which name what isn't there: {left} is left, {sure}"


def unrefused(mutant, said, names):
    stands = [said.items[it] for it in names]
    if not names or "no verdict" in said.last or any("could not tell" in it for it in stands):
        return UNJUDGED, said.last if names else "the prover names no such function"
    # (a closure may be proved "where those who call it give what it asks")
    asked = [it for it in stands if not it.startswith("proved") and not re.search(r"\bit (calls|waits|passes|uses|names)\b", it)]
    if asked:
        return UNJUDGED, asked[0]
    if mutant.misfits:
        return BY_NAME if all(it.is_of_names for it in mutant.misfits) else BY_ANSWER, str(mutant.misfits[0])
    return PROVED, ""


def verdicts(batch, said):
    """What is known for sure after a check of the mutants that were in it; the others are tried again."""
    if not said.is_readable():
        return unread(batch, said)
    found, is_lone, had = {}, len(batch) == 1, [len(it.misfits) for it in batch]
    for it in batch:
        kind, why = verdict(it, said, is_lone)
        if kind == PROVED and is_lone and not said.is_proved():
            kind, why = UNJUDGED, "its function is proved, and the crate is not"
        is_sure = kind == REFUSED or kind == BY_NAME and not it.misfits or is_lone or said.is_proved()
        if kind and is_sure:
            found[it] = kind, why
    if not found and had == [len(it.misfits) for it in batch]:
        for it in batch:
            it.is_alone = True
    return found


def unread(batch, said):
    found = {}
    for it in batch:
        for path, line, why in said.unread:
            if (path, line) in it.places() or it.crate.function_at(path, line) in it.functions():
                found[it] = UNREAD, f"{path}:{line + 1}: {why}"
    if not found and len(batch) == 1:
        return {batch[0]: (UNREAD if said.unread else UNJUDGED, said.last)}
    for it in batch:
        it.is_alone = it.is_alone or not found
    return found
