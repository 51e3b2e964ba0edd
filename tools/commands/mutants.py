"""Tries mutants, wrong bodies that the prover has to refuse.

    ./x mutants [--jobs N] [NAME..]    tries those of crates/*/mutants.txt, or of the named crates, on at most N crates side by side; of
                                       NAME/WORD those whose names begin with the word
    ./x mutants --gate [--jobs N]      tries those of tools/mutants/gate.list, as the gate does, over crates that are proved
    ./x mutants --look                 says which don't fit the text that they change or are out of order, and proves nothing
    ./x mutants --test                 tries the samples of tools/mutants/samples.txt, whose readings are known

A crate is proved first, over what `rt` kept. Many mutants are tried in one check, over a copy of that work: at most one of a
function, since the prover says of each function whether what it has to show is shown. What it says of a mutant is one of these,
and the first alone is well:

    refused                      a goal of the changed function is left; of a mutant in no function, any goal. Of a wrong definition,
                                 a row that is false, or, which a line says, a lemma that fails
    proved                       the contract lets it through: strengthen the contract, or where the body is right after all,
                                 write another mutant
    can't be read                it doesn't compile: mend it
    refused by a name alone      a proof file names what the mutant took away, and nothing else is known: change a value and keep
                                 the names, of variables, of conditions (goals and loops are named after them), of calls
    refused by an answer alone   an answer by hand doesn't fit, and without it the function is proved: as `proved`
    not judged                   the prover asks for something else first, as the measure of a loop, or could not tell: write
                                 another mutant of the same meaning, of a plainer form
    it doesn't fit               the text that it changes isn't there once: write the line as it stands now

With --gate a crate is not proved first: each function but the changed ones is taken by its contract, without its body and its proof
(tools/mutants/alone.py), so a check costs the load of the crate and a proof of these functions. A row of a table, which is in no
function, is judged by the function that the mutant's name says. That is done right after `rt ci`, which proves the others, and over the
libraries that it has left.

Answers that don't fit are left out, and the mutant is tried again: what is left then counts as refused, and a line says so where
those answers name what the mutant took away; better change a value and keep the names there too. `rt must-fail` and `rt ci` take a
refusal by a name or by an answer for one that shows something, and prove a crate once more for the first of its edits: so there is
no folder `must-fail`.
What isn't refused is tried again, without those that are, before it is said. What the prover said stands in
crates/NAME/out/mutants.log. Before a release: all. Where what tries mutants changed, or the toolchain: --test.
"""
import os
import tempfile
import time

from ..mutants import mutant
from ..mutants.crate import Crate
from ..mutants.trial import Trials, minutes
from ..mutants.verdict import REFUSED
from ..workspace import ROOT, Workspace, cores, put, text_of

# Folders in which the toolchain, or the tools before, looked for mutants.
STRAYS = ("edits", "must-fail", "mutants")
# The mutants that the gate tries, a line each.
OF_THE_GATE = "tools/mutants/gate.list"


def fitting(crate, words, say):
    """The mutants of a crate that begin with these words and fit its text, and how many don't."""
    mutants = [it for it in crate.mutants() if it.name.startswith(words)]
    lost = [it for it in mutants if not it.pairs or it.put_into({}) is None]
    for it in lost:
        say(f"{crate.name}/{it.name}: IT DOESN'T FIT the text that it changes")
    return [it for it in mutants if it not in lost], len(lost)


def mutants_of(workspace, names, say):
    """The crates that are named, by NAME or NAME/WORD, each with those of its mutants that fit, and how many don't."""
    work, lost, words = [], 0, {}
    for name, _, word in [it.partition("/") for it in names]:
        words[name] = (*words.get(name, ()), word)
    for crate in [Crate(workspace, it) for it in words]:
        mutants, number = fitting(crate, words[crate.name], say)
        work, lost = work + [(crate, mutants)] * bool(mutants), lost + number
    return work, lost


def try_mutants(workspace, names, jobs, is_alone=False):
    """What each mutant of the named crates is, and how many don't fit."""
    trials = Trials(is_alone)
    work, lost = mutants_of(workspace, names, trials.say)
    for crate, mutants in work:
        for it in mutants:
            it.is_by_name = is_alone
        if not is_alone:
            trials.prove(crate, jobs)
    return trials.try_all(work, jobs), lost


def look(names=()):
    """Says which mutants don't fit the text that they change, and which of the gate's are not there. Whether all is well."""
    workspace, say = Workspace(), Trials().say
    work, lost = mutants_of(workspace, names or workspace.libraries, say)
    strays = [f"{it}/{folder}" for it in workspace.libraries for folder in STRAYS if os.path.isdir(f"{workspace.folder(it)}/{folder}")]
    for it in strays:
        say(f"crates/{it}: mutants stand in the crate's file {mutant.FILE}")
    there = {name: [it.name for it in Crate(workspace, name).mutants()] for name in workspace.libraries}
    mixed = [name for name, names in there.items() if names != sorted(set(names))]
    for it in mixed:
        say(f"crates/{it}/{mutant.FILE}: the names are out of order, or one stands there twice")
    gone = [it for it in of_the_gate() if it.split("/")[1] not in there.get(it.split("/")[0], ())]
    for it in gone:
        say(f"{OF_THE_GATE}: {it} is not there")
    is_well = not lost and not strays and not mixed and not gone
    if is_well:
        say(f"{sum(len(mutants) for _, mutants in work)} fit the texts that they change")
    return is_well


def of_the_gate():
    """The mutants that the gate tries, as CRATE/NAME."""
    lines = [it.partition("#")[0].strip() for it in text_of(f"{ROOT}/{OF_THE_GATE}").splitlines()]
    return [it for it in lines if it]


def check_gate(jobs=None):
    """Tries the mutants of the gate over crates that are proved. Whether each is refused."""
    started, names = time.time(), of_the_gate()
    found, lost = try_mutants(Workspace(), names, jobs or min(3, cores()), is_alone=True)
    return tell(found, lost, started) and len(found) == len(names)


def tell(found, lost, started):
    """Says how many were refused. Whether all were."""
    refused = sum(kind == REFUSED for kind, _ in found.values())
    print(f"mutants: {refused} of {len(found) + lost} refused in {minutes(started)}", flush=True)
    return not lost and refused == len(found)


def check_samples():
    """Tries the samples, and says which of them is read as something else than stands beside it. Whether none is."""
    with tempfile.TemporaryDirectory(prefix="mutants-samples-") as room:
        for part in text_of(f"{ROOT}/tools/mutants/samples.txt").split("\n== ")[1:]:
            path, _, text = part.partition("\n")
            put(f"{room}/{path}", text)
        lines = text_of(f"{room}/verdicts").splitlines()
        expected = dict(it.split(": ", 1) for it in lines if it)
        workspace = Workspace(room)
        found, _ = try_mutants(workspace, workspace.libraries, 1)
        read = {it.name: kind + " without its answers" * (kind == REFUSED and bool(why)) for it, (kind, why) in found.items()}
    wrong = [it for it in expected if read.get(it) != expected[it]]
    for it in wrong:
        print(f"mutants: {it} is read as '{read.get(it)}', and is '{expected[it]}'")
    print(f"mutants: {len(expected) - len(wrong)} of {len(expected)} samples are read as what they are")
    return bool(expected) and not wrong


def main(parser, words):
    for it in ("--gate", "--look", "--test"):
        parser.add_argument(it, action="store_true")
    parser.add_argument("--jobs", type=int, default=len(os.sched_getaffinity(0)), metavar="N")
    parser.add_argument("names", nargs="*", metavar="NAME")
    given = parser.parse_args(words)
    if given.test:
        return 0 if check_samples() else 1
    started, workspace = time.time(), Workspace()
    if given.jobs < 1 or {it.partition("/")[0] for it in given.names} - set(workspace.libraries):
        parser.error("a NAME is a crate of crates.txt, and N a number above 0")
    if given.look:
        return 0 if look(given.names) else 1
    if given.gate:
        return 0 if check_gate(given.jobs) else 1
    found, lost = try_mutants(workspace, given.names or workspace.libraries, given.jobs)
    return 0 if tell(found, lost, started) else 1
