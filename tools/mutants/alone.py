"""Checks of changed functions alone: each other function of the crate is taken by its contract, without its body and its proof.

A function's proof cites the contracts of what it calls, and not their bodies or proofs. So a crate that was just proved needs no second
proof for a look at some of its functions: the other ones get a body that never ends, which is of any type and calls nothing, and a
proof that is a hole, which `rattle check --allow-holes` takes by its statement. (What a body calls is checked with it, hole or not: with
the bodies left a check took three times as long.) What is left of a changed function is what it would be in a check of the whole crate.
"""
import os
import re

from .function import indent

TYPE = re.compile(r"(?m)^(?:pub(?:\([^)]*\))? )?(?:struct|enum) (\w+)")
# What stands in the place of a body, and of a proof.
ENDLESS = "loop {}"
HOLE = """use Rattle.{crate}.proofs.{path}.Statement.{{statement}}

pub {name}_spec : {{M : Type 1}} → statement M
{name}_spec = ?
"""
BY_HAND = ("Answers.antt", "Invariants.antt")


def modules_of(path):
    return [it for it in path[len("src/") : -len(".rt")].split("/") if it not in ("lib", "main", "mod")]


def types(crate):
    """The modules of each type that a crate declares under one name alone."""
    found = {}
    for path in crate.sources():
        for it in TYPE.findall(crate.text(path)):
            found.setdefault(it, []).append(modules_of(path))
    return {it: modules[0] for it, modules in found.items() if len(modules) == 1}


def place(crate, function, known):
    """The path of a function's proof, as its parts; None of a method of a trait, whose place the text doesn't tell."""
    if function.of_trait:
        return None
    if function.owner:
        # (a method of a type under another name stands in the module of its `impl`)
        return [*known.get(function.owner, function.modules), function.owner, function.name]
    is_inside = crate.text(function.path).split("\n")[function.first].startswith(" ")
    return None if is_inside else [*function.modules, function.name]


def opening(lines, function):
    """The line that opens a function's body; None where it stands on the line that closes it."""
    within = range(function.first, min(function.last, len(lines)))
    pad = lines[function.first][: indent(lines[function.first])]
    alone = [it for it in within if lines[it] == pad + "{"]
    at_an_end = [it for it in within if lines[it].endswith(" {") and indent(lines[it]) == len(pad)]
    return next(iter([*alone, *at_an_end]), None) if lines[function.last : function.last + 1] == [pad + "}"] else None


def without_body(lines, function):
    """Takes a function's body out of its file's lines, of which there are as many then. Whether it could."""
    at = opening(lines, function)
    if at is None or " const fn " in f" {lines[function.first]}":
        return False
    lines[at + 1 : function.last] = [ENDLESS] + [""] * (function.last - at - 2)
    # (it is in no cycle of calls then)
    for it in range(max(function.first - 4, 0), function.first):
        if lines[it].strip() == f"#[cycle({function.cycle})]":
            lines[it] = ""
    return True


def by_hand(crate, folder):
    """The files of a proof by hand in a folder."""
    return [f"{folder}/{it}" for it in (*BY_HAND, "Proof.antt") if os.path.isfile(f"{crate.folder}/{folder}/{it}")]


class Alone:
    """A crate in which each function but some is taken by its contract."""

    def __init__(self, crate, functions):
        self.crate, self.known, self.changed = crate, types(crate), {it.key for it in functions}
        self.paths = sorted({"::".join(place(crate, it, self.known) or it.modules) for it in functions})

    def texts(self, strays=()):
        """The texts of sources and of proof files of such a crate (None leaves a file out). Functions whose proofs don't stand where
        the text of the crate says it are left as they are: strays, the folders that the front end refuses."""
        texts, whole = {}, self.whole_cycles()
        for path in self.crate.sources():
            lines = self.crate.text(path).split("\n")
            for it in self.crate.functions_in(path):
                at = place(self.crate, it, self.known)
                is_left = it.key in self.changed or it.cycle in whole or not at or "/".join(["proofs", *at]) in strays
                if not is_left and without_body(lines, it):
                    texts.update(self.proof(at, it))
                    texts[path] = ""
            if path in texts:
                texts[path] = "\n".join(lines)
        return texts

    def whole_cycles(self):
        """The cycles of calls of which a function keeps its body, and so all do."""
        functions = [it for path in self.crate.sources() for it in self.crate.functions_in(path) if it.cycle]
        return {it.cycle for it in functions if it.key in self.changed or not place(self.crate, it, self.known)}

    def proof(self, at, function):
        """The texts of proof files that take a function by its contract."""
        folder, cycle = "proofs/" + "/".join(at), "/".join(["proofs", *at[:-1], f"+{function.cycle or function.name}"])
        lost = by_hand(self.crate, folder) + by_hand(self.crate, cycle)
        hole = HOLE.format(crate=self.crate.name, path=".".join(at), name=at[-1])
        return {**dict.fromkeys(lost), f"{folder}/Proof.antt": hole}


def strays(said):
    """The folders of proofs that the front end refuses."""
    return set(re.findall(r"(?m)^(?:\./)?(proofs/\S+)/Proof\.antt\S*: error", said))
