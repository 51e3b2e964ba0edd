"""Mutants: wrong bodies, each as texts of a crate's files and what is put in their place.

A crate's mutants stand in its file mutants.txt, in the order of their names:

    mutant: TYPE.FUNCTION.WHAT
    file: src/lib.rt
    old: a text that stands in one line of this file, once
    new: what is put in its place

with one line `file` for the pairs of `old` and `new` behind it, of which there may be several.
"""
import re

FILE = "mutants.txt"
HEAD = "mutant: "


def parts(text):
    """The name of each mutant of such a file, and its lines."""
    found = []
    for line in text.split("\n"):
        if line.startswith(HEAD):
            found.append((line[len(HEAD) :].strip(), []))
        elif found:
            found[-1][1].append(line)
    return found


class Mutant:
    """A wrong body: texts of a crate's files, and what is put in their place."""

    def __init__(self, crate, name, lines):
        self.crate, self.name, self.pairs = crate, name, []
        # the answers that don't fit it, and of each of their files the lines of those that are left out, none for all
        self.misfits, self.left_out, self.is_alone = [], {}, False
        # whether a row of a table, which is in no function, is judged by the function that the mutant's name says
        self.is_by_name = False
        path = old = ""
        for line in lines:
            if line.startswith("file: "):
                path = line[len("file: ") :].strip()
            elif line.startswith("old: "):
                old = line[len("old: ") :]
            elif line.startswith("new:"):
                self.pairs.append((path, old, re.sub(r"\A ", "", line[len("new:") :])))

    def put_into(self, texts):
        """The texts with this mutant in them, a file that is left out as None; or None where a text isn't there once."""
        made = dict(texts)
        for path, old, new in self.pairs:
            if path not in made:
                made[path] = self.crate.text(path)
            if made[path].count(old) != 1:
                return None
            made[path] = made[path].replace(old, new)
        for path, lines in self.left_out.items():
            made[path] = without(self.crate.text(path), lines) if lines else None
        return made

    def places(self):
        """The path and the line of each text that is changed. (A mutant puts a line in the place of a line.)"""
        found = []
        for path, old, _ in self.pairs:
            above, here, _ = self.crate.text(path).partition(old)
            found += [(path, above.count("\n"))] if here else []
        return found

    def functions(self):
        """The functions that are changed, with those that are in a cycle of calls with one of them, since they have one proof."""
        found = [it for it in (self.crate.function_at(*it) for it in self.places()) if it]
        found = found or (self.named() if self.is_by_name else [])
        cycles = {it.cycle for it in found} - {None}
        return found + [it for path, _ in self.places() for it in self.crate.functions_in(path) if it.cycle in cycles]

    def named(self):
        """The functions that the mutant's name says, by type and name, or by module and name."""
        *_, owner, name, _ = ["", *self.name.split(".")]
        functions = [it for path in self.crate.sources() for it in self.crate.functions_in(path)]
        return [it for it in functions if it.name == name and (it.owner or (it.modules or ["lib"])[-1]) == owner]

    def keys(self):
        return {it.key for it in self.functions()}

    def leave_out(self, misfits):
        """Leaves these answers out from now on, and all answers of a file in which some don't fit a second time."""
        self.misfits += misfits
        for path in {it.path for it in misfits}:
            self.left_out[path] = [] if path in self.left_out else [it.line for it in misfits if it.path == path]


def without(text, lines):
    """A proof file without the declarations that stand on these lines."""
    chunks = []
    for number, line in enumerate(text.split("\n")):
        if line[:1].strip() or not chunks:
            name = re.match(r"(?:(?:pub|abbrev|unfoldable) )*([^\s:]+)", line + " _")[1]
            chunks.append((name, number, []))
        chunks[-1][2].append(line)
    bad = {name for name, first, its in chunks if any(first <= it < first + len(its) for it in lines)}
    return "\n".join("\n".join(its) for name, _, its in chunks if name not in bad or name == "use")
