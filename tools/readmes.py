"""The README of each crate, and whether what it names is there: clauses of calls, files, commands, names, and lines of Rust.

A clause is looked for where it stands beside its call: in a table with a column `Clauses`, whose first column names calls, and in
a sentence that says `clause x of f`. All else between backticks that is a path, a command `./x NAME` or a name has to be there, in
the crate or in those that it stands on; and a block of Rust stands in a source of the workspace.
"""
import functools
import os
import re

from .workspace import ROOT, Workspace, text_of

# A call, and a clause that it has: of a function after `ensures`, of a record of definitions a field.
CLAUSES = {
    ".rt": re.compile(r"\bfn (\w+)|\bensures\*? (\w+) \{"),
    ".antt": re.compile(r"\brecord (\w+)|^  pub (\w+) :", re.M),
}
CODE = re.compile(r"`([^`\n]+)`")
LIST = r"(?:`[^`\n]+`(?:, | and )?)+"
SENTENCE = re.compile(rf"\bclauses? ({LIST}) of ({LIST})")
BLOCK = re.compile(r"(?ms)^```(\w*)\n(.*?)^```$")
COMMAND = re.compile(r"\./x (\w+)")
FILE = re.compile(r"[\w.-]*/[\w./-]+$")
NAME = re.compile(r"[\w:]+(?:\{[\w, ]+\})?$")


@functools.lru_cache(None)
def sources(workspace, crate):
    """Of a crate its calls with their clauses, and all words of its sources."""
    calls, words = {}, {crate}
    for path in workspace.files(crate):
        kind = CLAUSES.get(os.path.splitext(path)[1])
        if not kind:
            continue
        text, last = text_of(f"{ROOT}/{path}"), None
        words.update(re.findall(r"\w+", text))
        for call, clause in kind.findall(text):
            last = call or last
            calls.setdefault(last, set()).update([clause] if clause else [])
    return calls, words


def plain(text):
    """The lines of a text of Rust that are neither empty nor comments, without their indents."""
    lines = (it.strip() for it in text.splitlines())
    return "\n".join(it for it in lines if it and not it.startswith("//"))


@functools.lru_cache(None)
def rust(workspace):
    """The sources of Rust."""
    paths = [it for crate in workspace.libraries for it in workspace.files(crate) if it.endswith(".rt")]
    return [plain(text_of(f"{ROOT}/{path}")) for path in paths]


def calls_of(cell):
    """The names of calls that a text has between backticks, as `insert` and `remove` of `Attributes::{insert, remove}`."""
    return [it for code in CODE.findall(cell) for it in re.findall(r"\w+", re.sub(r".*::(?=\w+$|\{)", "", code))]


def pairs_in(text):
    """What stands together in a text: the calls, and their clauses."""
    place = None
    for line in text.splitlines():
        if not line.startswith("|"):
            place = None
            yield from ((calls_of(calls), CODE.findall(clauses)) for clauses, calls in SENTENCE.findall(line))
            continue
        cells = [it.strip() for it in line.strip().strip("|").split("|")]
        if place is None:
            place = cells.index("Clauses") if "Clauses" in cells else 0
        elif place:
            yield calls_of(cells[0]), CODE.findall(cells[place])


class Readme:
    """A crate's README, and what it may name: all that stands in the crate and in those that it stands on."""

    def __init__(self, workspace, crate):
        self.workspace, self.crate = workspace, crate
        self.text = text_of(f"{workspace.folder(crate)}/README.md")
        self.prose = BLOCK.sub("", self.text)
        self.calls, self.words = {}, {*workspace.libraries, *workspace.libraries[crate]}
        for it in [crate, *workspace.below(crate)]:
            calls, words = sources(workspace, it)
            self.words |= words
            for call, clauses in calls.items():
                self.calls.setdefault(call, set()).update(clauses)

    def wrong_clauses(self):
        for names, clauses in pairs_in(self.prose):
            # (a type may be named beside its calls)
            there = {it: self.calls.get(it, set()) for it in names if it in self.calls or it[0].islower()}
            for it in clauses:
                if not any(it in found for found in there.values()):
                    yield f"`{it}` is no clause of {' or '.join(names)}"
            for call, found in there.items():
                if clauses and not found & {*clauses}:
                    yield f"{call} has none of the clauses that stand beside it"

    def is_there(self, code):
        """Whether what stands between backticks is a file, a command or a name that is there, or none of these."""
        if COMMAND.match(code):
            return os.path.isfile(f"{ROOT}/tools/commands/{COMMAND.match(code)[1]}.py")
        if FILE.match(code):
            rooms = (ROOT, f"{ROOT}/crates", self.workspace.folder(self.crate))
            return any(os.path.exists(f"{room}/{code}{end}") for room in rooms for end in ("", ".rt", ".antt"))
        return not NAME.match(code) or {*re.findall(r"[^\W\d]\w*", code)} <= self.words

    def wrong_examples(self):
        for kind, block in BLOCK.findall(self.text):
            if kind == "rust" and not any(plain(block) in it for it in rust(self.workspace)):
                yield f"no source has its example, which begins with `{plain(block).splitlines()[0]}`"

    def faults(self):
        if not self.text.startswith(f"# `{self.crate}`"):
            yield f"it doesn't begin with # `{self.crate}`"
        yield from self.wrong_clauses()
        yield from (f"`{it}` isn't there" for it in dict.fromkeys(CODE.findall(self.prose)) if not self.is_there(it))
        yield from self.wrong_examples()


def faults():
    """What is wrong in the READMEs of the crates, and which crate has none."""
    workspace = Workspace()
    for crate in workspace.libraries:
        path = f"crates/{crate}/README.md"
        if os.path.isfile(f"{ROOT}/{path}"):
            yield from (f"{path}: {it}" for it in Readme(workspace, crate).faults())
        else:
            yield f"{path}: the crate has none"
