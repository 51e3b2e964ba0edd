"""A crate of the workspace whose mutants are tried: its texts, and checks of it with texts of theirs in the place of its own."""
import os
import shutil
import subprocess
import tempfile

from ..workspace import Stop, put, text_of
from . import mutant
from .alone import Alone, strays
from .function import HEAD, Function
from .verdict import Said

PARTS = ("src", "specs", "proofs")
GIGABYTE = 1_000_000_000


class Crate:
    """A crate of a workspace, and how it is checked."""

    def __init__(self, workspace, name):
        self.workspace, self.name, self.folder = workspace, name, workspace.folder(name)
        self.texts, self.laid_out = {}, {}

    def text(self, path):
        if path not in self.texts:
            self.texts[path] = text_of(f"{self.folder}/{path}")
        return self.texts[path]

    def has_line(self, path, line):
        return line in self.text(path).split("\n")

    def functions_in(self, path):
        if path not in self.laid_out:
            lines = self.text(path).split("\n")
            self.laid_out[path] = [Function(path, lines, at) for at, it in enumerate(lines) if HEAD.match(it)]
        return self.laid_out[path]

    def sources(self):
        """The paths of its sources."""
        found = [f"{at[len(self.folder) + 1 :]}/{it}" for at, _, files in os.walk(f"{self.folder}/src") for it in files]
        return sorted(it for it in found if it.endswith(".rt"))

    def function_at(self, path, line):
        return next((it for it in self.functions_in(path) if it.first <= line <= it.last), None)

    def without_lemmas(self, names):
        """Which of the prover's names mean functions whose proofs use no lemma by name: rows that compute, for one."""
        functions = [it for path in self.sources() for it in self.functions_in(path)]
        found = [(it.has_lemmas, it.among(names)) for it in functions]
        return set().union(*[its for lemmas, its in found if not lemmas]).difference(*[its for lemmas, its in found if lemmas])

    def mutants(self):
        """Those of the crate's file of mutants."""
        at = f"{self.folder}/{mutant.FILE}"
        return [mutant.Mutant(self, *it) for it in mutant.parts(text_of(at))] if os.path.isfile(at) else []

    def needs(self):
        """The memory that a check takes: 0.7 GB, and some three times what is kept (1.2 GB for 270 MB, 3 GB for 690 MB)."""
        kept = [f"{at}/{it}" for at, _, files in os.walk(f"{self.folder}/out/incremental") for it in files]
        return 0.7 * GIGABYTE + 3.3 * sum(map(os.path.getsize, kept))

    def words(self):
        """The words of a check, as `rt check` has them, but for where work is kept."""
        kit, crates = self.workspace.kit, self.workspace.libraries
        rlibs = f"{self.workspace.root}/crates/{{0}}/out/rlib"
        words = ["--crate-name", self.name, "src/main.rt" if self.workspace.is_program(self.name) else "src/lib.rt"]
        for it in ["std", *crates[self.name]]:
            words += ["--extern", f"{it}={rlibs.format(it) if it in crates else kit + '/rlibs'}/{it}.rlib"]
        for it in [f"{kit}/rlibs", *map(rlibs.format, self.workspace.below(self.name))]:
            words += ["-L", f"dependency={it}"]
        logic = ["--antt-project", f"{kit}/rattle/logic/antt-project.json", "--logic-built", f"{kit}/logic_built"]
        return [*words, *logic, "--links", f"{self.name}=", "--jobs", "1"]

    def check(self, texts):
        """What the prover says of the crate with these texts in place of its own, over a copy of what `rt` kept."""
        with tempfile.TemporaryDirectory(prefix="mutants-") as room:
            kept = f"{room}/kept"
            if os.path.isdir(f"{self.folder}/out/incremental"):
                shutil.copytree(f"{self.folder}/out/incremental", kept)
            return self.said(room, texts, ["--incremental", kept])

    def check_alone(self, batch):
        """What the prover says of these mutants, all other functions than theirs taken by their contracts."""
        alone = Alone(self, [it for mutant in batch for it in mutant.functions()])
        only = [word for it in alone.paths for word in ("--only", it)]
        said = self.said_alone(batch, alone.texts(), only)
        refused = {} if said.functions else strays(said.text)
        return self.said_alone(batch, alone.texts(refused), only) if refused else said

    def said_alone(self, batch, texts, only):
        for it in batch:
            texts = it.put_into(texts)
        with tempfile.TemporaryDirectory(prefix="mutants-") as room:
            return self.said(room, texts, ["--allow-holes", *only])

    def said(self, room, texts, more):
        """What the prover says of a copy of the crate in a folder, with these texts in place of its own."""
        for part in PARTS:
            if os.path.isdir(f"{self.folder}/{part}"):
                shutil.copytree(f"{self.folder}/{part}", f"{room}/{part}")
        for path, text in texts.items():
            if text is None:
                os.remove(f"{room}/{path}")
            else:
                put(f"{room}/{path}", text)
        words = [f"{self.workspace.kit}/bin/rattle", "check", *self.words(), *more]
        how = {"stdin": subprocess.DEVNULL, "stdout": subprocess.PIPE, "stderr": subprocess.STDOUT}
        ran = subprocess.run(words, cwd=room, universal_newlines=True, errors="replace", **how)
        if ran.returncode < 0:
            raise Stop(f"a check of {self.name} was stopped by signal {-ran.returncode}, most likely for memory: try --jobs 1")
        return Said(ran.stdout)

    def keep(self, batch, said, number):
        """Keeps what the prover said in out/mutants.log, that of the first check in the place of an earlier run's."""
        with open(f"{self.folder}/out/mutants.log", "w" if number == 1 else "a", encoding="utf-8") as it:
            it.write(f"== check {number}: {' '.join(it.name for it in batch)}\n{said.text}\n")
