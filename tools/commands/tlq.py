"""Runs the program `tlq`, proved; proves and builds it first where a source changed since.

    ./x tlq WORDS..       as printf '<a>y</a>' | ./x tlq text

It gets the words as they stand and standard input, and its status is the program's. The program is kept under a name that its
sources determine, so none is run but what they were built into. To prove it from nothing takes an hour of processor time, some
17 minutes on 4 idle cores; on a terminal a line says which crate is being proved. Status 127: it is not proved or can't be built.
"""
import os
import re
import shutil
import subprocess
import sys

from .. import programs
from ..running import short_path
from ..workspace import NO_RT, Stop, Workspace

CRATE = "tlq"


def main(parser, words):
    # (--help is a word of this command alone where nothing else is said: `tlq` has no options)
    if words in (["--help"], ["-h"]):
        parser.parse_args(words)
    workspace = Workspace()
    below = [*workspace.below(CRATE), CRATE]
    files = [it for name in below for it in workspace.files(name) if not it.endswith("/mutants.txt")]
    state = programs.digest(workspace.root, [*files, "crates.txt", "HANDLES"], workspace.kit)
    program = f"{workspace.folder(CRATE)}/out/of-{state}"
    if not os.access(program, os.X_OK):
        build(workspace, below, program)
    os.execv(program, [CRATE, *words])


def build(workspace, crates, program):
    """Proves and builds the program, and puts it in the place of those of other sources."""
    out = os.path.dirname(program)
    os.makedirs(out, exist_ok=True)
    log = f"{short_path(out)}/build.log"
    print(f"tlq: proving and building, some 17 minutes on 4 idle cores, 35 on 2; what the prover says is in {log}", file=sys.stderr)
    # `rt run` proves, builds and runs: on an empty page the program writes nothing.
    how = {"stdin": subprocess.DEVNULL, "stdout": subprocess.PIPE, "stderr": subprocess.STDOUT, "errors": "replace"}
    try:
        prover = subprocess.Popen(["rt", "run", "--", "print"], cwd=workspace.folder(CRATE), encoding="utf-8", **how)
    except FileNotFoundError:
        raise Stop(f"not built: {NO_RT}") from None
    with open(f"{out}/build.log", "w", encoding="utf-8", buffering=1) as it:
        for line in prover.stdout:
            it.write(line)
            show(crates, line)
    show(crates, "")
    if prover.wait():
        raise Stop(f"not built: {log} says why")
    for old in os.listdir(out):
        if re.fullmatch(r"of-[0-9a-f]+", old):
            os.remove(f"{out}/{old}")
    shutil.copy(f"{out}/{CRATE}", f"{program}.new")
    os.rename(f"{program}.new", program)


def show(crates, line):
    """Shows on a terminal which crate is being proved, in the place of what was shown before; nothing once the line is empty."""
    found = re.match(r"rt: chose --jobs .* for (\S+)$", line)
    if sys.stderr.isatty() and (found or not line):
        number = crates.index(found[1]) + 1 if found and found[1] in crates else 0
        words = f"tlq: proving {found[1]}, {number} of {len(crates)}" if number else ""
        print(f"\r\033[K{words}", end="", file=sys.stderr, flush=True)
