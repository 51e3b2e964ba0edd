"""Runs the programs as the transcripts of tests/*.t say, and looks at what each run writes and at its status.

    ./x runs [FILE[:LINE]..]      all transcripts; or these; or the one row that stands on a line

A transcript has commands and what each writes (tools/transcripts.py has its form). The rows of a file share a new folder, and
`tl`, `tlq` and `uses` are the programs that the gate built. Of a row alone those before it that write nothing, which make its
files, are run first. $TOOLS is the folder of tools/calls.py, by which a row shows in which order a program changes files.

With no words it also looks whether the manual page and the completions are what `tl --help` says (./x help manual). What a
document shows stands in tests/documents.t, and ./x text looks whether it does; --write fills in what is written.
"""
import os
import re
import tempfile

from .. import programs
from ..running import count, short_path
from ..transcripts import output_of, rewrite, rows_of
from ..unproved import unproved_build
from ..workspace import ROOT, Stop, Workspace, put, text_of
from . import manual

PROGRAMS = ("tl", "tlq", "uses")
# A build with checks takes more memory than that.
LIMITED = "ulimit -v"


def link_programs(folder, files, find):
    """Puts the programs that these files call into a folder, under the names by which they are called."""
    commands = [row.command for file, _ in files for row in rows_of(short_path(file), text_of(file))]
    for it in PROGRAMS:
        if any(re.search(rf"\b{it}\b", command) for command in commands):
            os.symlink(find(it), f"{folder}/{it}")


def files_of(words):
    """The files that the words name, each with the line of the row that is wanted, or None."""
    for word in words or sorted(f"tests/{it}" for it in os.listdir(f"{ROOT}/tests") if it.endswith(".t")):
        file, _, line = word.partition(":")
        path = os.path.abspath(file) if os.path.exists(file) else f"{ROOT}/{file}"
        if not os.path.isfile(path) or line and not line.isdigit():
            raise Stop(f"{word}: no file of commands, as tests/tl.t, or a line of it, as tests/tl.t:40")
        yield path, int(line) if line else None


def rows_to_run(rows, line, file):
    """The row that stands on a line, behind those before it that write nothing; all where no line is named."""
    at = [number for number, it in enumerate(rows) if line is not None and it.line <= line]
    if line is not None and not at:
        raise Stop(f"{file}:{line}: no row stands there")
    return [it for it in rows[: at[-1]] if it.is_silent()] + [rows[at[-1]]] if at else rows


class Tally:
    """How many rows were run, how many are wrong, and how many were left out."""

    def __init__(self, env):
        self.env, self.made, self.wrong, self.left_out = env, 0, 0, 0

    def add(self, file, line, leaves_out=False, is_turned=False, writes=False):
        """Runs the rows of a file, or the one on a line, in a folder of their own."""
        rows, found = rows_of(short_path(file), text_of(file)), {}
        with tempfile.TemporaryDirectory(prefix="x-runs-") as room:
            for row in rows_to_run(rows, line, short_path(file)):
                if leaves_out and LIMITED in row.command:
                    self.left_out += 1
                    continue
                found[row.line] = lines = output_of(row, room, self.env)
                if is_turned:
                    row.expected = [*row.expected, "[99]"]
                self.made += 1
                if row.fits(lines) is is_turned and not writes:
                    self.wrong += 1
                    print(row.difference(lines), flush=True)
        if writes:
            put(file, rewrite(rows, text_of(file), found))


def environment(folder):
    """What rows find: the programs, the version, and the folder of tools, whose calls.py says in which order files are changed."""
    path = f"{folder}:{os.environ['PATH']}"
    return {**os.environ, "PATH": path, "VERSION": Workspace().version, "TOOLS": f"{ROOT}/tools"}


def check(words=(), find=None, folder=None, **how):
    """Runs rows with the programs of a folder, or with those that are found, and says what is wrong. Whether nothing is."""
    files, is_alone = list(files_of(words)), bool(words or how.get("is_turned") or how.get("writes"))
    with tempfile.TemporaryDirectory(prefix="x-programs-") as room:
        if not folder:
            hint = ", or take builds that prove nothing: ./x runs --unproved"
            link_programs(room, files, find or (lambda it: programs.gate_build(it, hint)))
        tally = Tally(environment(folder or room))
        for file, line in files:
            tally.add(file, line, **how)
        is_manual = is_alone or manual.check(f"{folder or room}/tl")
    left = f", {tally.left_out} that limit memory were left out" if tally.left_out else ""
    says = "is found wrong once it is turned" if how.get("is_turned") else "writes what it should"
    where = count(len(files), "file")
    print(f"runs: {tally.made - tally.wrong} of {count(tally.made, 'command')} in {where}: each {says}{left}", flush=True)
    return is_manual and not tally.wrong


def main(parser, words):
    parser.add_argument("files", nargs="*", metavar="FILE[:LINE]")
    parser.add_argument("--unproved", action="store_true", help="with builds of ./x try; rows that limit memory are left out")
    parser.add_argument("--bin", metavar="FOLDER", help="with the programs of this folder")
    parser.add_argument("--write", action="store_true", help="puts what is written into the files: look at the difference")
    parser.add_argument("--test", action="store_true", help="turns what each row expects, and looks whether it is found wrong")
    given = parser.parse_args(words)
    find = unproved_build if given.unproved else None
    how = {"leaves_out": given.unproved, "is_turned": given.test, "writes": given.write}
    folder = os.path.abspath(given.bin) if given.bin else None
    return 0 if check(given.files, find, folder, **how) else 1
