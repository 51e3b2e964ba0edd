"""The merge gate: everything that has to hold before a change lands. `.ci/run` calls it.

    ./x gate              all parts, in this order; ends at the first that fails
    ./x gate PART..       these alone, as ./x gate wants mutants

    text         what documents and READMEs show and name is there, in the words of docs/STYLE.md, references are the standard's, and the
                 sources are laid out
    widths       no line of a definition, a clause or a comment is too wide
    wants        want of memory is made up nowhere, and ./x wants reads its samples as what they are
    mutants      all mutants still fit the texts that they change
    proofs       `rt ci`, the test command of the README: each proof from nothing, the tests, the programs
    refused      the prover refuses the mutants of tools/mutants/gate.list
    runs         what the transcripts show is what the programs write
    bindings     the library for C, called from other languages
    vendor       what ./x vendor copies is enough for a program in another workspace
    oom          each request for memory refused in turn
    stress       hostile use

The first four need no program and no proof, and take seconds: run them before the others. `runs` and `stress` take the programs that
`rt ci` built. It keeps nothing of a static library, so `bindings` compiles the sources that it proved, and proves none of them again.
What `oom` and `stress` run besides is compiled and not proved.

It needs the toolchain and Python alone, and 8 GB of memory that is free. Where fewer than 40 GB are, `rt ci` runs one check of one
job on each core, four at most and one for each 7 GB (RT_JOBS, which is kept where it is set).
It says what each crate cost, in minutes of the processor, and which chain of crates was the longest; its last lines after how many
minutes each part had ended, and what each cost. It is meant to take 60 minutes on 4 cores and 120 on 2, without other load. Each
crate is proved from nothing once, and a second time with its tests if it has any. A mutant costs the load of its crate and a proof of
one function. A check of one job takes 1 to 3 GB, of tl 5, of tl_c and tl_cli 7.5.

Where it takes longer:
- See which part grew, and which crate. One far above 100 functions is cut in two, by the rule of docs/DECISIONS.md (Crates); a mutant
  of the list that shows what another one shows, of one clause, leaves it.
- A slow function: `rattle check --jobs 1 --incremental NEWDIR` (`rattle` is in the `bin` of the kit) in a crate's folder writes
  one file for each module as it ends. What is live at each point costs most, so split it, or take its parts by reference. A clause
  whose search is long gets its answer by hand, in one line.
- Tests: rows in `static` tables, which no body builds, one loop, one helper that answers `bool` or a number; one function owns the
  document, all others take references; no `?` inside an `assert!`.
No clause is weakened and no row of a test is dropped for it.
"""
import os
import re
import resource
import subprocess
import sys
import time

from ..costs import Costs
from ..workspace import NO_RT, ROOT, Stop, Workspace, cores, free_memory
from . import bindings, mutants, oom, runs, stress, text, vendor, wants, widths

GIGABYTE = 1_000_000_000
NEEDED = 8
# Where `rt ci` chooses by itself, it gives a crate that others wait for up to four jobs, so with memory enough the chain of crates
# is proved faster than by RT_JOBS. But it plans with up to three times the memory that a check takes, and with 22 GB it left a third
# of 4 cores idle. The dearest checks take 7.5 GB of one job (`tl_c`, `tl_cli`), the next ones 5.
ENOUGH, OF_A_CHECK = 40, 7
# A line of `rt ci` on something that failed.
FAULT = re.compile(r"rt: .*(NOT PROVED|FAILED)")


def checks(number, free):
    """How many checks of one job `rt ci` is to run side by side with so many cores and so many GB, or '' where it is to choose."""
    return str(min(4, number, free // OF_A_CHECK)) if free < ENOUGH else ""


def processor():
    """Minutes of the processor that this process took, and those that it made and that ended."""
    used = (resource.getrusage(it) for it in (resource.RUSAGE_SELF, resource.RUSAGE_CHILDREN))
    return sum(it.ru_utime + it.ru_stime for it in used) / 60


class Gate:
    """A run of the gate: when it began, after how many minutes what it names had ended, and what that cost."""

    def __init__(self):
        self.began, self.ends, self.used, self.kinds = time.monotonic(), {}, {}, {}

    def seconds(self):
        return time.monotonic() - self.began

    def note(self, name):
        self.ends[name] = round(self.seconds() / 60)

    def passes(self, name, check):
        """Whether a part passes, which is run."""
        before = processor()
        try:
            is_well = check()
        except Stop as stop:
            print(f"{name}: {stop}", flush=True)
            is_well = False
        self.note(name)
        self.used[name] = processor() - before
        if not is_well:
            print(f"gate: failed at {name}", flush=True)
        return is_well

    def say(self):
        ends = ", ".join(f"{name} {minutes}" for name, minutes in self.ends.items())
        print(f"gate: minutes from the start to the end of: {ends}", flush=True)
        used = ", ".join(f"{name} {minutes:.1f}{self.kinds.get(name, '')}" for name, minutes in self.used.items())
        print(f"gate: minutes of the processor: {used}; in all {sum(self.used.values()):.0f}", flush=True)

    def prove(self):
        """Runs `rt ci`, passes on what it says, and says what it cost."""
        costs = Costs(Workspace())
        how = {"stdin": subprocess.DEVNULL, "stdout": subprocess.PIPE, "stderr": subprocess.STDOUT, "errors": "replace"}
        try:
            ran = subprocess.Popen(["rt", "ci"], cwd=ROOT, encoding="utf-8", **how)
        except FileNotFoundError:
            raise Stop(NO_RT) from None
        end, faults = costs.watch(ran.pid), []
        for line in ran.stdout:
            sys.stdout.write(line)
            sys.stdout.flush()
            costs.hear(line, self.seconds())
            if line.startswith("rt: ") and line.rstrip().endswith(" proved"):
                self.note("all proofs")
            if FAULT.match(line):
                faults.append(line.rstrip())
        status = ran.wait()
        end()
        self.kinds["proofs"] = f" ({costs.sums()})"
        # (what failed stands far above, where a log may be cut)
        for it in [*costs.lines(), *faults]:
            print(f"gate: {it}", flush=True)
        return status == 0

    def parts(self):
        return {
            "text": text.check,
            "widths": widths.check,
            "wants": lambda: wants.check_samples() and wants.check(),
            "mutants": mutants.look,
            "proofs": self.prove,
            "refused": mutants.check_gate,
            "runs": runs.check,
            "bindings": lambda: bindings.check(unproved=True),
            "vendor": vendor.check,
            "oom": oom.check,
            "stress": stress.check,
        }


def prepare():
    """Looks at the memory, and says how many checks are to run side by side."""
    free = int(free_memory() / GIGABYTE)
    if free < NEEDED:
        raise Stop(f"{free} GB of memory are free, and it needs {NEEDED}")
    os.environ.setdefault("RT_JOBS", checks(cores(), free))
    chosen = os.environ["RT_JOBS"] or "as many as rt chooses"
    print(f"gate: {cores()} cores, {free} GB free, checks side by side: {chosen}", flush=True)


def main(parser, words):
    gate = Gate()
    parts = gate.parts()
    parser.add_argument("parts", nargs="*", metavar="PART")
    given = parser.parse_args(words)
    for it in given.parts:
        if it not in parts:
            parser.error(f"no part is called {it}: there are {', '.join(parts)}")
    prepare()
    wanted = [it for it in parts if it in (given.parts or parts)]
    is_well = all(gate.passes(it, parts[it]) for it in wanted)
    gate.say()
    return 0 if is_well else 1
