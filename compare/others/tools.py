"""Times `tl` beside the programs that people ask pages with: pup, xmllint and hxselect, on the made-up pages of ./x bench.

    ./x compare tools [--program FILE] [--others pup,xmllint] [--sizes 1M,20M] [--kinds news,links] [--rounds N] [--seed N]
                      [--pages FOLDER]

Each program gives the values at `href` of the tags named `a`, and the print of the tags named `p`. hxselect reads XML alone, so
hxnormalize writes the page as XML for it, and both count. Of each, of all rounds, by turns: the least seconds on the clock and of the
processor, the middle of what each round took of the processor over what `tl` took in that round, and the most memory of one process.
The system counts the processor's time to the microsecond, with that of the shell, some 2 milliseconds: trust ratios of long pages. How
many lines were written is said too, since each program reads by a grammar of its own.

Status: 0, or 2 for words that aren't understood; a program that isn't installed is named and left out (Debian: pup, libxml2-utils,
html-xml-utils; time measures memory).
"""
import os
import shutil
import statistics
import subprocess
import tempfile
import time

from tools.bench.pages import page as made_page
from tools.programs import gate_build


def commands(tl):
    """Of each question the words of each program; a page stands at their standard input."""
    as_xml = "hxnormalize -x -l 1000000 2>/dev/null | "
    return {
        "href of a": {
            "tl": f"{tl} select -a href 'a[href]'",
            "pup": "pup 'a[href] attr{href}'",
            "xmllint": "xmllint --html --huge --xpath //a/@href - 2>/dev/null",
            "hxselect": as_xml + "hxselect -s '\\n' 'a[href]::attr(href)'",
        },
        "print of p": {
            "tl": f"{tl} select p",
            "pup": "pup p",
            "xmllint": "xmllint --html --huge --xpath //p - 2>/dev/null",
            "hxselect": as_xml + "hxselect -s '\\n' p",
        },
    }


class Run:
    """A run of words: seconds on the clock and of the processor, megabytes at most, how many lines were written."""

    def __init__(self, words, page):
        # A process counts the memory of the one that made it too, so `time`, which is small, makes those that are measured.
        with open(page, "rb") as lines, tempfile.NamedTemporaryFile("r") as used:
            began = time.monotonic()
            process = subprocess.Popen(["time", "-f", "%M", "-o", used.name, "sh", "-c", words], stdin=lines,
                                       stdout=subprocess.PIPE, stderr=subprocess.DEVNULL)
            self.lines = sum(part.count(b"\n") for part in iter(lambda: process.stdout.read(1 << 20), b""))
            _, status, usage = os.wait4(process.pid, 0)
            process.returncode = self.failed = os.waitstatus_to_exitcode(status)
            self.clock = time.monotonic() - began
            self.megabytes = int(used.read().splitlines()[-1]) / 1024
        self.processor = usage.ru_utime + usage.ru_stime


def look(question, words, page, rounds):
    """Prints a row of each program for a question about a page."""
    best = {name: [] for name in words}
    for _ in range(rounds):
        for name in words:
            best[name].append(Run(words[name], page))
    for name, runs in best.items():
        clock, processor = min(run.clock for run in runs), min(run.processor for run in runs)
        megabytes = max(run.megabytes for run in runs)
        ratio = statistics.median(run.processor / ours.processor for run, ours in zip(runs, best["tl"]))
        failed = f"; status {runs[0].failed}" if runs[0].failed else ""
        print(f"  {question:<11} {name:<9} {clock:8.3f} s, processor {processor:7.3f} s, {ratio:6.2f} times, {megabytes:7.1f} MB, "
              f"{runs[0].lines} lines{failed}", flush=True)


def main(parser, words):
    parser.add_argument("--program", metavar="FILE")
    parser.add_argument("--others", default="pup,xmllint,hxselect")
    parser.add_argument("--sizes", default="1M,20M")
    parser.add_argument("--kinds", default="news,links")
    parser.add_argument("--rounds", type=int, default=3, metavar="N")
    parser.add_argument("--seed", type=int, default=1, metavar="N")
    parser.add_argument("--pages", default=f"{tempfile.gettempdir()}/tl-pages", metavar="FOLDER")
    given = parser.parse_args(words)
    os.makedirs(given.pages, exist_ok=True)
    questions = commands(given.program or gate_build("tl"))
    others = given.others.split(",")
    taken = ["tl", *(name for name in others if shutil.which(name))]
    for name in sorted({*others} - {*taken}):
        print(f"tools: {name} isn't installed, and is left out")
    for kind in given.kinds.split(","):
        for size in given.sizes.split(","):
            page = made_page(given.pages, given.seed, kind, size)
            print(f"{kind} {size}: {os.path.getsize(page)} bytes", flush=True)
            for question, all_words in questions.items():
                look(question, {name: it for name, it in all_words.items() if name in taken}, page, given.rounds)
    return 0
