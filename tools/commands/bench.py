"""Times the library on made-up pages of six kinds, and on files.

    ./x bench [--sizes 100K,1M,10M] [--kinds news,table] [--files FILE..] [--works parse,text] [--rounds N] [--times N] [--seed N]
              [--pages FOLDER] [--program FILE] [--against FILE]
    ./x bench --trees [--sizes 1M,10M] [--kinds news,table] [--files FILE..] [--rounds N] [--program FILE] [--against FILE]

Prints a table of each page: nanoseconds a byte, growth, memory, page faults. The pages come of the seed, the same bytes for the
same seed and size, and stay in the folder. Where files are named and no kinds, the files alone are timed, without `edit` unless
it is asked for: the first node of a file may be no tag. What is timed is the program in tools/bench, which isn't proved: it is
compiled with optimisation and without run-time checks, unless --program names another. --against names another program of the same
words, as that of `compare/port/crate`: both are run by turns, and its figures stand beside ours with the ratio of ours to its.

The Rust crate's words are built by `cargo build --release` in compare/port/crate, as target/release/compare there. Its print takes time
with the square of the page on news and deep: above 1 MB leave `print` and `again` out (--works).

With --trees pages are read into their trees (`tl_tree`, by the program of tools/trees): nanoseconds a byte for the reading and the
drop, the least of all rounds, and of the processor for the process; its most bytes of memory for each byte of the page. --against
names a `tl`, whose `select p` is run by turns.

Of each work there are two figures, the least of all rounds: what the program itself says that the work took (of `parse` the
reading), and what the processor took for reading, work and drop together, which doesn't count what other programs do meanwhile.
Growth is the nanoseconds a byte at a size over those at the size before it. Memory and page faults are of a run that reads once,
and `time` counts them (Debian: time). On a loaded machine trust the ratios, and more rounds.
"""
import os
import tempfile

from .. import trees
from ..bench.pages import KINDS, page
from ..running import must
from ..unproved import helper_build

WORKS = {
    "parse": "-",
    "parse_owned": "-",
    "print": "-",
    "text": "-",
    "again": "-",
    "edit": "set 0 class x",
    "select": "a[href^=https]",
    "id_scan": "nowhere",
    "class_scan": "link",
}


def time_run(program, work, file, times):
    """A run of a program: nanoseconds of the work alone, by its own clock, and seconds of the processor."""
    ran = must([program, work, WORKS[work], file, str(times)], "it did not end well")
    told = dict(word.split("=") for word in ran.out.decode().split())
    return int(told["parse" if work in ("parse", "parse_owned") else "op"]), ran.seconds


def least(programs, work, file, times, rounds):
    """Of each program the least nanoseconds of the work, and of the processor for reading, work and drop, by turns."""
    best = [[float("inf")] * 2 for _ in programs]
    for _ in range(rounds):
        for place, program in enumerate(programs):
            alone, seconds = time_run(program, work, file, times)
            best[place] = [min(best[place][0], alone), min(best[place][1], seconds * 1e9 / times)]
    return best


def side_by_side(figures, form):
    """Our figure, and beside it that of the other program and the ratio."""
    if len(figures) == 1:
        return form % figures[0]
    return f"{form % figures[0]} to {form % figures[1]}, {figures[0] / max(figures[1], 1e-9):.2f}"


def room(program, file):
    """Megabytes at most, and page faults, of a run that reads once."""
    # A process counts the memory of the one that made it too, so `time`, which is small, makes the one that is measured.
    with tempfile.NamedTemporaryFile("r") as used:
        words = ["time", "-f", "%M %R", "-o", used.name, program, "parse", "-", file, "1"]
        must(words, "memory is not measured")
        kilobytes, faults = used.read().split()
    return int(kilobytes) / 1024, int(faults)


def times_of(bytes_, wanted):
    """So many times as take some 20 megabytes, unless so many are wanted."""
    return wanted or max(1, min(200, 20000000 // bytes_))


def look(programs, name, file, works, given, before):
    """Prints the figures of one page, and answers our nanoseconds a byte."""
    bytes_ = os.path.getsize(file)
    print(f"{name}: {bytes_} bytes", flush=True)
    found = {}
    for work in works:
        best = least(programs, work, file, times_of(bytes_, given.times), given.rounds)
        figures = [[it / bytes_ for it in one] for one in best]
        found[work] = figures[0][0]
        grown = f"; growth {found[work] / before[work]:.2f}" if before.get(work) else ""
        alone = side_by_side([one[0] for one in figures], "%.4f")
        whole = side_by_side([one[1] for one in figures], "%.3f")
        print(f"  {work:<12}{alone} ns/byte; processor {whole} ns/byte{grown}", flush=True)
    megabytes, faults = zip(*[room(program, file) for program in programs])
    print("  memory      " + side_by_side(megabytes, "%.1f") + " MB")
    print("  page faults " + side_by_side(faults, "%d"), flush=True)
    return found


def look_at_tree(program, tl, name, file, rounds):
    """Prints what reading a page into its tree takes, and what `tl` takes to select in it."""
    with open(file, "rb") as it:
        bytes_of_page = it.read()
    found, others = [], []
    for _ in range(rounds):
        found.append(trees.read(program, bytes_of_page))
        others += [trees.run_with_room([tl, "select", "p"], bytes_of_page)] if tl else []
    size = len(bytes_of_page)
    alone, whole = (min(it) * 1e9 / size for it in zip(*[(it.seconds, it.processor) for it in found]))
    room_ = max(it.bytes for it in found) / size
    took = f"{alone:.2f} ns/byte; processor {whole:.2f} ns/byte; {room_:.2f} bytes a byte"
    print(f"{name}: {size} bytes, {found[0].what}: {took}", flush=True)
    if tl:
        selects = min(ran.seconds for ran, _ in others) * 1e9 / size
        print(f"  select p: processor {selects:.2f} ns/byte; {max(it for _, it in others) / size:.2f} bytes a byte", flush=True)


def look_at_trees(given):
    """The same of all pages."""
    program = given.program or helper_build("trees")
    for kind in parts(given.kinds, [] if given.files else KINDS):
        for size in given.sizes.split(","):
            file = page(given.pages, given.seed, kind, size)
            look_at_tree(program, given.against, f"{kind} {size}", file, given.rounds)
    for file in given.files:
        look_at_tree(program, given.against, file, file, given.rounds)


def parts(word, otherwise):
    """The parts of a word, or what stands for it where it isn't given."""
    return word.split(",") if word is not None else list(otherwise)


def main(parser, words):
    parser.add_argument("--sizes", default="100K,1M,10M,100M")
    parser.add_argument("--files", nargs="+", default=[], metavar="FILE")
    parser.add_argument("--pages", default=f"{tempfile.gettempdir()}/tl-pages", metavar="FOLDER")
    for it in ("kinds", "works", "program", "against"):
        parser.add_argument(f"--{it}")
    for it, otherwise in (("rounds", 5), ("times", 0), ("seed", 1)):
        parser.add_argument(f"--{it}", type=int, default=otherwise, metavar="N")
    parser.add_argument("--trees", action="store_true")
    given = parser.parse_args(words)
    os.makedirs(given.pages, exist_ok=True)
    if given.trees:
        look_at_trees(given)
        return 0
    ours = given.program or helper_build("bench")
    beside_us = [ours, given.against] if given.against else [ours]
    for kind in parts(given.kinds, [] if given.files else KINDS):
        before = {}
        for size in given.sizes.split(","):
            file = page(given.pages, given.seed, kind, size)
            before = look(beside_us, f"{kind} {size}", file, parts(given.works, WORKS), given, before)
    for file in given.files:
        look(beside_us, file, file, parts(given.works, [it for it in WORKS if it != "edit"]), given, {})
    return 0
