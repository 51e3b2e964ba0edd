"""Uses the programs as one would who means them harm, and says what is not answered as it must be.

    ./x stress [--sizes 1M,4M] [--jobs N] [--list] [--program FILE] [--tlq FILE] [--tl FILE]
    ./x stress --trees [--size 30K] [--jobs N] [--list] [--program FILE]

Five parts, each with a stack of 8 MB:

- Cuts: broken pages of tools/stress, each text in the tests and in the runs with memory refused, and ten thousand open tags, cut
  at each character boundary. What is read fits its text, borrowed or kept, and the print of a clean document is read as it
  stands.
- Depth: tables of some more than 1,000,000 tags, nested, side by side or falling, selectors of as many parts, and as many
  lines of steps.
- Length: a page of 64 MB.
- Growth: pages and selectors that aim at more than linear time, at two sizes, with several commands of `tlq` and of `tl`.
- Meeting: names of attributes whose hashes are alike in the bits by which a map finds them, 1,024 or 2,048 in each of many tags.

A run at the larger size, or at a million, may take at most 2.5 times as much for each byte or part as at the smaller, or at a
quarter, by the processor's clock: square time takes four times as much, and maps that outgrow the processor's cache up to 1.6. One
on names that meet may take at most 3 times as much as one on as many others of their length. --list prints the figures of all runs.
At most N run side by side. It takes some four minutes of processor time and 3 GB.
A page that was once read wrongly or slowly gets a row in tools/stress/pages.rs, or in tools/stress/pages.py.
With --trees pages of that kind are read into their trees (`tl_tree`, by the program of tools/trees), at one size and at four times
it, and those that take more than 5 times as much of the processor's time or of memory are named, or with --list all; the status is
1 where there is one. What takes less than 10 milliseconds at the smaller size counts as so much: a larger size shows more. It is a
part of its own, since there still are such pages.
`tl` and `tlq` are those that the gate builds, unless others are named; what isn't there yet is proved and built first. The program
that cuts and makes tables (tools/stress) is not proved. It is compiled with optimisation, and without run-time checks, since it is
timed; --program names another.
"""
import contextlib
import resource
from concurrent.futures import ThreadPoolExecutor

from .. import programs
from ..stress import names, pages, texts
from ..stress.growth import TREE_BOUND, complete, growth, tree_growth
from ..unproved import helper_build
from ..workspace import ROOT, Stop, cores, text_of

STACK = 8192 * 1024
# Some more than a million, and a quarter of them is whole.
COUNT = 1000004
# So many open tags are cut at each character boundary, which takes the square of their number.
OPEN_TAGS = 10000
# The bytes of a page that takes no time to read.
LONG = 64000000
# The least number of texts that the tests have.
TEXTS = 500
# How much more names whose hashes meet may take than others.
MEETING_BOUND = 3
COMMANDS = (["again"], ["text"], ["select", "a b, p > a.k, [b]#i"], ["class", "k"], ["id", "i"])
# Commands of `tl` that walk a page.
WALKS = (["sanitize"], ["select", "-t", "i"], ["text", "-w"], ["links"], ["outline"])


def cut(program, name, word, given=(), limit=100):
    """Cuts pages at each character boundary. What the program says of them."""
    page = "".join(f"{it}\x1e" for it in given).encode()
    try:
        return f"stress: {name}: {complete([program, word], page, limit).out.decode()}"
    except Stop as wrong:
        raise Stop(f"{name}: {wrong}") from None


def check_own(program):
    """Runs the program without words, by which it does all that it does on small tables."""
    if complete([program]).out.decode() != text_of(f"{ROOT}/tools/stress/own.txt"):
        raise Stop("the program of tools/stress writes something else than own.txt beside it")


def check_cuts(program):
    """Cuts pages of the program's own, and those of the tests that stand there as literals."""
    found = texts.texts()
    if len(found) < TEXTS:
        raise Stop(f"only {len(found)} texts were found in the tests")
    print(cut(program, "pages of its own", "pages"), end="", flush=True)
    print(cut(program, "texts of the tests", "cuts", found), end="", flush=True)


def check_length(tlq):
    """Runs the program on a long page."""
    try:
        written = complete([tlq, "id", "i"], pages.repeat("a", LONG).encode() + b"<p id=i>").out
    except Stop as wrong:
        raise Stop(f"a page of {LONG} bytes: {wrong}") from None
    if written != b"1\n":
        raise Stop(f"a page of {LONG} bytes: its second node is not found")
    print(f"stress: a page of {LONG} bytes: as it must be", flush=True)


def depths(program, workers):
    """Runs the program on large tables and selectors."""
    asked = ("parts", "lines", "nested", "wide", "falling")
    works = [(it, 4, *([program, it, str(count)] for count in (COUNT // 4, COUNT))) for it in asked]
    return workers.map(lambda it: [growth(it[0], it[1], (it[2],), (it[3],))], works)


def questions(tlq, tl):
    """The program, what is looked at, the commands, and how a page of a size is made."""
    for name, made in pages.pages():
        yield tlq, name, COMMANDS, made
    for name, selector, made in pages.searches():
        yield tlq, name, [["select", selector]], made
    for name, made in pages.walks():
        yield tl, name, WALKS, made
    for name, made in pages.tables():
        yield tl, name, [["table"]], made


def growths(tlq, tl, sizes, workers):
    """Runs the commands on the pages of both sizes."""

    def look(it):
        program, name, commands, made = it
        small, large = (made(size).encode() for size in sizes)
        who = ["tl"] if program == tl else []
        runs = [(f"{' '.join([*who, *words[:1]])}: {name}", [program, *words]) for words in commands]
        return [growth(name, sizes[1] / sizes[0], (words, small), (words, large)) for name, words in runs]

    return workers.map(look, questions(tlq, tl))


def meetings(tlq, workers):
    """Runs commands on names that meet, and on others."""
    met = names.met_names(max(count for _, count, _ in names.meeting()))

    def look(it):
        name, count, tags = it
        others, meet = names.tags_of(names.other_names(count), tags), names.tags_of(met[:count], tags)
        runs = [(f"{words[0]}: {name}", [tlq, *words]) for words in COMMANDS[:2]]
        return [growth(name, 1, (words, others), (words, meet), bound=MEETING_BOUND) for name, words in runs]

    return workers.map(look, names.meeting())


def tell(what, found, lists):
    """Says how the time of what was run grew."""
    most, runs = None, 0
    for it in (one for some in found for one in some):
        if lists:
            print(it.line(), flush=True)
        runs += 1
        if most is None or it.grown > most.grown:
            most = it
    grown = f"for each byte or part at most {most.grown:.2f} of the time ({most.name})"
    print(f"stress: {runs} {what}: as they must be; {grown}", flush=True)


@contextlib.contextmanager
def limited_stack():
    """Gives the programs that are started here a small stack."""
    before = resource.getrlimit(resource.RLIMIT_STACK)
    resource.setrlimit(resource.RLIMIT_STACK, (STACK, before[1]))
    try:
        yield
    finally:
        resource.setrlimit(resource.RLIMIT_STACK, before)


def check(program=None, tlq=None, tl=None, sizes=(1000000, 4000000), jobs=None, lists=False):
    """Looks at all parts; a Stop says what is wrong."""
    tlq, tl = (it or programs.proved_build(name) for it, name in ((tlq, "tlq"), (tl, "tl")))
    program = program or helper_build("stress")
    workers = ThreadPoolExecutor(jobs or min(4, cores()))
    with limited_stack():
        try:
            check_own(program)
            check_length(tlq)
            open_tags = workers.submit(cut, program, f"{OPEN_TAGS} open tags", "cuts", ["<p>" * OPEN_TAGS], 1000)
            check_cuts(program)
            tell(f"runs with up to {COUNT} tags or parts", depths(program, workers), lists)
            tell("runs on names whose hashes meet, over others", meetings(tlq, workers), lists)
            tell(f"runs on pages of {sizes[0]} and {sizes[1]} bytes", growths(tlq, tl, sizes, workers), lists)
            print(open_tags.result(), end="", flush=True)
        finally:
            workers.shutdown(cancel_futures=True)
    return True


def check_trees(program, size, jobs, lists):
    """Reads pages that aim at more than linear time into their trees. How many do."""
    program = program or helper_build("trees")

    def look(it):
        name, made = it
        return tree_growth(program, name, [made(size).encode(), made(4 * size).encode()])

    with limited_stack(), ThreadPoolExecutor(jobs or min(4, cores())) as workers:
        found = sorted(workers.map(look, pages.trees()), key=lambda it: -it.large.processor)
    beyond = [it for it in found if it.is_beyond()]
    for it in found if lists else beyond:
        print(it.line())
    print(f"stress: {len(found)} pages of {size} bytes and of four times that: {len(beyond)} grow more than {TREE_BOUND} times")
    return len(beyond)


def main(parser, words):
    for it in ("program", "tlq", "tl"):
        parser.add_argument(f"--{it}", metavar="FILE")
    parser.add_argument("--sizes", default="1M,4M")
    parser.add_argument("--jobs", type=int, metavar="N")
    parser.add_argument("--list", action="store_true")
    parser.add_argument("--trees", action="store_true")
    parser.add_argument("--size", default="30K")
    given = parser.parse_args(words)
    if given.trees:
        return 1 if check_trees(given.program, pages.size_of(given.size), given.jobs, given.list) else 0
    sizes = [pages.size_of(it) for it in given.sizes.split(",")]
    check(given.program, given.tlq, given.tl, sizes, given.jobs, given.list)
    return 0
