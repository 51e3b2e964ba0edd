"""The trees of `crates/tl_tree`, which the program of tools/trees writes, beside the standard's own tests, the model of tree_model.py, and,
where that is asked for, Chromium.

The pages are those of the tests, those of files, and made-up ones: tags in any order with pieces of markup that are hard to read put in,
and what ./x compare html makes of such pieces and of cuts of the files. Three batches of ten are read as fragments, one of ten are cuts of
made-up pages. The prints of `crates/tl_html_print` of made-up pages are compared with a port of the algorithm (serializer.py) over the model,
and with Chromium.
"""
import concurrent.futures
import functools
import random
import warnings

from tools.running import must
from tools.unproved import helper_build
from tools.workspace import Stop

from ..chromium import all_answers, chromium, version
from ..made.pieces import PIECES, PRINTED, pieced
from ..made.trees import CONTEXTS, cuts, rough
from . import serializer, tree_model, tree_tests
from .tree_definition import with_room

# What stands between two pages, and behind each tree.
SEPARATOR = "\x1e"
# A byte order mark, which is no part of a page.
MARK = "\ufeff"
# So many pages a run of the program: a run costs more than a page.
BATCH = 500
# So many pages that differ are shown.
SHOWN = 20
# What stands between two prints of a page.
PRINT_SEPARATOR = "\x1f"
def written(program, pages, *words):
    """What the program writes of some pages, by a run of it with some words."""
    out = must([program, *words], "it writes no trees", given=SEPARATOR.join(pages).encode(), limit=600).out.decode(errors="replace")
    found = out.split(SEPARATOR)
    if len(found) != len(pages) + 1:
        raise Stop(f"{len(pages)} pages, and {len(found) - 1} trees")
    return found[:-1]


def trees(program, pages, *words):
    """The trees of some pages, as the standard's tests write them down, by a run of the program with some words."""
    return [it.removesuffix("\n") for it in written(program, pages, *words)]


def prints(program, pages, *words):
    """The prints of some pages: of the document, and of each node."""
    return [it.split(PRINT_SEPARATOR) for it in written(program, pages, "print", *words)]


def words_for(context, is_scripting):
    """The words of the program for a page, or for a fragment in a context."""
    return ["scripting"] * is_scripting + (["fragment", context] if context else [])


def against_tests(program, folder):
    """Compares the trees of the program with those of the tests in a folder. How many differ that are not older, or are and don't."""
    tests = list(tree_tests.tests_of(folder))
    found = {}
    for context in {it.context for it in tests}:
        pages = [it.page for it in tests if it.context == context]
        for flag in (False, True):
            found |= {(page, context, flag): [tree] for page, tree in zip(pages, trees(program, pages, *words_for(context, flag)))}
    return tree_tests.against_tests(tests, {"tl_tree": lambda *asked: found[asked]})


def differing(seed, program, files):
    """Of a batch of made-up pages that a seed gives those whose trees aren't the model's."""
    chance = random.Random(seed)
    is_scripting = chance.random() < 0.2
    context = chance.choice(CONTEXTS) if chance.random() < 0.3 else None
    pages = [rough(chance, PIECES) if chance.random() < 0.7 else pieced(chance, files) for _ in range(BATCH)]
    pages = cuts(chance, BATCH) if chance.random() < 0.1 else pages
    return differing_among(program, [it.removeprefix(MARK) for it in pages] if context else pages, is_scripting, context)


def differing_among(program, pages, is_scripting, context=None):
    """Those of some pages, or fragments, whose trees aren't the model's, with both trees."""
    warnings.simplefilter("ignore")
    models = ("\n".join(tree_tests.lines_of_model(page.removeprefix(MARK), context, is_scripting)) for page in pages)
    found = zip(pages, trees(program, pages, *words_for(context, is_scripting)), models)
    return [(page, context, is_scripting, ours, model) for page, ours, model in found if ours != model]


def told(count, what, batches, other="the model"):
    """Shows the first that differ, and says how many of so many pages do."""
    differ = 0
    for found in batches:
        for page, context, is_scripting, ours, model in found:
            differ += 1
            if differ <= SHOWN:
                print(f"{page!r} in {context}, scripting {is_scripting}\n  ours: {ours!r}\n  {other}: {model!r}", flush=True)
    print(f"{count} {what}: {differ} differ between ours and {other}", flush=True)
    return differ


def against_model(program, words, files):
    """Compares the trees of the program with those of the model on made-up pages. How many differ."""
    seeds = range(words.seed * 10**6, words.seed * 10**6 + (words.runs + BATCH - 1) // BATCH)
    look = functools.partial(differing, program=program, files=files)
    with concurrent.futures.ProcessPoolExecutor() as pool:
        return told(len(seeds) * BATCH, "made-up pages and fragments", pool.map(look, seeds))


def against_browser(program, words):
    """Compares the trees of the program with Chromium's, which counts no `search` as special, on made-up pages. How many differ."""
    browser, chance, differ = chromium(), random.Random(words.seed), 0
    for start in range(0, words.runs, tree_tests.BATCH):
        pages = [tree_tests.wholly_made(chance) for _ in range(min(tree_tests.BATCH, words.runs - start))]
        theirs = all_answers(browser, "html/documents.html", pages, tree_tests.BATCH)
        for page, ours, wanted in zip(pages, trees(program, pages, "without-search"), theirs):
            if ours != "\n".join(wanted):
                differ += 1
                if differ <= SHOWN:
                    print(f"{page!r}\n  tl_tree:  {ours!r}\n  Chromium: {wanted!r}", flush=True)
    print(f"{version(browser)}, {words.runs} made-up pages: {differ} differ between tl_tree and Chromium")
    return differ


def differing_prints(seed, program):
    """Of a batch of made-up pages that a seed gives those whose prints aren't the port's."""
    warnings.simplefilter("ignore")
    chance = random.Random(seed)
    is_scripting = chance.random() < 0.2
    pages = [rough(chance, PIECES + PRINTED) for _ in range(BATCH)]
    nodes = (tree_model.Builder(page.removeprefix(MARK), None, is_scripting).run() for page in pages)
    wanted = (serializer.prints_of(it, is_scripting) for it in nodes)
    found = prints(program, pages, *words_for(None, is_scripting))
    return [(page, None, is_scripting, *it) for page, *it in zip(pages, found, wanted) if it[0] != it[1]]


def prints_against_browser(program, words):
    """Compares the prints of the program with Chromium's on made-up pages of which both have the same tree. How many differ."""
    browser, chance = chromium(), random.Random(words.seed)
    pages = [rough(chance, PIECES + PRINTED) for _ in range(words.runs)]
    lines = ["\n".join(it) for it in all_answers(browser, "html/documents.html", pages, tree_tests.BATCH)]
    pages = [page for page, *it in zip(pages, trees(program, pages, "without-search"), lines) if it[0] == it[1]]
    print(f"{version(browser)}: of {words.runs} pages {words.runs - len(pages)} have another tree there", flush=True)
    wanted = all_answers(browser, "html/prints.html", pages, tree_tests.BATCH)
    found = [(page, None, False, *it) for page, *it in zip(pages, prints(program, pages, "without-search"), wanted) if it[0] != it[1]]
    return told(len(pages), "made-up pages printed", [found], "Chromium")


def compared_prints(words):
    """Compares prints of made-up pages. How many pages differ."""
    program = words.program or helper_build("trees")
    if words.chromium:
        return prints_against_browser(program, words)
    seeds = range(words.seed * 10**6, words.seed * 10**6 + (words.runs + BATCH - 1) // BATCH)
    with concurrent.futures.ProcessPoolExecutor() as pool:
        batches = pool.map(functools.partial(differing_prints, program=program), seeds)
        return told(len(seeds) * BATCH, "made-up pages printed", batches, "the port")


def compared(words, files):
    """Compares all. How many trees differ that are not those of older tests."""
    program = words.program or helper_build("trees")
    if words.chromium:
        return against_browser(program, words)
    files = [it.replace(SEPARATOR, "") for it in files]
    wrong = against_tests(program, words.trees) if words.trees is not None else 0
    if files:
        wrong += with_room(lambda: told(len(files), "pages of files", [differing_among(program, files, False)]))
    return wrong + against_model(program, words, files)
