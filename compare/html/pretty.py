"""Pretty prints of pages: what `crates/tl_tree`, or Chromium, builds of each, beside what it builds of the page, both without texts of white space.

The prints are those of `crates/tl_html_print` by the program of tools/trees, of files and of made-up pages. It says too of how many pages the
pretty print of the print is another one.
"""
import concurrent.futures
import functools
import random
import re

from tools.unproved import helper_build

from ..chromium import all_answers, chromium, version
from ..files import files_in, text_in
from ..made.pieces import PIECES, PRINTED
from ..made.trees import rough
from .tree_program import BATCH, MARK, SEPARATOR, SHOWN, trees, written
from .tree_program import prints as prints_of

# A text of white space, as the standard's tests write trees down.
WHITE = re.compile('\\| +"[ \\t\\n\\f\\r]*"')


def shown_without_white(tree):
    """The nodes of a tree but texts of white space, and without the identifiers of doctypes, which no print has."""
    nodes = (it for it in re.split(r"\n(?=\| )", tree.strip("\n")) if not WHITE.fullmatch(it))
    return [re.sub(r'^(\| <!DOCTYPE [^ >]*) .*>$', r"\1>", it, flags=re.S) for it in nodes]


def own_trees(program, pages):
    return [shown_without_white(it) for it in trees(program, pages)]


def browser_trees(_, pages):
    return [shown_without_white("\n".join(it)) for it in all_answers(chromium(), "html/documents.html", pages, BATCH)]


def differing(pages, program, trees_of):
    """Of some pages those of whose pretty prints another tree is built, with both, and whether that is so of the print without lines too."""
    prints, wanted = written(program, pages, "pretty"), trees_of(program, pages)
    found = [(page, ours, tree) for page, ours, tree in zip(pages, trees_of(program, prints), wanted) if ours != tree]
    plain = [it[0] for it in prints_of(program, [it[0] for it in found])] if found else []
    same = [ours == tree for ours, (_, _, tree) in zip(trees_of(program, plain) if plain else [], found)]
    again = sum(1 for it, other in zip(prints, written(program, prints, "pretty")) if it != other)
    return [(*it, is_same) for it, is_same in zip(found, same)], again


def first_difference(ours, wanted):
    at = next((n for n, pair in enumerate(zip(ours, wanted)) if pair[0] != pair[1]), min(len(ours), len(wanted)))
    return f"{ours[max(0, at - 3):at + 2]}\n  page: {wanted[max(0, at - 3):at + 2]}"


def pages_in(folders, most):
    """The pages in some folders, each with its path."""
    names = files_in(folders)[:most]
    return [(name, text_in(name).replace(SEPARATOR, "").removeprefix(MARK)) for name in names]


def told(batches, names, what):
    """Shows the first that differ, but for those whose plain print is read as another tree too. How many do."""
    differ = again = known = 0
    for found, other in batches:
        again += other
        known += sum(1 for it in found if not it[3])
        for page, ours, wanted, _ in (it for it in found if it[3]):
            differ += 1
            if differ <= SHOWN:
                print(f"{names.get(page, page)!r}\n  pretty: {first_difference(ours, wanted)}", flush=True)
    print(f"{what}: {differ} differ, {known} do that are printed as another tree without lines too; {again} are printed otherwise once more", flush=True)
    return differ


def compared(words):
    """Compares pretty prints of the pages in folders, and of made-up ones. How many differ."""
    program, chance = words.program or helper_build("trees"), random.Random(words.seed)
    look = functools.partial(differing, program=program, trees_of=browser_trees if words.chromium else own_trees)
    if words.chromium:
        print(version(chromium()), flush=True)
    real = pages_in(words.page, 2000)
    made = [rough(chance, PIECES + PRINTED).removeprefix(MARK) for _ in range(words.runs)]
    size = 20
    with concurrent.futures.ProcessPoolExecutor(2) as pool:
        wrong = 0
        for pages, names, what in (([it[1] for it in real], {it[1]: it[0] for it in real}, "files"), (made, {}, "made-up pages")):
            batches = pool.map(look, (pages[start:start + size] for start in range(0, len(pages), size)))
            wrong += told(batches, names, f"{len(pages)} {what}")
    return wrong
