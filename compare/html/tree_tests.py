"""The definition of tree construction (`crates/tl_dom_spec`), run by Python, and a model written from the standard alone.

Both are compared with the standard's own tests, which Debian has in golang-golang-x-net-dev, with one another on made-up pages and
fragments, and, where that is asked for, with Chromium on made-up pages. Tests that don't say whether scripting is on have one tree,
and are read both ways.
"""
import collections
import glob
import os
import random

from ..chromium import all_answers, chromium, version
from ..made.trees import page_or_fragment, whole_page
from . import tree_model
from .tree_definition import TreeDefinition, with_room

# Tests that are older than a rule, by the rule, and by their place in a file.
OLDER = {
    "a start tag that ends foreign content does so in fragments too": {"foreign-fragment": (1, 2, 39, 41, 48, 49)},
    "select has no modes of its own: what is in it is read as elsewhere, and input and select end it": {
        "menuitem-element": (14,), "tests1": (30, 102), "tests7": (31,), "tests9": (5, 6, 18, 19), "tests10": (4, 5, 17, 18),
        "tests18": (14, 15), "tests_innerHTML_1": (81, 82), "webkit02": (18,),
    },
}  # fmt: skip
# The parts of a test.
SECTIONS = ("errors", "new-errors", "document", "document-fragment", "script-on", "script-off")

# Pages in one run of the browser.
BATCH = 2000


def cases(file):
    """The tests of a file, each as its lines by section."""
    found, section = [], None
    with open(file, encoding="utf-8", newline="\n") as it:
        lines = it.read().split("\n")
    for line in lines:
        if line == "#data":
            found.append(collections.defaultdict(list))
            section = "data"
        elif found and line.startswith("#") and line[1:] in SECTIONS:
            section = line[1:]
            found[-1][section] = []
        elif found:
            found[-1][section].append(line)
    return found


class Test:
    def __init__(self, file, number, case):
        self.name, self.number = os.path.basename(file).removesuffix(".dat"), number
        self.page, self.expected = "\n".join(case["data"]), "\n".join(case["document"]).rstrip("\n")
        self.context = "\n".join(case["document-fragment"]).strip() or None
        self.scripting = [True] if "script-on" in case else [False] if "script-off" in case else [False, True]
        self.rule = next((rule for rule, files in OLDER.items() if number in files.get(self.name, ())), None)

    def fails(self, lines):
        """Whether a reader builds another tree."""
        return any("\n".join(lines(self.page, self.context, it)) != self.expected for it in self.scripting)


def lines_of_model(page, context, is_scripting):
    return tree_model.lines_of(tree_model.Builder(page, context, is_scripting).run())


def tests_of(folder):
    for file in sorted(glob.glob(f"{folder}/*.dat")):
        for number, case in enumerate(cases(file), 1):
            yield Test(file, number, case)


def against_tests(tests, readers):
    """Compares readers with tests. How many differ that are not older, or are and don't."""
    wrong = 0
    fragments, scripted = sum(it.context is not None for it in tests), sum(it.scripting == [True] for it in tests)
    print(f"{len(tests)} tests: {len(tests) - fragments} pages, {fragments} fragments; {scripted} with scripting alone")
    for reader, lines in readers.items():
        failed = {it for it in tests if it.fails(lines)}
        print(f"{reader}: {len(tests) - len(failed)} as expected, {len(failed)} not")
        for it in tests:
            if (it in failed) != bool(it.rule):
                wrong += 1
                print(f"{reader}: {it.name} {it.number} {'differs' if it in failed else 'is as expected'}: {it.page!r}")
    for rule in OLDER:
        older = [f"{it.name} {it.number}" for it in tests if it.rule == rule]
        print(f"{len(older)} older than a rule: {rule}: {', '.join(older)}")
    return wrong


def against_each_other(words, readers):
    """Compares two readers on made-up pages. How many differ."""
    chance, differ = random.Random(words.seed), 0
    (first, lines), (second, others) = readers.items()
    for _ in range(words.runs):
        page, context, is_scripting = page_or_fragment(chance)
        one, other = lines(page, context, is_scripting), others(page, context, is_scripting)
        if one != other:
            differ += 1
            if differ <= 20:
                print(f"{page!r} in {context}, scripting {is_scripting}\n  {first}: {one}\n  {second}: {other}", flush=True)
    print(f"{words.runs} made-up pages and fragments: {differ} differ between {first} and {second}")
    return differ


def against_browser(words, readers):
    """Compares readers with Chromium on made-up pages. How many differ."""
    browser, chance, differ = chromium(), random.Random(words.seed), dict.fromkeys(readers, 0)
    pages = [whole_page(chance) for _ in range(words.runs)]
    for page, wanted in zip(pages, all_answers(browser, "html/documents.html", pages, BATCH)):
        for reader, lines in readers.items():
            if (found := lines(page, None, False)) != wanted:
                differ[reader] += 1
                if differ[reader] <= 20:
                    print(f"{page!r}\n  {reader}: {found}\n  Chromium: {wanted}", flush=True)
    print(f"{version(browser)}, {words.runs} made-up pages: {', '.join(f'{it} differ from the {reader}' for reader, it in differ.items())}")
    return sum(differ.values())


def compared(words):
    readers = {"definition": TreeDefinition().lines, "model": lines_of_model}
    if words.chromium:
        return with_room(lambda: against_browser(words, readers))
    return with_room(lambda: against_tests(list(tests_of(words.trees)), readers) + against_each_other(words, readers))
