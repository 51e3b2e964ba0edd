"""Where selectors hold in misnested pages: `crates/tl_tree_select`, by the program of tools/trees, beside Chromium.

A document is searched, or below an element of it, or behind it, or from one outwards. Of those below and behind, some are asked for by
relative selectors, and Chromium for the same with `:scope` before each combinator that stands first. Chromium asks elements of svg and math for names and keys in any
case, so what has such elements is asked in exact case, and names are written in any case where there are none. It reads no flag `s`:
each element there has its attributes a second time, behind `exact-`, and is asked for these in exact case.

Where both differ, the selector is asked here once more as Chromium is known to read it (`CAUSES`): what is the same then has that cause.

Elements are told by their numbers among those of the document, without the contents of templates. Pages of which Chromium builds another
tree are left out.
"""
import collections
import re

from tools.running import run
from tools.unproved import helper_build
from tools.workspace import Stop

from ..chromium import all_answers, answers, chromium, version
from ..html.tree_program import SEPARATOR, SHOWN, trees
from ..html.tree_tests import BATCH
from ..made.searches import KEY, SPACE, VALUE, Maker

# A test of a value behind a `|`, without a flag.
SPACED = re.compile(rf"(\[(?=[*|]){SPACE}{KEY}{VALUE})\]")
# Names and keys in which case counts among elements of svg or math.
CASED_NAME = re.compile(r"(?<![-\w#.:[|])((?:\*(?:/\*\*/)?\|(?:/\*\*/)?)?)(foreignObject|linearGradient)")
CASED_KEY = re.compile(rf"\[{SPACE}(viewBox|definitionURL)([^]]*)\]")
# A namespace in a selector, and a comment.
NAMESPACE, COMMENT = re.compile(r"\|(?!=)"), re.compile(r"/\*")
# So many pages with so many selectors are asked at once.
PAGES, SELECTORS = 50, 200


def any_case(selector):
    """The same with names and keys of svg and math as they are written or in lower case."""
    named = CASED_NAME.sub(lambda it: f":is({it[0]}, {it[0].lower()})", selector)
    return CASED_KEY.sub(lambda it: f":is({it[0]}, [{it[1]}{it[2].lower()}{it[3]}])", named)


# Where Chromium departs from the standard, and the selector that asks here for what it finds.
CAUSES = {
    "it folds no value of a key behind a `|`": lambda it: SPACED.sub(r"\1 s]", it),
    "it asks svg and math for names and keys in any case": any_case,
}


def cause_of(program, selector, is_relative, search, page, should):
    """Why Chromium finds something else in a page; None where that isn't known."""
    for cause, read in CAUSES.items():
        if read(selector) != selector and found(program, read(selector), is_relative, search, [page]) == [should]:
            return cause
    return None


def found(program, selector, is_relative, search, pages):
    """The numbers of the elements that the program finds in each page, or nothing where it reads no selector."""
    kind, number = search
    asked = run([program, "without-search", *([] if kind == "document" else [kind, str(number)]), *["relative"] * is_relative, "select", selector], given=SEPARATOR.join(pages).encode(), limit=600)
    if asked.status == 1:
        return None
    if asked.status:
        raise Stop(f"nothing is selected: {asked.ending()}")
    return [[int(it) for it in line.split()] for line in asked.out.decode().split(SEPARATOR)[:-1]]


def compared(words):
    """Compares pairs of a page and a selector. How many differ for no known cause."""
    program, browser = words.program or helper_build("trees"), chromium()
    pairs = hits = left_out = 0
    causes, forms = collections.Counter(), collections.Counter()
    for batch in range((words.runs + PAGES * SELECTORS - 1) // (PAGES * SELECTORS)):
        maker = Maker(words.seed * 10**6 + batch, batch % 2 == 0)
        made = [maker.page() for _ in range(PAGES)]
        lines = ["\n".join(it) for it in all_answers(browser, "html/documents.html", made, BATCH)]
        pages = [page for page, ours, theirs in zip(made, trees(program, made, "without-search"), lines) if ours == theirs]
        left_out += len(made) - len(pages)
        searches = [maker.search() for _ in range(SELECTORS)]
        selectors = [maker.asked(it) for it in searches]
        asked = [{"pages": pages, "selectors": [theirs for _, theirs, _ in selectors], "searches": searches}]
        for (selector, _, is_relative), search, wanted in zip(selectors, searches, answers(browser, "css/tree_selectors.html", asked)):
            ours = found(program, selector, is_relative, search, pages)
            if ours is None or wanted is None:
                continue
            pairs, hits = pairs + len(pages), hits + sum(map(bool, wanted))
            for form in (NAMESPACE, COMMENT):
                if form.search(selector):
                    forms[form] += len(pages)
            for page, is_, should in zip(pages, ours, wanted):
                if is_ != should:
                    cause = cause_of(program, selector, is_relative, search, page, should)
                    causes[cause] += 1
                    if causes.total() <= SHOWN:
                        print(f"{selector!r} ({search}) in {page!r}: {is_}, and {should} in Chromium: {cause or 'of an unknown cause'}", flush=True)
    print(f"{version(browser)}, {pairs} pairs of a page and a selector, of which {hits} find something, {forms[NAMESPACE]} have a namespace and {forms[COMMENT]} a comment: {causes.total()} differ; {left_out} pages left out, as they have another tree there")
    for cause, count in causes.items():
        print(f"{count}: {cause or 'of an unknown cause'}")
    return causes[None]
