"""What Chromium builds of pages in which `tl` edited one element, beside what the same operation of the DOM makes of the page's tree:
where that is another tree `tl` has to tell it, and nowhere else. Why another tree comes of some is counted by kind."""
import collections
import random

from .. import chromium
from ..html.tree_model import FORMATTING
from .elements import Elements
from .model import extent
from .page import Page

BATCH = 500
# So many edits of a run of the program, and so many of a kind that are shown.
PAGES, SHOWN = 100, 3
KEY = "data-n"
TEXT = "w"
MARKUPS = ("<b>k</b>", "<b>k", "<p>k", "<div>k</div>", "<td>k", "<tr><td>k", "<li>k", "<form>k</form>", "<svg><g>k</g></svg>", "w<!--k-->", "<option>k")
NAMES = ("x-y", "div", "b", "h1", "li")
WORDS = ("remove", "unwrap", "rename", "replace", "fill", "prepend", "append", "before", "after")
# Words that put something where the element stands, and those by which it is no more.
OUTSIDE, OWN = ("before", "after", "replace", "unwrap"), ("remove", "unwrap", "rename", "replace")
NO_TEXT = set("table tbody thead tfoot tr colgroup html head frameset".split())
FORMATTING_NAMES = {*FORMATTING.split(), "a", "nobr"}


def numbered(text):
    """A page whose start tags have numbers, and how many they are."""
    page = Page(text)
    tags = [at for at, token in enumerate(page.tokens) if token[0] == "start"]
    parts, place = [], 0
    for number, at in enumerate(tags):
        behind = page.begins[at] + 1 + len(page.tokens[at][1])
        parts += [text[place:behind], f" {KEY}={number} "]
        place = behind
    return "".join([*parts, text[place:]]), len(tags)


class Case:
    """An edit of the one start tag of a number, by the words of the program."""

    def __init__(self, page, word, number, content, is_markup=False):
        self.page, self.word, self.number, self.content, self.is_markup = page, word, number, content, is_markup
        self.selector = f'[{KEY}="{number}"]'

    def words(self):
        options = ["-i", *(["--html"] if self.is_markup else [])]
        return [self.word, *options, "--", self.selector, *([] if self.word in ("remove", "unwrap") else [self.content])]

    def asked(self, written):
        word = f"{self.word} --html" if self.is_markup else self.word
        return {"page": self.page, "selector": self.selector, "word": word, "content": self.content, "written": written}


def ends_unclosed(page, at):
    """Whether an element ends without an end tag before a token, that doesn't begin at it."""
    return any(end == at and start != at and not is_own for start, (end, is_own) in page.ends.items())


def cannot_hold_text(row):
    return row is None or row.node.is_html(*NO_TEXT)


def stands_in_paragraph(row):
    while row and not row.node.is_html("p"):
        row = row.parent
    return row is not None


def reaches_into_tail(page, row):
    """Whether something stands in an element that stands behind the last end tags of the page."""
    tail = page.begins[page.tail()]
    return any(place >= tail for it in [row, *page.below(row)] for place in it.places | {it.place or 0})


def stands_unclosed(page, at, word):
    """Whether something is put where an element is left open."""
    kind, end = extent(page, at)
    if word == "append":
        inner = {start: it for start, it in page.ends.items() if start > at}
        return kind in ("whole", "implied") and any(it == (end, False) for it in inner.values())
    return ends_unclosed(page, at)


def cause(case):
    """Why another tree may come of an edit: the first kind that is found."""
    page = Page(case.page)
    rows = [row for row in page.rows if row.node.attributes.get(KEY) == str(case.number)]
    at, row = page.numbers[rows[0].place], rows[0]
    names = [token[1] for token in page.tokens if token[0] == "start"]
    is_outside, is_own = case.word in OUTSIDE, case.word in OWN
    kinds = {
        "an element that is opened again": len(rows) > 1,
        "html, head and body, which are put in again": is_own and row.node.is_html("html", "head", "body"),
        "what stands behind the last end tags": reaches_into_tail(page, row),
        "a text can't stand there": cannot_hold_text(row.parent if is_outside else row),
        "what stands before it, or last in it, ends without an end tag": stands_unclosed(page, at, case.word),
        "a new name in or of a p, which blocks end": case.word == "rename" and stands_in_paragraph(row),
        "the element isn't whole in the tree, or ends elsewhere": Elements(page).ends.get(at) != page.ends.get(at),
        "formatting elements": FORMATTING_NAMES.intersection(names),
        "svg and math": {"svg", "math"}.intersection(names),
        "frameset, select, form, template, noscript": {"frameset", "select", "form", "template", "noscript"}.intersection(names),
        "table": "table" in names,
    }
    return next((kind for kind, holds in kinds.items() if holds), "other")


def made_cases(chance, made_page, asked, program, room):
    """Edits of some pages, with what was written of those that aren't refused, and whether another tree was told."""
    word, number = chance.choice(WORDS), chance.randrange(8)
    is_markup = word not in ("remove", "unwrap", "rename") and chance.random() < 0.5
    content = chance.choice(NAMES if word == "rename" else MARKUPS if is_markup else [TEXT])
    pages = [page for page, count in (numbered(made_page(chance)) for _ in range(PAGES)) if count > number]
    cases = [Case(page, word, number, content, is_markup) for page in pages]
    if not cases:
        return []
    texts, refused, told = asked(program, cases[0].words(), room, pages)
    return [(case, text, at in told) for at, (case, text) in enumerate(zip(cases, texts)) if at not in refused and text != case.page]


def compared_doms(program, room, made_page, asked, count, seed, tally):
    """Compares so many edits, and counts how many of each word have the tree that is wanted. How many are told and are so, or aren't
    told and aren't."""
    browser, chance, shown = chromium.chromium(), random.Random(seed), collections.Counter()
    cases = []
    while len(cases) < count:
        cases += made_cases(chance, made_page, asked, program, room)
    found, differ = chromium.all_answers(browser, "edits/doms.html", [case.asked(text) for case, text, _ in cases], BATCH), 0
    for (case, text, is_told), other in zip(cases, found):
        tally[f"{case.word}, in Chromium: the tree that is wanted"] += other is None
        if is_told is (other is None):
            differ += 1
            print(f"differs: {case.words()!r} of {case.page!r}, told: {is_told}: {text!r}: {other!r}", flush=True)
        if other is not None:
            kind = cause(case)
            tally[f"{case.word}, in Chromium: another tree: {kind}"] += 1
            shown[kind] += 1
            if shown[kind] <= SHOWN:
                print(f"another tree ({kind}): {case.words()!r} of {case.page!r}: {text!r}", flush=True)
    return differ
