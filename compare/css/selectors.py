"""Compares what `tl select` finds with a plain reader of selectors of CSS, and with soupsieve, on made-up pages and selectors.

    ./x compare selectors [--program FILE] [--selectors N] [--pages N] [--broken N] [--seed N]
                          [--chromium] [--soupsieve] [--plain]
    ./x compare selectors --cascadia FILE [--program FILE]

Each selector is asked of all pages at once, so a pair costs some microseconds of the program. The plain reader is reader.py,
written from Selectors Level 4. So many of a hundred selectors are broken at random; of these the byte that is wrong is compared,
too. --chromium asks querySelectorAll (chromium), --soupsieve soupsieve (python3-soupsieve, python3-bs4), each of what it reads; with
both, it is said of how many pairs where soupsieve differs Chromium answers as the plain reader. The pages are such that the plain
reader's tree is that of browsers. The program is the `tl` that the gate built unless another is named; --plain asks none, and compares
the others with the plain reader. Ends with 1 where the program or Chromium differs from it.

The second form asks the rows of cascadia's selector_test.go (golang-github-andybalholm-cascadia-dev, below /usr/share/gocode), and
wants python3-html5lib. It says which rows differ; the reasons stand in docs/DIFFERENCES.md.
"""
import os
import random
import re
import subprocess
import tempfile

from tools.programs import gate_build
from tools.workspace import Stop

from ..chromium import Missing, answers, chromium, version
from ..made.selectors import made_page, made_selector
from ..port.reader import Document
from .cascadia import compare_table
from .reader import CssError, parse, select


def broken(chance, text):
    """A text with one character taken away, put in or replaced."""
    at = chance.randrange(len(text) + 1)
    put = chance.choice(["", "", *":()[]=~>+,.#*\\\"'|- n2"])
    return text[:at] + put + text[at + chance.randrange(2) :]


class Soup:
    """The same pages for soupsieve: the numbers of its tags, texts and comments are those of `tl`."""

    def __init__(self, pages):
        import bs4
        import soupsieve

        self.compile = soupsieve.compile
        self.trees = [bs4.BeautifulSoup(page, "html.parser") for page in pages]
        self.orders = []
        for tree in self.trees:
            nodes = (it for it in tree.descendants if not isinstance(it, bs4.Doctype))
            self.orders.append({id(it): number for number, it in enumerate(nodes)})

    def found(self, text):
        try:
            selector = self.compile(text)
            return [[order[id(it)] for it in selector.select(tree)] for tree, order in zip(self.trees, self.orders)]
        except Exception:
            return None


def answered(program, selector, files):
    """The numbers that `tl select` finds in each file, from 0 behind the doctype, or the byte that is wrong."""
    words = [program, "select", "-n", "--", selector, *files]
    run = subprocess.run(words, stdout=subprocess.PIPE, stderr=subprocess.PIPE, check=False)
    if run.returncode == 2:
        at = re.match(rb"tl: invalid selector: at byte (\d+): ", run.stderr)
        return int(at[1]) if at else run.stderr
    if run.returncode not in (0, 1) or run.stderr:
        return run.stderr or run.returncode
    found = {file: [] for file in files}
    for line in run.stdout.decode().splitlines():
        file, number = line.rsplit(":", 1)
        found[file].append(int(number) - 1)
    return [found[file] for file in files]


def wanted(selector, pages):
    try:
        read = parse(selector)
    except CssError as error:
        return error.at
    return [select(page.nodes, read) for page in pages]


def ask_chromium(texts, selectors, size=200):
    """What Chromium finds: a row a selector, or None where it reads none."""
    try:
        browser = chromium()
    except Missing as missing:
        raise Stop(f"{missing} isn't installed") from missing
    print(f"asking {version(browser)}", flush=True)
    batches = [{"pages": texts, "selectors": selectors[at : at + size]} for at in range(0, len(selectors), size)]
    return [row for batch in batches for row in answers(browser, "css/selectors.html", batch)]


def compare_chromium(own, theirs):
    """Compares what Chromium finds with the plain reader's rows. How many pairs differ."""
    pairs = differ = 0
    for selector, rows in own.items():
        for place, (is_, should) in enumerate(zip(theirs[selector] or [], rows)):
            pairs += 1
            if is_ != should:
                differ += 1
                print(f"Chromium differs: {selector!r} on page {place}: {is_}, not {should}")
    print(f"{pairs} pairs that Chromium reads: {differ} differ")
    return differ


def compare_soupsieve(soup, own, browser):
    """Compares what soupsieve finds with the plain reader's rows, and sorts what differs."""
    pairs = faults = unread = other = 0
    for selector, rows in own.items():
        for place, is_ in enumerate(soup.found(selector) or []):
            pairs += 1
            if is_ == rows[place]:
                continue
            if browser and browser[selector] is None:
                unread += 1
            elif browser and browser[selector][place] == rows[place]:
                faults += 1
            else:
                other += 1
                print(f"soupsieve differs: {selector!r} on page {place}: {is_}, not {rows[place]}")
    print(f"{pairs} pairs that soupsieve reads: {faults + unread + other} differ, {faults} of them where Chromium answers as the plain "
          f"reader, {unread} where it reads none (the flag `s`), {other} else")


def compared(program, given, chance, texts, room):
    """Compares what the program finds with the plain reader. The rows of that for each selector that it reads, and how many differ."""
    files = [f"{room}/{number}" for number in range(given.pages)]
    for file, text in zip(files, texts):
        with open(file, "w", encoding="utf-8") as page:
            page.write(text)
    pages = [Document(text.encode()) for text in texts]
    own, pairs, hits, refused, differ = {}, 0, 0, 0, 0
    for _ in range(given.selectors):
        selector = made_selector(chance)
        if chance.randrange(100) < given.broken:
            selector = broken(chance, selector)
        should = wanted(selector, pages)
        is_ = answered(program, selector, files) if program else should
        if isinstance(should, int):
            refused += 1
        else:
            own[selector] = should
            pairs += len(pages)
            hits += sum(bool(it) for it in should)
        if is_ != should:
            differ += 1
            print(f"differs: {selector!r}: {is_ if isinstance(is_, (int, bytes)) else ''} {should if isinstance(should, int) else ''}")
    print(f"{pairs} pairs of a page and a selector, of which {hits} find something, and {refused} texts that are none: "
          f"{differ} selectors differ from the plain reader" if program else "no program is asked", flush=True)
    return own, differ


def main(parser, words):
    parser.add_argument("--program", metavar="FILE")
    parser.add_argument("--selectors", type=int, default=1000, metavar="N")
    parser.add_argument("--pages", type=int, default=30, metavar="N")
    parser.add_argument("--broken", type=int, default=20, metavar="N")
    parser.add_argument("--seed", type=int, default=1, metavar="N")
    parser.add_argument("--chromium", action="store_true")
    parser.add_argument("--soupsieve", action="store_true")
    parser.add_argument("--plain", action="store_true")
    parser.add_argument("--cascadia", metavar="FILE")
    given = parser.parse_args(words)
    program = None if given.plain else os.path.abspath(given.program or gate_build("tl"))
    if given.cascadia:
        return compare_table(program, given.cascadia)
    chance = random.Random(given.seed)
    texts = [made_page(chance) for _ in range(given.pages)]
    with tempfile.TemporaryDirectory() as room:
        own, differ = compared(program, given, chance, texts, room)
    browser = dict(zip(own, ask_chromium(texts, list(own)))) if given.chromium else {}
    other = compare_chromium(own, browser) if given.chromium else 0
    if given.soupsieve:
        compare_soupsieve(Soup(texts), own, browser)
    return 1 if differ or other else 0
