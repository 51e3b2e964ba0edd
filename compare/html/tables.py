"""The tables and links of pages: `crates/tl_tree_extract`, by the program of tools/trees, beside Chromium, and tables beside a plain reader
of "forming a table" (4.9.12.1), step by step, over the trees that the program writes.

The reader lets spans make rows, as the standard does, and keeps of them at the end those that a `tr` stands for.
"""
import random
import re

from tools.unproved import helper_build

from ..chromium import all_answers, chromium, version
from ..files import files_in, text_in
from ..made.tables import table
from .tree_program import MARK, SEPARATOR, SHOWN, trees, written

# No made-up table has more rows in a group.
MOST_ROWS = 20
LINE = re.compile(r"\| ( *)(.*)", re.S)


class Element:
    def __init__(self, name, number):
        self.name, self.number, self.attributes, self.children = name, number, {}, []

    def named(self, *names):
        return [it for it in self.children if it.name in names]


def elements(tree):
    """The elements of a tree as the standard's tests write it down, in the order of the page."""
    found, path = [], []
    for line in tree.split("\n| "):
        depth, said = LINE.fullmatch("| " + line.removeprefix("| ")).groups()
        depth = len(depth) // 2
        if said.startswith("<") and not said.startswith(("<!DOCTYPE", "<!--")):
            element = Element(said[1:-1], len(found))
            found.append(element)
            path[depth:] = [element]
            if depth and path[depth - 1] is not None:
                path[depth - 1].children.append(element)
        elif "=" in said and said.endswith('"') and not said.startswith('"') and depth and len(path) >= depth:
            key, value = said[:-1].split('="', 1)
            path[depth - 1].attributes[key] = value
        else:
            path[depth:] = [None]
    return found


def number(value):
    """The rules for parsing non-negative integers."""
    found = re.match(r"[\t\n\f\r ]*([-+]?)([0-9]+)", value or "")
    if not found or (found.group(1) == "-" and int(found.group(2))):
        return None
    return int(found.group(2))


class Reader:
    """Forms a table, by the steps of the standard."""

    def __init__(self, table):
        self.width = self.height = self.current = 0
        self.cells, self.growing, self.rows, self.taken = [], [], [], set()
        self.columns(table)
        feet = []
        for child in table.children:
            if child.name == "tr":
                self.row(child)
            elif child.name in ("thead", "tbody", "tfoot"):
                self.end_group()
                if child.name == "tfoot":
                    feet.append(child)
                else:
                    self.group(child)
        for foot in feet:
            self.group(foot)

    def columns(self, table):
        for child in table.children:
            if child.name in ("thead", "tbody", "tfoot", "tr"):
                return
            if child.name == "colgroup":
                for element in child.named("col") or [child]:
                    self.width += min(number(element.attributes.get("span")) or 1, 1000)

    def group(self, group):
        for row in group.named("tr"):
            self.row(row)
        self.end_group()

    def end_group(self):
        # rows that no `tr` stands for are gone past at once: nothing else is put there
        self.current = max(self.current, self.height - 1)
        while self.current < self.height:
            # the standard grows cells after it went on, so that they cover a row of the next group, where another cell spans rows that
            # no `tr` stands for; it says of `rowspan` that 0 means the rows of the group
            self.grow()
            self.current += 1
        self.growing = []

    def grow(self):
        for cell in self.growing:
            cell[4] = max(cell[4], self.current + 1)
            self.taken.update((x, self.current) for x in range(cell[1], cell[2]))

    def row(self, row):
        self.height = max(self.height, self.current + 1)
        self.rows.append(self.current)
        self.grow()
        at = 0
        for cell in row.named("td", "th"):
            while at < self.width and (at, self.current) in self.taken:
                at += 1
            columns = min(number(cell.attributes.get("colspan")) or 1, 1000)
            rows = number(cell.attributes.get("rowspan"))
            rows = 1 if rows is None else min(rows, 65534)
            grows, rows = rows == 0, rows or 1
            self.width = max(self.width, at + columns)
            self.height = max(self.height, self.current + rows)
            made = [cell.number, at, at + columns, self.current, self.current + rows]
            self.cells.append(made)
            self.taken.update((x, y) for x in range(at, at + columns) for y in range(self.current, self.current + min(rows, MOST_ROWS)))
            if grows:
                self.growing.append(made)
            at += columns
        self.current += 1

    def lines(self):
        """The columns and rows, and the cells, with the rows alone that a `tr` stands for."""
        place = {row: at for at, row in enumerate(self.rows)}
        shown = [f"{self.width} {len(self.rows)}"]
        for cell, left, right, top, bottom in self.cells:
            last = max(row for row in self.rows if top <= row < bottom)
            shown.append(f"{cell} {left} {right} {place[top]} {place[last] + 1}")
        return shown


def asked(program, pages, *words):
    return [it.removesuffix("\n").split("\n") for it in written(program, pages, *words)]


def table_by_reader(tree):
    found = elements(tree)
    cells = {it.number: at for at, it in enumerate(it for it in found if it.name in ("td", "th"))}
    table = next((it for it in found if it.name == "table"), None)
    if table is None:
        return ["none"]
    head, *lines = Reader(table).lines()
    return [head] + [" ".join([str(cells[int(line.split(" ", 1)[0])]), line.split(" ", 1)[1]]) for line in lines]


def pages_in(folder, count):
    """So many pages of a folder, without byte order marks and what stands between pages."""
    names = files_in([folder])
    random.Random(1).shuffle(names)
    pages = []
    for name in names:
        text = text_in(name)
        if len(text) < 300000 and SEPARATOR not in text and MARK not in text and text not in pages:
            pages.append(text)
        if len(pages) == count:
            break
    return pages


def told(what, pages, ours, theirs):
    differ = [(page, is_, should) for page, is_, should in zip(pages, ours, theirs) if is_ != should]
    for page, is_, should in differ[:SHOWN]:
        wrong = next(((a, b) for a, b in zip(is_, should) if a != b), (len(is_), len(should)))
        print(f"{page[:200]!r}: {wrong[0]!r}, and {wrong[1]!r} {what}", flush=True)
    return len(differ)


def compared_tables(words):
    """Compares tables: made-up ones with the reader and with Chromium, and with --page FOLDER the first ones of pages there with Chromium."""
    program, browser = words.program or helper_build("trees"), chromium()
    chance = random.Random(words.seed)
    pages = [table(chance) for _ in range(words.runs)]
    ours = asked(program, pages, "table", "1")
    differ = told("by the reader", pages, ours, [table_by_reader(it) for it in trees(program, pages)])
    print(f"{len(pages)} made-up tables, beside the reader: {differ} differ", flush=True)
    for folder in words.page:
        pages += pages_in(folder, 300)
    ours = asked(program, pages, "without-search", "table", "1")
    others = told("in Chromium", pages, ours, all_answers(browser, "html/tables.html", pages, 200))
    print(f"{version(browser)}, {len(pages)} tables: {others} differ")
    return differ + others


def compared_links(words):
    """Compares the links of pages of folders with Chromium. How many pages differ."""
    program, browser = words.program or helper_build("trees"), chromium()
    pages = [page for folder in words.page for page in pages_in(folder, 300)]
    ours = asked(program, pages, "without-search", "links")
    theirs = all_answers(browser, "html/links.html", pages, 50)
    differ = told("in Chromium", pages, ours, theirs)
    print(f"{version(browser)}, {len(pages)} pages with {sum(len(it) - 1 for it in ours)} links: {differ} pages differ")
    return differ
