"""Asks pages in a folder with `tl`, html5lib and lxml, and says how often the answers are the same.

    ./x compare pages FOLDER.. [--program FILE] [--limit N] [--largest N]

Of each page: where its links lead, its pictures, its title, its cells, its items, and its text without scripts and styles. White
space counts as one space. Pages are read as browsers read them, so html5lib is right, and lxml stands beside it. What differs is
printed with the first place where it does. Of a Debian: apt-get install python3-html5lib python3-lxml, and the folder /usr/share/doc.

Status: 0 where of links, pictures, titles, cells and items at least 99 in 100 pages agree, and of texts 98; else 1.
"""
import os
import subprocess
import sys
import warnings

from tools.unproved import unproved_build

from ..files import files_in

# What is asked: the words of `tl`, and how many pages in 100 have to agree.
QUESTIONS = {
    "links": (["select", "-0", "-a", "href", "a"], 99),
    "pictures": (["select", "-0", "-a", "src", "img"], 99),
    "title": (["select", "-1", "-0", "-t", "title"], 99),
    "cells": (["select", "-0", "-t", "td, th"], 99),
    "items": (["select", "-0", "-t", "li"], 99),
    "text": (["text", "-w"], 98),
}
HIDDEN = {"script", "style"}


def spaced(text):
    return " ".join(text.split())


def name(node):
    return node.tag.rpartition("}")[2] if isinstance(node.tag, str) else ""


def elements(root, *names):
    return [node for node in root.iter() if name(node) in names]


def texts_in(element, but=()):
    """The texts of an element in order, without those of comments and of elements of some names."""
    stack = [(element, False)]
    while stack:
        node, is_left = stack.pop()
        if is_left:
            yield node.tail or ""
            continue
        if isinstance(node.tag, str) and name(node) not in but:
            yield node.text or ""
            for child in reversed(list(node)):
                stack += [(child, True), (child, False)]


def whole_text(node):
    return "".join(texts_in(node))


def answers(root):
    """What a tree answers to each question."""
    return {
        "links": [spaced(a.get("href")) for a in elements(root, "a") if a.get("href") is not None],
        "pictures": [spaced(i.get("src")) for i in elements(root, "img") if i.get("src") is not None],
        "title": [spaced(whole_text(t)) for t in elements(root, "title")[:1]],
        "cells": [spaced(whole_text(c)) for c in elements(root, "td", "th")],
        "items": [spaced(whole_text(i)) for i in elements(root, "li")],
        "text": ["".join("".join(texts_in(root, HIDDEN)).split())],
    }


def answers_of_tl(program, page):
    found = {}
    for question, (words, _) in QUESTIONS.items():
        done = subprocess.run([program, *words], input=page, capture_output=True, timeout=300)
        if done.returncode > 1:
            return done.stderr.decode(errors="replace").strip()
        text = done.stdout.decode()
        found[question] = ["".join(text.split())] if question == "text" else [spaced(one) for one in text.split("\0")[:-1]]
    return found


def first_difference(own, other):
    for at, (one, two) in enumerate(zip(own, other)):
        if one != two:
            place = next((i for i, (a, b) in enumerate(zip(one, two)) if a != b), min(len(one), len(two)))
            start = max(0, place - 30)
            return f"the {at + 1}th: {one[start:place + 40]!r}, not {two[start:place + 40]!r}"
    return f"{len(own)}, not {len(other)}"


def pages_in(folders, limit, largest):
    """The pages in some folders up to a length, each once, with their paths."""
    found = {}
    for path in files_in(folders):
        if len(found) < limit and os.path.getsize(path) <= largest:
            with open(path, "rb") as it:
                found.setdefault(it.read(), path)
    return [(path, content) for content, path in found.items()]


class Tally:
    """How many pages are answered as html5lib answers, of each question, by `tl` and by lxml."""

    def __init__(self):
        self.same, self.same_as_lxml, self.unread = dict.fromkeys(QUESTIONS, 0), dict.fromkeys(QUESTIONS, 0), 0

    def take(self, path, own, right, beside):
        if isinstance(own, str):
            self.unread += 1
            print(f"{path}: {own}")
            own = {}
        for question in QUESTIONS:
            self.same_as_lxml[question] += beside.get(question) == right[question]
            if own.get(question) == right[question]:
                self.same[question] += 1
            elif own:
                print(f"{path}: {question}: {first_difference(own[question], right[question])}", flush=True)

    def told(self, count):
        """Says the shares of so many pages. Whether all suffice."""
        print(f"{count} pages, {self.unread} of which are not read")
        shares = {question: 100 * same / max(1, count) for question, same in self.same.items()}
        for question, (_, least) in QUESTIONS.items():
            print(f"{question:10} {self.same[question]:5} as html5lib ({shares[question]:.1f} in 100, of which {least} are wanted); "
                  f"lxml {self.same_as_lxml[question]}")
        return all(shares[question] >= least for question, (_, least) in QUESTIONS.items())


def main(parser, words):
    parser.add_argument("folders", nargs="+", metavar="FOLDER")
    parser.add_argument("--program", help="`tl`; else it is built unproved")
    parser.add_argument("--limit", type=int, default=1000)
    parser.add_argument("--largest", type=int, default=400000, help="of a page, in bytes")
    given = parser.parse_args(words)
    try:
        import html5lib
        import lxml.html
    except ImportError as error:
        print(f"{error}: apt-get install python3-html5lib python3-lxml, and run by /usr/bin/python3", file=sys.stderr)
        return 2
    warnings.simplefilter("ignore")
    program = given.program or unproved_build("tl")
    pages, tally = pages_in(given.folders, given.limit, given.largest), Tally()
    for done, (path, content) in enumerate(pages, 1):
        right = answers(html5lib.parse(content, namespaceHTMLElements=False))
        try:
            beside = answers(lxml.html.document_fromstring(content))
        except Exception:
            beside = {}
        tally.take(path, answers_of_tl(program, content), right, beside)
        if done % 50 == 0:
            print(f"{done} pages: {tally.same}", flush=True)
    return 0 if tally.told(len(pages)) else 1
