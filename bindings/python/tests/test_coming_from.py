"""Each row of COMING_FROM.md: what tlhtml answers, and what BeautifulSoup and lxml do, where they are there."""
import copy
import json
import os
import re
import unittest
from urllib.parse import urljoin

import tlhtml

try:
    import bs4
    import html5lib
    import soupsieve
except ImportError:
    bs4 = None
try:
    import cssselect
    import lxml.etree
    import lxml.html
    import lxml.html.clean
except ImportError:
    lxml = None

DOCUMENT = os.path.join(os.path.dirname(os.path.dirname(os.path.abspath(__file__))), "COMING_FROM.md")


def rows(text):
    """The expressions of the rows of the table that has four columns; None where a cell has none."""
    found = []
    for line in text.splitlines():
        cells = [it.strip() for it in line.strip("| ").split(" | ")]
        if len(cells) == 4 and not line.startswith("|---") and cells[0]:
            found.append([cells[0], *(None if it == "-" else it.strip("`") for it in cells[1:])])
    return found[1:] if found and found[0][0] == "`tlhtml`" else found


class Rows(unittest.TestCase):
    def test_each(self):
        with open(DOCUMENT, encoding="utf-8") as file:
            text = file.read()
        page = re.search(r"```html\n(.*?)```", text, re.DOTALL)[1]
        names = {"tlhtml": tlhtml, "document": tlhtml.Document(page), "re": re, "urljoin": urljoin}
        others = [None, None]
        if bs4:
            names |= {"bs4": bs4, "soupsieve": soupsieve}
            others[0] = bs4.BeautifulSoup(page, "html5lib")
        if lxml:
            names |= {"lxml": lxml}
            others[1] = lxml.html.document_fromstring(page)
        names |= {"soup": others[0], "tree": others[1]}
        tried = 0
        for what, own, *cells in rows(text):
            wanted = eval(own, names)
            for there, cell in zip(others, cells):
                if there is not None and cell:
                    with self.subTest(what):
                        self.assertEqual(eval(cell, names), wanted)
                        tried += 1
        self.assertEqual(len(rows(text)), 38)
        if all(it is not None for it in others):
            self.assertEqual(tried, 70)


class Edits(unittest.TestCase):
    def test_each(self):
        with open(DOCUMENT, encoding="utf-8") as file:
            text = file.read()
        page = re.search(r"```html\n(.*?)```", text, re.DOTALL)[1]
        document, found = tlhtml.Document(page), re.findall(r"(?m)^\| (.+?) \| (`.+`) \| `(.+)` \|$", text.partition("## Edits")[2])
        for what, own, other in found:
            names, answers = {"tlhtml": tlhtml, "Edit": tlhtml.Edit}, []
            for cell in own.strip("`").split("`, `"):
                edited = document.edit_each("li.x", eval(f"lambda it: {cell}", names))
                answers.append(tlhtml.Document(edited).select_one("ul").html)
            if bs4:
                soup = bs4.BeautifulSoup(page, "html5lib")
                exec(other, {"bs4": bs4, "soup": soup, "it": soup.select_one("li.x")})
                # (BeautifulSoup writes attributes in the order of their names)
                answers = [str(bs4.BeautifulSoup(it, "html.parser")) for it in [*answers, str(soup.ul)]]
            with self.subTest(what):
                self.assertEqual(set(answers), {answers[0]})
                self.assertEqual(edited == page, own == "`None`")
        self.assertEqual(len(found), 17)


class Tasks(unittest.TestCase):
    def test_each(self):
        with open(DOCUMENT, encoding="utf-8") as file:
            text = file.read().partition("## Forty tasks")[2].partition("## Edits")[0]
        page = re.search(r"```html\n(.*?)```", text, re.DOTALL)[1]
        names = {"tlhtml": tlhtml, "Document": tlhtml.Document, "Edit": tlhtml.Edit, "document": tlhtml.Document(page)}
        names |= {"re": re, "json": json, "copy": copy, "urljoin": urljoin}
        if bs4:
            names |= {"bs4": bs4, "soup": bs4.BeautifulSoup(page, "html5lib")}
        if lxml:
            names |= {"lxml": lxml, "tree": lxml.html.document_fromstring(page)}
        found = re.findall(r"(?m)^\| (.+?) \| `(.+)` \| `(.+)` \|$", text)
        tried = 0
        for what, own, other in found:
            with self.subTest(what):
                answer = eval(own, names)
                self.assertTrue(answer)
                if ("soup" if "soup" in other else "tree") in names:
                    self.assertEqual(eval(other, names), answer)
                    tried += 1
        self.assertEqual(len(found), 40)
        if bs4 and lxml:
            self.assertEqual(tried, 40)


if __name__ == "__main__":
    unittest.main()
