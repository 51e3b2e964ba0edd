"""Each call once and more, with what comes of pages that people write. `python3 -m pytest` runs them, and so does `-m unittest`."""
import doctest
import io
import os
import pathlib
import pickle
import re
import tempfile
import threading
import time
import unittest

import tlhtml
from tlhtml import ChangeError, Document, Edit, Error, OutOfProportion, Policy, PolicyError, Selector, SelectorError, TooLong
from tlhtml import css_escape, edit, removed, sanitize, set_attribute, unset_attribute

PAGE = "<UL><LI hidden class=a @click=f() href='?a=1&b=2&lt;'>x &amp; y<LI>3 < 4</UL><!-- c --><p>z"


class Selectors(unittest.TestCase):
    def setUp(self):
        self.document = Document(PAGE)

    def test_elements_in_order(self):
        self.assertEqual([it.name for it in self.document.select("li, p")], ["li", "li", "p"])
        self.assertEqual(self.document.select("i"), [])
        self.assertIsNone(self.document.select_one("i"))
        self.assertEqual(self.document.select_one("li + li").text, "3 < 4")
        self.assertEqual(len(self.document.select(r"[\@click]")), 1)
        self.assertEqual([it.name for it in self.document.select(":scope")], ["html"])

    def test_a_wrong_one(self):
        with self.assertRaises(SelectorError) as it:
            self.document.select("é li:hover")
        self.assertEqual((it.exception.selector, it.exception.place, it.exception.cause), ("é li:hover", 5, 9))
        self.assertEqual(str(it.exception), "invalid selector: 'é li:hover': at 5: unknown pseudo-class: `hover` (a parsed page has no such state)")
        self.assertRegex(str(SelectorError("a[x!=y]", 3, 4)), r"or `\]`, found `!` \(write `:not\(\[key=value\]\)`\)$")
        self.assertEqual(str(SelectorError("a ]", 2, 15)), "invalid selector: 'a ]': at 2: unexpected text: `]`")
        self.assertEqual(str(SelectorError("", 0, 2)), "invalid selector: '': at 0: expected a selector")
        with self.assertRaises(SelectorError) as it:
            self.document.select("> li")
        self.assertEqual((it.exception.place, it.exception.cause), (0, 2))

    def test_below_a_node(self):
        items, _, last = self.document.select_one("body").children
        self.assertEqual(len(items.select("li")), 2)
        self.assertEqual(items.select_one("li").next_sibling.select("*"), [])
        self.assertIsNone(last.select_one("li"))
        item = items.select_one("li")
        self.assertEqual(items.select("li"), self.document.select("li"))
        self.assertEqual(items.select_one("body li + li, ul > li + li"), item.next_sibling)
        self.assertIsNone(items.select_one("ul"))
        for selector, wanted in (("li", True), ("LI[href].a", True), ("ul > :first-child", True), (":scope", True), ("ul", False), ("p, li + li", False)):
            self.assertEqual(item.matches(selector), wanted)
        text = next(item.children)
        self.assertEqual((text.matches("*"), text.select("*"), text.select_one("*")), (False, [], None))
        for ask in (self.document.select_one, item.select, item.select_one, item.closest, item.matches):
            with self.assertRaises(SelectorError) as it:
                ask("é li:hover")
            self.assertEqual((it.exception.place, it.exception.cause), (5, 9))

    def test_from_a_node_on(self):
        document = Document("<ul id=a><li>1<ul id=b><li>2</ul></ul>")
        outer, inner = document.select("ul")
        self.assertEqual([it.number for it in outer.select("> li")], [outer.first_child.number])
        self.assertEqual(outer.select(":scope > li"), outer.select("> li"))
        self.assertEqual(outer.select_one("> li > ul"), inner)
        self.assertEqual((inner.select("+ li"), inner.select_one("~ li")), ([], None))
        self.assertEqual(inner.closest("li"), outer.first_child)
        self.assertEqual((inner.closest("ul"), inner.closest("ul:has(:scope)"), inner.closest("p")), (inner, outer, None))
        self.assertEqual(inner.first_child.first_child.closest("#b"), inner)


class Nodes(unittest.TestCase):
    def test_kinds_and_places(self):
        document = Document(PAGE)
        (root,) = document.children
        body = document.select_one("body")
        items, comment, last = body.children
        self.assertEqual([it.kind for it in (items, comment, last)], ["element", "comment", "element"])
        item = next(items.children)
        self.assertEqual((item.parent, root.parent, last.next_sibling), (items, None, None))
        self.assertEqual(list(item.parents), [items, body, root])
        self.assertEqual((items.first_child, item.next_sibling.previous_sibling, item.previous_sibling), (item, item, None))
        self.assertEqual((item.next_sibling.outer_html, item.next_sibling.inner_html), ("<li>3 &lt; 4</li>", "3 &lt; 4"))
        self.assertEqual((comment.name, comment.outer_html, comment.inner_html, comment.text), (None, "<!-- c -->", "", " c "))
        self.assertEqual([it.number for it in document.nodes], list(range(11)))
        self.assertEqual([it.number for it in root.descendants], list(range(1, 11)))
        self.assertEqual(len(list(items.descendants)), 4)
        self.assertEqual({item, document.select_one("li")}, {item})
        self.assertNotEqual(item, Document(PAGE).select_one("li"))
        self.assertEqual(repr(item), '<Node 4: <li hidden class="a" @click="f()" href="?a=1&b=2<">>')
        text = next(item.children)
        self.assertEqual((text.kind, text.name, text.text, repr(text)), ("text", None, "x & y", "<Node 5: text 'x & y'>"))
        self.assertEqual((repr(comment), repr(last)), ("<Node 8: comment ' c '>", "<Node 9: <p>>"))
        self.assertEqual(repr(Document(f"<p a={'x' * 99}>").select_one("p")), f'<Node 3: <p a="{"x" * 53}...>>')
        self.assertEqual((repr(Document("<title> a\n")), repr(document)), ("<Document of 5 nodes: 'a'>", "<Document of 11 nodes>"))
        self.assertEqual((text.outer_html, text.inner_html, text.first_child, list(text.descendants)), ("x &amp; y", "", None, []))

    def test_attributes(self):
        item = Document(PAGE).select_one("li")
        self.assertEqual(item["HREF"], "?a=1&b=2<")
        self.assertEqual((item.get("@click"), item.get("hidden"), item.get("id")), ("f()", "", None))
        self.assertEqual(item.get("id", "none"), "none")
        self.assertTrue("hidden" in item and "Href" in item and "id" not in item and "" not in item)
        self.assertEqual(list(item.attributes.items()), [("hidden", ""), ("class", "a"), ("@click", "f()"), ("href", "?a=1&b=2<")])
        with self.assertRaises(KeyError):
            item["id"]
        text = next(item.children)
        self.assertEqual((text.attributes, text.get("id"), "id" in text), ({}, None, False))

    def test_bytes_0_and_long_answers(self):
        long = "é" * 100_000
        document = Document(f"<b>{long}</b>" + "<i>&lt;" * 1000)
        self.assertEqual(document.select_one("b").text, long)
        self.assertEqual(document.select_one("i").text, "<" * 1000)
        self.assertEqual(len(Document("<b></b>" * 5000).select("b")), 5000)
        self.assertEqual(Document("\xa0" * 50_000).select_one("body").inner_html, "&nbsp;" * 50_000)
        self.assertEqual(Document("<p a='x\0y'>").select_one("p")["a"], "x\ufffdy")


class Trees(unittest.TestCase):
    def test_whole_pages(self):
        document = Document(PAGE)
        self.assertEqual((document.text, document.is_quirks), ("x & y3 < 4z", True))
        self.assertEqual(
            document.html,
            '<html><head></head><body><ul><li hidden="" class="a" @click="f()" href="?a=1&amp;b=2&lt;">x &amp; y</li>'
            "<li>3 &lt; 4</li></ul><!-- c --><p>z</p></body></html>",
        )
        empty = Document("")
        self.assertEqual((empty.html, empty.text, len(empty.nodes)), ("<html><head></head><body></body></html>", "", 3))
        document = Document("<!doctype html><!-- a --><title>b</title>")
        self.assertEqual(([it.kind for it in document.children], document.is_quirks), (["doctype", "comment", "element"], False))
        doctype = document.nodes[0]
        self.assertEqual((doctype.outer_html, doctype.inner_html, doctype.text, doctype.name), ("<!DOCTYPE html>", "", "", None))
        self.assertEqual((doctype.source, document.text), ((0, 15), "b"))

    def test_quirks_and_marks(self):
        """Without a doctype classes and ids hold in any case. A byte order mark is no part of the tree, and counts in places."""
        quirky, standard = (Document(f"\ufeff{it}<p class=A id=B>x") for it in ("", "<!DOCTYPE html>"))
        self.assertEqual((quirky.is_quirks, standard.is_quirks, quirky.text), (True, False, "x"))
        self.assertEqual(([len(it.select(".a#b")) for it in (quirky, standard)], len(standard.select(".A#B"))), ([1, 0], 1))
        self.assertEqual((quirky.select_one("p").source, standard.select_one("p").source), ((3, 19), (18, 34)))

    def test_tables(self):
        """What browsers put in, and where what stands in the page comes from."""
        page = "<p>é &amp; b<table id=t><TR CLASS=r><td>1<td>2<!-- é --></table>".encode()
        document = Document(page)
        row = document.select_one("table > tbody > tr")
        self.assertEqual(len(document.select("#t > tbody > tr > td")), 2)
        self.assertEqual(document.select("table > tr"), [])
        self.assertEqual((row.parent.name, row.parent.source, row.parent.attributes), ("tbody", None, {}))

        def place(node):
            start, end = node.source
            return page[start:end].decode()

        self.assertEqual(place(row), "<TR CLASS=r>")
        self.assertEqual([place(it) for it in row.select_one("> td:last-child").children], ["2", "<!-- é -->"])
        self.assertEqual(place(document.select_one("p").first_child), "é &amp; b")
        self.assertIsNone(document.select_one("head").source)

    def test_namespaces(self):
        document = Document(
            "<svg viewbox='0 0 1 1'><title>an <b>icon</b></title><use XLINK:HREF=#a href=#b></use></svg><math><mi>x</mi></math><p>y"
        )
        spaces = [document.select_one(it).namespace for it in ("svg", "svg > title", "use", "math > mi", "p", "svg > title > b")]
        self.assertEqual(spaces, ["svg", "svg", "svg", "mathml", "html", "html"])
        icon, used = document.select_one("svg"), document.select_one("use")
        self.assertIsNone(document.select_one("p").first_child.namespace)
        self.assertEqual((icon["viewBox"], icon.get("viewbox"), "viewBox" in icon), ("0 0 1 1", None, True))
        self.assertEqual((used["xlink:href"], used["href"]), ("#a", "#b"))
        self.assertEqual(list(used.attributes.items()), [("xlink:href", "#a"), ("href", "#b")])
        self.assertEqual(used.outer_html, '<use xlink:href="#a" href="#b"></use>')
        self.assertEqual(icon.select_one("title").outer_html, "<title>an <b>icon</b></title>")

    def test_templates(self):
        document = Document("<template id=t><p class=a>x</p>y</template><p>z")
        template = document.select_one("#t")
        (contents,) = template.children
        self.assertEqual((contents.kind, contents.name, contents.source, contents.parent), ("contents", None, None, template))
        self.assertEqual((template.inner_html, contents.inner_html), ('<p class="a">x</p>y', '<p class="a">x</p>y'))
        self.assertEqual(template.outer_html, '<template id="t"><p class="a">x</p>y</template>')
        self.assertEqual((len(document.select("p")), template.select("p")), (1, []))
        inside = contents.select_one("p.a")
        self.assertEqual((inside.parent, inside.matches("p.a")), (contents, True))
        self.assertEqual((template.text, contents.text, document.text), ("", "xy", "z"))

    def test_raw_texts(self):
        """What stands in a script and a style is printed as it is."""
        page = '<script>if (a < b && c) f("<p>")</script><style>a > b {}</style>'
        document = Document(page)
        self.assertEqual(document.html, f"<html><head>{page}</head><body></body></html>")
        script = document.select_one("script")
        self.assertEqual(script.text, 'if (a < b && c) f("<p>")')
        self.assertEqual((script.inner_html, script.first_child.outer_html), (script.text, script.text))

    def test_a_tree_out_of_proportion(self):
        """A page whose tags are never closed, and are opened again in each paragraph."""
        page = "<p>" + "".join(f"<font size={it}>" for it in range(2_000)) + "<p>x" * 100
        with self.assertRaisesRegex(OutOfProportion, "^the tree of the page is out of proportion$"):
            Document(page)
        self.assertTrue(issubclass(OutOfProportion, (Error, ValueError)) and issubclass(TooLong, (Error, ValueError)))


PAGES = (
    PAGE,
    "",
    "<!doctype html><!-- a --><title>b</title><p>x<b>y</b></p><!-- c -->",
    "<table><tr><td>1<td>2<tr><td>3</table><svg viewbox='0 0 1 1'><use XLINK:HREF=#a href=#b></use></svg><math><mi>x",
    "<template id=t><p class=a>x</p>y<template>z</template>u</template><p>v<template>w</template>t",
    "<div a=b b='' c>" * 50 + "x" + "</div><i>y</i>" * 50 + "é &#0; \0 <p title='href' href='a\0b'>",
)


class AllAtOnce(unittest.TestCase):
    """After a few questions of nodes all nodes are read at once: the answers are those of single calls."""

    def test_as_single_calls(self):
        for page in PAGES:
            document, count = Document(page), len(Document(page).nodes)
            for number in range(count):
                single = Document(page).nodes[number]
                node = document.nodes[number]
                keys = list(single.attrs)
                said = [
                    (it.name, it.attrs, it.text, [it.get(key) for key in keys], it.get("href"), it.kind, it.namespace) for it in (single, node)
                ]
                self.assertEqual(said[0], said[1])
                self.assertEqual(node.text, document._text(tlhtml._calls.lib.tl_node_text, number))
                for call, other in (("parent", "parent"), ("first_child", "first_child"), ("next_sibling",) * 2, ("previous_sibling",) * 2):
                    found = getattr(node, call)
                    wanted = document._number(getattr(tlhtml._calls.lib, f"tl_node_{other}"), number)
                    self.assertEqual(tlhtml._calls.NO_NODE if found is None else found.number, wanted)
                self.assertEqual(list(node.children), [it for it in document.nodes if it.parent == node])
                self.assertEqual(list(node.descendants), [it for it in document.nodes if node in it.parents])
                self.assertEqual("".join(node.strings), "" if node.kind == "doctype" else node.text)


class Texts(unittest.TestCase):
    def test_their_forms(self):
        document = Document("<title>t</title><p> one <b>two</b>\n<i> </i><!-- c --><template>x</template>three<script>f()</script>")
        p = document.select_one("p")
        self.assertEqual((p.get_text(), p.text), (" one two\n three" + "f()",) * 2)
        self.assertEqual((p.get_text("|"), p.get_text("|", strip=True)), (" one |two|\n| |three|f()", "one|two|three|f()"))
        self.assertEqual(list(p.strings), [" one ", "two", "\n", " ", "three", "f()"])
        self.assertEqual((p.readable_text, document.readable_text), ("one two three",) * 2)
        self.assertEqual((document.get_text(" ", strip=True), next(document.strings)), ("t one two three f()", "t"))
        comment = next(it for it in document.nodes if it.kind == "comment")
        self.assertEqual((comment.text, list(comment.strings), comment.readable_text), (" c ", [" c "], ""))

    def test_looking_for_texts(self):
        document = Document("<p>3 EUR<p>x<template>EUR</template><!-- EUR --><p>EUR 5<p>7")
        self.assertEqual([it.text for it in document.find_text("EUR")], ["3 EUR", "EUR 5"])
        self.assertEqual([it.text for it in document.find_text(re.compile(r"^\d"))], ["3 EUR", "7"])
        first = document.select_one("p")
        self.assertEqual((first.find_text("5"), first.find_text("3")[0].parent), ([], first))

    def test_prints(self):
        document = Document("<ul><li>a<li>b</ul><p>x")
        self.assertEqual(document.prettify().splitlines()[3:6], ["    <ul>", "      <li>a</li>", "      <li>b</li>"])
        item = document.select_one("li")
        self.assertEqual((item.html, item.outer_html, item.tag), ("<li>a</li>", "<li>a</li>", "li"))

    def test_objects(self):
        document = Document("<!doctype html><p a=b>x<!-- c --><svg><g></svg><template>y</template><table><td>z")
        said = document.select_one("p").to_dict()
        self.assertEqual({key: said[key] for key in ("attributes", "name", "node", "start", "end")}, {"attributes": {"a": "b"}, "name": "p", "node": 4, "start": 15, "end": 22})
        text, comment, svg, template = said["children"]
        self.assertEqual(text, {"attributes": {}, "name": None, "node": 5, "start": 22, "end": 23, "text": "x"})
        self.assertEqual((comment["comment"], svg["namespace"], svg["children"][0]["namespace"]), (" c ", "svg", "svg"))
        self.assertEqual(template["children"][0]["contents"][0]["text"], "y")
        self.assertNotIn("start", document.select_one("tbody").to_dict())
        self.assertEqual(document.nodes[0].to_dict()["doctype"], "html")
        self.assertEqual(document.to_dict()["name"], "html")
        at, depth = Document("<b>" * 3000).to_dict(), 0
        while at["children"]:
            at, depth = at["children"][-1], depth + 1
        self.assertEqual(depth, 3001)


class Places(unittest.TestCase):
    def test_lines(self):
        document = Document("<ul>\n  é<li\n id=x>a\n\n<!-- c --><table><td>y")
        for selector, wanted in (("ul", (1, 0)), ("li", (2, 3)), ("tbody", (None, None)), ("td", (5, 17))):
            node = document.select_one(selector)
            self.assertEqual((node.sourceline, node.sourcepos), wanted)
        comment = next(it for it in document.nodes if it.kind == "comment")
        self.assertEqual((comment.sourceline, comment.sourcepos), (5, 0))


class Links(unittest.TestCase):
    page = "<a href=' x?a=1&amp;b '>y</a><img srcset='/s.png 1x, //b.org/l.png 2x'><a href='http://['>z</a><template><a href=t>u</a></template>"

    def test_as_they_stand(self):
        links = Document(self.page).links()
        self.assertEqual([(it.node.name, it.key, it.url, it.target) for it in links], [
            ("a", "href", "x?a=1&b", None), ("img", "srcset", "/s.png", None), ("img", "srcset", "//b.org/l.png", None), ("a", "href", "http://[", None)
        ])
        self.assertEqual(Document("<svg><use xlink:href=#a></svg>").links()[0][1:], ("xlink:href", "#a", None))
        self.assertEqual(Document("<p>").links(), [])

    def test_where_they_lead(self):
        def targets(page, base):
            return [it.target for it in Document(page).links(base)]

        self.assertEqual(targets(self.page, "https://a.org/d/e"), ["https://a.org/d/x?a=1&b", "https://a.org/s.png", "https://b.org/l.png", None])
        page = "<base href='{}'><a href=é>"
        self.assertEqual(targets(page.format("/f/"), "https://a.org/d/e")[1], "https://a.org/f/%C3%A9")
        self.assertEqual(targets(page.format("https://c.org"), "https://a.org")[1], "https://c.org/%C3%A9")
        for refused in ("data:text/html,x", "javascript:x", "http://["):
            self.assertEqual(targets(page.format(refused), "https://a.org/d/")[1], "https://a.org/d/%C3%A9")
        for base in ("", "x", "//a.org"):
            with self.assertRaisesRegex(ValueError, "the base isn't a URL"):
                targets(self.page, base)


class Tables(unittest.TestCase):
    def test_rows(self):
        page = "<table><tr><th rowspan=2>Name<th colspan=2>Price, EUR<tr><th>\"a\"<th>b<tfoot><tr><td>f<tbody><tr><td>x<br>y<td>1</table><table><tr></table>"
        document = Document(page)
        rows = [["Name", "Price, EUR", "Price, EUR"], ["Name", '"a"', "b"], ["x y", "1", ""], ["f", "", ""]]
        self.assertEqual(document.tables(), [rows, [[""]]])
        self.assertEqual(document.select_one("table").rows(), rows)
        self.assertEqual((Document("<p>").tables(), Document("<table></table>").tables()), ([], [[]]))
        with self.assertRaisesRegex(ValueError, "no table: <Node 1: <head>>"):
            document.nodes[1].rows()

    def test_one_out_of_proportion(self):
        page = "<table>" + "<tr><td colspan=1000 rowspan=0>" + "x" * 100 + "<tr>" * 1000
        with self.assertRaisesRegex(OutOfProportion, "^the table is out of proportion to its page$"):
            Document(page).tables()


class Sources(unittest.TestCase):
    def test_what_a_page_may_be(self):
        page = "<p>é".encode()
        with tempfile.TemporaryDirectory() as folder:
            path = pathlib.Path(folder, "page.html")
            path.write_bytes(page)
            with open(path, "rb") as file, open(path, encoding="utf-8") as text:
                for given in (page.decode(), page, bytearray(page), memoryview(page), path, file, text, io.BytesIO(page)):
                    self.assertEqual(Document(given).text, "é")
            with self.assertRaises(FileNotFoundError):
                Document(pathlib.Path(folder, "none"))


class EachEdit(unittest.TestCase):
    PAGE = "<!DOCTYPE X><DIV CLASS='a b'>1<A HREF=/x>é</A></DIV><svg viewBox='0 0'></svg><table><tr><td>3</table>"

    def edited(self, selector, function):
        return Document(self.PAGE).edit_each(selector, function)

    def test_tags(self):
        self.assertEqual(self.edited("a", lambda it: Edit.set("href", it["href"] + "?é&")), self.PAGE.replace("HREF=/x", 'HREF="/x?é&amp;"'))
        self.assertEqual(self.edited("a", lambda it: {"HREF": None, "title": ""}), self.PAGE.replace("<A HREF=/x>", '<A title="">'))
        self.assertEqual(self.edited("svg", lambda it: {"viewBox": "1"}), self.PAGE.replace("viewBox='0 0'", 'viewBox="1"'))
        self.assertEqual(self.edited("div", lambda it: Edit.add_word("class", "c")), self.PAGE.replace("'a b'", '"a b c"'))
        self.assertEqual(self.edited("div", lambda it: Edit.remove_word("class", "b")), self.PAGE.replace("'a b'", '"a"'))
        self.assertEqual(self.edited("td", lambda it: Edit.add_word("class", "x")), self.PAGE.replace("<td>", '<td class="x">'))
        words = lambda it: [Edit.remove_word("class", "a"), Edit.unset("id")]
        self.assertEqual(self.edited("div", words), self.PAGE.replace("'a b'", '"b"'))
        self.assertEqual(Document("<p class=a>").edit_each("p", lambda it: Edit.remove_word("class", "a")), "<p>")

    def test_what_stays(self):
        for answer in (None, [], {}, Edit.set("href", "/x"), Edit.add_word("href", "/x"), Edit.remove_word("href", "y"), Edit.add_word("id", "")):
            self.assertEqual(self.edited("a", lambda it: answer), self.PAGE)
        self.assertEqual(self.edited("i", lambda it: 1 / 0), self.PAGE)
        document = Document(self.PAGE)
        document.edit_each("a", lambda it: Edit.remove())
        self.assertEqual(document.select_one("a").text, "é")

    def test_elements(self):
        self.assertEqual(self.edited("a, td", lambda it: Edit.fill(text="<") if it.name == "a" else Edit.rename("TH")),
                         self.PAGE.replace(">é<", ">&lt;<").replace("<td>3", "<th>3</th>"))
        both = lambda it: [Edit.before(markup="<hr>"), Edit.append(text="!")]
        self.assertEqual(self.edited("div", both), self.PAGE.replace("<DIV", "<hr><DIV").replace("</A></DIV>", "</A>!</DIV>"))
        for edit_of, wanted in ((Edit.remove(), ""), (Edit.unwrap(), "é"), (Edit.replace(markup="<b>"), "<b>"), (Edit.after(text="z"), "<A HREF=/x>é</A>z"),
                                (Edit.prepend(text="z"), "<A HREF=/x>zé</A>")):
            self.assertEqual(self.edited("a", lambda it: edit_of), self.PAGE.replace("<A HREF=/x>é</A>", wanted))

    def test_both(self):
        both = lambda it: [{"id": "b"}, Edit.fill(text="z")]
        self.assertEqual(self.edited("a", both), self.PAGE.replace("<A HREF=/x>é", '<A id="b" HREF=/x>z'))
        with self.assertRaises(ValueError):
            Document("<table><tr><input><td>x</table>").edit_each("input, td", lambda it: {"type": "hidden"} if it.name == "input" else Edit.remove())

    def test_refused(self):
        with self.assertRaises(ChangeError) as it:
            self.edited("tbody", lambda it: {"a": "b"})
        self.assertEqual((it.exception.place, it.exception.cause), (self.PAGE.index("<tr>"), 24))
        with self.assertRaises(ChangeError) as it:
            self.edited("a", lambda it: [Edit.unwrap(), Edit.rename("b")])
        self.assertEqual((it.exception.place, it.exception.cause), (self.PAGE.index("<A"), 20))
        with self.assertRaises(ChangeError) as it:
            self.edited("a", lambda it: {"a b": "c"})
        self.assertEqual(it.exception.cause, 17)
        with self.assertRaises(SelectorError):
            self.edited("a:hover", lambda it: None)
        for answer in (1, "href", {"href": 1}, [3], Edit("set", "href", 1)):
            with self.assertRaises(TypeError):
                self.edited("a", lambda it: answer)
        for make in (lambda: Edit.fill(), lambda: Edit.fill(text="a", markup="b")):
            with self.assertRaises(ValueError):
                make()
        with self.assertRaises(ValueError):
            self.edited("a", lambda it: Edit("paint"))

    def test_values(self):
        document = Document("<a href=1>x</a><a>y</a><a href='é&amp;\n'><p href=3>")
        self.assertEqual(document.select_values("a", "href"), ["1", "é&\n"])
        self.assertEqual(document.select_values(Selector("p"), "href"), ["3"])
        self.assertEqual((document.select_values("a", "id"), document.select_values("i", "href")), ([], []))
        with self.assertRaises(SelectorError) as it:
            document.select_values("a:hover", "href")
        self.assertEqual(it.exception.place, 2)
        with self.assertRaises(TypeError):
            document.select_values("a", None)

    def test_siblings_and_title(self):
        document = Document("<title> a\n b </title><p>1<b>2</b><!--3-->4")
        self.assertEqual(document.title, "a b")
        self.assertIsNone(Document("<p>").title)
        own = document.select_one("b")
        self.assertEqual([it.kind for it in own.next_siblings], ["comment", "text"])
        self.assertEqual([it.text for it in own.parent.first_child.next_siblings], ["2", "3", "4"])
        self.assertEqual([it.text for it in list(own.parent.children)[3].previous_siblings], ["3", "2", "1"])
        self.assertEqual(list(document.stripped_strings), ["a\n b", "1", "2", "4"])
        self.assertEqual(list(own.stripped_strings), ["2"])


class OwnSelectors(unittest.TestCase):
    def test_shared_by_threads(self):
        own, documents, wrong = Selector("li:nth-child(2n)"), [Document("<ul>" + "<li>x" * count) for count in range(8)], []

        def ask(document, count):
            for _ in range(200):
                if len(document.select(own)) != count // 2 or own.text != str(own):
                    wrong.append(count)

        threads = [threading.Thread(target=ask, args=(it, count)) for count, it in enumerate(documents)]
        for it in threads:
            it.start()
        for it in threads:
            it.join()
        self.assertEqual(wrong, [])
        self.assertEqual(pickle.loads(pickle.dumps(own)), own)

    def test_selectors_that_are_read_once(self):
        items = Selector("ul > li")
        document = Document(PAGE)
        self.assertEqual(document.select(items), document.select("ul > li"))
        self.assertEqual(document.select_one(items), document.select_one("li"))
        item, body = document.select_one(items), document.select_one("body")
        self.assertEqual((body.select(items), body.select_one(items), item.matches(items), item.closest(items)), (document.select("li"), item, True, item))
        self.assertEqual((str(items), repr(items), items == Selector("ul > li"), items == "ul > li"), ("ul > li", "Selector('ul > li')", True, False))
        self.assertEqual(len({items, Selector("ul > li"), Selector("p")}), 2)
        self.assertEqual(edit("<p>x</p>", Selector("p"), "remove"), "")
        self.assertEqual(len(body.select(Selector("> *"))), 2)
        with self.assertRaises(SelectorError) as it:
            Selector("é ]")
        self.assertEqual((it.exception.selector, it.exception.place, it.exception.cause), ("é ]", 2, 15))
        with self.assertRaises(SelectorError):
            document.select(Selector("> li"))
        with self.assertRaises(SelectorError):
            edit("<p>", Selector("> p"), "remove")

    def test_escapes(self):
        for name, wanted in (
            ("abc-_1", "abc-_1"), ("1a", "\\31 a"), ("-1", "-\\31 "), ("-", "\\-"), ("--", "--"), ("a b", "a\\ b"), ("é\x80", "é\x80"),
            ("\0", "\ufffd"), ("\x1f\x7f", "\\1f \\7f "), ("a.b:c", "a\\.b\\:c"), ("", ""), ("٣", "٣"),
        ):
            self.assertEqual(css_escape(name), wanted)
        for name in ("1", "-", "a b", "#", "é\n", "\\", "]", "٣", "-9", '"'):
            document = Document(f'<p id="{name.replace(chr(34), "&quot;")}">')
            self.assertEqual(len(document.select(f"#{css_escape(name)}")), 1, name)


class Wrong(unittest.TestCase):
    def assert_refused(self, rows):
        for wanted, ask in rows:
            with self.assertRaises(TypeError) as it:
                ask()
            self.assertEqual(str(it.exception), wanted)

    def test_types(self):
        """What is no text is a TypeError that says what was wanted."""
        document = Document(PAGE)
        item = document.select_one("li")
        self.assert_refused((
            ("a page is a str, bytes, a path or a file, not int", lambda: Document(1)),
            ("a page is a str, bytes, a path or a file, not NoneType", lambda: Document(None)),
            ("a selector is a str or a Selector, not bytes", lambda: document.select(b"p")),
            ("a selector is a str or a Selector, not NoneType", lambda: document.select_one(None)),
            ("a selector is a str or a Selector, not int", lambda: item.select(1)),
            ("a selector is a str or a Selector, not int", lambda: item.select_one(1)),
            ("a selector is a str or a Selector, not int", lambda: item.closest(1)),
            ("a selector is a str or a Selector, not int", lambda: item.matches(1)),
            ("a selector is a str, not int", lambda: Selector(1)),
            ("a name is a str, not int", lambda: css_escape(1)),
            ("a separator is a str, not int", lambda: item.get_text(1)),
            ("what is looked for is a str or a pattern, not int", lambda: item.find_text(1)),
            ("a base is a str, not int", lambda: document.links(1)),
            ("what a file reads is a str or bytes, not NoneType", lambda: Document(type("File", (), {"read": lambda self: None})())),
            ("a page that is a str has no encoding", lambda: Document("<p>", "latin1")),
            ("an encoding is a str, not int", lambda: Document(b"<p>", 1)),
            ("a key is a str, not int", lambda: item[0]),
            ("a key is a str, not bytes", lambda: item.get(b"href")),
            ("a key is a str, not int", lambda: 0 in item),
            ("'Node' object is not iterable", lambda: list(item)),
        ))

    def test_types_of_calls_on_texts(self):
        """The same of calls that take a page as a text, and of policies."""
        self.assert_refused((
            ("a page is a str, not bytes", lambda: sanitize(b"<p>")),
            ("a policy is a Policy or its lists, not str", lambda: sanitize("<p>", "blog")),
            ("a policy is a Policy or its lists, not str", lambda: removed("<p>", "blog")),
            ("a page is a str, not bytes", lambda: removed(b"<p>")),
            ("a list is a str or some of them, not int", lambda: Policy.BLOG.lists(tags=1)),
            ("a word of a list is a str, not int", lambda: Policy.BLOG.lists(tags=[1])),
            ("a prefix is a str, not int", lambda: Policy.BLOG.lists(id_prefix=1)),
            ("a page is a str, not bytes", lambda: edit(b"<p>", "p", "remove")),
            ("a selector is a str or a Selector, not int", lambda: edit("<p>", 1, "remove")),
            ("what is put is a str, not int", lambda: edit("<p>", "p", "fill", text=1)),
            ("a key is a str, not int", lambda: set_attribute("<p>", "p", 1, "x")),
            ("a value is a str, not int", lambda: set_attribute("<p>", "p", "a", 1)),
            ("a key is a str, not NoneType", lambda: unset_attribute("<p>", "p", None)),
        ))

    def test_lone_surrogates(self):
        document = Document(PAGE)
        for ask in (document.select, document.select_one("li").get, sanitize, Document):
            with self.assertRaises(UnicodeEncodeError):
                ask("\ud800")


class Examples(unittest.TestCase):
    def test_those_of_the_documents(self):
        modules = (tlhtml, tlhtml._document, tlhtml._changes, tlhtml._policy, tlhtml._selectors)
        tried = [doctest.testmod(it) for it in modules]
        self.assertEqual([it.failed for it in tried], [0] * len(modules))
        self.assertGreater(sum(it.attempted for it in tried), 30)


class Closing(unittest.TestCase):
    def test_a_closed_document(self):
        with Document(PAGE) as document:
            item = document.select_one("li")
        document.close()
        for ask in (
            lambda: document.select("li"),
            lambda: document.select_one("li"),
            lambda: document.html,
            lambda: document.nodes,
            lambda: document.children,
            lambda: document.is_quirks,
            lambda: item.text,
            lambda: item.strings,
            lambda: item.name,
            lambda: item.readable_text,
            lambda: document.links(),
            lambda: document.prettify(),
            lambda: item.attributes,
            lambda: item.get("href"),
            lambda: item.kind,
            lambda: item.parent,
            lambda: item.source,
            lambda: item.descendants,
        ):
            with self.assertRaisesRegex(ValueError, "closed"):
                ask()
        self.assertEqual((repr(document), repr(item)), ("<Document, closed>", "<Node 4 of a closed document>"))

    def test_pages_that_are_no_text(self):
        with self.assertRaises(UnicodeEncodeError):
            Document("\ud800")
        self.assertEqual(Document("é".encode()).text, "é")

    def test_encodings(self):
        self.assertEqual(Document(b"caf\xe9").text, "caf\ufffd")
        self.assertEqual(Document(b"caf\xe9", "latin1").text, "café")
        self.assertEqual(Document(b"<meta charset=koi8-r>\xc9").text, "и")
        self.assertEqual(Document(b"<meta charset=koi8-r>\xc9", encoding="latin1").text, "É")
        self.assertEqual(Document(b"\xfe\xff\x00\xe9", "latin1").text, "é")
        self.assertEqual(Document(b"\x83e\x83X\x83g" * 999, "sjis").text, "テスト" * 999)
        for page, label, name in (
            ("é", None, None),
            (b"caf\xe9", None, "UTF-8"),
            (b"caf\xe9", "latin1", "windows-1252"),
            (b"<meta charset=koi8-r>", None, "KOI8-R"),
            (b"\xfe\xff\x00\xe9", "latin1", "UTF-16BE"),
        ):
            self.assertEqual(Document(page, label).encoding, name)
        for label in ("", "nope"):
            with self.assertRaisesRegex(LookupError, "unknown encoding"):
                Document(b"", label)


class SafePages(unittest.TestCase):
    def test_what_people_type(self):
        self.assertEqual(sanitize("I <3 <A HREF=/x>é"), 'I &lt;3 <a href="/x">é</a>')
        self.assertEqual(sanitize("<" * 5000), "&lt;" * 5000)
        self.assertEqual(sanitize(""), "")

    def test_policies(self):
        page = "<h1>a</h1><table><tr><td>b"
        self.assertEqual(sanitize(page), "<h1>a</h1>b")
        self.assertEqual(sanitize(page, Policy.COMMENTS), "ab")
        self.assertEqual(sanitize(page, Policy.DOCUMENTS), "<h1>a</h1><table><tbody><tr><td>b</td></tr></tbody></table>")
        with self.assertRaises(ValueError):
            sanitize(page, 3)

    def test_lists_of_ones_own(self):
        page = "<P CLASS=own-a>x<A HREF=b.png>y</A><H1>z</H1><b>c</b>"
        self.assertEqual(sanitize(page, Policy.COMMENTS.lists()), sanitize(page, Policy.COMMENTS))
        self.assertEqual(sanitize(page, Policy.COMMENTS.lists(tags=[])), "xyzc")
        self.assertEqual(sanitize(page, Policy.BLOG.lists(tags="h1")), "xy<h1>z</h1>c")
        self.assertEqual(sanitize(page, Policy.COMMENTS.lists(tags=["+h1", "-p"])), "x<a>y</a><h1>z</h1><b>c</b>")
        lists = Policy.COMMENTS.lists(
            tags=("p", "a"), keys=("class", "href"), classes=["own-*"], relative_links=True, nofollow_links=True
        )
        self.assertEqual(sanitize(page, lists), '<p class="own-a">x<a rel="nofollow noopener" href="b.png">y</a></p>zc')
        self.assertEqual(
            Policy.COMMENTS.lists(tags="p", keys=("class", "href"), classes=["+hljs"]).options,
            "--tags p\n--keys class,href\n--link-keys cite,href\n--links https://,http://\n--classes hljs\n--prefix user-\n",
        )
        self.assertEqual(Policy.BLOG.lists().options.splitlines()[-2:], ["--classes language-*", "--prefix user-"])
        self.assertEqual(sanitize("<a href=/x>é", Policy.BLOG.lists(link_prefixes=["https://"])), "<a>é</a>")
        links = "<a href=b.png>x</a><a href=/y>z</a>"
        self.assertEqual(sanitize(links, Policy.BLOG.lists(relative_links=True)), '<a href="b.png">x</a><a href="/y">z</a>')
        self.assertEqual(sanitize(links, Policy.BLOG.lists(nofollow_links=True)), '<a>x</a><a rel="nofollow noopener" href="/y">z</a>')

    def test_what_goes(self):
        page = "\ufeff<P onclick=f()>é\n<script>y</script>é<table><td>z<a href=javascript:f()>"
        self.assertEqual(
            [tuple(it) for it in removed(page)],
            [
                ("p", "onclick", "the attribute isn't listed", 1, 0),
                ("script", None, "what is in it isn't shown as markup", 2, 0),
                ("table", None, "the tag isn't listed", 2, 19),
                ("td", None, "the tag isn't listed", 2, 26),
                ("a", "href", "the value may not stand here", 2, 31),
            ],
        )
        self.assertEqual(removed("<p>x"), [])
        self.assertEqual([it.tag for it in removed("<p>x<b>y", Policy.COMMENTS.lists(tags=["b"]))], ["p"])

    def test_words_that_no_policy_may_list(self):
        for words, word, reason in (
            ({"tags": ["p", "script"]}, "script", 2),
            ({"keys": ["onclick"]}, "onclick", 5),
            ({"link_keys": ["src"]}, "cite", 7),
            ({"link_prefixes": ["data:"]}, "data:", 9),
            ({"classes": ["*", "a*b"]}, "a*b", 18),
            ({"id_prefix": "é"}, "é", 11),
        ):
            with self.assertRaises(PolicyError) as it:
                Policy.BLOG.lists(**words)
            self.assertEqual((it.exception.word, it.exception.reason), (word, reason))
        self.assertEqual(str(PolicyError("www", 10)), "'www': invalid link prefix: expected a scheme with its `:`, or `/`, `#`, `?` or `.` first")
        with self.assertRaisesRegex(ValueError, "comma"):
            Policy.BLOG.lists(tags=["p,b"])

    @unittest.skipUnless("TL_VERSION" in os.environ, "TL_VERSION says which is wanted")
    def test_version(self):
        self.assertEqual(tlhtml.version(), os.environ["TL_VERSION"])


class Changes(unittest.TestCase):
    page = "<!DOCTYPE é><P onclick=f()><IMG SRC=x>3 < 4</p></p>"

    def test_keys(self):
        wanted = self.page.replace("<IMG", '<IMG alt="a&quot;&amp;b"')
        self.assertEqual(set_attribute(self.page, "p > img", "ALT", 'a"&b'), wanted)
        self.assertEqual(unset_attribute(self.page, "p:not(:empty)", "onclick"), self.page.replace(" onclick=f()", ""))
        self.assertEqual(set_attribute(self.page, "i", "a", "b"), self.page)

    def test_what_is_refused(self):
        with self.assertRaises(SelectorError) as it:
            set_attribute(self.page, "p:hover", "a", "b")
        self.assertEqual((it.exception.place, it.exception.cause), (2, 9))
        with self.assertRaises(ChangeError) as it:
            set_attribute(self.page, "p", "a", "b")
        self.assertEqual(str(it.exception), "at 51: browsers add this element: it has no tag to edit")
        self.assertEqual(it.exception.cause, 24)
        with self.assertRaises(ChangeError) as it:
            set_attribute("é<table><tr><td>x</table>", "tbody", "a", "b")
        self.assertEqual((it.exception.place, it.exception.cause), (8, 24))
        with self.assertRaises(OutOfProportion):
            set_attribute("<p>" + "".join(f"<font size={it}>" for it in range(2_000)) + "<p>x" * 100, "p", "a", "b")

    def test_trees_are_asked(self):
        page = "<table><tr><td>x</table>"
        self.assertEqual(set_attribute(page, "table > tbody > tr", "a", "b"), page.replace("<tr>", '<tr a="b">'))
        self.assertEqual(unset_attribute("<p a=b>x", "*", "a"), "<p>x")


class Elements(unittest.TestCase):
    page = "<!DOCTYPE é><P>one<BR><B>two</B></P>"

    def test_edits(self):
        for words, wanted in (
            (("rename", {"name": "I"}), "<i>two</i>"),
            (("remove", {}), ""),
            (("unwrap", {}), "two"),
            (("replace", {"text": "<"}), "&lt;"),
            (("fill", {"markup": "<i>x</i>"}), "<B><i>x</i></B>"),
            (("prepend", {"text": "x"}), "<B>xtwo</B>"),
            (("append", {"text": "x"}), "<B>twox</B>"),
            (("before", {"text": "x"}), "x<B>two</B>"),
            (("after", {"text": "x"}), "<B>two</B>x"),
        ):
            self.assertEqual(edit(self.page, "b", words[0], **words[1]), self.page.replace("<B>two</B>", wanted))
            self.assertEqual(edit(self.page, "i", words[0], **words[1]), self.page)
        self.assertEqual(edit(self.page, "b", "fill", text=""), self.page.replace("two", ""))

    def test_what_is_refused(self):
        with self.assertRaises(ChangeError) as it:
            edit(self.page, "br", "fill", text="x")
        self.assertEqual((self.page[it.exception.place :][:4], it.exception.cause), ("<BR>", 19))
        with self.assertRaises(ChangeError) as it:
            edit("<svg><style>a</style></svg>", "style", "fill", text="<")
        self.assertEqual((it.exception.place, it.exception.cause), (5, 23))
        with self.assertRaises(ChangeError) as it:
            edit("<svg><p>x</p></svg>y", "svg", "remove")
        self.assertEqual((it.exception.place, it.exception.cause), (8, 25))
        with self.assertRaises(SelectorError):
            edit(self.page, "p:hover", "remove")
        for what, words in (
            ("clear", {}),
            ("remove", {"text": ""}),
            ("rename", {"text": "i"}),
            ("fill", {}),
            ("fill", {"name": "i"}),
            ("fill", {"text": "x", "markup": "x"}),
        ):
            with self.assertRaises(ValueError):
                edit(self.page, "b", what, **words)
        self.assertEqual(str(ChangeError(7, 19)), "at 7: this element can't be edited this way: its end tag is missing, or its kind doesn't allow it")
        for call in (lambda selector: edit(self.page, selector, "remove"), lambda selector: set_attribute(self.page, selector, "a", "b")):
            with self.assertRaises(SelectorError) as it:
                call("é ]")
            self.assertEqual((it.exception.selector, it.exception.place, it.exception.cause), ("é ]", 2, 15))

    def test_the_case_of_letters_that_are_not_ascii(self):
        """The sign of kelvins is no `k`."""
        self.assertEqual(set_attribute("<p k=1>", "p", "\u212a", "2"), '<p \u212a="2" k=1>')
        self.assertEqual(edit("<p>x</p>", "p", "rename", name="p\u212a"), "<p\u212a>x</p\u212a>")

    def test_a_tag_of_many_keys(self):
        keys = "".join(f' k{it}="{it}&amp;"' for it in range(2_000))
        attributes = Document(f"<p{keys} hidden>").select_one("p").attributes
        self.assertEqual((len(attributes), attributes["k1999"], attributes["hidden"]), (2_001, "1999&", ""))


class Threads(unittest.TestCase):
    def test_one_document_in_eight_threads(self):
        """The calls themselves take turns, and each thread gets its own answer."""
        document = Document("".join(f"<p id=user-{it}>{'x' * it}</p>" for it in range(200)))
        wrong = []

        def ask(first):
            for number in list(range(first, 200)) * 3:
                node = document.select_one(f"#user-{number}")
                if node.text != "x" * number or node["id"] != f"user-{number}":
                    wrong.append(number)

        threads = [threading.Thread(target=ask, args=(it,)) for it in range(8)]
        for it in threads:
            it.start()
        for it in threads:
            it.join()
        self.assertEqual(wrong, [])

    def test_four_pages_in_four_threads(self):
        """No call with one page keeps another page waiting: at a moment all four are read, each in a thread of its own. Where the machine
        gives a thread no time just then, they try once more."""
        pages = [f"<ul>{f'<li class=c{it}>{it} &amp; 1<td>' * 100_000}" for it in range(4)]
        begun, times, found = threading.Barrier(4), [(0.0, 0.0)] * 4, [0] * 4

        def read(it):
            begun.wait()
            start = time.monotonic()
            with Document(pages[it]) as document:
                times[it] = start, time.monotonic()
                found[it] = len(document.select(f"ul > li.c{it}"))

        for _ in range(5):
            threads = [threading.Thread(target=read, args=(it,)) for it in range(4)]
            for it in threads:
                it.start()
            for it in threads:
                it.join()
            self.assertEqual(found, [100_000] * 4)
            if max(start for start, _ in times) < min(end for _, end in times):
                return
        self.fail("the pages are read one after the other")


if __name__ == "__main__":
    unittest.main()
