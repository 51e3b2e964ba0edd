"""Each request of the library for memory is refused in turn, where TL_REFUSALS says that the library is one that can do so."""
import ctypes
import os
import unittest

from tlhtml import Document, Edit, Policy, PolicyError, Selector, edit, join_url, removed, sanitize, set_attribute, unset_attribute
from tlhtml._calls import lib

PAGE = "<ul><LI class=a @click=f() href='?a=1&b'>x &amp; y<LI>3 < 4</UL><p>z<table><td>y"


def refused_tags():
    """What is said of a policy with a tag that none may have."""
    try:
        return sanitize(PAGE, Policy.BLOG.lists(tags=["script"]))
    except PolicyError as error:
        return str(error)


@unittest.skipUnless("TL_REFUSALS" in os.environ, "the heap refuses nothing")
class Refusals(unittest.TestCase):
    def check(self, call):
        """A call that is refused memory raises MemoryError or does without, and answers as before in the end."""
        lib.tl_test_left.restype, lib.tl_test_refuse.argtypes = ctypes.c_long, [ctypes.c_long]
        wanted, number, is_refused = call(), 0, False
        while True:
            lib.tl_test_refuse(number)
            try:
                self.assertEqual(call(), wanted)
            except MemoryError:
                is_refused = True
            came = lib.tl_test_left() < 0
            lib.tl_test_refuse(-1)
            if not came:
                return is_refused
            number += 1

    def test_each_call(self):
        document = Document(PAGE)
        item, own = document.select_one("li"), Selector("ul > li")
        for call in (
            lambda: sanitize(PAGE),
            lambda: sanitize(PAGE, Policy.BLOG.lists(tags=["p", "li"])),
            lambda: Policy.BLOG.lists(tags=["p", "li"]).options,
            lambda: removed(PAGE, Policy.BLOG.lists(tags=["p"])),
            lambda: refused_tags(),
            lambda: edit(PAGE, "li", "fill", text="<"),
            lambda: (set_attribute(PAGE, "li", "id", "x"), unset_attribute(PAGE, "li", "class")),
            lambda: Document(PAGE.encode(), "latin1").html,
            lambda: join_url("https://a.org/", "b"),
            lambda: Document(PAGE).text,
            lambda: document.select("ul > li"),
            lambda: (document.select_one("ul > li"), item.select("ul > li"), item.select_one("ul > li"), item.closest("ul > li")),
            lambda: item.matches("ul > li"),
            lambda: (item.text, item.outer_html, item.inner_html, document.html),
            lambda: Document(PAGE).select_one("li").attributes,
            lambda: ([it.name for it in Document(PAGE).nodes], [it.kind for it in Document(PAGE).nodes]),
            lambda: (document.readable_text, document.prettify(), [it[1:] for it in document.links("https://a.org/")], document.tables()),
            lambda: Selector("li > b"),
            lambda: (document.select(own), document.select_one(own), item.parent.select(own), item.closest(own), item.matches(own)),
            lambda: document.select_values("li", "href"),
            lambda: document.edit_each("li", lambda it: {"id": str(it.number)}),
            lambda: document.edit_each("li[href]", lambda it: Edit.unwrap()),
            lambda: document.edit_each("li[href]", lambda it: [Edit.unset("href"), Edit.fill(text="<")]),
        ):
            self.assertTrue(self.check(call))
        for call in (
            lambda: (item.name, item.kind, item.namespace, item.source, item["@click"], "href" in item),
            lambda: (item.parent, list(item.parents), item.first_child, item.next_sibling, item.previous_sibling),
            lambda: (list(item.children), list(item.descendants), list(document.children), document.nodes, document.is_quirks),
        ):
            self.assertFalse(self.check(call))
        self.assertEqual(item.text, "x & y")


if __name__ == "__main__":
    unittest.main()
