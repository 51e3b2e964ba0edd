"""Documents and their nodes."""
from __future__ import annotations

import bisect
import csv
import ctypes
import io
import re
import threading
from types import TracebackType
from typing import Any, Callable, Iterator, NamedTuple, Pattern, TypeVar

from ._calls import DONE, NO_NODE, NOT_UNDERSTOOD, REFUSED, Handle, Room, characters, error_of, lib, page_error_of, room_of, utf8
from ._changes import look_at_change
from ._each import EachFunction, Edits
from ._errors import OutOfProportion, SelectorError
from ._rows import COMMENT, CONTENTS, DOCTYPE, ELEMENT, TEXT, Parts, Rows
from ._selectors import Selector, lent_selector, selector_bytes
from ._sources import Page, page_bytes

KINDS = ("none", "element", "text", "comment", "doctype", "contents")
NAMESPACES = (None, "html", "svg", "mathml")
T = TypeVar("T")

# How many questions of single nodes are answered by calls of their own before all nodes are asked for at once.
_FEW = 8
# Of a node with more below it the texts are written by one call.
_MANY = 64
# White space of HTML, between the words of a class.
_BLANKS = " \t\n\f\r"


class _Calls(NamedTuple):
    """A call with the text of a selector, which says where and why it is none, and that with one that was read."""

    by_text: Callable[..., int]
    compiled: Callable[..., int]
    is_below: bool = False


_SELECT = _Calls(lib.tl_select_css, lib.tl_compiled_select)
_FIRST = _Calls(lib.tl_first_css, lib.tl_compiled_first)
_SELECT_BELOW = _Calls(lib.tl_node_select_css, lib.tl_compiled_select_below, True)
_FIRST_BELOW = _Calls(lib.tl_node_first_css, lib.tl_compiled_first_below, True)
_MATCHES = _Calls(lib.tl_node_matches_css, lib.tl_compiled_matches)
_CLOSEST = _Calls(lib.tl_node_closest_css, lib.tl_compiled_closest)


class Link(NamedTuple):
    """A URL in an attribute."""

    node: Node
    """The element."""
    key: str
    """The key of the attribute."""
    url: str
    """The URL as it stands there."""
    target: str | None
    """Where it leads from the base that was said; None where none was, or where it is no URL."""


class Document:
    """The tree of a page, as browsers build it, which answers any number of questions; values and texts as the characters that they say.

    >>> document = Document("<table><tr><td>1<td>2")
    >>> [it.text for it in document.select("table > tbody > tr > td")]
    ['1', '2']

    A page is a str, which is markup; or bytes, a path (`pathlib.Path`) or a file.

    >>> import io
    >>> Document(io.BytesIO(b"<title>x")).select_one("title").text
    'x'

    Threads may share one: it takes them one after the other. `with` gives its memory back at the end, and so does `close`; else that
    comes with the last name that it has."""

    def __init__(self, page: Page, encoding: str | None = None) -> None:
        """Reads a page. Of bytes their byte-order mark says what they are in, else `encoding`, which is a label of the Encoding standard
        (`latin1`, `koi8-r`), else the page itself, as browsers tell it; U+FFFD stands for bytes that are wrong.

        >>> Document(b"<meta charset=koi8-r><p>\\xcd\\xc9\\xd2").select_one("p").text
        'мир'
        """
        lent, self._encoding = page_bytes(page, encoding)
        self._handle, self._lock = Handle(), threading.RLock()
        self._page = lent
        self._lines: list[int] | None = None
        self._loaded: Rows | None = None
        self._parts: Parts | None = None
        self._asked = 0
        status = lib.tl_parse_html(lent, len(lent), self._handle)
        if status != DONE:
            raise page_error_of(status, lent)
        self._bytes, self._numbers = Room(ctypes.c_char, len(lent) + 64), Room(ctypes.c_uint32, lib.tl_node_count(self._handle))

    def close(self) -> None:
        """Gives the memory back. What is asked after that is a ValueError."""
        with self._lock:
            self._loaded = self._parts = None
            lib.tl_free(self._handle)

    def __del__(self) -> None:
        if lib is not None and hasattr(self, "_lock"):
            self.close()

    def __enter__(self) -> Document:
        return self

    def __exit__(self, kind: type[BaseException] | None, error: BaseException | None, trace: TracebackType | None) -> None:
        self.close()

    def __repr__(self) -> str:
        if not self._handle.at:
            return "<Document, closed>"
        title = self.select_one("title")
        return f"<Document of {len(self._rows().kinds)} nodes{f': {_short(title.text.strip())}' if title else ''}>"

    def _opened(self) -> Handle:
        """What calls are lent. It is used while the lock is held."""
        if not self._handle.at:
            raise ValueError("the document is closed")
        return self._handle

    def _number(self, call: Callable[..., int], *words: Any) -> int:
        """The number or the status that a call returns."""
        with self._lock:
            return call(self._opened(), *words)

    def _answer(self, read: Callable[[Room], T], call: Callable[..., int], *words: Any) -> T | None:
        """What is read of what a call answers; None where that is refused."""
        with self._lock:
            status = self._bytes.fill(call, self._opened(), *words)
            if status == DONE:
                return read(self._bytes)
        if status == REFUSED:
            return None
        raise error_of(status)

    def _text(self, call: Callable[..., int], *words: Any) -> str:
        """The text that a call answers."""
        return self._answer(Room.text, call, *words) or ""

    def _whole(self, call: Callable[..., int], room: Room) -> memoryview:
        """What a call says of all nodes."""
        with self._lock:
            status = room.fill(call, self._opened())
        if status != DONE:
            raise error_of(status)
        return room.view()

    def _rows(self) -> Rows:
        """What is known of all nodes."""
        rows = self._loaded
        if rows is None:
            count = self._number(lib.tl_node_count)
            rows = self._loaded = Rows(self._whole(lib.tl_nodes, Room(ctypes.c_uint32, 4 * count)))
        return rows

    def _all_parts(self) -> Parts:
        """What stands in the nodes."""
        parts = self._parts
        if parts is None:
            kinds = self._rows().kinds
            room = Room(ctypes.c_char, len(self._page) + 2 * len(kinds) + 64)
            parts = self._parts = Parts(self._whole(lib.tl_parts, room))
        return parts

    def _parts_if_many(self) -> Parts | None:
        """The same once more than a few nodes were asked; before that None."""
        self._asked += 1
        return self._parts or (self._all_parts() if self._asked > _FEW else None)

    def _selected(self, calls: _Calls, selector: str | Selector, *front: int) -> list[Node]:
        """The nodes that such a call finds."""
        place, cause = ctypes.c_size_t(), ctypes.c_uint8()
        found: list[int] = []
        with self._lock, lent_selector(selector, calls.is_below) as lent:
            opened = self._opened()
            if isinstance(lent, Handle):
                status = self._numbers.fill(calls.compiled, opened, *front, lent)
            else:
                status = self._numbers.fill(calls.by_text, opened, *front, lent, len(lent), behind=(place, cause))
            if status == DONE:
                found = self._numbers.numbers()
        _look_at(selector, status, place.value, cause.value)
        return [Node(self, number) for number in found]

    def _said(self, calls: _Calls, selector: str | Selector, said: ctypes.c_uint32 | ctypes.c_uint8, *front: int) -> int | None:
        """The one number that such a call says; None where it is refused without a cause."""
        place, cause = ctypes.c_size_t(), ctypes.c_uint8()
        with self._lock, lent_selector(selector, calls.is_below) as lent:
            opened = self._opened()
            if isinstance(lent, Handle):
                status = calls.compiled(opened, *front, lent, said)
            else:
                status = calls.by_text(opened, *front, lent, len(lent), said, place, cause)
        if status == REFUSED and not cause.value:
            return None
        _look_at(selector, status, place.value, cause.value)
        return said.value

    def _selected_one(self, calls: _Calls, selector: str | Selector, *front: int) -> Node | None:
        """The node that such a call says."""
        number = self._said(calls, selector, ctypes.c_uint32(), *front)
        return None if number is None else Node(self, number)

    def select(self, selector: str | Selector) -> list[Node]:
        """The elements that match a CSS selector, in document order, without those in a `template`. `:scope` is the root."""
        return self._selected(_SELECT, selector)

    def select_one(self, selector: str | Selector) -> Node | None:
        """The first of them; None where there is none."""
        return self._selected_one(_FIRST, selector)

    def select_values(self, selector: str | Selector, key: str) -> list[str]:
        """The values at a key of the elements where a selector of CSS holds, in the order of the page, in one call; an element without the
        key has none. Keys are as they are serialized: in lower case in HTML.

        >>> Document("<a href=/x>1</a><a>2</a><a href='/y?a&amp;b'>3</a>").select_values("a", "href")
        ['/x', '/y?a&b']
        """
        lent, asked = selector_bytes(selector), utf8(key, "a key")
        place, cause = ctypes.c_size_t(), ctypes.c_uint8()
        found: list[str] = []
        with self._lock:
            status = self._bytes.fill(
                lib.tl_select_values, self._opened(), lent, len(lent), asked, len(asked), behind=(place, cause)
            )
            if status == DONE:
                found = self._bytes.values()
        _look_at(selector, status, place.value, cause.value)
        return found

    def edit_each(self, selector: str | Selector, function: EachFunction) -> str:
        """The page with an edit of its own for each element where a selector of CSS holds, and with each other byte as it was: what the
        function answers of the element. That is an `Edit`, a mapping of keys to the values that they get (None: the key goes), several of
        these, or None. The document stays as it is.

        >>> page = "<P><A HREF='http://a.org'>x</A> <a href=/y>y</a></P>"
        >>> Document(page).edit_each("a", lambda it: {"href": it["href"].replace("http:", "https:")})
        '<P><A HREF="https://a.org">x</A> <a href=/y>y</a></P>'
        >>> from tlhtml import Edit
        >>> Document(page).edit_each("a", lambda it: Edit.unwrap() if it["href"].startswith("/") else None)
        "<P><A HREF='http://a.org'>x</A> y</P>"

        All tags are changed in one pass, and so are all elements. Where both are, the tags come first, and the page is read once more for
        the elements; where its tree isn't the same then, as where an `input` in a table is hidden, that is a ValueError."""
        edits = Edits()
        for node in self.select(selector):
            edits.add(node, function(node))
        page, document = self._page, self
        if edits.changes:
            lent = edits.lent_changes()
            page = self._changed(lib.tl_patch_nodes, lent, len(lent))
        if edits.edits:
            document = self._same_nodes(page) if edits.changes else self
            other = edits.lent_edits()
            page = document._changed(lib.tl_edit_nodes, other, len(other))
        return page.decode()

    def _changed(self, call: Callable[..., int], lent: Any, count: int) -> bytes:
        """The page with the changes that are lent."""
        room, place, cause = room_of(self._page), ctypes.c_size_t(), ctypes.c_uint8()
        with self._lock:
            status = room.fill(call, self._opened(), self._page, len(self._page), lent, count, behind=(place, cause))
        look_at_change(self._page, status, place.value, cause.value)
        return room.raw()

    def _same_nodes(self, page: bytes) -> Document:
        """The document of a page with other attributes, which has the same nodes."""
        document = Document(page.decode())
        if document._rows() != self._rows():
            raise ValueError("with these values the page has another tree: change elements by a call of their own")
        return document

    @property
    def encoding(self) -> str | None:
        """The encoding that the bytes of the page were in, by its name in the Encoding standard; None where the page was a str.

        >>> Document(b"<meta charset=latin1><p>caf\\xe9").encoding
        'windows-1252'
        """
        return self._encoding

    @property
    def is_quirks(self) -> bool:
        """Whether it is in quirks mode, as without a doctype. There classes and ids of selectors hold in any case."""
        return self._number(lib.tl_is_quirks) != 0

    @property
    def nodes(self) -> list[Node]:
        """All nodes, in document order: each comes before what is below it."""
        return [Node(self, number) for number in range(self._number(lib.tl_node_count))]

    @property
    def children(self) -> Iterator[Node]:
        """The nodes at the top, in order: the `html`, with a doctype and comments before and behind it."""
        rows = self._rows()
        return (Node(self, number) for number in rows.siblings(0, len(rows.kinds)))

    @property
    def root(self) -> Node:
        """The element that stands in no other: the `html`."""
        return next(it for it in self.children if it.kind == "element")

    @property
    def text(self) -> str:
        """The texts of the page, one after the other, without those in a `template`: also what `script` and `style` hold."""
        return self.root.text

    @property
    def readable_text(self) -> str:
        """The text of the page as a browser shows it without style sheets, as `tl text -w` has it: blocks on lines of their own, one space
        between words, without scripts and styles.

        >>> print(Document("<title>t</title><h1>A\\n &amp; B</h1><p>x<br>y<script>f()</script>").readable_text)
        A & B
        <BLANKLINE>
        x
        y
        """
        return self.root.readable_text

    def get_text(self, separator: str = "", strip: bool = False) -> str:
        """The texts of the page with a separator between them, as `Node.get_text`."""
        return self.root.get_text(separator, strip)

    @property
    def strings(self) -> Iterator[str]:
        """What each text of the page says, as `Node.strings`."""
        return self.root.strings

    @property
    def stripped_strings(self) -> Iterator[str]:
        """The same without white space around each, as `Node.stripped_strings`."""
        return self.root.stripped_strings

    @property
    def title(self) -> str | None:
        """What the `title` of the page says, with one space between words; None where there is none.

        >>> Document("<title> Bread</title><svg><title>x</title></svg>").title
        'Bread'
        """
        element = self.select_one("head > title")
        return None if element is None else " ".join(element.text.split())

    def find_text(self, wanted: str | Pattern[str]) -> list[Node]:
        """The texts of the page that hold a text, as `Node.find_text`."""
        return self.root.find_text(wanted)

    @property
    def html(self) -> str:
        """The whole page as markup, as browsers serialize its tree."""
        return self._text(lib.tl_document_html)

    def prettify(self) -> str:
        """The same with a tag on each line where white space doesn't count, as `tl print --pretty`.

        >>> print(Document("<ul><li>a<li>b").prettify(), end="")
        <html>
          <head></head>
          <body>
            <ul>
              <li>a</li>
              <li>b</li>
            </ul>
          </body>
        </html>
        """
        return self._text(lib.tl_document_pretty_html)

    def links(self, base: str | None = None) -> list[Link]:
        """Each URL in an attribute of the page (`href`, `src`, `srcset` and all others that the HTML standard names), in the order of
        the page, as `tl links` has them. With the URL of the page as the base `target` says where each leads, also by way of the page's own
        `base`; a base that is no URL is a ValueError.

        >>> links = Document("<a href='x?a=1&amp;b'>y</a><img src=/z.png>").links("https://example.org/d/")
        >>> [(it.node.name, it.key, it.url, it.target) for it in links]
        [('a', 'href', 'x?a=1&b', 'https://example.org/d/x?a=1&b'), ('img', 'src', '/z.png', 'https://example.org/z.png')]
        """
        found = self._answer(Room.links, lib.tl_document_links) or []
        own = None if base is None else self._base(base)
        return [Link(Node(self, number), key, url, own and join_url(own, url)) for number, key, url in found]

    def _base(self, page: str) -> str:
        """The base of the page's links, where the page has this URL."""
        own = join_url(page, "")
        if own is None:
            raise ValueError(f"the base isn't a URL: {page!r}")
        element = self.select_one("base[href]")
        there = element and join_url(own, element["href"])
        return own if not there or there.startswith(("data:", "javascript:")) else there

    def tables(self) -> list[list[list[str]]]:
        """The rows of each table of the page, those in cells too, as `Node.rows` has them.

        >>> Document("<table><tr><th rowspan=2>a<td>1<tr><td>2</table>").tables()
        [[['a', '1'], ['a', '2']]]
        """
        return [it.rows() for it in self.select("table")]

    def to_dict(self) -> dict[str, Any]:
        """The root as `Node.to_dict` has it."""
        return self.root.to_dict()

    def _line_of(self, place: int) -> tuple[int, int]:
        """The line of a byte of the page from 1, and where that begins."""
        if self._lines is None:
            self._lines = [0, *(it.end() for it in re.finditer(b"\n", self._page))]
        number = bisect.bisect_right(self._lines, place)
        return number, self._lines[number - 1]


def join_url(base: str, link: str) -> str | None:
    """Where a link leads from a base, by the URL standard; None where one of them is no URL.

    >>> join_url("https://a.org/b/c", "../d")
    'https://a.org/d'
    """
    lent, other = utf8(base, "a base"), utf8(link, "a link")
    room = Room(ctypes.c_char, len(lent) + len(other) + 64)
    status = room.fill(lib.tl_join_url, lent, len(lent), other, len(other))
    if status not in (DONE, REFUSED):
        raise error_of(status)
    return room.text() if status == DONE else None


def _look_at(selector: str | Selector, status: int, place: int, cause: int) -> None:
    """Raises what a call says of a selector that is none, or a status that is no answer."""
    if cause:
        raise SelectorError(str(selector), characters(selector_bytes(selector), place), cause)
    if status != DONE:
        raise error_of(status)


def _short(text: str) -> str:
    """A text as it is shown, in some sixty characters."""
    return repr(text if len(text) <= 60 else f"{text[:57]}...")


class Node:
    """A node of a document: an element, a text, a comment, a doctype, or the contents of a `template`.

    >>> item = Document("<ul><LI id=a>one &amp; two").select_one("li")
    >>> item
    <Node 4: <li id="a">>
    >>> item.name, item["id"], item.text, item.parent.name
    ('li', 'a', 'one & two', 'ul')
    """

    __slots__ = ("document", "number")
    # (it isn't gone through by itself: there are its attributes, its children, and all below it)
    __iter__ = None

    def __init__(self, document: Document, number: int) -> None:
        self.document, self.number = document, number

    def __repr__(self) -> str:
        try:
            return f"<Node {self.number}: {self._shown()}>"
        except ValueError:
            return f"<Node {self.number} of a closed document>"

    def _shown(self) -> str:
        kind = self.kind
        if kind == "element":
            keys = "".join(f' {key}="{value}"' if value else f" {key}" for key, value in self.attrs.items())
            return f"<{self.name}{keys if len(keys) <= 60 else f'{keys[:57]}...'}>"
        return f"contents of {self.parent!r}" if kind == "contents" else self.outer_html if kind == "doctype" else f"{kind} {_short(self.text)}"

    def __eq__(self, other: object) -> bool:
        return isinstance(other, Node) and self.document is other.document and self.number == other.number

    def __hash__(self) -> int:
        return hash((id(self.document), self.number))

    @property
    def kind(self) -> str:
        """'element', 'text', 'comment', 'doctype', or 'contents': those of a `template`, in which stands what is written in it, are its one
        child."""
        rows = self.document._loaded or self.document._rows()
        return KINDS[rows.kinds[self.number]]

    @property
    def namespace(self) -> str | None:
        """'html', 'svg' or 'mathml' of an element; None of any other node."""
        return NAMESPACES[self.document._rows().namespaces[self.number]]

    @property
    def name(self) -> str | None:
        """The name of an element, of HTML in lower case; None of any other node."""
        document = self.document
        if (document._loaded or document._rows()).kinds[self.number] != ELEMENT:
            return None
        parts = document._parts or document._parts_if_many()
        if parts is None:
            return document._answer(Room.text, lib.tl_node_name, self.number)
        return parts.name(self.number)

    tag = name

    @property
    def attrs(self) -> dict[str, str]:
        """The attributes of an element in order, with keys as they are serialized (`xlink:href` in a `svg`); those that are keys alone, as
        `hidden`, have the empty text.

        >>> Document("<a HREF=/x hidden>").select_one("a").attrs
        {'href': '/x', 'hidden': ''}
        """
        document = self.document
        if (document._loaded or document._rows()).kinds[self.number] != ELEMENT:
            return {}
        parts = document._parts or document._parts_if_many()
        if parts is None:
            return document._answer(Room.attributes, lib.tl_node_attributes, self.number) or {}
        return parts.attributes(self.number)

    attributes = attrs

    @property
    def classes(self) -> list[str]:
        """The words of its class."""
        return [it for it in re.split(f"[{_BLANKS}]+", self.get("class") or "") if it]

    def _key(self, key: object) -> bytes:
        """A key as it stands there: of an element of HTML in lower case."""
        lent = utf8(key, "a key")
        lowered = lent.lower()
        return lowered if lowered != lent and self.namespace == "html" else lent

    def _value(self, key: object) -> str | None:
        """The value at a key."""
        lent = self._key(key)
        document = self.document
        if (document._loaded or document._rows()).kinds[self.number] != ELEMENT:
            return None
        parts = document._parts or document._parts_if_many()
        if parts is None:
            return document._answer(Room.text, lib.tl_attribute, self.number, lent, len(lent))
        return parts.value(self.number, lent)

    def get(self, key: str, default: str | None = None) -> str | None:
        """The value at a key, as `xlink:href`, whose letters count in any case at an element of HTML; the default where there is no such
        key."""
        value = self._value(key)
        return default if value is None else value

    def __getitem__(self, key: str) -> str:
        """The value at a key; a KeyError where there is none."""
        value = self._value(key)
        if value is None:
            raise KeyError(key)
        return value

    def __contains__(self, key: object) -> bool:
        """Whether a key stands there."""
        return self._value(key) is not None

    @property
    def text(self) -> str:
        """What a text or a comment says; of any other node what the texts below it say, one after the other, without those in a
        `template` below it. A doctype says nothing."""
        rows = self.document._loaded or self.document._rows()
        if rows.ends[self.number] - self.number <= _MANY:
            parts = self.document._parts or self.document._parts_if_many()
            if parts is not None:
                return b"".join([parts.parts[it] for it in rows.texts(self.number)]).decode()
        return self.document._text(lib.tl_node_text, self.number)

    @property
    def strings(self) -> Iterator[str]:
        """What each text below it says, in order, without those in a `template` below it."""
        return (text for _, text in self._texts())

    @property
    def stripped_strings(self) -> Iterator[str]:
        """The same without white space around each, and without those that are white space alone."""
        return (it for it in map(str.strip, self.strings) if it)

    def _texts(self) -> Iterator[tuple[int, str]]:
        """The numbers of the texts below it, and what each says; a text and a comment have themselves."""
        rows, parts = self.document._rows(), self.document._all_parts().parts
        return ((number, parts[number].decode()) for number in rows.texts(self.number))

    def get_text(self, separator: str = "", strip: bool = False) -> str:
        """The texts below it with a separator between them; with `strip` without white space around each, and without those that are white
        space alone.

        >>> Document("<p> one <b>two</b> <i> three</i>").select_one("p").get_text("|", strip=True)
        'one|two|three'
        """
        if not isinstance(separator, str):
            raise TypeError(f"a separator is a str, not {type(separator).__name__}")
        texts = [it.strip() for it in self.strings] if strip else list(self.strings)
        return separator.join(it for it in texts if it or not strip)

    @property
    def readable_text(self) -> str:
        """The text of what is below it as a browser shows it without style sheets, as `tl text -w` has it: blocks on lines of their own,
        one space between words, without scripts and styles."""
        return self.document._text(lib.tl_node_readable_text, self.number)

    def find_text(self, wanted: str | Pattern[str]) -> list[Node]:
        """The texts below it that hold a text, or in which a pattern of `re` is found, in order, without those in a `template` below it.

        >>> [it.parent.name for it in Document("<p>Rye 3 EUR<p>Wheat").find_text("EUR")]
        ['p']
        """
        if isinstance(wanted, str):
            return [Node(self.document, number) for number, text in self._texts() if wanted in text]
        if isinstance(wanted, re.Pattern):
            return [Node(self.document, number) for number, text in self._texts() if wanted.search(text)]
        raise TypeError(f"what is looked for is a str or a pattern, not {type(wanted).__name__}")

    @property
    def outer_html(self) -> str:
        """It as markup, as browsers serialize it."""
        return self.document._text(lib.tl_node_outer_html, self.number)

    html = outer_html

    @property
    def inner_html(self) -> str:
        """What is inside as markup, of a `template` its contents. Nothing is inside of a text, a comment or a doctype."""
        return self.document._text(lib.tl_node_inner_html, self.number)

    def rows(self) -> list[list[str]]:
        """The rows of a `table`, each with a text for each column: the readable text of the cell that covers the place, so that one that
        spans several says it in each; '' where none does. It is what `tl table` writes as CSV. Of another node it is a ValueError; where
        the table has far more places than its page has bytes it is OutOfProportion."""
        limit = 65536 + 64 * len(self.document._page)
        with self.document._lock:
            status = self.document._bytes.fill(lib.tl_table_csv, self.document._opened(), self.number, limit)
            lines = self.document._bytes.text() if status == DONE else ""
        if status == REFUSED:
            raise ValueError(f"no table: {self!r}")
        if status == NOT_UNDERSTOOD:
            raise OutOfProportion("the table is out of proportion to its page")
        if status != DONE:
            raise error_of(status)
        return list(csv.reader(io.StringIO(lines, newline="")))

    def to_dict(self) -> dict[str, Any]:
        """It with what is below it, as `tl select --json --tree` has it.

        >>> Document("<p id=x>y").select_one("p").to_dict()["children"]
        [{'attributes': {}, 'name': None, 'node': 4, 'start': 8, 'end': 9, 'text': 'y'}]
        """
        rows = self.document._rows()
        made: dict[int, list[dict[str, Any]]] = {}
        first = self._object(made)
        for number in range(self.number + 1, rows.ends[self.number]):
            made[rows.parents[number]].append(Node(self.document, number)._object(made))
        return first

    def _object(self, made: dict[int, list[dict[str, Any]]]) -> dict[str, Any]:
        """It alone; where what is below it goes is put into `made`."""
        kind = self.document._rows().kinds[self.number]
        said: dict[str, Any] = {"attributes": self.attrs, "name": self.name}
        if self.namespace in ("svg", "mathml"):
            said["namespace"] = "svg" if self.namespace == "svg" else "math"
        said["node"] = self.number
        source = self.source
        if source:
            said["start"], said["end"] = source
        if kind in (ELEMENT, CONTENTS):
            made[self.number] = said["children" if kind == ELEMENT else "contents"] = []
        elif kind in (TEXT, COMMENT):
            said["text" if kind == TEXT else "comment"] = self.text
        elif kind == DOCTYPE:
            said["doctype"] = self.outer_html[len("<!DOCTYPE ") : -1]
        return said

    @property
    def source(self) -> tuple[int, int] | None:
        """The bytes of the page, as UTF-8, that it comes from: the first, and that behind the last. Of an element that is its start tag, of
        a comment and of a doctype all of it, of a text what stands between the two tags, comments or doctypes where it begins. None where
        no tag stands for the element, as for a `tbody` that browsers put in, and for the contents of a `template`.

        >>> page = b"<table><TR id=a><td>x"
        >>> start, end = Document(page).select_one("tr").source
        >>> page[start:end]
        b'<TR id=a>'
        """
        start, end = ctypes.c_size_t(), ctypes.c_size_t()
        status = self.document._number(lib.tl_node_source, self.number, start, end)
        return (start.value, end.value) if status == DONE else None

    @property
    def sourceline(self) -> int | None:
        """The line of the page, from 1, where what it comes from begins; None where it comes from nowhere.

        >>> item = Document("<ul>\\n  <li>x").select_one("li")
        >>> item.sourceline, item.sourcepos
        (2, 2)
        """
        source = self.source
        return None if source is None else self.document._line_of(source[0])[0]

    @property
    def sourcepos(self) -> int | None:
        """How many characters stand before that in its line."""
        source = self.source
        if source is None:
            return None
        return characters(self.document._page[self.document._line_of(source[0])[1] : source[0]], source[0])

    def _linked(self, number: int | None) -> Node | None:
        """The node of a number, if there is one."""
        return None if number is None or number == NO_NODE else Node(self.document, number)

    @property
    def parent(self) -> Node | None:
        """The node that it stands in."""
        return self._linked(self.document._rows().parents[self.number])

    @property
    def parents(self) -> Iterator[Node]:
        """The nodes that it stands in, from the innermost out."""
        at = self.parent
        while at is not None:
            yield at
            at = at.parent

    @property
    def first_child(self) -> Node | None:
        """The first node in it."""
        return self._linked(self.number + 1 if self.document._rows().ends[self.number] > self.number + 1 else None)

    @property
    def next_sibling(self) -> Node | None:
        """The node behind it in what it stands in."""
        return self._linked(self.document._rows().next_sibling(self.number))

    @property
    def previous_sibling(self) -> Node | None:
        """The node before it there. That takes a time linear in how deep the tree is."""
        return self._linked(self.document._rows().previous_sibling(self.number))

    @property
    def next_siblings(self) -> Iterator[Node]:
        """Those behind it there, in order."""
        rows = self.document._rows()
        return (Node(self.document, number) for number in rows.siblings(rows.ends[self.number], rows.end(self.number)))

    @property
    def previous_siblings(self) -> Iterator[Node]:
        """Those before it there, from the nearest on."""
        at = self.previous_sibling
        while at is not None:
            yield at
            at = at.previous_sibling

    @property
    def children(self) -> Iterator[Node]:
        """The nodes in it, in order."""
        rows = self.document._rows()
        return (Node(self.document, number) for number in rows.siblings(self.number + 1, rows.ends[self.number]))

    @property
    def descendants(self) -> Iterator[Node]:
        """All nodes below it, in document order; it is none of them."""
        return (Node(self.document, number) for number in range(self.number + 1, self.document._rows().ends[self.number]))

    def select(self, selector: str | Selector) -> list[Node]:
        """The elements below it that match a CSS selector, in order, without those in a `template` below it. The selector is asked of
        the whole page, so it may name what stands around. `:scope` is the node, and `> li` is `:scope > li`.

        >>> items = Document("<ul><li>1<ul><li>2</ul></ul>").select_one("ul")
        >>> len(items.select("li")), len(items.select("> li"))
        (2, 1)
        """
        return self.document._selected(_SELECT_BELOW, selector, self.number)

    def select_one(self, selector: str | Selector) -> Node | None:
        """The first of them; None where there is none."""
        return self.document._selected_one(_FIRST_BELOW, selector, self.number)

    def closest(self, selector: str | Selector) -> Node | None:
        """Of it and the elements that it stands in the innermost one that matches a CSS selector. `:scope` is the node."""
        return self.document._selected_one(_CLOSEST, selector, self.number)

    def matches(self, selector: str | Selector) -> bool:
        """Whether it matches a CSS selector. All but one of a type, ids, classes and attributes (`li.a[href]`) is asked of the whole page."""
        return self.document._said(_MATCHES, selector, ctypes.c_uint8(), self.number) == 1
