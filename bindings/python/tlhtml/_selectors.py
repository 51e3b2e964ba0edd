"""Selectors of CSS that are read once, and names as they stand in selectors."""
from __future__ import annotations

import ctypes
import threading
from contextlib import contextmanager
from typing import Iterator

from ._calls import DONE, REFUSED, Handle, characters, error_of, lib, utf8
from ._errors import SelectorError


class Selector:
    """A selector of CSS that is read once: of a wrong one the SelectorError comes where it is made. Each call that takes the text of a
    selector takes it too. Below a node it may begin with a combinator, as its text may.

    >>> from tlhtml import Document
    >>> links = Selector("li > a[href]")
    >>> [len(Document(page).select(links)) for page in ("<li><a href=/x>y</a>", "<p>z")]
    [1, 0]
    >>> Selector("li:hover")
    Traceback (most recent call last):
    tlhtml._errors.SelectorError: invalid selector: 'li:hover': at 3: unknown pseudo-class: `hover` (a parsed page has no such state)
    """

    __slots__ = ("_handle", "_is_whole", "_lent", "_lock", "text")

    def __init__(self, text: str) -> None:
        self._lent = utf8(text, "a selector")
        self.text = text
        self._handle, self._lock = Handle(), threading.Lock()
        place, cause = ctypes.c_size_t(), ctypes.c_uint8()
        status = lib.tl_compile_css(self._lent, len(self._lent), self._handle, place, cause)
        if cause.value:
            raise SelectorError(text, characters(self._lent, place.value), cause.value)
        if status != DONE:
            raise error_of(status)
        # (whether it begins with no combinator: without a document nothing is found, and a cause is told all the same)
        status = lib.tl_first_css(Handle(), self._lent, len(self._lent), ctypes.c_uint32(), place, cause)
        if status != REFUSED:
            raise error_of(status)
        self._is_whole = not cause.value

    def __del__(self) -> None:
        if lib is not None and hasattr(self, "_lock"):
            lib.tl_free_compiled(self._handle)

    def __reduce__(self) -> tuple[type[Selector], tuple[str]]:
        return Selector, (self.text,)

    def __str__(self) -> str:
        return self.text

    def __repr__(self) -> str:
        return f"Selector({self.text!r})"

    def __eq__(self, other: object) -> bool:
        return isinstance(other, Selector) and self.text == other.text

    def __hash__(self) -> int:
        return hash(self.text)


@contextmanager
def lent_selector(selector: object, is_below: bool) -> Iterator[Handle | bytes]:
    """What a call is lent for a selector while it lasts: one that was read, or its text, also where another thread asks by it just now, and
    where it begins with a combinator and is asked of no node's inside."""
    if isinstance(selector, Selector) and (is_below or selector._is_whole) and selector._lock.acquire(blocking=False):
        try:
            yield selector._handle
        finally:
            selector._lock.release()
    else:
        yield selector_bytes(selector)


def selector_bytes(selector: object) -> bytes:
    """What a call is lent for a selector."""
    if isinstance(selector, Selector):
        return selector._lent
    if isinstance(selector, str):
        return selector.encode()
    raise TypeError(f"a selector is a str or a Selector, not {type(selector).__name__}")


def css_escape(name: str) -> str:
    """A name as it stands in a selector, so that each of its characters is one of the name: `CSS.escape` of browsers.

    >>> css_escape("1st:item")
    '\\\\31 st\\\\:item'
    >>> from tlhtml import Document
    >>> Document("<p id=a.b>x").select_one(f"#{css_escape('a.b')}").text
    'x'
    """
    utf8(name, "a name")
    if name == "-":
        return "\\-"
    return "".join(_escaped(name, place) for place in range(len(name)))


def _escaped(name: str, place: int) -> str:
    """A character of a name, as the CSS Object Model serializes an identifier."""
    it = name[place]
    if it == "\0":
        return "\ufffd"
    is_first = place == 0 or (place == 1 and name[0] == "-")
    if it < " " or it == "\x7f" or (is_first and it in "0123456789"):
        return f"\\{ord(it):x} "
    if it >= "\x80" or it in "-_" or it.isalnum():
        return it
    return f"\\{it}"
