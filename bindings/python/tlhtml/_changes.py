"""Pages changed in their own bytes."""
from __future__ import annotations

import ctypes
from typing import Callable

from ._calls import DONE, characters, error_of, lib, page_error_of, room_of, utf8
from ._errors import ChangeError, SelectorError
from ._selectors import Selector, selector_bytes


def set_attribute(html: str, selector: str | Selector, key: str, value: str) -> str:
    """The page with an attribute set in the start tag of each element that matches a CSS selector. No other byte is changed: not the doctype, quotes,
    blanks, nor what browsers mend. If nothing matches it is the page."""
    return _patched(0, html, selector, key, value)


def unset_attribute(html: str, selector: str | Selector, key: str) -> str:
    """The page with a key unset there."""
    return _patched(1, html, selector, key, "")


def _patched(edit: int, html: str, selector: str | Selector, key: str, value: str) -> str:
    # (keys are in lower case)
    return _changed(lib.tl_patch_css, [edit], html, selector, utf8(key, "a key").lower(), utf8(value, "a value"))


EDITS = ("rename", "remove", "unwrap", "replace", "fill", "prepend", "append", "before", "after")


def edit(
    html: str, selector: str | Selector, what: str, *, name: str | None = None, text: str | None = None, markup: str | None = None
) -> str:
    """The page with each element changed where a selector holds. `what` is "rename" with a name, "remove", "unwrap", or one of "replace",
    "fill", "prepend", "append", "before" and "after" with a text, which is escaped, or with markup. No other byte is changed, and what
    is read of the answer is the page with just that changed. If nothing matches it is the page.

    >>> edit("<!DOCTYPE html PUBLIC 'x'><P>one <B>two</B>", "b", "fill", text="3 < 4")
    "<!DOCTYPE html PUBLIC 'x'><P>one <B>3 &lt; 4</B>"
    """
    if what not in EDITS:
        raise ValueError(f"no edit: {what!r} is none of {', '.join(EDITS)}")
    said, form = content_of(what, name, text, markup)
    content = utf8(said, "what is put")
    # (names are in lower case)
    return _changed(lib.tl_edit_css, [EDITS.index(what), form], html, selector, content.lower() if what == "rename" else content)


def content_of(what: str, name: str | None, text: str | None, markup: str | None) -> tuple[str, int]:
    """What is put by an edit, and the number of what it is."""
    wanted = {"rename": (name,), "remove": (), "unwrap": ()}.get(what, (text, markup))
    given = [it for it in (name, text, markup) if it is not None]
    if len(given) != bool(wanted) or any(it not in wanted for it in given):
        raise ValueError(f"{what!r} takes {'a name' if what == 'rename' else 'a text or markup' if wanted else 'nothing else'}")
    return given[0] if given else "", int(markup is not None)


def _changed(call: Callable[..., int], numbers: list[int], html: str, selector: str | Selector, *texts: bytes) -> str:
    """What a call makes of a page and where a selector holds."""
    page, asked = utf8(html, "a page"), selector_bytes(selector)
    words = [*numbers, *(word for it in (asked, *texts, page) for word in (it, len(it)))]
    room, place, cause = room_of(page), ctypes.c_size_t(), ctypes.c_uint8()
    status = room.fill(call, *words, behind=(place, cause))
    if 0 < cause.value < 16:
        raise SelectorError(str(selector), characters(asked, place.value), cause.value)
    look_at_change(page, status, place.value, cause.value)
    return room.text()


def look_at_change(page: bytes, status: int, place: int, cause: int) -> None:
    """Raises what is said of a change of a page that isn't made."""
    if cause:
        raise ChangeError(characters(page, place), cause)
    if status != DONE:
        raise page_error_of(status, page)
