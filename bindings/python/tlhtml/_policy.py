"""Safe pages: what a policy keeps."""
from __future__ import annotations

import ctypes
import enum
from typing import Iterable, NamedTuple, Sequence

from . import _calls
from ._calls import DONE, REFUSED, Room, characters, error_of, lib, page_error_of, room_of, utf8
from ._errors import WHYS, PolicyError


class Policy(enum.IntEnum):
    """What is kept of a page."""

    BLOG = 0
    """For the text of a blog: no parts of tables, no forms, links to the web, to mail and within the site."""
    COMMENTS = 1
    """For comments of readers: emphasis, quotes, lists and code, and links to the web; no headings, pictures and names."""
    DOCUMENTS = 2
    """For documents: tables and the parts of a document too, and pictures and links beside the page."""

    def lists(
        self,
        *,
        tags: Iterable[str] | None = None,
        keys: Iterable[str] | None = None,
        link_keys: Iterable[str] | None = None,
        link_prefixes: Iterable[str] | None = None,
        classes: Iterable[str] | None = None,
        id_prefix: str | None = None,
        relative_links: bool = False,
        nofollow_links: bool = False,
    ) -> Lists:
        """This policy with lists of one's own instead of those that it has: the tags and keys that may stand, the keys that hold
        links, what links begin with, the patterns of classes that may stand, and what stands in front of `id` and `name` and of links to
        them; whether links beside the page may stand too, and whether each is marked with `rel="nofollow noopener"`. A PolicyError says
        which word no policy can allow.

        >>> sanitize("<p>x<b>y", Policy.COMMENTS.lists(tags=["b"]))
        'x<b>y</b>'

        A list whose first word begins with `+` or `-` changes the policy's own.

        >>> sanitize("<p>x<b>y", Policy.COMMENTS.lists(tags=["-b", "+img"]))
        '<p>xy</p>'

        A `*` at the end of a pattern stands for any characters.

        >>> sanitize("<code class='hljs x'>y", Policy.BLOG.lists(classes=["language-*", "hljs"]))
        '<code class="hljs">y</code>'
        """
        words = (tags, keys, link_keys, link_prefixes, classes)
        prefix = None if id_prefix is None else utf8(id_prefix, "a prefix")
        return Lists(self, [None if it is None else _with_commas(it) for it in words] + [prefix], relative_links, nofollow_links)


def _with_commas(words: Iterable[str]) -> bytes:
    """Words as one text."""
    if not isinstance(words, Iterable):
        raise TypeError(f"a list is a str or some of them, not {type(words).__name__}")
    listed = [utf8(word, "a word of a list") for word in ([words] if isinstance(words, str) else words)]
    for word in listed:
        if b"," in word:
            raise ValueError(f"a word of a list has no comma: {word.decode()!r}")
    return b",".join(listed)


class Lists:
    """A policy with lists of one's own, which `Policy.lists` makes."""

    def __init__(self, policy: Policy, texts: Sequence[bytes | None], relative_links: bool, nofollow_links: bool) -> None:
        # (the structure keeps the texts)
        lent = [_calls.List(it or b"", len(it or b""), it is not None) for it in texts]
        self._lent = _calls.Lists(*lent, relative_links, nofollow_links, policy)
        refused, cause = self._refused_word()
        if refused is not None:
            raise PolicyError(refused, cause)

    @property
    def options(self) -> str:
        """The options of `tl sanitize` that say these lists, one on each line, so that they can be shown; also those of a policy that is
        there.

        >>> Policy.COMMENTS.lists(tags=["a", "b"]).options.splitlines()[0]
        '--tags a,b'
        """
        room = Room(ctypes.c_char, 1024)
        status = room.fill(lib.tl_list_options, self._lent)
        if status != DONE:
            raise error_of(status)
        return room.text()

    def _refused_word(self) -> tuple[str | None, int]:
        """The first word for which they are no policy, if there is one, and the number of why."""
        room, cause = Room(ctypes.c_char, 64), ctypes.c_uint8()
        status = room.fill(lib.tl_refused_word, self._lent, behind=(cause,))
        if status not in (DONE, REFUSED):
            raise error_of(status)
        return (room.text() if status == DONE else None), cause.value

    def _sanitize(self, page: bytes) -> tuple[int, Room]:
        room = room_of(page)
        return room.fill(lib.tl_sanitize_html_with, self._lent, page, len(page), behind=(ctypes.c_uint8(),)), room

    def _removed(self, page: bytes) -> tuple[int, Room]:
        room = Room(ctypes.c_char, 64)
        return room.fill(lib.tl_removed_html, self._lent, page, len(page), behind=(ctypes.c_uint8(),)), room


class Removal(NamedTuple):
    """What goes of a page: an element, or an attribute of one that stays."""

    tag: str
    """The name of the element."""
    key: str | None
    """The key of the attribute; None where the element itself goes."""
    why: str
    """Why it goes."""
    sourceline: int
    """The line of the page, from 1, where the start tag of the element stands."""
    sourcepos: int
    """How many characters stand before it there."""


def sanitize(html: str, policy: Policy | Lists = Policy.BLOG) -> str:
    """What a policy keeps of a page, so that a browser builds just that: no scripts, no handlers of events, no styles, and links where
    the policy lets them lead. What people type is read as browsers read it, so `I <3 you` stays a text. The answer is to stand in an
    ordinary element of a page that is served as UTF-8."""
    page = utf8(html, "a page")
    if isinstance(policy, Lists):
        status, room = policy._sanitize(page)
    elif isinstance(policy, int):
        room = room_of(page)
        status = room.fill(lib.tl_sanitize_html_by, Policy(policy), page, len(page))
    else:
        raise TypeError(f"a policy is a Policy or its lists, not {type(policy).__name__}")
    if status != DONE:
        raise page_error_of(status, page)
    return room.text()


def removed(html: str, policy: Policy | Lists = Policy.BLOG) -> list[Removal]:
    """What goes of a page by a policy, in the order of the page, so that its author can be told: each element that goes, but those in one
    that goes whole, and of each that stays the attributes that go. Values that change aren't told, nor is an element that nobody wrote, as
    a `tbody` that browsers put in.

    >>> for it in removed("<p onclick=f()>x<script>y</script>"):
    ...     print(f"{it.sourceline}:{it.sourcepos}", it.tag, it.key, it.why)
    1:0 p onclick the attribute isn't listed
    1:16 script None what is in it isn't shown as markup
    """
    page = utf8(html, "a page")
    if not isinstance(policy, (Lists, int)):
        raise TypeError(f"a policy is a Policy or its lists, not {type(policy).__name__}")
    lists = policy if isinstance(policy, Lists) else Policy(policy).lists()
    status, room = lists._removed(page)
    if status != DONE:
        raise page_error_of(status, page)
    found = room.removals()
    places = _places(page.removeprefix(b"\xef\xbb\xbf"), (start for start, *_ in found))
    return [Removal(tag, key or None, WHYS.get(why, f"cause {why}"), *places[start]) for start, why, tag, key in found]


def _places(text: bytes, starts: Iterable[int]) -> dict[int, tuple[int, int]]:
    """Of bytes of a text the line, from 1, and how many characters stand before each there, in one walk over the text."""
    places, at, line, column = {}, 0, 1, 0
    for start in sorted(set(starts)):
        lines = text[at:start].split(b"\n")
        if len(lines) > 1:
            line, column = line + len(lines) - 1, 0
        column += characters(lines[-1], len(lines[-1]))
        at = start
        places[start] = (line, column)
    return places
