"""The calls of libtl, and how room is lent to them."""
from __future__ import annotations

import ctypes
import ctypes.util
import os
import struct
from typing import Any, Callable, Sequence

from ._errors import OutOfProportion, TooLong

NO_NODE = 4294967295
DONE, REFUSED, NOT_UNDERSTOOD, OUT_OF_MEMORY, NO_ROOM = range(5)


def _path() -> str:
    """Where the library is: where TLHTML_LIBRARY says, beside this module, or where the system has it."""
    beside = os.path.join(os.path.dirname(os.path.abspath(__file__)), "libtl.so")
    found = os.environ.get("TLHTML_LIBRARY") or (beside if os.path.exists(beside) else ctypes.util.find_library("tl"))
    if not found:
        raise ImportError("libtl.so is not found: install libtl, or set TLHTML_LIBRARY to its path")
    return found


class Handle(ctypes.Structure):
    """tl_document."""

    _fields_ = [("at", ctypes.c_void_p)]


class List(ctypes.Structure):
    """tl_list."""

    _fields_ = [("text", ctypes.c_char_p), ("len", ctypes.c_size_t), ("is_said", ctypes.c_bool)]


class Lists(ctypes.Structure):
    """tl_lists."""

    _fields_ = [
        *((name, List) for name in ("tags", "keys", "link_keys", "link_prefixes", "classes", "id_prefix")),
        ("relative_links", ctypes.c_bool),
        ("nofollow_links", ctypes.c_bool),
        ("policy", ctypes.c_uint8),
    ]


class Change(ctypes.Structure):
    """tl_change."""

    _fields_ = [
        ("key", ctypes.c_char_p),
        ("key_len", ctypes.c_size_t),
        ("value", ctypes.c_char_p),
        ("value_len", ctypes.c_size_t),
        ("node", ctypes.c_uint32),
        ("change", ctypes.c_uint8),
    ]


class NodeEdit(ctypes.Structure):
    """tl_edit."""

    _fields_ = [
        ("content", ctypes.c_char_p),
        ("content_len", ctypes.c_size_t),
        ("node", ctypes.c_uint32),
        ("edit", ctypes.c_uint8),
        ("form", ctypes.c_uint8),
    ]


_LENT = [ctypes.c_char_p, ctypes.c_size_t]
_OUT = [ctypes.c_void_p, ctypes.c_size_t, ctypes.POINTER(ctypes.c_size_t)]
_OF = ctypes.POINTER(Handle)
_PLACE = [ctypes.POINTER(ctypes.c_size_t), ctypes.POINTER(ctypes.c_uint8)]
_NODE = [_OF, ctypes.c_uint32]
_ONE = [ctypes.POINTER(ctypes.c_uint32)]
# (a compiled selector is held as a document is)
_COMPILED = [_OF]

lib = ctypes.CDLL(_path())
for _name, _kind, _words in (
    ("tl_sanitize_html", ctypes.c_uint8, _LENT + _OUT),
    ("tl_sanitize_html_by", ctypes.c_uint8, [ctypes.c_uint8] + _LENT + _OUT),
    ("tl_sanitize_html_with", ctypes.c_uint8, [ctypes.POINTER(Lists)] + _LENT + _OUT + [ctypes.POINTER(ctypes.c_uint8)]),
    ("tl_removed_html", ctypes.c_uint8, [ctypes.POINTER(Lists)] + _LENT + _OUT + [ctypes.POINTER(ctypes.c_uint8)]),
    ("tl_list_options", ctypes.c_uint8, [ctypes.POINTER(Lists)] + _OUT),
    ("tl_refused_word", ctypes.c_uint8, [ctypes.POINTER(Lists)] + _OUT + [ctypes.POINTER(ctypes.c_uint8)]),
    ("tl_edit_css", ctypes.c_uint8, [ctypes.c_uint8] * 2 + _LENT * 3 + _OUT + _PLACE),
    ("tl_patch_css", ctypes.c_uint8, [ctypes.c_uint8] + _LENT * 4 + _OUT + _PLACE),
    ("tl_encoding_of", ctypes.c_uint8, _LENT * 2 + _OUT),
    ("tl_decode_page", ctypes.c_uint8, _LENT * 2 + _OUT),
    ("tl_version", ctypes.c_uint8, _OUT),
    ("tl_parse_html", ctypes.c_uint8, _LENT + [_OF]),
    ("tl_free", None, [_OF]),
    ("tl_node_count", ctypes.c_uint32, [_OF]),
    ("tl_is_quirks", ctypes.c_uint8, [_OF]),
    ("tl_document_html", ctypes.c_uint8, [_OF] + _OUT),
    ("tl_document_pretty_html", ctypes.c_uint8, [_OF] + _OUT),
    ("tl_nodes", ctypes.c_uint8, [_OF] + _OUT),
    ("tl_parts", ctypes.c_uint8, [_OF] + _OUT),
    ("tl_document_links", ctypes.c_uint8, [_OF] + _OUT),
    ("tl_join_url", ctypes.c_uint8, _LENT * 2 + _OUT),
    ("tl_select_css", ctypes.c_uint8, [_OF] + _LENT + _OUT + _PLACE),
    ("tl_select_values", ctypes.c_uint8, [_OF] + _LENT * 2 + _OUT + _PLACE),
    ("tl_patch_nodes", ctypes.c_uint8, [_OF] + _LENT + [ctypes.POINTER(Change), ctypes.c_size_t] + _OUT + _PLACE),
    ("tl_edit_nodes", ctypes.c_uint8, [_OF] + _LENT + [ctypes.POINTER(NodeEdit), ctypes.c_size_t] + _OUT + _PLACE),
    ("tl_first_css", ctypes.c_uint8, [_OF] + _LENT + _ONE + _PLACE),
    ("tl_node_select_css", ctypes.c_uint8, _NODE + _LENT + _OUT + _PLACE),
    ("tl_node_first_css", ctypes.c_uint8, _NODE + _LENT + _ONE + _PLACE),
    ("tl_node_matches_css", ctypes.c_uint8, _NODE + _LENT + [ctypes.POINTER(ctypes.c_uint8)] + _PLACE),
    ("tl_node_closest_css", ctypes.c_uint8, _NODE + _LENT + _ONE + _PLACE),
    ("tl_compile_css", ctypes.c_uint8, _LENT + _COMPILED + _PLACE),
    ("tl_free_compiled", None, _COMPILED),
    ("tl_compiled_select", ctypes.c_uint8, [_OF] + _COMPILED + _OUT),
    ("tl_compiled_first", ctypes.c_uint8, [_OF] + _COMPILED + _ONE),
    ("tl_compiled_select_below", ctypes.c_uint8, _NODE + _COMPILED + _OUT),
    ("tl_compiled_first_below", ctypes.c_uint8, _NODE + _COMPILED + _ONE),
    ("tl_compiled_matches", ctypes.c_uint8, _NODE + _COMPILED + [ctypes.POINTER(ctypes.c_uint8)]),
    ("tl_compiled_closest", ctypes.c_uint8, _NODE + _COMPILED + _ONE),
    ("tl_node_kind", ctypes.c_uint8, _NODE),
    ("tl_node_namespace", ctypes.c_uint8, _NODE),
    ("tl_node_parent", ctypes.c_uint32, _NODE),
    ("tl_node_first_child", ctypes.c_uint32, _NODE),
    ("tl_node_next_sibling", ctypes.c_uint32, _NODE),
    ("tl_node_previous_sibling", ctypes.c_uint32, _NODE),
    ("tl_node_end", ctypes.c_uint32, _NODE),
    ("tl_node_source", ctypes.c_uint8, _NODE + [ctypes.POINTER(ctypes.c_size_t)] * 2),
    ("tl_node_name", ctypes.c_uint8, _NODE + _OUT),
    ("tl_node_attributes", ctypes.c_uint8, _NODE + _OUT),
    ("tl_node_outer_html", ctypes.c_uint8, _NODE + _OUT),
    ("tl_node_inner_html", ctypes.c_uint8, _NODE + _OUT),
    ("tl_attribute", ctypes.c_uint8, _NODE + _LENT + _OUT),
    ("tl_node_text", ctypes.c_uint8, _NODE + _OUT),
    ("tl_node_readable_text", ctypes.c_uint8, _NODE + _OUT),
    ("tl_table_csv", ctypes.c_uint8, _NODE + [ctypes.c_size_t] + _OUT),
):
    getattr(lib, _name).restype, getattr(lib, _name).argtypes = _kind, _words


def error_of(status: int) -> Exception:
    """What a status says that is no answer. What is lent is always a text, so what isn't understood is too long."""
    return TooLong("the page is too long") if status == NOT_UNDERSTOOD else MemoryError("libtl is out of memory")


def page_error_of(status: int, page: bytes) -> Exception:
    """What such a status says of a page whose tree was asked for. Where that is not valid UTF-8, UnicodeDecodeError says where."""
    if status != NOT_UNDERSTOOD or len(page) > 4294967295:
        return error_of(status)
    try:
        page.decode()
    except UnicodeDecodeError as error:
        return error
    return OutOfProportion("the tree of the page is out of proportion")


_LENGTHS = struct.Struct("<QQ")
_LINK = struct.Struct("<QQQ")
_REMOVAL = struct.Struct("<QQQQQ")


class Room:
    """Room that answers are put into. It grows to what is needed and is kept, so that hardly an answer is made twice. One call at a time
    fills it, and what it was filled with is read before the next one does."""

    def __init__(self, kind: Any, first: int) -> None:
        self._kind, self._first = kind, first
        self._items: Any = None
        self._view: memoryview
        self._count = ctypes.c_size_t()

    def _make(self, least: int) -> None:
        self._items = (self._kind * max(least, 1))()
        self._view = memoryview(self._items).cast("B").cast("I" if self._kind is ctypes.c_uint32 else "B")

    def fill(self, call: Callable[..., int], *words: Any, behind: Sequence[Any] = ()) -> int:
        """The status of a call, whose answer is put into the room. `behind` are the words behind that."""
        if self._items is None:
            self._make(self._first)
        while True:
            status = call(*words, self._items, len(self._view), self._count, *behind)
            if status != NO_ROOM:
                return status
            self._make(self._count.value)

    def view(self) -> memoryview:
        """What it was filled with, which stays for as long as nothing else is put there."""
        return memoryview(self._items).cast("B")[: self._count.value * self._view.itemsize]

    def text(self) -> str:
        """The text that it was filled with."""
        return str(self._view[: self._count.value], "utf-8")

    def raw(self) -> bytes:
        """The bytes that it was filled with."""
        return self._view[: self._count.value].tobytes()

    def numbers(self) -> list[int]:
        """The numbers that it was filled with."""
        numbers: list[int] = self._view[: self._count.value].tolist()
        return numbers

    def values(self) -> list[str]:
        """The values that it was filled with, in order."""
        return [it.decode() for it in self.raw().split(b"\xff")[:-1]]

    def attributes(self) -> dict[str, str]:
        """The keys and values that it was filled with, in order."""
        said, at = self.raw(), 0
        pairs: dict[str, str] = {}
        while at < len(said):
            key_len, value_len = _LENGTHS.unpack_from(said, at)
            key = at + _LENGTHS.size
            value = key + key_len
            at = value + value_len
            pairs[said[key:value].decode()] = said[value:at].decode()
        return pairs

    def links(self) -> list[tuple[int, str, str]]:
        """The links that it was filled with, in order: the number of the element, the key and the URL."""
        said, at = self.raw(), 0
        found = []
        while at < len(said):
            number, key_len, url_len = _LINK.unpack_from(said, at)
            key = at + _LINK.size
            url = key + key_len
            at = url + url_len
            found.append((number, said[key:url].decode(), said[url:at].decode()))
        return found

    def removals(self) -> list[tuple[int, int, str, str]]:
        """What goes, that it was filled with, in order: where the start tag stands, the number of why, the name and the key."""
        said, at = self.raw(), 0
        found = []
        while at < len(said):
            start, _end, why, name_len, key_len = _REMOVAL.unpack_from(said, at)
            name = at + _REMOVAL.size
            key = name + name_len
            at = key + key_len
            found.append((start, why, said[name:key].decode(), said[key:at].decode()))
        return found


def room_of(page: bytes) -> Room:
    """Room for what is made of a page."""
    return Room(ctypes.c_char, len(page) + len(page) // 8 + 64)


def utf8(text: object, what: str) -> bytes:
    """A text as UTF-8. What is none is a TypeError that says what was wanted; lone surrogates are no text: UnicodeError says where."""
    if not isinstance(text, str):
        raise TypeError(f"{what} is a str, not {type(text).__name__}")
    return text.encode()


def characters(text: bytes, place: int) -> int:
    """How many characters stand before a byte."""
    return len(text[:place].decode(errors="ignore"))


def decoded(page: bytes, encoding: str | None) -> tuple[bytes, str]:
    """A page in UTF-8, and the name of the encoding that it was in. That says its byte-order mark, else this label of the Encoding
    standard, else the page."""
    label = utf8(encoding, "an encoding") if encoding is not None else b""
    if encoding is not None and not label:
        raise LookupError(f"unknown encoding: {encoding!r}")
    room, name = room_of(page), Room(ctypes.c_char, 64)
    for it, call in ((name, lib.tl_encoding_of), (room, lib.tl_decode_page)):
        status = it.fill(call, label, len(label), page, len(page))
        if status == REFUSED:
            raise LookupError(f"unknown encoding: {encoding!r}")
        if status != DONE:
            raise error_of(status)
    return room.raw(), name.text()


def version() -> str:
    """The version of the library."""
    room = Room(ctypes.c_char, 16)
    status = room.fill(lib.tl_version)
    if status != DONE:
        raise error_of(status)
    return room.text()
