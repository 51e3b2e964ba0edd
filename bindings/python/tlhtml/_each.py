"""Edits of single nodes: what a function answers of each, and how that is lent to the library."""
from __future__ import annotations

import ctypes
from dataclasses import dataclass
from typing import TYPE_CHECKING, Callable, Iterable, List, Mapping, Optional, Tuple, Union, cast

from ._calls import Change, NodeEdit, utf8
from ._changes import EDITS, content_of

if TYPE_CHECKING:
    from ._document import Node

_BLANKS = " \t\n\f\r"
_SET, _UNSET = 0, 1


@dataclass(frozen=True)
class Edit:
    """What is done with an element, as the function answers it that `Document.edit_each` is given.

    >>> Edit.set("loading", "lazy")
    Edit(what='set', key='loading', value='lazy', form=0)
    >>> Edit.fill(text="3 < 4")
    Edit(what='fill', key='', value='3 < 4', form=0)
    """

    what: str
    """'set', 'unset', 'add_word', 'remove_word', or as `edit` has it."""
    key: str = ""
    """Of the first four the key."""
    value: str = ""
    """The value, the word, the name, or what is put."""
    form: int = 0
    """1 where markup is put."""

    @staticmethod
    def set(key: str, value: str) -> Edit:
        """A key gets a value."""
        return Edit("set", key, value)

    @staticmethod
    def unset(key: str) -> Edit:
        """A key goes."""
        return Edit("unset", key)

    @staticmethod
    def add_word(key: str, word: str) -> Edit:
        """A word is added to the words of a value, as those of `class`, where it isn't among them."""
        return Edit("add_word", key, word)

    @staticmethod
    def remove_word(key: str, word: str) -> Edit:
        """A word of a value goes; the key goes with the last one."""
        return Edit("remove_word", key, word)

    @staticmethod
    def rename(name: str) -> Edit:
        """The element gets another name."""
        return Edit("rename", value=name)

    @staticmethod
    def remove() -> Edit:
        """The element goes."""
        return Edit("remove")

    @staticmethod
    def unwrap() -> Edit:
        """Its tags go, and what is in it stays."""
        return Edit("unwrap")

    @staticmethod
    def replace(*, text: str | None = None, markup: str | None = None) -> Edit:
        """A text, which is escaped, or markup stands in its place."""
        return _put("replace", text, markup)

    @staticmethod
    def fill(*, text: str | None = None, markup: str | None = None) -> Edit:
        """In the place of what is in it."""
        return _put("fill", text, markup)

    @staticmethod
    def prepend(*, text: str | None = None, markup: str | None = None) -> Edit:
        """First in it."""
        return _put("prepend", text, markup)

    @staticmethod
    def append(*, text: str | None = None, markup: str | None = None) -> Edit:
        """Last in it."""
        return _put("append", text, markup)

    @staticmethod
    def before(*, text: str | None = None, markup: str | None = None) -> Edit:
        """Before it."""
        return _put("before", text, markup)

    @staticmethod
    def after(*, text: str | None = None, markup: str | None = None) -> Edit:
        """After it."""
        return _put("after", text, markup)


One = Union[Edit, Mapping[str, Optional[str]]]
"""An edit, or a mapping of keys to the values that they get (None: the key goes)."""
Answer = Union[None, One, Iterable[Union[Edit, Mapping[str, Optional[str]]]]]
"""What such a function answers: one of these, several, or None."""


def _put(what: str, text: str | None, markup: str | None) -> Edit:
    content, form = content_of(what, None, text, markup)
    return Edit(what, value=content, form=form)


class Edits:
    """The edits of the nodes of a document, those of tags and those of elements."""

    def __init__(self) -> None:
        self.changes: List[Tuple[int, int, bytes, bytes]] = []
        self.edits: List[Tuple[int, int, int, bytes]] = []

    def add(self, node: Node, answer: Answer) -> None:
        """Adds what the function answered of a node."""
        if answer is None:
            return
        if isinstance(answer, Edit):
            self._add(node, answer)
        elif isinstance(answer, Mapping):
            for key, value in answer.items():
                self._add(node, Edit.unset(key) if value is None else Edit.set(key, value))
        elif isinstance(answer, (str, bytes)) or not isinstance(answer, Iterable):
            raise TypeError(f"an edit is an Edit, a mapping, several of them or None, not {type(answer).__name__}")
        else:
            for it in cast(Iterable[One], answer):
                self.add(node, it)

    def _add(self, node: Node, edit: Edit) -> None:
        if edit.what in EDITS:
            content = utf8(edit.value, "what is put")
            # (names are in lower case)
            self.edits.append((node.number, EDITS.index(edit.what), edit.form, content.lower() if edit.what == "rename" else content))
            return
        key, value = utf8(edit.key, "a key").lower(), utf8(edit.value, "a value")
        old = node.get(edit.key)
        if edit.what in ("add_word", "remove_word"):
            is_added, words = edit.what == "add_word", _words(old or "")
            if (edit.value in words) == is_added or not edit.value:
                return
            words = [*words, edit.value] if is_added else [it for it in words if it != edit.value]
            self.changes.append((node.number, _SET if words else _UNSET, key, " ".join(words).encode()))
        elif edit.what == "unset":
            self.changes.append((node.number, _UNSET, key, b""))
        elif edit.what != "set":
            raise ValueError(f"no edit: {edit.what!r}")
        elif old != edit.value:
            self.changes.append((node.number, _SET, key, value))

    def lent_changes(self) -> ctypes.Array[Change]:
        """The edits of tags as the library takes them."""
        return (Change * len(self.changes))(*(Change(key, len(key), value, len(value), node, what) for node, what, key, value in self.changes))

    def lent_edits(self) -> ctypes.Array[NodeEdit]:
        """Those of elements."""
        return (NodeEdit * len(self.edits))(*(NodeEdit(content, len(content), node, what, form) for node, what, form, content in self.edits))


def _words(value: str) -> list[str]:
    """The words of a value."""
    for blank in _BLANKS:
        value = value.replace(blank, " ")
    return [it for it in value.split(" ") if it]


EachFunction = Callable[["Node"], Answer]
