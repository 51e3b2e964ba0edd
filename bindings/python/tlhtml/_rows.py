"""What stands in the nodes of a document, as the library says it of all of them at once, so that a question of a node is no call."""
from __future__ import annotations

import sys
from typing import Dict, Iterator

from ._calls import NO_NODE

ELEMENT, TEXT, COMMENT, DOCTYPE, CONTENTS = range(1, 6)
# Where the lowest byte of a number stands.
_LOW = 0 if sys.byteorder == "little" else 3


class Rows:
    """Of each node the kind, the namespace, the node that it stands in, and the number behind the last node below it."""

    __slots__ = ("ends", "has_contents", "kinds", "namespaces", "parents")

    def __init__(self, numbers: memoryview) -> None:
        """Of each node there are four numbers."""
        own = numbers.tobytes()
        self.kinds, self.namespaces = own[_LOW::16], own[_LOW + 4 :: 16]
        view = memoryview(own).cast("I")
        self.parents, self.ends = view[2::4], view[3::4]
        self.has_contents = CONTENTS in self.kinds

    def __eq__(self, other: object) -> bool:
        """Whether these are the same nodes at the same places."""
        if not isinstance(other, Rows):
            return NotImplemented
        return all(getattr(self, it) == getattr(other, it) for it in self.__slots__)

    def end(self, number: int) -> int:
        """The number behind what a node stands in."""
        parent = self.parents[number]
        return len(self.kinds) if parent == NO_NODE else self.ends[parent]

    def next_sibling(self, number: int) -> int | None:
        """The node behind a node."""
        end = self.ends[number]
        return end if end < self.end(number) else None

    def previous_sibling(self, number: int) -> int | None:
        """The node before a node: what the node before it in the page stands in, from the innermost out, up to what has the same parent."""
        parent, at = self.parents[number], number - 1
        if at < 0 or at == parent:
            return None
        while self.parents[at] != parent:
            at = self.parents[at]
        return at

    def siblings(self, first: int, end: int) -> Iterator[int]:
        """The nodes that stand one behind the other from a node on."""
        at = first
        while at < end:
            yield at
            at = self.ends[at]

    def texts(self, number: int) -> Iterator[int]:
        """The texts below a node, in order, without those in a `template` below it. A text and a comment have themselves."""
        if self.kinds[number] in (TEXT, COMMENT):
            yield number
        end = self.ends[number]
        at = number + 1
        while self.has_contents:
            contents = self.kinds.find(CONTENTS, at, end)
            if contents < 0:
                break
            yield from self._found(TEXT, at, contents)
            at = self.ends[contents]
        yield from self._found(TEXT, at, end)

    def _found(self, kind: int, first: int, end: int) -> Iterator[int]:
        """The nodes of a kind from one on up to another."""
        find = self.kinds.find
        at = find(kind, first, end)
        while at >= 0:
            yield at
            at = find(kind, at + 1, end)


class Names(Dict[bytes, str]):
    """Names of elements as texts, each made once."""

    def __missing__(self, name: bytes) -> str:
        text = self[name] = name.decode()
        return text


class Parts:
    """What stands in each node itself: of a text and a comment what they say, of an element its tag."""

    __slots__ = ("names", "parts")

    def __init__(self, parts: memoryview) -> None:
        # (no byte 255 stands in UTF-8, and no byte 0 in a name, a key or a value of a page)
        self.parts, self.names = parts.tobytes().split(b"\xff"), Names()

    def name(self, number: int) -> str:
        """The name of an element."""
        return self.names[self.parts[number].partition(b"\0")[0]]

    def attributes(self, number: int) -> dict[str, str]:
        """The keys and values of an element, in order."""
        words = self.parts[number].decode().split("\0")
        return dict(zip(words[1::2], words[2::2])) if len(words) > 1 else {}

    def value(self, number: int, key: bytes) -> str | None:
        """The value of an element at a key."""
        words = self.parts[number].split(b"\0")
        for at in range(1, len(words), 2):
            if words[at] == key:
                return words[at + 1].decode()
        return None
