"""What a page may be given as."""
from __future__ import annotations

import os
from typing import Protocol, Union

from ._calls import decoded


class Readable(Protocol):
    """A file."""

    def read(self) -> str | bytes: ...


Page = Union[str, bytes, bytearray, memoryview, "os.PathLike[str]", Readable]


def page_bytes(page: Page, encoding: str | None = None) -> tuple[bytes, str | None]:
    """What the library is lent for a page, and the name of the encoding that its bytes were in: a str is markup and has none; bytes, a path
    and a file are the bytes of a page, in this encoding or in what they say. Lone surrogates are no text: UnicodeEncodeError says where."""
    if isinstance(page, str):
        if encoding is not None:
            raise TypeError("a page that is a str has no encoding")
        return page.encode(), None
    if isinstance(page, (bytes, bytearray, memoryview)):
        return decoded(bytes(page), encoding)
    if isinstance(page, os.PathLike):
        with open(page, "rb") as file:
            return decoded(file.read(), encoding)
    if hasattr(page, "read"):
        said = page.read()
        if isinstance(said, (str, bytes, bytearray, memoryview)):
            return page_bytes(said, encoding)
        raise TypeError(f"what a file reads is a str or bytes, not {type(said).__name__}")
    raise TypeError(f"a page is a str, bytes, a path or a file, not {type(page).__name__}")
