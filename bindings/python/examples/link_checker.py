"""Names the links of pages that lead to no file beside them, or to no place in the page: link_checker.py PAGE..
Links with a scheme or a host aren't looked at. Status 1 says that some lead nowhere."""
from __future__ import annotations

import os
import re
import sys
from typing import Iterator

from tlhtml import Document, Error


def has_place(document: Document, id: str) -> bool:
    """Whether an element of the document is the place that a link `#id` leads to."""
    quoted = re.sub(r'(["\\])', r"\\\1", id)
    return document.select_one(f'[id="{quoted}"], a[name="{quoted}"]') is not None


def leads(document: Document, page: str, link: str) -> bool:
    """Whether a link of a page leads somewhere."""
    if link.startswith("#"):
        return link == "#" or has_place(document, link[1:])
    if link.startswith("/") or re.match(r"[^:/?#]*:", link):
        return True
    return os.path.exists(os.path.join(os.path.dirname(page), re.split("[?#]", link)[0]))


def lost(page: str) -> Iterator[str]:
    """The links of a page that lead nowhere."""
    with open(page, "rb") as file, Document(file.read()) as document:
        for selector, key in (("a[href]", "href"), ("img[src]", "src")):
            yield from (node[key] for node in document.select(selector) if not leads(document, page, node[key]))


def main(pages: list[str]) -> int:
    count = 0
    for page in pages:
        try:
            for link in lost(page):
                print(f"{page}: {link}")
                count += 1
        except (OSError, UnicodeError, Error) as error:
            print(f"{page}: {error}", file=sys.stderr)
            count += 1
    return 1 if count else 0


if __name__ == "__main__":
    sys.exit(main(sys.argv[1:]))
