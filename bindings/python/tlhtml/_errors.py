"""Why there is no answer. Where memory runs out that is a MemoryError."""
from __future__ import annotations

import re

CAUSES = {
    1: "opened here and never closed",
    2: "expected a selector",
    3: "expected a name",
    4: "expected `=`, `~=`, `|=`, `^=`, `$=`, `*=` or `]`",
    5: "expected a value",
    6: "expected the flag `i` or `s`",
    7: "expected `an+b`, `odd` or `even`",
    8: "number above 2147483647",
    9: "unknown pseudo-class",
    10: "pseudo-elements match no element",
    11: "unknown namespace prefix",
    12: "expected an argument in parentheses",
    13: "this pseudo-class takes no argument",
    14: "selectors nested too deeply",
    15: "unexpected text",
    16: "this element has no start tag",
    17: "the new attribute or name can't be written in this tag",
    18: "this edit would change how other parts of the page are read",
    19: "this element can't be edited this way: its end tag is missing, or its kind doesn't allow it",
    20: "this edit overlaps the edit of another element",
    21: "nothing can be inserted after the end of the page",
    22: "the new content or name can't be written there",
    23: "a browser may read raw text as markup here",
    24: "browsers add this element: it has no tag to edit",
    25: "only attributes of this element can be edited: what begins here is in it by its tags or in browsers, but not both",
}

REASONS = {
    1: "invalid tag name: expected a letter a-z, then letters and digits",
    2: "a policy can't allow this element: its content isn't HTML markup",
    3: "a policy can't allow this element: it affects the page around it, or loads other content",
    4: "invalid attribute name: expected a letter a-z, then letters and `-`",
    5: "a policy can't allow this attribute: its value is a script",
    6: "a policy can't allow this attribute: its value isn't a name, text or URL",
    7: "the value of this attribute is a URL, so it has to be a link attribute too",
    8: "invalid link prefix: expected printable ASCII without spaces, `\"`, `<` and `>`",
    9: "URLs that begin so are programs or documents",
    10: "invalid link prefix: expected a scheme with its `:`, or `/`, `#`, `?` or `.` first",
    11: "invalid prefix: expected a letter a-z, then letters and `-`",
    12: "links can't be marked with this attribute: it isn't allowed, or is a link attribute",
    13: "`tbody`, `thead` or `tfoot` has to be allowed too, or rows lose their text",
    14: "`tr` has to be allowed too, or rows lose their text",
    15: "`td` or `th` has to be allowed too, or cells lose their text",
    16: "`caption` has to be allowed too, or captions lose their text",
    17: "`table` has to be allowed too, as this element belongs in one",
    18: "invalid class pattern: expected no spaces and no `\"`, and `*` only at the end",
}


# Why something goes of a page.
WHYS = {
    1: "the tag isn't listed",
    2: "what is in it isn't shown as markup",
    3: "it is no element of HTML",
    4: "the tag may not stand here",
    5: "the attribute isn't listed",
    6: "the value may not stand here",
}


# What to write instead of pseudo-classes that browsers have, as `tl` says it.
_NO_STATES = "a parsed page has no such state"
PSEUDO_CLASSES = {
    **dict.fromkeys(("active", "focus", "focus-visible", "focus-within", "hover", "target", "visited"), _NO_STATES),
    "link": "write `[href]`",
    "any-link": "write `[href]`",
    "checked": "write `[checked]`",
    "disabled": "write `[disabled]`",
    "enabled": "write `:not([disabled])`",
    "required": "write `[required]`",
    "contains": "elements can't be matched by their text",
}


def _hint(cause: int, word: str) -> str:
    """What to do about a cause where this word stands, as `tl` says it; nothing where there is nothing to say."""
    if cause == 9:
        return PSEUDO_CLASSES.get(word.lower(), "write `\\:` for a colon in a name")
    if cause == 4 and word == "!":
        return "write `:not([key=value])`"
    if cause == 5 and word not in ("", "]"):
        return "put the value in quotes"
    if cause in (3, 6, 15) and word and word in "@$%&/!?;{}.":
        return "put a value in quotes; in a name write `\\` before it"
    return "write `\\|` for a bar in a name" if cause == 11 else ""


class Error(Exception):
    """There is no answer."""


class TooLong(Error, ValueError):
    """The page has more than 4294967295 bytes."""


class OutOfProportion(Error, ValueError):
    """The tree of the page is far larger than the page: thousands of tags that are never closed, and are opened again in each of a
    hundred paragraphs, make such a tree."""


class SelectorError(Error, ValueError):
    """A text is an invalid selector: the place of the first character that is wrong, and why."""

    def __init__(self, selector: str, place: int, cause: int) -> None:
        self.selector, self.place, self.cause = selector, place, cause
        super().__init__(selector, place, cause)

    @property
    def word(self) -> str:
        """The name that stands at the place, or else the character."""
        found = re.match(r"[\w-]+|.|", self.selector[self.place :], re.DOTALL)
        return found[0] if found else ""

    def __str__(self) -> str:
        said, word = CAUSES.get(self.cause, f"cause {self.cause}"), self.word
        hint, joint = _hint(self.cause, word), ", found" if said.startswith("expected") else ":"
        found = f"{joint} `{word}`" * bool(word) + f" ({hint})" * bool(word and hint)
        return f"invalid selector: {self.selector!r}: at {self.place}: {said}{found}"


class PolicyError(Error, ValueError):
    """Lists are an invalid policy: the first word that no policy can allow, and why, which says in which list it stands."""

    def __init__(self, word: str, reason: int) -> None:
        self.word, self.reason = word, reason
        super().__init__(word, reason)

    def __str__(self) -> str:
        return f"{self.word!r}: {REASONS.get(self.reason, f'reason {self.reason}')}"


class ChangeError(Error, ValueError):
    """A tag or an element can't be edited this way: the place in the page where it begins, and why."""

    def __init__(self, place: int, cause: int) -> None:
        self.place, self.cause = place, cause
        super().__init__(place, cause)

    def __str__(self) -> str:
        return f"at {self.place}: {CAUSES.get(self.cause, f'cause {self.cause}')}"
