"""What edits of a page in its own bytes have to make of it, plainly, and why they are refused.

A page is read as page.py has it. An edit is a list of splices: tokens from one number up to another give way to others. A text is one
token here.
"""
import itertools
import re

from ..html.tokenizer import RCDATA
from .end_tags import IMPLIED, PARTS, RAW, VOID
from .page import Page, PlacedTokenizer

# Behind the start tags of these a browser may read a raw text as markup.
UNSURE = {"svg", "math", "frameset", "template", "noscript", "select"}
MAY_LACK_END_TAG = IMPLIED | PARTS | {"html", "head", "body"}
# Words that change a tag alone.
TAG_WORDS = ("set", "unset")
# Separators are tried at so many places.
TRIED = 6


class NotMeant(Exception):
    """An edit can't be meant for the element of a start tag."""

    def __init__(self, at):
        super().__init__()
        self.at = at


def joined(tokens):
    """Tokens, with texts that stand side by side as one, and without what is read as nothing."""
    out = []
    for token in tokens:
        if token[0] == "text" and out and out[-1][0] == "text":
            out[-1] = ("text", out[-1][1] + token[1])
        elif token[0] != "nothing":
            out.append(token)
    return out


def changed(token, key, value):
    """A start tag with a key set, or unset."""
    pairs = dict(token[2])
    if value is None:
        pairs.pop(key, None)
    elif key in pairs:
        pairs[key] = value
    else:
        pairs = {key: value, **pairs}
    return ("start", token[1], tuple(pairs.items()), token[3])


# What is asked for


def extent(page, at):
    """How far the element of a start tag goes: a kind, and a token."""
    if at not in page.ends:
        return "dropped", at
    end, is_own = page.ends[at]
    if end == at:
        return "alone", at
    if is_own:
        return "whole", end
    return "implied" if page.tokens[at][1] in MAY_LACK_END_TAG else "unclosed", end


def splices(page, at, word, content):
    """What a word asks for of the element of a start tag: (from, until, what is put), of which there may be two."""
    kind, end = extent(page, at)
    front = at + 1
    past = end if kind == "implied" else end + 1
    if word == "before":
        return [(at, at, (content,))]
    if word == "prepend" and kind in ("whole", "implied", "unclosed"):
        return [(front, front, (content,))]
    if kind in ("dropped", "unclosed") or (kind == "alone" and word in ("prepend", "append", "fill")):
        raise NotMeant(at)
    if word == "after" and page.tokens[at][1] in ("html", "body") and kind != "alone":
        raise NotMeant(at)
    if word == "rename":
        return renamed(page, at, content[1], kind, end)
    if word == "unwrap":
        return [(at, front, ())] + ([(end, past, ())] if kind == "whole" else [])
    return {
        "remove": [(at, past, ())],
        "replace": [(at, past, (content,))],
        "fill": [(front, end, (content,))],
        "append": [(end, end, (content,))],
        "after": [(past, past, (content,))],
    }[word]


def renamed(page, at, name, kind, end):
    """The same of another name."""
    old = page.tokens[at][1]
    if old in RAW or name in RAW or (old in VOID) != (name in VOID):
        raise NotMeant(at)
    own = [(at, at + 1, (("renamed", name),))]
    if kind == "whole":
        return [*own, (end, end + 1, (("renamed", name),))]
    return [*own, (end, end, (("end", name),))] if kind == "implied" else own


def gone_without(page, found, word, content):
    """The elements that don't begin in what another one of them takes away."""
    begin = until = 0
    for at in sorted(set(found)):
        if begin < at < until:
            continue
        yield at
        if word in ("remove", "replace", "fill"):
            begin, until = at, splices(page, at, word, content)[0][1]


class LeftOpen:
    """The elements that end without their end tag, by their start tags: `before` has of each token the outermost that ends before it,
    `inside` of each element the outermost in it that ends where this one ends, and `own` those that have got no end tag and need one.
    An inner element comes before an outer one. `</body>` and `</html>` end nothing."""

    def __init__(self, page):
        self.before, self.inside, self.own = {}, {}, set()
        for at, (end, is_own) in sorted(page.ends.items(), key=lambda it: -it[0]):
            if end == at:
                continue
            if end in self.before:
                self.inside[at] = self.before[end]
            if not is_own and page.tokens[at][1] not in ("html", "body"):
                self.before[end] = at
                self.own.add(at)

    def end(self, word, found):
        """A word needs no end tags of what it takes away, nor of tags that go or get another name."""
        if word in ("remove", "unwrap", "replace", "rename"):
            self.own -= set(found)
        if word in ("remove", "replace", "fill"):
            self.own -= {self.inside.get(at) for at in found}


def end_tags(page, at, word, left):
    """The end tags that a word puts in for the element of a start tag: of what is left open before it, or where it ends, or its own."""
    kind, end = extent(page, at)
    closed = [(at, left.before.get(at))] if word in ("before", "replace", "rename", "unwrap") else []
    if kind in ("whole", "implied"):
        closed.append((end, left.inside.get(at) if word in ("append", "rename", "unwrap") else at if word == "after" else None))
    closed = [(token, start) for token, start in closed if start in left.own]
    left.own -= {start for _, start in closed}
    return [(token, token, (-start, 1), (("end", page.tokens[start][1]),)) for token, start in closed]


def asked_of(page, found, word, content):
    """The splices of several elements, in order, as (from, until, the turn, what is put). One that begins in what another takes away goes with
    it; of what is put at one place that of the inner element comes first, and what stands before an element last; of one element what
    stands in it, then its end tag, then what stands after it."""
    asked, left = [], LeftOpen(page)
    left.end(word, found)
    for at in gone_without(page, found, word, content):
        turn = (1, 0) if word == "before" else (-at, 2 if word == "after" else 0)
        asked += [(begin, until, turn, contents) for begin, until, contents in splices(page, at, word, content)]
        asked += end_tags(page, at, word, left)
    return sorted(asked)


# Why it is refused


def is_across(asked):
    """Whether two splices overlap."""
    return any(second[0] < first[1] and first[0] < second[1] for first, second in itertools.pairwise(asked))


def is_unwritten(page, asked):
    """Whether markup comes into a raw text."""
    return any(kind == "markup" and raw_place(page, begin) for begin, _, _, contents in asked for kind, _ in contents)


def raw_place(page, token):
    """The name of the tag whose raw text stands before a token, if what is put there comes into it: where the page ends nothing does."""
    return page.raw_name(token) if token < len(page.tokens) else None


def has_markup(text):
    return "&" in text or "<" in text


def unsure(page):
    """The first start tag behind which a browser may read a raw text as markup."""
    return next((at for at, token in enumerate(page.tokens) if token[0] == "start" and token[1] in UNSURE), len(page.tokens))


def has_raw_markup(page, token):
    """Whether a raw text that has `&` or `<`, or a title, stands behind a token."""
    later = range(token + 1, len(page.tokens))
    return any(page.tokens[at][0] == "text" and has_markup(page.tokens[at][1]) and page.raw_name(at) for at in later)


def misread(page, asked):
    """The first element of which a browser may read what is asked for as markup, and the tag behind which it may, by their tokens; None
    where there is none. In order of the places where something is put."""
    for begin, _, turn, contents in asked:
        for kind, text in contents:
            if kind == "text" and has_markup(text) and page.is_unescaped(begin) and unsure(page) < begin:
                return begin if turn[0] > 0 else -turn[0], unsure(page)
            if kind == "renamed" and text in UNSURE and has_raw_markup(page, begin):
                return -turn[0], begin
    return None


def refusal(page, rows, word, content):
    """What is said of a page in which these elements are found: an expression for it; None where the edit is done."""
    untagged = next((row for row in rows if row.place is None), None)
    if untagged and word != "unset":
        return f"the element that browsers add at byte {page.byte(page.put_in_before(untagged))} has no tag to edit"
    broken = None if word in TAG_WORDS else next((row for row in reversed(rows) if page.crossings(row)), None)
    if broken:
        return not_whole_line(page, broken)
    for place in page.places_of(rows):
        if not page.begins_tag(place):
            at = page.byte(place)
            return f"the element at byte {at} has no start tag" if word in TAG_WORDS else f"no start tag at byte {at}"
    return None if word in TAG_WORDS else refusal_of_elements(page, page.tags_of(rows), word, content)


def line_and_column(page, place):
    """Of a place in a page, from 1, in bytes."""
    before = page.text[:place]
    return f"line {before.count(chr(10)) + 1}, column {len(before.rpartition(chr(10))[2].encode()) + 1}"


def not_whole_line(page, row):
    """What is said of the last element that isn't whole, with a place where it is crossed."""
    places = "|".join(line_and_column(page, at) for at in sorted(page.crossings(row)))
    return rf"only attributes of the element at {line_and_column(page, row.place)} can be edited: .* \(see (?:{places})\)"


def refusal_of_elements(page, found, word, content):
    try:
        asked = asked_of(page, found, word, content)
    except NotMeant as it:
        return f"the element at byte {page.byte(page.begins[it.at])} can't be edited this way: its end tag is missing, or its kind doesn't allow it"
    if is_across(asked):
        return r"the edit of the element at byte \d+ overlaps the edit of another"
    if is_unwritten(page, asked):
        return r"the new content or name can't be written there \(element at byte \d+\)"
    if it := misread(page, asked):
        return misread_line(page, word, *it)
    should, parts = spliced(page, asked)
    if asked and written_so(parts, should) is None:
        return rf"this edit would change how other parts of the page are read \(element at byte {page.byte(page.begins[found[0]])}\)"
    return None


def misread_line(page, word, at, cause):
    """What is said where a browser may read as markup what is asked for."""
    line, other = (page.text.count("\n", 0, page.begins[token]) + 1 for token in (at, cause))
    if word == "rename":
        return f"the element at line {line} can't get that name: a browser may then read .*"
    name = page.tokens[cause][1]
    return f"a browser may read the text as markup in the element at line {line}, after {name} at line {other}: .*"


# What is written


def put(page, token, what):
    """The tokens of what is put before a token, and its bytes."""
    kind, text = what
    if kind == "end":
        return [what], f"</{text}>"
    if kind == "renamed":
        slash = "/" if page.tokens[token][0] == "end" else ""
        tail = re.sub(r"^</?[^\t\n\r\f />]*", "", page.bytes_of(token))
        return [(page.tokens[token][0], text, *page.tokens[token][2:])], f"<{slash}{text}{tail}"
    if kind == "markup":
        return PlacedTokenizer(text).run(), text
    raw = raw_place(page, token)
    escaped = text if raw and raw not in RCDATA else text.replace("&", "&amp;").replace("<", "&lt;")
    return ([("text", text)] if text else []), escaped


def spliced(page, asked):
    """The tokens of a page with these splices, and the parts of its bytes: None where a separator may stand."""
    tokens, parts, at, byte = [], [], 0, 0
    for begin, until, _, contents in asked:
        tokens += page.tokens[at:begin]
        parts.append(page.text[byte : page.begins[begin]])
        for what in contents:
            new, text = put(page, begin, what)
            tokens += new
            parts += [None, text]
        parts.append(None)
        at, byte = until, page.begins[until]
    parts.append(page.text[byte:])
    return joined([*tokens, *page.tokens[at:]]), parts


def written_so(parts, should):
    """The bytes in these parts, with separators where these tokens are read; None where there are none such."""
    gaps = [at for at, part in enumerate(parts) if part is None]
    choices = itertools.product(("", "</>"), repeat=len(gaps)) if len(gaps) <= TRIED else [[it] * len(gaps) for it in ("", "</>")]
    for choice in choices:
        chosen = dict(zip(gaps, choice))
        text = "".join(chosen[at] if part is None else part for at, part in enumerate(parts))
        if joined(Page.tokens_in(text)) == should:
            return text
    return None


def form_of(parts):
    """An expression for bytes in these parts."""
    return re.compile("".join("(?:</>)?" if part is None else re.escape(part) for part in parts), re.DOTALL)
