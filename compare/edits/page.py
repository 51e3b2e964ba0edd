"""A page as edits see it, plainly: its tokens and where they stand, its tree, and how far each element of it goes.

The tokens are those of the tokenizer by itself, which knows raw texts by the names of tags (html/tokenizer.py). The tree, in which a selector
finds elements, is that of the standard, without scripts (html/tree_model.py); its nodes know the place of their token. How far an element goes
is told by the rules of end tags (end_tags.py); whether it is whole so, by the nodes that come of its bytes.
"""
import bisect

from ..css.reader import select
from ..html.tokenizer import RCDATA, Tokenizer
from ..html.tree_model import Builder
from .end_tags import RAW, Balance

MARK = "\ufeff"


class PlacedTokenizer(Tokenizer):
    """The tokenizer, with where each token begins in its text. What is read as nothing is a token too: `</>`, and a tag that the end of the
    page cuts."""

    def __init__(self, text):
        super().__init__(text)
        self.begins, self.begin, self.ends, self.is_cut = [], 0, 0, False

    def run(self):
        super().run()
        if self.is_cut:
            self.note(("nothing",), self.begin, len(self.text))
        return self.tokens

    def note(self, token, begin, end):
        self.tokens.append(token)
        self.begins.append(begin)
        self.ends = end

    def take_last(self):
        """Notes the place of the last token, which is no text."""
        self.note(self.tokens.pop(), self.begin, min(self.place, len(self.text)))
        self.is_cut = False

    def emit(self, text):
        count = len(self.tokens)
        super().emit(text)
        self.is_cut = self.is_cut and not text
        if len(self.tokens) > count:
            self.begins.append(self.ends)

    def tag_open(self, character):
        self.begin = self.place - 2
        super().tag_open(character)

    def end_tag_open(self, character):
        super().end_tag_open(character)
        if character == ">":
            self.note(("nothing",), self.begin, self.place)

    def begin_tag(self, is_end):
        super().begin_tag(is_end)
        self.begin, self.is_cut = self.place - (3 if is_end else 2), True

    def emit_tag(self):
        super().emit_tag()
        self.take_last()

    def emit_comment(self):
        super().emit_comment()
        self.take_last()

    def doctype(self, character):
        count = len(self.tokens)
        super().doctype(character)
        if len(self.tokens) > count:
            self.take_last()


def original_places(page):
    """For each place in a page as it is tokenized the place in the page itself."""
    at = 1 if page.startswith(MARK) else 0
    places = []
    while at < len(page):
        places.append(at)
        at += 2 if page.startswith("\r\n", at) else 1
    return [*places, at]


class Row:
    """A node of the tree, with its number, the number behind the last node below it, and the place of its token in the page; of a text the
    places of all its characters too."""

    def __init__(self, node, number, parent, place, places):
        self.node, self.number, self.parent, self.place, self.places, self.end = node, number, parent, place, places, number + 1

    def holds(self, row):
        return self.number <= row.number < self.end


class Attributes:
    """Pairs, as selectors see them."""

    def __init__(self, pairs):
        self.own = [(key.encode(), value.encode()) for key, value in pairs]

    def pairs(self):
        return self.own


def tail_tags(tokens):
    """The end tags of `body` and `html` that stand last in a page, with nothing but white space and comments between and behind them."""
    tags = []
    for at in range(len(tokens) - 1, -1, -1):
        kind, said = tokens[at][0], tokens[at][1:]
        if kind == "end" and said[0] in ("body", "html"):
            tags.insert(0, at)
        elif kind not in ("comment", "nothing") and not (kind == "text" and not said[0].strip("\t\n\f ")):
            break
    return tags


class Page:
    """`begins` has where each token begins, and the end of the page; `ends` how far the element of each start tag goes: up to a token, which is
    its own end tag or isn't."""

    def __init__(self, text):
        tokenizer, original = PlacedTokenizer(text), original_places(text)
        self.text, self.tokens = text, tokenizer.run()
        self.begins = [*(original[it] for it in tokenizer.begins), len(text)]
        self.numbers = {begin: at for at, begin in enumerate(self.begins[:-1])}
        self.rows = []
        self.add_rows(Builder(text.removeprefix(MARK)).run(), None, original)
        self.sources = [(row, self.source(row)) for row in self.rows if row.place is not None]
        self.read_elements()

    def add_rows(self, nodes, parent, original):
        stack = [(node, parent) for node in reversed(nodes)]
        while stack:
            node, parent = stack.pop()
            places = {original[it] for it in node.places if it is not None} if node.kind == "text" else set()
            row = Row(node, len(self.rows), parent, None if node.place is None else original[node.place], places)
            self.rows.append(row)
            stack += [(child, row) for child in reversed(node.children)]
        for row in reversed(self.rows):
            if row.parent:
                row.parent.end = max(row.parent.end, row.end)

    @staticmethod
    def tokens_in(text):
        return PlacedTokenizer(text).run()

    def below(self, row):
        return self.rows[row.number + 1 : row.end]

    # How far elements go

    def tail(self):
        """The token at which the tail begins, or the end of the page."""
        return next(iter(tail_tags(self.tokens)), len(self.tokens))

    def read_elements(self):
        """By the rules of end tags; what the end of the page ends goes up to the tail: `html` to its own last end tag, any other to the first
        of the last end tags."""
        self.ends = Balance().take_all(self.tokens)
        for source, end in self.ends.items():
            if end == (len(self.tokens), False):
                self.ends[source] = self.end_in_tail(self.tokens[source][1])

    def end_in_tail(self, name):
        tags = tail_tags(self.tokens)
        own = [at for at in tags if self.tokens[at][1] == name]
        if name == "html":
            return (own[0], True) if own else (len(self.tokens), False)
        return (tags[0], tags[0] in own) if tags else (len(self.tokens), False)

    # Whether elements are whole

    def source(self, row):
        """Where a node comes from: its token, or of a text what stands behind the token before it that is no text. Where the tokenizer by
        itself reads a raw text, that is where the text begins."""
        if row.node.kind != "text" or row.place is None:
            return row.place
        at = bisect.bisect_right(self.begins, row.place) - 1
        if self.raw_name(at):
            return row.place
        while at and self.tokens[at - 1][0] in ("text", "nothing"):
            at -= 1
        return self.begins[at]

    def stretch(self, row):
        """The bytes of an element by its end tags, from one place up to another; None where its tag begins no element."""
        at = self.numbers.get(row.place)
        if at not in self.ends:
            return None
        end, is_own = self.ends[at]
        return self.begins[at], self.begins[end + 1 if is_own or end == at else end]

    def crossings(self, row):
        """Where what crosses an element comes from, up to the tail: what comes of its bytes and doesn't stand in it, or the other way round.
        It is whole where nothing does."""
        stretch = self.stretch(row)
        if stretch is None:
            return set()
        begin, until = stretch
        tail = self.begins[self.tail()]
        return {at for other, at in self.sources if at < tail and (begin <= at < until) != row.holds(other)}

    # What a selector finds

    def found_rows(self):
        """What a selector may find, and what stands between: all but the contents of templates."""
        kept, rows = set(), []
        for row in self.rows:
            if row.parent is None or row.parent.number in kept and not row.parent.node.is_html("template"):
                kept.add(row.number)
                rows.append(row)
        return rows

    def found(self, selector):
        """The elements at which a selector holds, in order."""
        rows, nodes, numbers = self.found_rows(), [], {}
        for at, row in enumerate(rows):
            node = row.node
            nodes.append(["tag", node.name.encode(), Attributes(node.attributes.items()), []] if node.kind == "element" else [node.kind, b"x"])
            numbers[row.number] = at
            if row.parent:
                nodes[numbers[row.parent.number]][3].append(at)
        return [rows[at] for at in select(nodes, selector)]

    def put_in_before(self, row):
        """Where the first node begins, from one on, that comes of the page."""
        return next((it.place for it in self.rows[row.number :] if it.place is not None), len(self.text))

    @staticmethod
    def places_of(rows):
        """The places of elements that have one, each once, in order."""
        return sorted({row.place for row in rows if row.place is not None})

    def begins_tag(self, place):
        """Whether the tokenizer by itself reads a start tag there."""
        return place in self.numbers and self.tokens[self.numbers[place]][0] == "start"

    def tags_of(self, rows):
        """The start tags of elements."""
        return [self.numbers[place] for place in self.places_of(rows)]

    def byte(self, place):
        return len(self.text[:place].encode())

    def bytes_of(self, token):
        return self.text[self.begins[token] : self.begins[token + 1]]

    # Raw texts

    def raw_name(self, token):
        """The name of the tag whose raw text stands before a token, if one does."""
        while token and self.tokens[token - 1][0] == "text":
            token -= 1
        before = self.tokens[token - 1] if token else ("", "")
        return before[1] if before[0] == "start" and before[1] in RAW else None

    def is_unescaped(self, token):
        """Whether a token stands where no text is escaped."""
        return token < len(self.tokens) and self.raw_name(token) in RAW.difference(RCDATA)
