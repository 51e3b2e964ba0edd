"""How far elements go by the tree: from the start tag up to where all has come that stands in the element. One isn't whole where something
comes meanwhile that stands elsewhere, or came before.

Edits go by the rules of end tags (end_tags.py). This tells of which elements these take other bytes than their own.
"""
import bisect

from .end_tags import VOID

# So many open elements an end tag looks at.
LOOKED_AT = 512


class Open:
    """An element whose start tag is read, and what is still to come of what stands in it."""

    def __init__(self, at, name, row, awaited, is_whole):
        self.at, self.name, self.row, self.awaited, self.is_whole = at, name, row, awaited, is_whole


def given(row):
    """What the page gives for a node: itself at the place of its token, or the characters of a text at each of their places."""
    places = row.places if row.node.kind == "text" else {row.place}
    return {(row.number, place) for place in places if place is not None}


class Elements:
    """`ends` has how far the element of each start tag goes that is whole: up to a token, which is its own end tag or isn't."""

    def __init__(self, page):
        self.page, self.ends, self.open = page, {}, []
        self.tail = page.begins[page.tail()]
        come = {}
        for one in (it for row in page.rows for it in given(row)):
            come.setdefault(bisect.bisect_right(page.begins, one[1]) - 1, set()).add(one)
        for at in range(page.tail()):
            if at in come:
                self.take(at, come[at])
            elif page.tokens[at][0] == "end":
                self.end(at)
        for it in reversed(self.open):
            if it.is_whole and not it.awaited:
                self.ends[it.at] = page.end_in_tail(it.name)

    def take(self, at, come):
        """Takes what comes of a token."""
        rows = [self.page.rows[number] for number in sorted({number for number, _ in come})]
        self.leave(at, rows)
        for it in self.open:
            it.awaited -= come
        if self.page.tokens[at][0] == "start" and len(rows) == 1 and rows[0].node.kind == "element":
            self.begin(at, rows[0])

    def leave(self, at, rows):
        """Ends the elements in which all has come. One in which these nodes don't stand isn't whole where more is to come."""
        kept = []
        while self.open and not (self.open[-1].awaited and all(self.open[-1].row.holds(row) for row in rows)):
            it = self.open.pop()
            if it.awaited:
                it.is_whole = False
                kept.append(it)
            elif it.is_whole:
                self.ends[it.at] = (at, False)
        self.open += reversed(kept)

    def begin(self, at, row):
        _, name, _, closes = self.page.tokens[at]
        if name in VOID if row.node.is_html() else closes:
            self.ends[at] = (at, False)
            return
        below = {it for inner in self.page.below(row) for it in given(inner) if it[1] < self.tail}
        awaited = {it for it in below if it[1] > row.place}
        self.open.append(Open(at, name, row, awaited, awaited == below))

    def end(self, at):
        """An end tag ends the innermost element of its name, and those in it, where all has come in these."""
        for depth, it in enumerate(reversed(self.open[-LOOKED_AT:])):
            if it.awaited:
                return
            if it.name == self.page.tokens[at][1]:
                for ended in self.open[-1 - depth :]:
                    if ended.is_whole:
                        self.ends[ended.at] = (at, ended is it)
                del self.open[-1 - depth :]
                return
