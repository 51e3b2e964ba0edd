"""The rules of end tags by which edits tell how far elements go: which end tags the tokens of a page leave out.

The rules are those of 13.2.6.4.7 ('in body') and of tables, as one mode over the names of the open tags, and no tree: formatting elements
are not opened again, and nothing is moved. A character is a token of its own here, as ("text", character).
"""
from ..html.tokenizer import RAWTEXT, RCDATA, WHITE_SPACE

VOID = set("area base br col embed hr img input keygen link meta param source track wbr".split())
CLOSED_AT_ONCE = {"frame", "basefont", "bgsound"}
RAW = {*RCDATA, *RAWTEXT, "script", "plaintext"}
HEADINGS = {"h1", "h2", "h3", "h4", "h5", "h6"}
SPECIAL = set(
    """address applet area article aside base basefont bgsound blockquote body br button caption center col colgroup dd details
    dir div dl dt embed fieldset figcaption figure footer form frame frameset h1 h2 h3 h4 h5 h6 head header hgroup hr html iframe
    img input keygen li link listing main marquee menu meta nav noembed noframes noscript object ol p param plaintext pre script
    search section select source style summary table tbody td template textarea tfoot th thead title tr track ul wbr xmp""".split()
)
SCOPE = set("applet caption html table td th marquee object template svg math".split())
TABLE_SCOPE = {"html", "table", "template"}
ENDS_PARAGRAPH = HEADINGS | set(
    """address article aside blockquote center details dialog dir div dl fieldset figcaption figure footer header hgroup main menu
    nav ol p search section summary ul pre listing form li dd dt plaintext xmp table hr""".split()
)
ENDS_IN_SCOPE = set(
    """address article aside blockquote button center dd dt details dialog dir div dl fieldset figcaption figure footer header
    hgroup listing main menu nav ol pre search section summary ul form applet marquee object""".split()
)
IN_HEAD = set("base basefont bgsound link meta title noscript noframes style script template".split())
SECTIONS = {"tbody", "thead", "tfoot"}
PARTS = SECTIONS | {"tr", "td", "th", "caption", "col", "colgroup"}
IMPLIED = set("dd dt li optgroup option p rb rp rt rtc".split())
LOOKED_AT = 512


def characters(token):
    """A token, or each character of a text."""
    return [("text", it) for it in token[1]] if token[0] == "text" else [token]


class Name(str):
    """The name of a start tag, with the number of its token."""

    source = None


class Balance:
    """Takes the tokens of a page, and puts in the end tags that are left out. `ends` has how far the element of each start tag goes: up to a
    token, which is its own end tag or isn't."""

    def __init__(self):
        self.open, self.tokens, self.ends, self.drops_feed = [], [], {}, False
        self.source = 0

    def depth(self, names, bounds=()):
        """How many open tags are inside the nearest of some names, above the first of the bounds."""
        for at, name in enumerate(reversed(self.open[-LOOKED_AT:])):
            if name in names:
                return at
            if name in bounds:
                return None
        return None

    def close(self, count):
        for _ in range(count):
            self.tokens.append(("end", self.open.pop()))

    def close_nearest(self, names, bounds=()):
        depth = self.depth(names, bounds)
        self.close(0 if depth is None else depth + 1)

    def close_inside(self, names):
        self.close(self.depth(names) or 0)

    def close_innermost(self, names):
        self.close(bool(self.open) and self.open[-1] in names)

    def close_leading(self, names):
        while self.open and self.open[-1] in names:
            self.close(1)

    def is_foreign(self):
        depth = self.depth({"svg", "math", "foreignobject"})
        return depth is not None and self.open[-1 - depth] != "foreignobject"

    def is_dropped(self, name):
        looked_at = self.open[-LOOKED_AT:]
        if self.is_foreign():
            return False
        if name in ("html", "head", "body"):
            before = {"html": (), "head": ("html",), "body": ("html", "head")}[name]
            return any(it not in before for it in looked_at)
        if name == "form":
            return self.depth({"form"}, {"template"}) is not None
        return name in PARTS and self.depth({"table", "template"}) is None

    def before_start(self, name):
        if name not in IN_HEAD | {"head"}:
            self.close_leading({"head"})
        if self.is_foreign():
            return
        if name == "li":
            self.close_nearest({"li"}, SPECIAL - {"address", "div", "p", "li"})
        if name in ("dd", "dt"):
            self.close_nearest({"dd", "dt"}, SPECIAL - {"address", "div", "p", "dd", "dt"})
        if name in ENDS_PARAGRAPH:
            self.close_nearest({"p"}, SCOPE | {"button"})
        if name in HEADINGS:
            self.close_innermost(HEADINGS)
        if name in ("option", "optgroup", "hr"):
            self.close_innermost({"option"})
        if name in ("optgroup", "hr"):
            self.close_innermost({"optgroup"})
        if name == "button":
            self.close_nearest({"button"}, SCOPE)
        if name in ("a", "nobr"):
            self.close_nearest({name}, SPECIAL)
        if name in ("rb", "rtc", "rt", "rp") and self.depth({"ruby"}, SCOPE) is not None:
            self.close_leading(IMPLIED if name in ("rb", "rtc") else IMPLIED - {"rtc"})
        self.before_part(name)

    def before_part(self, name):
        """The same of a table and its parts."""
        if name == "tr":
            self.close_inside(SECTIONS | {"table", "template"})
        if name in ("td", "th"):
            self.close_inside(SECTIONS | {"tr", "table", "template"})
        if name == "col":
            self.close_inside({"colgroup", "table", "template"})
        if name in SECTIONS | {"caption", "colgroup"}:
            self.close_inside({"table", "template"})
        if name == "table":
            self.close_nearest({"table"}, {"td", "th", "caption", "template"})

    def start(self, tag, pairs, closes):
        name = Name(tag)
        name.source = self.source
        if self.is_dropped(name):
            return
        self.before_start(name)
        foreign = self.is_foreign() or name in ("svg", "math")
        self.tokens.append(("start", name, pairs, False))
        if name in VOID:
            return
        self.drops_feed = name in ("pre", "listing", "textarea")
        self.open.append(name)
        if name in CLOSED_AT_ONCE or (closes and name not in RAW and foreign):
            self.close(1)

    def end(self, name):
        if name == "br":
            self.tokens.append(("start", "br", (), False))
        if name in VOID or name in ("html", "body"):
            return
        if name == "p":
            if self.depth({"p"}, SCOPE | {"button"}) is None and not self.is_foreign():
                self.tokens += [("start", "p", (), False), ("end", "p")]
            self.close_nearest({"p"}, SCOPE | {"button"})
        elif name == "li":
            self.close_nearest({"li"}, SCOPE | {"ol", "ul"})
        elif name in HEADINGS:
            self.close_nearest(HEADINGS, SCOPE)
        elif name in ENDS_IN_SCOPE:
            self.close_nearest({name}, SCOPE)
        elif name in PARTS | {"table"}:
            self.close_nearest({name}, TABLE_SCOPE)
        elif name in ("template", "select", "head"):
            self.close_nearest({name})
        else:
            self.close_nearest({name}, SPECIAL)

    def take(self, token):
        dropped, self.drops_feed = self.drops_feed, False
        if token[0] == "text":
            if token[1] == "\0" or (dropped and token[1] == "\n"):
                return
            if token[1] not in WHITE_SPACE:
                self.close_leading({"head"})
            self.tokens.append(token)
        elif token[0] == "start":
            self.start(*token[1:])
        elif token[0] == "end":
            self.end(token[1])
        elif token[0] == "comment":
            self.tokens.append(token)

    def take_all(self, tokens):
        """Takes tokens and the end of the page, and notes the ends of elements."""
        for source, token in enumerate(tokens):
            self.source, count = source, len(self.tokens)
            for it in characters(token):
                self.take(it)
            self.note(self.tokens[count:], token[0] == "end")
        self.source, count = len(tokens), len(self.tokens)
        self.close(len(self.open))
        self.note(self.tokens[count:], False)
        return self.ends

    def note(self, given, is_end):
        """Notes what a token gives: of the end tags that an end tag gives the last is its own."""
        for at, token in enumerate(given):
            if token[0] == "start" and token[1] in VOID and isinstance(token[1], Name):
                self.ends[token[1].source] = (self.source, False)
            elif token[0] == "end" and isinstance(token[1], Name):
                self.ends[token[1].source] = (self.source, is_end and at == len(given) - 1)
