"""The tree construction of the HTML standard (13.2.6), rule by rule as it is written: over a table of nodes with parents, which are moved.

It is written from the standard alone, and in another form than the definition of `crates/tl_dom_spec`, which knows no parents and
moves nothing. The tokenizer is that of html5lib, but for NUL, and goes on in the state that is set here. A mode is a table of rules: what a
token does by its kind and name, and what anything else does.
"""
from html5lib._tokenizer import HTMLTokenizer
from html5lib.constants import EOF, tokenTypes

HTML, MATH, SVG = "html", "math", "svg"
WHITE_SPACE = "\t\n\f\r "
MARKER = None
HEADINGS = set("h1 h2 h3 h4 h5 h6".split())
FORMATTING = "b big code em font i s small strike strong tt u"
IMPLIED = set("dd dt li optgroup option p rb rp rt rtc".split())
IMPLIED_THOROUGHLY = IMPLIED | set("caption colgroup tbody td tfoot th thead tr".split())
FOREIGN_MARKS = {(MATH, it) for it in "mi mo mn ms mtext annotation-xml".split()} | {(SVG, it) for it in "foreignObject desc title".split()}
TEXT_POINTS = {(MATH, it) for it in "mi mo mn ms mtext".split()}
SPECIAL = FOREIGN_MARKS | {
    (HTML, it)
    for it in """address applet area article aside base basefont bgsound blockquote body br button caption center col colgroup dd
    details dir div dl dt embed fieldset figcaption figure footer form frame frameset h1 h2 h3 h4 h5 h6 head header hgroup hr html
    iframe img input keygen li link listing main marquee menu meta nav noembed noframes noscript object ol p param plaintext pre
    script search section select source style summary table tbody td template textarea tfoot th thead title tr track ul wbr xmp""".split()
}
SCOPE = FOREIGN_MARKS | {(HTML, it) for it in "applet caption html table td th marquee object select template".split()}
LIST_ITEM_SCOPE = SCOPE | {(HTML, "ol"), (HTML, "ul")}
BUTTON_SCOPE = SCOPE | {(HTML, "button")}
TABLE_SCOPE = {(HTML, "html"), (HTML, "table"), (HTML, "template")}
SVG_NAMES = {
    it.lower(): it
    for it in """altGlyph altGlyphDef altGlyphItem animateColor animateMotion animateTransform clipPath feBlend feColorMatrix
    feComponentTransfer feComposite feConvolveMatrix feDiffuseLighting feDisplacementMap feDistantLight feDropShadow feFlood feFuncA
    feFuncB feFuncG feFuncR feGaussianBlur feImage feMerge feMergeNode feMorphology feOffset fePointLight feSpecularLighting
    feSpotLight feTile feTurbulence foreignObject glyphRef linearGradient radialGradient textPath""".split()
}
SVG_KEYS = {
    it.lower(): it
    for it in """attributeName attributeType baseFrequency baseProfile calcMode clipPathUnits diffuseConstant edgeMode filterUnits
    glyphRef gradientTransform gradientUnits kernelMatrix kernelUnitLength keyPoints keySplines keyTimes lengthAdjust
    limitingConeAngle markerHeight markerUnits markerWidth maskContentUnits maskUnits numOctaves pathLength patternContentUnits
    patternTransform patternUnits pointsAtX pointsAtY pointsAtZ preserveAlpha preserveAspectRatio primitiveUnits refX refY
    repeatCount repeatDur requiredExtensions requiredFeatures specularConstant specularExponent spreadMethod startOffset
    stdDeviation stitchTiles surfaceScale systemLanguage tableValues targetX targetY textLength viewBox viewTarget
    xChannelSelector yChannelSelector zoomAndPan""".split()
}
FOREIGN_KEYS = {f"xlink:{it}": f"xlink {it}" for it in "actuate arcrole href role show title type".split()}
FOREIGN_KEYS |= {"xml:lang": "xml lang", "xml:space": "xml space", "xmlns": "xmlns xmlns", "xmlns:xlink": "xmlns xlink"}
BREAKOUTS = """b big blockquote body br center code dd div dl dt em embed h1 h2 h3 h4 h5 h6 head hr i img li listing menu meta nobr ol
p pre ruby s small span strong strike sub sup table tt u ul var""".split()
BLOCKS = """address article aside blockquote center details dialog dir div dl fieldset figcaption figure footer header hgroup main
menu nav ol search section summary ul"""
HEAD_PARTS = "base basefont bgsound link meta noframes script style template title"
TABLE_PARTS = "caption col colgroup tbody td tfoot th thead tr"
QUIRKY_IDS = ("-//w3o//dtd w3 html strict 3.0//en//", "-/w3c/dtd html 4.0 transitional/en", "html")
QUIRKY_BEGINNINGS = tuple(
    """+//silmaril//dtd html pro v0r11 19970101//|-//as//dtd html 3.0 aswedit + extensions//|
-//advasoft ltd//dtd html 3.0 aswedit + extensions//|-//ietf//dtd html 2.0 level 1//|-//ietf//dtd html 2.0 level 2//|
-//ietf//dtd html 2.0 strict level 1//|-//ietf//dtd html 2.0 strict level 2//|-//ietf//dtd html 2.0 strict//|
-//ietf//dtd html 2.0//|-//ietf//dtd html 2.1e//|-//ietf//dtd html 3.0//|-//ietf//dtd html 3.2 final//|-//ietf//dtd html 3.2//|
-//ietf//dtd html 3//|-//ietf//dtd html level 0//|-//ietf//dtd html level 1//|-//ietf//dtd html level 2//|
-//ietf//dtd html level 3//|-//ietf//dtd html strict level 0//|-//ietf//dtd html strict level 1//|
-//ietf//dtd html strict level 2//|-//ietf//dtd html strict level 3//|-//ietf//dtd html strict//|-//ietf//dtd html//|
-//metrius//dtd metrius presentational//|-//microsoft//dtd internet explorer 2.0 html strict//|
-//microsoft//dtd internet explorer 2.0 html//|-//microsoft//dtd internet explorer 2.0 tables//|
-//microsoft//dtd internet explorer 3.0 html strict//|-//microsoft//dtd internet explorer 3.0 html//|
-//microsoft//dtd internet explorer 3.0 tables//|-//netscape comm. corp.//dtd html//|-//netscape comm. corp.//dtd strict html//|
-//o'reilly and associates//dtd html 2.0//|-//o'reilly and associates//dtd html extended 1.0//|
-//o'reilly and associates//dtd html extended relaxed 1.0//|-//sq//dtd html 2.0 hotmetal + extensions//|
-//softquad software//dtd hotmetal pro 6.0::19990601::extensions to html 4.0//|
-//softquad//dtd hotmetal pro 4.0::19971010::extensions to html 4.0//|-//spyglass//dtd html 2.0 extended//|
-//sun microsystems corp.//dtd hotjava html//|-//sun microsystems corp.//dtd hotjava strict html//|
-//w3c//dtd html 3 1995-03-24//|-//w3c//dtd html 3.2 draft//|-//w3c//dtd html 3.2 final//|-//w3c//dtd html 3.2//|
-//w3c//dtd html 3.2s draft//|-//w3c//dtd html 4.0 frameset//|-//w3c//dtd html 4.0 transitional//|
-//w3c//dtd html experimental 19960712//|-//w3c//dtd html experimental 970421//|-//w3c//dtd w3 html//|-//w3o//dtd w3 html 3.0//|
-//webtechs//dtd mozilla html 2.0//|-//webtechs//dtd mozilla html//""".replace("\n", "").split("|")
)
TRANSITIONAL = ("-//w3c//dtd html 4.01 frameset//", "-//w3c//dtd html 4.01 transitional//")
QUIRKY_SYSTEM = "http://www.ibm.com/data/dtd/v11/ibmxhtml1-transitional.dtd"


class Pairs(dict):
    """The attributes of an element, with where the start tag begins that they come from, if one does."""

    def __init__(self, pairs=(), place=None):
        super().__init__(pairs)
        self.place = getattr(pairs, "place", place)


class Node:
    """An element, a text, a comment, a doctype, or the document. Its place is where its token begins: of a text, the end of the tag, comment
    or doctype before its first characters. `places` has that of all its characters."""

    def __init__(self, kind, name="", space=HTML, attributes=(), data=None, place=None):
        self.kind, self.name, self.space, self.attributes, self.data = kind, name, space, Pairs(attributes), data
        self.place = self.attributes.place if kind == "element" else place
        self.places = {place}
        self.parent, self.children = None, []

    key = property(lambda self: (self.space, self.name))

    def is_html(self, *names):
        return self.kind == "element" and self.space == HTML and (not names or self.name in names)

    def is_html_point(self):
        if self.key == (MATH, "annotation-xml"):
            return self.attributes.get("encoding", "").lower() in ("text/html", "application/xhtml+xml")
        return self.space == SVG and self.key in FOREIGN_MARKS

    def add_keys(self, pairs):
        for key, value in pairs.items():
            self.attributes.setdefault(key, value)

    def remove(self):
        if self.parent:
            self.parent.children.remove(self)
            self.parent = None

    def insert(self, node, before=None):
        node.remove()
        node.parent = self
        at = len(self.children) if before is None else next(at for at, it in enumerate(self.children) if it is before)
        self.children.insert(at, node)

    def insert_text(self, text, before=None, place=None):
        at = len(self.children) if before is None else next(at for at, it in enumerate(self.children) if it is before)
        if at and self.children[at - 1].kind == "text":
            self.children[at - 1].data += text
            self.children[at - 1].places.add(place)
        else:
            self.insert(Node("text", data=text, place=place), before)


class Token:
    def __init__(self, kind, name=None, attributes=None, closes=False, data=None, place=None):
        self.kind, self.name, self.attributes, self.closes, self.data, self.place = kind, name, attributes, closes, data, place

    def kinds(self):
        if self.kind != "character":
            return (self.kind,)
        return ("nul", "character") if self.data == "\0" else ("white space", "character") if self.data in WHITE_SPACE else ("character",)


class Mode:
    """The rules of an insertion mode."""

    def __init__(self):
        self.rules = {}

    def on(self, kind, names=None):
        """The rule for tokens of a kind, or for tags of some names."""

        def add(rule):
            for name in names.split() if names else (None,):
                self.rules[kind, name] = rule
            return rule

        return add

    def anything_else(self, rule):
        self.rules[None] = rule
        return rule

    def __call__(self, builder, token):
        keys = [(token.kind, token.name)] if token.name else []
        found = [self.rules.get(it) for it in [*keys, *((it, None) for it in token.kinds()), None]]
        next(it for it in found if it)(builder, token)


def ignored(builder, token):
    pass


def comment_node(token):
    return Node("comment", data=token.data, place=token.place)


def comment(builder, token):
    builder.insert_comment(token)


def character(builder, token):
    builder.insert_character(token.data)


def by(mode_name):
    """By the rules of another mode."""
    return lambda builder, token: MODES[mode_name](builder, token)


class Parser:
    """What html5lib's tokenizer asks of its parser: whether the adjusted current node is foreign."""

    defaultNamespace = HTML

    def __init__(self, builder):
        self.tree, self.builder = self, builder

    @property
    def openElements(self):
        node = self.builder.adjusted_current_node()
        return [type("Open", (), {"namespace": node.space})] if node else []


class Tokenizer(HTMLTokenizer):
    """The tokenizer of html5lib, as the standard has it where html5lib reads a NUL otherwise. It knows where a token begins and ends in its
    text, with line feeds at the ends of lines."""

    def __init__(self, text, **options):
        text = text.replace("\r\n", "\n").replace("\r", "\n")
        super().__init__(text, **options)
        self.length, self.begins = len(text), 0
        # The text is one chunk, so what is left of it tells the place.
        self.stream._defaultChunkSize = len(text) + 1

    def place(self):
        return self.length - (self.stream.chunkSize - self.stream.chunkOffset)

    def tagOpenState(self):
        """Behind a `<` in data, where every start tag, comment and doctype begins."""
        self.begins = self.place() - 1
        return super().tagOpenState()

    def commentStartState(self):
        return self.past_nul(super().commentStartState)

    def commentStartDashState(self):
        return self.past_nul(super().commentStartDashState)

    def past_nul(self, state):
        """Reads a character where a comment starts. Behind a NUL the comment state is next."""
        first = self.stream.char()
        self.stream.unget(first)
        found = state()
        if first == "\0":
            self.state = self.commentState
        return found

    def cdataSectionState(self):
        """13.2.5.69: what a NUL is, tree construction decides."""
        text, char = "", self.stream.char()
        while char is not EOF and not (char == ">" and text.endswith("]]")):
            text += char
            char = self.stream.char()
        text = text if char is EOF else text[:-2]
        if text:
            self.tokenQueue.append({"type": tokenTypes["Characters"], "data": text})
        self.state = self.dataState
        return True


class Builder:
    def __init__(self, text, context=None, is_scripting=False):
        self.document, self.open, self.active, self.templates = Node("document"), [], [], []
        self.mode, self.original, self.pending = "initial", None, ""
        self.head = self.form = self.context = None
        self.is_scripting, self.is_frameset_ok, self.is_fostering, self.is_quirks = is_scripting, True, False, False
        self.skips_feed = self.is_stopped = False
        # Where the last token ends that was no character.
        self.place = 0
        self.tokenizer = Tokenizer(text, parser=Parser(self))
        if context:
            self.begin_fragment(context)

    def begin_fragment(self, context):
        """The steps of 13.4."""
        space, _, name = context.rpartition(" ")
        self.context = Node("element", name, space or HTML)
        raw = {"title": "rcdata", "textarea": "rcdata", "script": "scriptData", "plaintext": "plaintext"}
        raw |= dict.fromkeys("style xmp iframe noembed noframes".split() + ["noscript"] * self.is_scripting, "rawtext")
        if self.context.is_html(*raw):
            self.go_on_in(raw[name])
        root = Node("element", "html")
        self.document.insert(root)
        self.open.append(root)
        if self.context.is_html("template"):
            self.templates.append("in template")
        self.reset_insertion_mode()
        self.form = self.context if self.context.is_html("form") else None

    def go_on_in(self, state):
        self.tokenizer.state = getattr(self.tokenizer, state + "State")

    def run(self):
        kinds = tokenTypes
        for token in self.tokenizer:
            kind, data = token["type"], token.get("data")
            if kind in (kinds["Characters"], kinds["SpaceCharacters"]):
                for it in data:
                    self.take(Token("character", data=it))
            elif kind in (kinds["StartTag"], kinds["EmptyTag"]):
                pairs = Pairs(place=self.tokenizer.begins)
                for key, value in data.items() if hasattr(data, "items") else data:
                    pairs.setdefault(key, value)
                self.take_mark(Token("start", token["name"], pairs, token.get("selfClosing", False)))
            elif kind == kinds["EndTag"]:
                self.take_mark(Token("end", token["name"]))
            elif kind == kinds["Comment"]:
                self.take_mark(Token("comment", data=data, place=self.tokenizer.begins))
            elif kind == kinds["Doctype"]:
                said = (token["name"], token["publicId"], token["systemId"], token["correct"])
                self.take_mark(Token("doctype", data=said, place=self.tokenizer.begins))
        self.take(Token("end of file"))
        return self.open[0].children if self.context else self.document.children

    def take_mark(self, token):
        """Takes a token that is no character."""
        self.take(token)
        self.place = self.tokenizer.place()

    def take(self, token):
        if self.skips_feed and not self.is_stopped:
            self.skips_feed = False
            if token.data == "\n" and token.kind == "character":
                return
        self.process(token)

    def process(self, token):
        """The tree construction dispatcher."""
        if self.is_stopped:
            return
        node = self.adjusted_current_node()
        is_text_point = node is not None and node.key in TEXT_POINTS
        if (
            node is None
            or node.is_html()
            or is_text_point and (token.kind == "character" or token.kind == "start" and token.name not in ("mglyph", "malignmark"))
            or node.key == (MATH, "annotation-xml") and token.kind == "start" and token.name == "svg"
            or node.is_html_point() and token.kind in ("start", "character")
            or token.kind == "end of file"
        ):
            MODES[self.mode](self, token)
        else:
            FOREIGN(self, token)

    def process_by_mode(self, token):
        MODES[self.mode](self, token)

    # The stack of open elements

    @property
    def current(self):
        return self.open[-1] if self.open else None

    def adjusted_current_node(self):
        return self.context if self.context and len(self.open) == 1 else self.current

    def pop_until(self, *names):
        while self.open and not self.open.pop().is_html(*names):
            pass

    def clear_back_to(self, *names):
        while not self.current.is_html(*names):
            self.open.pop()

    def has_in(self, scope, *names):
        for node in reversed(self.open):
            if node.is_html(*names):
                return True
            if node.key in scope:
                return False
        return False

    def has_in_scope(self, *names):
        return self.has_in(SCOPE, *names)

    def has_template(self):
        return any(it.is_html("template") for it in self.open)

    def is_open(self, node):
        return any(it is node for it in self.open)

    def generate_implied_end_tags(self, *but, names=IMPLIED):
        while self.current.is_html(*names) and not (but and self.current.is_html(*but)):
            self.open.pop()

    def close_p(self):
        """Closes a `p` element that is in button scope."""
        if self.has_in(BUTTON_SCOPE, "p"):
            self.generate_implied_end_tags("p")
            self.pop_until("p")

    # Insertions

    def appropriate_place(self, target=None):
        """Where a node is inserted: its parent, and the child that it stands before."""
        target = target or self.current
        if not (self.is_fostering and target.is_html("table", "tbody", "tfoot", "thead", "tr")):
            return target, None
        for at in range(len(self.open) - 1, -1, -1):
            if self.open[at].is_html("template"):
                return self.open[at], None
            if self.open[at].is_html("table"):
                table = self.open[at]
                return (table.parent, table) if table.parent else (self.open[at - 1], None)
        return self.open[0], None

    def insert_element(self, name, attributes=(), space=HTML):
        parent, before = self.appropriate_place()
        node = Node("element", name, space, attributes)
        parent.insert(node, before)
        self.open.append(node)
        return node

    def insert_and_pop(self, name, attributes=()):
        node = self.insert_element(name, attributes)
        self.open.pop()
        return node

    def insert_foreign_element(self, token, space):
        keys = {MATH: {"definitionurl": "definitionURL"}, SVG: SVG_KEYS}[space]
        pairs = {FOREIGN_KEYS.get(key, keys.get(key, key)): value for key, value in token.attributes.items()}
        pairs = Pairs(pairs, token.attributes.place)
        self.insert_element(SVG_NAMES.get(token.name, token.name) if space == SVG else token.name, pairs, space)
        if token.closes:
            self.open.pop()

    def insert_character(self, text):
        parent, before = self.appropriate_place()
        if parent.kind != "document":
            parent.insert_text(text, before, self.place)

    def insert_comment(self, token):
        parent, before = self.appropriate_place() if self.open else (self.document, None)
        parent.insert(comment_node(token), before)

    def parse_raw_text(self, token, state):
        self.insert_element(token.name, token.attributes)
        self.go_on_in(state)
        self.original, self.mode = self.mode, "text"

    # The list of active formatting elements

    def push_active(self, node):
        alike = []
        for entry in reversed(self.active):
            if entry is MARKER:
                break
            if (entry.key, entry.attributes) == (node.key, node.attributes):
                alike.append(entry)
        if len(alike) >= 3:
            self.unlist(alike[-1])
        self.active.append(node)

    def unlist(self, node):
        self.active = [it for it in self.active if it is MARKER or it is not node]

    def is_listed(self, node):
        return any(it is node for it in self.active)

    def reconstruct_formatting(self):
        at = len(self.active)
        while at and self.active[at - 1] is not MARKER and not self.is_open(self.active[at - 1]):
            at -= 1
        for place in range(at, len(self.active)):
            self.active[place] = self.insert_element(self.active[place].name, self.active[place].attributes)

    def clear_to_last_marker(self):
        while self.active and self.active.pop() is not MARKER:
            pass

    def last_active(self, name):
        for entry in reversed(self.active):
            if entry is MARKER:
                return None
            if entry.name == name:
                return entry
        return None

    # Algorithms

    def reset_insertion_mode(self):
        for at in range(len(self.open) - 1, -1, -1):
            is_last = at == 0
            node = self.context if is_last and self.context else self.open[at]
            mode = self.mode_of(node, is_last) if node.is_html() else None
            if mode or is_last:
                self.mode = mode or "in body"
                return

    def mode_of(self, node, is_last):
        if node.name in ("td", "th", "head") and not is_last:
            return "in head" if node.name == "head" else "in cell"
        if node.name == "template":
            return self.templates[-1]
        if node.name == "html":
            return "after head" if self.head else "before head"
        modes = {"tr": "in row", "caption": "in caption", "colgroup": "in column group", "table": "in table", "body": "in body"}
        modes |= {"frameset": "in frameset", "tbody": "in table body", "thead": "in table body", "tfoot": "in table body"}
        return modes.get(node.name)

    def any_other_end_tag(self, name):
        for node in reversed(self.open):
            if node.is_html(name):
                self.generate_implied_end_tags(name)
                while self.open.pop() is not node:
                    pass
                return
            if node.key in SPECIAL:
                return

    def adoption_agency(self, subject):
        if self.current.is_html(subject) and not self.is_listed(self.current):
            self.open.pop()
            return
        for _ in range(8):
            formatting = self.last_active(subject)
            if formatting is None:
                self.any_other_end_tag(subject)
                return
            if not self.is_open(formatting):
                self.unlist(formatting)
                return
            at = next(at for at, it in enumerate(self.open) if it is formatting)
            if any(it.key in SCOPE for it in self.open[at + 1 :]):
                return
            block = next((it for it in self.open[at + 1 :] if it.key in SPECIAL), None)
            if block is None:
                del self.open[at:]
                self.unlist(formatting)
                return
            self.adopt(formatting, at, block)

    def adopt(self, formatting, at, block):
        """A round of the outer loop with a furthest block, from its common ancestor on."""
        ancestor, last, bookmark, count = self.open[at - 1], block, None, 0
        inner = next(place for place, it in enumerate(self.open) if it is block)
        while (inner := inner - 1) > at:
            node = self.open[inner]
            count += 1
            if count > 3:
                self.unlist(node)
            if not self.is_listed(node):
                del self.open[inner]
                continue
            clone = Node("element", node.name, node.space, node.attributes)
            self.active[self.place_of(self.active, node)] = self.open[inner] = clone
            bookmark = bookmark or clone
            clone.insert(last)
            last = clone
        parent, before = self.appropriate_place(ancestor)
        parent.insert(last, before)
        new = Node("element", formatting.name, formatting.space, formatting.attributes)
        for child in list(block.children):
            new.insert(child)
        block.insert(new)
        if bookmark:
            self.active.insert(self.place_of(self.active, bookmark) + 1, new)
            del self.active[self.place_of(self.active, formatting)]
        else:
            self.active[self.place_of(self.active, formatting)] = new
        del self.open[self.place_of(self.open, formatting)]
        self.open.insert(self.place_of(self.open, block) + 1, new)

    @staticmethod
    def place_of(nodes, node):
        return next(at for at, it in enumerate(nodes) if it is node)


INITIAL, BEFORE_HTML, BEFORE_HEAD, IN_HEAD, IN_HEAD_NOSCRIPT, AFTER_HEAD, IN_BODY, TEXT = (Mode() for _ in range(8))
IN_TABLE, IN_TABLE_TEXT, IN_CAPTION, IN_COLUMN_GROUP, IN_TABLE_BODY, IN_ROW, IN_CELL = (Mode() for _ in range(7))
IN_TEMPLATE, AFTER_BODY, IN_FRAMESET, AFTER_FRAMESET, AFTER_AFTER_BODY, AFTER_AFTER_FRAMESET, FOREIGN = (Mode() for _ in range(7))
MODES = {
    "initial": INITIAL, "before html": BEFORE_HTML, "before head": BEFORE_HEAD, "in head": IN_HEAD,
    "in head noscript": IN_HEAD_NOSCRIPT, "after head": AFTER_HEAD, "in body": IN_BODY, "text": TEXT, "in table": IN_TABLE,
    "in table text": IN_TABLE_TEXT, "in caption": IN_CAPTION, "in column group": IN_COLUMN_GROUP, "in table body": IN_TABLE_BODY,
    "in row": IN_ROW, "in cell": IN_CELL, "in template": IN_TEMPLATE, "after body": AFTER_BODY, "in frameset": IN_FRAMESET,
    "after frameset": AFTER_FRAMESET, "after after body": AFTER_AFTER_BODY, "after after frameset": AFTER_AFTER_FRAMESET,
}  # fmt: skip
for _mode in (BEFORE_HTML, BEFORE_HEAD, IN_HEAD, IN_HEAD_NOSCRIPT, AFTER_HEAD, IN_BODY, IN_TABLE, IN_COLUMN_GROUP):
    _mode.on("doctype")(ignored)
for _mode in (AFTER_BODY, IN_FRAMESET, AFTER_FRAMESET, AFTER_AFTER_BODY, AFTER_AFTER_FRAMESET, FOREIGN):
    _mode.on("doctype")(ignored)
for _mode in (BEFORE_HEAD, IN_HEAD, IN_HEAD_NOSCRIPT, AFTER_HEAD, IN_BODY, IN_TABLE, IN_COLUMN_GROUP, IN_FRAMESET, AFTER_FRAMESET, FOREIGN):
    _mode.on("comment")(comment)
for _mode in (INITIAL, BEFORE_HTML, BEFORE_HEAD):
    _mode.on("white space")(ignored)
for _mode in (IN_HEAD, IN_HEAD_NOSCRIPT, AFTER_HEAD, IN_COLUMN_GROUP, IN_FRAMESET, AFTER_FRAMESET):
    _mode.on("white space")(character)
for _mode in (BEFORE_HEAD, IN_HEAD, IN_HEAD_NOSCRIPT, AFTER_HEAD, IN_COLUMN_GROUP, AFTER_BODY, IN_FRAMESET, AFTER_FRAMESET):
    _mode.on("start", "html")(by("in body"))
for _mode in (AFTER_AFTER_BODY, AFTER_AFTER_FRAMESET):
    _mode.on("start", "html")(by("in body"))


# "initial"


@INITIAL.on("comment")
@BEFORE_HTML.on("comment")
@AFTER_AFTER_BODY.on("comment")
@AFTER_AFTER_FRAMESET.on("comment")
def comment_in_the_document(b, token):
    b.document.insert(comment_node(token))


@INITIAL.on("doctype")
def first_doctype(b, token):
    name, public, system, is_correct = token.data
    b.document.insert(Node("doctype", name or "", data=(public, system), place=token.place))
    lower = (public or "").lower()
    b.is_quirks = (
        not is_correct
        or name != "html"
        or lower in QUIRKY_IDS
        or lower.startswith(QUIRKY_BEGINNINGS)
        or (system or "").lower() == QUIRKY_SYSTEM
        or system is None and lower.startswith(TRANSITIONAL)
    )
    b.mode = "before html"


@INITIAL.anything_else
def no_doctype(b, token):
    b.is_quirks, b.mode = True, "before html"
    b.process(token)


# "before html", "before head"


def open_html(b, attributes=()):
    node = Node("element", "html", HTML, attributes)
    b.document.insert(node)
    b.open.append(node)
    b.mode = "before head"


@BEFORE_HTML.on("start", "html")
def html_start(b, token):
    open_html(b, token.attributes)


@BEFORE_HTML.anything_else
def html_missing(b, token):
    open_html(b)
    b.process(token)


BEFORE_HTML.on("end")(ignored)
BEFORE_HTML.on("end", "head body html br")(html_missing)


@BEFORE_HEAD.on("start", "head")
def head_start(b, token):
    b.head = b.insert_element("head", token.attributes)
    b.mode = "in head"


@BEFORE_HEAD.anything_else
def head_missing(b, token):
    b.head = b.insert_element("head")
    b.mode = "in head"
    b.process(token)


BEFORE_HEAD.on("end")(ignored)
BEFORE_HEAD.on("end", "head body html br")(head_missing)


# "in head", "in head noscript", "after head", "text"


@IN_HEAD.on("start", "base basefont bgsound link meta")
def void_in_head(b, token):
    b.insert_and_pop(token.name, token.attributes)


@IN_HEAD.on("start", "title")
def title(b, token):
    b.parse_raw_text(token, "rcdata")


@IN_HEAD.on("start", "noframes style")
def raw_text_in_head(b, token):
    b.parse_raw_text(token, "rawtext")


@IN_HEAD.on("start", "noscript")
def noscript_in_head(b, token):
    if b.is_scripting:
        b.parse_raw_text(token, "rawtext")
    else:
        b.insert_element("noscript", token.attributes)
        b.mode = "in head noscript"


@IN_HEAD.on("start", "script")
def script(b, token):
    b.parse_raw_text(token, "scriptData")


@IN_HEAD.on("start", "template")
def template_start(b, token):
    b.active.append(MARKER)
    b.is_frameset_ok, b.mode = False, "in template"
    b.templates.append("in template")
    b.insert_element("template", token.attributes)


@IN_HEAD.on("end", "template")
def template_end(b, token):
    if b.has_template():
        b.generate_implied_end_tags(names=IMPLIED_THOROUGHLY)
        b.pop_until("template")
        b.clear_to_last_marker()
        b.templates.pop()
        b.reset_insertion_mode()


@IN_HEAD.on("end", "head")
def head_end(b, token):
    b.open.pop()
    b.mode = "after head"


@IN_HEAD.anything_else
def head_left(b, token):
    head_end(b, token)
    b.process(token)


IN_HEAD.on("start", "head")(ignored)
IN_HEAD.on("end")(ignored)
IN_HEAD.on("end", "body html br")(head_left)


@IN_HEAD_NOSCRIPT.on("end", "noscript")
def noscript_end(b, token):
    b.open.pop()
    b.mode = "in head"


@IN_HEAD_NOSCRIPT.anything_else
def noscript_left(b, token):
    noscript_end(b, token)
    b.process(token)


IN_HEAD_NOSCRIPT.on("start", "basefont bgsound link meta noframes style")(by("in head"))
IN_HEAD_NOSCRIPT.on("start", "head noscript")(ignored)
IN_HEAD_NOSCRIPT.on("end")(ignored)
IN_HEAD_NOSCRIPT.on("end", "br")(noscript_left)


@AFTER_HEAD.on("start", "body")
def body_start(b, token):
    b.insert_element("body", token.attributes)
    b.is_frameset_ok, b.mode = False, "in body"


@AFTER_HEAD.on("start", "frameset")
def frameset_start(b, token):
    b.insert_element("frameset", token.attributes)
    b.mode = "in frameset"


@AFTER_HEAD.on("start", HEAD_PARTS)
def back_in_head(b, token):
    b.open.append(b.head)
    IN_HEAD(b, token)
    b.open = [it for it in b.open if it is not b.head]


@AFTER_HEAD.anything_else
def body_missing(b, token):
    b.insert_element("body")
    b.mode = "in body"
    b.process(token)


AFTER_HEAD.on("start", "head")(ignored)
AFTER_HEAD.on("end")(ignored)
AFTER_HEAD.on("end", "template")(template_end)
AFTER_HEAD.on("end", "body html br")(body_missing)
TEXT.on("character")(character)


@TEXT.on("end")
def text_end(b, token):
    b.open.pop()
    b.mode = b.original


@TEXT.on("end of file")
def text_is_cut(b, token):
    text_end(b, token)
    b.process(token)


# "in body"


@IN_BODY.on("character")
def text_in_body(b, token):
    b.reconstruct_formatting()
    b.insert_character(token.data)
    b.is_frameset_ok = False


@IN_BODY.on("white space")
def white_space_in_body(b, token):
    b.reconstruct_formatting()
    b.insert_character(token.data)


@IN_BODY.on("start", "html")
def html_again(b, token):
    if not b.has_template():
        b.open[0].add_keys(token.attributes)


@IN_BODY.on("start", "body")
def body_again(b, token):
    if len(b.open) > 1 and b.open[1].is_html("body") and not b.has_template():
        b.is_frameset_ok = False
        b.open[1].add_keys(token.attributes)


@IN_BODY.on("start", "frameset")
def frameset_in_body(b, token):
    if len(b.open) > 1 and b.open[1].is_html("body") and b.is_frameset_ok:
        b.open[1].remove()
        del b.open[1:]
        frameset_start(b, token)


@IN_BODY.on("end of file")
def end_in_body(b, token):
    if b.templates:
        IN_TEMPLATE(b, token)
    else:
        b.is_stopped = True


@IN_BODY.on("end", "body")
def body_end(b, token):
    if b.has_in_scope("body"):
        b.mode = "after body"


@IN_BODY.on("end", "html")
def html_end(b, token):
    if b.has_in_scope("body"):
        b.mode = "after body"
        b.process(token)


@IN_BODY.on("start", BLOCKS + " p")
def block(b, token):
    b.close_p()
    b.insert_element(token.name, token.attributes)


@IN_BODY.on("start", " ".join(HEADINGS))
def heading(b, token):
    b.close_p()
    if b.current.is_html(*HEADINGS):
        b.open.pop()
    b.insert_element(token.name, token.attributes)


@IN_BODY.on("start", "pre listing")
def preformatted(b, token):
    block(b, token)
    b.skips_feed, b.is_frameset_ok = True, False


@IN_BODY.on("start", "form")
def form_start(b, token):
    if b.form and not b.has_template():
        return
    b.close_p()
    node = b.insert_element("form", token.attributes)
    if not b.has_template():
        b.form = node


def item_start(*names):
    def rule(b, token):
        b.is_frameset_ok = False
        for node in reversed(b.open):
            if node.is_html(*names):
                b.generate_implied_end_tags(node.name)
                b.pop_until(node.name)
                break
            if node.key in SPECIAL and not node.is_html("address", "div", "p"):
                break
        block(b, token)

    return rule


IN_BODY.on("start", "li")(item_start("li"))
IN_BODY.on("start", "dd dt")(item_start("dd", "dt"))


@IN_BODY.on("start", "plaintext")
def plaintext(b, token):
    block(b, token)
    b.go_on_in("plaintext")


@IN_BODY.on("start", "button")
def button(b, token):
    if b.has_in_scope("button"):
        b.generate_implied_end_tags()
        b.pop_until("button")
    other_start(b, token)
    b.is_frameset_ok = False


@IN_BODY.on("end", BLOCKS + " button listing pre select")
def block_end(b, token):
    if b.has_in_scope(token.name):
        b.generate_implied_end_tags()
        b.pop_until(token.name)


@IN_BODY.on("end", "form")
def form_end(b, token):
    if b.has_template():
        block_end(b, token)
        return
    node, b.form = b.form, None
    if node is None or not b.is_open(node):
        return
    at = b.place_of(b.open, node)
    if not any(it.key in SCOPE for it in b.open[at + 1 :]):
        b.generate_implied_end_tags()
        b.open.remove(node)


@IN_BODY.on("end", "p")
def p_end(b, token):
    if not b.has_in(BUTTON_SCOPE, "p"):
        b.insert_element("p")
    b.close_p()


@IN_BODY.on("end", "li dd dt")
def item_end(b, token):
    if b.has_in(LIST_ITEM_SCOPE if token.name == "li" else SCOPE, token.name):
        b.generate_implied_end_tags(token.name)
        b.pop_until(token.name)


@IN_BODY.on("end", " ".join(HEADINGS))
def heading_end(b, token):
    if b.has_in_scope(*HEADINGS):
        b.generate_implied_end_tags()
        b.pop_until(*HEADINGS)


@IN_BODY.on("start", "a")
def anchor(b, token):
    node = b.last_active("a")
    if node:
        b.adoption_agency("a")
        b.unlist(node)
        b.open = [it for it in b.open if it is not node]
    formatting_start(b, token)


@IN_BODY.on("start", FORMATTING)
def formatting_start(b, token):
    b.reconstruct_formatting()
    b.push_active(b.insert_element(token.name, token.attributes))


@IN_BODY.on("start", "nobr")
def nobr(b, token):
    b.reconstruct_formatting()
    if b.has_in_scope("nobr"):
        b.adoption_agency("nobr")
    formatting_start(b, token)


@IN_BODY.on("end", FORMATTING + " a nobr")
def formatting_end(b, token):
    b.adoption_agency(token.name)


@IN_BODY.on("start", "applet marquee object")
def mark(b, token):
    other_start(b, token)
    b.active.append(MARKER)
    b.is_frameset_ok = False


@IN_BODY.on("end", "applet marquee object")
def mark_end(b, token):
    if b.has_in_scope(token.name):
        block_end(b, token)
        b.clear_to_last_marker()


@IN_BODY.on("start", "table")
def table(b, token):
    if not b.is_quirks:
        b.close_p()
    b.insert_element("table", token.attributes)
    b.is_frameset_ok, b.mode = False, "in table"


@IN_BODY.on("start", "area br embed img keygen wbr")
def void(b, token):
    b.reconstruct_formatting()
    b.insert_and_pop(token.name, token.attributes)
    b.is_frameset_ok = False


@IN_BODY.on("end", "br")
def br_end(b, token):
    void(b, Token("start", "br", {}))


@IN_BODY.on("start", "input")
def input_start(b, token):
    if b.context and b.context.is_html("select"):
        return
    if b.has_in_scope("select"):
        b.pop_until("select")
    b.reconstruct_formatting()
    b.insert_and_pop("input", token.attributes)
    if token.attributes.get("type", "").lower() != "hidden":
        b.is_frameset_ok = False


@IN_BODY.on("start", "hr")
def rule_start(b, token):
    b.close_p()
    if b.has_in_scope("select"):
        b.generate_implied_end_tags()
    b.insert_and_pop("hr", token.attributes)
    b.is_frameset_ok = False


@IN_BODY.on("start", "image")
def image(b, token):
    b.process(Token("start", "img", token.attributes, token.closes))


@IN_BODY.on("start", "textarea")
def textarea(b, token):
    b.parse_raw_text(token, "rcdata")
    b.skips_feed, b.is_frameset_ok = True, False


@IN_BODY.on("start", "xmp")
def xmp(b, token):
    b.close_p()
    b.reconstruct_formatting()
    b.is_frameset_ok = False
    b.parse_raw_text(token, "rawtext")


@IN_BODY.on("start", "iframe")
def iframe(b, token):
    b.is_frameset_ok = False
    b.parse_raw_text(token, "rawtext")


@IN_BODY.on("start", "noscript")
def noscript_in_body(b, token):
    if b.is_scripting:
        b.parse_raw_text(token, "rawtext")
    else:
        other_start(b, token)


@IN_BODY.on("start", "select")
def select(b, token):
    if b.context and b.context.is_html("select"):
        return
    if b.has_in_scope("select"):
        b.pop_until("select")
        return
    other_start(b, token)
    b.is_frameset_ok = False


@IN_BODY.on("start", "option optgroup")
def option(b, token):
    if b.has_in_scope("select"):
        b.generate_implied_end_tags(*(["optgroup"] if token.name == "option" else []))
    elif b.current.is_html("option"):
        b.open.pop()
    other_start(b, token)


@IN_BODY.on("start", "rb rtc rp rt")
def ruby(b, token):
    if b.has_in_scope("ruby"):
        b.generate_implied_end_tags(*(["rtc"] if token.name in ("rp", "rt") else []))
    b.insert_element(token.name, token.attributes)


@IN_BODY.on("start", "math svg")
def foreign(b, token):
    b.reconstruct_formatting()
    b.insert_foreign_element(token, token.name)


@IN_BODY.on("start")
def other_start(b, token):
    b.reconstruct_formatting()
    b.insert_element(token.name, token.attributes)


@IN_BODY.on("end")
def other_end(b, token):
    b.any_other_end_tag(token.name)


IN_BODY.on("nul")(ignored)
IN_BODY.on("start", HEAD_PARTS)(by("in head"))
IN_BODY.on("end", "template")(template_end)
IN_BODY.on("start", "param source track")(void_in_head)
IN_BODY.on("start", "noembed")(raw_text_in_head)
IN_BODY.on("start", TABLE_PARTS + " frame head")(ignored)


# "in table", "in table text"


@IN_TABLE.on("character")
def text_in_table(b, token):
    if b.current.is_html("table", "tbody", "template", "tfoot", "thead", "tr"):
        b.pending, b.original, b.mode = "", b.mode, "in table text"
        b.process(token)
    else:
        foster(b, token)


@IN_TABLE.anything_else
def foster(b, token):
    b.is_fostering = True
    IN_BODY(b, token)
    b.is_fostering = False


def clear_back_to_table(b):
    b.clear_back_to("table", "template", "html")


@IN_TABLE.on("start", "caption")
def caption(b, token):
    clear_back_to_table(b)
    b.active.append(MARKER)
    b.insert_element("caption", token.attributes)
    b.mode = "in caption"


@IN_TABLE.on("start", "colgroup")
def column_group(b, token):
    clear_back_to_table(b)
    b.insert_element("colgroup", token.attributes)
    b.mode = "in column group"


@IN_TABLE.on("start", "col")
def column_in_table(b, token):
    column_group(b, Token("start", "colgroup", {}))
    b.process(token)


@IN_TABLE.on("start", "tbody tfoot thead")
def table_body(b, token):
    clear_back_to_table(b)
    b.insert_element(token.name, token.attributes)
    b.mode = "in table body"


@IN_TABLE.on("start", "td th tr")
def row_in_table(b, token):
    table_body(b, Token("start", "tbody", {}))
    b.process(token)


@IN_TABLE.on("end", "table")
def table_end(b, token):
    if b.has_in(TABLE_SCOPE, "table"):
        b.pop_until("table")
        b.reset_insertion_mode()


@IN_TABLE.on("start", "table")
def table_in_table(b, token):
    if b.has_in(TABLE_SCOPE, "table"):
        table_end(b, token)
        b.process(token)


@IN_TABLE.on("start", "input")
def input_in_table(b, token):
    if token.attributes.get("type", "").lower() == "hidden":
        b.insert_and_pop("input", token.attributes)
    else:
        foster(b, token)


@IN_TABLE.on("start", "form")
def form_in_table(b, token):
    if not b.has_template() and not b.form:
        b.form = b.insert_and_pop("form", token.attributes)


IN_TABLE.on("end", TABLE_PARTS + " body html")(ignored)
IN_TABLE.on("start", "style script template")(by("in head"))
IN_TABLE.on("end", "template")(template_end)
IN_TABLE.on("end of file")(end_in_body)
IN_TABLE_TEXT.on("nul")(ignored)


@IN_TABLE_TEXT.on("character")
def pend(b, token):
    b.pending += token.data


@IN_TABLE_TEXT.anything_else
def insert_pending(b, token):
    is_white = all(it in WHITE_SPACE for it in b.pending)
    for it in b.pending:
        (character if is_white else foster)(b, Token("character", data=it))
    b.mode = b.original
    b.process(token)


# "in caption", "in column group", "in table body", "in row", "in cell"


@IN_CAPTION.on("end", "caption")
def caption_end(b, token):
    if b.has_in(TABLE_SCOPE, "caption"):
        b.generate_implied_end_tags()
        b.pop_until("caption")
        b.clear_to_last_marker()
        b.mode = "in table"


@IN_CAPTION.on("start", TABLE_PARTS)
@IN_CAPTION.on("end", "table")
def caption_left(b, token):
    if b.has_in(TABLE_SCOPE, "caption"):
        caption_end(b, token)
        b.process(token)


IN_CAPTION.on("end", "body col colgroup html tbody td tfoot th thead tr")(ignored)
IN_CAPTION.anything_else(by("in body"))


@IN_COLUMN_GROUP.on("start", "col")
def column(b, token):
    b.insert_and_pop("col", token.attributes)


@IN_COLUMN_GROUP.on("end", "colgroup")
def column_group_end(b, token):
    if b.current.is_html("colgroup"):
        b.open.pop()
        b.mode = "in table"


@IN_COLUMN_GROUP.anything_else
def column_group_left(b, token):
    if b.current.is_html("colgroup"):
        column_group_end(b, token)
        b.process(token)


IN_COLUMN_GROUP.on("end", "col")(ignored)
IN_COLUMN_GROUP.on("start", "template")(template_start)
IN_COLUMN_GROUP.on("end", "template")(template_end)
IN_COLUMN_GROUP.on("end of file")(end_in_body)


@IN_TABLE_BODY.on("start", "tr")
def row(b, token):
    b.clear_back_to("tbody", "tfoot", "thead", "template", "html")
    b.insert_element("tr", token.attributes)
    b.mode = "in row"


@IN_TABLE_BODY.on("start", "td th")
def cell_in_table_body(b, token):
    row(b, Token("start", "tr", {}))
    b.process(token)


def leave_table_body(b):
    b.clear_back_to("tbody", "tfoot", "thead", "template", "html")
    b.open.pop()
    b.mode = "in table"


@IN_TABLE_BODY.on("end", "tbody tfoot thead")
def table_body_end(b, token):
    if b.has_in(TABLE_SCOPE, token.name):
        leave_table_body(b)


@IN_TABLE_BODY.on("start", "caption col colgroup tbody tfoot thead")
@IN_TABLE_BODY.on("end", "table")
def table_body_left(b, token):
    if b.has_in(TABLE_SCOPE, "tbody", "tfoot", "thead"):
        leave_table_body(b)
        b.process(token)


IN_TABLE_BODY.on("end", "body caption col colgroup html td th tr")(ignored)
IN_TABLE_BODY.anything_else(by("in table"))


@IN_ROW.on("start", "td th")
def cell(b, token):
    b.clear_back_to("tr", "template", "html")
    b.insert_element(token.name, token.attributes)
    b.mode = "in cell"
    b.active.append(MARKER)


@IN_ROW.on("end", "tr")
def row_end(b, token):
    if b.has_in(TABLE_SCOPE, "tr"):
        b.clear_back_to("tr", "template", "html")
        b.open.pop()
        b.mode = "in table body"


@IN_ROW.on("start", "caption col colgroup tbody tfoot thead tr")
@IN_ROW.on("end", "table")
def row_left(b, token):
    if b.has_in(TABLE_SCOPE, "tr"):
        row_end(b, token)
        b.process(token)


@IN_ROW.on("end", "tbody tfoot thead")
def table_body_end_in_row(b, token):
    if b.has_in(TABLE_SCOPE, token.name):
        row_left(b, token)


IN_ROW.on("end", "body caption col colgroup html td th")(ignored)
IN_ROW.anything_else(by("in table"))


@IN_CELL.on("end", "td th")
def cell_end(b, token):
    if b.has_in(TABLE_SCOPE, token.name):
        b.generate_implied_end_tags()
        b.pop_until(token.name)
        b.clear_to_last_marker()
        b.mode = "in row"


def close_cell(b):
    b.generate_implied_end_tags()
    b.pop_until("td", "th")
    b.clear_to_last_marker()
    b.mode = "in row"


@IN_CELL.on("start", TABLE_PARTS)
def cell_left(b, token):
    if b.has_in(TABLE_SCOPE, "td", "th"):
        close_cell(b)
        b.process(token)


@IN_CELL.on("end", "table tbody tfoot thead tr")
def part_end_in_cell(b, token):
    if b.has_in(TABLE_SCOPE, token.name):
        close_cell(b)
        b.process(token)


IN_CELL.on("end", "body caption col colgroup html")(ignored)
IN_CELL.anything_else(by("in body"))


# "in template"


def turned_to(mode):
    def rule(b, token):
        b.templates[-1] = b.mode = mode
        b.process(token)

    return rule


@IN_TEMPLATE.on("end of file")
def template_is_cut(b, token):
    if not b.has_template():
        b.is_stopped = True
        return
    b.pop_until("template")
    b.clear_to_last_marker()
    b.templates.pop()
    b.reset_insertion_mode()
    b.process(token)


IN_TEMPLATE.anything_else(by("in body"))
IN_TEMPLATE.on("start")(turned_to("in body"))
IN_TEMPLATE.on("start", HEAD_PARTS)(by("in head"))
IN_TEMPLATE.on("start", "caption colgroup tbody tfoot thead")(turned_to("in table"))
IN_TEMPLATE.on("start", "col")(turned_to("in column group"))
IN_TEMPLATE.on("start", "tr")(turned_to("in table body"))
IN_TEMPLATE.on("start", "td th")(turned_to("in row"))
IN_TEMPLATE.on("end")(ignored)
IN_TEMPLATE.on("end", "template")(template_end)


# After the body, and framesets


@AFTER_BODY.on("comment")
def comment_in_html(b, token):
    b.open[0].insert(comment_node(token))


@AFTER_BODY.on("end", "html")
def html_end_after_body(b, token):
    if not b.context:
        b.mode = "after after body"


@AFTER_BODY.on("end of file")
@IN_FRAMESET.on("end of file")
@AFTER_FRAMESET.on("end of file")
@AFTER_AFTER_BODY.on("end of file")
@AFTER_AFTER_FRAMESET.on("end of file")
def stop(b, token):
    b.is_stopped = True


@AFTER_BODY.anything_else
@AFTER_AFTER_BODY.anything_else
def back_in_body(b, token):
    b.mode = "in body"
    b.process(token)


@IN_FRAMESET.on("start", "frameset")
def inner_frameset(b, token):
    b.insert_element("frameset", token.attributes)


@IN_FRAMESET.on("end", "frameset")
def frameset_end(b, token):
    if len(b.open) == 1:
        return
    b.open.pop()
    if not b.context and not b.current.is_html("frameset"):
        b.mode = "after frameset"


@AFTER_FRAMESET.on("end", "html")
def html_end_after_frameset(b, token):
    b.mode = "after after frameset"


IN_FRAMESET.on("start", "frame")(void_in_head)
for _mode in (IN_FRAMESET, AFTER_FRAMESET, AFTER_AFTER_FRAMESET):
    _mode.on("start", "noframes")(by("in head"))
    _mode.anything_else(ignored)
for _mode in (AFTER_BODY, AFTER_AFTER_BODY, AFTER_AFTER_FRAMESET):
    _mode.on("white space")(by("in body"))


# Foreign content (13.2.6.5)


@FOREIGN.on("nul")
def nul_in_foreign(b, token):
    b.insert_character("\ufffd")


@FOREIGN.on("character")
def text_in_foreign(b, token):
    b.insert_character(token.data)
    b.is_frameset_ok = False


@FOREIGN.on("start", " ".join(BREAKOUTS))
@FOREIGN.on("end", "br p")
def break_out(b, token):
    while not (b.current.is_html() or b.current.is_html_point() or b.current.key in TEXT_POINTS):
        b.open.pop()
    b.process_by_mode(token)


@FOREIGN.on("start", "font")
def font(b, token):
    (break_out if token.attributes.keys() & {"color", "face", "size"} else start_in_foreign)(b, token)


@FOREIGN.on("start")
def start_in_foreign(b, token):
    b.insert_foreign_element(token, b.adjusted_current_node().space)


@FOREIGN.on("end")
def end_in_foreign(b, token):
    for at in range(len(b.open) - 1, 0, -1):
        if b.open[at].name.lower() == token.name:
            del b.open[at:]
            return
        if b.open[at - 1].is_html():
            b.process_by_mode(token)
            return


FOREIGN.on("white space")(character)


def lines_of(nodes, depth=0):
    """Trees as the standard's tests write them down."""
    found, pad = [], "| " + "  " * depth
    for it in nodes:
        if it.kind == "text":
            found.append(f'{pad}"{it.data}"')
        elif it.kind == "comment":
            found.append(f"{pad}<!-- {it.data} -->")
        elif it.kind == "doctype":
            ids = "" if it.data == (None, None) else "".join(f' "{one or ""}"' for one in it.data)
            found.append(f"{pad}<!DOCTYPE {it.name}{ids}>")
        else:
            found.append(f"{pad}<{it.name if it.space == HTML else f'{it.space} {it.name}'}>")
            found += [f'{pad}  {key}="{value}"' for key, value in sorted(it.attributes.items())]
            is_template = it.is_html("template")
            found += [f"{pad}  content"] * is_template + lines_of(it.children, depth + 1 + is_template)
    return found
