"""Selectors of CSS over documents of `tl`: what a text stands for and where that holds, plainly and slowly. It is written from
Selectors Level 4 and CSS Syntax Level 3, by recursion where the crate has loops. A selector is a tree:
  ("any",) ("name", n) ("id", v) ("class", c) ("has", key, op, value, fold)  op None: the key is there
  ("root",) ("empty",)
  ("not", e) ("both", a, b) ("either", a, b)
  ("at", relation, e)      e holds at a node that stands in the relation to this one
  ("nth", end, a, b, e)    e holds here, and this is the (a k + b)-th of its siblings from that end where e holds, for some k >= 0
  ("nth-type", end, a, b)  the same among the siblings of the same name
Relations: parent ancestor previous earlier, child below next later.
"""
WHITE = b" \t\n\r\x0c"
HEX = b"0123456789abcdefABCDEF"
MOST = 2 ** 31 - 1
# How many selectors may wait for those inside them where a simple selector begins.
DEEPEST = 58
# Pseudo-classes without an argument, and what each stands for.
PLAIN = {
    "first-child": ("nth", "front", 0, 1, ("any",)),
    "last-child": ("nth", "back", 0, 1, ("any",)),
    "only-child": ("both", ("nth", "front", 0, 1, ("any",)), ("nth", "back", 0, 1, ("any",))),
    "first-of-type": ("nth-type", "front", 0, 1),
    "last-of-type": ("nth-type", "back", 0, 1),
    "only-of-type": ("both", ("nth-type", "front", 0, 1), ("nth-type", "back", 0, 1)),
    "root": ("root",),
    "empty": ("empty",),
}
# Those with one.
CALLS = ("not", "is", "where", "has", "nth-child", "nth-last-child", "nth-of-type", "nth-last-of-type")


class CssError(Exception):
    def __init__(self, at, cause):
        super().__init__(f"at {at}: {cause}")
        self.at, self.cause = at, cause


def is_name_byte(b):
    return b >= 128 or chr(b).isalnum() or b in b"-_"


def lower(b):
    return bytes(c + 32 if 65 <= c <= 90 else c for c in b)


class Reader:
    def __init__(self, text):
        self.t, self.i = text, 0

    def peek(self, k=0):
        return self.t[self.i + k] if self.i + k < len(self.t) else -1

    def white(self):
        """Passes white space and comments; whether there was white space."""
        seen = False
        while True:
            self.comments()
            if self.peek() < 0 or self.peek() not in WHITE:
                return seen
            self.i += 1
            seen = True

    def comments(self):
        while self.t[self.i : self.i + 2] == b"/*":
            end = self.t.find(b"*/", self.i + 2)
            if end < 0:
                raise CssError(self.i, "comment is not closed")
            self.i = end + 2

    def inside(self):
        """Passes comments between the parts of a simple selector, where white space may not stand; one that isn't closed stays."""
        while self.t[self.i : self.i + 2] == b"/*" and b"*/" in self.t[self.i + 2 :]:
            self.i = self.t.find(b"*/", self.i + 2) + 2

    def bar(self, star):
        """Passes a `|`, and a `*` before it where one is asked for, with comments; whether it stands here."""
        at = self.i
        if star and self.peek() == 0x2A:
            self.i += 1
            self.inside()
        elif star:
            return False
        if self.peek() != 0x7C:
            self.i = at
            return False
        self.i += 1
        self.inside()
        return True

    def escape(self):
        """From after a backslash, which no line feed follows: the bytes that it stands for."""
        j = self.i
        while j < len(self.t) and j < self.i + 6 and self.t[j] in HEX:
            j += 1
        if j == self.i:
            n = 1
            while self.i + n < len(self.t) and self.t[self.i + n] & 0xC0 == 0x80:
                n += 1
            out = self.t[self.i : self.i + n]
            self.i += n
            return out
        code = int(self.t[self.i : j], 16)
        self.i = j
        if self.t[self.i : self.i + 2] == b"\r\n":
            self.i += 2
        elif self.peek() >= 0 and self.peek() in WHITE:
            self.i += 1
        if code == 0 or 0xD800 <= code < 0xE000 or code > 0x10FFFF:
            code = 0xFFFD
        return chr(code).encode()

    def begins_name(self):
        b = self.peek()
        return b >= 0 and (is_name_byte(b) or b == 0x5C and self.peek(1) >= 0 and self.peek(1) not in b"\n\r\x0c")

    def name(self):
        """One or more name bytes and escapes."""
        if not self.begins_name():
            raise CssError(self.i, "name is missing")
        out = b""
        while self.begins_name():
            if self.peek() == 0x5C:
                self.i += 1
                out += self.escape()
            else:
                out += self.t[self.i : self.i + 1]
                self.i += 1
        return out

    def string(self):
        q, start = self.peek(), self.i
        self.i += 1
        out = b""
        while True:
            b = self.peek()
            if b < 0 or b in b"\n\r\x0c":
                raise CssError(start, "quote is not closed")
            self.i += 1
            if b == q:
                return out
            if b == 0x5C:
                if self.peek() < 0:
                    raise CssError(start, "quote is not closed")
                if self.t[self.i : self.i + 2] == b"\r\n":
                    self.i += 2
                elif self.peek() in b"\n\r\x0c":
                    self.i += 1
                else:
                    out += self.escape()
            else:
                out += bytes([b])

    # selectors

    def list(self, waiting, relative, closing, opened=None):
        """Complex selectors with commas between, up to the end or to `)`, which is passed; so many selectors wait outside."""
        if opened is None:
            opened = self.i - 1
        found = None
        while True:
            self.white()
            one = self.complex(waiting + (found is not None), relative, closing)
            found = one if found is None else ("either", found, one)
            b = self.peek()
            if b == 0x2C:
                self.i += 1
                continue
            if b < 0:
                if closing:
                    raise CssError(opened, "bracket is not closed")
                return found
            self.i += 1  # the `)`
            return found

    def combinator(self):
        b = self.peek()
        if b in (0x3E, 0x2B, 0x7E):
            self.i += 1
            self.white()
            return chr(b)
        return None

    def complex(self, waiting, relative, closing):
        parts = []
        joint = " "
        if relative:
            joint = self.combinator() or " "
        while True:
            before = len(parts) if relative else 0
            parts.append((joint, self.compound(waiting + before, bool(parts) and not relative)))
            white = self.white()
            b = self.peek()
            if b < 0 or b == 0x2C or closing and b == 0x29:
                break
            joint = self.combinator() or (" " if white else None)
            if joint is None:
                # something stands right after a compound which can't stand there
                self.bad()
        if not relative:
            e = parts[0][1]
            for joint, part in parts[1:]:
                e = ("both", ("at", {" ": "ancestor", ">": "parent", "+": "previous", "~": "earlier"}[joint], e), part)
            return e
        down = {" ": "below", ">": "child", "+": "next", "~": "later"}
        joint, part = parts[-1]
        e = ("at", down[joint], part)
        for joint, part in reversed(parts[:-1]):
            e = ("at", down[joint], ("both", part, e))
        return e

    def bad(self):
        b = self.peek()
        if b == 0x7C:
            raise CssError(self.i, "namespace")
        raise CssError(self.i, "selector is missing" if b < 0 or b in b",)>+~" else "unexpected byte")

    def compound(self, waiting, begun):
        """Simple selectors side by side; `begun` says whether they are put to one that waits besides."""
        e = None

        def taken(at, part):
            if waiting + (begun or e is not None) > DEEPEST:
                raise CssError(at, "too deep")
            return part() if e is None else ("both", e, part())

        at, named = self.i, self.type()
        if named:
            e = taken(at, lambda: named)
        while True:
            if e is not None:
                self.comments()
            at = self.i
            rest = self.simple(waiting + (begun or e is not None))
            if rest:
                e = taken(at, rest)
            elif e is None or self.peek() == 0x7C:
                self.bad()
            else:
                return e

    def type(self):
        """A name or a `*`, with a namespace or without, if one stands here."""
        if self.bar(star=False):
            self.local()
            return ("not", ("any",))
        if self.bar(star=True):
            return self.local()
        if self.peek() == 0x2A:
            self.i += 1
            return ("any",)
        return ("name", lower(self.name())) if self.begins_name() else None

    def simple(self, waiting):
        """What reads the rest of a simple selector and answers it, if one stands here."""
        b = self.peek()
        if b in (0x23, 0x2E):
            self.i += 1
            if b == 0x2E:
                self.inside()
            part = ("id" if b == 0x23 else "class", self.name())
            return lambda: part
        if b == 0x5B:
            part = self.attribute()
            return lambda: part
        return self.pseudo(waiting) if b == 0x3A else None

    def local(self):
        """What stands behind the `|` of a type."""
        if self.peek() == 0x2A:
            self.i += 1
            return ("any",)
        return ("name", lower(self.name()))

    def attribute(self):
        opened = self.i
        self.i += 1
        self.white()
        # no key of these documents has a namespace
        self.bar(star=False) or self.bar(star=True)
        key = lower(self.name())
        self.white()
        if self.peek() == 0x5D:
            self.i += 1
            return ("has", key, None, b"", False)
        op = self.operator(opened)
        self.white()
        value = self.value(opened)
        self.white()
        fold = self.flag()
        if self.peek() < 0:
            raise CssError(opened, "bracket is not closed")
        if self.peek() != 0x5D:
            raise CssError(self.i, "unexpected byte")
        self.i += 1
        return ("has", key, op, value, fold)

    def operator(self, opened):
        b = self.peek()
        if b == 0x3D:
            self.i += 1
            return "="
        if b >= 0 and b in b"~|^$*" and self.peek(1) == 0x3D:
            self.i += 2
            return chr(b)
        if b == 0x7C:
            raise CssError(self.i, "namespace")
        if b < 0:
            raise CssError(opened, "bracket is not closed")
        raise CssError(self.i, "operator is missing")

    def value(self, opened):
        b = self.peek()
        if b in (0x22, 0x27):
            return self.string()
        if self.begins_name():
            return self.name()
        if b < 0:
            raise CssError(opened, "bracket is not closed")
        raise CssError(self.i, "value is missing")

    def flag(self):
        """Whether a flag says that case is no matter."""
        if self.peek() == 0x5D or not self.begins_name():
            return False
        at = self.i
        flag = lower(self.name())
        if flag not in (b"i", b"s"):
            raise CssError(at, "no flag")
        self.white()
        return flag == b"i"

    def pseudo(self, waiting):
        """A pseudo-class, read up to the list that it may have: what reads that list and answers the whole."""
        at = self.i
        self.i += 1
        self.inside()
        if self.peek() == 0x3A:
            raise CssError(at, "pseudo-element")
        start = self.i
        word = lower(self.name()).decode("utf-8", "replace")
        call = self.peek() == 0x28
        if word in PLAIN:
            if call:
                raise CssError(self.i, "no argument here")
            return lambda: PLAIN[word]
        if word not in CALLS:
            raise CssError(start, "no such pseudo-class")
        if not call:
            raise CssError(self.i, "argument is missing")
        opened = self.i
        self.i += 1
        if word == "not":
            return lambda: ("not", self.list(waiting, False, True))
        if word in ("is", "where"):
            return lambda: self.list(waiting, False, True)
        if word == "has":
            return lambda: self.list(waiting, True, True)
        return self.counted(word, waiting, opened)

    def counted(self, word, waiting, opened):
        """The argument of a pseudo-class that counts siblings."""
        a, b = self.formula(opened)
        white = self.t[self.i - 1] in WHITE
        white = self.white() or white
        end = "back" if "last" in word else "front"
        if self.peek() == 0x29:
            self.i += 1
            return lambda: ("nth-type", end, a, b) if "type" in word else ("nth", end, a, b, ("any",))
        if self.peek() < 0:
            raise CssError(opened, "bracket is not closed")
        if "type" not in word and white and self.begins_name():
            at = self.i
            if lower(self.name()) != b"of":
                raise CssError(at, "no formula")
            return lambda: ("nth", end, a, b, self.list(waiting, False, True, opened))
        raise CssError(self.i, "no formula")

    def digits(self):
        j = self.i
        while self.peek() in range(48, 58):
            self.i += 1
        if j == self.i:
            raise CssError(self.i, "no formula")
        value = int(self.t[j : self.i])
        if value > MOST:
            raise CssError(j, "number is too large")
        return value

    def formula(self, opened):
        self.white()
        if self.peek() < 0:
            raise CssError(opened, "bracket is not closed")
        for word, ab in ((b"even", (2, 0)), (b"odd", (2, 1))):
            if lower(self.t[self.i : self.i + len(word)]) == word:
                end = self.i + len(word)
                if end == len(self.t) or not (is_name_byte(self.t[end]) or self.t[end] == 0x5C):
                    self.i = end
                    return ab
        sign = 1
        if self.peek() in (0x2B, 0x2D):
            sign = -1 if self.peek() == 0x2D else 1
            self.i += 1
        if self.peek() in b"nN" if self.peek() >= 0 else False:
            a = sign
        else:
            a = sign * self.digits()
            if not (self.peek() >= 0 and self.peek() in b"nN"):
                if self.begins_name():
                    raise CssError(self.i, "no formula")
                return 0, a
        self.i += 1  # the n
        # n-1, n -1, n - 1, n
        if self.peek() >= 0 and (chr(self.peek()).isalnum() or self.peek() >= 128 or self.peek() in b"_\\"):
            raise CssError(self.i, "no formula")
        self.white()
        if self.peek() in (0x2B, 0x2D):
            sign = -1 if self.peek() == 0x2D else 1
            self.i += 1
            self.white()
            b = sign * self.digits()
            if self.begins_name():
                raise CssError(self.i, "no formula")
            return a, b
        return a, 0


def parse(text):
    if isinstance(text, str):
        text = text.encode()
    return Reader(text).list(0, False, False)


# Meaning


class Page:
    """What is seen of a table: for each node whether it is a tag, its parent, its sibling tags."""

    def __init__(self, nodes):
        self.nodes = nodes
        self.parent = [None] * len(nodes)
        for p, node in enumerate(nodes):
            if node[0] == "tag":
                for c in node[3]:
                    self.parent[c] = p
        self.tags = [n for n, node in enumerate(nodes) if node[0] == "tag"]

    def siblings(self, n):
        return [m for m in self.tags if self.parent[m] == self.parent[n]]


def related(page, relation, n):
    """The nodes that stand in the relation to n."""
    if relation == "parent":
        return [page.parent[n]] if page.parent[n] is not None else []
    if relation == "ancestor":
        p = related(page, "parent", n)
        return p + (related(page, "ancestor", p[0]) if p else [])
    if relation == "child":
        return [m for m in page.tags if page.parent[m] == n]
    if relation == "below":
        return [m for m in page.tags if n in related(page, "ancestor", m)]
    siblings = page.siblings(n)
    if relation == "earlier":
        return [m for m in siblings if m < n]
    if relation == "later":
        return [m for m in siblings if m > n]
    if relation == "previous":
        return [m for m in siblings if m < n][-1:]
    return [m for m in siblings if m > n][:1]


def is_term(count, a, b):
    """count = a k + b for some k >= 0"""
    if a == 0:
        return count == b
    return (count - b) % a == 0 and (count - b) // a >= 0


def values_at(node, key):
    return [b"" if v is None else v for k, v in node[2].pairs() if lower(k) == key]


def passes(own, op, value, fold):
    if fold:
        own, value = lower(own), lower(value)
    if op == "=":
        return own == value
    if op == "~":
        return value != b"" and value in [w for w in own.translate(bytes.maketrans(b"\t\n\r\x0c", b"    ")).split(b" ")] and not any(c in value for c in WHITE)
    if op == "|":
        return own == value or own.startswith(value + b"-")
    if value == b"":
        return False
    return own.startswith(value) if op == "^" else own.endswith(value) if op == "$" else value in own


def holds(page, e, n):
    """Whether e holds at the node n, which is a tag."""
    node, kind = page.nodes[n], e[0]
    if kind == "any":
        return True
    if kind == "name":
        return lower(node[1]) == e[1]
    if kind == "id":
        return e[1] in values_at(node, b"id")
    if kind == "class":
        return any(passes(v, "~", e[1], False) for v in values_at(node, b"class"))
    if kind == "has":
        own = values_at(node, e[1])
        return bool(own) if e[2] is None else any(passes(v, *e[2:]) for v in own)
    if kind == "root":
        return page.parent[n] is None
    if kind == "empty":
        return all(page.nodes[c][0] == "comment" or page.nodes[c][0] == "text" and page.nodes[c][1] == b"" for c in node[3])
    if kind == "not":
        return not holds(page, e[1], n)
    if kind == "both":
        return holds(page, e[1], n) and holds(page, e[2], n)
    if kind == "either":
        return holds(page, e[1], n) or holds(page, e[2], n)
    if kind == "at":
        return any(holds(page, e[2], m) for m in related(page, e[1], n))
    siblings = page.siblings(n)
    if e[1] == "back":
        siblings.reverse()
    if kind == "nth":
        if not holds(page, e[4], n):
            return False
        counted = [m for m in siblings if holds(page, e[4], m)]
    else:
        counted = [m for m in siblings if lower(page.nodes[m][1]) == lower(node[1])]
    return is_term(counted.index(n) + 1, e[2], e[3])


def select(nodes, e):
    page = Page(nodes)
    return [n for n in page.tags if holds(page, e, n)]
