"""Made-up pages and selectors for searches: names of HTML and of svg and math, in any case, keys with and without a namespace."""
import random
import re

FOREIGN = "svg math g linearGradient foreignObject mi mtext annotation-xml".split()
NAMES = """p b i a div span li ul table tr td th tbody caption svg math g linearGradient foreignObject template h1 em nobr form input
button title style font dl dd dt mi mtext annotation-xml image br hr pre textarea""".split()
KEYS = "id class type lang href xlink:href viewBox data-x DIR Rel align xml:lang definitionURL checked title".split()
VALUES = ["a", "A", "b", "x y", "A b", "text", "TEXT", "Foo", "foo", "en", "en-US", "EN-us", "", "a-b", "xa", "ax", " a ", "a\tb", "ltr", "LTR", "stylesheet"]
WORDS = ["a", "A", "b", "x", "y", "Foo", "foo", "xa", "text"]
DOCTYPES = ["", "<!doctype html>", "<!doctype html><html lang=en><head><title>t</title></head><body class=b>", '<!doctype html public "-//W3C//DTD HTML 3.2//EN">']
OPS = ["=", "~=", "|=", "^=", "$=", "*="]
PLAIN = "first-child last-child only-child first-of-type last-of-type only-of-type root scope scope empty".split()
COUNTED = "nth-child nth-last-child nth-of-type nth-last-of-type".split()
# What may stand before a key, the key, and an operator with a value.
SPACE, KEY, VALUE = r"((?:\*(?:/\*\*/)?)?\|(?:/\*\*/)?|)", r"([^][=\"~|^$*/]+)", r'([~|^$*]?=)("[^"]*")'
# A test with a flag `s`.
EXACT = re.compile(rf"\[{SPACE}{KEY}{VALUE} s\]")
FORMULAS = ["1", "2", "odd", "even", "2n+1", "-n+2", "3n", "n+2", "n"]


class Maker:
    """Made-up pages and selectors, of the same names, keys and values."""

    def __init__(self, seed, is_foreign):
        self.chance, self.is_foreign = random.Random(seed), is_foreign
        self.names = NAMES if is_foreign else [it for it in NAMES if it not in FOREIGN]

    def search(self):
        """How a selector is looked for: in the document, or below an element of it, or behind it, or from one outwards."""
        return [self.chance.choice(["document", "document", "below", "below", "behind", "closest"]), self.chance.randrange(1000)]

    def cased(self, text):
        return text if self.is_foreign or self.chance.random() < 0.7 else "".join(self.chance.choice([it, it.upper()]) for it in text)

    def attribute(self):
        value = "" if self.chance.random() < 0.08 else f'="{self.chance.choice(VALUES)}"'
        return f" {self.cased(self.chance.choice(KEYS))}{value}"

    def start_tag(self, name):
        attributes = "".join(self.attribute() for _ in range(self.chance.choice([0, 0, 1, 1, 2, 3])))
        return f"<{self.cased(name)}{attributes}{'/' if self.chance.random() < 0.06 else ''}>"

    def page(self):
        parts, opened = [self.chance.choice(DOCTYPES)], []
        for _ in range(self.chance.randint(5, 40)):
            draw = self.chance.random()
            if draw < 0.55:
                opened.append(self.chance.choice(self.names))
                parts.append(self.start_tag(opened[-1]))
            elif draw < 0.82 and opened:
                parts.append(f"</{self.chance.choice(opened[-4:] if self.chance.random() < 0.8 else self.names)}>")
            else:
                parts.append(self.chance.choice(["x", " ", "a b", "\n", "&amp;", "<!-- c -->", "<!---->", "<!doctype x>"]))
        return "".join(parts)

    def key(self):
        key = self.chance.choice(KEYS)
        return (key.lower() if self.is_foreign and key in ("DIR", "Rel") else self.cased(key)).replace(":", "\\:")

    def space(self):
        return self.chance.choice(["", "", "", "", "", "", "", "|", "|", "*|", "*|", self.chance.choice(["|/**/", "*/**/|", "*|/**/", "*/**/|/**/"])])

    def test(self):
        value = self.chance.choice(VALUES).replace("\t", "\\9 ")
        return f'[{self.space()}{self.key()}{self.chance.choice(OPS)}"{value}"{self.chance.choice(["", "", "", " i", " s"])}]'

    def simple(self, depth):
        kind = self.chance.choices(("id", "class", "key", "value", "plain", "counted", "nested"), (14, 16, 10, 22, 18, 10, 10))[0]
        if kind == "nested" and depth < 2:
            return self.nested(depth + 1)
        return {
            "id": lambda: "#" + self.chance.choice(WORDS),
            "class": lambda: self.chance.choice([".", ".", ".", ".", ".", "./**/"]) + self.chance.choice(WORDS),
            "key": lambda: f"[{self.space()}{self.key()}]",
            "value": self.test,
            "counted": lambda: f":{self.chance.choice(COUNTED)}({self.chance.choice(FORMULAS)})",
        }.get(kind, lambda: ":" + self.chance.choice(PLAIN))()

    def nested(self, depth):
        word = self.chance.choice(["not", "is", "where", "has", "nth-child"])
        if word == "has":
            return f":has({self.chance.choice(['', '> ', '+ ', '~ '])}{self.compound(2)})"
        counted = f"{self.chance.choice(FORMULAS)} of " if word == "nth-child" else ""
        return f":{word}({counted}{self.selector(depth)})"

    def compound(self, depth):
        name = self.cased(self.chance.choice([*self.names, "*", "body", "html", "head", "p", "td"])) if self.chance.random() < 0.6 else ""
        if name and self.chance.random() < 0.2:
            name = self.chance.choice(["*|", "*|", "*|", "*|", "*/**/|", "*/**/|/* a */", "|", "|/**/"]) + name
        return name + "".join(self.simple(depth) for _ in range(self.chance.choice([0, 0, 1, 1, 2] if name else [1, 1, 2])))

    def complex(self, depth):
        joints = [self.chance.choice([" ", " > ", " + ", " ~ "]) for _ in range(self.chance.choice([0, 0, 0, 1, 1, 2]))]
        return self.compound(depth) + "".join(joint + self.compound(depth) for joint in joints)

    def whole(self):
        """A selector, or one that begins at what is searched."""
        if self.chance.random() < 0.8:
            return self.selector()
        return self.chance.choice([":scope", "&"]) + self.chance.choice([" ", " > ", " + ", " ~ "]) + self.complex(0)

    def asked(self, search):
        """A selector as it is asked for here, as Chromium is asked for it, and whether it is relative."""
        if search[0] not in ("below", "behind") or self.chance.random() < 0.3:
            whole = self.whole()
            return whole, exactly(whole), False
        joints = [">", "+", "~"] if search[0] == "behind" else [">", ">", "+", ""]
        parts = [(self.chance.choice(joints), self.chance.choice(["", " "]), self.complex(0)) for _ in range(self.chance.choice([1, 1, 2, 3]))]
        own = ", ".join(joint + gap * bool(joint) + it for joint, gap, it in parts)
        return own, exactly(", ".join((f":scope {joint} " if joint else "") + it for joint, gap, it in parts)), True

    def selector(self, depth=0):
        return ", ".join(self.complex(depth) for _ in range(self.chance.choice([1, 1, 1, 2])))


def exactly(selector):
    """The same for Chromium, which reads no flag `s`."""
    return EXACT.sub(r"[\1exact-\2\3\4]", selector)
