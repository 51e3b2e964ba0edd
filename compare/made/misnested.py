"""Pages whose tags are nested wrongly: starts, ends and texts of a few names each, in any order."""

BLOCKS = (
    "address article aside blockquote center details dialog dir div dl fieldset figcaption figure footer header hgroup main menu nav ol "
    "search section summary ul"
)
PHRASES = "b big code em font i s small strike strong tt u nobr a span q ins abbr time label map meter"
TABLES = "table caption colgroup col thead tbody tfoot tr td th"
RUBY = "ruby rb rt rp rtc"
LISTS = "li dl dd dt"
PREFORMATTED = "pre listing"
HEADINGS = "h1 h2 h3 h4 h5 h6"
VOID = "br hr img wbr area source track"
# Tags that no policy lists, or few: what is in them stands in their place, or goes.
UNLISTED = "z form button select option template svg math title noscript object marquee body html frameset input textarea plaintext"

# The lists of tags beside that of a blog (None), each with a word for it.
POLICIES = {
    "blog": None,
    "tables": f"a abbr b blockquote br code dd div dl dt em h1 h2 h3 hr i img li ol p pre q span strong ul {TABLES}",
    "ruby": f"a b br div em i p span ul ol {RUBY} {LISTS} {PREFORMATTED} {HEADINGS}",
    "all": f"{BLOCKS} {PHRASES} {TABLES} {RUBY} {LISTS} {PREFORMATTED} {HEADINGS} {VOID} p",
    "rows": "table caption tbody thead tfoot tr td th b p a li",
}

TEXTS = [
    "x", "y z", " ", "\n", "\n\n", "\t", "\f", "\r", "\r\n", "&#10;", "&#xA;u", "&#13;", "&#13;\nv", "&NewLine;", "&Tab;", "&#0;", "&#27;w",
    "&#x1b", "&lt;b&gt;", "&amp;lt;", "&copy", "&notit;", "&amp;#10;", "&", "&#", "&#x80;", "&#xD800;", "&#x10FFFF;", "é", "東", "\u00a0", "\ufeff",
    "\u2028", ">", "--&gt;", "]]>", "\0", "\x1b", "\x01",
]
VALUES = ["user-x", "&quot;", "a b", "\n", "&#10;", "&#13;", "&lt;", "<i>", "&copy=", "&amp;amp;", "é", "", "'", "`", "\t", "&nbsp", "&#0;", "&notit;"]


def start(chance, name):
    pairs = ""
    for _ in range(chance.choice([0, 0, 0, 0, 1, 1, 2])):
        pairs += f' {chance.choice(["title", "alt", "class", "id", "lang", "onclick", "dir"])}'
        if chance.random() < 0.9:
            pairs += f'="{chance.choice(VALUES)}"'
    return f"<{name}{pairs}>"


def misnested(chance, names):
    """A page of a few of these names."""
    own = [chance.choice(names) for _ in range(chance.choice([1, 2, 3, 4, 6, 10]))]
    if chance.random() < 0.2:
        own.append(chance.choice(UNLISTED.split()))
    out = []
    for _ in range(chance.choice([2, 3, 5, 8, 13, 21, 40])):
        kind = chance.random()
        if kind < 0.55:
            out.append(start(chance, chance.choice(own)))
        elif kind < 0.75:
            out.append(f"</{chance.choice(own)}>")
        elif kind < 0.98:
            out.append(chance.choice(TEXTS[:8] if kind < 0.86 else TEXTS))
        else:
            out.append(chance.choice(["<!-- c -->", "<!doctype html>", "<!--", "<p/>", "<br/>"]))
    page = "".join(out)
    # A few are as deep as what is made to stay may be.
    return page if chance.random() > 0.005 else "".join(start(chance, chance.choice(own)) for _ in range(chance.choice([390, 420, 900]))) + page
