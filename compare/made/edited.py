"""Made-up pages that are edited in their own bytes, most of them broken."""
from ..edits.end_tags import RAW
from ..edits.scripts import FRONTS
from .misnested import POLICIES, misnested
from .soup import TAGS, tag_soup

PAIRS = (
    ["", "", "", " ", " title=v", ' title="a b"', " TITLE='x'", " class=k", " class", ' class = "k"', " id=x ID='y'", " href=/x/", "/", " /"]
    + [' title="&quot;"', " title='>'", ' a="b"c=d', " x =", " =y", " class=k\n\t id=x ", ' href="', "\0", " é=1"]
)
TEXTS = (
    ["x", " ", "\n", "&am", "&amp", "&#1", "&#x", "&", "<", "</", "<!", "</>", "\r", "\r\n", "é", "\0", "<!--c-->", "<!-->", "<!--", "<?x>"]
    + ["]]>", "&copy;"]
)
# What stands last in a page.
TAIL = ("</body>", "</html>", "</BODY >", "\n", " ", "<!--c-->", "</>", "&#32;", "x", "</p>", "</body></html>\n", "</body>\n</html>")


def raw_page(chance):
    """A page with a raw text, behind what may have a browser read it as markup."""
    name, text = chance.choice(sorted(RAW)), chance.choice(["", "a", "&", "a<b", "</b>", "&amp;"])
    raw = f"<{name}>{text}</{name}>"
    return "".join([chance.choice(["", "<p>\n"]), chance.choice(FRONTS), chance.choice([raw, f"<div>{raw}</div>", f"<b>x</b>{raw}"])])


def edited_page(chance):
    """A page: tags in any order with odd pairs, and texts between them that are cut anywhere."""
    if chance.random() < 0.2:
        return tag_soup(chance)
    if chance.random() < 0.15:
        return raw_page(chance)
    if chance.random() < 0.2:
        return misnested(chance, POLICIES["all"].split())
    out = ["\ufeff"] if chance.random() < 0.03 else []
    for _ in range(chance.randrange(1, 14)):
        kind, name = chance.random(), chance.choice(TAGS)
        if kind < 0.5:
            out.append(f"<{name.upper() if chance.random() < 0.2 else name}{chance.choice(PAIRS)}{chance.choice(PAIRS)}>")
        elif kind < 0.7:
            out.append(f"</{name}>")
        else:
            out.append(chance.choice(TEXTS))
    if chance.random() < 0.4:
        out.insert(0, chance.choice(["<body>", "<html><body>", "<html>", "<html><head><title>x</title><body>"]))
        out += [chance.choice(TAIL) for _ in range(chance.randrange(1, 5))]
    return "".join(out)
