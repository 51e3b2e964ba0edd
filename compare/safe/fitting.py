"""What a browser's tree builder lets stand, by the rules of crates/tl_tree_spec/README.md and docs/SAFE.md, over the names of the open elements."""
BLOCKS = "address article aside blockquote center details dialog dir div dl fieldset figcaption figure footer header hgroup main menu nav ol search section summary ul".split()
HEADINGS = "h1 h2 h3 h4 h5 h6".split()
BODIES = "tbody thead tfoot".split()
PARTS = "caption colgroup col tbody thead tfoot tr td th".split()
PREFORMATTED = "pre listing".split()
IMPLIED = "p li dd dt rb rp rt rtc".split()
SCOPE = "table caption td th html".split()
# what ends the search for an open `li`, `dd` or `dt`
ITEM_ENDS = [name for name in BLOCKS if name not in ("address", "dialog", "div", "search")] + HEADINGS + PREFORMATTED + PARTS + "li dd dt table".split()
MOST_OPEN = 400


def found(wanted, ends, names):
    """Whether one of these is open before one that ends the search; the innermost name is the last."""
    for name in reversed(names):
        if name in wanted:
            return True
        if name in ends:
            return False
    return False


def is_flow(names):
    """Whether the rules are those of "in body"."""
    for name in reversed(names):
        if name in ("caption", "td", "th"):
            return True
        if name == "table" or name in PARTS:
            return False
    return True


def may_stand(name, names):
    """Whether a tag may stand where these elements are open."""
    inner = names[-1] if names else ""
    if len(names) >= MOST_OPEN:
        return False
    if name in PARTS:
        outer = {"col": ["colgroup"], "tr": BODIES, "td": ["tr"], "th": ["tr"]}
        return inner in outer.get(name, ["table"])
    if not is_flow(names):
        return False
    if name in BLOCKS + HEADINGS + PREFORMATTED + "p li dd dt hr table".split() and found(["p"], SCOPE, names):
        return False
    if name in HEADINGS:
        return inner not in HEADINGS
    if name == "li":
        return not found(["li"], ITEM_ENDS, names)
    if name in ("dd", "dt"):
        return not found(["dd", "dt"], ITEM_ENDS, names)
    if name == "a":
        return not found(["a"], ["caption", "td", "th"], names)
    if name == "nobr":
        return not found(["nobr"], SCOPE, names)
    if name in ("rb", "rtc", "rp", "rt") and found(["ruby"], SCOPE, names):
        return inner not in IMPLIED or (name in ("rp", "rt") and inner == "rtc")
    return True
