"""Made-up selectors, and pages on which they find something."""

TAGS = ["div", "span", "section", "foo", "x-y"]
KEYS = ["k", "data-x", "href", "title"]
CLASSES = ["a", "b", "c", "A", "x:y", "é"]
VALUES = ["v", "v-w", "v w", "w v", "", "V", " v", "v.png", "http://x.y/?a=1", "a b", "é", "v\tw", "vv"]
IDS = ["i", "j", "I", "a.b", "1"]


def casing(r, s):
    return "".join(c.upper() if r.random() < 0.2 else c for c in s)


def tree(r, depth, budget):
    out = []
    while budget[0] > 0 and r.random() < (0.85 if depth < 2 else 0.6):
        budget[0] -= 1
        x = r.random()
        if x < 0.12:
            out.append(r.choice(["t", "x y"]) if not out or out[-1].endswith(">") else "<!--c-->")
        elif x < 0.2:
            out.append("<!-- c -->")
        else:
            name = casing(r, r.choice(TAGS))
            pairs = {}
            if r.random() < 0.4:
                pairs["class"] = " ".join(r.sample(CLASSES, r.randint(0, 3))) if r.random() < 0.9 else "a\tb\nc"
            if r.random() < 0.3:
                pairs["id"] = r.choice(IDS)
            for k in KEYS:
                if r.random() < 0.25:
                    pairs[k] = r.choice(VALUES) if r.random() < 0.9 else None
            items = list(pairs.items())
            r.shuffle(items)
            attrs = "".join(" " + casing(r, k) + ("" if v is None else '="' + v + '"') for k, v in items)
            out.append("<" + name + attrs + ">" + tree(r, depth + 1, budget) + "</" + name + ">")
    return "".join(out)


def made_page(r):
    return "<!doctype html><html><head></head><body>" + tree(r, 0, [r.randint(1, 30)]) + "</body></html>"


def ident(r, s):
    out = ""
    for n, c in enumerate(s):
        if c in ":.":
            out += r.choice(["\\" + c, "\\%x " % ord(c), "\\%06x" % ord(c)])
        elif n == 0 and c.isdigit():
            out += "\\3%s " % c
        elif r.random() < 0.03:
            out += r.choice(["\\%x " % ord(c), "\\%06x" % ord(c), "\\%X\t" % ord(c)])
        else:
            out += c
    return out


def string(r, s):
    q = r.choice("\"'")
    out = q
    for c in s:
        if r.random() < 0.05:
            out += "\\%x " % ord(c)
        elif r.random() < 0.02 and c not in "0123456789abcdefABCDEF\n\t":
            out += "\\" + c
        else:
            out += c if c != q else "\\" + c
    if r.random() < 0.03:
        out += "\\\n"
    return out + q


def ws(r, p=0.2):
    return r.choice([" ", "  ", "\n", "\t ", " /*c*/ ", "/**/"]) if r.random() < p else ""


def formula(r):
    x = r.random()
    if x < 0.15:
        return casing(r, r.choice(["odd", "even"]))
    if x < 0.45:
        return r.choice(["", "", "+", "-"]) + str(r.randint(0, 4))
    a = r.choice(["", "-", "+", "2", "-2", "+3", "0", "1", "-1"])
    n = r.choice("nnN")
    b = r.choice(["", "+1", "-1", "+ 2", " - 1", " + 3", "-  3", " +4", " -2", "+0"])
    return a + n + b


def compound(r, d):
    out = []
    first = ""
    x = r.random()
    if x < 0.45:
        first = ident(r, casing(r, r.choice(TAGS + ["body", "html"])))
    elif x < 0.55:
        first = "*"
    if first and r.random() < 0.08:
        first = r.choice(["*|", "*|", "|", "*/**/|", "|/**/"]) + first
    n = r.choice([0, 0, 1, 1, 2, 3]) if first else r.choice([1, 1, 2])
    for _ in range(n):
        out.append(simple(r, d))
    if r.random() < 0.05 and first and out:
        return first + "/**/" + "".join(out)
    return first + "".join(out)


def simple(r, d):
    x = r.random()
    if x < 0.18:
        return r.choice([".", ".", ".", "./**/"]) + ident(r, r.choice(CLASSES))
    if x < 0.26:
        return "#" + ident(r, r.choice(IDS))
    if x < 0.5:
        k = r.choice(["", "", "", "", "", "", "|", "*|", "*/**/|"]) + ident(r, casing(r, r.choice(KEYS + ["class", "id"])))
        if r.random() < 0.3:
            return "[" + ws(r) + k + ws(r) + "]"
        op = r.choice(["=", "~=", "|=", "^=", "$=", "*="])
        v = r.choice(VALUES + ["w", "png", "x", "p"])
        if v and all(c.isalnum() or c == "-" for c in v) and r.random() < 0.5:
            v = ident(r, v)
            flag = r.choice([" i", " s", " I"]) if r.random() < 0.2 else ""
        else:
            v = string(r, v)
            flag = r.choice(["i", " i", "s", " S "]) if r.random() < 0.2 else ""
        return "[" + ws(r) + k + ws(r) + op + ws(r) + v + flag + ws(r) + "]"
    if x < 0.7 or d <= 0:
        y = r.random()
        if y < 0.6:
            return ":" + casing(r, r.choice(["first-child", "last-child", "only-child", "first-of-type", "last-of-type", "only-of-type", "empty", "root"]))
        return ":" + casing(r, r.choice(["nth-child", "nth-last-child", "nth-of-type", "nth-last-of-type"])) + "(" + ws(r) + formula(r) + ws(r) + ")"
    y = r.random()
    if y < 0.3:
        return ":" + casing(r, "not") + "(" + lst(r, d - 1) + ")"
    if y < 0.5:
        return ":" + r.choice(["is", "where"]) + "(" + lst(r, d - 1) + ")"
    if y < 0.75:
        return ":has(" + lst(r, d - 1, True) + ")"
    return ":" + r.choice(["nth-child", "nth-last-child"]) + "(" + formula(r) + " of " + lst(r, d - 1) + ")"


def complex_(r, d, relative):
    out = ""
    if relative:
        out += r.choice(["", "", "> ", ">", "+ ", "~", " ~ "])
    out += compound(r, d)
    while r.random() < 0.35:
        out += r.choice([" ", " ", ">", " > ", "+", " + ", "~ ", " ~ ", "\n", " /*x*/ "]) + compound(r, d)
    return out


def lst(r, d, relative=False):
    out = ws(r) + complex_(r, d, relative)
    while r.random() < 0.2:
        out += ws(r) + "," + ws(r) + complex_(r, d, relative)
    return out + ws(r)


def made_selector(r):
    return lst(r, r.choice([0, 0, 1, 2]), False)
