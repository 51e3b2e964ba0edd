"""Made-up pages for the reader of the port, most of them broken in some way, and commands of `tlq` for them."""

NAMES = ["a", "b", "p", "div", "br", "img", "command", "BR", "x-y", "a:b", "", "p ", "a/b", "1"]
KEYS = ["id", "class", "href", "a", "b", "c", "d", "ID", "", "data-x", "k/", 'q"', "é"]
VALUES = ["", "x", "x y", "  x\ty\n", "é", "a'b", 'a"b', "<b>", "/x", "k", "k l", "k\fl", "1>2", "x\u00a0y", "\u3000k"]
TEXTS = ["x", "a b", "\n", "é", "日本", "&amp;", ">", "\u00a0", '"', "--", "-->", "/"]
SCRAPS = list("<>/=!\"'- \n\t\r\f?") + ["<!--", "-->", "<!-->", "<!--->", "<!doctype html>", "<!DOCTYPE  HTML x", "<! doctype html>", "</", "/>", "< ", "<!p", "=\"", "='"]


def tag(chance):
    name = chance.choice(NAMES)
    pairs = []
    for _ in range(chance.choice([0, 0, 0, 1, 1, 2, 3, 4, 7, 20])):
        key, value = chance.choice(KEYS), chance.choice(VALUES)
        if chance.random() < 0.1:
            key += str(chance.randrange(30))
        quote = chance.choice(['"', "'", "", None])
        pairs.append(key if quote is None else f"{key}={quote}{value}{quote}")
    space = chance.choice([" ", " ", " ", "\n", "  ", "\t"])
    return "<" + chance.choice(["", "", "", " "]) + space.join([name, *pairs]) + chance.choice([">", ">", ">", "/>", " >", ""])


def piece(chance):
    kind = chance.random()
    if kind < 0.4:
        return tag(chance)
    if kind < 0.65:
        return f"</{chance.choice(NAMES)}>"
    if kind < 0.85:
        return chance.choice(TEXTS)
    if kind < 0.9:
        return "<!--" + chance.choice(TEXTS) + chance.choice(["-->", "--->", "", "--!>"])
    return chance.choice(SCRAPS)


def page(chance):
    made = "".join(piece(chance) for _ in range(chance.choice([1, 2, 4, 8, 16, 40, 120]))).encode()
    if chance.random() < 0.3 and made:
        at = chance.randrange(len(made))
        made = made[:at] + bytes([chance.randrange(128)]) + made[at + chance.randrange(2) :]
    if chance.random() < 0.01:
        made += b"\xff"
    return made


def simple(chance):
    name = chance.choice(["a", "b", "p", "div", "br", "x-y", "a:b", "id", "class", "href", "k", "x", "", "zz"])
    value = chance.choice(["x", "", "k", "/x", "y", "a/b"])
    quote = chance.choice(["", '"', "'"])
    test = chance.choice(["=", "~=", "^=", "$=", "*="])
    return chance.choice([name, name, f"#{name}", f".{name}", "*", f"[{name}]", f"[{name}{test}{quote}{value}{quote}]"])


def selector(chance):
    parts = [simple(chance)]
    for _ in range(chance.choice([0, 0, 1, 1, 2, 5])):
        parts += [chance.choice(["", " ", "  ", ">", " > ", ",", " , ", ",,", " > > "]), simple(chance)]
    return chance.choice(["", "", " "]) + "".join(parts) + chance.choice(["", "", " ", ",", ">"])


def step(chance):
    number = lambda: str(chance.choice([0, 0, 1, 1, 2, 3, 4, 5, 8, 30, 4294967295, 4294967296]))
    words = ["name", "text", "comment", "set", "flag", "unset", "bare", "push", "push", "pull", "root", "Name", ""]
    word = chance.choice(words)
    if word in ("push", "pull", "root"):
        rest = [number(), number()]
    elif word == "set":
        rest = [number(), chance.choice(KEYS), chance.choice(VALUES + TEXTS)]
    else:
        rest = [number(), chance.choice(NAMES + KEYS + TEXTS)]
    line = " ".join([word, *rest[: len(rest) - (chance.random() < 0.05)]])
    return line.replace("\0", "") + chance.choice([""] * 30 + [" ", "\r"])


def command(chance):
    word = chance.choice(["print", "text", "again", "edit", "edit", "edit", "select", "select", "select", "id", "class"])
    if word == "edit":
        # Most lists of steps are short, so that many of them are done whole.
        return word, "\n".join(step(chance) for _ in range(chance.choice([0, 1, 1, 1, 2, 2, 3, 6])))
    if word == "select":
        return word, selector(chance)
    if word in ("id", "class"):
        return word, chance.choice([value for value in VALUES if "\0" not in value])
    return word, None
