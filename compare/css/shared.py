"""Compares which selector texts are shared with which are read alike, by a plain reader of each of the two grammars.

    ./x compare shared [--length N] [--selectors N] [--seed N]

SHARED is written from the words of docs/DIFFERENCES.md (Selectors of the Rust crate, and of CSS). The readers are port/reader.py, written
from docs/GRAMMAR.md, and css/reader.py, written from Selectors Level 4. All texts of at most so many of seventeen characters are
asked, and so many that are made up. Ends with 1 where a text is shared and isn't read alike as a plain selector, or the other way
round.
"""
import itertools
import random
import re

from ..port.reader import selector as port_selector
from .reader import CssError, parse

NAME = "[0-9A-Za-z_-]+"
LOWER = "[0-9a-z_-]+"
INSIDE = "[0-9A-Za-z_:+/-]"
VALUE = rf"""(?:{NAME}|"{INSIDE}*"|'{INSIDE}*')"""
PART = rf"""(?:{NAME}|"{INSIDE}+"|'{INSIDE}+')"""
SUBCLASS = rf"(?:[#.]{NAME}|\[{LOWER}(?:~?={VALUE}|[$^*]={PART})?\])"
COMPOUND = rf"(?:(?:{LOWER}|\*){SUBCLASS}*|{SUBCLASS}+)"
SHARED = re.compile(rf" *{COMPOUND}(?:(?: *[>,] *| +){COMPOUND})* *")

CHARACTERS = "aB-:+/#.*[]=^\"> ,"
WORDS = ["a", "b-1", "B", "", "a:b", "a+b", "/", "x/*", "*/", "1", "_", "first-child", "a:root", "https://x"]
KEYS = ["k", "data-x", "K", "", "a:b"]
JOINTS = ["", "", " ", "  ", ">", " > ", ",", " , "]


def simple(chance):
    word, quote = chance.choice(WORDS), chance.choice(["", "'", '"'])
    key, op = chance.choice(KEYS), chance.choice(["=", "~=", "^=", "$=", "*="])
    return chance.choice([word, "*", "#" + word, "." + word, f"[{key}]", f"[{key}{op}{quote}{word}{quote}]"])


def made_up(chance):
    text = chance.choice(["", " "]) + simple(chance)
    while chance.random() < 0.6:
        text += chance.choice(JOINTS) + simple(chance)
    return text


def is_plain(read):
    """Whether names and keys of a selector are in lower case, and no value is empty after `^=`, `$=` and `*=`."""
    kind = read[0]
    if kind in ("and", "or", "parent", "descendant"):
        return is_plain(read[1]) and is_plain(read[2])
    if kind == "has" and read[2] in ("^=", "$=", "*=") and not read[3]:
        return False
    return kind not in ("tag", "has") or read[1] == read[1].lower()


def css_of(read):
    """The selector of CSS that asks the same as one of the Rust crate."""
    kind, *parts = read
    if kind == "all":
        return ("any",)
    if kind in ("id", "class"):
        return read
    if kind == "tag":
        return ("name", parts[0].lower())
    if kind == "has":
        key, op, value = parts
        return ("has", key.lower(), op and op[0], (value or "").encode(), False)
    first, second = map(css_of, parts)
    if kind == "or":
        return ("either", first, second)
    seen = {"and": first, "parent": ("at", "parent", first), "descendant": ("at", "ancestor", first)}
    return ("both", seen[kind], second)


def conjuncts(read):
    """What all has to hold, in order: a conjunction has the same meaning however it nests."""
    if read[0] == "both":
        return conjuncts(read[1]) + conjuncts(read[2])
    return [tuple(conjuncts(it) if isinstance(it, tuple) else it for it in read)]


def is_read_alike(text, read):
    try:
        own = parse(text)
    except CssError:
        return False
    return conjuncts(own) == conjuncts(css_of(read)) and is_plain(read)


def main(parser, words):
    parser.add_argument("--length", type=int, default=5, metavar="N")
    parser.add_argument("--selectors", type=int, default=100000, metavar="N")
    parser.add_argument("--seed", type=int, default=1, metavar="N")
    given = parser.parse_args(words)
    chance = random.Random(given.seed)
    short = (it for size in range(given.length + 1) for it in itertools.product(CHARACTERS, repeat=size))
    made = (made_up(chance) for _ in range(given.selectors))
    texts = found = shared = differ = 0
    for text in itertools.chain(map("".join, short), made):
        texts += 1
        is_shared = bool(SHARED.fullmatch(text))
        read = port_selector(text)
        found += read is not None
        shared += is_shared
        if is_shared != (read is not None and is_read_alike(text, read)):
            differ += 1
            print(f"differs: {text!r}: {'' if is_shared else 'not '}shared")
    print(f"{texts} texts, of which {found} are selectors of the Rust crate and {shared} are shared: {differ} differ")
    return 1 if differ else 0
