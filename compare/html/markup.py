"""Tags and trees that are written in a page of the safe form, and those that html5lib reads."""
import re

TAG = re.compile(r'<(/?)([a-z][a-z0-9]*)((?: [a-z-]+(?:="[^"\0\x1b]*")?)*)>')
KEY = re.compile(r' ([a-z-]+)(?:="[^"]*")?')
PAIR = re.compile(r' ([a-z-]+)(?:="([^"]*)")?')
VOID = {"area", "base", "br", "col", "embed", "hr", "img", "input", "link", "meta", "param", "source", "track", "wbr"}


def tags_written(page):
    """The tags of a page of the safe form, as (whether it is an end, name, keys), or None for a page of another form."""
    tags, at = [], 0
    while at < len(page):
        tag = TAG.match(page, at)
        if tag:
            tags.append((tag.group(1) == "/", tag.group(2), tuple(KEY.findall(tag.group(3)))))
            at = tag.end()
        elif page[at] in "<\0\x1b":
            return None
        else:
            at += 1
    return tags


def with_kinds(reader):
    """The tokens of a tokenizer of html5lib, each with its kind."""
    from html5lib.constants import tokenTypes

    kinds = {number: name for name, number in tokenTypes.items()}
    return ((kinds[token["type"]], token) for token in reader)


def tokens(page):
    """The tokens that html5lib's tokenizer reads, each with its kind."""
    from html5lib._tokenizer import HTMLTokenizer

    return with_kinds(HTMLTokenizer(page))


def html5lib_tokens(text, states=None):
    """The same tokens in the form of tokenizer.py. A start tag puts the reader into the state that its name has, if any."""
    from html5lib._tokenizer import HTMLTokenizer

    found, reader = [], HTMLTokenizer(text)
    for kind, token in with_kinds(reader):
        if kind in ("Characters", "SpaceCharacters"):
            if found and found[-1][0] == "text":
                found[-1] = ("text", found[-1][1] + token["data"])
            elif token["data"]:
                found.append(("text", token["data"]))
        elif kind == "StartTag":
            found.append(("start", token["name"], tuple(token["data"].items()), token["selfClosing"]))
            if states and token["name"] in states:
                reader.state = getattr(reader, states[token["name"]] + "State")
        elif kind == "EndTag":
            found.append(("end", token["name"]))
        elif kind == "Comment":
            found.append(("comment", token["data"]))
        elif kind == "Doctype":
            found.append(("doctype",))
    return found


def tags_read(page):
    """The tags that html5lib's tokenizer reads, and what else it reads but characters."""
    tags = []
    for kind, token in tokens(page):
        if kind in ("StartTag", "EmptyTag"):
            tags.append((False, token["name"], tuple(token["data"])))
        elif kind == "EndTag":
            tags.append((True, token["name"], ()))
        elif kind in ("Comment", "Doctype"):
            tags.append(kind)
    return tags


def tree_said(page, values=None):
    """The tree that a page of the safe form stands for, by html5lib's tokenizer: lists of texts and of (name, pairs, children), with the
    pairs of its tags in place of those that are read, where they are given. None where its tags aren't balanced, or something else is
    read."""
    root = []
    path, open_names = [root], []
    for kind, token in tokens(page):
        if kind in ("Characters", "SpaceCharacters"):
            if path[-1] and isinstance(path[-1][-1], str):
                path[-1][-1] += token["data"]
            else:
                path[-1].append(token["data"])
        elif kind == "StartTag":
            children = []
            path[-1].append([token["name"], values.pop(0) if values else [list(pair) for pair in token["data"].items()], children])
            if token["name"] not in VOID:
                path.append(children)
                open_names.append(token["name"])
        elif kind == "EndTag":
            if not open_names or open_names.pop() != token["name"]:
                return None
            path.pop()
        elif kind != "ParseError":
            return None
    return None if open_names else root


def tree_with_values_as_texts(page):
    """The same with the references of values read as those of texts are: `&copy=` too. None where it is the same tree."""
    values, other = [], False
    for tag in TAG.finditer(page):
        if tag.group(1) != "/":
            pairs = PAIR.findall(tag.group(3))
            values.append([[key, text_said(value)] for key, value in pairs])
            other = other or any("&" in value for _, value in pairs)
    return tree_said(page, values) if other else None


def text_said(text):
    return "".join(token["data"] for kind, token in tokens(text) if kind in ("Characters", "SpaceCharacters"))
