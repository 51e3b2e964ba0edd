"""What html5lib builds of pages in folders that `tl` edited, beside what it builds of the pages, with the same done in the tree. What is
refused has to be by the model too."""
import re
import subprocess
import warnings

from ..files import files_in
from .model import refusal
from .page import Page

# Names of the elements that are edited.
NAMES = ("a", "p", "li", "img", "td", "code")


def pages_in(folders, limit):
    """The pages in some folders that are UTF-8, in order."""
    for file in files_in(folders):
        with open(file, "rb") as page:
            try:
                text = page.read().decode()
            except UnicodeDecodeError:
                continue
        if limit and text:
            limit -= 1
            yield file, text


def tree(text):
    import html5lib

    with warnings.catch_warnings():
        warnings.simplefilter("ignore")
        return html5lib.parse(text, namespaceHTMLElements=False)


def rows(root):
    """A tree as a list: each element as it begins and ends, and the texts between, joined."""
    out, stack = [], [(root, False)]

    def add_text(text):
        if text and out and out[-1][0] == "text":
            out[-1] = ("text", out[-1][1] + text)
        elif text:
            out.append(("text", text))

    while stack:
        node, is_left = stack.pop()
        if is_left:
            out.append(("end",))
            add_text(node.tail)
            continue
        name = node.tag if isinstance(node.tag, str) else "a comment"
        out.append((name, tuple(sorted(node.attrib.items()))))
        add_text(node.text)
        stack.append((node, True))
        stack += [(child, False) for child in reversed(list(node))]
    return out


def with_key(root, name, key, value):
    for node in root.iter(name):
        if value is None:
            node.attrib.pop(key, None)
        else:
            node.set(key, value)


def without(root, name):
    """Takes all elements of a name out of a tree; the texts behind them stay."""
    for parent in list(root.iter()):
        before = None
        for child in list(parent):
            if child.tag != name:
                before = child
                continue
            tail = child.tail or ""
            if before is None:
                parent.text = (parent.text or "") + tail
            else:
                before.tail = (before.tail or "") + tail
            parent.remove(child)


def done(text, word, name):
    """The tree of a page with an edit done in it."""
    root = tree(text)
    if word == "remove":
        without(root, name)
    else:
        with_key(root, name, *(("data-z", 'q"&<') if word == "set" else ("class", None)))
    return rows(root)


def wanted_refusal(text, word, name):
    """What is said of a page of which all elements of a name are edited; None where that is done."""
    page = Page(text)
    return refusal(page, [row for row in page.found_rows() if row.node.kind == "element" and row.node.name == name], word, ())


def compared_trees(program, folders, words, limit, room, tally):
    """Compares the trees of pages in folders. How many differ."""
    differ, file = 0, f"{room}/page.html"
    keys = {"set": ["data-z", 'q"&<'], "unset": ["class"], "remove": []}
    for source, text in pages_in(folders, limit):
        for number, word in enumerate(it for it in words if it in keys):
            turn = (tally["edits of pages in folders"] + number) % len(NAMES)
            name = next((it for it in NAMES[turn:] + NAMES[:turn] if f"<{it}" in text), "a")
            with open(file, "wb") as page:
                page.write(text.encode())
            run = subprocess.run([program, word, "-i", "--", name, *keys[word], file], stderr=subprocess.PIPE, check=False)
            tally["edits of pages in folders"] += 1
            with open(file, "rb") as page:
                written = page.read().decode()
            tally[f"{word} in folders: something is found"] += run.returncode == 0
            why, wanted = run.stderr.decode().removeprefix(f"tl: {file}: ").rstrip("\n"), wanted_refusal(text, word, name)
            if wanted and re.fullmatch(wanted, why):
                tally[f"{word} in folders: refused: " + re.sub(r"\d+", "N", why)] += 1
            elif wanted or run.returncode not in (0, 1) or rows(tree(written)) != done(text, word, name):
                differ += 1
                print(f"differs: {word} {name} of {source}: {why[:300]}, wanted: {wanted}", flush=True)
    return differ
