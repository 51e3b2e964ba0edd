"""A plain sanitizer by the rules of docs/SAFE.md, over the plain trees of html/tree_model.py: what `tl sanitize` has to print of a page.

It is written from those two pages alone, and knows nothing of how the crates do it.
"""
import re

from ..html.serializer import VOID, escaped
from ..html.tree_model import Builder
from .fitting import PREFORMATTED, is_flow, may_stand

REFERRING = (
    "for form headers itemref list popovertarget commandfor aria-activedescendant aria-controls aria-describedby aria-details"
    " aria-errormessage aria-flowto aria-labelledby aria-owns"
).split()
OPAQUE = "script style textarea title xmp iframe noembed noframes noscript plaintext template".split()


class Policy:
    """Lists of words by the names of the options that say them."""

    def __init__(self, lines):
        words = {option: said.split(",") for option, _, said in (line.partition(" ") for line in lines)}
        self.tags, self.keys, self.link_keys = words["--tags"], words["--keys"], words["--link-keys"]
        self.links, self.classes, self.prefix = words["--links"], words["--classes"], words["--prefix"][0]
        self.lets_relative = "--relative-links" in words
        self.marks_links = "--nofollow-links" in words

    def begins_link(self, value):
        """Whether a link begins as it may: where it leaves the site, what it begins with does so too."""
        leaves = re.compile(r"/[/\\]")
        return any(value.startswith(front) and (leaves.match(front) or not leaves.match(value)) for front in self.links)

    def is_relative(self, value):
        """Whether a link is a relative one, and such may stand: neither a scheme nor another host stands at its front."""
        front = re.match(r"[^/?#]*", value).group()
        return self.lets_relative and value != "" and not re.search(r"[:\\]", front) and not re.match(r"/[/\\]", value)

    def keeps(self, key, value):
        """Whether a key stays with its value."""
        is_link = self.begins_link(value) or self.is_relative(value)
        if key not in self.keys or (key in self.link_keys and not (is_link and re.fullmatch(r"[^\0- \"\x7f]*", value))):
            return False
        is_name = value.startswith(self.prefix) and re.fullmatch(r"[A-Za-z0-9_.:\x80-\U0010ffff-]*", value)
        return (key not in ("id", "name") or bool(is_name)) and (key != "class" or value != "" and value == self.classes_of(value))

    def classes_of(self, text):
        """The words of a text that patterns match; a `*` at the end of one stands for any characters."""
        matches = re.compile("|".join(re.escape(it[:-1]) + ".*" if it.endswith("*") else re.escape(it) for it in self.classes), re.DOTALL)
        return " ".join(word for word in re.split("[ \t\n\f\r]+", text) if word and matches.fullmatch(word))

    def named(self, text):
        """A text with the prefix in front of each word that hasn't it."""
        return re.sub(r"[^ \t\n\f\r]+", lambda word: word.group() if word.group().startswith(self.prefix) else self.prefix + word.group(), text)

    def says(self, key, value):
        """What a value says at a key: a link as the URL standard reads it, and names with the prefix."""
        if key in self.link_keys:
            link = re.sub(r"[\t\n\r]", "", value.strip("".join(map(chr, range(33)))))
            link = re.sub(r"^[A-Za-z][A-Za-z0-9+.-]*:", lambda scheme: scheme.group().lower(), link)
            return cleaned("#" + self.named(link[1:]) if link.startswith("#") else link)
        if key == "class":
            return self.classes_of(cleaned(value))
        return cleaned(self.named(value) if key in ("id", "name") or key in REFERRING else value)

    def pairs(self, node):
        """The attributes that stay; those of a link after the mark, where the policy wants it."""
        said = [(key, self.says(key, value)) for key, value in node.attributes.items()]
        kept = [pair for pair in said if self.keeps(*pair)]
        if self.marks_links and node.name in ("a", "area") and any(key == "href" for key, _ in kept):
            return [("rel", "nofollow noopener")] + [pair for pair in kept if pair[0] != "rel"]
        return kept


def cleaned(text):
    return text.replace("\r", " ").replace("\0", "").replace("\x1b", "")


def kept(nodes, policy):
    """What is kept of nodes: texts, and elements as their names, attributes and what is in them."""
    out = []
    for node in nodes:
        if node.kind == "text":
            out.append(cleaned(node.data))
        elif node.is_html() and node.name in policy.tags:
            out.append((node.name, policy.pairs(node), kept(node.children, policy)))
        elif node.is_html() and node.name not in OPAQUE:
            out += kept(node.children, policy)
    return out


def unlined(nodes):
    """Nodes without the line feeds at their front."""
    for at, node in enumerate(nodes):
        if not isinstance(node, str) or node.lstrip("\n"):
            return [node.lstrip("\n") if isinstance(node, str) else node] + nodes[at + 1:]
    return []


def fitted(nodes, names=()):
    """What is made to stay of nodes in elements of these names."""
    out = []
    for node in nodes:
        if isinstance(node, str):
            out.append(node if is_flow(names) else "".join(it for it in node if it in " \t\n\f\r"))
            continue
        name, pairs, below = node
        if not may_stand(name, names):
            out += fitted(below, names)
            continue
        below = fitted(below, (*names, name))
        out.append((name, pairs, unlined(below) if name in PREFORMATTED else below))
    return out


def printed(nodes):
    out = []
    for node in nodes:
        if isinstance(node, str):
            out.append(escaped(node, False))
            continue
        name, pairs, below = node
        keys = "".join(f' {key}="{escaped(value, True)}"' for key, value in pairs)
        out.append(f"<{name}{keys}>" if name in VOID else f"<{name}{keys}>{printed(below)}</{name}>")
    return "".join(out)


def safe_print(page, policy, how=fitted):
    """What is kept of a page as what a `div` holds, made to stay, printed."""
    builder = Builder(page.removeprefix("\ufeff"), "div")
    builder.run()
    return printed(how(kept(builder.document.children[0].children, policy)))
