"""The trees of a source: its words, numbers, texts and signs, and what stands between two brackets."""
import re

CLOSING = {"(": ")", "[": "]", "{": "}"}
TOKEN = re.compile(
    r"""(?P<space>\s+|//[^\n]*)
      | (?P<text>b?r(?P<fence>\#*)".*?"(?P=fence) | [bc]?"(?:\\.|[^"\\])*" | b?'(?:\\(?:u\{[^}]*\}|x..|.)|[^'\\\n])')
      | (?P<word>[^\W\d]\w*)
      | (?P<number>\d\w*(?:\.\d\w*)?)
      | (?P<sign>::|=>|->|==|!=|<=|>=|&&|\|\||.)""",
    re.X | re.S,
)


class Unread(Exception):
    """A source that this command can't read, with the place where it can't."""


class Leaf:
    """A word, a number, a text or a sign, and where it stands."""

    def __init__(self, kind, text, at):
        self.kind, self.text, self.at = kind, text, at

    def inner(self):
        return []


class Group:
    """What stands between two brackets."""

    kind = "group"

    def __init__(self, text, at):
        self.text, self.at, self.trees = text, at, []

    def inner(self):
        return self.trees


def tokens(text):
    at = 0
    while at < len(text):
        if text.startswith("/*", at):
            at = end_of_comment(text, at)
            continue
        found = TOKEN.match(text, at)
        if found.lastgroup != "space":
            kind = "text" if found["text"] else found.lastgroup
            yield Leaf(kind, found[0], at)
        at = found.end()


def end_of_comment(text, at):
    depth = 0
    for found in re.compile(r"/\*|\*/").finditer(text, at):
        depth += 1 if found[0] == "/*" else -1
        if depth == 0:
            return found.end()
    raise Unread(at)


def trees(text):
    top = Group("", 0)
    open_groups = [top]
    for it in tokens(text):
        if it.kind == "sign" and it.text in CLOSING:
            open_groups[-1].trees.append(Group(it.text, it.at))
            open_groups.append(open_groups[-1].trees[-1])
        elif it.kind == "sign" and it.text in CLOSING.values():
            if CLOSING.get(open_groups.pop().text) != it.text:
                raise Unread(it.at)
        else:
            open_groups[-1].trees.append(it)
    if open_groups != [top]:
        raise Unread(open_groups[-1].at)
    return top.trees


def is_word(it, *texts):
    return it is not None and it.kind == "word" and (not texts or it.text in texts)


def is_sign(it, *texts):
    return it is not None and it.kind == "sign" and it.text in texts


def is_group(it, *texts):
    return it is not None and it.kind == "group" and it.text in texts


def item(its, at):
    return its[at] if 0 <= at < len(its) else None


def find(its, at, test):
    """The place of the first tree from here on that the test holds of, or the end."""
    while at < len(its) and not test(its[at]):
        at += 1
    return at


def past_angles(its, at):
    """The place behind the angle brackets that open here, if any do. (`->` and `=>` are signs of their own.)"""
    if not is_sign(item(its, at), "<"):
        return at
    depth = 0
    while at < len(its):
        depth += is_sign(its[at], "<") - is_sign(its[at], ">")
        at += 1
        if depth == 0:
            return at
    raise Unread(its[-1].at)


def path_of(its, at):
    """The words of the path that ends here, and the place where it begins."""
    words = [its[at].text]
    while is_sign(item(its, at - 1), "::") and is_word(item(its, at - 2)):
        at -= 2
        words.insert(0, its[at].text)
    return words, at


def end_of_expression(its, at):
    """The place of the `,` or `;` that ends the expression from here on. (Those between `::<` and `>` don't.)"""
    while at < len(its) and not is_sign(its[at], ",", ";"):
        at = past_angles(its, at + 1) if is_sign(its[at], "::") else at + 1
    return at


def all_within(its):
    for it in its:
        yield it
        yield from all_within(it.inner())
