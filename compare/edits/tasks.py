"""Tasks that people have, each one command of `tl`, on pages in folders: html5lib's tree of what is written, beside that of the page
with the same done in it."""
import copy
import re
import subprocess
import urllib.parse

from .trees import pages_in, rows, tree

BASE = "https://example.org/a/b.html"
BANNER = '<nav class="top"><a href="/">Home</a></nav>'
HEADINGS = ("h1", "h2", "h3", "h4", "h5", "h6")
# Values that Python resolves as the URL standard does.
PLAIN_LINK = re.compile(r"[a-z0-9_./-]+(#[a-z0-9_-]+)?")


def with_values(root, names, key, value_of):
    """Sets a key of all elements of these names that have it to what comes of its value."""
    for node in root.iter():
        if node.tag in names and key in node.attrib:
            node.set(key, value_of(node.get(key)))


def without_utm(value):
    """A link without the parameters of its query whose names begin with `utm_`."""
    link, mark, fragment = value.partition("#")
    path, _, query = link.partition("?")
    kept = [it for it in query.split("&") if not it.startswith("utm_")]
    if len(kept) == len(query.split("&")):
        return value
    return path + "?" * bool(kept) + "&".join(kept) + mark + fragment


def absolute(value):
    return urllib.parse.urljoin(BASE, value) if PLAIN_LINK.fullmatch(value) else ""


def copied(root):
    for node in root.iter("img"):
        if "data-src" in node.attrib:
            node.set("src", node.get("data-src"))


def with_class(root):
    for node in root.iter("p"):
        words = node.get("class", "").split()
        node.set("class", " ".join(words + ["k"] * ("k" not in words)))


def without_ids(root):
    for node in root.iter():
        if node.tag in HEADINGS:
            node.attrib.pop("id", None)


def without_conditional(root):
    """Takes the conditional comments out of a tree; the texts behind them stay."""
    for parent in list(root.iter()):
        before = None
        for child in list(parent):
            if isinstance(child.tag, str) or not child.text.startswith("[if "):
                before = child
                continue
            if before is None:
                parent.text = (parent.text or "") + (child.tail or "")
            else:
                before.tail = (before.tail or "") + (child.tail or "")
            parent.remove(child)


def with_banner(root):
    body = root.find("body")
    banner = tree(f"<!doctype html><body>{BANNER}").find("body")[0]
    banner.tail, body.text = body.text, None
    body.insert(0, banner)


def without_mark(root):
    for node in root.iter("p"):
        node.attrib.pop("data-k", None)


def same(it):
    return it


def utm_put(text):
    return re.sub(r'(<a\s[^<>]*?href=")([^"?#&<>]+)"', r'\1\2?utm_source=a&b=2&utm_medium=c"', text, count=5)


def conditional_put(text):
    return text.replace("</p>", "</p><!--[if IE]>x<![endif]-->", 3).replace("</head>", "<!--[if lt IE 9]><script></script><![endif]--></head>", 1)


def stray_put(text):
    return re.sub(r"(<body[^<>]*>)", r"\1</p>", text, count=1)


# Of each task its name, the words of the program, how pages are made ready, what is done in the tree, and what is done in both trees
# before they are compared.
TASKS = (
    ("http to https", ("set", "a[href]", "href", "--replace", "^http:", "https:"), same,
     lambda root: with_values(root, ("a",), "href", lambda it: re.sub("^http:", "https:", it)), same),
    ("a prefix", ("set", "a[href]", "href", "--prefix", "/to?"), same,
     lambda root: with_values(root, ("a",), "href", lambda it: "/to?" + it), same),
    ("utm_ out", ("set", "a[href]", "href", "--drop-query", "utm_*"), utm_put,
     lambda root: with_values(root, ("a",), "href", without_utm), same),
    ("links absolute", ("set", "a[href]", "href", "--base", BASE), lambda it: it.replace("<base ", "<x-base "),
     lambda root: with_values(root, ("a",), "href", absolute), None),
    ("data-src to src", ("set", "img[data-src]", "src", "--from", "data-src"), lambda it: it.replace("<img src=", "<img data-src="),
     copied, same),
    ("a class", ("set", "p", "class", "--add-word", "k"), same, with_class, with_class),
    ("an id for each heading", ("set", ", ".join(HEADINGS), "id", "--from-text"), same, same, without_ids),
    ("conditional comments out", ("remove", r"--comments=^\[if "), conditional_put, without_conditional, same),
    ("markup first in body", ("prepend", "--html", "body", BANNER), same, with_banner, same),
    ("one bad element passed over", ("set", "--skip", "p", "data-k", "v"), stray_put, same, without_mark),
)


def unlike_plain(before, after):
    """Makes links of both trees nothing that Python wouldn't resolve as the URL standard does."""
    for old, new in zip(before.iter("a"), after.iter("a")):
        if "href" in new.attrib and old.get("href") == "":
            new.set("href", "")


def faults(task, root, run):
    """What is wrong with what was written that isn't seen in the trees."""
    if task == "an id for each heading":
        headings = [it for it in root.iter() if it.tag in HEADINGS and re.search(r"\w", "".join(it.itertext()))]
        ids = [it.get("id", "") for it in headings]
        return "an id is missing or stands twice" if "" in ids or len({*ids}) < len(ids) else ""
    if task == "one bad element passed over":
        left, told = sum("data-k" not in it.attrib for it in root.iter("p")), run.stderr.count(b"skipped at")
        return f"{left} are left, {told} are told" if left != told or bool(left) != (run.returncode == 2) else ""
    return ""


def is_same(page, text, do, also):
    before = copy.deepcopy(page)
    do(before)
    after = tree(text)
    if also is None:
        unlike_plain(before, after)
    else:
        also(before)
        also(after)
    return rows(before) == rows(after)


def compared_tasks(program, folders, limit, tally):
    """Does each task on pages in folders. How many come out otherwise."""
    differ = 0
    for source, text in pages_in(folders, limit):
        own = tree(text)
        for name, words, ready, do, also in TASKS:
            page = ready(text)
            words = [program, words[0], "--encoding", "utf-8", *words[1:], "-"]
            run = subprocess.run(words, input=page.encode(), capture_output=True, check=False)
            is_refused = run.returncode == 2 and name != "one bad element passed over"
            tally[f"{name}: {'refused' if is_refused else 'done' if run.returncode != 1 else 'nothing to do'}"] += 1
            if is_refused:
                continue
            written = run.stdout.decode()
            root = own if page == text else tree(page)
            fault = faults(name, tree(written), run) or ("" if is_same(root, written, do, also) else "another tree")
            if fault:
                differ += 1
                print(f"differs: {name}, {source}: {fault}", flush=True)
    return differ
