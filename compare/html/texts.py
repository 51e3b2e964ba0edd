"""Readable texts of pages: `crates/tl_tree_extract`, by the program of tools/trees, beside what `innerText` says of their `body` in Chromium.

Styles, scripts and links are taken out of the pages before, and each `details` is opened: what is in a closed one is readable text. Texts are
compared line by line.
"""
import difflib
import re

from tools.unproved import helper_build

from ..chromium import all_answers, chromium, version
from .tree_program import SEPARATOR, SHOWN, written

OUT = [r"<(style|script)\b.*?</\1\s*>", r"<link\b[^>]*>", r"""\sstyle\s*=\s*("[^"]*"|'[^']*'|[^\s>]+)""", SEPARATOR, "\ufeff"]
BATCH = 20


def bare(page):
    for pattern in OUT:
        page = re.sub(pattern, "", page, flags=re.S | re.I)
    return re.sub(r"<details\b", "<details open", re.sub(r"\r\n?", "\n", page), flags=re.I)


def compared(words, pages):
    """Compares the lines of some pages. How many differ."""
    program, browser = words.program or helper_build("trees"), chromium()
    pages = [bare(page) for page in pages]
    same = differ = 0
    for ours, theirs in zip(written(program, pages, "scripting", "text"), all_answers(browser, "html/texts.html", pages, BATCH)):
        ours, theirs = ours.split("\n"), theirs.split("\n")
        for kind, start, end, first, last in difflib.SequenceMatcher(None, ours, theirs, autojunk=False).get_opcodes():
            if kind == "equal":
                same += end - start
                continue
            differ += max(end - start, last - first)
            if differ <= SHOWN:
                print(f"{ours[start:end]}, and {theirs[first:last]} in Chromium", flush=True)
    print(f"{version(browser)}, {len(pages)} pages: {same} lines are the same, {differ} differ")
    return differ
