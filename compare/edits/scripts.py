"""Texts that hold a script, put by `tl` into each place of pages of each kind, and elements renamed around such texts: none may run in
Chromium."""
import os
import subprocess
from itertools import product

from .. import chromium
from .end_tags import RAW
from .model import UNSURE

BATCH = 200
# Stands for what a script calls.
CALL = "CALL()"
RUNS = f"<img src=x onerror={CALL}>"
# What stands before the element into which a text is put.
FRONTS = (
    ["", "<p>", "<table>", "<ul><li>a<li>", "<!--a-->", "<title>a</title>", "<body>", "<html><head>", "<head></head>", "<b><i></b>"]
    + ["<svg>", "<svg></svg>", "<svg/>", "<math>", "<math></math>", "<svg><b><math></svg>", "<svg></p><math></svg>", "<math><b><svg></math>"]
    + ["<svg><desc><span></svg></span></desc>", "<svg><![CDATA[a>b</svg>]]>", "<svg><title>", "<svg><foreignObject>", "<math><mi>"]
    + ["<noscript>", "<noscript></noscript>", "<body><noscript>", "<head><noscript>", "<template>", "<template></template>"]
    + ["<template><col>", "<template><tr>", "<frameset>", "<frameset></frameset>", "<frameset><frame></frameset><noframes>a</noframes>"]
    + ["<select>", "<select><option>", "<select></select>", "<table><select>", "<datalist><option>", "<SVG>", "<NoScript >"]
)
BREAKS = ("", "</noscript>", "</select>", "</svg>", "</math>", "</template>", "</frameset>", "-->", "]]>", "a</p>", "&lt;b>")
PUTS = ("fill", "prepend", "append", "before", "after", "replace")
NEW_NAMES = tuple(sorted(UNSURE)) + ("div", "object", "p", "table", "title", "br")


def put_cases():
    """Words and a page for each: a text put into or beside an element of each name that holds a text alone, or a `p`."""
    names = sorted(RAW) + ["p"]
    for number, (front, name, broken) in enumerate(product(FRONTS, names, BREAKS)):
        words = (PUTS[number % len(PUTS)], "fill")[number % 2]
        yield [words, ".u", broken + RUNS], f"{front}<{name} class=u>old</{name}>"


def rename_cases():
    """The same of an element with such a text in it or behind it that gets another name."""
    names = sorted(RAW)
    for name, broken, new in product(names, BREAKS, NEW_NAMES):
        text = f"<{name}>{broken}{RUNS}</{name}>"
        yield ["rename", ".d", new], f"<div class=d>{text}</div>"
        yield ["rename", ".d", new], f"<b class=d>a</b>{text}"


def written(program, words, page, room):
    """What comes of a page, or None where it is refused."""
    file = os.path.join(room, "page")
    with open(file, "w", encoding="utf-8") as it:
        it.write(page)
    run = subprocess.run([program, *words, file], stdout=subprocess.PIPE, stderr=subprocess.PIPE, check=False)
    return run.stdout.decode() if run.returncode in (0, 1) else None


def running(browser, pages):
    """Which of some pages run a script."""
    batch = [page.replace(CALL, f"parent.stolen({number % BATCH})") for number, page in enumerate(pages)]
    return chromium.all_answers(browser, "edits/scripts.html", batch, BATCH)


def compared_scripts(program, room, tally):
    """Puts the texts, and counts what is refused and what runs. How many run that didn't before."""
    browser = chromium.chromium()
    cases, made = [*put_cases(), *rename_cases()], []
    for words, page in cases:
        text = written(program, words, page, room)
        tally[f"{words[0]}, for Chromium: {'refused' if text is None else 'written'}"] += 1
        if text is not None:
            made.append((words, page, text))
    before = running(browser, [page for _, page, _ in made])
    after = running(browser, [text for _, _, text in made])
    runs = [(words, page, text) for (words, page, text), old, new in zip(made, before, after) if new and not old]
    for words, page, text in runs:
        print(f"a script runs: {words!r} of {page!r}: {text!r}", flush=True)
    tally[f"{chromium.version(browser)}: pages in which a script ran before"] += sum(before)
    return len(runs)
