"""The tokens that tokenizer.py reads of made-up texts, beside those of html5lib."""
import collections
import random
import re

from tools import references

from ..made.pieces import pieced
from .markup import html5lib_tokens
from .tokenizer import html_tokens

# The state that tree construction sets after a start tag, in html5lib's words.
STATES = {"title": "rcdata", "textarea": "rcdata", "script": "scriptData", "plaintext": "plaintext"}
STATES |= dict.fromkeys(["style", "xmp", "iframe", "noembed", "noframes"], "rawtext")
# A NUL right after `<!--` or `<!---`: the standard goes on in the comment state, html5lib stays where a comment starts.
FAULTS = [(re.compile("<!---?\0"), "a NUL where a comment starts, after which html5lib doesn't go on in the comment state")]


def compared(words, pages):
    """Compares the names of references with Python's, and the tokens of made-up texts. How many differ."""
    wrong = references.faults()
    print("\n".join(wrong) if wrong else f"{len(references.NAMES)} names of references, all as they are in the standard")
    chance, counts = random.Random(words.seed), collections.Counter()
    for _ in range(words.runs):
        text = pieced(chance, pages)
        ours, theirs = html_tokens(text), html5lib_tokens(text, STATES)
        if ours == theirs:
            continue
        reason = next((reason for fault, reason in FAULTS if fault.search(text)), None)
        counts[reason] += 1
        if counts[reason] <= 20:
            print(f"{text!r}\n  ours     {ours}\n  html5lib {theirs}\n  {reason or 'differs'}", flush=True)
    known = "".join(f"; {count} differ by {reason}" for reason, count in counts.items() if reason)
    print(f"{words.runs} inputs, {counts[None]} differ{known}")
    return counts[None] + len(wrong)
