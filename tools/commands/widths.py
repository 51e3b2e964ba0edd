"""Looks whether the lines of definitions, clauses and comments are at most 100 columns wide.

    ./x widths            names each line of the specs and sources that is wider
    ./x widths NAME..     those of these crates alone

`rt fmt` breaks code, and no line of these. Left out are what it lays out on one line, imports and attributes; a table under
`#[rattlefmt::skip]` and one in a comment, whose rows stand on a line each; and what a string adds, which has no place to break.
Proofs and Markdown aren't looked at.
"""
import re

from ..workspace import Stop, Workspace, text_of

WIDEST = 100
LOOKED_AT = re.compile(r"crates/\w+/(specs/.*\.antt|src/.*\.rt)")
LEFT_OUT = re.compile(r"\s*(?:(?:ghost |pub(?:\([^)]*\))? )*use\b|#!?\[|//[/!]? \|)")
TABLE, END = re.compile(r"\s*#\[rattlefmt::skip\]"), re.compile(r"\s*[\]})]+;?$")
STRING = re.compile(r'"(?:[^"\\]|\\.)*"')


def wide_lines(text):
    """The lines of a file that are too wide, by their numbers."""
    indent = None
    for number, line in enumerate(text.split("\n"), 1):
        own = len(line) - len(line.lstrip())
        if TABLE.match(line):
            indent = own
        elif indent is not None:
            if own == indent and END.match(line):
                indent = None
        elif len(line) > WIDEST and not LEFT_OUT.match(line) and len(STRING.sub('""', line)) > WIDEST:
            yield number, line


def faults(workspace, names):
    for name in names:
        for path in (it for it in workspace.files(name) if LOOKED_AT.fullmatch(it)):
            for number, line in wide_lines(text_of(f"{workspace.root}/{path}")):
                yield f"{path}:{number}: {len(line)} columns: {line.strip()}"


def check(names=()):
    """Names the lines that are too wide. Whether there are none."""
    workspace = Workspace()
    for it in names:
        if it not in workspace.libraries:
            raise Stop(f"crates.txt has no line of {it}")
    found = list(faults(workspace, names or workspace.libraries))
    for it in found:
        print(f"widths: {it}")
    if not found:
        print(f"widths: no line is wider than {WIDEST} columns", flush=True)
    return not found


def main(parser, words):
    parser.add_argument("names", nargs="*", metavar="NAME")
    return 0 if check(parser.parse_args(words).names) else 1
