"""Writes the manual page and the completions of `tl`, for bash, zsh and fish, from what `tl --help` says.

    ./x manual                writes the manual page and the completions in share, by the program that was proved and built last
    ./x manual --unproved     by a build of ./x try
    ./x manual --check        looks whether they are what the program says, and writes nothing

The gate looks, with the programs that it built (./x help runs). Where a command or an option changes, `crates/tl_commands` is the
one place: help, manual and completions follow it.
"""
import os

from .. import help_pages, programs
from ..unproved import unproved_build
from ..workspace import ROOT, Workspace, put, text_of


def check(file):
    """Looks whether the pages are those of the help of a program, and names those that aren't. Whether all are."""
    wrong = []
    for path, text in help_pages.pages(file, Workspace().version).items():
        if not os.path.isfile(f"{ROOT}/{path}") or text_of(f"{ROOT}/{path}") != text:
            wrong.append(path)
    for it in wrong:
        print(f"manual: {it}: not what tl --help says: ./x manual writes it", flush=True)
    return not wrong


def write(file):
    for path, text in help_pages.pages(file, Workspace().version).items():
        os.makedirs(os.path.dirname(f"{ROOT}/{path}"), exist_ok=True)
        put(f"{ROOT}/{path}", text)


def main(parser, words):
    parser.add_argument("--unproved", action="store_true", help="by a build of ./x try")
    parser.add_argument("--check", action="store_true", help="looks, and writes nothing")
    given = parser.parse_args(words)
    hint = ", or take a build that proves nothing: ./x manual --unproved"
    file = unproved_build("tl") if given.unproved else programs.gate_build("tl", hint)
    if given.check:
        return 0 if check(file) else 1
    write(file)
    return 0
