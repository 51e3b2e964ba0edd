"""Looks at what is written, in seconds: it needs neither a program nor a proof, and changes nothing.

    ./x text

- Documents: whether each command that README.md, docs/*.md and other documents show after a `$` stands in a transcript with the
  output that is shown (`./x tlq` for `tlq`, `./x try NAME` for NAME), or in tests/by_hand.list, with the reason why nothing runs it;
  whether the code that they show stands in a source; whether links lead somewhere, and the paths, commands and names between backticks are there.
- Character references: whether each of the 2,231 is as Python has it (tools/references.py).
- The README of each crate: whether there is one, and what it names is there (tools/readmes.py).
- The three languages: whether C, Rust and Python have the calls that bindings/calls.txt lists and no other (tools/languages.py).
- Words: whether documents, help and messages are written in those of docs/STYLE.md (tools/style.py).
- Layout: whether each crate's sources are laid out as `rt fmt` lays them out.

A new row of a document goes into tests/documents.t, and ./x runs tries it.
"""
from concurrent.futures import ThreadPoolExecutor

from .. import documents, languages, readmes, references, style
from ..running import run
from ..workspace import Workspace, cores

PARTS = ("src", "specs", "proofs")


def other_layouts(workspace):
    """What is said of each source that has another layout than `rt fmt` gives it."""

    def look(crate):
        paths = [f"{workspace.root}/{it}" for it in workspace.files(crate) if it.endswith((".rt", ".antt"))]
        files = [it for it in paths if it.removeprefix(f"{workspace.folder(crate)}/").partition("/")[0] in PARTS]
        ran = run([f"{workspace.kit}/bin/rattle", "fmt", "--check", *files]) if files else None
        return [f"{it.strip()}: `rt fmt` in {crate}" for it in ran.said().splitlines()] if ran and ran.status else []

    with ThreadPoolExecutor(min(4, cores())) as workers:
        return [it for found in workers.map(look, workspace.libraries) for it in found]


def check():
    """Says what is wrong. Whether nothing is."""
    found = [*documents.faults(), *readmes.faults(), *references.faults(), *languages.faults(), *style.faults(), *other_layouts(Workspace())]
    for it in found:
        print(f"text: {it}")
    if not found:
        print("text: what the documents and READMEs show and name is there, in the words of docs/STYLE.md, references are the standard's, and sources are laid out", flush=True)
    return not found


def main(parser, words):
    parser.parse_args(words)
    return 0 if check() else 1
