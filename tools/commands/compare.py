"""Compares the programs with others, on made-up pages and on pages in folders.

    ./x compare check ..        what `tlq` writes, and its status, with a plain reader written from docs/GRAMMAR.md alone
    ./x compare edits ..        what html5lib builds of pages that `tl` edited with the same done in its tree; what Chromium runs of them
    ./x compare browser ..      what Chromium runs and builds of pages as they stand, and as `tl sanitize` prints them
    ./x compare html ..         a tokenizer written from the HTML standard alone with that of html5lib; tables of names with Python's;
                                the definition of tree construction, run, with a model and with the trees of the standard's own tests;
                                the trees of tl_tree with both
    ./x compare encodings ..    what `tl` makes of bytes in an encoding with what Chromium makes of them
    ./x compare pages ..        what `tl` says of pages in a folder with what html5lib and lxml say
    ./x compare selectors ..    what `tl select` finds with a plain reader of selectors of CSS, Chromium and soupsieve
    ./x compare shared ..       which selector texts are read alike as those of the Rust crate and of CSS, by plain readers of both
    ./x compare tools ..        the time that `tl` takes with that of pup, xmllint and hxselect

./x compare NAME --help says more of each. The Rust crate is compared by ./x bench --against (compare/port/crate).
"""
import importlib

from ..main import parser_of

# Where each stands: `compare` has a folder for each thing that is compared.
FOLDERS = {
    "check": "port", "edits": "edits", "encodings": "encodings", "browser": "safe", "html": "html", "pages": "others",
    "selectors": "css", "shared": "css", "tools": "others",
}  # fmt: skip


def main(parser, words):
    parser.add_argument("name", choices=FOLDERS)
    given = parser.parse_args(words[:1])
    module = importlib.import_module(f"compare.{FOLDERS[given.name]}.{given.name}")
    return module.main(parser_of(f"compare {given.name}", module), words[1:])
