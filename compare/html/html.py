"""Compares tokenizer.py, a method for each state of the HTML standard's tokenizer, with the tokenizer of html5lib.

    ./x compare html [--runs N] [--seed N] [--page FILE..]
    ./x compare html --trees FOLDER [--runs N] [--seed N]
    ./x compare html --code [--chromium] [--trees FOLDER] [--runs N] [--seed N] [--page FILE..] [--program FILE]
    ./x compare html --prints [--chromium] [--runs N] [--seed N] [--program FILE]
    ./x compare html --pretty [--chromium] [--runs N] [--seed N] [--page FOLDER..] [--program FILE]
    ./x compare html --select [--runs N] [--seed N] [--program FILE]
    ./x compare html --text --page FILE.. [--program FILE]
    ./x compare html --tables [--runs N] [--seed N] [--page FOLDER..] [--program FILE]
    ./x compare html --links --page FOLDER.. [--program FILE]
    ./x compare html --clauses [--show N]
    ./x compare html --row TEXT
    ./x compare html --tree TEXT [--inside NAME] [--scripting]

The inputs come of the seed: pieces of markup that are hard to read, side by side, and with --page cuts of these files with such
pieces put in. What differs is said. Where it is a known fault of html5lib (`FAULTS`), that is said too and doesn't count.
Before, the tables of `crates/tl_names` are compared with the names of references that Python has, as ./x text does.

Who changes a definition of `crates/tl_html_spec` changes tokenizer.py too. With --row it writes what it reads of a text, in the words of the worked rows of `crates/tl_html_spec`.

With --trees the definition of tree construction, the text of `crates/tl_dom_spec` run by Python (specs.py), and a model
that was written from the standard alone (tree_model.py) are compared with the trees of the standard's own tests in the folder, and with
one another on made-up ones. Tests that are older than a rule are named with it. With --chromium both are compared with Chromium on
made-up pages. With --code the trees of `crates/tl_tree` are compared with the model on made-up pages and fragments and on files, and with the tests
in the folder, or with --chromium with Chromium on made-up pages: those that the program of tools/trees writes, built unproved, unless
--program names one. With --prints what `crates/tl_html_print` prints of made-up pages, and of each node of these, is compared with a port
of 13.3 over the model, or with Chromium. With --pretty what `crates/tl_tree`, or Chromium, builds of pretty prints of files and of made-up pages is
compared with what it builds of the pages, without texts of white space. With --select where `crates/tl_tree_select` finds made-up selectors in made-up pages is compared with
Chromium, of so many pairs. With --text the readable text that `crates/tl_tree_extract` has of files is compared with Chromium's `innerText`, line by
line. With --tables the slots of made-up tables in `crates/tl_tree_extract` are compared with a plain reader of the standard's
steps, and with Chromium, as are the first tables of pages in folders; with --links the links of such pages. With --clauses the worked rows of that crate are
computed in the same way, and for each clause of its definitions rows are named, --show N of them (3), that would be others without
it; NO ROW stands where none would. With --tree it writes the trees of a text as these rows have them.

Status: 0 where nothing differs, 1 where something does, 2 for words that aren't understood, 3 where html5lib isn't installed
(Debian: python3-html5lib).
"""
import importlib.util
import sys
import warnings

from ..files import text_in
from . import tree_rows
from .token_rows import listed
from .tokenizer import html_tokens
from .tree_definition import TreeDefinition, with_room

# The words that say what is compared, and those that go with it.
FLAGS = ("code", "select", "prints", "pretty", "text", "tables", "links", "chromium", "clauses", "scripting")
TEXTS = {"row": "TEXT", "tree": "TEXT", "inside": "NAME", "trees": "FOLDER", "program": "FILE"}
NUMBERS = {"runs": 20000, "seed": 1, "show": 0}


def compared(words):
    """Compares what the words say, of html5lib and others. How many differ."""
    from ..css import tree_selectors
    from . import pretty, tables, texts, tokens, tree_program, tree_tests

    pages = [] if words.pretty or words.tables or words.links else [it for it in map(text_in, words.page) if it]
    looks = (
        (words.select, lambda: tree_selectors.compared(words)),
        (words.text, lambda: texts.compared(words, pages)),
        (words.tables, lambda: tables.compared_tables(words)),
        (words.links, lambda: tables.compared_links(words)),
        (words.pretty, lambda: pretty.compared(words)),
        (words.prints, lambda: tree_program.compared_prints(words)),
        (words.code, lambda: tree_program.compared(words, pages)),
        (words.trees is not None or words.chromium, lambda: tree_tests.compared(words)),
        (True, lambda: tokens.compared(words, pages)),
    )
    return next(look for is_asked, look in looks if is_asked)()


def main(parser, words):
    for it in FLAGS:
        parser.add_argument(f"--{it}", action="store_true")
    for it, kind in TEXTS.items():
        parser.add_argument(f"--{it}", metavar=kind)
    for it, otherwise in NUMBERS.items():
        parser.add_argument(f"--{it}", type=int, default=otherwise, metavar="N")
    parser.add_argument("--page", nargs="+", default=[], metavar="FILE")
    words = parser.parse_args(words)
    if words.row is not None:
        print(listed(html_tokens(words.row)))
        return 0
    if words.tree is not None:
        print(with_room(lambda: TreeDefinition().shown(words.tree, words.inside, words.scripting)))
        return 0
    if words.clauses:
        return tree_rows.compared(words)
    if importlib.util.find_spec("html5lib") is None:
        print("compare html: html5lib isn't installed", file=sys.stderr)
        return 3
    warnings.simplefilter("ignore")
    return 1 if compared(words) else 0
