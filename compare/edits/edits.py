"""Compares what the words of `tl` that edit a page in its own bytes make of made-up pages, most of them broken, with a plain reader.

    ./x compare edits [--program FILE] [--edits N] [--seed N] [--words set,remove] [--chromium [--doms N]] [[--tasks] FOLDER ..]

Of each page the plain reader (page.py) says by the tree of the standard which elements a selector finds, where their tags stand, how
far they go and whether they are whole so; and the model of patches (model.py) what comes of the page, or why it is refused: what is
said then has to be that, but for the place where patches cut across each other or what is put can't stand. Each byte outside of these
places has to be as it was; html5lib's tokenizer has to read the tokens that are asked for, where it reads the page itself as the plain
reader does.

With folders the pages in them are edited too, and html5lib's trees compared: with a key set or unset at all tags of a name, or with
such elements gone, it has to be the tree of the page with just that done. With --tasks it is ten tasks that people have, each one
command (tasks.py): links to another scheme, absolute or without parameters, classes, ids, comments, markup first in the body.

With --chromium texts that hold a script are put into each place of pages of each kind, and elements renamed around such texts: none may
run in Chromium that didn't before (scripts.py). And of N made-up pages of which one element is edited what Chromium builds is
compared with the same operation of the DOM (doms.py): how often the trees are the same, and why others aren't, is counted by kind.

The program is the `tl` that the gate built unless another is named. Ends with 1 where something differs. Of a Debian: apt-get install
python3-html5lib, and chromium for --chromium.
"""
import os
import random
import re
import subprocess
import tempfile
from collections import Counter

from tools.programs import gate_build

from ..css.reader import parse
from ..html.markup import html5lib_tokens
from ..html.tokenizer import lower
from ..html.tree_definition import with_room
from ..made.edited import edited_page
from .doms import KEY, compared_doms, numbered
from .end_tags import RAW
from .model import TAG_WORDS, asked_of, changed, form_of, joined, refusal, spliced
from .page import Page
from .scripts import compared_scripts
from .tasks import compared_tasks
from .trees import compared_trees

# So many pages a run of the program.
BATCH = 200
WORDS = ("set", "unset", "remove", "replace", "fill", "prepend", "append", "before", "after", "unwrap", "rename")
SELECTORS = (
    ["*", "body *", "body *", "body *", "a", "p", "li", "b", "td", "svg *", "div > *", "p + *", "[title]", "[class]", ":first-child", ":empty", "p, a"]
    + [":not(:root)", "table td", "x-y", "option", "br", "a[href]", "[id=x]", ".k", "#x", "li:nth-child(2n)", "title", "script", "z"]
    + ["body", "html", "body > :last-child", "style", "script, style, xmp", "iframe, noframes", "div, b"]
)
# Each finds the start tags of a number.
NUMBERS = [f'[{KEY}="{number}"]' for number in range(7)]
KEYS = ["title", "class", "ID", "href", "onclick", "data-x", "a:b", "é", "x", "y"]
VALUES = ["", "v", "a b", '"', "'", "&", "&amp;", "&copy", "<i>", "a>b", "\n", "é", "=", "`", "/", "&#10;", "&notit;"]
NAMES = ["div", "b", "x-y", "h1", "li", "td", "br", "title", "svg", "noscript", "select", "template"]
MARKUP = ["<i>x</i>", "<hr>", "<!--c-->", "a&lt;b", "</b>", "<li>", "&am", "<", "<i", "<!--", "<script>", "é<br/>", "</>"]
def is_read_so(page, written, tokens):
    """Whether html5lib reads these tokens, where it reads the page as the plain reader does. Its tokenizer alone knows no raw texts."""
    if any(it[0] == "start" and it[1] in RAW for it in [*page.tokens, *tokens]):
        return True
    return html5lib_tokens(page.text) != joined(page.tokens) or html5lib_tokens(written) == joined(tokens)


class Edit:
    """Words for the program, and what they mean."""

    def __init__(self, chance, words):
        self.word, self.is_numbered = chance.choice(words), chance.random() < 0.4
        self.selector = chance.choice(NUMBERS if self.is_numbered else SELECTORS)
        self.is_tag = self.word in TAG_WORDS
        self.key, self.value = chance.choice(KEYS), chance.choice(VALUES) if self.word != "unset" else None
        is_markup = chance.random() < 0.4
        self.content = ("markup", chance.choice(MARKUP)) if is_markup else ("text", chance.choice(VALUES))
        if self.word == "rename":
            self.content = ("name", chance.choice(NAMES))
        self.read = parse(self.selector)

    def words(self):
        options = ["--html"] if self.content[0] == "markup" and self.word not in (*TAG_WORDS, "remove", "unwrap") else []
        if self.is_tag:
            given = [self.key] if self.value is None else [self.key, self.value]
        else:
            given = [] if self.word in ("remove", "unwrap") else [self.content[1]]
        return [self.word, "-i", *options, "--", self.selector, *given]

    def refusal(self, page, rows):
        return refusal(page, rows, self.word, self.content)

    def is_done(self, page, written, found):
        """Whether that was written of a page which has to be."""
        return self.has_tags(page, written, found) if self.is_tag else self.has_splices(page, written, found)

    def has_tags(self, page, written, found):
        new = Page(written)
        should = [changed(token, lower(self.key), self.value) if at in found else token for at, token in enumerate(page.tokens)]
        if new.tokens != should:
            return False
        form, at = [], 0
        for token in found:
            form.append(re.escape(page.text[at : page.begins[token]] + new.bytes_of(token)))
            at = page.begins[token + 1]
        form.append(re.escape(page.text[at:]))
        return re.fullmatch("".join(form), written, re.DOTALL) is not None and is_read_so(page, written, should)

    def has_splices(self, page, written, found):
        should, parts = spliced(page, asked_of(page, found, self.word, self.content))
        if joined(Page.tokens_in(written)) != should or not form_of(parts).fullmatch(written):
            return False
        return is_read_so(page, written, should)


# What is said of a page that is written all the same.
TOLD = "browsers build another tree than is meant"


def asked(program, words, room, pages):
    """What is in the files of some pages after a run of the program, what it said of each that it refused, and of which it told that
    browsers build another tree."""
    files = [f"{room}/{number}" for number in range(len(pages))]
    for file, page in zip(files, pages):
        with open(file, "wb") as it:
            it.write(page.encode())
    run = subprocess.run([program, *words, *files], stdout=subprocess.PIPE, stderr=subprocess.PIPE, check=False)
    said = {int(number): what for number, what in re.findall(r"^tl: [^\n]*?/(\d+): ([^\n]*)$", run.stderr.decode(), re.MULTILINE)}
    told = {number for number, what in said.items() if what.startswith(TOLD)}
    written = []
    for file in files:
        with open(file, "rb") as it:
            written.append(it.read().decode())
    return written, {number: why for number, why in said.items() if number not in told}, told


def judged(edit, text, written, why, tally):
    """What is wrong with what was made of a page, or None."""
    page = Page(text)
    rows = page.found(edit.read)
    tally["edits"] += 1
    tally["edits of what is found"] += bool(rows)
    wanted = edit.refusal(page, rows)
    if why or wanted:
        tally[f"{edit.word}: refused: " + re.sub(r"\d+", "N", why or "")] += 1
        return None if written == text and why and wanted and re.fullmatch(wanted, why) else f"refused by {why}, and should be by {wanted}"
    return None if edit.is_done(page, written, page.tags_of(rows)) else "something else is written"


def compared(program, edit, pages, room, tally):
    """Compares an edit of some pages. How many differ."""
    written, refused, _ = asked(program, edit.words(), room, pages)
    differ = 0
    for number, text in enumerate(pages):
        why = judged(edit, text, written[number], refused.get(number), tally)
        if why:
            differ += 1
            print(f"differs: {edit.words()!r} of {text!r}: {why}: {written[number]!r}", flush=True)
    return differ


def main(parser, words):
    parser.add_argument("folders", nargs="*", metavar="FOLDER")
    parser.add_argument("--program", metavar="FILE")
    parser.add_argument("--edits", type=int, default=10000, metavar="N")
    parser.add_argument("--words", default=",".join(WORDS))
    parser.add_argument("--tasks", action="store_true", help="of pages of folders: tasks that people have, each one command")
    parser.add_argument("--chromium", action="store_true")
    parser.add_argument("--doms", type=int, default=5000, metavar="N", help="so many edits beside the DOM of Chromium")
    parser.add_argument("--limit", type=int, default=200, metavar="N", help="so many pages of folders at most")
    parser.add_argument("--seed", type=int, default=1, metavar="N")
    given = parser.parse_args(words)
    return with_room(lambda: all_compared(os.path.abspath(given.program or gate_build("tl")), given))


def all_compared(program, given):
    """Compares all that is asked for. 1 where something differs."""
    chance, tally, differ = random.Random(given.seed), Counter(), 0
    with tempfile.TemporaryDirectory() as room:
        while tally["edits"] < given.edits:
            edit = Edit(chance, given.words.split(","))
            pages = [edited_page(chance) for _ in range(BATCH)]
            pages = [numbered(it)[0] for it in pages] if edit.is_numbered else pages
            differ += compared(program, edit, pages, room, tally)
        if given.chromium:
            differ += compared_scripts(program, room, tally)
            differ += compared_doms(program, room, edited_page, asked, given.doms, given.seed, tally)
        if given.tasks:
            differ += compared_tasks(program, given.folders, given.limit, tally)
        else:
            differ += compared_trees(program, given.folders, given.words.split(","), given.limit, room, tally)
    for what, count in sorted(tally.items()):
        print(f"{count} {what}")
    print(f"{differ} differ")
    return 1 if differ else 0
