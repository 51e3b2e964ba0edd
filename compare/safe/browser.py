"""What browsers make of pages that `tl sanitize` made safe.

    ./x compare browser [--program FILE] [--runs N] [--trees N [--ammonia FILE]] [--attacks N] [--seed N]

The pages are those of `tests/safe.t`, which attack a browser, and N made up of pieces of such pages.
Each is handed to Chromium as it stands and once it is sanitized: as a document in a frame, put into a live element, and put
there once more as the browser writes it. It says of how many pages a script ran, and of how many a link would run one.
It is sanitized by the policy of a blog, and with links marked. Of that it says too which elements, keys and comments there are
beyond the policy's lists, whether html5lib's tokenizer reads the tags and keys that were written, and whether sanitizer.py, written
from docs/SAFE.md alone, prints the same.

With --trees it looks instead at N pages for each of five policies whose tags are nested wrongly (made/misnested.py): whether the plain
sanitizer prints the same, and whether the trees that Chromium builds of the print are those that it was printed of: put
into thirteen elements, from `div` to `template`, a `div` in quirks mode, and as a document, with a doctype and without, each once more as the browser
writes it. The same pages go through the Rust crate ammonia where its program is named, which `cargo build --release` makes in
compare/safe/ammonia.

With --attacks it looks at N attacks by mutation (made/attacks.py) for each of five policies: whether the plain sanitizer prints the same,
whether html5lib reads the tags that were written, whether Chromium builds the trees that were printed, and whether a script runs, a link
would run one, or something beyond the policy stands in seven elements of a live document, a document and a fragment whose scripts run,
each once more as the browser writes it. 500 pages stand there together, which takes seconds.

Status: 0 where nothing is wrong, 1 where something is, 2 for words that aren't understood, 3 where Chromium or html5lib isn't
installed (Debian: chromium, python3-html5lib).
"""
import random
import re
import subprocess
import sys
import tempfile

from tools.programs import gate_build
from tools.transcripts import rows_of
from tools.workspace import ROOT, Stop, text_of

from ..chromium import Missing, all_answers, chromium, version
from ..html.markup import tags_read, tags_written, tree_said, tree_with_values_as_texts
from ..made.attacks import attack
from ..made.misnested import POLICIES, misnested
from ..made.unsafe import unsafe
from .sanitizer import Policy, safe_print

BATCH = 100
MANY = 1000
TREES = 4000
ATTACKS = 500
# how many wrong pages are shown, the shortest first
SHOWN = 5
CALL = "steal()"
# The lists by which attacks are sanitized.
ATTACKED = ([], ["--comments"], ["--documents"], ["--nofollow-links", "--classes", "+hljs,*"], ["--documents", "--tags", "+ruby,rb,rp,rt,rtc,center,nobr,font,listing,details"])
# A page that is printed as it stands, between others.
BETWEEN = "(here begins another page)"

def written_pages():
    """The pages of the transcript, but those for which `video` is listed."""
    rows = rows_of("tests/safe.t", text_of(f"{ROOT}/tests/safe.t"))
    pages = (re.fullmatch(r"(printf .*) \| tl sanitize(.*)", it.command) for it in rows)
    return [said_by(["sh", "-c", it[1]]) for it in pages if it and "videos" not in it[2]]


def said_by(command, data=b""):
    done = subprocess.run(command, input=data, stdout=subprocess.PIPE, stderr=subprocess.PIPE, check=False)
    if done.returncode != 0:
        raise Stop(f"{command[0]} ended with {done.returncode}: {done.stderr.decode()}")
    return done.stdout.decode()


def prints_of(command, pages):
    """What a command prints of many pages, whose files stand after its words, by few runs of it."""
    out = []
    for start in range(0, len(pages), MANY):
        with tempfile.TemporaryDirectory() as folder:
            files = []
            for number, page in enumerate([BETWEEN, *pages[start:start + MANY]]):
                with open(f"{folder}/{number}", "wb") as file:
                    file.write(page.encode())
                files += [f"{folder}/{number}", f"{folder}/0"] if number else []
            out += said_by([*command, *files]).split(BETWEEN)[:-1]
    return out


def sanitized(program, pages, words=()):
    return prints_of([program, "sanitize", *words, "--no-name", "--"], pages)


def policy(program, words=()):
    """The lists that the program takes, as it says them."""
    return Policy(said_by([program, "sanitize", *words, "--policy"]).splitlines())


def judged(browser, pages, harness="safe/pages.html", size=BATCH):
    """What is seen in Chromium of each page."""
    # A script of the page calls `parent.stolen(N)`.
    batch = [page.replace(CALL, f"parent.stolen({number % size})") for number, page in enumerate(pages)]
    return all_answers(browser, harness, batch, size)


def trees_seen(browser, prints):
    """The tree that each print stands for, and what is seen of it in Chromium."""
    trees = [tree_said(text) for text in prints]
    batch = [(text, tree, tree_with_values_as_texts(text)) for text, tree in zip(prints, trees)]
    return list(zip(trees, all_answers(browser, "safe/trees.html", batch, TREES)))


def changes(tree, seen):
    return bool(tree is None or seen["other"] or seen["again"])


def look_at_trees(given, browser, called):
    """Misnested pages of a policy's names: the plain sanitizer's print, and Chromium's trees of it."""
    tags = POLICIES[called]
    words = ["--tags", tags.replace(" ", ",")] if tags else []
    lists = policy(given.program, words)
    names = sorted(lists.tags)
    chance = random.Random(f"{called} {given.seed}")
    pages = [misnested(chance, names) if chance.random() < 0.9 else unsafe(chance) for _ in range(given.trees)]
    prints = sanitized(given.program, pages, words)
    kept = [safe_print(page, lists, list) for page in pages]
    wrong = []
    for page, text in zip(pages, prints):
        if text != safe_print(page, lists):
            wrong.append((len(page), f"the plain sanitizer prints another page: {page!r} is printed as {text!r}"))
    all_seen = trees_seen(browser, prints)
    for page, text, (tree, seen) in zip(pages, prints, all_seen):
        if changes(tree, seen):
            wrong.append((len(page), f"{page!r} is printed as {text!r}, for {tree}: {seen}"))
    for _, said in sorted(wrong)[:SHOWN]:
        print(f"browser: {called}: {said}")
    changed = sum(1 for text, other in zip(prints, kept) if text != other)
    returns, references = (sum(1 for _, seen in all_seen if seen[what]) for what in ("returns", "references"))
    print(f"browser: {called}: {len(pages)} pages, {changed} of them changed to stay: {len(wrong)} wrong; of {references} a value has a "
          f"reference that Chromium reads otherwise by its short way, of {returns} a carriage return that was a reference is a line feed "
          "when read back", flush=True)
    if given.ammonia:
        others = prints_of([given.ammonia, ",".join(names)], pages)
        moved = sum(1 for tree, seen in trees_seen(browser, others) if changes(tree, seen))
        print(f"browser: {called}: of {moved} pages Chromium builds another tree than the one that ammonia prints", flush=True)
    return len(wrong)


def wrong_prints(pages, prints, lists):
    """What is wrong of prints by what other programs write and read, each with its length."""
    for page, text in zip(pages, prints):
        if text != safe_print(page, lists):
            yield len(page), f"the plain sanitizer prints another page: {page!r} is printed as {text!r}"
        tags = tags_written(text)
        if tags is None or tags != tags_read(text):
            yield len(page), f"html5lib reads other tags: {page!r} is printed as {text!r}"


def is_beyond(seen, lists):
    """Whether something is seen that no page by these lists may have."""
    others = set(seen["elements"]) - set(lists.tags) | set(seen["keys"]) - set(lists.keys)
    return bool(seen["script"] or seen["link"] or seen["comments"] or others)


def look_at_attacks(given, browser, words):
    """What Chromium runs and builds of attacks by mutation, once they are sanitized by a policy that these words say."""
    lists = policy(given.program, words)
    chance = random.Random(f"{words} {given.seed}")
    pages = [attack(chance) for _ in range(given.attacks)]
    prints = sanitized(given.program, pages, words)
    wrong = list(wrong_prints(pages, prints, lists))
    for page, text, (tree, built) in zip(pages, prints, trees_seen(browser, prints)):
        if changes(tree, built):
            wrong.append((len(page), f"{page!r} is printed as {text!r}, for {tree}: {built}"))
    for page, text, seen in zip(pages, prints, judged(browser, prints, "safe/attacks.html", ATTACKS)):
        if is_beyond(seen, lists):
            wrong.append((len(page), f"{page!r} is printed as {text!r}: {seen}"))
    for _, said in sorted(wrong)[:SHOWN]:
        print(f"browser: {said}")
    live = judged(browser, pages[:ATTACKS], "safe/attacks.html", ATTACKS)
    print(f"browser: {' '.join(['attacks', *words])}: {len(pages)} pages: {len(wrong)} wrong; of the first {len(live)} as they stand a script "
          f"ran of {sum(1 for seen in live if seen['script'])}, a link would run one of {sum(1 for seen in live if seen['link'])}", flush=True)
    return len(wrong)


def look_at_pages(program, browser, pages, words):
    """What Chromium runs and builds of pages, as they stand and as they are printed by a policy that these words say."""
    lists = policy(program, words)
    prints = sanitized(program, pages, words)
    wrong = 0
    for _, said in wrong_prints(pages, prints, lists):
        print(f"browser: {said}")
        wrong += 1
    before, after = judged(browser, pages), judged(browser, prints)
    for page, text, seen in zip(pages, prints, after):
        if is_beyond(seen, lists):
            print(f"browser: {page!r} is printed as {text!r}: {seen}")
            wrong += 1
    for said, all_seen in (("as they stand", before), ("sanitized", after)):
        scripts, links = (sum(1 for seen in all_seen if seen[what]) for what in ("script", "link"))
        print(f"browser: {len(pages)} pages {' '.join([said, *words])}: a script ran of {scripts}, a link would run one of {links}", flush=True)
    return wrong


def main(parser, words):
    parser.add_argument("--program", metavar="FILE")
    parser.add_argument("--ammonia", metavar="FILE")
    for it, otherwise in (("runs", 1000), ("trees", 0), ("attacks", 0), ("seed", 1)):
        parser.add_argument(f"--{it}", type=int, default=otherwise, metavar="N")
    given = parser.parse_args(words)
    given.program = given.program or gate_build("tl")
    try:
        browser = chromium()
        try:
            import html5lib
        except ImportError:
            raise Missing("html5lib") from None
    except Missing as missing:
        print(f"browser: {missing} isn't installed; nothing was compared")
        return 3
    print(f"browser: {version(browser)}, html5lib {html5lib.__version__}", flush=True)
    if given.attacks:
        wrong = sum(look_at_attacks(given, browser, words) for words in ATTACKED)
    elif given.trees:
        # a tree is a list in a list for each element
        sys.setrecursionlimit(10000)
        wrong = sum(look_at_trees(given, browser, called) for called in POLICIES)
    else:
        chance = random.Random(given.seed)
        pages = written_pages() + [unsafe(chance) for _ in range(given.runs)]
        wrong = sum(look_at_pages(given.program, browser, pages, words) for words in ([], ["--nofollow-links"], ["--classes", "+hljs,*"]))
    print(f"browser: {wrong} pages wrong" if wrong else "browser: nothing wrong")
    return 1 if wrong else 0

