"""What the documents show and name: commands and their output, which transcripts have, code, which a source has, and paths, commands
and names, which are there."""
import glob
import os
import re

from .commands import new
from .transcripts import rows_of
from .workspace import ROOT, text_of

BY_HAND = "tests/by_hand.list"
# Where the README has its examples from, by their language.
EXAMPLES = {"rust": "bindings/rust/README.md", "python": "bindings/python/README.md"}
# Paths begin with one of these, or with the name of a crate.
TOP = {"crates", "docs", "tools", "tests", "include", "bindings", "compare", *os.listdir(f"{ROOT}/crates")}
BUILT = {".git", "out", "target", "__pycache__"}
SOURCES = (".rt", ".antt", ".py", ".h", ".t", ".txt", ".toml", ".rs", ".c")
# Documents whose names are all of this repository.
ON_CODE = {"README.md", "ARCHITECTURE.md", "CONTRIBUTING.md", "docs/CALLING.md", "docs/DECISIONS.md"}
PLACES = ("*.md", "docs/*.md", "crates/*/*.md", "tools/*/*.md")
# How a document calls a program that stands in a transcript by its name.
CALLS = re.compile(r"\./x (?:try )?(?=(?:tlq|tl|uses)\b)")
# A remark behind a command.
REMARK = re.compile(r"  +# .*$")
MARK = re.compile(r"( \(no-eol\))?( \(err\))?$")


class Example:
    """A command that a document shows, with its output."""

    def __init__(self, file, line, command):
        self.file, self.line, self.output = file, line, []
        self.command = CALLS.sub("", REMARK.sub("", command))

    def key(self):
        return self.command, tuple(self.output)


def examples_in(file, text):
    """The commands of a document's sessions: blocks that are indented, or fenced, and begin with `$ `."""
    found, block, is_fenced, was_blank = [], None, False, True
    for number, line in enumerate(text.split("\n"), 1):
        if line.startswith("```"):
            is_fenced, block = not is_fenced, None
            continue
        inner = line if is_fenced else line[4:] if line.startswith("    ") else None
        if inner is None or not inner.strip() and not is_fenced:
            block, was_blank = None, True
            continue
        if inner.startswith("$ ") and (block or was_blank or is_fenced):
            block = Example(file, number, inner[2:])
            found.append(block)
        elif block:
            block.output.append(inner)
        was_blank = False
    return found


def transcript_rows():
    """Each command of the transcripts, with what a document shows of its output."""
    found = set()
    for file in glob.glob(f"{ROOT}/tests/*.t"):
        for row in rows_of(os.path.basename(file), text_of(file)):
            lines = [MARK.sub("", it) for it in row.expected if not re.fullmatch(r"\[\d+\]", it)]
            found.add((row.command, tuple(lines)))
    return found


def by_hand():
    """The lines of tests/by_hand.list: a document, a command of it, and below them the reason why nothing runs it."""
    found, last = {}, None
    for line in text_of(f"{ROOT}/{BY_HAND}").splitlines():
        head = re.match(r"(\S+\.md): \$ (.*)", line)
        if head:
            last = head[1], head[2]
            found[last] = ""
        elif last and line.startswith("    "):
            found[last] += line.strip()
    return found


def documents():
    """The documents, by their paths."""
    return sorted(os.path.relpath(it, ROOT) for part in PLACES for it in glob.glob(f"{ROOT}/{part}"))


def faults():
    """What documents show and nothing runs, and what is listed and nothing shows."""
    runs, listed, met = transcript_rows(), by_hand(), set()
    for path in documents():
        for it in examples_in(path, text_of(f"{ROOT}/{path}")):
            key = path, it.command
            met.add(key if key in listed else it.key())
            if key not in listed and it.key() not in runs:
                yield f"{path}:{it.line}: $ {it.command}: no transcript has it with this output, and {BY_HAND} doesn't list it"
    for key, reason in listed.items():
        if key not in met:
            yield f"{BY_HAND}: {key[0]}: $ {key[1]}: the document doesn't show it"
        if not reason:
            yield f"{BY_HAND}: {key[0]}: $ {key[1]}: it has no reason"
    yield from code_faults()
    yield from link_faults()
    yield from name_faults()


def block_of(file, language):
    """The first block of code of a document in a language, or nothing."""
    found = re.search(rf"(?ms)^```{language}\n(.*?)^```$", text_of(f"{ROOT}/{file}"))
    return found[1] if found else ""


def code_faults():
    """The first blocks of code that no source has: the README's are those of the bindings, that of CALLING what ./x new makes."""
    for language, place in EXAMPLES.items():
        block = block_of("README.md", language)
        if not block or block not in block_of(place, language):
            yield f"README.md: its first block of {language} doesn't stand in that of {place}"
    if block_of("docs/CALLING.md", "rust") != new.SOURCE:
        yield "docs/CALLING.md: its first block of rust isn't SOURCE of tools/commands/new.py"


def anchors(text):
    """What a link within a document may lead to: its headings, as they are written in addresses."""
    headings = (re.sub(r"[^\w -]", "", it.lower()) for it in re.findall(r"(?m)^#+ (.*)$", text))
    return {it.replace(" ", "-") for it in headings}


def link_faults():
    """Links of documents to files and headings that aren't there."""
    for document in documents():
        text = text_of(f"{ROOT}/{document}")
        for link in re.findall(r"\]\(([^)\s]+)\)", re.sub(r"`[^`\n]*`", "", text)):
            file, _, heading = link.partition("#")
            path = os.path.normpath(f"{ROOT}/{os.path.dirname(document)}/{file}") if file else f"{ROOT}/{document}"
            if "://" not in link and (not os.path.exists(path) or heading and heading not in anchors(text_of(path))):
                yield f"{document}: the link {link} leads nowhere"


def files_there():
    """All files and folders, but for what was built."""
    for folder, folders, names in os.walk(ROOT):
        folders[:] = [it for it in folders if it not in BUILT]
        yield from (os.path.relpath(f"{folder}/{it}", ROOT) for it in (*folders, *names))


class Names:
    """The paths that a document may name, and all words of the sources."""

    def __init__(self):
        there = set(files_there())
        self.words = {os.path.basename(it).partition(".")[0] for it in there}
        for it in there:
            if it.endswith(SOURCES):
                self.words.update(re.findall(r"\w+", text_of(f"{ROOT}/{it}")))
        # A document may leave out `crates` in front, and the ending of a source.
        self.paths = there | {re.sub(r"\.(rt|antt)$", "", it) for it in there}
        self.paths |= {it.removeprefix("crates/") for it in self.paths}

    def missing(self, code, is_on_code):
        """What stands between backticks and is nowhere: a command of ./x, a path, and in a document on the code a name."""
        command = re.match(r"\./x (?!help\b)([a-z]+)", code)
        if command and not os.path.isfile(f"{ROOT}/tools/commands/{command[1]}.py"):
            yield f"the command {command[1]}"
        for it in re.findall(r"(?<![\w./-])[\w.]+(?:/[\w.-]+)+", code):
            first, *others = it.split("/")
            if first in TOP and "NAME" not in others and not BUILT.intersection(others) and it not in self.paths:
                yield it
        if is_on_code and re.fullmatch(r"[A-Za-z_][\w:]*", code):
            yield from (it for it in code.split("::") if it and it not in self.words)


def name_faults():
    """What documents name that is nowhere; tools/readmes.py looks at those of crates."""
    names = Names()
    for document in documents():
        lines = [] if document.startswith("crates/") else enumerate(text_of(f"{ROOT}/{document}").split("\n"), 1)
        for number, code in ((number, it) for number, line in lines for it in re.findall(r"`([^`]+)`", line)):
            yield from (f"{document}:{number}: `{code}`: {it} is nowhere" for it in names.missing(code, document in ON_CODE))
