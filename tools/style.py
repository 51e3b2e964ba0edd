"""The words that docs/STYLE.md wants replaced, looked for in the prose of documents and in the strings of help and messages."""
import re

from .documents import documents
from .workspace import ROOT, Workspace, text_of

STYLE = "docs/STYLE.md"
# The port keeps its own terms; the list itself shows what it forbids.
APART = {STYLE, "docs/GRAMMAR.md", "docs/DIFFERENCES.md"}
HELP = "tl_commands"
# Sources with messages: they write `Display`, or have them as constants.
MESSAGES = re.compile(r"impl (?:fmt::)?Display for|const [A-Z_]*: &(?:'static )?str")
# A comment, a character, or a string, which alone is kept, raw or not.
STRING = re.compile(r"""(?s)//[^\n]*|'(?:\\.|[^'\\])'|r(#*)"(.*?)"\1|"((?:[^"\\]|\\.)*)\"""")
ROW = re.compile(r"(?m)^\| ([^|`]+) \| (`[^|]+`) \|$")


def rows(heading):
    """The rows of a table of the list: what to write, and how its words are found."""
    part = text_of(f"{ROOT}/{STYLE}").split(f"## {heading}\n")[1].partition("\n## ")[0]
    found = ((better, [r"\s+".join(map(re.escape, it.split())) for it in re.findall("`([^`]+)`", words)]) for better, words in ROW.findall(part))
    return [(better, re.compile(rf"\b(?:{'|'.join(words)})\b", re.I)) for better, words in found]


def prose(text):
    """The lines of a document with their numbers, without code."""
    is_fenced = False
    for number, line in enumerate(text.split("\n"), 1):
        if line.startswith("```"):
            is_fenced = not is_fenced
        if not is_fenced and not line.startswith("    "):
            yield number, re.sub(r"`[^`]*`", "``", line)


def strings(crate, workspace):
    """The strings of a crate's sources that are help or messages, with their places."""
    for path in workspace.files(crate):
        if re.match(r"crates/\w+/src/.*\.rt$", path):
            text = text_of(f"{ROOT}/{path}")
            if crate == HELP or MESSAGES.search(text):
                found = ((it.start(), it[2] or it[3]) for it in STRING.finditer(text) if it[2] or it[3])
                yield from ((f"{path}:{text.count(chr(10), 0, at) + 1}", string) for at, string in found)


def faults():
    """What is written in words that the list wants replaced."""
    read = [it for it in documents() if it not in APART]
    lines = [(f"{path}:{number}", line) for path in read for number, line in prose(text_of(f"{ROOT}/{path}"))]
    workspace = Workspace()
    said = [it for crate in workspace.libraries if not crate.endswith("_tests") for it in strings(crate, workspace)]
    for better, words in rows("Words"):
        yield from (f"{place}: `{found[0]}`: write {better} ({STYLE})" for place, line in (*lines, *said) for found in words.finditer(line))
