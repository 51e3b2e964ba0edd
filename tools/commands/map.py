"""Lists the crates and their modules, each with the first sentence of what its source says of it.

    ./x map [NAME..]      of all crates, in the order of crates.txt, or of those that are named
    ./x map --specs ..    their definitions too
    ./x map --calls ..    instead, the public calls: signature, first sentence of the comment, and the names of the clauses
"""
import itertools
import re

from .. import public_calls
from ..workspace import Stop, Workspace, text_of

MARKS = {".rt": "//!", ".antt": "--"}


def module_of(path):
    """A source's name among those of its crate, as `lib`, `parser/tag` or `specs/Lib`, and how the lines of its comments begin."""
    found = re.match(r"crates/\w+/(?:src/(.*)(\.rt)|(specs/.*)(\.antt))$", path)
    return (found[1] or found[3], MARKS[found[2] or found[4]]) if found else None


def first_sentence(text, mark):
    """The first sentence of the comment that a source begins with."""
    lines = itertools.takewhile(lambda it: it.startswith(mark) and it != mark, text.lstrip().splitlines())
    said = " ".join(it.removeprefix(mark).strip() for it in lines)
    return re.match(r".*?(?:\.(?= [A-Z`])|$)", said)[0]


def modules(workspace, crate, with_specs):
    """The modules of a crate, each with its first sentence."""
    for path in workspace.files(crate):
        module = module_of(path)
        if module and (with_specs or not module[0].startswith("specs/")):
            name, mark = module
            yield name, first_sentence(text_of(f"{workspace.root}/{path}"), mark)


def print_calls(workspace, crate):
    """Prints the public calls of a crate, by module and type."""
    for module, found in public_calls.calls(workspace, crate):
        print(f"  {module}")
        for it in found:
            owner = f"{it.owner}: " if it.owner else ""
            print("\n        ".join(part for part in (f"    {owner}{it.signature}", it.said(), it.promises()) if part))


def main(parser, words):
    parser.add_argument("--specs", action="store_true")
    parser.add_argument("--calls", action="store_true")
    parser.add_argument("names", nargs="*", metavar="NAME")
    given = parser.parse_args(words)
    workspace = Workspace()
    for it in given.names:
        if it not in workspace.libraries:
            raise Stop(f"crates.txt has no line of {it}")
    for crate in given.names or workspace.libraries:
        print(f"{crate}: {workspace.notes[crate]}")
        if given.calls:
            print_calls(workspace, crate)
        for name, sentence in () if given.calls else modules(workspace, crate, given.specs):
            print(f"    {name:<28} {sentence}".rstrip())
        print()
    return 0
