"""Copies a library of this workspace, with those that it stands on, into another workspace, whose crates can list it then.

    ./x vendor DIR [NAME]     the library NAME, `tl` where none is named
    ./x vendor --test         has ./x new make a workspace, copies its libraries once more, and runs the program there, unproved

The folders come to stand in DIR/crates, each with its README, in the place of those that stand there, and their lines in
DIR/crates.txt, as far as it lacks them. Mutants stay here, and so does what was proved: the first check
of a crate that lists the library proves it again.
"""
import re
import tempfile

from ..running import count, run
from ..unproved import unproved_build
from ..vendoring import vendor
from ..workspace import Stop, Workspace, text_of
from .new import BELOW, PROGRAM, make_workspace

PAGE = b'<p><a href="/x">a</a><br><a>b</a><a href="#y">c</a></p>'
LINES = b"/x\n#y\n"


def check():
    """Looks whether what is copied is enough for a program in another workspace."""
    with tempfile.TemporaryDirectory(prefix="x-vendor-") as room:
        make_workspace(f"{room}/other")
        vendor(f"{room}/other", BELOW)
        other = Workspace(f"{room}/other")
        if len(re.findall(rf"(?m)^{BELOW} *:", text_of(f"{other.root}/crates.txt"))) != 1:
            raise Stop(f"copied twice, it left another number of lines of {BELOW} than one")
        ran = run([unproved_build(PROGRAM, other)], given=PAGE)
        if ran.status or ran.out != LINES:
            raise Stop(f"the program did not print the links of its page: {ran.ending()}: {ran.said()}")
    print("vendor: a program in another workspace printed the links of a page", flush=True)
    return True


def main(parser, words):
    parser.add_argument("--test", action="store_true")
    parser.add_argument("folder", nargs="?", metavar="DIR")
    parser.add_argument("name", nargs="?", default="tl", metavar="NAME")
    given = parser.parse_args(words)
    if given.test:
        return 0 if check() else 1
    if not given.folder:
        parser.error("which workspace? DIR is its folder")
    number = vendor(given.folder, given.name)
    print(f"vendor: {count(number, 'crate')} in {given.folder}/crates")
    return 0
