"""Runs a program unproved, within two minutes or so, and at once the next time.

    ./x try PROGRAM WORDS..       as ./x try tl select -a href 'nav a' page.html

PROGRAM is `tl`, `tlq` or any other program of crates.txt, or one that ./x itself uses: `oom`, `stress`, `bench`, `trees`. It gets
the words as they stand and standard input, and its status is the program's. What runs is the same source, compiled with optimisation
and with checks, and nothing that is proved: an index out of range, a sum that wraps or an access to memory that isn't the program's
ends it there (`stress`, `bench` and `trees`, which are timed, have no checks). With RATTLE_REFUSED=3 in the environment the third
request for memory of the run is refused. What was compiled is kept, until a source changes; while it compiles, a line every ten
seconds says how far it is.
Status 127: there is no such program, or it doesn't compile.
"""
import os

from ..unproved import unproved_build


def main(parser, words):
    if words[:1] in ([], ["--help"], ["-h"]):
        parser.parse_args(words or ["--help"])
    program, *rest = words
    file = unproved_build(program)
    os.execv(file, [program, *rest])
