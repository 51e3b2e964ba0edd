"""Runs of `tl` in which one request for memory is refused, each request in turn.

Once one was refused `tl` ends with status 3 and says so in one line; it has written nothing then, and a page in a file is as it was.
A request whose refusal is made up for, so that the run ends as if nothing was refused, is passed over.
"""
import os
import tempfile

from .running import run

PAGE = "page.html"
# Commands that end with 0, each with its page, which stands in a file and on standard input.
COMMANDS = (
    (("print",), "<p id=a>b<c>d"),
    (("print", "--pretty"), "<!doctype html><ul><li>a<li>b</ul>"),
    (("select", "p > b"), "<p>a<b>c&eacute;"),
    (("select", "--json", "p", PAGE), "<p k=v>a<b>c"),
    (("text", "--in", "p", "--encoding", "latin1"), b"<p>\xe9"),
    (("links", PAGE), "<a href=x>y"),
    (("table",), "<table><tr><td>a<td>b"),
    (("outline",), "<p class=a>b"),
    (("sanitize", "--tags", "p,b"), "<p onclick=f()>a<b>c"),
    (("set", "-i", "p", "k", "v", PAGE), "<p>a<p>b"),
    (("unset", "--dry-run", "p", "k"), "<p k>a"),
    (("remove", "b"), "<p>a<b>c</b>"),
    (("remove", "--comments=b", PAGE), "<p>a<!--b-->c<!--d-->"),
    (("unset", "-i", "--skip", "p", "k", PAGE), "<p k>a</p></p>"),
    (("append", "-i", "--skip", "p", "x", PAGE), "<p>a</p><p>b</p>"),
    (("append", "--backup", ".old", "p", "<", PAGE), "<p>a</p>"),
)
# The words come first, and take most requests: those of one command alone are refused one by one.
STEP = 16
# After so many requests that the run doesn't make, it makes none.
PAST = 12


class Ended:
    """How a run ended: its status, what it wrote, and what then stood in the file."""

    def __init__(self, program, words, page, request):
        with tempfile.TemporaryDirectory(prefix="x-refused-") as room:
            file = f"{room}/{PAGE}"
            with open(file, "wb") as it:
                it.write(page)
            env = {**os.environ, "RATTLE_REFUSED": str(request)}
            ran = run([program, *words], given=page, env=env, cwd=room, limit=60)
            with open(file, "rb") as it:
                self.file = it.read()
            self.others = sorted({*os.listdir(room)} - {PAGE})
        self.status, self.out, self.err, self.ending = ran.status, ran.out, ran.err, ran.ending()

    def key(self):
        return self.status, self.out, self.err, self.file, self.others

    def is_of_words(self):
        return self.err == b"tl: words: out of memory\n"

    def is_well(self, page):
        """Whether want of memory is said, and nothing else is done."""
        is_said = self.status == 3 and self.err.endswith(b": out of memory\n") and self.err.count(b"\n") == 1
        return is_said and not self.out and self.file == page and not self.others


def first_request(end):
    """The number of a request from which on few are for the words."""
    request = STEP
    while end(request).is_of_words():
        request += STEP
    return request - STEP + 1


def refuse_each(program, words, page, from_first):
    """Refuses the requests of a command. How many were refused, and what is said of those that it didn't answer well."""
    page = page if isinstance(page, bytes) else page.encode()
    end = lambda request: Ended(program, words, page, request)
    whole, request, refused, past, said = end(0), 1, 0, 0, []
    if whole.status != 0:
        return 0, [f"tl {' '.join(words)}: {whole.ending}"]
    request = 1 if from_first else first_request(end)
    while past < PAST:
        ended = end(request)
        past = past + 1 if ended.key() == whole.key() else 0
        refused += not past
        if not past and not ended.is_well(page):
            said.append(f"tl {' '.join(words)}: request {request} was refused, and it ended with {ended.ending}: {ended.err}")
        request += 1
    return refused, said
