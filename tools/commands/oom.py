"""Refuses each request for memory in turn, of each call that takes memory or promises to take none.

    ./x oom              compares with the table in tools/oom/calls.tsv
    ./x oom --table      counts, and writes the table anew
    ./x oom --jobs N     so many runs side by side; else one on each core, four at most

The calls are those of the program in tools/oom, whose README says what has to hold once a request was refused. The table says how
many requests each call makes, and how many are made before it for what it needs. There is a run for each request, in which it alone
is refused and the call has to answer that, and one more for each call that takes all it wants: so a call that makes one request more
than the table says, or one less, is named; where that is meant, --table counts anew. Then the requests for the words of the program
`tlq` are refused too, and those of commands of `tl` (tools/refusals.py). Nothing of what runs is proved: these programs are compiled
once, as ./x try does it, and an access to memory that isn't theirs ends a run.
"""
import os
import re
from concurrent.futures import ThreadPoolExecutor

from .. import refusals
from ..running import count, run
from ..unproved import unproved_build
from ..workspace import ROOT, Stop, cores, put, text_of

# Always the request of this number is refused: the case of a run says how many are made right before the call.
REFUSED = 500
# The table: a line a call, its columns apart by tabs, below a line of their names.
TABLE = "tools/oom/calls.tsv"
HEAD = "number\tcall\tbefore\trequests"
# Each module of the program has room for so many calls.
CALLS = 32
# Of `tlq` the first request for its words, which is for the arguments, and the last one, which is for a list of one.
OF_WORDS = (1, 5)


class Call:
    """A row of the table."""

    def __init__(self, number, name, before, requests):
        self.number, self.name, self.before, self.requests = int(number), name, int(before), int(requests)

    def row(self):
        return f"{self.number}\t{self.name}\t{self.before}\t{self.requests}"


def calls():
    head, *rows = text_of(f"{ROOT}/{TABLE}").splitlines()
    if head != HEAD or not rows:
        raise Stop(f"{TABLE} has another first line than `{HEAD}`, or no call: --table writes it anew")
    return [Call(*it.split("\t")) for it in rows]


def cases_of(rows):
    """Cases by name, each as what stands on standard input and how it has to end: the status, and the line that is written. Behind
    the last call of each module there is none, and its number answers that."""
    found = {}
    numbers = {it.number for it in rows}
    for it in rows:
        for request in range(1, it.requests + 1):
            given = f"{it.number} {REFUSED - it.before - request}"
            found[f"{it.number:04}-{request:03}"] = given, (3, f"refused {it.name}")
        found[f"{it.number:04}-all"] = f"{it.number} {REFUSED - 1 - it.before - it.requests}", (0, f"0 {it.name}")
        if it.number + 1 not in numbers and it.number % CALLS != CALLS - 1:
            found[f"{it.number + 1:04}-end"] = f"{it.number + 1} 0", (2, "")
    beyond = CALLS * (rows[-1].number // CALLS + 1)
    return {**found, f"{beyond:04}-end": (f"{beyond} 0", (2, "")), "no-call": ("", (2, ""))}


def counting_cases():
    """Cases that count: for each number one that ends right before the call, and one with the whole call."""
    modules = re.findall(r"(?m)^ +(\d+) => \w+::call\(", text_of(f"{ROOT}/tools/oom/main.rs"))
    for number in range(CALLS * (max(map(int, modules)) + 1)):
        yield f"{number:04}-before", str(number)
        yield f"{number:04}-whole", f"{number} 0"


def refusing(program, request, given=b"", words=()):
    """A run of a program in which this request for memory is refused."""
    return run([program, *words], given=given, env={**os.environ, "RATTLE_REFUSED": str(request)}, limit=60)


def endings(cases, jobs):
    """How each case ended: its status, and what it wrote last."""
    program = unproved_build("oom")
    with ThreadPoolExecutor(jobs) as workers:
        runs = workers.map(lambda it: refusing(program, REFUSED, it[1].encode()), cases)
        return {name: (ran.status, ran.said().rpartition("\n")[2]) for (name, _), ran in zip(cases, runs)}


def tabulate(jobs):
    """Writes the table from what the counting cases ended with."""
    found = endings(list(counting_cases()), jobs)
    wrong = [f"{name}: {line}" for name, (status, line) in sorted(found.items()) if status not in (0, 2)]
    rows = []
    for name, (status, line) in sorted(found.items()):
        if name.endswith("-whole") and status == 0:
            number, whole = name.partition("-")[0], int(line.split()[0])
            before = int(found[f"{number}-before"][1].split()[0])
            rows.append(Call(number, line.partition(" ")[2], REFUSED - 1 - before, before - whole))
    if wrong or not rows:
        raise Stop("\n".join(["the calls are not counted:", *wrong]))
    put(f"{ROOT}/{TABLE}", "".join(f"{it}\n" for it in (HEAD, *(row.row() for row in rows))))
    print(f"oom: {count(len(rows), 'call')} are in the table")


def check_calls(jobs):
    """Refuses each request of each call."""
    rows = calls()
    cases = cases_of(rows)
    found = endings([(name, given) for name, (given, _) in cases.items()], jobs)
    differing = [(name, expected) for name, (_, expected) in cases.items() if found[name] != expected]
    wrong = ["{}: wanted {} {}: was {} {}".format(name, *expected, *found[name]) for name, expected in differing]
    if wrong:
        why = f"a call did not answer as it has to, or makes other requests than {TABLE} says (--table renews it)"
        raise Stop("\n".join([*wrong, why]))
    refused = sum(it.requests for it in rows)
    print(f"oom: {count(len(rows), 'call')}, {count(refused, 'request')}, each refused in turn", flush=True)


def check_words():
    """Refuses the requests for the words of the program."""
    program = unproved_build("tlq")
    for request in OF_WORDS:
        for word in ("print", "text", "edit"):
            ran = refusing(program, request, words=[word])
            if ran.status != 3:
                raise Stop(f"request {request} for the words was refused, and `tlq {word}` ended with {ran.ending()}\n{ran.said()}")
    print("oom: no memory for the words of the program", flush=True)


def check_people(jobs):
    """Refuses the requests of commands of `tl`."""
    program = unproved_build("tl")
    each = [(words, page, number == 0) for number, (words, page) in enumerate(refusals.COMMANDS)]
    with ThreadPoolExecutor(jobs) as workers:
        found = list(workers.map(lambda it: refusals.refuse_each(program, *it), each))
    wrong = [it for _, said in found for it in said]
    if wrong:
        raise Stop("\n".join(wrong))
    refused = sum(it for it, _ in found)
    print(f"oom: {count(len(each), 'command')} of tl, {count(refused, 'request')}, each refused in turn", flush=True)


def check(jobs=None):
    """Refuses each request; a Stop says what is wrong."""
    jobs = jobs or min(4, cores())
    check_calls(jobs)
    check_words()
    check_people(jobs)
    return True


def main(parser, words):
    parser.add_argument("--table", action="store_true")
    parser.add_argument("--jobs", type=int, metavar="N", default=min(4, cores()))
    given = parser.parse_args(words)
    if given.table:
        tabulate(given.jobs)
    else:
        check(given.jobs)
    return 0
