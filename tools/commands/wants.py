"""Looks whether a body makes up want of memory, or tells it as something else, which no contract refuses.

    ./x wants             names each place where a body does
    ./x wants --list      prints all lines of the product crates where such a value is named
    ./x wants --test      reads the samples of tools/wants/samples.txt, whose places are known

Clauses say that a call may fail for want of memory, and can't say that memory is there. So no body may name `AllocError`,
`AllocFailed` or an `OutOfMemory` as a value that it has not got from a call which was refused memory. It may name one

    in `fn from` of an `impl From<AllocError>` or `impl From<AllocFailed<..>>`;
    in a match arm, after an `if let` or in a closure whose pattern matches one: `Err(X::OutOfMemory) => Err(Y::OutOfMemory)`;
    where it is only compared: `error.kind() == ErrorKind::OutOfMemory`, `matches!(..)`;
    on a line of tools/wants/allowed.list, each of which has its reason.

And an arm whose pattern matches one has to give one, alone, in an `Err` or its like, or beside other things; or its text.

Types, `use` lines, clauses and comments don't count. Another name for one, by `as`, `type`, `const`, `let` or a function that
returns it, names it too. What no reading of names shows is a call that asks for more memory than it needs, an arm
`Err(_)` that takes a want of memory with other errors, and a number in the place of a status.
"""
import re

from ..wants.source import Source
from ..workspace import ROOT, Workspace, text_of

# Crates of tests.
OTHERS = re.compile(r".*_tests")
ALLOWED = "tools/wants/allowed.list"


def sources(workspace):
    """The files of the product crates."""
    for crate in workspace.libraries:
        if not OTHERS.fullmatch(crate):
            yield from (it for it in workspace.files(crate) if re.search(r"/src/.*\.rt$", it))


def allowed_lines():
    """The lines of the list: a file, a line of it, and after them an indented reason."""
    found, last = {}, None
    for line in text_of(f"{ROOT}/{ALLOWED}").split("\n"):
        if line.startswith("crates/"):
            path, _, text = line.partition(": ")
            last = path, text.strip()
            found[last] = ""
        elif last and line.startswith("    "):
            found[last] += line.strip()
    return found


def faults(workspace):
    """What is wrong in the workspace."""
    listed, met = allowed_lines(), {}
    for crate, below in workspace.libraries.items():
        for it in below:
            if not OTHERS.fullmatch(crate) and OTHERS.fullmatch(it):
                yield f"crates.txt: {crate} stands on {it}, which is not read"
    for path in sources(workspace):
        for number, line, why in Source(text_of(f"{workspace.root}/{path}")).places():
            met[path, line] = met.get((path, line), 0) + 1
            if (path, line) not in listed:
                yield f"{path}:{number}: {why}: {line}"
    for (path, line), reason in listed.items():
        number = met.get((path, line), 0)
        if number != 1:
            yield f"{ALLOWED}: {path}: {line}: {'nothing is wrong there' if not number else f'it stands {number} times'}"
        if not reason:
            yield f"{ALLOWED}: {path}: {line}: it has no reason"


def check_samples():
    """Reads the samples, and says where something else is found than stands in them. Whether nothing is."""
    wrong = number = 0
    for part in text_of(f"{ROOT}/tools/wants/samples.txt").split("\n== ")[1:]:
        head, _, text = part.partition("\n")
        found = [line for _, line, _ in Source(text).places()]
        expected = [it.strip() for it in text.split("\n") if it.rstrip().endswith("// refused")]
        number += 1
        if found != expected:
            wrong += 1
            print(f"wants: {head}: found {found}, not {expected}")
    print(f"wants: {number - wrong} of {number} samples are read as what they are", flush=True)
    return number > 0 and not wrong


def check():
    """Names what is wrong. Whether nothing is."""
    found = list(faults(Workspace()))
    for it in found:
        print(f"wants: {it}")
    if not found:
        print("wants: want of memory is made up nowhere, and told as what it is", flush=True)
    return not found


def main(parser, words):
    parser.add_argument("--list", action="store_true")
    parser.add_argument("--test", action="store_true")
    given = parser.parse_args(words)
    if given.test:
        return 0 if check_samples() else 1
    if not given.list:
        return 0 if check() else 1
    workspace = Workspace()
    for path in sources(workspace):
        for _, line, _ in Source(text_of(f"{workspace.root}/{path}")).places():
            print(f"{path}: {line}")
    return 0
