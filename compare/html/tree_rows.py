"""The worked rows of `crates/tl_dom_spec`, computed by its own definitions; and which clauses of these a row depends on."""
import collections
import glob
import itertools
import os
import re

from .specs import CRATES, Definitions, Module
from .tree_definition import SPECS, with_room

ROW = re.compile(r"^    ensures (\w+) \{ (.*?) \}$", re.DOTALL | re.MULTILINE)
SECTION = re.compile(r"^pub fn (\w+)\(\)\n(.*?)^\{\}$", re.DOTALL | re.MULTILINE)
USE = re.compile(r"^ghost (use .*);$", re.MULTILINE)
# What holds of all tokens is no row.
LAWS = "laws"


def rows(words):
    """Each row: its name, and both of its sides, as functions."""
    for path in sorted(glob.glob(os.path.join(CRATES, "tl_dom_spec", "src", "*.rt"))):
        file = os.path.basename(path)[:-3]
        if file == LAWS:
            continue
        with open(path, encoding="utf-8") as it:
            text = it.read()
        scope = "rows of " + file
        words.modules[scope] = Module.of_items(USE.findall(text))
        for section, body in SECTION.findall(text):
            for name, fact in ROW.findall(body):
                left, right = re.split(r"\s+≡ ", fact)
                yield f"{file}::{section}.{name}", words.compute(scope, left), words.compute(scope, right)


def outcome(compute):
    """What is computed, or that no clause fits or no end is come to."""
    try:
        return compute()
    except (ValueError, TypeError, KeyError, RecursionError) as fault:
        return type(fault)


def clause_text(words, module, name, at):
    tokens = words.module(module).clauses[name][at]
    text = ""
    for word, kind, is_apart in tokens:
        if word == "=":
            break
        text += (" " if is_apart else "") + (f'"{word}"' if kind == "string" else word)
    return f"{module.removeprefix(SPECS)} {name}{text}"


def dependents(words, found, most):
    """For each clause the rows that come to it, and some that would be others without it: those first that come to few clauses."""
    known, sizes, taken = {}, {}, collections.defaultdict(list)
    for name, left, _ in found:
        words.seen.clear()
        known[name], sizes[name] = left(), len(words.seen)
        for clause in words.seen:
            taken[clause].append((name, left))
    for clause in range(len(words.clauses)):
        words.left_out[0] = clause
        by_size = sorted(taken[clause], key=lambda row: sizes[row[0]])
        others = (name for name, left in by_size if outcome(left) != known[name])
        yield clause, taken[clause], list(itertools.islice(others, most))
    words.left_out[0] = None


def compared(words_of_command):
    return with_room(lambda: listed_clauses(words_of_command.show or 3))


def listed_clauses(most):
    """Computes all rows, and lists for each clause some that depend on it. 1 where a row is false."""
    words = Definitions(watched=SPECS)
    found = list(rows(words))
    false = [name for name, left, right in found if left() != right()]
    print("\n".join(f"false: {it}" for it in false) or f"{len(found)} rows, all true", flush=True)
    without = 0
    for clause, taken, names in dependents(words, found, most):
        module, name, at = words.clauses[clause]
        without += not names
        none = "NO ROW: all are the same without it" if taken else "NO ROW: none comes to it"
        print(f"{clause_text(words, module, name, at)}: {', '.join(names) or none}")
    print(f"{len(words.clauses)} clauses, {without} without a row that depends on them")
    return 1 if false else 0
