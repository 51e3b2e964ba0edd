"""The tables of character references, and whether they are those of the standard.

Code and definitions read the same tables, so no proof can find a row wrong. Python has the names of the standard (13.5) in
`html.entities`, from a list of its own: the tables have to have the same ones, each with the same characters, in the table of its
first letter, and before those that it begins with.
"""
import html.entities
import re

from .workspace import ROOT, text_of

TABLES = "crates/tl_names/src/references.rt"
TABLE = re.compile(r'static (\w+): \[u8; \d+\] = \*b"(.*?)";', re.DOTALL)
NAMES = html.entities.html5


def rows_of(table):
    """The names of a table with the bytes of their characters, in order: rows of a name, `=`, characters and a byte 0."""
    text = re.sub(r"\\\n *", "", table).encode().decode("unicode_escape").encode("latin-1")
    return [tuple(row.split(b"=", 1)) for row in text.split(b"\0")[:-1]]


def table_name(name):
    return f"{'UPPER' if name[:1].isupper() else 'LOWER'}_{name[:1].upper()}"


def misplaced(names, table):
    """What is said of the order of a table's names."""
    for at, name in enumerate(names):
        if table_name(name) != table:
            yield f"`{name}` doesn't stand in the table of its letter"
        yield from (f"`{late}` begins with `{name}`, and stands after it" for late in names[at + 1 :] if late.startswith(name))


def faults():
    """What is said of each reference that isn't as it is in the standard, or stands in a wrong place."""
    found, said = {}, []
    for table, text in TABLE.findall(text_of(f"{ROOT}/{TABLES}")):
        rows = [(name.decode(), characters) for name, characters in rows_of(text)]
        found |= dict(rows)
        said += misplaced([name for name, _ in rows], table)
    expected = {name: characters.encode() for name, characters in NAMES.items()}
    names = sorted(found.keys() | expected.keys())
    said += [f"`{name}` isn't as it is in the standard" for name in names if found.get(name) != expected.get(name)]
    return [f"{TABLES}: {it}" for it in said]
