"""The calls of the library in three languages: whether each has what the others have, by the list in bindings/calls.txt."""
import ast
import os
import re

from .workspace import ROOT, text_of

LIST = "bindings/calls.txt"
LANGUAGES = ("C", "Rust", "Python")
# A call of the header, also one that stands in it alone.
OF_C = re.compile(r"(?m)^(?:static inline )?(?:const )?\w+ \*?(tl_\w+)\(")
OF_RUST = re.compile(r"(?m)^impl(?:<[^>]*>)? (\w+)(?:<[^>]*>)? \{|^( *)pub fn (\w+)")


def rows():
    """Of each row what is asked, and the names in each language with what stands in brackets."""
    lines = [it for it in text_of(f"{ROOT}/{LIST}").splitlines() if it and not it.startswith("#")]
    return [(f"**{it}**",) if " | " not in it else tuple(part.strip() for part in it.split(" | ")) for it in lines]


def names(cell):
    """The names of a cell."""
    return [it for it in re.sub(r"\([^)]*\)", "", cell).replace(",", " ").split() if it]


def names_of_c():
    """The calls of the header."""
    return set(OF_C.findall(text_of(f"{ROOT}/include/tl.h")))


def names_of_rust():
    """The public functions of the crate, those of a type behind its name."""
    found, folder = set(), f"{ROOT}/bindings/rust/src"
    for file in sorted(os.listdir(folder)):
        of = None
        for type_name, indent, name in () if file == "calls.rs" else OF_RUST.findall(text_of(f"{folder}/{file}")):
            of = type_name or of
            if name:
                found.add(f"{of}::{name}" if indent else name)
    return found


def names_of_python():
    """What the package exports, and what its types have; a `Link` and an error are what they hold."""
    folder = f"{ROOT}/bindings/python/tlhtml"
    modules = [ast.parse(text_of(f"{folder}/{it}")) for it in sorted(os.listdir(folder)) if it.endswith(".py")]
    exported = next(ast.literal_eval(it.value) for module in modules for it in module.body if isinstance(it, ast.Assign) and it.targets[0].id == "__all__")
    found = set(exported) - {"Link", "Node"}
    types = [it for module in modules for it in module.body if isinstance(it, ast.ClassDef) and it.name in exported]
    for it in types:
        if it.name == "Link" or it.name.endswith("Error"):
            continue
        for part in it.body:
            own = [part.name] if isinstance(part, ast.FunctionDef) else []
            if isinstance(part, ast.Assign) and part.targets[0].id == "__slots__":
                own = ast.literal_eval(part.value)
            elif isinstance(part, ast.Assign):
                own = [target.id for target in part.targets if target.id.islower()]
            found |= {f"{it.name}.{name}" for name in own if not name.startswith("_")}
    return found


def faults():
    """What a language lacks that the list has, and what it has that the list lacks."""
    found = [f"{LIST}: {row[0]!r} has no call in one of {', '.join(LANGUAGES)}" for row in rows() if len(row) > 1 and (len(row) != 4 or not all(row))]
    there = (names_of_c(), names_of_rust(), names_of_python())
    for at, (language, own) in enumerate(zip(LANGUAGES, there), 1):
        listed = {name for row in rows() if len(row) == 4 for name in names(row[at])}
        found += [f"{LIST}: {language} has no {it}" for it in sorted(listed - own)]
        found += [f"{LIST}: it lacks {it}, which {language} has" for it in sorted(own - listed)]
    return found
