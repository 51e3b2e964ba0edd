"""The public calls of a crate, read from its sources: each with its signature, the first sentence of its comment and its clauses."""
import itertools
import re

from .workspace import ROOT, text_of

# The head of a function, up to its clauses or its body; behind it what it belongs to is found by the last line of this kind.
HEAD = re.compile(r'^( *)pub (?:const )?(?:extern "C" )?fn (\w+)|^( +)fn (\w+)')
OWNER = re.compile(r"^(?:pub )?(impl|trait|mod)\b(?:<.*?>)? ?(.*?)(?: where.*)?(?: \{.*)?$")
CLAUSE = re.compile(r"^\s+(ensures|requires)\*? (\w*) ?\{")
SENTENCE = re.compile(r".*?(?:\.(?= [A-Z`])|$)")


class Call:
    """A public function: where it stands, and what its source says of it."""

    def __init__(self, owner, signature, comment, is_exported):
        self.owner, self.signature, self.comment, self.is_exported = owner, signature, comment, is_exported
        self.clauses, self.premises = [], []

    def said(self):
        """The first sentence of the comment."""
        return SENTENCE.match(" ".join(itertools.takewhile(bool, self.comment)))[0]

    def promises(self):
        """Its clauses by their names, and whether a caller owes something."""
        names = [it for it in self.clauses if it]
        found = ", ".join(f"`{it}`" for it in names) if names else "one clause" if self.clauses else ""
        return f"{found}{'; the caller owes ' + str(len(self.premises)) if self.premises else ''}"


def signature_at(lines, at):
    """The signature that begins at a line, on one line, without its clauses and its body."""
    found = []
    for line in lines[at:]:
        if re.match(r"\s+(?:ensures|requires)\b|\s*\{?$|where$", line):
            break
        found.append(line.strip().removesuffix("{").strip())
        if line.rstrip().endswith(("{", ";")):
            break
    text = re.sub(r",? ?\)(?= ->|$)", ")", " ".join(found).replace("( ", "("))
    return re.sub(r'^pub (?:const )?(?:extern "C" )?fn ', "", text).removeprefix("fn ").rstrip(" ;,")


def calls_in(text):
    """The public calls of a source in their order; those of a public trait are public too."""
    lines, owner, comment, last = text.splitlines(), "", [], None
    for at, line in enumerate(lines):
        kind = OWNER.match(line)
        if kind:
            owner = kind[2] if kind[1] != "mod" else ""
        elif line == "}":
            owner = ""
        stripped = line.strip()
        head = HEAD.match(line)
        if head and (head[2] or lines_of_trait(lines, at)):
            last = Call(owner, signature_at(lines, at), comment, 'extern "C"' in line)
            yield last
        elif re.match(r"\s*(?:pub\(.*\) )?(?:const )?fn ", line):
            last = None
        clause = CLAUSE.match(line)
        if clause and last:
            (last.clauses if clause[1] == "ensures" else last.premises).append(clause[2])
        comment = [*comment, stripped[3:].strip()] if stripped.startswith("///") else comment if stripped.startswith("#[") else []


def lines_of_trait(lines, at):
    """Whether a line stands in a public trait."""
    heads = (it for it in reversed(lines[:at]) if it and not it.startswith((" ", "}", "/", "#")))
    return next(heads, "").startswith("pub trait")


def joined(module, path):
    """The module that a path of a `use` leads to from a module."""
    parts = [it for it in path.split("::") if it not in ("crate", "self")]
    first = [] if path.startswith("crate") or module in ("lib", "main") else module.split("/")
    return "/".join([*first, *parts]) or "lib"


def reexports(module, text):
    """What a module gives again: the module and the name of each."""
    for path, names, name in re.findall(r"(?m)^ *pub use ((?:\w+::)*)(?:\{([^}]*)\}|(\w+))", text):
        for it in (names or name).replace("\n", " ").split(","):
            if it.strip():
                yield joined(module, path.removesuffix("::")), it.split(" as ")[0].strip()


class Exports:
    """What of a crate's sources is public: whole modules, and what a public module gives again."""

    def __init__(self, sources):
        # (laws are cited by proofs, wherever they stand)
        self.modules, self.names = {"lib", *(it for it in sources if it.split("/")[0] == "laws")}, set()
        for module in sorted(sources, key=lambda it: (it != "lib", it.count("/"))):
            if module in self.modules:
                self.modules |= {joined(module, it) for it in re.findall(r"(?m)^pub mod (\w+);", sources[module])}
        waiting = list(self.modules)
        while waiting:
            for it in reexports(module := waiting.pop(), sources.get(module, "")):
                if it not in self.names:
                    self.names.add(it)
                    waiting.append(it[0])
        kinds = (re.findall(r"(?m)^ *pub (?:struct|enum|union|type|trait) (\w+)", sources.get(it, "")) for it in self.modules)
        self.types = {name for _, name in self.names} | {name for found in kinds for name in found}

    def has(self, module, call):
        """Whether a call of a module is reached from outside."""
        owner, name = re.sub(r"^.* for |<.*|^&(?:mut )?", "", call.owner), re.match(r"\w+", call.signature)[0]
        return owner in self.types if owner else module in self.modules or (module, name) in self.names or call.is_exported


def calls(workspace, crate):
    """The public calls of a crate, by module."""
    paths = ((re.match(r"crates/\w+/src/(.*)\.rt$", it), it) for it in workspace.files(crate))
    sources = {found[1]: text_of(f"{ROOT}/{path}") for found, path in paths if found}
    exports = Exports(sources)
    for module, text in sources.items():
        found = [it for it in calls_in(text) if exports.has(module, it)]
        if found:
            yield module, found
