"""The functions of a file, found by its layout, and how the prover names them."""
import re

HEAD = re.compile(r"( *)(?:pub(?:\([^)]*\))? )?(?:const |unsafe |extern \"C\" )*fn (\w+)")


def indent(line):
    return len(line) - len(line.lstrip())


class Function:
    """A function of a file in rt fmt's layout: its lines, and how the prover names it and the folder of its proof."""

    def __init__(self, path, lines, at):
        depth, self.name = len(HEAD.match(lines[at])[1]), HEAD.match(lines[at])[2]
        self.path, self.first, self.last = path, at, self.end(lines, at, depth)
        parts = path[len("src/") : -len(".rt")].split("/")
        self.modules = [it for it in parts if it not in ("lib", "main", "mod")]
        above = [it for it in lines[:at] if it.strip() and indent(it) < depth and not it.strip().startswith(("{", ")", "where"))]
        self.owner, self.of_trait = self.owned_by(above[-1] if above else "")
        attributes = "\n".join(lines[max(at - 4, 0) : at])
        attribute = re.search(r"#\[cycle\((\w+)\)\]", attributes)
        self.cycle = attribute[1] if attribute else None
        # whether lemmas are used in its proof, by name
        self.has_lemmas = "using(" in attributes or any(it.startswith("#![tactic") and "using(" in it for it in lines[:at])
        # (at most one mutant under a key goes into one check)
        self.key = (*self.modules, f"+{self.cycle}" if self.cycle else f"{self.owner}::{self.name}")

    @staticmethod
    def end(lines, at, depth):
        for place in range(at, len(lines)):
            line = lines[place]
            if line == " " * depth + "}" or place == at and line.endswith("{}"):
                return place
            if place > at and line.strip() and indent(line) <= depth and not line.strip().startswith(("{", ")", "where")):
                return place - 1
        return len(lines)

    @staticmethod
    def owned_by(line):
        """The first word of the type, and of the trait, of a line that begins an `impl` or a `trait`."""
        found = re.match(r" *(?:pub )?(?:unsafe )?(impl|trait)\b(.*)", line)
        if not found:
            return "", ""
        head, inner = re.sub(r"'\w+|->", "", found[2]), re.compile(r"<[^<>]*>")
        while inner.search(head):
            head = inner.sub("", head)
        of_trait, _, owner = head.rpartition(" for ")
        owner = "Ref" if owner.strip().startswith("&") else re.findall(r"\w+", owner.partition(" where")[0] + " _")[0]
        return owner, (re.findall(r"\w+", of_trait) or [""])[-1]

    def among(self, names):
        """Which of the prover's names mean this function and its closures: all that can, where names alone don't tell. (A method of
        a type stands in the type's module, wherever its `impl` does.)"""
        found = []
        for name in names:
            parts = [it for it in name.split("::")[1:] if it != "fn"]
            found += [(name, parts[:at]) for at, it in enumerate(parts) if it == self.name]
        owner = lambda above: above[-1] if above else ""
        tests = [lambda above: owner(above).startswith(self.owner), lambda above: self.of_trait in owner(above)]
        if not self.of_trait:
            tests = [lambda above: owner(above) == self.owner] if self.owner else [lambda above: above == self.modules]
        for test in [*tests, lambda above: above[: len(self.modules)] == self.modules]:
            found = [it for it in found if test(it[1])] or found
        return {name for name, _ in found}
