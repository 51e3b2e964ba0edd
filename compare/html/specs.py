"""Runs definitions of `specs`: a reader of the part of the logic's language that those of tree construction are written in.

A word that is defined by clauses becomes a function of Python, which takes the first clause that fits; what it cites is read as it
is come to, from the module that its `use` line names. So what runs is the text that the prover reads, and no copy of it.

A number is an int, a list is `(head, tail)` or None, a constructor with its arguments a tuple that begins with its name, a record
a dict by its fields, and a pair a tuple. What the standard library defines is written here (`LIBRARY`), and so are character
references, by the tables of Python (`./x compare html` looks at both tables). The names that a list of `tl_names` has are read
from its code.
"""
import html
import html.entities
import os
import re
from functools import lru_cache

from tools.workspace import ROOT

CRATES = f"{ROOT}/crates"
TOKEN = re.compile(r'(\s*)(?:"((?:[^"\\]|\\.)*)"|([(){};,@\[\]])|(\.)|([^\s(){};,@.\[\]"]+))')
# By how tight they bind, the loosest first; the last two take their left side first.
LEVELS = (("||", "&&"), ("==",), ("∷", "++"), ("+", "-"), ("*",))
OPERATORS = {it for level in LEVELS for it in level}
ENDS = OPERATORS | {"then", "else", "in", "as", "↦", "|", "=", ")", "}", "]", ";", ","}
BUILT_IN = {"zero": 0, "suc": 1, "true": 0, "false": 0, "None": 0, "Some": 1}


def listed(values):
    found = None
    for it in reversed(values):
        found = (it, found)
    return found


def unlisted(cells):
    found = []
    while cells is not None:
        found.append(cells[0])
        cells = cells[1]
    return found


@lru_cache(None)
def codes(text):
    """The numbers of the characters of a word: bytes, where these are ASCII."""
    return listed([ord(it) for it in text])


def text_of(cells):
    return bytes(unlisted(cells)).decode("utf-8", "replace")


# What stands in the standard library

def appended(left, right):
    for it in reversed(unlisted(left) if right is not None else ()):
        right = (it, right)
    return left if right is None else right


def dropped(count, cells):
    while count and cells is not None:
        count, cells = count - 1, cells[1]
    return cells


def number_value(number):
    """The character of a numeric reference (13.2.5.80)."""
    if number in html._invalid_charrefs:
        return listed(list(html._invalid_charrefs[number].encode()))
    is_none = number == 0 or 0xD800 <= number <= 0xDFFF or number > 0x10FFFF
    return listed(list(("\ufffd" if is_none else chr(number)).encode()))


def named_value(is_in_value, letters, after):
    """What letters after a `&` stand for, with those that are no part of a name (13.2.5.73)."""
    word, rest = text_of(letters), text_of(after)
    for length in range(len(word), 0, -1):
        name, more = word[:length], (word + rest)[length:]
        if name in html.entities.html5:
            if is_in_value and name[-1] != ";" and more and (more[0] == "=" or more[0].isalnum()):
                break
            return listed(list((html.entities.html5[name] + word[length:]).encode()))
    return listed(list(("&" + word).encode()))


LIBRARY = {
    "map": lambda change: lambda cells: listed([change(it) for it in unlisted(cells)]),
    "filter": lambda test: lambda cells: listed([it for it in unlisted(cells) if test(it)]),
    "list_any": lambda test: lambda cells: any(test(it) for it in unlisted(cells)),
    "list_all": lambda test: lambda cells: all(test(it) for it in unlisted(cells)),
    "length": lambda cells: len(unlisted(cells)),
    "drop": lambda count: lambda cells: dropped(count, cells),
    "starts_with": lambda same: lambda cells: lambda start: unlisted(cells)[: len(unlisted(start))] == unlisted(start),
    "bytes_eq": lambda left: lambda right: left == right,
    "◌==◌": lambda left: lambda right: left == right,
    "nat_lt": lambda left: lambda right: left < right,
    "not": lambda truth: not truth,
    "is_none": lambda option: option[0] == "None",
    "codes": codes,
    "to_ascii_lowercase": lambda byte: byte + 32 if 65 <= byte <= 90 else byte,
    "is_ascii_whitespace": lambda byte: byte in (9, 10, 12, 13, 32),
    "is_ascii_alphabetic": lambda byte: 65 <= byte <= 90 or 97 <= byte <= 122,
    "is_ascii_digit": lambda byte: 48 <= byte <= 57,
    "is_ascii_alphanumeric": lambda byte: 48 <= byte <= 57 or 65 <= byte <= 90 or 97 <= byte <= 122,
    "is_ascii_hexdigit": lambda byte: chr(byte) in "0123456789abcdefABCDEF",
    "number_value": number_value,
    "named_value": lambda is_in_value: lambda letters: lambda after: named_value(is_in_value, letters, after),
}


class Module:
    """A file of definitions: what it defines, and where it has the other names from."""

    def __init__(self):
        self.constructors, self.clauses, self.origins = {}, {}, {}

    @classmethod
    def of_items(cls, declarations):
        own = cls()
        for item in declarations:
            own.take(item)
        return own

    @classmethod
    def of_file(cls, path):
        with open(path, encoding="utf-8") as it:
            return cls.of_items(items(it.read()))

    def take(self, item):
        used = re.match(r"use (\S+)\.\{(.*)\}$", item)
        declared = re.match(r"pub (data|record) (\S+)", item)
        if used:
            self.origins |= dict.fromkeys(used[2].split(", "), used[1])
        elif declared and declared[1] == "data":
            for line in item.split("\n")[1:]:
                name, kind = line.strip().split(" : ", 1)
                self.constructors[name] = re.sub(r"\([^()]*\)", "", kind).count("→")
        elif not declared and not re.match(r"pub mod |(abbrev )?(pub )?\S+ :", item):
            tokens = tokens_of(item)
            self.clauses.setdefault(tokens[0][0], []).append(tokens[1:])


def items(text):
    """The declarations of a file: what is indented goes on with the line before it."""
    found = []
    for line in text.split("\n"):
        line = "" if line.lstrip().startswith("--") else line
        if line.strip() and line[0] in " )}":
            found[-1] += "\n" + line
        elif line.strip():
            found.append(line)
    return found


def unescaped(found):
    """The character that is written behind a `\\` in a string."""
    number, letter = found.groups()
    return chr(int(number, 16)) if number else {"n": "\n", "t": "\t", "0": "\0", "r": "\r"}.get(letter, letter)


def tokens_of(text):
    """The tokens of a text: what each is, its kind, and whether it stands apart from the one before it."""
    found, place = [], 0
    while found_one := TOKEN.match(text, place):
        space, string, bracket, dot, word = found_one.groups()
        place = found_one.end()
        kind = "string" if string is not None else "word" if word else "mark"
        found.append((string if string is not None else bracket or dot or word, kind, bool(space)))
    return found


class Parser:
    """A clause of a module, as trees of tuples: patterns and an expression."""

    def __init__(self, tokens, arity_of):
        self.tokens, self.place, self.arity_of = tokens, 0, arity_of

    def peek(self):
        return self.tokens[self.place] if self.place < len(self.tokens) else (None, "end", True)

    def next(self):
        self.place += 1
        return self.tokens[self.place - 1]

    def is_at(self, *words):
        word, kind, _ = self.peek()
        return kind != "string" and word in words

    def eat(self, word):
        if not self.is_at(word):
            raise ValueError(f"{word} is wanted at {self.tokens[max(0, self.place - 6) : self.place + 4]}")
        self.place += 1

    def clause(self):
        patterns = []
        while not self.is_at("="):
            patterns.append(self.small_pattern())
        self.eat("=")
        body = self.expression()
        if self.peek()[1] != "end":
            raise ValueError(f"not read: {self.tokens[self.place : self.place + 6]}")
        return patterns, body

    # Patterns

    def pattern(self):
        first = self.whole_pattern()
        if self.is_at("∷"):
            self.next()
            return ("made", "∷", [first, self.pattern()])
        return first

    def whole_pattern(self):
        if self.is_at("(", "["):
            return self.small_pattern()
        word = self.next()[0]
        arity = self.arity_of(word)
        return ("any", word) if arity is None else ("made", word, [self.small_pattern() for _ in range(arity)])

    def small_pattern(self):
        word = self.next()[0]
        if word == "(":
            found = self.pattern()
            self.eat(")")
            return found
        if word == "[":
            self.eat("]")
            return ("made", "[]", [])
        return ("any", word) if self.arity_of(word) is None else ("made", word, [])

    # Expressions

    def expression(self):
        if self.is_at("λ"):
            return self.function()
        if self.is_at("let"):
            self.next()
            name = self.next()[0]
            while not self.is_at("="):
                self.next()
            self.eat("=")
            value = self.expression()
            self.eat("in")
            return ("let", name, value, self.expression())
        if self.is_at("if"):
            self.next()
            test = self.expression()
            self.eat("then")
            first = self.expression()
            self.eat("else")
            return ("if", test, first, self.expression())
        return self.operation(0)

    def function(self):
        self.eat("λ")
        names = []
        while not self.is_at("."):
            word = self.next()[0]
            names.append(self.next()[0] if word == "(" else word)
            while word == "(" and self.next()[0] != ")":
                pass
        self.eat(".")
        return ("function", names, self.expression())

    def operation(self, level):
        if level == len(LEVELS):
            return self.application()
        left = self.operation(level + 1)
        while self.is_at(*LEVELS[level]):
            operator = self.next()[0]
            if self.is_at("λ", "let", "if"):
                right = self.expression()
            else:
                right = self.operation(level + 1 if level >= 3 else level)
            left = ("operation", operator, left, right)
        return left

    def application(self):
        head, arguments = self.small(), []
        while self.peek()[1] != "end" and not self.is_at(*ENDS):
            arguments.append(self.function() if self.is_at("λ") else self.small())
        return ("application", head, arguments) if arguments else head

    def small(self):
        word, kind, _ = self.next()
        if kind == "string":
            return ("string", re.sub(r"\\(?:u\{(\w+)\}|(.))", unescaped, word))
        if word == "(":
            return self.projected(self.tuple())
        if word == "[":
            self.eat("]")
            return ("name", "[]")
        if word == "record":
            return self.projected(self.record())
        if word == "elim":
            return self.elimination()
        if word[0].isdigit():
            return ("number", int(word, 0))
        return self.projected(("name", word))

    def tuple(self):
        parts = [self.expression()]
        while self.is_at(","):
            self.next()
            parts.append(self.expression())
        self.eat(")")
        return parts[0] if len(parts) == 1 else ("tuple", parts)

    def projected(self, found):
        while self.is_at(".") and not self.peek()[2]:
            self.next()
            found = ("field", found, self.next()[0])
        return found

    def record(self):
        old = None if self.is_at("{") else self.small()
        self.eat("{")
        fields = []
        while not self.is_at("}"):
            name = self.next()[0]
            self.eat("=")
            fields.append((name, self.expression()))
            if self.is_at(";"):
                self.next()
        self.eat("}")
        return ("record", old, fields)

    def elimination(self):
        value = self.small()
        self.eat("as")
        self.small()
        self.eat("[")
        cases = []
        while not self.is_at("]"):
            if self.is_at("|"):
                self.next()
            pattern = self.pattern()
            self.eat("↦")
            cases.append((pattern, self.expression()))
        self.eat("]")
        return ("cases", value, cases)


class Definitions:
    """Modules, and the functions of Python that their words have become.

    With a prefix `watched` it is noted which clauses of the modules whose names begin so are taken (`seen`), by their place in
    `clauses`; and one of them can be left out, as if it weren't there (`left_out`).
    """

    def __init__(self, watched=None):
        self.modules, self.names, self.waiting = {}, {}, []
        self.watched, self.clauses, self.seen, self.left_out = watched, [], set(), [None]
        self.space = {"appended": appended, "LIBRARY": LIBRARY, "STATICS": {}, "SEEN": self.seen, "LEFT_OUT": self.left_out}

    def word(self, module, name):
        """What a word of a module is: a value, or a function that takes its arguments one by one."""
        return self.value(self.reference(module, name))

    def value(self, source):
        self.finish()
        return eval(source, self.space)

    def compute(self, module, text):
        """What an expression in the words of a module is, as a function without arguments."""
        tree = Parser(tokens_of(text), lambda word: self.arity_of(module, word)).expression()
        return self.value("lambda: " + Writer(self, module).expression(tree, {}))

    def module(self, name):
        if name not in self.modules:
            crate, path = re.fullmatch(r"Rattle\.(\w+)\.specs\.(.+)", name).groups()
            self.modules[name] = Module.of_file(os.path.join(CRATES, crate, "specs", *path.split(".")) + ".antt")
        return self.modules[name]

    def origin(self, module, name):
        own = self.module(module)
        if name in own.constructors or name in own.clauses:
            return module
        return own.origins.get(name)

    def arity_of(self, module, name):
        """How many arguments a constructor takes, and None of what is none."""
        if name in BUILT_IN:
            return BUILT_IN[name]
        origin = self.origin(module, name)
        if origin is None or ".declared." in origin or re.match(r"Rattle\.std\.|Prim", origin):
            return None
        return self.module(origin).constructors.get(name)

    def static(self, origin, name):
        """The words of a list that the code has."""
        crate, file = re.fullmatch(r"Rattle\.(\w+)\.specs\.declared\.(\w+)\.TheConstants", origin).groups()
        with open(os.path.join(CRATES, crate, "src", file + ".rt"), encoding="utf-8") as it:
            rows = re.search(rf"static {name}: \[&str; \d+\] = \[(.*?)\];", it.read(), re.DOTALL)[1]
        self.space["STATICS"][name] = listed([{"now": codes(it)} for it in re.findall(r'"([^"]*)"', rows)])
        return f"STATICS[{name!r}]"

    def reference(self, module, name):
        """The source of a word: it takes its arguments one by one."""
        if name in LIBRARY:
            return f"LIBRARY[{name!r}]"
        origin = self.origin(module, name)
        if origin is None:
            raise ValueError(f"{module}: what is {name}?")
        if ".declared." in origin:
            return self.static(origin, name)
        python, arity = self.function(origin, name)
        return curried(python, arity) if arity else f"{python}()"

    def function(self, module, name):
        """The name and the number of arguments of the function that a word becomes."""
        if (module, name) not in self.names:
            own = self.module(module)
            if name not in own.clauses:
                raise ValueError(f"{module} has no clause for {name}")
            clauses = [Parser(it, lambda word: self.arity_of(module, word)).clause() for it in own.clauses[name]]
            python = f"f{len(self.names)}_{re.sub(r'[^A-Za-z0-9_]', '_', name)}"
            self.names[module, name] = (python, len(clauses[0][0]))
            self.waiting.append((module, name, python, clauses))
        return self.names[module, name]

    def finish(self):
        while self.waiting:
            module, name, python, clauses = self.waiting.pop()
            writer = Writer(self, module)
            parameters = [f"a{at}" for at in range(len(clauses[0][0]))]
            lines = [f"def {python}({', '.join(parameters)}):"]
            for at, (patterns, body) in enumerate(clauses):
                tests, names, note = [], {}, ""
                for pattern, parameter in zip(patterns, parameters):
                    writer.match(pattern, parameter, tests, names)
                if self.watched and module.startswith(self.watched):
                    tests.insert(0, f"LEFT_OUT[0] != {len(self.clauses)}")
                    note = f"SEEN.add({len(self.clauses)}); "
                    self.clauses.append((module, name, at))
                lines.append(f" if {' and '.join(tests) or 'True'}: {note}return {writer.expression(body, names)}")
            lines.append(f" raise ValueError({name + ' has no clause for this'!r})")
            exec("\n".join(lines), self.space)
            if name == "words" or not parameters and not note:
                self.space[python] = lru_cache(None)(self.space[python])


def curried(python, arity):
    names = [f"c{at}" for at in range(arity)]
    return "(" + "".join(f"lambda {it}: " for it in names) + f"{python}({', '.join(names)}))"


class Writer:
    """Writes the clauses of a module as Python."""

    def __init__(self, definitions, module):
        self.definitions, self.module, self.count = definitions, module, 0

    def fresh(self):
        self.count += 1
        return f"v{self.count}"

    def match(self, pattern, value, tests, names):
        """The tests that a value passes where a pattern fits, and where its names stand."""
        if pattern[0] == "any":
            names[pattern[1]] = value
            return
        _, word, parts = pattern
        inner = [f"{value}[{at + 1}]" for at in range(len(parts))]
        if word in ("[]", "∷"):
            tests.append(f"{value} is {'not ' if parts else ''}None")
            inner = [f"{value}[0]", f"{value}[1]"]
        elif word in ("zero", "suc"):
            tests.append(f"{value} {'>' if parts else '=='} 0")
            inner = [f"({value} - 1)"]
        elif word in ("true", "false"):
            tests.append(f"{value} is {word.capitalize()}")
        else:
            tests.append(f"{value}[0] == {word!r}")
        for part, place in zip(parts, inner):
            self.match(part, place, tests, names)

    def expression(self, tree, names):
        return getattr(self, "of_" + tree[0])(names, *tree[1:])

    def of_number(self, names, number):
        return str(number)

    def of_string(self, names, text):
        return repr(text)

    def of_name(self, names, word):
        if word in names:
            return names[word]
        if word in ("[]", "true", "false", "zero"):
            return {"[]": "None", "true": "True", "false": "False", "zero": "0"}[word]
        arity = self.definitions.arity_of(self.module, word)
        if arity is None:
            return self.definitions.reference(self.module, word)
        parts = [self.fresh() for _ in range(arity)]
        made = f"{parts[0]} + 1" if word == "suc" else f"({word!r}, {', '.join(parts)})"
        return "(" + "".join(f"lambda {it}: " for it in parts) + made + ")"

    def of_application(self, names, head, arguments):
        values = [self.expression(it, names) for it in arguments]
        word = head[1] if head[0] == "name" and head[1] not in names else None
        if word and self.definitions.arity_of(self.module, word) == len(values) and word != "suc":
            return f"({word!r}, {', '.join(values)})"
        origin = word and word not in LIBRARY and self.definitions.origin(self.module, word)
        if origin and self.definitions.arity_of(self.module, word) is None and ".declared." not in origin:
            python, arity = self.definitions.function(origin, word)
            if 0 < arity <= len(values):
                return f"{python}({', '.join(values[:arity])})" + "".join(f"({it})" for it in values[arity:])
        return self.expression(head, names) + "".join(f"({it})" for it in values)

    def of_operation(self, names, operator, left, right):
        left, right = self.expression(left, names), self.expression(right, names)
        if operator in ("∷", "++"):
            return f"({left}, {right})" if operator == "∷" else f"appended({left}, {right})"
        if operator == "-":
            return f"max(0, {left} - {right})"
        return f"({left} {({'||': 'or', '&&': 'and'}).get(operator, operator)} {right})"

    def of_if(self, names, test, first, other):
        test, first, other = (self.expression(it, names) for it in (test, first, other))
        return f"({first} if {test} else {other})"

    def of_let(self, names, name, value, body):
        own = self.fresh()
        return f"(lambda {own}: {self.expression(body, {**names, name: own})})({self.expression(value, names)})"

    def of_function(self, names, words, body):
        own = {it: self.fresh() for it in words}
        return "(" + "".join(f"lambda {it}: " for it in own.values()) + self.expression(body, {**names, **own}) + ")"

    def of_field(self, names, value, name):
        return f"{self.expression(value, names)}[{name if name.isdigit() else repr(name)}]"

    def of_tuple(self, names, parts):
        return "(" + "".join(self.expression(it, names) + ", " for it in parts) + ")"

    def of_record(self, names, old, fields):
        pairs = "".join(f"{name!r}: {self.expression(it, names)}, " for name, it in fields)
        return f"{{**{self.expression(old, names)}, {pairs}}}" if old else f"{{{pairs}}}"

    def of_cases(self, names, value, cases):
        own, found = self.fresh(), "None"
        for pattern, body in reversed(cases):
            tests, inner = [], {}
            self.match(pattern, own, tests, inner)
            found = f"({self.expression(body, {**names, **inner})} if {' and '.join(tests) or 'True'} else {found})"
        return f"(lambda {own}: {found})({self.expression(value, names)})"
