"""Reads a source for want of memory that is made up: its items, the code in them, and where these name one."""
from .trees import Unread, all_within, end_of_expression, find, is_group, is_sign, is_word, item, past_angles, path_of, trees

ERRORS = ("AllocError", "AllocFailed")
NAMES = (*ERRORS, "OutOfMemory")
ALLOC = (["std", "alloc"], ["core", "alloc"])
# (This makes an error of any number that the system knows, and one of them is want of memory.)
MAKERS = ("from_raw_os_error",)
# What gives back what it is given last. (`report_failure` of `tl_cli` says it first.)
PASSES_ON = ("Err", "Some", "report_failure")


class Source:
    """The text of a file, and the places where it names a want of memory that nothing gave it."""

    def __init__(self, text):
        self.found, self.imported = [], set()
        self.text, self.lines = text, text.split("\n")
        try:
            self.read_module(trees(text))
        except Unread as error:
            self.found.append((error.args[0], "can't be read here"))

    def places(self):
        """The number of the line of each place, that line, and what is wrong there."""
        found = {}
        for at, why in sorted(self.found):
            found.setdefault(self.text.count("\n", 0, at), why)
        return [(number + 1, self.lines[number].strip(), why) for number, why in found.items()]

    # Items.

    def read_module(self, its):
        """Reads a module. Only what it imports by its own name is no new variable where it stands bare in a pattern."""
        above, self.imported = self.imported, set()
        for at, it in enumerate(its):
            if is_word(it, "use") and not is_word(item(its, at - 1), "ghost"):
                end = find(its, at, lambda it: is_sign(it, ";"))
                self.imported |= {path[-1] for path, alias in self.leaves(its[at + 1 : end], []) if not alias}
        self.read(its, False)
        self.imported = above

    def read(self, its, may):
        """Reads items and code; `may` says whether a want of memory came in there."""
        at = 0
        while at < len(its):
            at = self.read_one(its, at, may)

    def read_one(self, its, at, may):
        it = its[at]
        if is_sign(it, "#"):
            return self.past_attribute(its, at)
        if is_word(it, "ghost", "requires", "ensures"):
            return self.past_clause(its, at)
        if is_word(it, "use"):
            end = find(its, at, lambda it: is_sign(it, ";"))
            self.read_use(its[at + 1 : end], it)
            return end + 1
        if is_word(it, "macro_rules"):
            return self.past_macro(its, at)
        if is_word(it, "fn") and is_word(item(its, at + 1)):
            return self.past_function(its, at, False)
        if is_word(it, "impl") and not is_sign(item(its, at - 1), ":", "(", ",", "&", "<"):
            return self.past_impl(its, at)
        if is_word(it, "struct", "enum", "trait", "type", "mod") and is_word(item(its, at + 1)):
            return self.past_item(its, at)
        if is_word(it, "const", "static") and not is_sign(item(its, at - 1), "*"):
            return self.past_constant(its, at)
        if is_word(it, "let"):
            return self.past_let(its, at)
        return self.past_code(its, at, may)

    def past_function(self, its, at, is_from):
        """A function: its types and clauses don't count, and of its body only that of a `from` may name what came in."""
        name = its[at + 1]
        self.look_at_name(name)
        at += 2
        while at < len(its) and not is_sign(its[at], ";"):
            if is_word(its[at], "requires", "ensures", "ghost"):
                at = self.past_clause(its, at)
            elif is_group(its[at], "{") and not is_sign(its[at - 1], "<", ","):
                self.read(its[at].trees, is_from and name.text == "from")
                return at + 1
            else:
                at += 1
        return at + 1

    def past_impl(self, its, at):
        """An `impl`. Of `From<AllocError>` and its like, `from` may name a want of memory."""
        head = past_angles(its, at + 1)
        body = find(its, head, lambda it: is_group(it, "{") or is_word(it, "requires", "ensures"))
        words = its[head:body]
        where = find(words, 0, lambda it: is_word(it, "where"))
        split = find(words[:where], 0, lambda it: is_word(it, "for"))
        owner = words[split + 1 : where] if split < where else words[:where]
        if any(is_word(it, *ERRORS) for it in owner[: find(owner, 0, lambda it: is_sign(it, "<"))]):
            self.refuse(its[at], "an `impl` for it, where `Self` names it")
        is_from = split < where and self.is_from_want(words[:split])
        if not is_group(item(its, body), "{"):
            raise Unread(its[at].at)
        inner, place = its[body].trees, 0
        while place < len(inner):
            if is_from and is_word(inner[place], "fn"):
                place = self.past_function(inner, place, True)
            else:
                place = self.read_one(inner, place, False)
        return body + 1

    def past_item(self, its, at):
        """A type, a trait or a module."""
        word, name = its[at].text, its[at + 1]
        self.look_at_name(name)
        end = find(its, at, lambda it: is_sign(it, ";") or is_group(it, "{"))
        if word == "type":
            self.read_alias(its[at + 2 : end])
        elif word == "trait" and end < len(its):
            self.read(its[end].inner(), False)
        elif word == "mod" and end < len(its):
            self.read_module(its[end].inner())
        elif word == "enum" and end < len(its):
            self.read_variants(its[end].trees)
        return end + 1

    def read_alias(self, its):
        at = find(its, 0, lambda it: is_sign(it, "=")) + 1
        while at < len(its):
            if is_word(its[at], *NAMES):
                self.refuse(its[at], f"an alias of `{its[at].text}`")
            at = max(past_angles(its, at), at + 1)

    def read_variants(self, its):
        for at, it in enumerate(its):
            before = item(its, at - 1)
            if is_word(it, "OutOfMemory") and is_group(before, "[") and [i.text for i in before.trees] == ["default"]:
                self.refuse(it, "a want of memory by default")
            elif is_word(it, *NAMES) and not (before is None or is_sign(before, ",") or is_group(before, "[")):
                self.refuse(it, f"`{it.text}` as a value")

    def past_constant(self, its, at):
        """A constant: its type doesn't count, and its value does."""
        if is_word(item(its, at + 1), "fn", "unsafe", "extern") or is_group(item(its, at + 1), "{"):
            return at + 1
        if is_word(item(its, at + 1)):
            self.look_at_name(its[at + 1])
        end = find(its, at, lambda it: is_sign(it, ";"))
        self.read(its[find(its, at, lambda it: is_sign(it, "=")) + 1 : end], False)
        return end + 1

    # Code: which expressions may name a want of memory that came in.

    def read_flat(self, its):
        for it in all_within(its):
            if is_word(it, *NAMES, *MAKERS):
                self.refuse(it, f"`{it.text}` in a macro")

    def past_macro(self, its, at):
        """A macro's rules are read as they stand: a name in them counts."""
        end = find(its, at, lambda it: it.kind == "group")
        self.read_flat(its[end : end + 1])
        return end + 1

    def past_let(self, its, at):
        """A `let`: the names of its pattern and type don't count."""
        return find(its, at, lambda it: is_sign(it, "=", ";")) + 1

    def past_code(self, its, at, may):
        it = its[at]
        if is_word(it, "if", "while"):
            return self.past_condition(its, at, may)
        if is_word(it, "matches") and is_sign(item(its, at + 1), "!") and is_group(item(its, at + 2), "(", "[", "{"):
            inner = its[at + 2].trees
            self.read(inner[: find(inner, 0, lambda it: is_sign(it, ","))], may)
            return at + 3
        if is_word(item(its, at - 1)) and is_sign(it, "!") and is_group(item(its, at + 1), "(", "[", "{"):
            self.read_flat(its[at + 1 : at + 2])
            return at + 2
        if is_sign(it, "|") and self.begins_closure(its, at):
            return self.past_closure(its, at, may)
        if it.kind == "group":
            if it.text == "{" and any(is_sign(inner, "=>") for inner in it.trees):
                self.read_arms(it, may)
            else:
                self.read(it.trees, may)
        elif is_word(it, *MAKERS) or is_word(it, *NAMES) and not may:
            self.look_at_value(its, at)
        return at + 1

    def past_condition(self, its, at, may):
        """The condition of an `if` or a `while`. After an `if let` the block may name what its pattern matches."""
        end = find(its, at, lambda it: is_group(it, "{"))
        head, place, is_matched = its[at + 1 : end], 0, False
        while place < len(head):
            if is_word(head[place], "let"):
                equals = find(head, place, lambda it: is_sign(it, "="))
                is_matched = is_matched or self.matches_want(head[place + 1 : equals])
                place = equals + 1
            else:
                place = self.read_one(head, place, may)
        if is_matched and end < len(its) and self.is_before_block(head):
            self.read(its[end].trees, True)
            return end + 1
        return end

    def is_before_block(self, head):
        """Whether the braces after a condition are the block, and no part of the condition."""
        if any(is_word(it, "match", "if", "unsafe", "loop", "while", "for", "const") for it in head):
            return False
        if any(is_sign(it, "||", "|", "=>") for it in head):
            return False
        return is_sign(head[-1], "?") or head[-1].kind in ("word", "group")

    def begins_closure(self, its, at):
        before = item(its, at - 1)
        return before is None or is_sign(before, "(", ",", "=", "=>", ";", "&", "&&", "!") or is_word(
            before, "move", "return", "else", "in", "break"
        )

    def past_closure(self, its, at, may):
        """A closure: its body may name what its one parameter is."""
        end = find(its, at + 1, lambda it: is_sign(it, "|"))
        if end == len(its):
            raise Unread(its[at].at)
        takes = its[at + 1 : end]
        colon = find(takes, 0, lambda it: is_sign(it, ":"))
        inner = may or self.matches_want(takes[:colon]) or self.is_type_of_want(takes[colon + 1 :])
        at = end + 1
        if is_sign(item(its, at), "->"):
            at = find(its, at, lambda it: is_group(it, "{") or is_word(it, "requires", "ensures"))
        while is_word(item(its, at), "requires", "ensures"):
            at = self.past_clause(its, at)
        if is_group(item(its, at), "{"):
            self.read(its[at : at + 1], inner)
            return at + 1
        end = end_of_expression(its, at)
        self.read(its[at:end], inner)
        return end

    def read_arms(self, group, may):
        """The arms of a match: one whose pattern matches a want of memory may name it."""
        its, at = group.trees, 0
        while at < len(its):
            while is_sign(its[at], "#"):
                at = self.past_attribute(its, at)
            arrow = find(its, at, lambda it: is_sign(it, "=>"))
            if arrow == len(its):
                raise Unread(its[at].at)
            guard = find(its[:arrow], at, lambda it: is_word(it, "if"))
            self.read(its[guard + 1 : arrow], may)
            inner = may or self.matches_want(its[at:guard])
            end = arrow + 2 if is_group(item(its, arrow + 1), "{") else end_of_expression(its, arrow + 1)
            body = its[arrow + 1 : end]
            if any(is_sign(it, "=>") for it in body):
                raise Unread(its[arrow].at)
            if self.names_want(its[at:guard]) and not self.tells_want(body):
                self.refuse(its[at], "want of memory is told as something else")
            self.read(body, inner)
            at = end + 1 if is_sign(item(its, end), ",") else end

    def tells_want(self, body):
        """Whether a want of memory is all that the body of an arm gives, alone, in an `Err` or its like, or behind what stands
        beside it in a tuple or a block; or the words for it."""
        first, last = item(body, 0), item(body, len(body) - 1)
        if len(body) == 1 and first.kind == "group":
            return self.tells_want(last_part(first.trees))
        if len(body) == 1 and first.kind == "text":
            return first.text == '"out of memory"'
        if is_word(first, "return"):
            return self.tells_want(body[1:])
        if is_sign(last, "?"):
            return self.tells_want(body[:-1])
        if is_word(item(body, len(body) - 2), "as"):
            return self.tells_want(body[:-2])
        if len(body) == 2 and is_word(first, *PASSES_ON) and is_group(last, "("):
            return self.tells_want(body[1:])
        return is_word(last, *NAMES) and path_of(body, len(body) - 1)[1] == 0

    # Names: in patterns, in types, in `use` lines, as a value.

    def refuse(self, it, why):
        self.found.append((it.at, why))

    def matches_want(self, its):
        """Whether a pattern matches a want of memory and nothing else."""
        return self.names_want(its) and not any(is_sign(it, "|", "!") for it in all_within(its))

    def names_want(self, its):
        """Whether a pattern matches a want of memory, maybe among others."""
        return any(self.is_pattern_of_want(group, at) for group in self.groups(its) for at in range(len(group)))

    def groups(self, its):
        yield its
        for it in its:
            if it.kind == "group":
                yield from self.groups(it.trees)

    def is_pattern_of_want(self, its, at):
        if not is_word(its[at], *NAMES) or is_sign(item(its, at + 1), "::", "@", ":"):
            return False
        words, _ = path_of(its, at)
        if len(words) == 1:
            return words[0] in self.imported
        return words[-1] == "OutOfMemory" or words[-3:-1] in ALLOC

    def is_type_of_want(self, its):
        at = 0
        while is_word(item(its, at)) and is_sign(item(its, at + 1), "::"):
            at += 2
        return is_word(item(its, at), *ERRORS) and past_angles(its, at + 1) == len(its)

    def is_from_want(self, its):
        """Whether a trait is `From` of a want of memory."""
        if not (is_word(item(its, 0), "From") and is_sign(item(its, 1), "<")):
            return False
        at = 2
        while is_word(item(its, at)) and is_sign(item(its, at + 1), "::"):
            at += 2
        return is_word(item(its, at), *ERRORS)

    def look_at_name(self, name):
        if name.text in (*NAMES, "From"):
            self.refuse(name, f"another `{name.text}`")

    def look_at_value(self, its, at):
        it, after = its[at], item(its, at + 1)
        _, first = path_of(its, at)
        before = item(its, first - 1)
        if is_sign(before, "==", "!=") and self.ends_operand(its, at) or is_sign(after, "==", "!="):
            return
        if it.text == "AllocError" and is_sign(after, "::") and is_word(item(its, at + 2), "from"):
            return
        if it.text == "AllocFailed" and is_sign(after, "<") and is_sign(before, "<", ","):
            return
        if it.text in ERRORS and is_sign(after, ">") and is_sign(before, "<", ","):
            return
        self.refuse(it, f"`{it.text}` as a value")

    def ends_operand(self, its, at):
        """Whether nothing is called on, or made of, the value that ends here."""
        after = item(its, at + 1)
        return after is None or is_sign(after, ";", ",", "&&", "||")

    def leaves(self, its, above):
        """The paths of a `use`, each with its alias."""
        parts = [[]]
        for it in its:
            parts.append([]) if is_sign(it, ",") else parts[-1].append(it)
        for part in parts:
            words = [it.text for it in part if is_word(it) or is_sign(it, "*")]
            group = next((it for it in part if is_group(it, "{")), None)
            if group:
                yield from self.leaves(group.trees, above + words)
            elif words:
                path, alias = (words[:-2], words[-1]) if words[-2:-1] == ["as"] else (words, None)
                yield above + path, alias

    def read_use(self, its, it):
        for path, alias in self.leaves(its, []):
            if alias and {path[-1], alias} & {*NAMES, "From"}:
                self.refuse(it, f"an alias of `{path[-1]}`")
            if path[-1] in ERRORS and path[-3:-1] not in ALLOC:
                self.refuse(it, f"`{path[-1]}` of {'::'.join(path[:-1])}")
            if path[-1] == "From" and path[:-1] not in (["std", "convert"], ["core", "convert"]):
                self.refuse(it, f"`From` of {'::'.join(path[:-1])}")

    def past_attribute(self, its, at):
        return find(its, at, lambda it: is_group(it, "[")) + 1

    def past_clause(self, its, at):
        """The place behind a clause, or another thing that only proofs see."""
        if is_word(item(its, at + 1), "use"):
            return find(its, at, lambda it: is_sign(it, ";")) + 1
        at += 1
        while is_word(item(its, at)) or is_sign(item(its, at), "*", ":", "="):
            at += 1
        if not is_group(item(its, at), "{"):
            raise Unread(its[at - 1].at)
        return self.past_clause(its, at) if is_sign(item(its, at + 1), "=") else at + 1


def last_part(its):
    """The last of the parts that stand between signs `;` or `,`, one of which may stand behind it."""
    end = len(its) - is_sign(item(its, len(its) - 1), ";", ",")
    begin = max((at + 1 for at, it in enumerate(its[:end]) if is_sign(it, ";", ",")), default=0)
    return its[begin:end]
