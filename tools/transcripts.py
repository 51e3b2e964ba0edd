"""Transcripts: files of commands and of what each writes, in the form of cram.

    Text from the first column on says what is shown.

      $ COMMAND         a command of the shell, two blanks from the left
      > MORE            goes on with it
      text              a line of standard output, and behind those the lines of standard error, which end in ` (err)`
      ...               any lines, or none
      [STATUS]          its status, if that is not 0

A line that lacks its line feed ends in ` (no-eol)`, before ` (err)`. A line with a byte that isn't shown, or that could be taken
for another thing, stands with escapes and ends in ` (esc)`; one with nothing in it is `(empty)`.
"""
import re

from .running import run
from .workspace import Stop

MARKS = re.compile(r"^\(empty\)|^\.\.\.$|^\[\d+\]$|^[$>] |^[$>]$| \((?:esc|no-eol|err)\)$|[ \t]$")


class Row:
    """A command, the line of the file on which it stands, and what it has to write, with its status."""

    def __init__(self, file, line, command):
        self.file, self.line, self.command, self.expected = file, line, command, []

    def place(self):
        return f"{self.file}:{self.line}"

    def is_silent(self):
        return not self.expected

    def fits(self, lines):
        """Whether it wrote this. `...` stands for any lines, but for no status."""
        if "..." not in self.expected or bool(_is_ended(lines)) != bool(_is_ended(self.expected)):
            return lines == self.expected
        at = self.expected.index("...")
        front, end = self.expected[:at], self.expected[at + 1 :]
        rest = lines[len(front) :]
        return lines[:at] == front and len(rest) >= len(end) and rest[len(rest) - len(end) :] == end

    def difference(self, lines):
        """What is said of a row that wrote something else."""
        both = [*(f"  - {it}" for it in self.expected), *(f"  + {it}" for it in lines)]
        return "\n".join([f"{self.place()}: $ {self.command}", *both])


def rows_of(file, text):
    """The rows of a transcript. A line that is none of a transcript's is named."""
    found, is_open = [], False
    for number, line in enumerate(text.split("\n"), 1):
        if line != line.rstrip():
            raise Stop(f"{file}:{number}: no line of a transcript: it ends in a blank: {line!r}")
        if line.startswith("  $ "):
            found.append(Row(file, number, line[4:]))
            is_open = True
        elif line.startswith("  > ") and is_open and not found[-1].expected:
            found[-1].command += f"\n{line[4:]}"
        elif line.startswith("  ") and is_open and not _is_ended(found[-1].expected):
            found[-1].expected.append(line[2:])
        elif line.startswith(" "):
            raise Stop(f"{file}:{number}: no line of a transcript: {line!r}")
        else:
            is_open = False
    for it in found:
        if it.expected.count("...") > 1:
            raise Stop(f"{it.place()}: `...` stands there twice")
    return found


def _is_ended(expected):
    return expected and re.fullmatch(r"\[\d+\]", expected[-1])


def lines_of(output, mark=""):
    """The lines of a transcript that stand for these bytes."""
    lines = output.decode(errors="surrogateescape").split("\n")
    last = lines.pop()
    return [*(_escaped(it) + mark for it in lines), *([f"{_escaped(last)} (no-eol){mark}"] if last else [])]


def _escaped(line):
    if not line:
        return "(empty)"
    if line.isprintable() and not MARKS.search(line):
        return line
    made = "".join(it if it.isprintable() and it != "\\" else _escape(it) for it in line)
    if MARKS.search(made):
        made = made[:-1] + _escape(made[-1]) if made[-1] in " )" else _escape(made[0]) + made[1:]
    return f"{made} (esc)"


def _escape(letter):
    """A letter, or a byte that is no text, as an escape."""
    code = ord(letter)
    code -= 0xDC00 if 0xDC80 <= code <= 0xDCFF else 0
    return f"\\x{code:02x}" if code < 256 else f"\\u{{{code:x}}}"


def output_of(row, room, env):
    """What the command of a row writes, as the lines of a transcript."""
    ran = run(["sh", "-c", row.command], cwd=room, env=env)
    status = [f"[{ran.status}]"] if ran.status else []
    return [*lines_of(ran.out), *lines_of(ran.err, " (err)"), *status]


def rewrite(rows, text, found):
    """The text of a file with what its rows wrote in the place of what they expect, by their lines. `...` stays where it fits."""
    lines, made, at = text.split("\n"), [], 0
    for row in rows:
        made += lines[at : row.line]
        at = row.line
        while at < len(lines) and lines[at].startswith("  > "):
            made.append(lines[at])
            at += 1
        at += len(row.expected)
        now = found.get(row.line, row.expected)
        made += [f"  {it}" for it in (row.expected if row.fits(now) else now)]
    return "\n".join([*made, *lines[at:]])
