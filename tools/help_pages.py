"""What `tl --help` says, read, and written once more as a manual page and as completions for bash, zsh and fish."""
import re

from .running import must

# What stands in front of each completion, as a comment.
MADE = "Made by ./x manual of what tl --help says."
# The labels that --encoding takes, as docs/COMMANDS.md has them.
LABELS = (
    "auto", "utf-8", "windows-1252", "latin1", "iso-8859-2", "iso-8859-15", "windows-1250", "windows-1251", "koi8-r",
    "gbk", "big5", "euc-jp", "shift_jis", "euc-kr", "utf-16le", "utf-16be",
)


class Option:
    """An option: `-a`, `--attribute`, `KEY` and what it does; what it lacks is empty. A value that may be left out stands behind `=`, and
    is no value for completions."""

    def __init__(self, line):
        found = re.fullmatch(r"\s+(?:(-\S), )?(--[a-z-]+)(?:\[=<([A-Z]+)>\])?((?: <[A-Z]+>)*)  +(.*)", line)
        self.short, self.long, self.optional, value, self.says = (it or "" for it in found.groups())
        self.value = re.sub("[<>]", "", value).strip()

    def names(self):
        return [it for it in (self.short, self.long) if it]


class Help:
    """The help of a command: what it does, how it is used, its arguments, its options, and what stands below."""

    def __init__(self, text):
        head, _, rest = text.partition("\n\nUsage: ")
        self.does = head
        self.usage, _, rest = rest.partition("\n")
        self.commands, self.arguments, self.options, self.notes = {}, [], [], ""
        for part in rest.strip("\n").split("\n\n"):
            title, _, lines = part.partition("\n")
            if title == "Commands:" and not self.notes:
                self.commands = dict(it.split(None, 1) for it in lines.splitlines())
            elif title == "Arguments:" and not self.notes:
                self.arguments = [it.split(None, 1) for it in lines.splitlines()]
            elif title == "Options:" and not self.notes:
                self.options = [Option(it) for it in lines.splitlines()]
            else:
                self.notes += f"\n\n{part}" if self.notes else part


class Program:
    """The help of a program and of each of its commands."""

    def __init__(self, file):
        self.help = Help(must([file, "--help"], "no help").out.decode())
        names = [it for it in self.help.commands if it != "help"]
        self.commands = {it: Help(must([file, it, "--help"], f"no help of {it}").out.decode()) for it in names}


def roff(text):
    """A text as lines of roff."""
    text = text.replace("\\", "\\e").replace("-", "\\-").replace("'", "\\(aq")
    return re.sub(r"(?m)^\.", "\\&.", text)


def roff_block(text):
    """A text whose lines stand as they are."""
    return [".PP", ".nf", roff(text), ".fi"]


def roff_options(options):
    made = []
    for it in options:
        names = ", ".join(f"\\fB{roff(name)}\\fR" for name in it.names())
        names += f"[=\\fI{it.optional}\\fR]" if it.optional else ""
        made += [".TP", f"{names} \\fI{it.value}\\fR" if it.value else names, roff(it.says)]
    return made


# Where a paragraph of the program's help stands in the manual page, by how it begins.
SECTIONS = {"Examples:": "EXAMPLES", "Exit status:": "EXIT STATUS", "On a terminal": "ENVIRONMENT"}


def sections(notes):
    """The paragraphs of the program's help by section, those of DESCRIPTION first."""
    made = {"DESCRIPTION": []} | {it: [] for it in SECTIONS.values()}
    for part in notes.split("\n\n"):
        name = next((name for words, name in SECTIONS.items() if part.startswith(words)), "DESCRIPTION")
        made[name].append(re.sub(r"^(Examples:\n|Exit status: )", "", part))
    return {name: "\n\n".join(parts) for name, parts in made.items() if parts}


def manual(program, version):
    """The manual page."""
    made = [f'.\\" {MADE}', f'.TH TL 1 "" "tl {version}" "User Commands"', ".SH NAME"]
    made += [f"tl \\- {program.help.does[0].lower()}{roff(program.help.does[1:])}", ".SH SYNOPSIS"]
    for it in program.commands.values():
        made += [f".B {roff(it.usage)}", ".br"]
    notes = sections(program.help.notes)
    made += [".SH DESCRIPTION", *roff_block(notes.pop("DESCRIPTION")), ".SH COMMANDS"]
    for name, it in program.commands.items():
        made += [f'.SS "{roff(it.usage)}"', f"{roff(it.does)}."]
        for word, says in it.arguments:
            made += [".TP", f"\\fI{roff(word)}\\fR", roff(says)]
        made += [*roff_options(it.options), *roff_block(it.notes)]
    for name, text in notes.items():
        made += [f".SH {name}", *roff_block(text)]
    made += [".SH SEE ALSO", roff("curl(1), iconv(1), jq(1), xmllint(1), https://html.spec.whatwg.org/")]
    return "\n".join(made) + "\n"


def bash(program):
    """The completion of bash."""
    options = [one for it in program.commands.values() for one in it.options]
    arms, valued = [], sorted({name for one in options if one.value for name in one.names()})
    for name, it in program.commands.items():
        words = " ".join(name for one in it.options for name in one.names())
        arms.append(f"        {name}) options='{words}' ;;")
    commands = " ".join([*program.commands, "help"])
    plain = " ".join(name for it in program.help.options for name in it.names())
    return f"""# {MADE}
_tl() {{
    local word=${{COMP_WORDS[COMP_CWORD]}} before=${{COMP_WORDS[COMP_CWORD - 1]}} options=
    if [ "$COMP_CWORD" -eq 1 ]; then
        COMPREPLY=($(compgen -W '{commands} {plain}' -- "$word"))
        return
    fi
    case $before in
        --encoding) COMPREPLY=($(compgen -W '{" ".join(LABELS)}' -- "$word")); return ;;
        {"|".join(it for it in valued if it != "--encoding")}) COMPREPLY=(); return ;;
    esac
    case ${{COMP_WORDS[1]}} in
{chr(10).join(arms)}
        help) COMPREPLY=($(compgen -W '{" ".join(program.commands)}' -- "$word")); return ;;
    esac
    case $word in
        -*) COMPREPLY=($(compgen -W "$options" -- "$word")) ;;
        *) COMPREPLY=($(compgen -f -- "$word")) ;;
    esac
}}
complete -o filenames -F _tl tl
"""


def zsh_text(text):
    """A text of a completion of zsh between single quotes."""
    return re.sub(r"([\[\]:\\])", r"\\\1", text).replace("'", "'\\''")


def zsh_option(option):
    """An option of `_arguments`."""
    names = option.names()
    front = f"'({' '.join(names)})'{{{','.join(names)}}}" if len(names) > 1 else f"'{names[0]}"
    labels = f"({' '.join(LABELS)})" if option.long == "--encoding" else ""
    value = f":{option.value}:{labels}" if option.value else ""
    quote = "'" if len(names) > 1 else ""
    return f"{front}{quote}[{zsh_text(option.says)}]{value}'"


def zsh(program):
    """The completion of zsh."""
    commands = "\n".join(f"        '{name}:{zsh_text(it.does)}'" for name, it in program.commands.items())
    arms = []
    for name, it in program.commands.items():
        words = [zsh_option(one) for one in it.options]
        for number, (word, _) in enumerate(it.arguments, 1):
            files = word.startswith("[FILE")
            words.append("'*:FILE:_files'" if files else f"'{number}:{word.strip('<>.')}:'")
        arms.append(f"        {name})\n            _arguments " + " \\\n                ".join(words) + " ;;")
    return f"""#compdef tl
# {MADE}
_tl() {{
    local -a commands
    commands=(
{commands}
    )
    if (( CURRENT == 2 )); then
        _describe command commands
        return
    fi
    local command=$words[2]
    shift words
    (( CURRENT-- ))
    case $command in
{chr(10).join(arms)}
    esac
}}
_tl "$@"
"""


def fish_text(text):
    return "'" + text.replace("\\", "\\\\").replace("'", "\\'") + "'"


def fish(program):
    """The completion of fish."""
    made = [f"# {MADE}"]
    for name, it in program.commands.items():
        made.append(f"complete -c tl -n __fish_use_subcommand -f -a {name} -d {fish_text(it.does)}")
    for name, it in program.commands.items():
        for one in it.options:
            words = [f"complete -c tl -n '__fish_seen_subcommand_from {name}'"]
            words += [f"-s {one.short[1:]}"] * bool(one.short)
            words += [f"-l {one.long[2:]}"]
            words += [f"-x -a '{' '.join(LABELS)}'"] if one.long == "--encoding" else ["-x"] * bool(one.value)
            made.append(" ".join([*words, f"-d {fish_text(one.says)}"]))
    return "\n".join(made) + "\n"


def pages(file, version):
    """What is made of the help of a program, by the paths where it stands."""
    program = Program(file)
    return {
        "share/man/man1/tl.1": manual(program, version),
        "share/bash-completion/completions/tl": bash(program),
        "share/zsh/site-functions/_tl": zsh(program),
        "share/fish/vendor_completions.d/tl.fish": fish(program),
    }
