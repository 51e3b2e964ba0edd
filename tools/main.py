"""The command `./x`: finds the module of the word that it is given."""
import argparse
import importlib
import inspect
import os
import sys

from . import commands
from .workspace import Stop

HEAD = """One command for all that is done here but the proofs, which are `rt`'s (`rt ci` proves all, and runs the tests).

    ./x COMMAND ..        ./x help COMMAND says what it does, and so does ./x COMMAND --help
"""
# In the order in which `./x help` shows them; those that follow are the others, by name.
FIRST = ("try", "tlq", "runs", "mutants", "oom", "stress", "wants", "gate")


def names():
    found = {it[:-3] for it in os.listdir(os.path.dirname(commands.__file__)) if it.endswith(".py")} - {"__init__"}
    return [*FIRST, *sorted(found - set(FIRST))]


def module_of(name):
    return importlib.import_module(f"tools.commands.{name}")


def parser_of(name, module, **more):
    """The parser of a command's words, which has its text as its help."""
    text = inspect.getdoc(module)
    form = argparse.RawDescriptionHelpFormatter
    return argparse.ArgumentParser(f"./x {name}", description=text, formatter_class=form, **more)


def print_help(words):
    """What `./x help` and `./x help NAME` write."""
    if words:
        return call(words[0], ["--help"])
    print(HEAD)
    for it in names():
        print(f"    {it:<10}{inspect.getdoc(module_of(it)).partition(chr(10))[0]}")
    return 0


def call(name, words):
    if name not in names():
        raise Stop(f"no command is called {name}: ./x help lists them")
    module = module_of(name)
    return module.main(parser_of(name, module), words)


def main(words):
    name, *rest = words or ["help"]
    try:
        return print_help(rest) if name in ("help", "--help", "-h") else call(name, rest)
    except Stop as stop:
        print(f"{name}: {stop}", file=sys.stderr)
        return 127 if name in ("try", "tlq") else 1
    except KeyboardInterrupt:
        return 130
    except BrokenPipeError:
        # Who reads wants no more of it.
        os.dup2(os.open(os.devnull, os.O_WRONLY), sys.stdout.fileno())
        return 141
