"""The package by `mypy --strict`, where that is there, and a program that a user has typed."""
import importlib.util
import os
import subprocess
import sys
import tempfile
import unittest

import tlhtml

PACKAGE = os.path.dirname(os.path.abspath(tlhtml.__file__))
# What a user writes, and one line that is wrong.
PROGRAM = """
import pathlib
from tlhtml import Document, Edit, Selector

links: list[str] = [it["href"] for it in Document(pathlib.Path("x.html")).select(Selector("a[href]"))]
first = Document(b"<p>").select_one("p")
name: str | None = first.name if first else None
rows: list[list[str]] = Document("<table>").tables()[0]
values: list[str] = Document("<a href=x>").select_values("a", "href")
page: str = Document("<a href=x>").edit_each("a", lambda it: Edit.set("href", it["href"] + "?") if it.text else None)
other: str = Document("<a href=x>").edit_each("a", lambda it: {"href": "y", "id": None})
wrong: int = Document("<p>").text
"""


@unittest.skipUnless(importlib.util.find_spec("mypy"), "no mypy")
class Types(unittest.TestCase):
    def check(self, *words):
        with tempfile.TemporaryDirectory() as room:
            env = {**os.environ, "MYPYPATH": os.path.dirname(PACKAGE)}
            command = [sys.executable, "-m", "mypy", "--strict", "--cache-dir", room, *words]
            return subprocess.run(command, env=env, capture_output=True, text=True).stdout

    def test_the_package(self):
        self.assertRegex(self.check(PACKAGE), "^Success: no issues found")

    def test_a_program(self):
        with tempfile.TemporaryDirectory() as folder:
            file = os.path.join(folder, "program.py")
            with open(file, "w", encoding="utf-8") as out:
                out.write(PROGRAM)
            said = self.check("--python-version", "3.10", file)
        self.assertEqual(said.count("error:"), 1, said)
        self.assertIn('expression has type "str", variable has type "int"', said)


if __name__ == "__main__":
    unittest.main()
