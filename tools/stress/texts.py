"""The texts of the tests: any text is a page."""
import contextlib
import glob
import re

from ..workspace import ROOT, text_of

LITERAL = re.compile(r"""//[^\n]*|b?'(?:[^'\\]|\\u\{[0-9a-fA-F]+\}|\\x..|\\.)'|b?"((?:[^"\\]|\\.)*)\"""", re.S)
ESCAPE = re.compile(r"\\(?:u\{([0-9a-fA-F]+)\}|x(..)|\n\s*|(.))", re.S)
# A page of a transcript, and what `printf` writes anew in it.
PAGE = re.compile(r"printf (?:-- )?'([^']*)'")
OCTAL = re.compile(rb"\\([0-7]{3})|\\(.)|%%", re.S)
PLAIN = {"n": "\n", "r": "\r", "t": "\t", "0": "\0"}


def unescape(literal):
    """The bytes of a literal."""
    made, at = b"", 0
    for it in ESCAPE.finditer(literal):
        code, byte, letter = it.groups()
        made += literal[at : it.start()].encode()
        if byte:
            made += bytes([int(byte, 16)])
        elif code or letter:
            made += (chr(int(code, 16)) if code else PLAIN.get(letter, letter)).encode()
        at = it.end()
    return made + literal[at:].encode()


def printed(page):
    """The bytes that `printf` writes of a page."""
    return OCTAL.sub(lambda it: bytes([int(it[1], 8)]) if it[1] else PLAIN.get(it[2].decode(), it[2].decode()).encode() if it[2] else b"%", page.encode())


def texts():
    """The texts of all literals in the tests and in the runs with memory refused, and the pages of the transcripts, each once."""
    found = {}
    for file in sorted(glob.glob(f"{ROOT}/tests/*.t")):
        for page in PAGE.finditer(text_of(file)):
            with contextlib.suppress(UnicodeDecodeError):
                found[printed(page[1]).decode()] = file
    for file in sorted(glob.glob(f"{ROOT}/crates/tl_*tests/src/*.rt") + glob.glob(f"{ROOT}/tools/oom/*.rs")):
        for literal in LITERAL.finditer(text_of(file)):
            if literal[1] is not None:
                # (bytes that are no text can be no page)
                with contextlib.suppress(UnicodeDecodeError):
                    found[unescape(literal[1]).decode()] = file
    return [it for it in found if "\x1e" not in it]
