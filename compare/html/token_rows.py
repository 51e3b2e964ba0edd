"""Tokens in the words of the worked rows of `crates/tl_html_spec`."""
import re


def quoted(text):
    """A text as a row has it: quoted, with other bytes than those of printed ASCII as numbers."""
    parts = []
    for piece in re.findall(rb"[ -~]+|[^ -~]+", text.encode()):
        if 32 <= piece[0] < 127:
            parts.append('codes "' + piece.decode().replace("\\", "\\\\").replace('"', '\\"') + '"')
        else:
            parts.append("(" + "".join(f"0x{byte:02X} ∷ " for byte in piece) + "[])")
    return " ++ ".join(parts) or "[]"


def is_plain(text):
    return text.isascii() and (text.isprintable() or not text)


def row_of(token):
    word = lambda text: '"' + text.replace("\\", "\\\\").replace('"', '\\"') + '"'
    pair = lambda key, value: f"pair {word(key)} {word(value)}" if is_plain(key + value) else f"({quoted(key)}, {quoted(value)})"
    if token[0] == "text":
        return f"text {word(token[1])}" if is_plain(token[1]) else f"characters ({quoted(token[1])})"
    if token[0] == "start":
        pairs = "".join(f"{pair(key, value)} ∷ " for key, value in token[2])
        pairs = f"({pairs}[])" if pairs else "[]"
        if not is_plain(token[1]):
            return f"(StartTag ({quoted(token[1])}) {pairs} {str(token[3]).lower()} ∷ [])"
        return f"{'closed' if token[3] else 'start'} {word(token[1])} {pairs}"
    if token[0] == "comment" and not is_plain(token[1]):
        return f"(CommentToken ({quoted(token[1])}) ∷ [])"
    return f"{token[0]} {word(token[1])}" if token[1:] else token[0]


def listed(tokens):
    joined = []
    for token in tokens:
        if token[0] == "text" and joined and joined[-1][0] == "text":
            joined[-1] = ("text", joined[-1][1] + token[1])
        else:
            joined.append(token)
    return " ++ ".join(map(row_of, joined)) or "[]"
