"""The tokenizer of the HTML standard: a method for each state of 13.2.5, by the name of its section.

It is written from the standard alone, over characters, as it says: with what looks ahead there looking ahead here, and with
the last start tag, the temporary buffer and the return state kept beside the state. Of tree construction it has the switch of
state after a start tag, by the name alone and with scripting off; `<![CDATA[` begins a bogus comment.
Tokens: ("text", characters), ("start", name, pairs, flag), ("end", name), ("comment", data), ("doctype",).
"""
import html.entities

LETTERS = "ABCDEFGHIJKLMNOPQRSTUVWXYZabcdefghijklmnopqrstuvwxyz"
DIGITS = "0123456789"
HEXADECIMAL = DIGITS + "ABCDEFabcdef"
WHITE_SPACE = "\t\n\f "
REPLACEMENT = "\ufffd"
NAMES = html.entities.html5
LONGEST = max(map(len, NAMES))
RCDATA = ("title", "textarea")
RAWTEXT = ("style", "xmp", "iframe", "noembed", "noframes")
# The table of 13.2.5.80.
CONTROLS = {at: ord(bytes([at]).decode("windows-1252")) for at in range(0x80, 0xA0) if at not in (0x81, 0x8D, 0x8F, 0x90, 0x9D)}


def lower(text):
    """ASCII letters in lower case; `str.lower` takes more."""
    return "".join(chr(ord(it) + 32) if "A" <= it <= "Z" else it for it in text)


def preprocessed(text):
    """Line feeds at the ends of lines (13.2.3.5), and no byte order mark, which belongs to the encoding."""
    return text.removeprefix("\ufeff").replace("\r\n", "\n").replace("\r", "\n")


class Tokenizer:
    def __init__(self, text):
        self.text, self.place, self.ended = preprocessed(text), 0, False
        self.state, self.return_state = self.data, None
        self.tokens, self.last_start, self.buffer = [], None, ""

    def run(self):
        while not self.ended:
            character = self.text[self.place] if self.place < len(self.text) else None
            self.place += 1
            self.state(character)
        return self.tokens

    def to(self, state):
        self.state = state

    def reconsume(self, state):
        self.place -= 1
        self.state = state

    def emit(self, text):
        if self.tokens and self.tokens[-1][0] == "text":
            self.tokens[-1] = ("text", self.tokens[-1][1] + text)
        elif text:
            self.tokens.append(("text", text))

    def emit_or_end(self, character):
        """Anything else in a text."""
        if character is None:
            self.ended = True
        else:
            self.emit(REPLACEMENT if character == "\0" else character)

    # 13.2.5.1 to .5

    def data(self, character):
        if character == "&":
            self.refer(self.data)
        elif character == "<":
            self.to(self.tag_open)
        elif character is None:
            self.ended = True
        else:
            self.emit(character)

    def rcdata(self, character):
        if character == "&":
            self.refer(self.rcdata)
        elif character == "<":
            self.to(self.rcdata_less_than_sign)
        else:
            self.emit_or_end(character)

    def rawtext(self, character):
        if character == "<":
            self.to(self.rawtext_less_than_sign)
        else:
            self.emit_or_end(character)

    def script_data(self, character):
        if character == "<":
            self.to(self.script_data_less_than_sign)
        else:
            self.emit_or_end(character)

    def plaintext(self, character):
        self.emit_or_end(character)

    # 13.2.5.6 to .8

    def begin_tag(self, is_end):
        self.is_end, self.name, self.pairs, self.closes = is_end, "", {}, False

    def tag_open(self, character):
        if character == "!":
            self.to(self.markup_declaration_open)
        elif character == "/":
            self.to(self.end_tag_open)
        elif character is not None and character in LETTERS:
            self.begin_tag(False)
            self.reconsume(self.tag_name)
        elif character == "?":
            self.comment_data = ""
            self.reconsume(self.bogus_comment)
        else:
            self.emit("<")
            self.reconsume(self.data)

    def end_tag_open(self, character):
        if character is not None and character in LETTERS:
            self.begin_tag(True)
            self.reconsume(self.tag_name)
        elif character == ">":
            self.to(self.data)
        elif character is None:
            self.emit("</")
            self.ended = True
        else:
            self.comment_data = ""
            self.reconsume(self.bogus_comment)

    def tag_name(self, character):
        if character is None:
            self.ended = True
        elif character in WHITE_SPACE:
            self.to(self.before_attribute_name)
        elif character == "/":
            self.to(self.self_closing_start_tag)
        elif character == ">":
            self.emit_tag()
        else:
            self.name += REPLACEMENT if character == "\0" else lower(character)

    def emit_tag(self):
        self.to(self.data)
        if self.is_end:
            self.tokens.append(("end", self.name))
            return
        self.tokens.append(("start", self.name, tuple(self.pairs.items()), self.closes))
        self.last_start = self.name
        if self.name in RCDATA:
            self.to(self.rcdata)
        elif self.name in RAWTEXT:
            self.to(self.rawtext)
        elif self.name == "script":
            self.to(self.script_data)
        elif self.name == "plaintext":
            self.to(self.plaintext)

    # 13.2.5.9 to .17 and .23 to .25: the end of such a text, whose state is given

    def less_than_sign(self, character, end_tag_open, text):
        if character == "/":
            self.buffer = ""
            self.to(end_tag_open)
        else:
            self.emit("<")
            self.reconsume(text)

    def raw_end_tag_open(self, character, end_tag_name, text):
        if character is not None and character in LETTERS:
            self.begin_tag(True)
            self.reconsume(end_tag_name)
        else:
            self.emit("</")
            self.reconsume(text)

    def raw_end_tag_name(self, character, text):
        appropriate = self.name == self.last_start
        if character is not None and character in WHITE_SPACE and appropriate:
            self.to(self.before_attribute_name)
        elif character == "/" and appropriate:
            self.to(self.self_closing_start_tag)
        elif character == ">" and appropriate:
            self.emit_tag()
        elif character is not None and character in LETTERS:
            self.name += lower(character)
            self.buffer += character
        else:
            self.emit("</" + self.buffer)
            self.reconsume(text)

    def rcdata_less_than_sign(self, character):
        self.less_than_sign(character, self.rcdata_end_tag_open, self.rcdata)

    def rcdata_end_tag_open(self, character):
        self.raw_end_tag_open(character, self.rcdata_end_tag_name, self.rcdata)

    def rcdata_end_tag_name(self, character):
        self.raw_end_tag_name(character, self.rcdata)

    def rawtext_less_than_sign(self, character):
        self.less_than_sign(character, self.rawtext_end_tag_open, self.rawtext)

    def rawtext_end_tag_open(self, character):
        self.raw_end_tag_open(character, self.rawtext_end_tag_name, self.rawtext)

    def rawtext_end_tag_name(self, character):
        self.raw_end_tag_name(character, self.rawtext)

    def script_data_less_than_sign(self, character):
        if character == "!":
            self.emit("<!")
            self.to(self.script_data_escape_start)
        else:
            self.less_than_sign(character, self.script_data_end_tag_open, self.script_data)

    def script_data_end_tag_open(self, character):
        self.raw_end_tag_open(character, self.script_data_end_tag_name, self.script_data)

    def script_data_end_tag_name(self, character):
        self.raw_end_tag_name(character, self.script_data)

    def script_data_escaped_less_than_sign(self, character):
        if character is not None and character in LETTERS:
            self.buffer = ""
            self.emit("<")
            self.reconsume(self.script_data_double_escape_start)
        else:
            self.less_than_sign(character, self.script_data_escaped_end_tag_open, self.script_data_escaped)

    def script_data_escaped_end_tag_open(self, character):
        self.raw_end_tag_open(character, self.script_data_escaped_end_tag_name, self.script_data_escaped)

    def script_data_escaped_end_tag_name(self, character):
        self.raw_end_tag_name(character, self.script_data_escaped)

    # 13.2.5.18 to .22 and .26 to .31

    def script_data_escape_start(self, character):
        if character == "-":
            self.emit("-")
            self.to(self.script_data_escape_start_dash)
        else:
            self.reconsume(self.script_data)

    def script_data_escape_start_dash(self, character):
        if character == "-":
            self.emit("-")
            self.to(self.script_data_escaped_dash_dash)
        else:
            self.reconsume(self.script_data)

    def script_data_escaped(self, character, after_dash=None):
        self.to(self.script_data_escaped)
        if character == "-":
            self.emit("-")
            self.to(after_dash or self.script_data_escaped_dash)
        elif character == "<":
            self.to(self.script_data_escaped_less_than_sign)
        else:
            self.emit_or_end(character)

    def script_data_escaped_dash(self, character):
        self.script_data_escaped(character, self.script_data_escaped_dash_dash)

    def script_data_escaped_dash_dash(self, character):
        self.script_data_escaped(character, self.script_data_escaped_dash_dash)
        if character == ">":
            self.to(self.script_data)

    def double_escape(self, character, at_script, otherwise, here):
        if character is not None and character in WHITE_SPACE + "/>":
            self.emit(character)
            self.to(at_script if self.buffer == "script" else otherwise)
        elif character is not None and character in LETTERS:
            self.buffer += lower(character)
            self.emit(character)
        else:
            self.reconsume(here)

    def script_data_double_escape_start(self, character):
        self.double_escape(character, self.script_data_double_escaped, self.script_data_escaped, self.script_data_escaped)

    def script_data_double_escaped(self, character, after_dash=None):
        self.to(self.script_data_double_escaped)
        if character == "-":
            self.emit("-")
            self.to(after_dash or self.script_data_double_escaped_dash)
        elif character == "<":
            self.emit("<")
            self.to(self.script_data_double_escaped_less_than_sign)
        else:
            self.emit_or_end(character)

    def script_data_double_escaped_dash(self, character):
        self.script_data_double_escaped(character, self.script_data_double_escaped_dash_dash)

    def script_data_double_escaped_dash_dash(self, character):
        self.script_data_double_escaped(character, self.script_data_double_escaped_dash_dash)
        if character == ">":
            self.to(self.script_data)

    def script_data_double_escaped_less_than_sign(self, character):
        if character == "/":
            self.buffer = ""
            self.emit("/")
            self.to(self.script_data_double_escape_end)
        else:
            self.reconsume(self.script_data_double_escaped)

    def script_data_double_escape_end(self, character):
        self.double_escape(character, self.script_data_escaped, self.script_data_double_escaped, self.script_data_double_escaped)

    # 13.2.5.32 to .40

    def begin_pair(self, key=""):
        self.key, self.value = key, ""

    def end_pair(self):
        self.pairs.setdefault(self.key, self.value)

    def before_attribute_name(self, character):
        if character is not None and character in WHITE_SPACE:
            return
        if character is None or character in "/>":
            self.reconsume(self.after_attribute_name)
            self.key = None
            return
        self.begin_pair("=" if character == "=" else "")
        if character == "=":
            self.to(self.attribute_name)
        else:
            self.reconsume(self.attribute_name)

    def attribute_name(self, character):
        if character is None or character in WHITE_SPACE + "/>":
            self.reconsume(self.after_attribute_name)
        elif character == "=":
            self.to(self.before_attribute_value)
        else:
            self.key += REPLACEMENT if character == "\0" else lower(character)

    def after_attribute_name(self, character):
        if character is None:
            self.ended = True
        elif character in WHITE_SPACE:
            return
        elif character == "=" and self.key is not None:
            self.to(self.before_attribute_value)
        else:
            if self.key is not None:
                self.end_pair()
            if character == "/":
                self.to(self.self_closing_start_tag)
            elif character == ">":
                self.emit_tag()
            else:
                self.begin_pair()
                self.reconsume(self.attribute_name)

    def before_attribute_value(self, character):
        if character is not None and character in WHITE_SPACE:
            return
        if character == '"':
            self.to(self.double_quoted)
        elif character == "'":
            self.to(self.single_quoted)
        elif character == ">":
            self.end_pair()
            self.emit_tag()
        else:
            self.reconsume(self.unquoted)

    def quoted(self, character, quote, here):
        if character is None:
            self.ended = True
        elif character == quote:
            self.end_pair()
            self.to(self.after_attribute_value)
        elif character == "&":
            self.refer(here)
        else:
            self.value += REPLACEMENT if character == "\0" else character

    def double_quoted(self, character):
        self.quoted(character, '"', self.double_quoted)

    def single_quoted(self, character):
        self.quoted(character, "'", self.single_quoted)

    def unquoted(self, character):
        if character is None:
            self.ended = True
        elif character in WHITE_SPACE:
            self.end_pair()
            self.to(self.before_attribute_name)
        elif character == "&":
            self.refer(self.unquoted)
        elif character == ">":
            self.end_pair()
            self.emit_tag()
        else:
            self.value += REPLACEMENT if character == "\0" else character

    def after_attribute_value(self, character):
        if character is None:
            self.ended = True
        elif character in WHITE_SPACE:
            self.to(self.before_attribute_name)
        elif character == "/":
            self.to(self.self_closing_start_tag)
        elif character == ">":
            self.emit_tag()
        else:
            self.reconsume(self.before_attribute_name)

    def self_closing_start_tag(self, character):
        if character is None:
            self.ended = True
        elif character == ">":
            self.closes = True
            self.emit_tag()
        else:
            self.reconsume(self.before_attribute_name)

    # 13.2.5.41 to .52

    def emit_comment(self):
        self.tokens.append(("comment", self.comment_data))
        self.to(self.data)

    def end_in_comment(self):
        self.emit_comment()
        self.ended = True

    def bogus_comment(self, character):
        if character is None:
            self.end_in_comment()
        elif character == ">":
            self.emit_comment()
        else:
            self.comment_data += REPLACEMENT if character == "\0" else character

    def markup_declaration_open(self, character):
        self.place -= 1
        self.comment_data = ""
        if self.text.startswith("--", self.place):
            self.place += 2
            self.to(self.comment_start)
        elif lower(self.text[self.place : self.place + 7]) == "doctype":
            self.place += 7
            self.to(self.doctype)
        else:
            self.to(self.bogus_comment)

    def comment_start(self, character):
        if character == "-":
            self.to(self.comment_start_dash)
        elif character == ">":
            self.emit_comment()
        else:
            self.reconsume(self.comment)

    def comment_start_dash(self, character):
        if character == "-":
            self.to(self.comment_end)
        elif character == ">":
            self.emit_comment()
        elif character is None:
            self.end_in_comment()
        else:
            self.comment_data += "-"
            self.reconsume(self.comment)

    def comment(self, character):
        if character is None:
            self.end_in_comment()
        elif character == "<":
            self.comment_data += "<"
            self.to(self.comment_less_than_sign)
        elif character == "-":
            self.to(self.comment_end_dash)
        else:
            self.comment_data += REPLACEMENT if character == "\0" else character

    def comment_less_than_sign(self, character):
        if character == "!":
            self.comment_data += "!"
            self.to(self.comment_less_than_sign_bang)
        elif character == "<":
            self.comment_data += "<"
        else:
            self.reconsume(self.comment)

    def comment_less_than_sign_bang(self, character):
        if character == "-":
            self.to(self.comment_less_than_sign_bang_dash)
        else:
            self.reconsume(self.comment)

    def comment_less_than_sign_bang_dash(self, character):
        if character == "-":
            self.to(self.comment_less_than_sign_bang_dash_dash)
        else:
            self.reconsume(self.comment_end_dash)

    def comment_less_than_sign_bang_dash_dash(self, character):
        self.reconsume(self.comment_end)

    def comment_end_dash(self, character):
        if character == "-":
            self.to(self.comment_end)
        elif character is None:
            self.end_in_comment()
        else:
            self.comment_data += "-"
            self.reconsume(self.comment)

    def comment_end(self, character):
        if character == ">":
            self.emit_comment()
        elif character == "!":
            self.to(self.comment_end_bang)
        elif character == "-":
            self.comment_data += "-"
        elif character is None:
            self.end_in_comment()
        else:
            self.comment_data += "--"
            self.reconsume(self.comment)

    def comment_end_bang(self, character):
        if character == "-":
            self.comment_data += "--!"
            self.to(self.comment_end_dash)
        elif character == ">":
            self.emit_comment()
        elif character is None:
            self.end_in_comment()
        else:
            self.comment_data += "--!"
            self.reconsume(self.comment)

    def doctype(self, character):
        """13.2.5.53 to .68, of which each ends at the first `>`."""
        if character in (">", None):
            self.tokens.append(("doctype",))
            self.to(self.data)
            self.ended = character is None

    # 13.2.5.72 to .80

    def refer(self, return_state):
        self.return_state = return_state
        self.to(self.character_reference)

    def is_value(self):
        return self.return_state in (self.double_quoted, self.single_quoted, self.unquoted)

    def flush(self, text):
        if self.is_value():
            self.value += text
        else:
            self.emit(text)

    def character_reference(self, character):
        if character is not None and character in LETTERS + DIGITS:
            self.reconsume(self.named_character_reference)
        elif character == "#":
            self.buffer = "&#"
            self.to(self.numeric_character_reference)
        else:
            self.flush("&")
            self.reconsume(self.return_state)

    def named_character_reference(self, character):
        self.place -= 1
        name = next((self.text[self.place : self.place + size] for size in range(LONGEST, 0, -1) if self.text[self.place : self.place + size] in NAMES), None)
        if name is None:
            self.flush("&")
            self.to(self.ambiguous_ampersand)
            return
        self.place += len(name)
        after = self.text[self.place : self.place + 1]
        kept = self.is_value() and name[-1] != ";" and after and after in LETTERS + DIGITS + "="
        self.flush("&" + name if kept else NAMES[name])
        self.to(self.return_state)

    def ambiguous_ampersand(self, character):
        if character is not None and character in LETTERS + DIGITS:
            self.flush(character)
        else:
            self.reconsume(self.return_state)

    def numeric_character_reference(self, character):
        self.code = 0
        if character in ("x", "X"):
            self.buffer += character
            self.to(self.hexadecimal_start)
        else:
            self.reconsume(self.decimal_start)

    def number_start(self, character, digits, state):
        if character is not None and character in digits:
            self.reconsume(state)
        else:
            self.flush(self.buffer)
            self.reconsume(self.return_state)

    def number(self, character, digits, base):
        if character is not None and character in digits:
            self.code = min(self.code * base + int(character, 16), 0x110000)
            return
        if character != ";":
            self.place -= 1
        self.flush(self.numbered())
        self.to(self.return_state)

    def numbered(self):
        if self.code == 0 or self.code > 0x10FFFF or 0xD800 <= self.code < 0xE000:
            return REPLACEMENT
        return chr(CONTROLS.get(self.code, self.code))

    def hexadecimal_start(self, character):
        self.number_start(character, HEXADECIMAL, self.hexadecimal)

    def decimal_start(self, character):
        self.number_start(character, DIGITS, self.decimal)

    def hexadecimal(self, character):
        self.number(character, HEXADECIMAL, 16)

    def decimal(self, character):
        self.number(character, DIGITS, 10)


def html_tokens(text):
    return Tokenizer(text).run()
