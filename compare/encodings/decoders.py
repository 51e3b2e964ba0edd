"""The encoding standard's decoders of Big5, EUC-JP and ISO-2022-JP, which Chromium's differ from.

They go as the standard's text does, over a queue of bytes. What Chromium does otherwise is told by `as_chromium`:

- Big5: a pair of characters is a control character and an error (`U+0093 U+FFFD` in the place of `U+00CA U+0304`).
- EUC-JP: the flag of JIS X 0212 stays up behind a byte that is out of range, and counts for the next character of two bytes.
- ISO-2022-JP: where an escape sequence is none, and its last byte, which is restored, is an error, that isn't told; at the end of bytes
  within one its byte `$` or `(` stands for itself, also where the output state is another than ASCII.
"""
import functools
import re

from tools.workspace import ROOT, text_of

END = None
ERROR = "\ufffd"
BIG5_PAIRS = {1133: "\u00ca\u0304", 1135: "\u00ca\u030c", 1164: "\u00ea\u0304", 1166: "\u00ea\u030c"}
CHROMIUM_PAIRS = {1133: "\u0093" + ERROR, 1135: "\u0093" + ERROR, 1164: "\u00b3" + ERROR, 1166: "\u00b3" + ERROR}
ESCAPES = {b"(B": "ASCII", b"(J": "Roman", b"(I": "katakana", b"$@": "lead byte", b"$B": "lead byte"}


@functools.lru_cache(maxsize=None)
def index(name):
    """The characters of an index by their pointers, U+FFFD where it has none."""
    text = text_of(f"{ROOT}/crates/tl_indexes/src/{name}.rt")
    return [chr(int(it, 16)) for it in re.findall(r"'\\u\{([0-9A-F]+)\}'", text)]


def in_index(table, pointer):
    found = table[pointer] if pointer is not None and pointer < len(table) else ERROR
    return None if found == ERROR else found


def is_from(low, high, *bytes_):
    return all(it is not END and low <= it <= high for it in bytes_)


class Big5:
    def __init__(self, as_chromium):
        self.index, self.pairs = index("big5"), CHROMIUM_PAIRS if as_chromium else BIG5_PAIRS

    def decode(self, page):
        queue, out, lead = list(reversed(page)), [], 0
        while queue or lead:
            byte = queue.pop() if queue else END
            if lead:
                offset = 0x40 if is_from(0, 0x7E, byte) else 0x62
                fits = is_from(0x40, 0x7E, byte) or is_from(0xA1, 0xFE, byte)
                pointer = (lead - 0x81) * 157 + byte - offset if fits else None
                lead = 0
                found = self.pairs.get(pointer) or in_index(self.index, pointer)
                out.append(found or ERROR)
                if not found and is_from(0, 0x7F, byte):
                    queue.append(byte)
            elif byte < 0x80:
                out.append(chr(byte))
            elif is_from(0x81, 0xFE, byte):
                lead = byte
            else:
                out.append(ERROR)
        return "".join(out)


class EucJp:
    def __init__(self, as_chromium):
        self.tables, self.as_chromium = (index("jis0208"), index("jis0212")), as_chromium

    def decode(self, page):
        queue, out, lead, jis0212 = list(reversed(page)), [], 0, False
        while queue or lead:
            byte = queue.pop() if queue else END
            if lead == 0x8E and is_from(0xA1, 0xDF, byte):
                lead = 0
                out.append(chr(0xFF61 - 0xA1 + byte))
            elif lead == 0x8F and is_from(0xA1, 0xFE, byte):
                lead, jis0212 = byte, True
            elif lead:
                fits = is_from(0xA1, 0xFE, lead, byte)
                found = in_index(self.tables[jis0212], (lead - 0xA1) * 94 + byte - 0xA1) if fits else None
                lead = 0
                jis0212 = jis0212 and self.as_chromium and not fits
                out.append(found or ERROR)
                if not found and is_from(0, 0x7F, byte):
                    queue.append(byte)
            elif byte < 0x80:
                out.append(chr(byte))
            elif is_from(0x8E, 0x8F, byte) or is_from(0xA1, 0xFE, byte):
                lead = byte
            else:
                out.append(ERROR)
        return "".join(out)


class Iso2022Jp:
    def __init__(self, as_chromium):
        self.index, self.as_chromium = index("jis0208"), as_chromium

    def decode(self, page):
        queue, out, self.untold = list(reversed(page)), [], 0
        self.state = self.output = "ASCII"
        self.lead, self.flag = 0, False
        while queue or self.state in ("trail byte", "escape start", "escape"):
            out.append(self.step(queue.pop() if queue else END, queue))
        return "".join(out)

    def step(self, byte, queue):
        """What a byte gives. Those that are restored go back to the queue."""
        is_untold, self.untold = self.untold == 1, max(0, self.untold - 1)
        if self.state == "escape start":
            return self.escape_start(byte, queue)
        if self.state == "escape":
            return self.escape(byte, queue)
        if self.state == "trail byte":
            given = self.trail(byte)
        elif byte == 0x1B:
            self.state = "escape start"
            return ""
        else:
            self.flag = False
            given = self.plain(byte)
        return "" if is_untold and given == ERROR else given

    def plain(self, byte):
        if self.state == "lead byte" and is_from(0x21, 0x7E, byte):
            self.lead, self.state = byte, "trail byte"
            return ""
        if self.state == "katakana":
            return chr(0xFF61 - 0x21 + byte) if is_from(0x21, 0x5F, byte) else ERROR
        if self.state == "Roman" and byte in (0x5C, 0x7E):
            return "\u00a5" if byte == 0x5C else "\u203e"
        return chr(byte) if self.state != "lead byte" and is_from(0, 0x7F, byte) and byte not in (0x0E, 0x0F) else ERROR

    def trail(self, byte):
        self.state = "escape start" if byte == 0x1B else "lead byte"
        pointer = (self.lead - 0x21) * 94 + byte - 0x21 if is_from(0x21, 0x7E, byte) else None
        return in_index(self.index, pointer) or ERROR

    def escape_start(self, byte, queue):
        if byte in (0x24, 0x28):
            self.lead, self.state = byte, "escape"
            return ""
        if byte is not END:
            queue.append(byte)
        self.flag, self.state = False, self.output
        return ERROR

    def escape(self, byte, queue):
        sequence = bytes([self.lead]) + (b"" if byte is END else bytes([byte]))
        if sequence in ESCAPES:
            self.state = self.output = ESCAPES[sequence]
            was_up, self.flag = self.flag, True
            return ERROR if was_up else ""
        self.flag, self.state = False, self.output
        if self.as_chromium and byte is END:
            self.state = "ASCII"
            return ERROR + chr(self.lead)
        queue.extend(reversed(sequence))
        self.untold = 2 if self.as_chromium else 0
        return ERROR


DECODERS = {"big5": Big5, "euc-jp": EucJp, "iso-2022-jp": Iso2022Jp}
