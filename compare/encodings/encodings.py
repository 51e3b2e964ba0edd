"""Compares the text that `tl` makes of bytes in an encoding with what Chromium's TextDecoder makes of them.

    ./x compare encodings [--program FILE] [--inputs N] [--seed N] [--labels LABEL,..]

Of each encoding: all inputs of one byte, and N made-up ones (100,000) of up to twelve bytes, one behind the other in a few pages; of
UTF-16 those are code units of all kinds, of UTF-8 bytes that begin and go on characters and others, of encodings of several bytes such
runs of bytes, escape sequences among them. Of the latter also all of two bytes, and of three behind the byte 0x8F of EUC-JP: each entry
of each index; and the four bytes of each pointer of gb18030 in the first plane, and of some thousand beyond. Then 200 inputs in pages of
their own, since what counts at the end of bytes counts there alone. So is each label of the standard, with bytes that tell its encoding.
Of replacement, which Chromium's decoder doesn't take, each label gives one U+FFFD. Where Chromium differs from the standard, as
decoders.py says, and decodes a page just as it is said there, the page is compared with the standard's decoder of that file.

Status: 0 where nothing differs, 1 where something does, 2 for words that aren't understood.
"""
import os
import random
import subprocess
import tempfile

from tools.unproved import unproved_build

from ..chromium import all_answers, chromium, version
from ..made.encoded import coded, inputs
from .decoders import DECODERS

# Labels of the standard, an encoding a line, its own name first; those of replacement, which Chromium's decoder doesn't take, apart.
LABELS = """
utf-8 utf8 unicode-1-1-utf-8 unicode11utf8 unicode20utf8 x-unicode20utf8
ibm866 866 cp866 csibm866
iso-8859-2 csisolatin2 iso-ir-101 iso8859-2 iso88592 iso_8859-2 iso_8859-2:1987 l2 latin2
iso-8859-3 csisolatin3 iso-ir-109 iso8859-3 iso88593 iso_8859-3 iso_8859-3:1988 l3 latin3
iso-8859-4 csisolatin4 iso-ir-110 iso8859-4 iso88594 iso_8859-4 iso_8859-4:1988 l4 latin4
iso-8859-5 csisolatincyrillic cyrillic iso-ir-144 iso8859-5 iso88595 iso_8859-5 iso_8859-5:1988
iso-8859-6 arabic asmo-708 csiso88596e csiso88596i csisolatinarabic ecma-114 iso-8859-6-e iso-8859-6-i iso-ir-127 iso8859-6 iso88596 iso_8859-6 iso_8859-6:1987
iso-8859-7 csisolatingreek ecma-118 elot_928 greek greek8 iso-ir-126 iso8859-7 iso88597 iso_8859-7 iso_8859-7:1987 sun_eu_greek
iso-8859-8 csiso88598e csisolatinhebrew hebrew iso-8859-8-e iso-ir-138 iso8859-8 iso88598 iso_8859-8 iso_8859-8:1988 visual
iso-8859-8-i csiso88598i logical
iso-8859-10 csisolatin6 iso-ir-157 iso8859-10 iso885910 l6 latin6
iso-8859-13 iso8859-13 iso885913
iso-8859-14 iso8859-14 iso885914
iso-8859-15 csisolatin9 iso8859-15 iso885915 iso_8859-15 l9
iso-8859-16
koi8-r cskoi8r koi koi8 koi8_r
koi8-u koi8-ru
macintosh csmacintosh mac x-mac-roman
windows-874 dos-874 iso-8859-11 iso8859-11 iso885911 tis-620
windows-1250 cp1250 x-cp1250
windows-1251 cp1251 x-cp1251
windows-1252 ansi_x3.4-1968 ascii cp1252 cp819 csisolatin1 ibm819 iso-8859-1 iso-ir-100 iso8859-1 iso88591 iso_8859-1 iso_8859-1:1987 l1 latin1 us-ascii x-cp1252
windows-1253 cp1253 x-cp1253
windows-1254 cp1254 csisolatin5 iso-8859-9 iso-ir-148 iso8859-9 iso88599 iso_8859-9 iso_8859-9:1989 l5 latin5 x-cp1254
windows-1255 cp1255 x-cp1255
windows-1256 cp1256 x-cp1256
windows-1257 cp1257 x-cp1257
windows-1258 cp1258 x-cp1258
x-mac-cyrillic x-mac-ukrainian
gbk chinese csgb2312 csiso58gb231280 gb2312 gb_2312 gb_2312-80 iso-ir-58 x-gbk
gb18030
big5 big5-hkscs cn-big5 csbig5 x-x-big5
euc-jp cseucpkdfmtjapanese x-euc-jp
iso-2022-jp csiso2022jp
shift_jis csshiftjis ms932 ms_kanji shift-jis sjis windows-31j x-sjis
euc-kr cseuckr csksc56011987 iso-ir-149 korean ks_c_5601-1987 ks_c_5601-1989 ksc5601 ksc_5601 windows-949
utf-16be unicodefffe
utf-16le csunicode iso-10646-ucs-2 ucs-2 unicode unicodefeff utf-16
x-user-defined
"""
REPLACEMENT = """
replacement csiso2022kr hz-gb-2312 iso-2022-cn iso-2022-cn-ext iso-2022-kr
"""
# Bytes that tell each single-byte encoding from the others.
TELLING = bytes(range(0x80, 0x100))
# Pages begin so, that all that follows is text.
FRONT = "<plaintext>"
BATCH = 400
def text_of(program, label, page, room):
    """What `tl` makes of a page, whose front lets nothing be markup."""
    file = os.path.join(room, "page")
    with open(file, "wb") as it:
        it.write(coded(label, FRONT) + page)
    run = subprocess.run([program, "text", "--encoding", label, file], stdout=subprocess.PIPE, stderr=subprocess.PIPE, check=False)
    return run.stdout if run.returncode == 0 else f"status {run.returncode}: {run.stderr.decode(errors='replace')}".encode()


def as_text(decoded):
    """What a page's reader makes of characters: a line feed of each end of a line, U+FFFD of NUL."""
    text = bytes.fromhex(decoded).decode().replace("\r\n", "\n").replace("\r", "\n").replace("\0", "\ufffd")
    return text.encode()


def first_difference(ours, theirs):
    at = next((it for it, (a, b) in enumerate(zip(ours, theirs)) if a != b), min(len(ours), len(theirs)))
    return f"at byte {at}: {ours[max(0, at - 9):at + 9]!r}, and Chromium {theirs[max(0, at - 9):at + 9]!r}"


def by_the_standard(label, page, digits):
    """What Chromium decodes, and what the standard's decoder does where Chromium's is known to differ."""
    decoder = DECODERS.get(label)
    if decoder and decoder(as_chromium=True).decode(page).encode().hex() == digits:
        return decoder(as_chromium=False).decode(page).encode().hex()
    return digits


def compared(program, pairs, browser, room):
    """How many pages of pairs of a label and bytes are decoded otherwise."""
    differ = 0
    answers = all_answers(browser, "encodings/encodings.html", [(label, page.hex()) for label, page in pairs], BATCH)
    for (label, page), digits in zip(pairs, answers):
        ours, theirs = text_of(program, label, page, room), as_text(by_the_standard(label, page, digits))
        if ours != theirs:
            differ += 1
            print(f"{label}: {page[:40]!r} ({len(page)} bytes): {first_difference(ours, theirs)}", flush=True)
    return differ


def main(parser, words):
    parser.add_argument("--program", metavar="FILE", help="`tl`; else it is built unproved")
    parser.add_argument("--inputs", type=int, default=100000, metavar="N")
    parser.add_argument("--seed", type=int, default=1, metavar="N")
    parser.add_argument("--labels", metavar="LABEL,..")
    given = parser.parse_args(words)
    program, browser, chance = os.path.abspath(given.program or unproved_build("tl")), chromium(), random.Random(given.seed)
    rows = [line.split() for line in LABELS.strip().splitlines()]
    wanted = given.labels.split(",") if given.labels else [own for own, *_ in rows]
    differ = 0
    with tempfile.TemporaryDirectory() as room:
        for own in wanted:
            pages = inputs(own, given.inputs, chance)
            found = compared(program, [(own, it) for it in pages], browser, room)
            print(f"{own}: {given.inputs} inputs, of which {found} pages differ", flush=True)
            differ += found
        if not given.labels:
            labels = [(it, TELLING) for row in rows for it in row]
            found = compared(program, labels, browser, room)
            print(f"{len(labels)} labels, of which {found} mean another encoding", flush=True)
            for label in REPLACEMENT.split():
                found += text_of(program, label, b"", room) != "\ufffd".encode()
            differ += found
    print(f"{version(browser)}: {differ} pages differ")
    return 1 if differ else 0
