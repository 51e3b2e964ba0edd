"""Made-up bytes in an encoding: all that are of one or two, and others."""

UTF_16 = ("utf-16be", "utf-16le")
GB = ("gbk", "gb18030")
MULTI_BYTE = (*GB, "big5", "euc-jp", "iso-2022-jp", "shift_jis", "euc-kr")
# Of ISO-2022-JP: escape sequences, and what begins them.
ESCAPES = (b"\x1b(B", b"\x1b(J", b"\x1b(I", b"\x1b$@", b"\x1b$B", b"\x1b", b"\x1b$", b"\x1b(", b"\x1b(Z")
TO_ASCII, TO_PAIRS = b"\x1b(B", b"\x1b$B"
# Of gb18030: pointers of four bytes, of which those of the first plane end here.
FIRST_PLANE, POINTERS = 39421, 1237576
# Of UTF-16: characters, and both kinds of surrogates.
UNITS = (0x41, 0xE9, 0x20AC, 0xFFFD, 0xFFFE, 0xD800, 0xD83D, 0xDBFF, 0xDC00, 0xDE00, 0xDFFF, 0xE000, 0xD7FF)
# Of UTF-8: bytes at the bounds of what may stand first, second and later.
BYTES = (0x41, 0x7F, 0x80, 0x8F, 0x90, 0x9F, 0xA0, 0xBF, 0xC0, 0xC1, 0xC2, 0xDF, 0xE0, 0xE1, 0xEC, 0xED, 0xEE, 0xEF, 0xF0, 0xF1, 0xF4, 0xF5, 0xFF)


def coded(label, text):
    """ASCII in an encoding."""
    return text.encode(label) if label in UTF_16 else text.encode()


def four_bytes(pointer):
    """The bytes of a pointer of gb18030."""
    return bytes([0x81 + pointer // 12600, 0x30 + pointer // 1260 % 10, 0x81 + pointer // 10 % 126, 0x30 + pointer % 10])


def part(label, chance):
    """Bytes of an encoding of several bytes that belong together, or begin to."""
    if label == "iso-2022-jp" and chance.randrange(2):
        return chance.choice(ESCAPES)
    if label == "iso-2022-jp":
        return bytes(chance.randrange(0x20, 0x80) for _ in range(chance.randrange(1, 4)))
    if label in GB and not chance.randrange(3):
        return four_bytes(chance.choice((chance.randrange(FIRST_PLANE), chance.randrange(POINTERS))))[: chance.choice((4, 4, 3, 2))]
    if label == "euc-jp" and not chance.randrange(3):
        return bytes([chance.choice((0x8E, 0x8F)), chance.randrange(0xA0, 0x100), chance.randrange(0x90, 0x100)])
    return bytes([chance.randrange(0x80, 0x100), chance.randrange(0x30, 0x100)])


def made_of_parts(label, chance):
    whole = b"".join(part(label, chance) if chance.randrange(4) else bytes([chance.randrange(256)]) for _ in range(chance.randrange(7)))
    return whole[:12]


def entries(label, chance):
    """Bytes of each entry of the indexes of an encoding of several bytes."""
    pairs = [bytes([a, b]) for a in range(0x80, 0x100) for b in range(256)]
    if label == "iso-2022-jp":
        return [TO_PAIRS + bytes([a, b]) for a in range(0x20, 0x80) for b in range(0x20, 0x80)]
    if label == "euc-jp":
        return pairs + [b"\x8f" + it for it in pairs]
    if label in GB:
        some = [chance.randrange(FIRST_PLANE, POINTERS + 100) for _ in range(5000)]
        return pairs + [four_bytes(it) for it in [*range(FIRST_PLANE), *some]]
    return pairs


def made(label, chance):
    """Up to twelve bytes: of UTF-16 whole code units."""
    if label in MULTI_BYTE:
        return made_of_parts(label, chance)
    if label in UTF_16:
        units = (chance.choice(UNITS) if chance.randrange(3) else chance.randrange(0x10000) for _ in range(chance.randrange(7)))
        return b"".join(it.to_bytes(2, "big" if label == "utf-16be" else "little") for it in units)
    pool = BYTES if label == "utf-8" else range(256)
    return bytes(chance.choice(pool) if chance.randrange(4) else chance.randrange(256) for _ in range(chance.randrange(13)))


def inputs(label, most, chance):
    """The pages of an encoding without their front."""
    end = coded(label, "\n") if label != "iso-2022-jp" else TO_ASCII + b"\n"
    ones = [bytes([it]) for it in range(256)]
    if label in UTF_16:
        ones = [it + bytes([at]) for it in ones for at in range(0, 256, 3)]
    listed = entries(label, chance) if label in MULTI_BYTE else []
    rows = ones + listed + [made(label, chance) for _ in range(most)]
    pages = [end.join(rows[at:at + 20000]) for at in range(0, len(rows), 20000)]
    odd = [made(label, chance) + (bytes([chance.randrange(256)]) if chance.randrange(2) else b"") for _ in range(200)]
    return pages + odd
