"""Made-up pages of tags in any order."""

TAGS = (
    """a abbr address applet article b body br button caption col colgroup dd div dl dt em fieldset font foreignobject form frame h1
    h2 h3 head header hr html i iframe img input li link listing main math menu meta nobr object ol optgroup option p path
    plaintext pre rb rp rt rtc ruby script section select span style svg table tbody td template textarea tfoot th thead title tr
    u ul x-y"""
).split()


def tag_soup(chance):
    """Tags in any order, with little between them."""
    pieces = []
    for _ in range(chance.randrange(1, 16)):
        name = chance.choice(TAGS)
        kind = chance.random()
        if kind < 0.55:
            pieces.append(f"<{name}" + chance.choice([">", ">", ">", " a=b>", "/>", " id=x ID='y'>"]))
        elif kind < 0.9:
            pieces.append(f"</{name}>")
        else:
            pieces.append(chance.choice(["x", " ", "\n", "&amp;", "<!--c-->", "\0", "&#32;", "\r"]))
    return "".join(pieces)
