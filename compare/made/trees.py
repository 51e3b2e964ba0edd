"""Made-up pages and fragments of which trees are built: tags in any order, with little between them."""

NAMES = """a b i u nobr font p div span li dd dt ul dl h1 h2 pre listing address table caption colgroup col tbody thead tr td th form
button input select option optgroup textarea hr br img wbr param ruby rb rt rp rtc svg math mi mtext annotation-xml mglyph g desc
title foreignObject style script noscript template html head body frameset frame noframes iframe noembed object marquee xmp search
section details center plaintext base link meta image keygen foo""".split()
COMMON = "a b i p div table tr td tbody li select option template svg".split()
CONTEXTS = "div body html head p td tr tbody table caption colgroup select option template frameset form title style noscript".split()
CONTEXTS += ["svg g", "svg desc", "svg title", "math math", "math mi", "math annotation-xml"]
KEYS = ["", "", "", " id=x", " class=a", "/", " type=hidden", " color=r", " encoding=text/html"]
BETWEEN = ["x", " ", "y z", "\n", "&amp;", "<!--c-->", "<![CDATA[q>r]]>", "<!doctype html>", "</>", "<!x>"]
DOCTYPES = ["<!doctype html>", "", '<!DOCTYPE html PUBLIC "-//W3C//DTD HTML 3.2//EN">']


def page_or_fragment(chance):
    """A page or a fragment of tags in any order, its context, and whether scripting is on."""
    context = chance.choice(CONTEXTS) if chance.random() < 0.3 else None
    parts = [] if context else [chance.choice(DOCTYPES)]
    for _ in range(chance.randint(2, 16)):
        name, draw = chance.choice(NAMES if chance.random() < 0.5 else COMMON), chance.random()
        if draw < 0.55:
            parts.append(f"<{name}{chance.choice(KEYS)}>")
        else:
            parts.append(f"</{name}>" if draw < 0.8 else chance.choice(BETWEEN))
    return "".join(parts), context, chance.random() < 0.2


def whole_page(chance):
    """A page that is made up, to be read with scripting off."""
    while True:
        page, context, _ = page_or_fragment(chance)
        if context is None:
            return page


def rough(chance, pieces):
    """Tags in any order, and pieces put in at any place."""
    page = whole_page(chance)
    for _ in range(chance.choice([0, 0, 1, 1, 2, 4])):
        at = chance.randrange(len(page) + 1)
        page = page[:at] + chance.choice(pieces) + page[at + chance.choice([0, 0, 0, 1, 3]) :]
    return page


def cuts(chance, count):
    """So many pages: one cut at each place, and others after it."""
    found = []
    while len(found) < count:
        page = whole_page(chance)
        found += [page[:end] for end in range(len(page) + 1)]
    return found[:count]
