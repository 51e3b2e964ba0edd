"""Made-up pages of six kinds, which a seed determines: the same bytes for the same seed and size."""
import os

WORDS = (
    "the of and a to in is it you that he was for on are with as his they be at one have this from or had by hot word but what "
    "some we can out other were all there when up use your how said an each she which do their time if will way about many then "
    "find Größe café naïve 東京 10&nbsp;€ &amp; market government election Überblick"
).split(" ")
NAMES = (
    "alloc buffer cmp decode entry fold get_mut hash iter join len map next_back parse read_exact split take zip"
).split(" ")


class Numbers:
    """Numbers that a seed determines."""

    def __init__(self, seed):
        self.state = seed

    def below(self, bound):
        self.state = (self.state * 6364136223846793005 + 1442695040888963407) % (1 << 64)
        return (self.state >> 33) % bound

    def one(self, items):
        return items[self.below(len(items))]

    def sentence(self, words):
        return (" ".join(self.one(WORDS) for _ in range(words)) + ".").capitalize()

    def paragraph(self, sentences):
        return " ".join(self.sentence(6 + self.below(12)) for _ in range(sentences))


def news(numbers, place):
    """An article of a page of news."""
    yield '<article id="article-%d" class="card story%s" data-id="%d">\n' % (place, " lead" if place % 9 == 1 else "", 10000 + place)
    yield '  <h2 class="headline"><a class="link" href="https://news.example/%d/story-%d?ref=home">%s</a></h2>\n' % (
        2020 + numbers.below(6), place, numbers.sentence(7))
    yield '  <p class="meta">By <span class="author">%s</span> <time datetime="2026-11-%02d">%d hours ago</time></p>\n' % (
        numbers.one(["Ann Lee", "Zoë Müller"]), 1 + numbers.below(28), 1 + numbers.below(23))
    yield '  <figure><img src="/img/%d.jpg" alt="%s" width="640" loading=lazy><figcaption>%s</figcaption></figure>\n' % (
        place, numbers.sentence(4), numbers.sentence(6))
    for _ in range(1 + numbers.below(4)):
        yield '  <p>%s <b>%s</b><br>\n%s <a href="/topic/%s" class="link topic">%s</a></p>\n' % (
            numbers.paragraph(2), numbers.one(WORDS), numbers.paragraph(2), numbers.one(["eu", "un"]), numbers.one(WORDS))
    if numbers.below(5) == 0:
        yield '  <!-- ad slot %d -->\n  <div class="ad" id="ad-%d"><iframe src="//ads.example/%d" width=300 allowfullscreen></iframe></div>\n' % (
            place, place, place)
    yield '  <ul class="tags">%s</ul>\n</article>\n' % "".join('<li><a rel="tag" href="/tag/%s">%s</a>' % (w, w) for w in ("one", "two"))


def table(numbers, place):
    """A row of a table."""
    yield '<tr class="row%s"><td class="num">%d</td><td>%s %s</td><td align=right>%d.%02d</td><td>%s</td></tr>\n' % (
        " odd" if place % 2 else "", place, numbers.one(WORDS), numbers.one(WORDS), numbers.below(100000), numbers.below(100),
        numbers.one(["", "-", "ok", "n/a", numbers.sentence(3)]))


def links(numbers, place):
    """An item of a list of links, whose tags have many attributes."""
    yield ('<li id="li%d" class="item link k%d"><a id=a%d class="link ext" href="https://example.org/path/%d/page?id=%d&amp;ref=%s#frag" '
           'title="%s" target="_blank" rel=\'noopener nofollow\' data-index=%d data-kind="%s" data-hidden aria-label="%s" tabindex=0 '
           'draggable>%d</a></li>\n') % (
        place, place % 17, place, numbers.below(1000), place, numbers.one(["home", "mail"]), numbers.sentence(4), place,
        numbers.one(["x", "y", "z"]), numbers.sentence(3), place)


def text(numbers, place):
    """A paragraph of a book, or the head of a chapter."""
    if place % 40 == 0:
        yield '<h2 id="ch%d">Chapter %d</h2>\n' % (place // 40, place // 40)
    else:
        yield "<p>" + numbers.paragraph(8 + numbers.below(20)) + "</p>\n"


def literal(name):
    """A name as code stands among words."""
    return '<code class="docutils literal notranslate"><span class="pre">%s</span></code>' % name


def passage(numbers):
    """A sentence that names code, linked or not, and one or two more."""
    name = numbers.one(NAMES)
    link = '<a class="fn" href="fn.%s.html" title="fn core::%s">%s</a>' % (name, name, literal(name))
    code = numbers.one(["<code>%s</code>" % name, literal(name), link])
    return "The %s %s" % (code, numbers.paragraph(1 + numbers.below(2)).lower())


def code(numbers):
    """A block of code: each token stands in a span of one class."""
    yield '<div class="highlight"><pre>'
    for _ in range(2 + numbers.below(40)):
        for _ in range(1 + numbers.below(6)):
            yield '<span class="%s">%s</span>' % (numbers.one(["k", "n", "nb", "mi", "s1"]), numbers.one(NAMES))
            yield '<span class="%s">%s</span>' % (numbers.one(["o", "p", "w"]), numbers.one([".", "(", " &lt; ", " = "]))
        yield "\n"
    yield "</pre></div>\n"


def contents(numbers, depth=2):
    """A list of links, with lists of links in it."""
    yield "<ul>"
    for _ in range(2 + numbers.below(4)):
        name = "%s-%s" % (numbers.one(NAMES), numbers.one(NAMES))
        yield '<li><a class="reference internal" href="#%s">%s</a>' % (name, numbers.one([name, literal(name)]))
        if depth > 0 and numbers.below(3) == 0:
            yield from contents(numbers, depth - 1)
        yield "</li>"
    yield "</ul>\n"


def items(numbers):
    """What a module has: names that may be broken between their words, the feature that each wants, and a passage on it."""
    yield '<dl class="item-table">'
    for _ in range(4 + numbers.below(8)):
        name, feature = "_".join(numbers.one(NAMES) for _ in range(4)), numbers.one(NAMES)
        yield '<dt><a class="fn" href="fn.%s.html" title="fn core::arch::%s">%s</a><wbr>' % (
            name, name, name.replace("_", "_<wbr>"))
        yield '<span class="stab portability" title="Available with feature `%s` only"><code>%s</code></span></dt>' % (
            feature, feature)
        yield "<dd>%s</dd>" % passage(numbers)
    yield "</dl>\n"


def manual(numbers, place):
    """A section of a manual: a heading with its anchor, a short paragraph, and one of the blocks above."""
    name, level = "%s-%d" % (numbers.one(NAMES), place), 2 + place % 3
    yield '<section id="%s"><h%d>%s<a class="headerlink" href="#%s" title="Link to this">¶</a></h%d>\n' % (
        name, level, name, name, level)
    yield "<p>%s</p>\n" % passage(numbers)
    block = numbers.one(6 * [items] + 4 * [contents] + [code])
    yield from block(numbers)
    yield "</section>\n"


def deep(numbers, size):
    """Tags in one another, each the only one of its parent."""
    depth = max(1, size // 41)
    for place in range(depth):
        yield '<div class="level l%d" id="d%d">%s' % (place % 10, place, numbers.one(["", "\n", "x ", "<br>"]))
    yield "<p>bottom</p>"
    for place in range(depth):
        yield "</div>" + numbers.one(["", "\n"])


def manual_head():
    """A head as manuals have it: fonts, sheets of style and scripts, each in a tag of its own."""
    yield '<meta charset="utf-8"><title>Manual</title>\n'
    for name in ("viewport", "generator", "description", "keywords", "theme-color"):
        yield '<meta name="%s" content="%s of the manual">\n' % (name, name)
    for name in NAMES[:9]:
        yield '<link rel="preload" as="font" type="font/woff2" crossorigin href="../static/%s.woff2">\n' % name
    for name in NAMES[:5]:
        yield '<link rel="stylesheet" type="text/css" href="../static/%s.css">\n' % name
    for name in NAMES[:6]:
        yield '<script defer src="../static/%s.js"></script>\n' % name


def long_page(part, head="<title>Page</title>"):
    """A page of so many parts as its size takes."""

    def pieces(numbers, size):
        yield '<!DOCTYPE html><html lang="en"><head>%s</head>\n<body class="home page">\n' % head
        made = place = 0
        while made < size:
            for piece in part(numbers, place):
                made += len(piece.encode())
                yield piece
            place += 1
        yield "</body></html>\n"

    return pieces


# A kind's numbers come of its place too, so a new kind comes last.
KINDS = {
    "news": long_page(news),
    "deep": deep,
    "table": long_page(table),
    "links": long_page(links),
    "text": long_page(text),
    "manual": long_page(manual, "".join(manual_head())),
}


def size_of(word):
    return int(word[:-1]) * {"K": 1000, "M": 1000000}[word[-1]]


def page(folder, seed, kind, size):
    """The file of a page, which is made if it isn't there."""
    file = f"{folder}/{kind}-{size}-{seed}.html"
    if not os.path.exists(file):
        numbers = Numbers(seed * 100 + list(KINDS).index(kind))
        with open(file + ".new", "w", encoding="utf-8", newline="") as out:
            out.writelines(KINDS[kind](numbers, size_of(size)))
        os.rename(file + ".new", file)
    return file
