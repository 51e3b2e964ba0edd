"""Pages, and selectors with pages, that aim at more than linear time. Each is made at a size."""
import re


def number(form, size):
    """The form with each number from 0 on."""
    made, length = [], 0
    while length < size:
        made.append(form.replace("%", str(len(made))))
        length += len(made[-1])
    return "".join(made)


def repeat(piece, size):
    return piece * (size // len(piece))


# What is repeated.
REPEATED = (
    "<", ">", "< ", "<>", "<a", "<a ", "<a>", "<a><b>", "<a b", "<a b=", "<a b='", "<a b=\"", "<a b=c", "<a ='",
    "</", "</ ", "</a", "</a>", "</a ", "<a></a", "<a></b>", "<a></a>", "<br>", "<br></br>", "<a/>", "<a/", "<a /",
    "<!", "<!-", "<!--", "<!-->", "<!--->", "<!-- -->", "<!-- --", "<!doctype", "<!doctype html>",
    "<!doctype htmlé>", "<!a", "x<b>y</b>", "&lt;", "\t", "\n<p>", "\0", "é", "<é>", "<p class=k id=i>",
    "<p id=i>x", "<p a=1 b=2 c=3 d=4>",
)
# What stands in front, what is repeated after it, and what comes at the end.
FRAMED = (
    ("<p", " ", ""), ("<p", " ", ">"), ("<", " ", "p>"), ("</", " ", "p>"), ("<p", "\t", ">"), ("<p", "\n", ">"),
    ("<p a", " ", "=b>"), ("<p a=", " ", "'b'>"), ("<p ", "'", ">"), ("<p ", '"', ">"), ("<p ", "/", ">"),
    ("<p ", "a ", ">"), ("<p ", "a=b ", ">"), ("<p ", "a= ", ">"), ("<p ", "= ", ">"), ("<p a='", "<b>", ""),
    ("<p a='", '"', "'>"), ("<p ", "a='b'", ">"), ("<", "p", ">"), ("</", "p", ">"), ("<p ", "a", ">"),
    ("<!", " ", "--a-->"), ("<!--", "-", ""), ("<!--", "->", ""), ("<!--", "--!>", ""), ("<!doctype", " ", "html>"),
    ("<!", "a", ">"), ("<p class='", "k ", "'>"), ("<p class='", "k l ", "'>"), ("<p class='", " ", "k'>"),
    ("<p class='", "k", "'>"), ("<p id='", "i", "'>"),
)
# What is numbered, between two texts.
NUMBERED = (
    ("", "<a%>", ""), ("", "<a%></a%>", ""), ("<p ", "a% ", ">"), ("<p ", "a%=b ", ">"), ("<p ", "a%='b'", ">"),
    ("<p class='", "k% ", "'>"), ("", "<p class=k%>", ""), ("", "<br id=i%>", ""),
)
# What stands in front of a page that is read into its tree, what is repeated after it, and what comes at the end.
FRAMED_IN_TREES = (
    ("", "&", ""), ("", "&a", ""), ("", "&nz", ""), ("", "&Nou", ""), ("", "&#x", ""), ("<a b='", "&amp;", ""),
    ("", "<", ""), ("", "<a b=\"", ""), ("", "<a b='", ""), ("<a b=\"", "x", ""), ("", "<li>", ""), ("", "<ul><li>", ""),
    ("", "<p>", ""), ("", "</p>", ""), ("", "<b>", ""), ("", "<svg>", ""), ("<svg>", "<a/>", ""), ("", "<table>", ""),
    ("", "<td>", ""), ("", "<option>", ""), ("<ruby>", "<rt>", ""), ("<p ", "a ", ">"), ("<p a=\"", "\r", "\">"),
    ("<!--", "-", ""), ("<script>", "<", ""), ("<script>", "<!--<script>", ""), ("<title>", "</", ""), ("", "\0", ""),
    ("<pre>", "\n", ""), ("", "<A\0>", ""),
)

TWENTY = "".join(f"<b x={it}>" for it in range(20))
# The same of pages that are read into trees: what stands once and what is repeated, by turns.
TREED = (
    ("", "<div>"), ("", "<b>"), ("", "<b x=%>"), ("", "<b x=%>", "", "</i>"), ("", "<b x=%>", "", "<p>x"),
    ("<p>", "<b x=%>", "</p>", "<p>x</p>"), ("", "<font size=1 color=%>x"), ("", "<p><b x=%>"), ("", "<p><b>x</p>"), ("", "<a href=x>x"), ("", "<a href=x><div>x"),
    ("<b>", "<div>", "", "</b>"), ("<b>", "<div><span>", "", "</b>"), ("", "<i><p>", "", "</i>"), ("", "<b><i><div>", "", "</b></i>"),
    ("<table><b>", "<div>", "", "</b>"), ("<b>", "<div><i x=%>", "", "</b>"), ("<b>", "<div><i x=%><u y=%>", "", "</b>"),
    ("<table><b>", "<div><i x=%>", "", "</b>"), ("", "<b x=%><i y=%>", "", "<div>", "", "</b></i>"),
    ("", "<b x=%><q>", "", "<div><i x=%>", "", "</b>"), ("", "<b x=%>", "", "<q>", "<div>", "</b>"),
    ("", "<span>", "", "</x>"), ("<x><div>", "<span>", "", "</x>"), ("", "<span>", "<div>", "</span>"), ("", "<x%>", "", "</y%>"),
    ("", "<x%>", "", "</x%>"), ("", "<x%></x%>"), ("<x><div>", "<x%>", "", "</x>"), ("<svg>", "<x%>", "", "</y%>"),
    ("<svg>", "<lineargradient><x%>", "", "</lineargradient>"),
    ("", "<div>", "", "</p>"), ("", "<div>", "", "</section>"), ("", "<div>", "", "<svg/>"), ("", "<div>", "", "<table></table>"),
    ("", "<dl><dd>"), ("", "<ul><li>"), ("", "<dd><span>"), ("", "<p><span>"), ("", "<nobr>x"), ("", "<form><div></form>"),
    ("", "<object><b>", "", "</b>"), (f"{TWENTY}", "<p>x</p>"), (f"<p>{TWENTY}", "<p>x"), ("<select>", "<option>x"), ("", "<select><div>"),
    ("", "<table><tr><td>"), ("<table>", "a<tr>"), ("<table>", "x&amp;<td>&amp;</td></tr>"), ("<table>", "<a>x"), ("", "<a><table>"),
    ("<table>", "<tr><td><b><p>x"), ("", "<table><caption>"), ("", "<template>"),
    ("<svg>", "<g>", "", "</y>"), ("", "<svg><desc><a>", "", "</y>"), ("", "<svg>", "", "</svg>"), ("<svg>", "<g>", "<desc>", "<a>x</a>"),
    ("<math><annotation-xml ", "x%=1 ", ">", "<!x>"), ("", "<html x%=1>"), ("<html ", "x%=1 ", ">", "<html x0=1>"), ("<body>", "<body x%=1>"),
    ("", "<html x%=1><body x%=1>"), ("<html ", "x%=1 ", "><html ", "y%=1 ", ">"), ("<html ", "x%=1 ", ">", "<html x%=1>"), ("<html x=1>", "<html x=1>"),
    ("<p ", "x%=1 ", ">"), ("<p ", "a%='&amp;' ", ">"), ("<p><b ", "x% ", "><b ", "x% ", "><b ", "x% ", ">"),
    ("", "&CounterClockwiseContourInt"), ("", "\rx"), ("", "<!--x--"), ("<script><!--<script>", "</scrip"), ("<title>", "</titl"),
)


def show(text):
    return repr(text)[1:-1]


def shorten(text):
    """A text as it is shown, or its beginning where it is long."""
    return show(text) if len(text) <= 40 else show(text[:16]) + ".."


def cross(size):
    """Tags in one another, and their end tags from the outermost on."""
    tags = number("<a%>", size // 2)
    return tags + tags.replace("<", "</")


def close(size):
    """The same with end tags from the innermost on."""
    tags = number("<a%>", size // 2)
    return tags + "".join(f"</{it[1:]}" for it in reversed(re.findall("<[^<]*", tags)))


def halves(first, second):
    return lambda size: repeat(first, size // 2) + repeat(second, size // 2)


def frame(front, it, end):
    return lambda size: front + repeat(it, size) + end


def number_between(front, it, end):
    return lambda size: front + number(it, size) + end


def by_turns(parts):
    """Parts that stand once, and parts that are repeated equally often, by turns. Numbers are those of the repetitions."""
    repeated = parts[1::2]

    def made(size):
        count = max(1, size // sum(len(it) for it in repeated))
        return "".join("".join(it.replace("%", str(at)) for at in range(count if place % 2 else 1)) for place, it in enumerate(parts))

    return made


def both_orders(size):
    """The same attributes of formatting elements, from the first on and from the last on."""
    keys = [f"x{it}" for it in range(size // 48)]
    return f"<p><b {' '.join(keys)}><b {' '.join(reversed(keys))}>" * 4


def pages():
    """What a page is, and how one of a size is made."""
    for it in REPEATED:
        yield f"{show(it)} again and again", frame("", it, "")
    for front, it, end in FRAMED:
        yield f"{show(front)}, {show(it)} again and again, {show(end)}", frame(front, it, end)
    for front, it, end in NUMBERED:
        yield f"{show(front)}, {show(it)} by numbers, {show(end)}", number_between(front, it, end)
    yield "open tags, then end tags of another name", halves("<a>", "</b>")
    yield "open tags, then their end tags", halves("<a>", "</a>")
    yield "open tags, then texts", halves("<a>", "x<br>")
    yield "open tags, then ends of comments", halves("<a>", "-->")
    yield "open tags of two names by turns, then end tags of the outer", halves("<a><b>", "</a>")
    yield "open tags by numbers, then end tags from the first on", cross
    yield "open tags by numbers, then end tags from the last on", close


def trees():
    """The same of pages that are read into trees."""
    for parts in TREED:
        yield ", ".join(shorten(it) + " again and again" * (at % 2) for at, it in enumerate(parts) if it), by_turns(parts)
    yield "attributes of formatting elements in both orders", both_orders
    for front, it, end in FRAMED_IN_TREES:
        yield f"{show(front)}, {show(it)} again and again, {show(end)}", frame(front, it, end)
    yield "attributes by numbers in one tag", number_between("<p ", "a% ", ">")
    yield "values by numbers in one tag", number_between("<p ", "A%='&amp;'", ">")
    yield "open tags, then end tags of another name", halves("<b>", "</x>")
    yield "open tags, then their end tags", halves("<b>", "</b>")
    yield "open svg, then paragraphs", halves("<svg>", "<p>")
    yield "open tags, then ends of paragraphs", halves("<b>", "</p>")
    yield "open tags by numbers, then end tags from the first on", cross


def searches():
    """Selectors that aim at a look at each place anew: what it is, the selector, and how a page is made."""
    long, words = frame("<p a='", "a", "'>"), frame("<p a='", "a" * 30000 + "b ", "'>")
    for op in "=", "~=", "^=", "$=", "*=":
        yield f"[a{op}aa..b] in a value of a", f"[a{op}{'a' * 30000}b]", long
        yield f"[a{op}baa..] in a value of a", f"[a{op}b{'a' * 30000}]", long
        yield f"[a{op}aa..c] in words of aa..b", f"[a{op}{'a' * 30000}c]", words
    yield ".aa.. in a class of a", f".{'a' * 30000}", frame("<p class='", "a", "'>")
    yield "'* * .. *' in open tags", "* " * 30 + "*", frame("", "<a>", "")
    yield "'*>*> .. *' in open tags", "*>" * 30 + "*", frame("", "<a>", "")
    yield "'q,q, .. q' in open tags", "q," * 30 + "q", frame("", "<a>", "")


# What each page that is walked ends in, so that each walk finds something.
LINK = "<a href='/q'><i>x</i></a>"


def walks():
    """Pages for commands that walk: what one is, and how it is made at a size."""
    yield "tags in one another", frame("", "<b>", LINK)
    yield "tags in one another that no policy lists", frame("", "<q0>", LINK)
    yield "a tag with many children", frame("<b>", "<u></u>", LINK)
    yield "a tag with many attributes", number_between("<p ", "a% ", ">" + LINK)
    paragraph = "<p>x y <b class=k>z</b><br><a href='/q'>w</a></p>\n"
    yield "a page of paragraphs", frame("", paragraph, LINK)


def tables():
    """Pages for commands that ask for a table."""
    yield "tables in one another", frame("", "<table><tr><td>", LINK)
    yield "a table of many rows", frame("<table>", "<tr><td>a<td>b</tr>", LINK)
    yield "a row of many cells", frame("<table><tr>", "<td>a", LINK)
    yield "a table of many sections", frame("<table>", "<tbody><tr><td>a</tbody>", LINK)


def size_of(word):
    """The bytes that a word as 100K or 4M says."""
    return int(word[:-1]) * {"K": 1000, "M": 1000000}[word[-1]]
