"""Pieces of markup that are hard to read, and pages of such pieces."""

PIECES = (
    ["<", ">", "/", "&", '"', "'", "=", "!", "-", "--", "-->", "--!>", "<!--", "<!", " ", "\n", "\t", "\f", "a", "B", "x", "#", ";", "0", "9"]
    + ["&#", "&#x", "&amp", "&amp;", "&lt", "&copy", "&notin", "&notit;", "&not", "&AElig", "&#128;", "&#x80", "&#0;", "&#xD800;"]
    + ["&#1114112;", "&#99999999999", "&hArr;", "&ngt", "é", "€", "<p", "</p", "<a href=", "<script>", "</script", "</SCRIPT>", "<script"]
    + ["<style>", "</style>", "<title>", "</title>", "</title ", "<textarea>", "</textarea>", "<plaintext>", "<xmp>", "</xmp>", "<!DOCTYPE"]
    + [" html", 'PUBLIC "', "<![CDATA[", "]]>", "<?", "</>", "</ ", "<br/>", "id=x", ' ID="y"', " class", "\0", "\r", "\r\n", "<svg>"]
    + ["@click", "(", "[x]", "$", "%", "\u00a0", "script", "<!--<script>", "<iframe>", "</iframe>", "<noscript>"]
)
# What is printed otherwise than it is read.
PRINTED = [
    "\u00a0", "&nbsp;", "&#160;", "\u00a9", "&lt;", "&gt;", "&amp;", "&quot;", '"', " a='<\">'", ' b="&lt;&amp;&nbsp;&quot;"', " c=\u00a0", "<br>", "</br>",
    "<img src=a>", "<input>", "<svg xlink:href=a xmlns=b xmlns:xlink=c xml:lang=d xml:x=e>", "<svg><image>", "<template>", "<script>", "<style>", "<noscript>",
    "<xmp>", "<iframe>", "<noembed>", "<noframes>", "<title>", "<textarea>", "<pre>\n", "<keygen>", "<param>", "<frame>", "<col>",
]  # fmt: skip


def pieced(chance, pages):
    """Pieces side by side, or a cut of one of these pages with pieces put in."""
    if pages and chance.random() < 0.5:
        page = chance.choice(pages)
        at = chance.randrange(len(page))
        text = page[at : at + chance.randrange(1, 80)]
        for _ in range(chance.randrange(4)):
            at = chance.randrange(len(text) + 1)
            text = text[:at] + chance.choice(PIECES) + text[at + chance.randrange(3) :]
        return text
    return "".join(chance.choice(PIECES) for _ in range(chance.randrange(1, 14)))
