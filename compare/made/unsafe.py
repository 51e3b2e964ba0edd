"""Made-up pages of pieces of such pages as attack a browser."""

# Pieces of pages: tags that end and begin where they should not, names in any case, references, controls, raw texts, links.
PIECES = [
    "<script>steal()</script>", "<ScRiPt>steal()</sCrIpT>", "<script", "</script>", "<style>", "</style>", "<title>", "</title>", "<textarea>",
    "</textarea>", "<noscript>", "</noscript>", "<xmp>", "</xmp>", "<iframe>", "</iframe>", "<plaintext>", "<svg>", "</svg>", "<math>",
    "</math>", "<mtext>", "<mglyph>", "<desc>", "<foreignObject>", "<template>", "</template>", "<select>", "</select>", "<option>",
    "<table>", "<tr>", "<td>", "</table>", "<form>", "</form>", "<button>", "<p>", "</p>", "<P>", "<a href='", "<a href=\"", "</a>", "<b>",
    "</b>", "<B >", "<div>", "</div>", "<div", "<br>", "<br/>", "<img src=x onerror=steal()>", "<img src=x onerror=\"steal()\">",
    "<img/src=x/onerror=steal()>", "<svg/onload=steal()>", "<IMG SRC=x ONERROR=steal()", "<p title='", "<p title=\"", "<p title=`", "'>", "\">", "`>",
    ">", "<", "</", "/>", "=", "\"", "'", "`", " ", "\n", "\t", "\f", "\r", "\0", "\x1b$@", "\x1b(B", "\x1b(J", "<!--", "-->", "--!>", "<!-->", "<!", "<!x>",
    "<?x", "<![CDATA[", "]]>", "<!DOCTYPE html>", "javascript:steal()", "JAVASCRIPT:steal()", "java\tscript:steal()", "&#106;avascript:steal()",
    "&#x6A;avascript&colon;steal()", "java&Tab;script:steal()", "java&NewLine;script:steal()", "\x01javascript:steal()", "data:text/html,x",
    "https://e/", "//e/", "/x", "#x", "&lt;", "&gt;", "&quot;", "&amp;", "&#0;", "&lt;img src=x onerror=steal()&gt;", " onerror=steal() ",
    " onclick=\"steal()\"", " href=javascript:steal()", " style=x", " rel=x", " id=body", " class=user-x", " class='language-c++ x\tlanguage-'", " class=\"hljs\0 xlanguage-a\"", " id=\"user-y\"", " title=z", " src=/y",
    "x", "text", "é", "東", "\u2028", "</p title=\">", "<p<img>", "< img src=x onerror=steal()>", "<li>", "<ul>", "</ul>", "<h1>", "</h1>",
]


def unsafe(chance):
    return "".join(chance.choice(PIECES) for _ in range(chance.randint(1, 14)))
