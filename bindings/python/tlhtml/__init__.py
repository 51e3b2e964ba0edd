"""Pages of HTML, however broken: read as browsers read them, searched by selectors of CSS, and made safe to show.

>>> document = Document("<ul><LI><A HREF=/x?a=1&b>Bread &amp; butter</A><li>3 < 4")
>>> [(link["href"], link.text) for link in document.select("li > a")]
[('/x?a=1&b', 'Bread & butter')]
>>> sanitize("<p onclick=f()>I <3 <script>y</script>it")
'<p>I &lt;3 it</p>'
"""
from ._calls import version
from ._changes import edit, set_attribute, unset_attribute
from ._document import Document, Link, Node, join_url
from ._each import Edit
from ._errors import ChangeError, Error, OutOfProportion, PolicyError, SelectorError, TooLong
from ._policy import Lists, Policy, Removal, removed, sanitize
from ._selectors import Selector, css_escape

__all__ = [
    "ChangeError",
    "Document",
    "Edit",
    "Error",
    "Link",
    "Lists",
    "Node",
    "OutOfProportion",
    "Policy",
    "PolicyError",
    "Removal",
    "Selector",
    "SelectorError",
    "TooLong",
    "css_escape",
    "edit",
    "join_url",
    "removed",
    "sanitize",
    "set_attribute",
    "unset_attribute",
    "version",
]
