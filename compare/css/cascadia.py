"""The table of tests of cascadia, a library of selectors for Go (Debian: golang-github-andybalholm-cascadia-dev), asked of `tl select`.

Each row is a page, a selector, and the prints of the elements where it holds. `tl` says the numbers of these, and html5lib (Debian:
python3-html5lib), which reads the page by the standard too, what they are.
"""
import re
import subprocess

TOKEN = re.compile(r'`(?P<raw>[^`]*)`|"(?P<quoted>(?:[^"\\]|\\.)*)"|(?P<mark>[{}])|//[^\n]*')
VOID = frozenset("area base br col embed hr img input keygen link meta param source track wbr".split())
MARKS = {"&": "&amp;", "'": "&#39;", "<": "&lt;", ">": "&gt;", '"': "&#34;"}


def rows_of(source):
    """The rows of the table in the Go source: page, selector and prints."""
    table = source[source.index("var selectorTests") : source.index("func TestSelectors")]
    rows, row, results, depth = [], [], [], 0
    for token in TOKEN.finditer(table[table.index("{") + 1 :]):
        if token["mark"] == "{":
            depth += 1
            row, results = ([], []) if depth == 1 else (row, [])
        elif token["mark"] == "}":
            depth -= 1
            if depth == 0:
                rows.append((*row, results))
        elif token["mark"] is None and not token[0].startswith("//"):
            text = token["raw"] if token["raw"] is not None else token["quoted"].encode().decode("unicode_escape")
            (row if depth == 1 else results).append(text)
    return rows


def escaped(text):
    return re.sub("[&'<>\"]", lambda it: MARKS[it[0]], text)


def printed(node):
    """A node as Go prints it."""
    if node.nodeType == node.TEXT_NODE:
        return escaped(node.data)
    if node.nodeType == node.COMMENT_NODE:
        return f"<!--{node.data}-->"
    start = node.tagName + "".join(f' {key}="{escaped(value)}"' for key, value in node.attributes.items())
    if node.tagName in VOID:
        return f"<{start}/>"
    return f"<{start}>{''.join(printed(it) for it in node.childNodes)}</{node.tagName}>"


def nodes_of(parent):
    """All nodes below, in the order in which `tl` numbers them."""
    for node in parent.childNodes:
        yield node
        yield from nodes_of(node)


def asked(program, selector, page, tree):
    """The prints of what `tl select` finds in a page with this tree, or what it says of a text that is no selector."""
    words = [program, "select", "-n", "--", selector]
    run = subprocess.run(words, input=page.encode(), stdout=subprocess.PIPE, stderr=subprocess.PIPE, check=False)
    if run.returncode == 2:
        return run.stderr.decode().strip()
    nodes = list(nodes_of(tree))
    return [printed(nodes[int(it)]) for it in run.stdout.split()]


def compare_table(program, file):
    """Compares the rows of a table with what the program finds, and says which differ."""
    import html5lib

    with open(file, encoding="utf-8") as source:
        rows = rows_of(source.read())
    same = refused = 0
    for page, selector, wanted in rows:
        found = asked(program, selector, page, html5lib.parse(page, "dom", namespaceHTMLElements=False))
        same += found == wanted
        refused += isinstance(found, str)
        if found != wanted:
            print(f"{selector}: {found if isinstance(found, str) else f'{found}, not {wanted}'}")
    print(f"{len(rows)} rows: {same} the same, {refused} that are no selector, {len(rows) - same - refused} that differ")
