"""The HTML fragment serialization algorithm of the HTML standard (13.3), as it is written: over the nodes of tree_model.py.

The standard as it is since May 2025, when `<` and `>` came to be escaped in values of attributes too.
"""
VOID = "area base br col embed hr img input link meta source track wbr".split() + "basefont bgsound frame keygen param".split()
LITERAL = "style script xmp iframe noembed noframes plaintext".split()


def escaped(text, in_attribute):
    text = text.replace("&", "&amp;").replace("\u00a0", "&nbsp;").replace("<", "&lt;").replace(">", "&gt;")
    return text.replace('"', "&quot;") if in_attribute else text


def serialized_name(key):
    """A key of the model is a local name, or behind a blank one of a namespace."""
    space, _, local = key.rpartition(" ")
    return local if not space or (space, local) == ("xmlns", "xmlns") else f"{space}:{local}"


def serialized_node(node, parent, is_scripting):
    """A node as a child of an element, or of none."""
    if node.kind == "text":
        is_literal = parent is not None and (parent.is_html(*LITERAL) or (is_scripting and parent.is_html("noscript")))
        return node.data if is_literal else escaped(node.data, False)
    if node.kind == "comment":
        return f"<!--{node.data}-->"
    if node.kind == "doctype":
        return f"<!DOCTYPE {node.name}>"
    keys = "".join(f' {serialized_name(key)}="{escaped(value, True)}"' for key, value in node.attributes.items())
    end = "" if node.is_html(*VOID) else f"{inner(node, is_scripting)}</{node.name}>"
    return f"<{node.name}{keys}>{end}"


def fragment(nodes, parent, is_scripting):
    return "".join(serialized_node(it, parent, is_scripting) for it in nodes)


def inner(node, is_scripting):
    if node.kind != "element" or node.is_html(*VOID):
        return ""
    return fragment(node.children, None if node.is_html("template") else node, is_scripting)


def prints_of(nodes, is_scripting):
    """What is printed of a document, and of each node in it, outer and inner; the contents of a `template` count as a node."""
    found = [fragment(nodes, None, is_scripting)]

    def add(node, parent):
        found.extend([serialized_node(node, parent, is_scripting), inner(node, is_scripting)])
        if node.is_html("template"):
            found.extend([inner(node, is_scripting)] * 2)
        for it in node.children:
            add(it, None if node.is_html("template") else node)

    for it in nodes:
        add(it, None)
    return found
