"""The definition of tree construction in `crates/tl_dom_spec`, run over pages and fragments; its trees as the standard's tests write them down."""
import sys
import threading

from .specs import Definitions, codes, listed, text_of

SPECS = "Rattle.tl_dom_spec.specs."
SPACES = {"html_space": "", "svg_space": "svg ", "math_space": "math "}
KEY_SPACES = {"no_space": "", "xlink_space": "xlink ", "xml_space": "xml ", "xmlns_space": "xmlns "}


def with_room(work):
    """What a call answers where it may go down by a call for each byte of a page."""
    found = []
    sys.setrecursionlimit(10**6)
    old = threading.stack_size(512 * 1024 * 1024)
    thread = threading.Thread(target=lambda: found.append(work()))
    thread.start()
    thread.join()
    threading.stack_size(old)
    if not found:
        raise SystemExit(1)
    return found[0]


def bytes_of(text):
    return listed(list(text.encode("utf-8", "surrogatepass")))


def tag(name):
    """The context element of a test, as `svg path` or `td`."""
    space, _, local = name.rpartition(" ")
    return {"space": (f"{space or 'html'}_space",), "name": codes(local), "attributes": None}


def option_text(option):
    return "" if option[0] == "None" else text_of(option[1])


def doctype_line(own):
    ids = [own["public_id"], own["system_id"]]
    shown = "".join(f' "{option_text(it)}"' for it in ids) if any(it[0] == "Some" for it in ids) else ""
    return f"<!DOCTYPE {text_of(own['name'])}{shown}>"


def element_lines(element, below, depth):
    """An element: its name, its attributes in order, and what stands below it."""
    pad, name, keys = "| " + "  " * depth, SPACES[element["space"][0]] + text_of(element["name"]), element["attributes"]
    found, pairs = [f"{pad}<{name}>"], []
    while keys is not None:
        own, keys = keys
        pairs.append((KEY_SPACES[own["space"][0]] + text_of(own["key"]), text_of(own["value"])))
    found += [f'{pad}  {key}="{value}"' for key, value in sorted(pairs)]
    if name == "template":
        return [*found, f"{pad}  content", *lines_of(below, depth + 2)]
    return found + lines_of(below, depth + 1)


def lines_of(forest, depth=0):
    found, pad = [], "| " + "  " * depth
    while forest[0] != "no_trees":
        kind, first, forest, *more = forest
        if kind == "element":
            found += element_lines(first, forest, depth)
            forest = more[0]
        elif kind == "doctype":
            found.append(pad + doctype_line(first["said"]))
        else:
            said = text_of(first["said"])
            found.append(f'{pad}"{said}"' if kind == "text" else f"{pad}<!-- {said} -->")
    return found


class TreeDefinition:
    def __init__(self):
        words = Definitions()
        self.tree, self.fragment, self.context, self.in_one_line = (
            words.word(SPECS + module, name)
            for module, name in (("HtmlTree", "html_tree_by"), ("HtmlTree", "html_fragment_by"), ("HtmlTree", "context_of"), ("Examples", "shown"))
        )

    def forest(self, text, context=None, is_scripting=False, counts_search=True):
        flags = {"is_scripting": is_scripting, "counts_search": counts_search}
        if context is None:
            return self.tree(flags)(bytes_of(text))["trees"]
        return self.fragment(flags)(self.context(tag(context)))(bytes_of(text))

    def lines(self, text, context=None, is_scripting=False):
        return lines_of(self.forest(text, context, is_scripting))

    def shown(self, text, context=None, is_scripting=False):
        """The trees on one line, as the worked rows have them."""
        return text_of(self.in_one_line(self.forest(text, context, is_scripting)))
