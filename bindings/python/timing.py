"""Times tlhtml beside lxml, BeautifulSoup and bleach, where they are there: milliseconds of the processor, the least of some rounds, as a
table. What takes more than 20 seconds is ended, and `-` stands there.

    python3 timing.py PAGE..             as python3 timing.py pages/*.html
    python3 timing.py --all PAGE..       all pages together by each, beside lxml alone: pages of 600 KB at most, which are UTF-8
    python3 timing.py --crawl FOLDER     pages a second and a core of examples/crawl.py in a cluster of two workers, read by each of them
"""
import functools
import importlib.util
import os
import signal
import sys
import time

import tlhtml

# What each is asked, as a program of its own would write it.


def tlhtml_links(page):
    with tlhtml.Document(page) as document:
        return document.select_values("a", "href")


def tlhtml_text(page):
    with tlhtml.Document(page) as document:
        return document.text


def tlhtml_names(page):
    with tlhtml.Document(page) as document:
        return [it.name for it in document.select("*")]


def tlhtml_attributes(page):
    with tlhtml.Document(page) as document:
        return [it.attrs for it in document.select("*")]


def tlhtml_paragraphs(page):
    with tlhtml.Document(page) as document:
        return [it.text for it in document.select("p")]


def tlhtml_strings(page):
    with tlhtml.Document(page) as document:
        return list(document.strings)


def tlhtml_kinds(page):
    with tlhtml.Document(page) as document:
        return [it.kind for it in document.nodes]


def lxml_kinds(page):
    import lxml.html

    kinds = []
    for it in lxml.html.fromstring(page).iter():
        kinds.append("comment" if it.tag is lxml.etree.Comment else "element")
        if it.text is not None and kinds[-1] == "element":
            kinds.append("text")
        if it.tail is not None:
            kinds.append("text")
    return kinds


def lxml_names(page):
    import lxml.html

    return [it.tag for it in lxml.html.fromstring(page).iter("*")]


def lxml_attributes(page):
    import lxml.html

    return [dict(it.attrib) for it in lxml.html.fromstring(page).iter("*")]


def lxml_paragraphs(page):
    import lxml.html

    return [it.text_content() for it in lxml.html.fromstring(page).iterfind(".//p")]


def lxml_strings(page):
    import lxml.html

    return list(lxml.html.fromstring(page).itertext())


def lxml_links(page):
    import lxml.html

    return [it.get("href") for it in lxml.html.fromstring(page).iterfind(".//a[@href]")]


def lxml_text(page):
    import lxml.html

    return lxml.html.fromstring(page).text_content()


def soup_links(page):
    import bs4

    return [it["href"] for it in bs4.BeautifulSoup(page, "lxml").select("a[href]")]


def soup_text(page):
    import bs4

    return bs4.BeautifulSoup(page, "lxml").get_text()


def html5lib_links(page):
    import bs4

    return [it["href"] for it in bs4.BeautifulSoup(page, "html5lib").select("a[href]")]


def bleach_safe(page):
    import bleach

    return bleach.clean(page)


# The work, whose it is, the modules that it takes, and the call.
WORKS = [
    ("links", "tlhtml", (), tlhtml_links),
    ("links", "lxml", ("lxml",), lxml_links),
    ("links", "BeautifulSoup, lxml", ("bs4", "lxml"), soup_links),
    ("links", "BeautifulSoup, html5lib", ("bs4", "html5lib"), html5lib_links),
    ("text", "tlhtml", (), tlhtml_text),
    ("text", "lxml", ("lxml",), lxml_text),
    ("text", "BeautifulSoup, lxml", ("bs4", "lxml"), soup_text),
    ("sanitize", "tlhtml", (), tlhtml.sanitize),
    ("sanitize", "bleach", ("bleach",), bleach_safe),
]

# What is asked of all pages together, beside lxml.
ALL = [
    ("links", tlhtml_links, lxml_links),
    ("text", tlhtml_text, lxml_text),
    ("texts, one by one", tlhtml_strings, lxml_strings),
    ("text of each paragraph", tlhtml_paragraphs, lxml_paragraphs),
    ("kinds of all nodes", tlhtml_kinds, lxml_kinds),
    ("names of all elements", tlhtml_names, lxml_names),
    ("attributes of all elements", tlhtml_attributes, lxml_attributes),
]


class Late(Exception):
    """What was asked took too long."""


def ended(_signal, _frame):
    raise Late


def seconds(call, page, times):
    """Seconds of the processor for so many calls."""
    start = time.process_time()
    for _ in range(times):
        call(page)
    return time.process_time() - start


def least(call, page, rounds=5, enough=0.2, most=20):
    """The least milliseconds of the processor for a call, of some rounds, or `-` for what takes too long. Some systems count the
    processor's time in steps of a few milliseconds, so short calls are made many times in a round."""
    signal.signal(signal.SIGPROF, ended)
    signal.setitimer(signal.ITIMER_PROF, most)
    try:
        times = 1
        while (took := seconds(call, page, times)) < enough:
            times *= 2
        rounds = rounds if took < 5 * enough else 1
        return f"{1000 * min([took, *(seconds(call, page, times) for _ in range(rounds - 1))]) / times:.2f}"
    except Late:
        return "-"
    finally:
        signal.setitimer(signal.ITIMER_PROF, 0)


def read(file):
    """A page as a text, or None for what is no UTF-8, has more than 600 KB, or says its encoding in XML, which lxml takes no text of."""
    with open(file, "rb") as it:
        page = it.read()
    try:
        return page.decode() if len(page) <= 600_000 and b"<?xml" not in page[:100] else None
    except UnicodeDecodeError:
        return None


def main_all(files, rounds=5):
    """Milliseconds of the processor for all pages, the least of some rounds, in which both take turns."""
    pages = [it for it in map(read, files) if it and it.strip()]
    print(f"{len(pages)} pages, {sum(map(len, pages)) // 1024} KB\n\n| | tlhtml | lxml | |\n|---|---|---|---|")
    for work, *calls in ALL:
        least_of = [float("inf")] * 2
        for _ in range(rounds):
            for at, call in enumerate(calls):
                start = time.process_time()
                for page in pages:
                    call(page)
                least_of[at] = min(least_of[at], time.process_time() - start)
        own, other = least_of
        print(f"| {work} | {1000 * own:.0f} | {1000 * other:.0f} | {own / other:.2f} |", flush=True)


def crawl_lxml(page):
    import lxml.html

    tree = lxml.html.fromstring(page)
    links, title = [it.get("href") for it in tree.iterfind(".//a[@href]")], tree.findtext(".//title")
    lxml.etree.strip_elements(tree, "script", "style", "title", "template", "noscript", with_tail=False)
    return {"title": title, "links": links, "text": " ".join(tree.text_content().split())}


def crawl_soup(page):
    import bs4

    tree = bs4.BeautifulSoup(page, "lxml")
    links, title = [it["href"] for it in tree.select("a[href]")], tree.title and tree.title.get_text()
    for it in tree(["script", "style", "title", "template", "noscript"]):
        it.decompose()
    return {"title": title, "links": links, "text": " ".join(tree.get_text().split())}


def main_crawl(folder):
    """Reads all pages of a folder by each in one cluster, and prints how many a second of the workers' processor that is."""
    examples = os.path.join(os.path.dirname(os.path.abspath(__file__)), "examples")
    os.environ["PYTHONPATH"] = os.pathsep.join(filter(None, [examples, os.environ.get("PYTHONPATH")]))
    sys.path.insert(0, examples)
    import crawl
    from distributed import Client

    found = crawl.sources(folder)
    with crawl.processes_here(2) as cluster, Client(cluster) as client:
        for whose, modules, ask in [("tlhtml", (), crawl.asked), ("lxml", ("lxml",), crawl_lxml), ("BeautifulSoup, lxml", ("bs4", "lxml"), crawl_soup)]:
            if all(map(importlib.util.find_spec, modules)):
                before = sum(client.run(time.process_time).values())
                rows = list(crawl.crawl(client, found, 32, functools.partial(crawl.rows_of, ask=ask)))
                used = sum(client.run(time.process_time).values()) - before
                print(f"{whose}: {len(rows)} pages, {sum(it['error'] is not None for it in rows)} not read, {len(rows) / used:.0f} a second")


def main(files):
    works = [it for it in WORKS if all(importlib.util.find_spec(module) for module in it[2])]
    print("| Page | KB | " + " | ".join(f"{work}: {whose}" for work, whose, _, _ in works) + " |")
    print("|---|---|" + "---|" * len(works))
    for file in files:
        with open(file, encoding="utf-8", errors="replace") as it:
            page = it.read()
        figures = [least(call, page) for _, _, _, call in works]
        print(f"| {os.path.basename(file)} | {len(page.encode()) // 1024} | " + " | ".join(figures) + " |", flush=True)


if __name__ == "__main__":
    if sys.argv[1:2] == ["--crawl"]:
        main_crawl(sys.argv[2])
    elif sys.argv[1:2] == ["--all"]:
        main_all(sys.argv[2:])
    else:
        main(sys.argv[1:])
