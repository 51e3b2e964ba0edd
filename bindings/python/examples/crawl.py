"""Reads more pages than one machine does, by dask's distributed scheduler (Debian: python3-distributed).

    crawl.py PAGES TABLE [--scheduler ADDRESS | --workers N] [--part N]

PAGES is a folder, of which all *.html and *.htm are read, or a tar that isn't compressed; each worker finds it at the same path.
TABLE gets a line of JSON for each page, part by part as they are done: `page`, `title`, `links`, `text`, `error`. A page that can't be
read says why in `error`, and the others go on. Where a worker ends, its parts are read by another one. Those on which workers end again and
again are read last, each page alone, so that only the page that does it has nothing, in a row that says so.
"""
from __future__ import annotations

import argparse
import collections
import json
import os
import sys
import tarfile
from typing import Any, Callable, Iterator, NamedTuple

from tlhtml import Document, Error

Row = dict[str, Any]


class Source(NamedTuple):
    """Where the bytes of a page are: a file, or a stretch of one."""

    page: str
    file: str
    start: int = 0
    size: int = -1


def sources(pages: str) -> list[Source]:
    """The pages in a folder or a tar, by their names there."""
    if os.path.isdir(pages):
        names = (os.path.join(at, name) for at, _, files in os.walk(pages) for name in files)
        return [Source(os.path.relpath(it, pages), it) for it in sorted(names) if is_page(it)]
    with tarfile.open(pages, "r:") as tar:
        return [Source(it.name, pages, it.offset_data, it.size) for it in tar if it.isfile() and is_page(it.name)]


def is_page(name: str) -> bool:
    return name.lower().endswith((".html", ".htm"))


def asked(page: bytes) -> Row:
    """What is asked of a page."""
    with Document(page) as document:
        title = document.select_one("title")
        links = [it["href"] for it in document.select("a[href]")]
        return {"title": title and title.text.strip(), "links": links, "text": " ".join(document.readable_text.split())}


def row_of(source: Source, ask: Callable[[bytes], Row] = asked) -> Row:
    """The row of a page."""
    row: Row = {"page": source.page, "title": None, "links": [], "text": None, "error": None}
    try:
        with open(source.file, "rb") as file:
            file.seek(source.start)
            page = file.read(source.size)
        return {**row, **ask(page)}
    except (OSError, UnicodeError, MemoryError, Error) as error:
        return {**row, "error": f"{type(error).__name__}: {error}"}


def rows_of(part: list[Source], ask: Callable[[bytes], Row] = asked) -> list[Row]:
    return [row_of(it, ask) for it in part]


def crawl(client: Any, found: list[Source], size: int, read: Callable[[list[Source]], list[Row]] = rows_of) -> Iterator[Row]:
    """The rows of all pages, part by part in the order in which these are done. Each page has one."""
    from distributed import as_completed

    waiting = collections.deque(found[at : at + size] for at in range(0, len(found), size))
    # So many parts are with the workers at once, that none has to wait and memory doesn't grow.
    most = 4 * max(1, len(client.nthreads()))
    suspects: list[Source] = []
    parts: dict[str, list[Source]] = {}
    running = as_completed()
    while waiting or parts or suspects:
        is_alone = not waiting and not parts
        starts = [[suspects.pop()]] if is_alone else [waiting.popleft() for _ in range(min(len(waiting), most - len(parts)))]
        for part in starts:
            future = client.submit(read, part, pure=False)
            parts[future.key] = part
            running.add(future)
        future = next(running)
        part = parts.pop(future.key)
        if future.status == "finished":
            yield from future.result()
        elif is_alone:
            yield {"page": part[0].page, "title": None, "links": [], "text": None, "error": f"{future.exception()!r}"}
        else:
            # (the scheduler blames all that was with a worker which ended)
            suspects += part
        future.release()


def processes_here(workers: int, **how: Any) -> Any:
    """A cluster of so many processes of this machine. One that ends is started again, however long that takes: by itself a cluster gives it
    up after 15 seconds, in which a machine with other work may not have started it, and without workers all waits for ever."""
    import dask
    from distributed import LocalCluster

    dask.config.set({"distributed.deploy.lost-worker-timeout": "24h"})
    return LocalCluster(n_workers=workers, threads_per_worker=1, processes=True, dashboard_address=None, **how)


def main(words: list[str]) -> int:
    parser = argparse.ArgumentParser(description=__doc__, formatter_class=argparse.RawDescriptionHelpFormatter)
    parser.add_argument("pages", metavar="PAGES")
    parser.add_argument("table", metavar="TABLE")
    parser.add_argument("--scheduler", metavar="ADDRESS", help="that of a cluster; else one is made here")
    parser.add_argument("--workers", metavar="N", type=int, default=os.cpu_count(), help="how many processes are made here")
    parser.add_argument("--part", metavar="N", type=int, default=64, help="how many pages a task reads")
    given = parser.parse_args(words)
    try:
        from distributed import Client
    except ImportError:
        print("crawl.py: dask's distributed scheduler is not here (Debian: python3-distributed)", file=sys.stderr)
        return 2
    place = given.scheduler or processes_here(given.workers)
    count = lost = 0
    with Client(place) as client, open(given.table, "w", encoding="utf-8") as table:
        for row in crawl(client, sources(given.pages), given.part):
            table.write(json.dumps(row, ensure_ascii=False) + "\n")
            count, lost = count + 1, lost + (row["error"] is not None)
    print(f"crawl.py: {count} pages, {lost} that can't be read", file=sys.stderr)
    return 0


if __name__ == "__main__":
    sys.exit(main(sys.argv[1:]))
