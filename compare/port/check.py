"""Compares what `tlq` writes, and its status, with the plain reader of reader.py, on made-up pages.

    ./x compare check [--program FILE] [--runs N] [--seed N] [--page FILE..]

Each run is one page and one command; pages, selectors and lists of steps come of the seed, and most are broken in some way. With
--page the pages are those of files. The program is the `tlq` that the gate built unless another is named. A run takes about a
millisecond. Who changes the grammar changes both. Ends with 1 where one run differs, and says which, by its page and its seed.
"""
import concurrent.futures
import functools
import os
import random
import subprocess

from tools.programs import gate_build

from ..made.port import command, page
from .reader import output



def compared(program, seed, pages):
    """Does one run, and answers what differs, or None, and the status of the program."""
    chance = random.Random(seed)
    text = chance.choice(pages) if pages else page(chance)
    word, argument = command(chance)
    words = [program, word] + ([] if argument is None else [argument])
    ran = subprocess.run(words, input=text, stdout=subprocess.PIPE, stderr=subprocess.DEVNULL)
    wanted = output(word, argument or "", text)
    if (ran.stdout, ran.returncode) == wanted:
        return None, ran.returncode
    return f"seed {seed}: {words[1:]} on {text!r}\n  wrote {ran.stdout!r}, status {ran.returncode}\n  not   {wanted[0]!r}, status {wanted[1]}", ran.returncode


def main(parser, words):
    parser.add_argument("--program", metavar="FILE")
    parser.add_argument("--runs", type=int, default=5000, metavar="N")
    parser.add_argument("--seed", type=int, default=1, metavar="N")
    parser.add_argument("--page", nargs="*", default=[], metavar="FILE")
    given = parser.parse_args(words)
    pages = [open(name, "rb").read() for name in given.page]
    seeds = range(given.seed * 10**9, given.seed * 10**9 + given.runs)
    different, statuses = 0, {}
    run = functools.partial(compared, os.path.abspath(given.program or gate_build("tlq")), pages=pages)
    with concurrent.futures.ProcessPoolExecutor() as pool:
        for said, status in pool.map(run, seeds, chunksize=50):
            statuses[status] = statuses.get(status, 0) + 1
            if said:
                different += 1
                if different <= 10:
                    print(said)
    print(f"check: {given.runs} runs, {different} differ; statuses {dict(sorted(statuses.items()))}")
    return 1 if different else 0
