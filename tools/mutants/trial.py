"""Trials of mutants: many in one check, crates side by side."""
import contextlib
import os
import subprocess
import threading
import time
from concurrent.futures import ThreadPoolExecutor

from ..workspace import Stop, free_memory
from .verdict import REFUSED, verdicts


def next_batch(left):
    """The mutants to try in one check: the first, and with it those of other functions. Those in no function are tried alone."""
    batch, texts, keys = [], {}, set()
    for it in left:
        is_alone = it.is_alone or not it.keys()
        made = it.put_into(texts) if not batch or not is_alone and not keys & it.keys() else None
        if made:
            batch, texts, keys = [*batch, it], made, keys | it.keys()
        if is_alone and batch == [it]:
            break
    return batch, texts


class Room:
    """Memory that lanes take and give back. One of them always goes on."""

    def __init__(self, size):
        self.size, self.taken, self.changed = size, [], threading.Condition()

    @contextlib.contextmanager
    def of(self, size):
        with self.changed:
            self.changed.wait_for(lambda: not self.taken or sum(self.taken) + size <= self.size)
            self.taken.append(size)
        try:
            yield
        finally:
            with self.changed:
                self.taken.remove(size)
                self.changed.notify_all()


def minutes(since):
    return f"{(time.time() - since) / 60:.1f} minutes"


class Trials:
    """Trials of the mutants of a workspace's crates: over all that `rt` kept of a crate, or each in its function alone."""

    def __init__(self, is_alone=False):
        self.printing, self.is_alone = threading.Lock(), is_alone

    def say(self, words):
        with self.printing:
            print(f"mutants: {words}", flush=True)

    def prove(self, crate, jobs):
        """Proves a crate, and those below it, over what was kept; at once where nothing changed."""
        if not crate.workspace.is_program(crate.name) and not os.path.isfile(f"{crate.folder}/out/rlib/stamp"):
            self.say(f"{crate.name}: proving it first, and what it stands on")
        # `rt lib` makes no program, and `rt check` ends with 0 where something isn't proved.
        words = ["rt", "check" if crate.workspace.is_program(crate.name) else "lib", "--jobs", str(min(jobs, 4))]
        how = {"stdout": subprocess.PIPE, "stderr": subprocess.DEVNULL, "encoding": "utf-8", "errors": "replace"}
        ran = subprocess.run(words, cwd=crate.folder, **how)
        if ran.returncode or crate.workspace.is_program(crate.name) and "\nlogic=proved" not in ran.stdout:
            raise Stop(f"{crate.name} itself is not proved; `rt check` in crates/{crate.name} says why")

    def check(self, crate, batch, texts):
        """What the prover says of a crate with these mutants in it."""
        return crate.check_alone(batch) if self.is_alone else crate.check(texts)

    def try_crate(self, crate, mutants):
        """What each mutant of a crate is; says so of those that are not simply refused."""
        started, found, left, checks = time.time(), {}, mutants, 0
        while left:
            batch, texts = next_batch(left)
            said = self.check(crate, batch, texts)
            now, checks = verdicts(batch, said), checks + 1
            crate.keep(batch, said, checks)
            for it, (kind, why) in now.items():
                if kind != REFUSED or why:
                    shown = kind if kind == REFUSED else kind.upper()
                    self.say(": ".join([f"{crate.name}/{it.name}", shown, why[:400]]).rstrip(": "))
            found.update(now)
            left = [it for it in left if it not in found]
            if left:
                self.say(f"{crate.name}: {len(found)} of {len(mutants)} read after {checks} checks and {minutes(started)}")
        refused = sum(kind == REFUSED for kind, _ in found.values())
        self.say(f"{crate.name}: {refused} of {len(mutants)} refused, by {checks} checks in {minutes(started)}")
        return found

    def try_all(self, work, jobs):
        """Tries the mutants of many crates, as many crates side by side as jobs and memory allow, those with most to check first."""
        needs = {crate: crate.needs() for crate, _ in work}
        room, found = Room(0.85 * free_memory()), {}

        def lane(crate, mutants):
            with room.of(needs[crate]):
                found.update(self.try_crate(crate, mutants))

        with ThreadPoolExecutor(jobs) as pool:
            lanes = [pool.submit(lane, *it) for it in sorted(work, key=lambda it: -needs[it[0]] * len(it[1]))]
            try:
                for it in lanes:
                    it.result()
            except BaseException:
                for it in lanes:
                    it.cancel()
                raise
        return found
