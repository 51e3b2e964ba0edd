"""What each crate costs a run of `rt ci`: processor time by its processes, and when its proof ended by what it says."""
import os
import re
import threading

from .running import count

KINDS = ("proof", "build", "tests")
COMPILERS = ("clang", "ld.lld", "rattle-link", "rattle-x64")
# Seconds between two looks at the processes: of each that ends in between as many may be missed.
PAUSE = 2


class Process:
    """A process as /proc tells of it: who made it, when, and the seconds that it took of the processor."""

    TICKS = os.sysconf("SC_CLK_TCK")

    def __init__(self, pid):
        with open(f"/proc/{pid}/stat", encoding="utf-8", errors="replace") as it:
            fields = it.read().rpartition(")")[2].split()
        self.pid, self.parent, self.began = pid, int(fields[1]), int(fields[19])
        self.seconds = (int(fields[11]) + int(fields[12])) / self.TICKS

    def words(self):
        with open(f"/proc/{self.pid}/cmdline", encoding="utf-8", errors="replace") as it:
            return it.read().split("\0")


def descendants(pid):
    """The processes that a process made, itself or by others that it made, parents first."""
    found, children = [], {}
    for it in filter(str.isdigit, os.listdir("/proc")):
        try:
            process = Process(int(it))
        except (OSError, IndexError):
            continue  # (it ended)
        children.setdefault(process.parent, []).append(process)
    left = [*children.get(pid, [])]
    while left:
        found.append(left.pop(0))
        left += children.get(found[-1].pid, [])
    return found


class Costs:
    """The costs of a run, gathered while it goes on."""

    def __init__(self, workspace):
        self.workspace, self.ends, self.used, self.works = workspace, {}, {}, {}

    def hear(self, line, now):
        """Takes the time at which the proof of a crate ended, in seconds from the start, from a line of `rt ci`."""
        found = re.match(r"rt: (\w+) (proved|is kept)\b", line)
        if found and found[1] in self.workspace.libraries:
            self.ends[found[1]] = now

    def look(self, pid):
        """Looks at the processes that the run has made."""
        for it in descendants(pid):
            key = it.pid, it.began
            try:
                # (what has no work yet may have been made, and not begun)
                work = self.works.get(key) or self.work_of(it)
            except OSError:
                continue  # (it ended)
            self.works[key] = work
            self.used[key] = it.seconds

    def work_of(self, process):
        """The crate that a process works at and the kind of work, or None."""
        words = process.words()
        if "--crate-name" not in words:
            above = next((work for (pid, _), work in self.works.items() if pid == process.parent and work), None)
            return (above[0], "build") if above and os.path.basename(words[0]) in COMPILERS else above
        crate = words[words.index("--crate-name") + 1]
        if "--test" in words:
            return crate, "tests"
        if "--crate-checked" in words:
            return crate, "build"
        return crate, "proof"

    def watch(self, pid):
        """Looks again and again, until what is returned is called."""
        ended = threading.Event()

        def loop():
            while not ended.wait(PAUSE):
                self.look(pid)

        watcher = threading.Thread(target=loop, daemon=True)
        watcher.start()

        def end():
            ended.set()
            watcher.join()

        return end

    def minutes(self):
        """Of each crate the minutes of the processor by kind of work."""
        found = {}
        for key, work in self.works.items():
            if work:
                kinds = found.setdefault(work[0], dict.fromkeys(KINDS, 0))
                kinds[work[1]] += self.used[key] / 60
        return found

    def chain(self):
        """The chain of crates that took longest: each waits for the one before it. Of each the seconds that it ended after that."""
        found, last = [], max(self.ends, key=self.ends.get, default=None)
        while last:
            before = max((it for it in self.workspace.below(last) if it in self.ends), key=self.ends.get, default=None)
            found.insert(0, (last, self.ends[last] - (self.ends[before] if before else 0)))
            last = before
        return found

    def sums(self):
        """What all crates cost, by kind of work."""
        minutes = self.minutes().values()
        return ", ".join(f"{kind} {sum(it[kind] for it in minutes):.1f}" for kind in KINDS)

    def lines(self):
        """What is said of the costs."""
        minutes = self.minutes()
        for crate in self.workspace.libraries:
            kinds = [f"{kind} {it:.1f}" for kind, it in minutes.get(crate, {}).items() if it >= 0.05]
            if kinds:
                yield f"{crate}: {', '.join(kinds)}"
        yield f"{count(len(minutes), 'crate')}, minutes of the processor: {self.sums()}"
        chain = [f"{crate} {seconds / 60:.1f}" for crate, seconds in self.chain()]
        yield f"the longest chain, minutes on the clock that each ended after the one before it: {', '.join(chain)}"
