"""How the time of a run grows with what it runs on."""
from .. import trees
from ..running import run
from ..workspace import Stop

# A run that takes less than this counts as one that takes so long: clocks are coarse.
LEAST = 0.05
# How much more a byte or a part may take at the larger size.
BOUND = 2.5


def complete(words, page=b"", limit=100):
    """A run of a program on a page, whose status has to be 0."""
    ran = run(words, given=page, limit=limit)
    if ran.status:
        raise Stop(f"{ran.ending()}\n{ran.err.decode(errors='replace')}".strip())
    return ran


class Growth:
    """How the time of a run grew, and what was run."""

    def __init__(self, name, seconds, ratio):
        self.name, self.seconds = name, seconds
        self.grown = max(seconds[1], LEAST) / max(seconds[0], LEAST) / ratio

    def line(self):
        return f"  {self.seconds[0]:8.3f} s {self.seconds[1]:8.3f} s {self.grown:6.2f}  {self.name}"


def growth(name, ratio, *runs, bound=BOUND):
    """How the time grows from the first run to the second, which is so much larger. What is above the bound is measured again."""
    try:
        best = [complete(*it).seconds for it in runs]
        found = Growth(name, best, ratio)
        for _ in range(2):
            if found.grown > bound:
                best = [min(seconds, complete(*it).seconds) for seconds, it in zip(best, runs)]
                found = Growth(name, best, ratio)
    except Stop as wrong:
        raise Stop(f"{name}: {wrong}") from None
    if found.grown > bound:
        raise Stop(f"{name}: {best[0]:.3f} s, and {best[1]:.3f} s for {ratio:g} times as much")
    return found


# How much more time and memory a page may take that is four times as large and is read into its tree.
TREE_BOUND = 5
# What takes less than this grows by chance: a process takes some time and memory before it reads.
LEAST_READ, LEAST_BYTES = 0.01, 2000000


class TreeGrowth:
    """How time and memory grew from a page that is read into its tree to a larger one."""

    def __init__(self, name, small, large):
        self.name, self.small, self.large = name, small, large
        self.times = large.processor / max(small.processor, LEAST_READ)
        self.rooms = large.bytes / max(small.bytes, LEAST_BYTES)

    def is_beyond(self):
        return max(self.times, self.rooms) > TREE_BOUND

    def line(self):
        took = f"{self.small.processor:8.3f} s {self.large.processor:8.3f} s {self.times:6.1f}"
        return f"  {took} {self.large.bytes / 1e6:8.1f} MB {self.rooms:6.1f}  {self.name}: {self.large.what}"


def tree_growth(program, name, pages):
    """How time and memory grow from the first page to the second, which is four times as large. What seems beyond, and took less than
    a second, is measured again."""
    small, large = (trees.read(program, it) for it in pages)
    found = TreeGrowth(name, small, large)
    if found.is_beyond() and large.processor < 1:
        small, large = (min(old, trees.read(program, it), key=lambda one: one.processor) for old, it in zip((small, large), pages))
        found = TreeGrowth(name, small, large)
    return found
