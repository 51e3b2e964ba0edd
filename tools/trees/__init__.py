"""What the program of tools/trees says of a page that is read into its tree: how long that takes, and how much memory."""
import signal
import tempfile

from ..running import run
from ..workspace import Stop

# The status by which `time` says that the system ended a program, since it had its seconds of the processor.
LATE = 128 + signal.SIGXCPU


class Reading:
    """How a page was read: what became of it, seconds of the reading and the drop by the clock, and of the processor for the whole
    process, and the most bytes that this had."""

    def __init__(self, what, seconds, processor, bytes_):
        self.what, self.seconds, self.processor, self.bytes = what, seconds, processor, bytes_


def run_with_room(words, page, limit=100):
    """A run of a program on a page, for so many seconds of the processor at most, and the most bytes that it had."""
    # A process counts the memory of the one that made it too, so `time`, which is small, makes the one that is measured.
    with tempfile.NamedTemporaryFile("r") as used:
        ran = run(["time", "-f", "%M", "-o", used.name, "prlimit", f"--cpu={limit}:{limit + 1}", *words], given=page)
        return ran, int(used.read().split()[-1]) * 1024


def read(program, page, limit=100):
    """Reads a page."""
    ran, bytes_ = run_with_room([program, "time"], page, limit)
    if ran.status == LATE:
        return Reading(f"not read in {limit} seconds", limit, ran.seconds, bytes_)
    if ran.status:
        raise Stop(f"a page is not read: {ran.ending()}\n{ran.said()}")
    nodes, micros = ran.out.decode().split()
    return Reading(nodes if nodes == "refused" else f"{nodes} nodes", int(micros) / 1e6, ran.seconds, bytes_)
