"""The workspace: its crates, as crates.txt lists them, and the kit of the toolchain."""
import functools
import os
import re
import subprocess

ROOT = os.path.dirname(os.path.dirname(os.path.realpath(__file__)))


NO_RT = "the toolchain's command `rt` is not on the path: README.md names the kit that it comes with"


class Stop(Exception):
    """Ends a command: what is wrong, where, and what to do about it."""


def text_of(file):
    with open(file, encoding="utf-8") as it:
        return it.read()


def put(file, text):
    """Writes a file, and makes the folder that it stands in."""
    os.makedirs(os.path.dirname(file), exist_ok=True)
    with open(file, "w", encoding="utf-8") as it:
        it.write(text)


class Workspace:
    """The crates of a crates.txt in its order: of each its line, the comment above it, and the libraries that it names."""

    def __init__(self, root=ROOT):
        self.root, self.libraries, self.lines, self.notes, self.statics = root, {}, {}, {}, []
        note = ""
        for line in text_of(f"{root}/crates.txt").splitlines():
            head, colon, libraries = line.partition("#")[0].partition(":")
            if colon:
                name, *kind = head.split()
                self.libraries[name], self.lines[name], self.notes[name] = libraries.split(), line, note
                self.statics += [name] * ("staticlib" in kind)
            note = line.lstrip("# ") if line.startswith("#") else ""

    def folder(self, name):
        return f"{self.root}/crates/{name}"

    def is_program(self, name):
        return os.path.isfile(f"{self.folder(name)}/src/main.rt")

    def own(self, name):
        """The crates of this workspace that a crate's line names."""
        return [it for it in self.libraries[name] if it in self.libraries]

    def of_kit(self, libraries):
        """Those of some libraries that the kit has."""
        return [it for it in libraries if it not in self.libraries]

    def below(self, name):
        """The crates of this workspace that a crate stands on, the lowest first."""
        return self.closure(self.libraries[name])

    def closure(self, libraries):
        """The crates of this workspace among some libraries, and those that these stand on, the lowest first."""
        found = []
        for it in libraries:
            if it in self.libraries:
                found += [other for other in [*self.below(it), it] if other not in found]
        return found

    def files(self, name):
        """The files of a crate by their paths in the workspace, but for those of what was made of it."""
        found = []
        for at, folders, files in os.walk(self.folder(name)):
            if at == self.folder(name):
                folders[:] = [it for it in folders if it != "out"]
            found += [os.path.relpath(f"{at}/{it}", self.root) for it in files]
        return sorted(found)

    @functools.cached_property
    def kit(self):
        """The folder of the toolchain's kit."""
        return os.path.dirname(rt("doc").strip())

    @functools.cached_property
    def version(self):
        """The version of the product, which one crate says."""
        for name in self.libraries:
            file = f"{self.folder(name)}/src/lib.rt"
            found = os.path.isfile(file) and re.search(r'(?m)^pub const VERSION: &str = "(.*)";$', text_of(file))
            if found:
                return found[1]
        raise Stop("no crates/NAME/src/lib.rt has a line `pub const VERSION: &str = \"..\";`")


def rt(*words, **how):
    """What the toolchain's command says to standard output."""
    how = {"stdin": subprocess.DEVNULL, "stdout": subprocess.PIPE, "encoding": "utf-8", "check": True, **how}
    try:
        return subprocess.run(["rt", *words], **how).stdout
    except FileNotFoundError:
        raise Stop(NO_RT) from None


def cores():
    """The cores that there are, by the quota of a control group too."""
    found = len(os.sched_getaffinity(0))
    quota = re.match(r"(\d+) (\d+)", _group("cpu.max"))
    return min(found, int(quota[1]) // int(quota[2])) if quota else found


def free_memory():
    """The bytes of memory that are free, under the limit of a control group too."""
    free = 1024 * int(re.search(r"MemAvailable:\s+(\d+)", text_of("/proc/meminfo"))[1])
    limit, held = re.match(r"(\d+)", _group("memory.max")), re.search(r"(?m)^anon (\d+)", _group("memory.stat"))
    return min(free, int(limit[1]) - int(held[1])) if limit and held else free


def _group(name):
    file = f"/sys/fs/cgroup/{name}"
    return text_of(file) if os.path.isfile(file) else ""
