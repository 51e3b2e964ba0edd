"""Calls the library for C from C, with and without sanitizers, from C++, Rust and Python, and as it is installed.

    ./x bindings              of the library that ./x library makes
    ./x bindings --over-ci    the same right after `rt ci`, as ./x library says; --unproved tries one that isn't proved
    ./x bindings FOLDER       of what ./x library --install put into FOLDER, as a release has it
    ./x bindings --threads    threads that ask one document, looked at by the thread sanitizer: of a library that isn't proved, in minutes

The callers stand in bindings, and each function of the headers in include is called. The programs of docs/LIBRARY.md are built and run
too, as they stand there. What was left out, where a compiler or a module isn't there, is said at the end; without cc nothing is
called.
"""
import functools
import glob
import os
import re
import shutil
import tempfile
import zipfile

from .. import unproved_library
from ..packages import has_modules, make_wheel, python_for_wheels
from ..running import must, run
from ..workspace import ROOT, Stop, Workspace, put, text_of
from . import library

DOCUMENT = "docs/LIBRARY.md"
# A program that a document shows, and what it writes.
PROGRAM = re.compile(r"```c\n((?:(?!```).*\n)*?int main\(void\)(?:(?!```).*\n)*)```\n\nIt writes\n\n```text\n((?:(?!```).*\n)*)```\n")

# How a caller in C is linked, so that it meets the library's requests for memory.
WRAPPED = {"calls.c": ("malloc", "realloc", "free"), "documents.c": ("malloc", "realloc")}

# The examples that each language has: what it is given, the words, what it has to write, and the status.
GIVEN = f"{ROOT}/bindings/examples"
EXAMPLES = {
    "table_to_csv": ("table.html", (), "table.csv", 0),
    "comment_sanitizer": ("comment.txt", (), "comment.html", 0),
    "link_checker": ("comment.txt", ("index.html", "about.html"), "links.txt", 1),
}

# A caller in C++.
CPP = """#include "tl.h"
#include <cstring>
int main() {
    tl_document document = TL_NO_DOCUMENT;
    const uint8_t page[] = {'<', 'p', '>', 'x'};
    uint8_t out[8];
    size_t needed;
    bool is_well = tl_parse_html(page, sizeof page, &document) == TL_DONE
        && tl_node_text(&document, 0, out, sizeof out, &needed) == TL_DONE && needed == 1 && out[0] == 'x'
        && std::strcmp(tl_status_text(TL_DONE), "done") == 0;
    tl_free(&document);
    return is_well ? 0 : 1;
}
"""


def programs_of(document):
    """The programs that a document shows, each with what it writes."""
    return [(it[1], it[2]) for it in PROGRAM.finditer(text_of(f"{ROOT}/{document}"))]


class Callers:
    """The callers of the library in a folder. What they are compiled to goes to the room."""

    def __init__(self, folder, room):
        self.folder, self.room, self.version = folder, room, Workspace().version
        self.archive, self.include = f"{folder}/lib/libtl.a", f"{folder}/include"
        self.installed = folder

    def run_c(self, *options):
        """Builds and runs each caller in C, with these options."""
        for file in sorted(glob.glob(f"{ROOT}/bindings/c/*.c")):
            wrapped = [f"-Wl,--wrap={it}" for it in WRAPPED.get(os.path.basename(file), ())]
            words = ["cc", *options, "-std=c11", "-Wall", "-Wextra", "-Werror", "-pedantic", "-I", self.include]
            words += ["-D", f'VERSION="{self.version}"', file, self.archive, *wrapped, "-o", f"{self.room}/calls"]
            must(words, f"{file} does not compile")
            must([f"{self.room}/calls"], f"{file} failed")
        self.run_shown(*options)
        self.run_examples_of_c(*options)

    def run_shown(self, *options):
        """Builds and runs each program that the document shows, and compares what it writes."""
        shown = programs_of(DOCUMENT)
        if not shown:
            raise Stop(f"{DOCUMENT} shows no program")
        for program, written in shown:
            put(f"{self.room}/shown.c", program)
            words = ["cc", *options, "-std=c11", "-Wall", "-Wextra", "-Werror", "-pedantic", "-I", self.include, f"{self.room}/shown.c"]
            must([*words, self.archive, "-o", f"{self.room}/calls"], f"a program of {DOCUMENT} does not compile")
            out = must([f"{self.room}/calls"], f"a program of {DOCUMENT} failed").out.decode()
            if out != written:
                raise Stop(f"a program of {DOCUMENT} writes {out!r}")

    def run_examples(self, language, words_of, **how):
        """Runs the examples of a language; what it is called by, by the name of each."""
        for name, (given, words, wanted, status) in EXAMPLES.items():
            page = text_of(f"{GIVEN}/{given}").encode()
            ran = run([*words_of(name), *words], given=page, cwd=f"{GIVEN}/site", **how)
            if ran.status != status or ran.out.decode() != text_of(f"{GIVEN}/{wanted}"):
                raise Stop(f"the example {name} in {language} ends with {ran.ending()} and says\n{ran.said()}")

    def run_examples_of_c(self, *options):
        """Builds and runs those of C."""
        for name in EXAMPLES:
            words = ["cc", *options, "-std=c11", "-Wall", "-Wextra", "-Werror", "-pedantic", "-I", self.include]
            file = f"{ROOT}/bindings/c/examples/{name}.c"
            must([*words, file, self.archive, "-o", f"{self.room}/{name}"], f"{file} does not compile")
        self.run_examples("C", lambda name: [f"{self.room}/{name}"])

    def of_c(self):
        self.run_c("-O2")

    def of_c_under_sanitizers(self):
        """The same, where the compiler has sanitizers; else why not."""
        words = ["cc", "-xc", "-", "-fsanitize=address,undefined", "-o", f"{self.room}/calls"]
        if run(words, given=b"int main(void) { return 0; }\n").status:
            return "the compiler has none"
        self.run_c("-g", "-fsanitize=address,undefined", "-fno-sanitize-recover=all")
        return None

    def of_rust(self):
        if not shutil.which("cargo"):
            return "no cargo"
        shutil.copytree(f"{ROOT}/bindings/rust", f"{self.room}/rust")
        env = {"TL_LIB": f"{self.folder}/lib", "TL_VERSION": self.version, "CARGO_TARGET_DIR": f"{self.room}/target"}
        how = ["--offline", "--quiet", "--manifest-path", f"{self.room}/rust/Cargo.toml"]
        must(["cargo", "test", *how], "the crate for Rust failed", env={**os.environ, **env})
        self.run_examples("Rust", lambda name: [f"{self.room}/target/debug/examples/{name}"])
        refusing = {"TL_LIB": self.refusing, "TL_REFUSALS": "1"}
        must(["cargo", "test", "--test", "refusals", *how], "the crate for Rust failed", env={**os.environ, **env, **refusing})
        env["RUSTDOCFLAGS"] = "-D warnings"
        must(["cargo", "doc", "--no-deps", *how], "the crate for Rust isn't documented", env={**os.environ, **env})
        if shutil.which("cargo-clippy"):
            words = ["cargo", "clippy", "--all-targets", *how, "--", "-D", "warnings"]
            must(words, "the crate for Rust has warnings", env={**os.environ, **env})
        return None

    def of_installed(self):
        """Builds and runs the programs of the document against what is installed, by way of pkg-config."""
        if not shutil.which("pkg-config"):
            return "no pkg-config"
        env = {**os.environ, "PKG_CONFIG_PATH": f"{self.installed}/lib/pkgconfig", "LD_LIBRARY_PATH": f"{self.installed}/lib"}
        must(["pkg-config", f"--exact-version={self.version}", "libtl"], "libtl.pc is not there, or is of another version", env=env)
        flags = must(["pkg-config", "--cflags", "--libs", "libtl"], "no flags", env=env).out.decode().split()
        for program, written in programs_of(DOCUMENT):
            put(f"{self.room}/shown.c", program)
            words = ["cc", "-std=c11", f"{self.room}/shown.c", *flags, "-o", f"{self.room}/calls"]
            must(words, "a program does not compile against what is installed")
            if library.SONAME not in must(["readelf", "-d", f"{self.room}/calls"], "no readelf").out.decode():
                raise Stop("a program isn't linked with the shared library")
            if must([f"{self.room}/calls"], "a program failed with what is installed", env=env).out.decode() != written:
                raise Stop("a program writes something else with the shared library")
        return None

    def of_cpp(self):
        """Whether the header is one of C++ too."""
        if not shutil.which("c++"):
            return "no c++"
        put(f"{self.room}/calls.cc", CPP)
        words = ["c++", "-std=c++17", "-Wall", "-Wextra", "-Werror", "-pedantic", "-I", self.include, f"{self.room}/calls.cc"]
        must([*words, self.archive, "-o", f"{self.room}/calls"], "the caller in C++ does not compile")
        must([f"{self.room}/calls"], "the caller in C++ failed")
        return None

    @functools.cached_property
    def refusing(self):
        """A folder with the library, static and shared, over a heap that refuses requests as a test says."""
        folder, heap = f"{self.room}/refusing", f"{self.room}/heap.o"
        os.makedirs(folder)
        must(["cc", "-O2", "-fPIC", "-c", f"{ROOT}/bindings/c/refusals/heap.c", "-o", heap], "the heap of tests does not compile")
        renamed = [f"--redefine-sym={it}=tl_test_{it}" for it in ("malloc", "realloc")]
        must(["objcopy", *renamed, self.archive, f"{folder}/libtl.a"], "no objcopy")
        must(["ar", "rcs", f"{folder}/libtl.a", heap], "no ar")
        library.make_shared(f"{folder}/libtl.a", f"{folder}/libtl.so")
        return folder

    def of_wheel(self):
        """Makes a wheel that has the library, and unpacks it; else why not."""
        shared, package = f"{self.installed}/lib/libtl.so", f"{self.room}/python"
        shutil.copytree(f"{ROOT}/bindings/python", package, ignore=shutil.ignore_patterns("__pycache__"))
        self.python = python_for_wheels()
        self.python_env = {**os.environ, "TLHTML_LIBRARY": shared, "TL_VERSION": self.version, "PYTHONPATH": package}
        if not self.python:
            self.python = "python3"
            return "no pip, setuptools and wheel"
        with zipfile.ZipFile(make_wheel(self.installed, self.version, f"{self.room}/wheels")) as it:
            it.extractall(f"{self.room}/unpacked")
        self.python_env |= {"TLHTML_LIBRARY": "", "PYTHONPATH": f"{self.room}/unpacked"}
        return None

    def of_python(self):
        """The tests of the package, by pytest where it is there."""
        env, own = self.python_env, os.environ.get("PYTHONPATH")
        env["PYTHONPATH"] += f":{own}" * bool(own)
        runner = ["pytest", "-q", "-p", "no:cacheprovider", "."] if has_modules(self.python, "pytest") else ["unittest", "discover"]
        must([self.python, "-B", "-m", *runner], "the package for Python failed", env=env, cwd=f"{self.room}/python/tests")
        refusing = {"TLHTML_LIBRARY": f"{self.refusing}/libtl.so", "TL_REFUSALS": "1"}
        words = [self.python, "-B", "-m", "unittest", "test_refusals"]
        must(words, "the package for Python failed", env={**env, **refusing}, cwd=f"{self.room}/python/tests")
        self.run_examples("Python", lambda name: [self.python, "-B", f"{ROOT}/bindings/python/examples/{name}.py"], env=env)

    def of_cluster(self):
        """Whether the tests of Python read pages in a cluster too."""
        return None if has_modules(self.python, "distributed") else "no distributed of dask"


def check(folder=None, over_ci=False, unproved=False):
    """Calls the library of a folder, or one that is made; a Stop says what failed."""
    if not shutil.which("cc"):
        print("bindings: no cc, which all of them are linked by: nothing was called", flush=True)
        return True
    with tempfile.TemporaryDirectory(prefix="x-bindings-") as room:
        if not folder:
            folder = f"{room}/made"
            library.install(folder, over_ci, unproved)
        callers = Callers(os.path.abspath(folder), room)
        if not os.path.isfile(callers.archive):
            raise Stop(f"{callers.archive} is not there")
        languages = {"C": callers.of_c, "C under sanitizers": callers.of_c_under_sanitizers}
        languages |= {"C++": callers.of_cpp, "C by pkg-config": callers.of_installed, "Rust": callers.of_rust, "a wheel": callers.of_wheel, "Python": callers.of_python}
        languages |= {"a cluster": callers.of_cluster}
        missing = {name: call() for name, call in languages.items()}
    made = ", ".join(name for name, why in missing.items() if not why)
    left_out = ", ".join(f"{name} ({why})" for name, why in missing.items() if why)
    print(f"bindings: the library for C was called from {made}{'; left out: ' * bool(left_out)}{left_out}", flush=True)
    return True


def check_threads():
    """Has threads ask one document, and the thread sanitizer look at what they and the library read and write."""
    workspace, caller = Workspace(), f"{ROOT}/bindings/c/threads/readers.c"
    with tempfile.TemporaryDirectory(prefix="x-bindings-") as room:
        watched = unproved_library.build_watched(workspace, "tl_c", room)
        # (the sanitizer of GCC looks at these calls by their own names)
        must(["objcopy", *(f"--redefine-sym=__tsan_{it}={it}" for it in ("memcpy", "memmove", "memset")), watched], "no objcopy")
        heap = ["--whole-archive", f"{workspace.kit}/c/liblibc_c.a"]
        must(["ld", "-r", watched, *heap, "-o", f"{room}/libtl.o"], "the library is not joined with the heap")
        words = ["cc", "-g", "-O1", "-fsanitize=thread", "-std=c11", "-Wall", "-Wextra", "-Werror", "-pedantic", "-I", f"{ROOT}/include"]
        must([*words, caller, f"{room}/libtl.o", "-lpthread", "-o", f"{room}/readers"], f"{caller} does not compile")
        must([f"{room}/readers"], f"{caller} failed")
    print("bindings: threads asked one document, by turns and all at once", flush=True)


def main(parser, words):
    library.add_builds(parser)
    parser.add_argument("--threads", action="store_true")
    parser.add_argument("folder", nargs="?", metavar="FOLDER")
    given = parser.parse_args(words)
    if given.threads:
        check_threads()
        return 0
    check(given.folder, given.over_ci, given.unproved)
    return 0
