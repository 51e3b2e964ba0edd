"""Makes the library for C.

    ./x library FILE              as ./x library libtl.a; proves first what isn't proved yet
    ./x library --over-ci FILE    right after `rt ci`, which proves but leaves no work for `rt lib`: over the libraries that it
                                  made, so that only the calls themselves are proved once more
    ./x library --unproved FILE   within a minute or two, to try it: the same source, of which nothing is proved
    ./x library --install DIR     puts the archive, a shared library, the headers and libtl.pc into lib and include of a folder, as
                                  /usr/local; --over-ci and --unproved as above. Then `cc program.c $(pkg-config --cflags --libs libtl)`

The archive has the proved calls of each static library of crates.txt, and the kit's heap, which they take memory from. It shows the
functions of the headers in include and nothing else; a function that is in the headers alone, or in the libraries alone, is named.
It takes nm, ld, objcopy and ar (Debian: binutils).
"""
import glob
import os
import re
import tempfile

from .. import unproved_library
from ..running import must
from ..workspace import ROOT, Stop, Workspace, put, text_of

# The name by which programs ask for the shared library. It changes where a call is taken away, or takes or answers something else.
SONAME = "libtl.so.0"
PC = """prefix=${{pcfiledir}}/../..
libdir=${{prefix}}/lib
includedir=${{prefix}}/include

Name: libtl
Description: Pages of HTML read as browsers read them, searched by selectors of CSS, and made safe
Version: {version}
Libs: -L${{libdir}} -ltl
Cflags: -I${{includedir}}
"""


def functions_of_headers():
    """The names of the functions that the headers declare."""
    texts = "".join(map(text_of, sorted(glob.glob(f"{ROOT}/include/*.h"))))
    return sorted(re.findall(r"(?m)^(?:tl_status|uint8_t|uint32_t|void) (tl_[a-z_]*)\(", texts))


def words_over_ci(workspace, crate):
    """The words by which `rattle` builds a static library over the libraries that `rt ci` made."""
    kit, libraries = workspace.kit, workspace.libraries
    rlibs = f"{ROOT}/crates/{{0}}/out/rlib"
    words = [f"{kit}/bin/rattle", "build", "--crate-name", crate, "src/lib.rt", "--crate-type", "staticlib", "--jobs", "1"]
    words += ["--links", f"{crate}=", "--toolchain", f"{kit}/toolchain", "--backend", "llvm"]
    words += ["--antt-project", f"{kit}/rattle/logic/antt-project.json", "--logic-built", f"{kit}/logic_built"]
    for it in ["std", *libraries[crate]]:
        words += ["--extern", f"{it}={rlibs.format(it) if it in libraries else kit + '/rlibs'}/{it}.rlib"]
    for it in [f"{kit}/rlibs", *map(rlibs.format, workspace.below(crate))]:
        words += ["-L", f"dependency={it}"]
    return [*words, "-o", f"out/lib{crate}.a"]


def build(workspace, crate, over_ci, unproved):
    """The path of the static library of a crate, which is built."""
    if unproved:
        return unproved_library.build(workspace, crate)
    folder = workspace.folder(crate)
    os.makedirs(f"{folder}/out", exist_ok=True)
    words = words_over_ci(workspace, crate) if over_ci else ["rt", "lib", "--jobs", "1"]
    must(words, f"{crate} is not built", cwd=folder)
    return f"{folder}/out/lib{crate}.a"


def make(archive, over_ci=False, unproved=False):
    """Makes the archive at a path."""
    workspace, archive, in_headers = Workspace(), os.path.abspath(archive), functions_of_headers()
    with tempfile.TemporaryDirectory(prefix="x-library-") as room:
        put(f"{room}/shown", "".join(f"{it}\n" for it in in_headers))
        in_libraries, objects = [], []
        for crate in workspace.statics:
            library, joined = build(workspace, crate, over_ci, unproved), f"{room}/{crate}.o"
            names = must(["nm", "--defined-only", "-g", "-j", library], "no names").out.decode().splitlines()
            in_libraries += [it for it in names if re.fullmatch(r"\w+", it)]
            # (each has a copy of what it stands on, whose names are hidden before the copies meet)
            why = f"{crate} is not joined with the heap"
            must(["ld", "-r", "--whole-archive", library, f"{workspace.kit}/c/liblibc_c.a", "-o", joined], why)
            must(["objcopy", f"--keep-global-symbols={room}/shown", joined], why)
            objects.append(joined)
        apart = sorted(set(in_headers) ^ set(in_libraries))
        if apart or len(set(in_libraries)) != len(in_libraries):
            raise Stop(f"headers and libraries don't have the same functions: {' '.join(apart or sorted(in_libraries))}")
        if os.path.exists(archive):
            os.remove(archive)
        must(["ar", "rcsD", archive, *sorted(objects)], "no archive")


def make_shared(archive, shared):
    """Links a shared library of the archive. It shows what the archive shows."""
    words = ["cc", "-shared", "-o", shared, f"-Wl,-soname,{SONAME}", "-Wl,-z,defs", "-Wl,-z,now", "-Wl,--build-id=sha1"]
    must([*words, "-Wl,--whole-archive", archive, "-Wl,--no-whole-archive"], "no shared library")


def install_beside(folder):
    """Puts all that stands beside the archive into a folder that has it."""
    version = Workspace().version
    shared = f"libtl.so.{version}"
    make_shared(f"{folder}/lib/libtl.a", f"{folder}/lib/{shared}")
    for name in (SONAME, "libtl.so"):
        if os.path.lexists(f"{folder}/lib/{name}"):
            os.remove(f"{folder}/lib/{name}")
        os.symlink(shared, f"{folder}/lib/{name}")
    put(f"{folder}/lib/pkgconfig/libtl.pc", PC.format(version=version))
    for file in glob.glob(f"{ROOT}/include/*.h"):
        put(f"{folder}/include/{os.path.basename(file)}", text_of(file))


def install(folder, over_ci=False, unproved=False):
    """Makes the library and puts all of it into a folder."""
    os.makedirs(f"{folder}/lib", exist_ok=True)
    make(f"{folder}/lib/libtl.a", over_ci, unproved)
    install_beside(folder)


def add_builds(parser):
    """The words that say how the library is built."""
    parser.add_argument("--over-ci", action="store_true")
    parser.add_argument("--unproved", action="store_true")


def main(parser, words):
    add_builds(parser)
    parser.add_argument("--install", metavar="DIR")
    parser.add_argument("archive", nargs="?", metavar="FILE")
    given = parser.parse_args(words)
    if bool(given.install) == bool(given.archive):
        parser.error("FILE or --install DIR says where it goes")
    if given.install:
        install(os.path.abspath(given.install), given.over_ci, given.unproved)
        return 0
    if not os.path.isdir(os.path.dirname(os.path.abspath(given.archive))):
        parser.error(f"{os.path.dirname(given.archive)} is no folder")
    make(given.archive, given.over_ci, given.unproved)
    return 0
