"""Makes the packages of a release, for those who have neither the toolchain nor a proof.

    ./x release VERSION             into the folder release
    ./x release --of DIR VERSION    a .deb, a wheel and a crate of a folder as the tarball has it, to try them: of ./x library --unproved too

They are tl-VERSION-x86_64.tar.gz, a .deb, a wheel for Python and a crate for Rust with the library inside; ./x installed installs each
in an empty root and runs it there. The tarball has the programs, `tl-static`, which is `tl` with the C library inside, their manual
page and completions, the library for C, static and shared, with its headers and libtl.pc, the packages for Rust and Python and the
callers in C, the documents, the licence, the README, and a note that says what they were proved and built with. First the gate and
./x mutants have to pass. VERSION is that of the sources (`VERSION` of crates/tl_page) and of a heading of CHANGELOG.md, and what is
packed is a commit, without times, owners and an order of files of its own. It is tried as it is packed. The same commit, the same kit
and the same C library give the same bytes. It takes cc, the static C library, strip, readelf and dpkg-deb (Debian: gcc, libc6-dev,
binutils, dpkg), and a Python with pip, setuptools and wheel.
"""
import hashlib
import os
import re
import shutil
import tempfile

from .. import packages
from ..programs import crate_of
from ..running import must
from ..workspace import ROOT, Stop, Workspace, put, rt, text_of
from . import bindings, library, runs

# The programs that are packed.
PROGRAMS = ("tl", "tlq")
# The program that is packed once more, with the C library inside.
STATIC = "tl"


def git(*words):
    return must(["git", *words], "git failed", cwd=ROOT).out.decode().strip()


def check_version(workspace, version):
    """Looks whether the sources and the documents say this version, and whether what stands here is a commit."""
    if version != workspace.version:
        raise Stop(f"the version of the sources is {workspace.version}")
    if not re.search(rf"(?m)^## {re.escape(version)}$", text_of(f"{ROOT}/CHANGELOG.md")):
        raise Stop(f"CHANGELOG.md has no heading `## {version}`")
    if git("status", "--porcelain"):
        raise Stop("what stands here is no commit: git status")


def pack_program(workspace, program, to):
    """Proves a program where it isn't, builds it, and puts it into the package without its symbols."""
    crate = crate_of(workspace, program)
    folder = workspace.folder(crate)
    must(["rt", "run", "--", "print"], f"{program} is not built", cwd=folder)
    must(["strip", "-o", f"{to}/bin/{program}", f"{folder}/out/{crate}"], "no strip")


def pack_static(workspace, program, to):
    """Links a program with the C library inside, of the object that it was built of, and puts it into the package."""
    crate = crate_of(workspace, program)
    parts = [f"{workspace.folder(crate)}/out/{crate}.o", *(f"{workspace.kit}/c/lib{it}_c.a" for it in ("os", "libc"))]
    words = ["cc", "-static", "-s", "-Wl,--gc-sections", "-o", f"{to}/bin/{program}-static", *parts, "-lm"]
    must(words, f"{program} is not linked with the C library inside")


def pack_tracked(folder, to):
    """Puts the files of a folder of the commit into the package."""
    for file in git("ls-files", "-z", folder).split("\0"):
        if file:
            os.makedirs(os.path.dirname(f"{to}/{file}"), exist_ok=True)
            shutil.copy(f"{ROOT}/{file}", f"{to}/{file}")


def try_package(packed):
    """Tries what is packed."""
    if not runs.check(["tests/tl.t", "tests/tlq.t", "tests/documents.t"], folder=f"{packed}/bin"):
        raise Stop("a packed program does not do what it should")
    bindings.check(packed)


def make_folder(workspace, version, packed):
    """Makes the folder that the tarball has, and tries it."""
    for it in ("bin", "lib"):
        os.makedirs(f"{packed}/{it}")
    for it in PROGRAMS:
        pack_program(workspace, it, packed)
    pack_static(workspace, STATIC, packed)
    library.install(packed)
    for it in ("share", "docs", "bindings"):
        pack_tracked(it, packed)
    for it in ("LICENSE", "README.md", "INSTALL.md", "CHANGELOG.md", "ARCHITECTURE.md", "CONTRIBUTING.md"):
        shutil.copy(f"{ROOT}/{it}", packed)
    note = [f"tl {version}, commit {git('rev-parse', 'HEAD')}", f"proved and built with {rt('version').splitlines()[0]}"]
    note += [f"needs glibc {packages.least_c_library(packed)} or later, on x86-64-v2"]
    put(f"{packed}/BUILT", "\n".join(note) + "\n")
    try_package(packed)


def make_tarball(workspace, version, to, when):
    """Makes the tarball and all that is made of its folder, and returns their paths."""
    name = f"tl-{version}-x86_64"
    with tempfile.TemporaryDirectory(prefix="x-release-") as room:
        make_folder(workspace, version, f"{room}/{name}")
        with open(f"{to}/{name}.tar.gz", "wb") as it:
            it.write(packages.packed_tar(room, name, when))
        return [f"{to}/{name}.tar.gz", *packages.make_all(f"{room}/{name}", version, to, when)]


def main(parser, words):
    parser.add_argument("--of", metavar="DIR")
    parser.add_argument("version", metavar="VERSION")
    given = parser.parse_args(words)
    workspace, to, when = Workspace(), f"{ROOT}/release", int(git("show", "-s", "--format=%ct", "HEAD"))
    os.makedirs(to, exist_ok=True)
    if given.of:
        made = packages.make_all(os.path.abspath(given.of), given.version, to, when)
    else:
        check_version(workspace, given.version)
        made = make_tarball(workspace, given.version, to, when)
    for file in made:
        with open(file, "rb") as it:
            print(f"{hashlib.sha256(it.read()).hexdigest()}  {os.path.relpath(file, ROOT)}")
    return 0
