"""Installs each package of a release in an empty root, and runs it there.

    ./x installed            those in the folder release, which ./x release made
    ./x installed FOLDER     those in another folder

A root has nothing but the package and what it says it needs: the C library for programs, and Python for the wheel. The .deb is
installed by dpkg, the wheel by pip, the tarball by copying it to /usr/local; a program in C is linked with the library of the first
and the last. A program in Rust over the crate is built outside, by a cargo that knows of nothing else, and run in a root. The examples
are those of README.md. It takes root, dpkg, cc, pkg-config and cargo; a package whose tools aren't there is named at the end.
"""
import glob
import os
import re
import shutil
import sys
import tarfile
import tempfile

from ..packages import python_for_wheels
from ..running import must, run
from ..workspace import ROOT, Stop, put, text_of

# What each program writes of a page, with the words that it takes: `tl print` with what browsers put in.
PAGE, PRINT = b"<p>a<b>c", b"<p>a<b>c</b></p>"
WHOLE = b"<html><head></head><body>%s</body></html>" % PRINT
RUNS = {"tl": {"print": WHOLE, "sanitize": PRINT}, "tl-static": {"print": WHOLE, "sanitize": PRINT}, "tlq": {"print": PRINT}}
# What the example of each language writes.
WRITTEN = {"python": b"/x?a=1&b Bread & butter\n", "rust": b'Some("/x?a=1&b") Bread & butter\n'}
LIBC = """Package: libc6
Status: install ok installed
Architecture: amd64
Maintainer: nobody
Version: {version}
Description: the C library of this machine
"""
C_PROGRAM = """#include "tl.h"
#include <stdio.h>
int main(void) {
    tl_document document = TL_NO_DOCUMENT;
    tl_status status = tl_parse_html((const uint8_t *)"<p>a", 4, &document);
    printf("%s %s\\n", tl_status_text(status), TL_VERSION);
    tl_free(&document);
    return status != TL_DONE;
}
"""
RUST_PROGRAM = "use tlhtml::Document;\n\nfn main() -> Result<(), tlhtml::Error> {{\n{}    Ok(())\n}}\n"


def example(language):
    """The lines that README.md shows of a language."""
    return re.search(rf"```{language}\n(.*?)```", text_of(f"{ROOT}/README.md"), re.S)[1]


def libraries_of(file):
    """The shared libraries that a program or a library is loaded with; none with one that has all inside."""
    return re.findall(r"/\S+(?= \()", run(["ldd", file]).out.decode())


def put_libraries(root, *files):
    """Puts the libraries of this machine that files are loaded with into a root."""
    for library in {it for file in files for it in libraries_of(file)}:
        if library.startswith(f"{root}/"):
            continue
        os.makedirs(root + os.path.dirname(library), exist_ok=True)
        shutil.copy(os.path.realpath(library), root + library)


def run_in(root, wanted, *words, given=b"", **env):
    """Runs a program of a root, which has to write this."""
    ran = must([shutil.which("chroot"), root, *words], "it doesn't run in an empty root", given=given, env=env)
    if ran.out != wanted:
        raise Stop(f"{' '.join(words)}: in an empty root it wrote {ran.out!r}")


def run_programs(root, folder):
    """Runs each program that is installed in a folder of a root."""
    for program, wanted in RUNS.items():
        file = f"{folder}/{program}"
        if os.path.exists(root + file):
            put_libraries(root, root + file)
            for word, out in wanted.items():
                run_in(root, out, file, word, given=PAGE)


def run_c(root, folder):
    """Compiles a program in C with the library in a folder of a root, and runs it there."""
    put(f"{root}/program.c", C_PROGRAM)
    env = {**os.environ, "PKG_CONFIG_LIBDIR": f"{root}{folder}/pkgconfig"}
    if not folder.startswith("/usr/local"):
        env["PKG_CONFIG_SYSROOT_DIR"] = root
    flags = must(["pkg-config", "--cflags", "--libs", "libtl"], "libtl.pc is not right", env=env).out.decode().split()
    must(["cc", f"{root}/program.c", *flags, "-o", f"{root}/program"], "a program in C doesn't compile")
    version = re.search(r'TL_VERSION "(.*)"', text_of(f"{ROOT}/include/tl.h"))[1]
    run_in(root, f"done {version}\n".encode(), "/program", LD_LIBRARY_PATH=folder)


def try_tarball(file, root):
    """Copies the folder of the tarball to /usr/local."""
    with tarfile.open(file) as archive:
        archive.extractall(f"{root}/unpacked", filter="data")
    folder = glob.glob(f"{root}/unpacked/*")[0]
    for it in ("bin", "include", "lib", "share"):
        shutil.copytree(f"{folder}/{it}", f"{root}/usr/local/{it}", symlinks=True)
    run_programs(root, "/usr/local/bin")
    run_c(root, "/usr/local/lib")


def try_deb(file, root):
    """Installs the package for Debian where the C library alone is."""
    version = must(["dpkg-query", "-W", "-f", "${Version}", "libc6"], "no libc6").out.decode()
    put(f"{root}/var/lib/dpkg/status", LIBC.format(version=version))
    for it in ("info", "updates", "triggers"):
        os.makedirs(f"{root}/var/lib/dpkg/{it}")
    must(["dpkg", f"--root={root}", "--log=/dev/null", "-i", file], "dpkg doesn't install it")
    run_programs(root, "/usr/bin")
    run_c(root, "/usr/lib/x86_64-linux-gnu")
    must(["dpkg", f"--root={root}", "--log=/dev/null", "--purge", "tl"], "dpkg doesn't remove it")
    if os.path.exists(f"{root}/usr/bin/tl"):
        raise Stop("the program is there once the package is removed")


def put_python(root, python):
    """Puts a Python with pip into a root, and returns its path there."""
    said = must([python, "-c", "import sys; print(sys.base_prefix, sys.base_exec_prefix, *sys.version_info[:2])"], "no Python").out
    prefix, _, major, minor = said.decode().split()
    name, program = f"lib/python{major}.{minor}", f"{prefix}/bin/python{major}.{minor}"
    left_out = shutil.ignore_patterns("__pycache__", "test", "idlelib", "tkinter")
    for folder in (name, f"lib/python{major}"):
        if os.path.isdir(f"{prefix}/{folder}"):
            shutil.copytree(f"{prefix}/{folder}", f"{root}{prefix}/{folder}", symlinks=True, ignore=left_out)
    os.makedirs(f"{root}{prefix}/bin")
    shutil.copy(os.path.realpath(program), root + program)
    put_libraries(root, os.path.realpath(program), *glob.glob(f"{prefix}/{name}/lib-dynload/*.so"))
    for it in ("tmp", "dev"):
        os.makedirs(f"{root}/{it}", exist_ok=True)
    put(f"{root}/dev/null", "")
    return program


def try_wheel(file, root):
    """Installs the wheel by the pip of a Python that has nothing else, and runs the example."""
    python = python_for_wheels()
    if not python:
        return "no Python with pip"
    program = put_python(root, python)
    shutil.copy(file, root)
    words = ["-m", "pip", "install", "-q", "--no-index", "--root-user-action=ignore", "--break-system-packages"]
    run_in(root, b"", program, *words, f"/{os.path.basename(file)}", HOME="/tmp")
    run_in(root, WRITTEN["python"], program, "-c", example("python"))
    return None


def try_crate(file, root):
    """Builds a program over the crate where cargo knows of nothing else, and runs it in the root."""
    if not shutil.which("cargo"):
        return "no cargo"
    with tempfile.TemporaryDirectory(prefix="x-installed-") as room:
        with tarfile.open(file) as archive:
            archive.extractall(room, filter="data")
        path = glob.glob(f"{room}/tlhtml-*")[0]
        put(f"{room}/own/Cargo.toml", f'[package]\nname = "own"\nedition = "2024"\n\n[dependencies]\ntlhtml = {{ path = "{path}" }}\n')
        put(f"{room}/own/src/main.rs", RUST_PROGRAM.format(example("rust")))
        env = {it: os.environ[it] for it in ("PATH", "HOME", "RUSTUP_HOME") if it in os.environ}
        env |= {"PKG_CONFIG_LIBDIR": "/", "CARGO_TARGET_DIR": f"{room}/target"}
        must(["cargo", "build", "--offline", "--quiet"], "a program over the crate isn't built", cwd=f"{room}/own", env=env)
        shutil.copy(f"{room}/target/debug/own", f"{root}/own")
    put_libraries(root, f"{root}/own")
    run_in(root, WRITTEN["rust"], "/own")
    return None


PACKAGES = {"*.tar.gz": try_tarball, "*.deb": try_deb, "*.whl": try_wheel, "*.crate": try_crate}


def main(parser, words):
    parser.add_argument("folder", nargs="?", metavar="FOLDER", default=f"{ROOT}/release")
    folder = parser.parse_args(words).folder
    if os.getuid():
        raise Stop("it takes root to run a program in an empty root")
    for pattern, try_package in PACKAGES.items():
        for file in sorted(glob.glob(f"{folder}/{pattern}")) or [None]:
            if not file:
                print(f"installed: {folder} has no {pattern}", file=sys.stderr)
                continue
            with tempfile.TemporaryDirectory(prefix="x-installed-") as root:
                why = try_package(file, root)
            print(f"{os.path.basename(file)}: {f'not tried ({why})' if why else 'installed and run'}", flush=True)
    return 0
