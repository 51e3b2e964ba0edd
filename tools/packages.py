"""The packages that a release has beside its folder: a .deb, a wheel for Python, and a crate for Rust with the library inside. Each is
made of that folder, so nothing is built twice, and the same folder gives the same bytes."""
import glob
import gzip
import io
import os
import re
import shutil
import tarfile
import tempfile

from .running import must, run
from .workspace import ROOT, Stop, put, text_of

# Where Debian has each part of the folder. A pattern that ends with / is a folder.
DEBIAN = {
    "bin/tl": "usr/bin/tl",
    "bin/tlq": "usr/bin/tlq",
    "include/": "usr/include/",
    "lib/libtl.a": "usr/lib/x86_64-linux-gnu/libtl.a",
    "share/man/man1/tl.1": "usr/share/man/man1/tl.1",
    "share/bash-completion/completions/tl": "usr/share/bash-completion/completions/tl",
    "share/fish/vendor_completions.d/tl.fish": "usr/share/fish/vendor_completions.d/tl.fish",
    "share/zsh/site-functions/_tl": "usr/share/zsh/vendor-completions/_tl",
    "LICENSE": "usr/share/doc/tl/copyright",
    "CHANGELOG.md": "usr/share/doc/tl/changelog",
}
LIBRARIES = "usr/lib/x86_64-linux-gnu"
# What Debian wants compressed.
COMPRESSED = ("usr/share/man/man1/tl.1", "usr/share/doc/tl/changelog")
CONTROL = """Package: tl
Version: {version}
Architecture: amd64
Maintainer: the authors of tl <tl@localhost>
Installed-Size: {size}
Depends: libc6 (>= {libc})
Section: text
Priority: optional
Description: query, extract, edit and sanitize HTML
 The programs tl and tlq, and libtl for C, with a parser that is proved to
 build exactly the tree that the HTML standard says.
"""
PC = re.compile(r"(?m)^(prefix|libdir)=.*$")


def packed_tar(folder, name, when):
    """The bytes of a compressed archive of a folder: names in order, without owners, each of the same time."""

    def plain(it):
        it.uid = it.gid = 0
        it.uname = it.gname = ""
        it.mtime, it.mode = when, 0o755 if it.isdir() or it.mode & 0o100 else 0o644
        return it

    made = io.BytesIO()
    with tarfile.open(fileobj=made, mode="w", format=tarfile.USTAR_FORMAT) as archive:
        paths = [f"{at}/{it}" for at, folders, files in os.walk(f"{folder}/{name}") for it in [*folders, *files]]
        for path in [f"{folder}/{name}", *sorted(paths)]:
            archive.add(path, os.path.relpath(path, folder), recursive=False, filter=plain)
    return gzip.compress(made.getvalue(), 9, mtime=0)


def least_c_library(packed):
    """The least C library that the programs and the shared library of a folder run with."""
    said = must(["readelf", "-V", *glob.glob(f"{packed}/bin/*"), f"{packed}/lib/libtl.so"], "no readelf").out.decode()
    versions = {tuple(map(int, it.split("."))) for it in re.findall(r"GLIBC_([0-9.]+)", said)}
    return ".".join(map(str, max(versions)))


def _put_libraries(packed, root):
    """Puts the shared library, with its links, and what pkg-config says of it where Debian has them."""
    for file in glob.glob(f"{packed}/lib/libtl.so*"):
        shutil.copy(file, f"{root}/{LIBRARIES}/", follow_symlinks=False)
    places = {"prefix": "/usr", "libdir": f"/{LIBRARIES}"}
    said = PC.sub(lambda it: f"{it[1]}={places[it[1]]}", text_of(f"{packed}/lib/pkgconfig/libtl.pc"))
    put(f"{root}/{LIBRARIES}/pkgconfig/libtl.pc", said)


def _put_for_debian(packed, root):
    """Puts what a folder of a release has where Debian has it."""
    for part, place in DEBIAN.items():
        os.makedirs(os.path.dirname(f"{root}/{place}"), exist_ok=True)
        for file in glob.glob(f"{packed}/{part}*") if part.endswith("/") else [f"{packed}/{part}"]:
            shutil.copy(file, f"{root}/{place}")
    for place in COMPRESSED:
        with open(f"{root}/{place}", "rb") as it, open(f"{root}/{place}.gz", "wb") as made:
            made.write(gzip.compress(it.read(), 9, mtime=0))
        os.remove(f"{root}/{place}")
    _put_libraries(packed, root)


def make_deb(packed, version, to, when):
    """Makes the package for Debian of a folder of a release, and returns its path."""
    with tempfile.TemporaryDirectory(prefix="x-release-") as root:
        _put_for_debian(packed, root)
        size = sum(os.lstat(f"{at}/{it}").st_size for at, _, files in os.walk(root) for it in files) // 1024 + 1
        put(f"{root}/DEBIAN/control", CONTROL.format(version=version, size=size, libc=least_c_library(packed)))
        for at, folders, files in os.walk(root):
            for it in folders:
                os.chmod(f"{at}/{it}", 0o755)
            for it in files:
                if not os.path.islink(f"{at}/{it}"):
                    os.chmod(f"{at}/{it}", 0o755 if at.endswith("/bin") else 0o644)
        os.chmod(root, 0o755)
        file = f"{to}/tl_{version}_amd64.deb"
        words = ["dpkg-deb", "--root-owner-group", "-Zxz", "--build", root, file]
        must(words, "no package for Debian", env={**os.environ, "SOURCE_DATE_EPOCH": str(when)})
    return file


def has_modules(python, *modules):
    """Whether there is such a Python, and it has these modules."""
    program = "import importlib.util, sys; sys.exit(not all(map(importlib.util.find_spec, sys.argv[1:])))"
    return bool(shutil.which(python)) and not run([python, "-c", program, *modules]).status


def python_for_wheels():
    """A Python that makes wheels without a network, where there is one."""
    return next((it for it in ("python3", "/usr/bin/python3") if has_modules(it, "pip", "setuptools", "wheel")), None)


def make_wheel(packed, version, to, when=None):
    """Makes the wheel of a folder of a release, of an sdist and with the shared library inside, and returns its path."""
    python = python_for_wheels()
    if not python:
        raise Stop("no wheel: there is no Python with pip, setuptools and wheel")
    with tempfile.TemporaryDirectory(prefix="x-release-") as room:
        package = f"{room}/python"
        shutil.copytree(f"{ROOT}/bindings/python", package, ignore=shutil.ignore_patterns("__pycache__", "build", "*.egg-info"))
        env = {**os.environ, "TLHTML_LIBRARY": f"{packed}/lib/libtl.so", "TL_VERSION": version, "PYTHONPATH": package}
        env |= {"SOURCE_DATE_EPOCH": str(when)} if when else {}
        must([python, "setup.py", "-q", "sdist", "-d", f"{room}/sdist"], "no sdist", env=env, cwd=package)
        words = [python, "-m", "pip", "wheel", "-q", "--no-deps", "--no-build-isolation", "--no-index", "-w", to]
        must([*words, *glob.glob(f"{room}/sdist/*.tar.gz")], "no wheel", env=env)
    return glob.glob(f"{to}/tlhtml-{version}-*.whl")[0]


def make_crate(packed, version, to, when):
    """Makes the crate for Rust of a folder of a release, with the archive inside, and returns its path."""
    name = f"tlhtml-{version}"
    with tempfile.TemporaryDirectory(prefix="x-release-") as room:
        shutil.copytree(f"{ROOT}/bindings/rust", f"{room}/{name}", ignore=shutil.ignore_patterns("target", "Cargo.lock"))
        os.makedirs(f"{room}/{name}/lib")
        shutil.copy(f"{packed}/lib/libtl.a", f"{room}/{name}/lib/")
        shutil.copy(f"{ROOT}/LICENSE", f"{room}/{name}/")
        with open(f"{to}/{name}.crate", "wb") as it:
            it.write(packed_tar(room, name, when))
    return f"{to}/{name}.crate"


def make_all(packed, version, to, when):
    """Makes each package of a folder of a release, and returns their paths."""
    return [make(packed, version, to, when) for make in (make_deb, make_wheel, make_crate)]
