"""Puts the library that TLHTML_LIBRARY names into the wheel, which is then of this platform; without it the wheel is of any, and looks
for an installed libtl where it runs. One whose library takes no later glibc than 2.17 says so (PEP 600), so pip takes it on any Linux
that has that."""
import os
import re
import shutil

from setuptools import Distribution, setup
from setuptools.command.build_py import build_py
from wheel.bdist_wheel import bdist_wheel

LIBRARY = os.environ.get("TLHTML_LIBRARY")


class OfPlatform(Distribution):
    def has_ext_modules(self):
        return bool(LIBRARY)


class BuildWithLibrary(build_py):
    def run(self):
        super().run()
        if LIBRARY:
            shutil.copy(LIBRARY, os.path.join(self.build_lib, "tlhtml", "libtl.so"))


def is_for_many():
    """Whether the library takes no later glibc than 2.17."""
    with open(LIBRARY, "rb") as file:
        taken = re.findall(rb"GLIBC_(\d+)\.(\d+)", file.read())
    return all((int(major), int(minor)) <= (2, 17) for major, minor in taken)


class WheelOfAnyPython(bdist_wheel):
    def get_tag(self):
        platform = super().get_tag()[2]
        if LIBRARY and platform.startswith("linux_") and is_for_many():
            platform = f"manylinux_2_17_{platform[len('linux_'):]}"
        return ("py3", "none", platform)


setup(distclass=OfPlatform, cmdclass={"build_py": BuildWithLibrary, "bdist_wheel": WheelOfAnyPython})
