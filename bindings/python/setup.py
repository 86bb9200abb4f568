"""Builds the wheel. If XV6VM_LIBRARY names libxv6vm.so, or the folder that has it, the wheel contains it, and is for this machine's platform."""
import os
import pathlib
import shutil

from setuptools import setup
from setuptools.command.build_py import build_py

try:
    from setuptools.command.bdist_wheel import bdist_wheel
except ImportError:
    from wheel.bdist_wheel import bdist_wheel

VARIABLE, NAME = "XV6VM_LIBRARY", "libxv6vm.so"


def shared_library():
    """The shared library that the environment names; None if it names none."""
    given = os.environ.get(VARIABLE)
    if not given:
        return None
    path = pathlib.Path(given)
    path = path / NAME if path.is_dir() else path
    if not path.is_file():
        raise SystemExit(f"{VARIABLE} is {given}, and there is no {path}. release/shared_library makes it.")
    return path


class BuildWithLibrary(build_py):
    def run(self):
        super().run()
        path, copy = shared_library(), pathlib.Path(self.build_lib) / "xv6vm" / NAME
        copy.unlink(missing_ok=True)
        if path is not None:
            shutil.copyfile(path, copy)


class PlatformWheel(bdist_wheel):
    """A wheel for any Python 3, and with the library for one platform."""

    def finalize_options(self):
        super().finalize_options()
        self.root_is_pure = shared_library() is None

    def get_tag(self):
        python, abi, platform = super().get_tag()
        return ("py3", "none", platform)


setup(cmdclass={"build_py": BuildWithLibrary, "bdist_wheel": PlatformWheel})
