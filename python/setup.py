"""Puts the shared library and the page for browsers into the package, those of dist/ where they are of these
sources (crr/library.py); a page of others is left out.

The wheel is tagged for any Python 3 on the machine that CRR_WHEEL names, x86-64-linux, aarch64-linux or
x86-64-windows, else on this one. Neither a compiler nor the Rattle kit is needed.
"""

import os
import shutil
import sys
from pathlib import Path

from setuptools import Distribution, setup
from setuptools.command.build_py import build_py
from setuptools.command.sdist import sdist

try:
    from setuptools.command.bdist_wheel import bdist_wheel
except ImportError:  # setuptools before 70.1
    from wheel.bdist_wheel import bdist_wheel

sys.path.insert(0, str(Path(__file__).resolve().parent / "src"))
from crr.library import libraries_to_pack, page_path, this_machine  # noqa: E402

# The library asks for memset and memcpy of any version. pip before 20.3 knows the second name alone.
TAGS = {
    "x86-64-linux": "manylinux_2_17_x86_64.manylinux2014_x86_64",
    "aarch64-linux": "manylinux_2_17_aarch64.manylinux2014_aarch64",
    "x86-64-windows": "win_amd64",
}
MACHINE = os.environ.get("CRR_WHEEL") or this_machine()
if MACHINE not in TAGS:
    raise SystemExit(f"no library for {MACHINE}: CRR_WHEEL names one of {', '.join(TAGS)}")


def put_page(package):
    """Copies the page to a package's folder."""
    try:
        shutil.copyfile(page_path(), package / "page.html")
    except FileNotFoundError as missing:
        print(f"crr page will not work: {missing}", file=sys.stderr)
    except shutil.SameFileError:  # an unpacked source package
        pass


class Build(build_py):
    def run(self):
        try:
            libraries = libraries_to_pack(MACHINE)
        except FileNotFoundError as missing:
            raise SystemExit(str(missing))
        package = Path(self.build_lib) / "crr"
        shutil.rmtree(package, ignore_errors=True)  # modules of an earlier build
        super().run()
        for name, library in libraries.items():
            (package / name).parent.mkdir(parents=True, exist_ok=True)
            shutil.copyfile(library, package / name)
        put_page(package)


class Source(sdist):
    def make_release_tree(self, base_dir, files):
        super().make_release_tree(base_dir, files)
        put_page(Path(base_dir) / "src" / "crr")


class Wheel(bdist_wheel):
    def finalize_options(self):
        super().finalize_options()
        self.root_is_pure = False

    def get_tag(self):
        return "py3", "none", TAGS[MACHINE]


class Binary(Distribution):
    def has_ext_modules(self):
        return True


setup(cmdclass={"build_py": Build, "bdist_wheel": Wheel, "sdist": Source}, distclass=Binary)
