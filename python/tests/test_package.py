"""The package as others get it: a wheel in a fresh environment, its version, types that mypy accepts.

What a machine lacks for a test is skipped and said.
"""

import importlib.util
import json
import os
import shutil
import subprocess
import sys
import tarfile
import unittest
import zipfile
from hashlib import sha256

from support import IEEE14, ROOT, FolderTest, command
from crr.library import LIBRARIES, library_name, library_path, page_path
import crr

PACKING = ("pip", "setuptools", "wheel", "venv")


def missing(*modules):
    return [name for name in modules if importlib.util.find_spec(name) is None]


def packing_python():
    """This Python or the system's, whichever has what packing needs; None where neither has."""
    asked = f"import importlib.util as u, sys; sys.exit(not all(map(u.find_spec, {PACKING})))"
    pythons = (python for python in (sys.executable, "/usr/bin/python3") if os.path.exists(python))
    return next((python for python in pythons if run(python, "-c", asked).returncode == 0), None)


def run(*arguments, **options):
    words = [str(argument) for argument in arguments]
    return subprocess.run(words, stdout=subprocess.PIPE, stderr=subprocess.STDOUT, **options)


class Wheel(FolderTest):
    """Of a clone with nothing but what the package and its library are made from: no kit, no compiler."""

    def setUp(self):
        super().setUp()
        self.python = packing_python()
        if self.python is None:
            self.skipTest(f"not installed: {', '.join(missing(*PACKING))}")
        ignored = shutil.ignore_patterns("tests", "build", "*.egg-info", "__pycache__")
        shutil.copytree(ROOT / "python", self.folder / "clone" / "python", ignore=ignored)
        for name in ("crates", "crates.txt", "include", "js", "dist", "target"):
            os.symlink(ROOT / name, self.folder / "clone" / name)

    def pip(self, *arguments, machine=""):
        library = os.environ.get("CRR_LIBRARY", "")
        environment = {"PATH": "", "CRR_LIBRARY": library, "CRR_WHEEL": machine}
        return run(self.python, "-m", "pip", *arguments, env=environment, cwd=self.folder / "clone")

    def make_wheel(self, machine=""):
        options = ("--no-index", "--no-build-isolation", "--no-deps", "-w", self.folder)
        return self.pip("wheel", *options, "./python", machine=machine)

    def test_it_runs_with_nothing_else(self):
        built = self.make_wheel()
        self.assertEqual(built.returncode, 0, built.stdout.decode())
        wheel = next(self.folder.glob("crr-*-py3-none-manylinux_2_17_x86_64.manylinux2014_x86_64.whl"))
        from_dist = not os.environ.get("CRR_LIBRARY") and library_path().parts[-2] != "sharedlib"
        name = library_name() if from_dist else "libcrr.so"
        with zipfile.ZipFile(wheel) as packed:
            self.assertEqual(packed.read(f"crr/{name}"), library_path().read_bytes())
        run(self.python, "-m", "venv", "--without-pip", self.folder / "venv", check=True)
        place = self.folder / "venv" / "bin"
        installed = self.pip("--python", place / "python", "install", "--no-index", wheel)
        self.assertEqual(installed.returncode, 0, installed.stdout.decode())
        alone = {"env": {}, "cwd": self.folder}
        verdicts = run(place / "crr", "test", IEEE14, **alone)
        status, out, err = command("test", IEEE14)
        self.assertEqual((verdicts.returncode, verdicts.stdout.decode()), (status, out + err))
        lines = run(place / "crr", "--version", **alone).stdout.decode().splitlines()
        self.assertEqual((lines[0], lines[2]), (f"crr {crr.__version__}", "from    the installed package"))
        package = next(place.parent.rglob("crr/native.py")).parent.resolve()
        self.assertEqual(lines[1], f"library {package / name}")
        if from_dist:
            made = run(place / "crr", "page", "-o", self.folder / "page.html", **alone)
            self.assertEqual(made.returncode, 0, made.stdout.decode())
            self.assertEqual((self.folder / "page.html").read_bytes(), page_path().read_bytes())

    def test_sources_have_the_page(self):
        if library_path().parts[-2] == "sharedlib":
            self.skipTest("dist/ is of other sources")
        place = self.folder / "clone" / "python"
        made = run(self.python, "setup.py", "-q", "sdist", "-d", self.folder, cwd=place)
        self.assertEqual(made.returncode, 0, made.stdout.decode())
        name = f"crr-{crr.__version__}"
        with tarfile.open(self.folder / f"{name}.tar.gz") as packed:
            page = packed.extractfile(f"{name}/src/crr/page.html").read()
        self.assertEqual(page, page_path().read_bytes())

    def test_other_machines(self):
        """Their wheels carry the libraries of dist/, each file where crr/library.py looks for it."""
        if library_path().parts[-2] == "sharedlib":
            self.skipTest("dist/ is of other sources")
        tags = {"aarch64-linux": "manylinux_2_17_aarch64.manylinux2014_aarch64"}
        tags["x86-64-windows"] = "win_amd64"
        for machine, tag in tags.items():
            built = self.make_wheel(machine)
            self.assertEqual(built.returncode, 0, built.stdout.decode())
            wheel = next(self.folder.glob(f"crr-*-py3-none-{tag}.whl"))
            with zipfile.ZipFile(wheel) as packed:
                names = [name[len("crr/") :] for name in packed.namelist() if name.endswith((".so", ".dll"))]
                self.assertEqual(names, LIBRARIES[machine])
                for name in names:
                    shipped = ROOT / "dist" / machine / name
                    self.assertEqual(packed.read(f"crr/{name}"), shipped.read_bytes())
        unknown = self.make_wheel("pdp11-unix")
        self.assertNotEqual(unknown.returncode, 0)
        self.assertIn("no library for pdp11-unix", unknown.stdout.decode())

    def test_a_library_of_other_sources_is_not_packed(self):
        if os.environ.get("CRR_LIBRARY"):
            self.skipTest("CRR_LIBRARY names the library")
        clone = self.folder / "clone"
        os.unlink(clone / "include")
        shutil.copytree(ROOT / "include", clone / "include")
        with open(clone / "include" / "crr.h", "a") as header:
            header.write("/* another */\n")
        built = self.make_wheel()
        self.assertNotEqual(built.returncode, 0)
        self.assertIn("include/crr.h is not the file of MADE-FROM", built.stdout.decode())


class Version(unittest.TestCase):
    def test_it_names_the_library(self):
        status, text, said = command("--version")
        hashed = sha256(library_path().read_bytes()).hexdigest()
        lines = text.splitlines()
        self.assertEqual((status, said), (0, ""))
        about = [f"crr {crr.__version__}", f"library {library_path()}", f"sha256  {hashed}"]
        self.assertEqual(lines[:2] + lines[3:], about)
        self.assertRegex(lines[2], "^from    (dist/, made from |./library, built from |CRR_LIBRARY$)")

    def test_json(self):
        lines = command("--version")[1].splitlines()
        for asked in (("--json", "--version"), ("--version", "--json")):
            status, text, said = command(*asked)
            self.assertEqual((status, said), (0, ""))
            given = json.loads(text)
            self.assertEqual(given.pop("version"), crr.__version__)
            self.assertEqual([f"{name:<7} {value}" for name, value in given.items()], lines[1:])


class Types(FolderTest):
    def test_mypy(self):
        command = [sys.executable, "-m", "mypy"] if not missing("mypy") else [shutil.which("mypy")]
        if command == [None]:
            self.skipTest("mypy is not installed")
        done = run(*command, "--strict", "--cache-dir", self.folder, ROOT / "python" / "src" / "crr")
        self.assertEqual(done.returncode, 0, done.stdout.decode())

    def test_style(self):
        files = {path: 110 for path in [*(ROOT / "python").rglob("*.py"), ROOT / "python" / "tests" / "run"]}
        for path, longest in {**files, ROOT / "examples" / "ieee14" / "make": 165}.items():
            lines = path.read_text(encoding="utf-8").splitlines()
            self.assertLessEqual(len(lines), 500, path)
            self.assertLessEqual(max(map(len, lines), default=0), longest, path)


if __name__ == "__main__":
    unittest.main()
