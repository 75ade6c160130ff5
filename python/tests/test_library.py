"""A library of another interface is not called: it is refused by its name."""

import os
import shutil
import subprocess
import sys
import unittest

from support import ROOT, FolderTest
from crr import interface

COMPILER = shutil.which("cc") or shutil.which("gcc")
NEVER_CALLED = "unsigned long crr_month_hours(void) { __builtin_trap(); }"


@unittest.skipUnless(COMPILER, "no C compiler to make another library with")
class OtherLibrary(FolderTest):
    def refused(self, source):
        """What the command says, given a library made of this C."""
        library = self.folder / "libother.so"
        made = [str(COMPILER), "-shared", "-o", str(library), "-x", "c", "-"]
        subprocess.run(made, input=source, text=True, check=True)
        words = [sys.executable, "-m", "crr", "hours", "2024-01"]
        path = {**os.environ, "PYTHONPATH": str(ROOT / "python" / "src"), "CRR_LIBRARY": str(library)}
        pipe = subprocess.PIPE
        done = subprocess.run(words, env=path, stdout=pipe, stderr=pipe, universal_newlines=True)
        self.assertEqual((done.returncode, done.stdout), (2, ""))
        self.assertIn(str(library), done.stderr)
        self.assertNotIn("Traceback", done.stderr)
        return done.stderr

    def test_another_number(self):
        other = interface.INTERFACE + 1
        reason = self.refused(f"unsigned long crr_interface(void) {{ return {other}; }} {NEVER_CALLED}")
        self.assertIn(f"has interface {other}, and this package is for {interface.INTERFACE}", reason)

    def test_no_number(self):
        self.assertIn("does not tell its interface", self.refused(NEVER_CALLED))


if __name__ == "__main__":
    unittest.main()
