"""Which library a processor takes: by the package and by ./crr alike."""

import shutil
import subprocess
import unittest
from unittest import mock

from support import ROOT, FolderTest
from crr import library

# The flags of a processor of 2003 and of one with AVX2, as Linux tells them.
OLD = "flags\t\t: fpu cx8 cmov mmx fxsr sse sse2 syscall lm"
V2 = f"{OLD} cx16 lahf_lm popcnt sse4_1 sse4_2 ssse3"
V3 = f"{V2} avx avx2 bmi1 bmi2 f16c fma abm movbe xsave"
TOLD = {
    f"processor\t: 0\n{V3}\nbugs\t\t: none\n": library.V3,
    f"processor\t: 0\n{V3}": library.V3,
    f"{OLD}\n": "libcrr.so",
    f"{V2}\n": "libcrr.so",
    f"{V3.replace(' abm', '')}\n": "libcrr.so",
    f"{V3.replace(' avx2', ' avx2x')}\n": "libcrr.so",
    "Features\t: fp asimd\n": "libcrr.so",
    "": "libcrr.so",
}


class Processor(FolderTest):
    def taken(self, flags, machine="x86-64-linux"):
        with mock.patch.object(library, "processor_flags", lambda: flags), mock.patch.object(
            library, "this_machine", lambda: machine
        ):
            library.library_name.cache_clear()
            try:
                return library.library_name()
            finally:
                library.library_name.cache_clear()

    def by_shell(self, file):
        script = f'. {ROOT}/tools/sources.sh; machine=x86-64-linux; shared_library_name "$1"'
        words = ["bash", "-c", script, "bash", str(file)]
        done = subprocess.run(words, cwd=self.folder, stdout=subprocess.PIPE, check=True)
        return done.stdout.decode().strip()

    def test_flags(self):
        file, best = self.folder / "cpuinfo", self.folder / "dist" / "x86-64-linux" / library.V3
        best.parent.mkdir(parents=True)
        best.write_text("")
        for text, name in TOLD.items():
            file.write_text(text)
            self.assertEqual(self.taken(library.processor_flags(file)), name, text)
            if shutil.which("bash"):
                self.assertEqual(self.by_shell(file), name, text)
        self.assertEqual(library.processor_flags(self.folder / "none"), set())
        best.unlink()
        file.write_text(V3)
        self.assertEqual(self.by_shell(file), "libcrr.so")

    def test_other_machines(self):
        self.assertEqual(self.taken(set(), "aarch64-linux"), "libcrr.so")
        self.assertEqual(self.taken(set(), "x86-64-windows"), "crr.dll")

    def test_names(self):
        named = {("x86_64", "linux"): "x86-64-linux", ("AMD64", "win32"): "x86-64-windows"}
        named[("aarch64", "linux")] = "aarch64-linux"
        for (machine, system), name in named.items():
            with mock.patch("platform.machine", lambda: machine), mock.patch("sys.platform", system):
                self.assertEqual(library.this_machine(), name)


if __name__ == "__main__":
    unittest.main()
