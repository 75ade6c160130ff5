"""The gate with stand-ins for its steps: what is skipped is told, counted, and a failure where the
packages could be installed."""

import os
import re
import shutil
import subprocess
import unittest

from support import ROOT, FolderTest

LAST = "7 passed, 0 failed"
WELL = "rt: ok; handles allowed: none; must-fail edits: 5 refused; every proof was done in this run"


class Gate(FolderTest):
    def setUp(self):
        super().setUp()
        tools = ("tools/build.sh", "tools/machines.sh", "tools/sources.sh")
        for name in ("test", ".ci/run", "tests/python", "crates.txt", *tools):
            (self.folder / name).parent.mkdir(parents=True, exist_ok=True)
            shutil.copy(ROOT / name, self.folder / name)
        text = (ROOT / "test").read_text()
        steps = set(re.findall(r"\b(?:tests|python)/[a-z/]*run\b", text))
        self.assertGreater(len(steps), 10)
        for name in ("library", *steps):
            self.stand_in(name, "echo ran")
        self.stand_in("python/tests/run", "print('python: 3 passed, 0 failed, 0 skipped in 1 s')", "python3")
        self.stand_in("tests/setup", "exit 0")
        self.stand_in("bin/rt", f"echo '{WELL}'; echo {LAST}")
        (self.folder / "crates").mkdir()

    def stand_in(self, name, line, language="bash"):
        path = self.folder / name
        path.parent.mkdir(parents=True, exist_ok=True)
        path.write_text(f"#!/usr/bin/env {language}\n{line}\n")
        path.chmod(0o755)

    def ran(self, command, **variables):
        """(status, lines)"""
        path = f"{self.folder / 'bin'}:{os.environ['PATH']}"
        kept = {name: value for name, value in os.environ.items() if not name.startswith("CRR_NO_")}
        done = subprocess.run(
            [str(self.folder / command)],
            env={**kept, "PATH": path, **variables},
            stdout=subprocess.PIPE,
            stderr=subprocess.STDOUT,
        )
        return done.returncode, done.stdout.decode().splitlines()

    def test_nothing_skipped(self):
        self.stand_in("tests/crosscheck/run", "echo 'crosscheck: left out the proofs in Coq: too large'")
        status, lines = self.ran(".ci/run")
        self.assertEqual((status, lines[-1]), (0, LAST), lines)
        self.assertIn("0 skipped, 1 left out", "\n".join(lines))

    def test_a_skip_fails_where_packages_are_installed(self):
        self.stand_in("tests/lint/run", "echo 'lint: skipped 5 programs in C: cppcheck is not installed'")
        status, lines = self.ran(".ci/run")
        self.assertEqual((status, LAST in lines), (1, False), lines)
        self.assertIn("failed: skipped tests, with CRR_NO_SKIPS=1", lines[-1])
        self.assertEqual(self.ran("test", CRR_NO_SKIPS="1")[0], 1)
        self.assertEqual(self.ran("test")[0], 0)

    def test_a_skip_is_told_where_they_are_not(self):
        self.stand_in("tests/setup", "exit 1")
        said = "python: skipped test_x.X.test_y: numpy is not installed"
        self.stand_in("python/tests/run", f"print({said!r})", "python3")
        status, lines = self.ran(".ci/run")
        self.assertEqual((status, lines[-1], lines.count(said)), (0, LAST, 2), lines)
        self.assertIn("test: the packages above could not be installed", "\n".join(lines))

    def test_rt_ci_stands_alone_and_first(self):
        notes = '[ "$1" = version ] || ls -A > seen; echo "$*" >> called'
        self.stand_in("bin/rt", f"{notes}; echo '{WELL}'; echo {LAST}")
        before = {path.name for path in self.folder.iterdir()}
        self.assertEqual(self.ran(".ci/run")[0], 0)
        self.assertEqual((self.folder / "called").read_text().splitlines()[0], "ci")
        self.assertEqual(set((self.folder / "seen").read_text().split()), before | {"seen"})

    def test_bad_edits_are_a_failure(self):
        bad = WELL.replace("5 refused", "4 refused, 1 bad")
        self.stand_in("bin/rt", f"echo '{bad}'; echo {LAST}")
        status, lines = self.ran(".ci/run")
        self.assertEqual((status, LAST in lines), (1, False), lines)
        self.assertIn("must-fail edits are bad", lines[-1])

    def test_a_failed_proof_is_one(self):
        self.stand_in("bin/rt", "echo '6 passed, 1 failed'; exit 1")
        status, lines = self.ran(".ci/run")
        self.assertEqual((status, len(lines)), (1, 2), lines)
        self.assertIn("rt ci failed: 6 passed, 1 failed", lines[-1])

    def test_a_failure_is_one(self):
        self.stand_in("tests/interface/run", "exit 1")
        status, lines = self.ran(".ci/run")
        self.assertEqual((status, LAST in lines), (1, False), lines)


if __name__ == "__main__":
    unittest.main()
