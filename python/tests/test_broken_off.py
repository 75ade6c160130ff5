"""What is broken off: all is written or nothing, also at a full disk; Ctrl-C is one line and status 130."""

import builtins
import os
import resource
import shutil
import signal
import subprocess
import sys
import tempfile
import unittest
from functools import wraps
from pathlib import Path
from unittest import mock

from support import CASE_L, ENVIRONMENT, IEEE14, FolderTest, command, contents, everything, started
import crr.cli  # which knows all commands
from crr.command import COMMANDS

OPEN = open


class Broken:
    """Calls by which files are made and moved, the n-th of which fails."""

    CALLS = ((builtins, "open"), (os, "mkdir"), (os, "rename"), (os, "replace"))

    def __init__(self, folder, last, error):
        self.folder, self.last, self.error, self.count = str(folder), last, error, 0

    def _counting(self, real):
        def call(path, *arguments, **options):
            writes = real is not OPEN or any(mode in str(arguments[:1]) for mode in "wx")
            if writes and isinstance(path, (str, os.PathLike)) and os.fspath(path).startswith(self.folder):
                self.count += 1
                if self.count == self.last:
                    raise self.error
            return real(path, *arguments, **options)

        return call

    def __enter__(self):
        self.patches = [mock.patch.object(*call, self._counting(getattr(*call))) for call in self.CALLS]
        for patch in self.patches:
            patch.start()
        return self

    def __exit__(self, *_):
        for patch in self.patches:
            patch.stop()


class BrokenOff(FolderTest):
    def setUp(self):
        """A case of three hours, in CSV files, outside the folder that is looked at."""
        super().setUp()
        held = tempfile.TemporaryDirectory()
        self.addCleanup(held.cleanup)
        self.case = Path(held.name)
        command("unpack", CASE_L, "-o", self.case)
        hours = "2026-01-31,24,OFF,K0,1.00\n2026-02-01,1,OFF,,\n2026-02-02,8,ON,K1,2.50\n"
        (self.case / "prices.csv").write_text(
            f"OPR_DT,OPR_HR,TIME_OF_USE,CONSTRAINT_ID,SHADOW_PRICE\n{hours}"
        )

    def each(self, error, status, *arguments):
        """The command with the first, the second, .. of these calls failing, until none fails any more."""
        before = everything(self.folder)
        for last in range(1, 500):
            with Broken(self.folder, last, error) as broken:
                got = command(*arguments)
            if broken.count < last:
                self.assertEqual(got[0], 0)
                return last
            self.assertEqual(got[0], status, got)
            left = everything(self.folder)
            self.assertEqual(left, before, f"after call {last}: {got}")
            yield got[2]
        self.fail("there is no end to it")

    def packs(self, error, status, out):
        calls = 0
        for said in self.each(error, status, "pack", self.case, "-o", out, "--force"):
            calls += 1
            if status == 2:
                self.assertIn(" can't be written: No space left on device; nothing was changed\n", said)
                self.assertIn(f"crr: {out}", said)
        self.assertGreater(calls, 10)
        self.assertEqual(command("check", out)[0], 0)

    def test_new_folder(self):
        full = OSError(28, os.strerror(28))
        self.packs(full, 2, self.folder / "below" / "again" / "packed")
        shutil.rmtree(self.folder / "below")
        self.packs(KeyboardInterrupt(), 130, self.folder / "packed")

    def test_folder_of_another_case(self):
        """What was there before is there after, whole."""
        book = self.case / "book.csv"
        book.write_text(book.read_text().replace(",10.000", ",9.000"))
        command("pack", self.case, "-o", self.folder / "packed")
        book.write_text(book.read_text().replace(",9.000", ",10.000"))
        (self.folder / "packed" / "note.txt").write_text("mine")
        os.remove(self.folder / "packed" / "names.csv")  # so that it is made anew, not replaced
        self.packs(OSError(28, os.strerror(28)), 2, self.folder / "packed")
        self.assertEqual((self.folder / "packed" / "note.txt").read_text(), "mine")

    def test_results(self):
        command("settle", IEEE14, "-o", self.folder)
        full = OSError(28, os.strerror(28))
        calls = list(self.each(full, 2, "settle", CASE_L, "-o", self.folder))
        self.assertGreater(len(calls), 5)

    def test_single_file(self):
        (self.folder / "market.bin").write_text("mine")
        full = OSError(28, os.strerror(28))
        for said in self.each(full, 2, "market", CASE_L, "--file", self.folder / "market.bin", "--force"):
            why = "No space left on device; nothing was changed"
            self.assertEqual(said, f"crr: {self.folder / 'market.bin'} can't be written: {why}\n")

    def test_file_too_large(self):
        """In a process that may write grid.bin, book.bin and prices, but no file as large as names.csv."""
        command("pack", IEEE14, "-o", self.folder / "sizes")
        sizes = {name: len(data) for name, data in contents(self.folder / "sizes").items()}
        most = sizes.pop("names.csv") - 1
        self.assertGreater(most, max(sizes.values()))
        limit = lambda: resource.setrlimit(resource.RLIMIT_FSIZE, (most, most))
        done = started("pack", IEEE14, "-o", self.folder / "packed", preexec_fn=limit)
        names = self.folder / "packed" / "names.csv"
        said = f"crr: {names} can't be written: File too large; nothing was changed\n"
        self.assertEqual((done.communicate()[1].decode(), done.returncode), (said, 2))
        self.assertEqual(os.listdir(self.folder), ["sizes"])

    def test_not_read_back(self):
        with mock.patch("crr.packed.unpacked", return_value=None):
            status, _, err = command("pack", IEEE14, "-o", self.folder / "packed")
        why = "it does not read back as the same case; nothing was changed"
        said = f"crr: {self.folder / 'packed'} can't be written: {why}\n"
        self.assertEqual((status, err, os.listdir(self.folder)), (2, said, []))

    def test_killed(self):
        """Ended by force when all but the last file is there: what is left is no case."""
        code = (
            "import sys, time, crr.writing as w\n"
            "real = w._stage\n"
            "def slow(staged, folder, files, names):\n"
            "    real(staged, folder, files, list(names)[:-1])\n"
            "    print('waits', flush=True)\n"
            "    time.sleep(60)\n"
            "w._stage = slow\n"
            "from crr.cli import main\n"
            "sys.exit(main(sys.argv[1:]))\n"
        )
        arguments = [sys.executable, "-c", code, "pack", str(self.case), "-o", str(self.folder / "packed")]
        with subprocess.Popen(arguments, env=ENVIRONMENT, stdout=subprocess.PIPE) as process:
            said = process.stdout.readline()
            process.kill()
        self.assertEqual((said, process.returncode), (b"waits\n", -signal.SIGKILL))
        left = list(self.folder.iterdir())
        self.assertEqual([(path.name[:5], command("check", path)[0]) for path in left], [(".crr-", 2)])


class Interrupted(FolderTest):
    SAID = "crr: interrupted; nothing is left half written\n"

    def test_every_command(self):
        def interrupted(one):
            @wraps(one.function)
            def function(**_):
                raise KeyboardInterrupt

            return one._replace(function=function)

        given = {
            "remap": "case pairs -o out",
            "market": "case -o out",
            "in-force": "case 2026-07-01 -o out",
            "explain": "case A",
            "holder": "case 1",
            "same": "case other",
            "hub-mcc": "case hubs",
            "hub-add": "case hubs contracts -o out",
            "tiers": "case --period on --process lt",
            "migrate": "case rows loads --period on",
            "hours": "2026",
            "share": "1.00 demands",
            "help": "",
            "completion": "bash",
            "man": "",
            "grid": "branches -o out",
            "from-matpower": "case.m -o out",
            "page": "case -o out",
        }
        self.assertGreaterEqual(len(COMMANDS), 18)
        for name, one in COMMANDS.items():
            with mock.patch.dict(COMMANDS, {name: interrupted(one)}):
                try:
                    got = command(name, *given.get(name, "case").split())
                except KeyboardInterrupt:
                    self.fail(f"{name} ends in a traceback")
            self.assertEqual(got, (130, "", self.SAID), name)

    def said_by(self, process):
        """(status, what it said) of a process that is interrupted now."""
        os.killpg(process.pid, signal.SIGINT)
        out, err = process.communicate(timeout=30)
        return process.returncode, out.decode(), err.decode()

    def test_importing(self):
        """The installed command, interrupted while it imports the package."""
        code = (
            "import os, signal, sys\n"
            "signal.signal(signal.SIGINT, signal.default_int_handler)\n"  # a job behind `&` ignores it
            "class Finder:\n"
            "    def find_spec(self, name, *_):\n"
            "        if name == 'crr.native':\n"
            "            os.kill(os.getpid(), signal.SIGINT)\n"
            "sys.meta_path.insert(0, Finder())\n"
            "from crr_command import main\n"
            "sys.exit(main())\n"
        )
        done = subprocess.run(
            [sys.executable, "-c", code, "hours", "2026"], env=ENVIRONMENT, capture_output=True
        )
        self.assertEqual((done.returncode, done.stdout, done.stderr), (130, b"", b"crr: interrupted\n"))

    def test_reading(self):
        shutil.copytree(IEEE14, self.folder / "case")
        os.remove(self.folder / "case" / "book.csv")
        os.mkfifo(self.folder / "case" / "book.csv")
        for arguments in (("check",), ("settle",), ("pack", "-o", self.folder / "packed"), ("report",)):
            process = started(arguments[0], self.folder / "case", *arguments[1:], start_new_session=True)
            with open(self.folder / "case" / "book.csv", "wb"):  # opens when it is read
                self.assertEqual(self.said_by(process), (130, "", self.SAID), arguments)
        self.assertEqual(sorted(os.listdir(self.folder)), ["case"])
        self.assertEqual(len(os.listdir(self.folder / "case")), len(os.listdir(IEEE14)))

    def test_processes(self):
        """Workers say nothing, and none of them goes on."""
        command("pack", IEEE14, "-o", self.folder / "case")
        hour = self.folder / "case" / "prices" / "2026-08-01" / "HE24.bin"
        os.remove(hour)
        os.mkfifo(hour)
        process = started(
            "settle", self.folder / "case", "-j", 2, "-o", self.folder / "out", start_new_session=True
        )
        with open(hour, "wb"):
            self.assertEqual(self.said_by(process), (130, "", self.SAID))
        with self.assertRaises(ProcessLookupError):
            os.killpg(process.pid, 0)
        self.assertFalse((self.folder / "out").exists())


class Workers(FolderTest):
    def test_a_worker_that_is_killed(self):
        with mock.patch("crr.opening._end_at_once", os.abort):
            self.assertEqual(
                crr.cli.main(["settle", str(IEEE14), "-j", "2", "-o", str(self.folder / "out")]), 2
            )
        self.assertFalse((self.folder / "out").exists())


if __name__ == "__main__":
    unittest.main()
