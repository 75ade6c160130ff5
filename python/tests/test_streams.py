"""Status and streams: output that can't be written is status 2 and no traceback, names that a terminal can't
show are escaped; JSON."""

import json
import os
import shutil
import subprocess
import sys
import unittest

from support import CASE_L, IEEE14, IEEE14_HOURS, ROOT, FolderTest, command

FULL = os.path.exists("/dev/full")
RUN = [sys.executable, "-c", "import sys; from crr.cli import main; sys.exit(main())"]


class Streams(FolderTest):
    def run_crr(self, redirect, *arguments, **environment):
        """(status, output, errors) of the command in a shell that closes or fills a stream."""
        shell = " ".join(['"$@"', redirect])
        plain = {**os.environ, "PYTHONPATH": str(ROOT / "python" / "src"), "PYTHONUTF8": "0", **environment}
        done = subprocess.run(
            ["bash", "-c", shell, "bash", *RUN, *arguments],
            stdout=subprocess.PIPE,
            stderr=subprocess.PIPE,
            env=plain,
        )
        return done.returncode, done.stdout, done.stderr

    def test_closed_output(self):
        for arguments in (
            ("test", CASE_L),
            ("test", IEEE14),
            ("settle", CASE_L),
            ("test", IEEE14, "--json"),
            ("--help",),
            ("help", "test"),
        ):
            self.assertEqual(
                self.run_crr(">&-", *arguments),
                (2, b"", b"crr: the output can't be written: it is closed\n"),
                arguments,
            )

    def test_closed_errors(self):
        self.assertEqual(self.run_crr("2>&-", "test", CASE_L)[0], 0)  # it has nothing to say there
        self.assertEqual(self.run_crr("2>&-", "test", IEEE14)[0], 2)  # what it costs at worst
        self.assertEqual(self.run_crr("2>&-", "test", IEEE14, "--json")[0], 1)
        self.assertEqual(self.run_crr("2>&-", "settle", CASE_L)[0], 2)  # its totals
        self.assertEqual(self.run_crr("2>&-", "check", self.folder), (2, b"", b""))
        self.assertEqual(self.run_crr("2>&-", "tset"), (2, b"", b""))
        status, out, err = self.run_crr("2>&-", "check", self.folder, "--json")
        self.assertEqual((status, len(json.loads(out)["faults"]), err), (2, 1, b""))

    def test_both_closed(self):
        for arguments in (
            ("test", CASE_L),
            ("settle", IEEE14),
            ("check", self.folder),
            ("tset",),
            ("--help",),
        ):
            self.assertEqual(self.run_crr(">&- 2>&-", *arguments), (2, b"", b""))

    @unittest.skipUnless(FULL, "this machine has no /dev/full")
    def test_full(self):
        said = b"crr: the output can't be written: No space left on device\n"
        for arguments in (
            ("test", CASE_L),
            ("test", IEEE14),
            ("settle", IEEE14, "--json"),
            ("--help",),
            ("man",),
        ):
            self.assertEqual(self.run_crr(">/dev/full", *arguments), (2, b"", said), arguments)
        status, out, err = self.run_crr("2>/dev/full", "settle", CASE_L)
        self.assertEqual((status, out.count(b"\n"), err), (2, 4, b""))
        self.assertEqual(self.run_crr("2>/dev/full", "check", self.folder)[0], 2)
        self.assertEqual(self.run_crr(">/dev/full 2>/dev/full", "test", IEEE14), (2, b"", b""))

    def test_names_that_the_terminal_lacks(self):
        shutil.copytree(IEEE14, self.folder / "case")
        book = self.folder / "case" / "book.csv"
        book.write_text(
            book.read_text(encoding="utf-8").replace("Alder Power", "Ælder Pöwer"), encoding="utf-8"
        )
        status, out, err = self.run_crr("", "settle", self.folder / "case", PYTHONIOENCODING="ascii")
        self.assertEqual((status, out.splitlines()[1].split(b",")[0]), (0, rb"\xc6lder P\xf6wer"))
        status, out, _ = self.run_crr("", "settle", self.folder / "case", PYTHONIOENCODING="utf-8")
        self.assertEqual((status, out.splitlines()[1].split(b",")[0].decode()), (0, "Ælder Pöwer"))
        book.write_text(book.read_text(encoding="utf-8").replace("30.000", "x"), encoding="utf-8")
        self.assertEqual(self.run_crr("", "check", self.folder / "case", PYTHONIOENCODING="latin-1")[0], 2)

    def test_folders_that_are_not_utf_8(self):
        folder = os.path.join(os.fsencode(self.folder), b"caf\xe9")
        shutil.copytree(IEEE14, os.fsdecode(folder))
        counts = "14 nodes, 40 constraints, 16 contracts, 6 holders, 48 hours"
        said = f"{self.folder}/caf\\xe9: {counts}; CSV files without a fault\n{IEEE14_HOURS}"
        for encoding in ("utf-8", "ascii"):
            self.assertEqual(
                self.run_crr("", "check", folder, PYTHONIOENCODING=encoding), (0, said.encode(), b"")
            )
        status, out, err = self.run_crr("", "report", folder)
        self.assertEqual((status, err), (0, b""))
        with open(os.path.join(folder, b"report.html"), encoding="utf-8") as page:
            self.assertIn("caf\\xe9", page.read())
        status, out, _ = self.run_crr("", "check", folder, "--json")
        self.assertEqual((status, os.fsencode(json.loads(out)["folder"])), (0, folder))


class Json(FolderTest):
    def test_null_where_there_is_no_figure(self):
        verdict = json.loads(command("test", CASE_L, "--json")[1])["verdicts"][0]
        self.assertEqual(
            (verdict["verdict"], verdict["overloaded"], verdict["lowest_numbered"], verdict["excess_mw"]),
            ("pass", 0, None, None),
        )
        hour = json.loads(command("settle", CASE_L, "--json")[1])["by_hour"][0]
        self.assertEqual((hour["opr_dt"], hour["opr_hr"], hour["sum"]), (None, None, "8.99"))
        holder = json.loads(command("settle", CASE_L, "--json")[1])["by_holder"][0]
        self.assertEqual(holder, {"owner": "7", "month": None, "amount": "8.99", "incomplete": None})
        answer = json.loads(command("tiers", IEEE14, "--period", "on", "--process", "monthly", "--json")[1])
        self.assertEqual(
            (
                answer["out"],
                answer["operations"][0]["overloaded"],
                answer["operations"][0]["lowest_numbered"],
            ),
            (None, None, None),
        )
        fault = json.loads(command("test", self.folder, "--json")[1])["faults"][0]
        self.assertEqual(
            (fault["file"], fault["line"], fault["column"], fault["refusal"]),
            (str(self.folder), None, None, None),
        )

    def test_usage_errors(self):
        for arguments in (
            ("test", "--json"),
            ("--json", "test"),
            ("--json", "tset"),
            ("test", CASE_L, "--json", "--process", "weekly"),
            ("--json",),
        ):
            status, out, err = command(*arguments)
            answer = json.loads(out)
            self.assertEqual((status, err, len(answer["faults"])), (2, "", 1))
            self.assertIn("error: ", answer["faults"][0]["text"])
            self.assertTrue(answer["usage"].startswith("usage: crr"))
        self.assertEqual(
            command("holder", CASE_L, "--", "--json")[0:2], (2, "")
        )  # a holder called so is not asked for JSON

    def test_before_the_command(self):
        for arguments in (("test", IEEE14), ("hours", "2024"), ("check", self.folder)):
            self.assertEqual(command("--json", *arguments), command(*arguments, "--json"))
        self.assertNotEqual(command("test", IEEE14), command("test", IEEE14, "--json"))

    def test_jobs(self):
        for jobs in ("0", "-1", "x", "1.5", "", "9" * 5000):
            status, out, err = command("settle", CASE_L, f"-j{jobs}" if jobs else "--jobs=")
            self.assertEqual(
                (status, out, err.count("is no number of processes, from 1 to 9999")), (2, "", 1), jobs
            )
        self.assertEqual(command("settle", CASE_L, "-j1"), command("settle", CASE_L))


if __name__ == "__main__":
    unittest.main()
