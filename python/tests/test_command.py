"""The command: statuses, JSON, cuts, progress, ./crr from any folder, closed pipes and full disks."""

import io
import json
import os
import shutil
import subprocess
import tempfile
import unittest
from contextlib import redirect_stderr
from pathlib import Path
from unittest import mock

from support import CASE_L, IEEE14, ROOT, FolderTest, command, flows
import crr
from crr.bar import Bar
from crr.decimals import decimal, whole
from crr.from_csv import load

CRR = ROOT / "crr"


class Statuses(FolderTest):
    def test_passes_and_fails(self):
        self.assertEqual(command("test", CASE_L)[0], 0)
        status, out, err = command("test", IEEE14)
        said = "ON annual: at worst an hour pays $11,250.00 more than its congestion rent\n"
        said += "ON Tier LT: at worst an hour pays $26,091.04375 more than its congestion rent\n"
        self.assertEqual((status, err), (1, said))
        self.assertIn("ON,annual,fail,1,7-8 reverse,2.25000000,7-8 reverse,2.25000000,7-8 reverse\n", out)
        self.assertEqual(command("test", IEEE14, "--process", "monthly")[0], 0)
        self.assertEqual(command("test", IEEE14, "--period", "off")[0], 0)
        self.assertEqual(command("test", IEEE14, "--period", "on", "--process", "lt")[0], 1)

    def test_prices_are_not_tested(self):
        shutil.copytree(IEEE14, self.folder / "case")
        (self.folder / "case" / "prices.csv").write_text("damaged")
        self.assertEqual(command("test", self.folder / "case"), command("test", IEEE14))
        self.assertEqual(command("check", self.folder / "case")[0], 2)

    def test_usage(self):
        self.assertEqual(command()[0], 2)
        self.assertEqual(command("tset", CASE_L)[0], 2)
        self.assertEqual(command("remap", CASE_L, "pairs.csv")[0], 2)  # no -o
        self.assertEqual(command("market", CASE_L)[0], 2)
        self.assertEqual(command("holder", CASE_L)[0], 2)  # no holder
        self.assertEqual(command("--help")[0], 0)

    def test_json(self):
        status, out, _ = command("test", IEEE14, "--json")
        answer = json.loads(out)
        self.assertEqual((status, answer["passed"], len(answer["verdicts"])), (1, False, 6))
        failing = {
            "time_of_use": "ON",
            "process": "Tier LT",
            "verdict": "fail",
            "overloaded": 2,
            "lowest_numbered": "7-8 reverse",
        }
        failing.update({"excess_mw": "4.00000000", "worst": "7-8 reverse", "worst_excess_mw": "4.00000000"})
        failing.update({"exposure_least": "26091.0437500000", "exposure_most": "26091.0437500000"})
        self.assertEqual(answer["verdicts"][4], {**failing, "constraints": ["7-8 reverse", "7-9"]})
        answer = json.loads(command("settle", CASE_L, "--json")[1])
        self.assertEqual((answer["sum"], answer["exact_total"], answer["hours"]), ("8.99", "8.9917000000", 1))
        answer = json.loads(command("check", IEEE14, "--json")[1])
        self.assertEqual((answer["form"], answer["nodes"], answer["hours"]), ("CSV", 14, 48))
        for arguments in (("pack", IEEE14), ("unpack", CASE_L), ("report", CASE_L)):
            status, out, err = command(*arguments, "-o", self.folder / arguments[0], "--json")
            self.assertEqual((status, json.loads(out)["out"], err), (0, str(self.folder / arguments[0]), ""))

    def test_worst(self):
        """The largest excess, where another constraint has the lowest number, by a second sum of flows."""
        shutil.copytree(IEEE14, self.folder / "case")
        limits = self.folder / "case" / "constraints.csv"
        limits.write_text(
            limits.read_text().replace("1-2,150.000", "1-2,10.000").replace("2-4,65.000", "2-4,0.001")
        )
        case = load(self.folder / "case")[0]
        flow = dict(
            zip(case.names.constraints, flows(case.book, case.factors, len(case.names.constraints), 1))
        )
        lowest, most = (
            decimal(flow[name] - limit * 10**8 // 1000, 8) for name, limit in (("1-2", 10_000), ("2-4", 1))
        )
        row = next(
            line
            for line in command("test", self.folder / "case")[1].splitlines()
            if line.startswith("ON,monthly")
        )
        self.assertEqual(row.split(",")[3:8], ["2", "1-2", lowest, "2-4", most])

    def test_the_answer_is_the_same_in_both_forms(self):
        command("pack", IEEE14, "-o", self.folder)
        for arguments in (("test",), ("settle",)):
            self.assertEqual(command(*arguments, IEEE14), command(*arguments, self.folder))


class Cuts(FolderTest):
    def derated(self):
        """The example with less of line 2-4."""
        shutil.copytree(IEEE14, self.folder / "case")
        path = self.folder / "case" / "constraints.csv"
        path.write_text(path.read_text().replace("2-4,65.000", "2-4,22.000"))
        return self.folder / "case"

    def test_listed(self):
        status, out, err = command("cuts", self.derated(), "--process", "monthly")
        rows = [line.split(",") for line in out.splitlines()]
        self.assertEqual(
            (status, rows[0]), (1, ["TIME_OF_USE", "PROCESS", "CRR_ID", "OWNER", "MW", "CUT_MW", "LEFT_MW"])
        )
        self.assertEqual(rows[1], ["ON", "monthly", "CRR-003", "Alder Power", "12.500", "1.226", "11.274"])
        self.assertEqual(
            [row[2] for row in rows[1:]], ["CRR-003", "CRR-004", "CRR-001", "CRR-005", "CRR-007"]
        )
        said = (
            "ON monthly: the book fails at 2-4 by 0.45829000 MW; cutting any one of the 5 contracts listed "
            "clears it\n"
        )
        self.assertEqual(err, said + "OFF monthly: the book passes\n")

    def test_each_clears(self):
        """Each row's cut, written into the book, lets it pass, and a thousandth less does not."""
        case = self.derated()
        book = (case / "book.csv").read_text()
        for row in command("cuts", case, "--process", "monthly")[1].splitlines()[1:]:
            contract, quantity, left = (row.split(",")[at] for at in (2, 4, 6))
            line = next(line for line in book.splitlines() if line.startswith(contract))
            for number, status in ((whole(left, 3), 0), (whole(left, 3) + 1, 1)):
                (case / "book.csv").write_text(
                    book.replace(line, line.replace(f",{quantity}", f",{decimal(number, 3)}"))
                )
                self.assertEqual(command("test", case, "--process", "monthly")[0], status, row)

    def test_none_listed(self):
        """A book that passes, and one that no single cut clears, have the same list: the status and the words
        differ."""
        heading = "TIME_OF_USE,PROCESS,CRR_ID,OWNER,MW,CUT_MW,LEFT_MW\n"
        self.assertEqual(
            command("cuts", CASE_L),
            (0, heading, "the book passes in all that was asked for: nothing to cut\n"),
        )
        said = (
            "ON Tier LT: the book fails at 2-4 by 9.25829000 MW and at 2 more constraints; no cut of a "
            "single contract clears it\n"
        )
        self.assertEqual(
            command("cuts", self.derated(), "--process", "lt", "--period", "on"), (1, heading, said)
        )

    def test_json(self):
        status, out, err = command("cuts", IEEE14, "--period", "on", "--json")
        answer = json.loads(out)
        self.assertEqual((status, err, answer["passed"], len(answer["verdicts"])), (1, "", False, 3))
        cut = {
            "crr_id": "CRR-011",
            "owner": "Dogwood Trading",
            "mw": "25.000",
            "cut_mw": "4.000",
            "left_mw": "21.000",
        }
        self.assertEqual(
            (answer["verdicts"][1]["process"], answer["verdicts"][1]["cuts"]), ("Tier LT", [cut])
        )
        self.assertEqual((answer["verdicts"][2]["verdict"], answer["verdicts"][2]["cuts"]), ("pass", []))

    def test_both_forms(self):
        command("pack", self.derated(), "-o", self.folder / "bin")
        self.assertEqual(command("cuts", self.folder / "case"), command("cuts", self.folder / "bin"))

    def test_faults(self):
        status, out, err = command("cuts", self.folder)
        self.assertEqual((status, out, err.count("neither CSV files")), (2, "", 1))


class Terminal(io.StringIO):
    def isatty(self):
        return True


class Progress(unittest.TestCase):
    def shown(self, stream, seconds):
        with redirect_stderr(stream), mock.patch("time.monotonic", side_effect=[0.0] + seconds):
            bar = Bar("settle")
            for done in range(1, len(seconds) + 1):
                bar(done, len(seconds))
        return stream.getvalue()

    def test_on_a_terminal(self):
        said = self.shown(Terminal(), [0.1, 1.0, 1.05, 2.0])
        self.assertEqual(
            said.split("\r")[1:],
            [
                "settle [###############...............] 2 of 4 hours, 1 s left ",
                f"settle [{'#' * 30}] 4 of 4 hours, 0 s left \n",
            ],
        )

    def test_elsewhere(self):
        self.assertEqual(self.shown(io.StringIO(), [1.0, 2.0]), "")

    def test_short_work(self):
        self.assertEqual(self.shown(Terminal(), [0.1, 0.2]), "")


class FromTheShell(FolderTest):
    def run_crr(self, *arguments, **options):
        return subprocess.run(
            [str(CRR), *map(str, arguments)], stdout=subprocess.PIPE, stderr=subprocess.PIPE, **options
        )

    def test_from_any_folder(self):
        (self.folder / "csv.py").write_text("raise SystemExit('the wrong module')")
        os.symlink(CRR, self.folder / "crr-link")
        done = subprocess.run(["./crr-link", "check", str(CASE_L)], cwd=self.folder, stdout=subprocess.PIPE)
        self.assertEqual((done.returncode, done.stdout.decode().count("without a fault")), (0, 1))

    def test_status(self):
        self.assertEqual(
            [self.run_crr("test", folder).returncode for folder in (CASE_L, IEEE14, self.folder)], [0, 1, 2]
        )

    def test_older_library(self):
        """A library without the functions of today is told, and so is none at all."""
        with tempfile.TemporaryDirectory() as held:
            older = Path(held) / "libcrr.so"
            interface = f"unsigned long crr_interface(void) {{ return {crr.interface.INTERFACE}; }}"
            made = ["gcc", "-shared", "-o", str(older), "-x", "c", "-"]
            subprocess.run(made, input=interface.encode(), check=True)
            done = self.run_crr("test", CASE_L, env={**os.environ, "CRR_LIBRARY": str(older)})
            said = (
                f"crr: {older} has no crr_read_grid: it is older than this package; ./library builds it "
                "anew\n"
            )
            self.assertEqual((done.returncode, done.stderr.decode()), (2, said))
            done = self.run_crr("test", CASE_L, env={**os.environ, "CRR_LIBRARY": str(older) + ".gone"})
            self.assertEqual((done.returncode, done.stderr.decode().count("no shared library at")), (2, 1))

    def test_pipe_closed(self):
        shell = f"{CRR} settle {IEEE14} --json | head -n 1"
        done = subprocess.run(
            ["bash", "-o", "pipefail", "-c", shell], stdout=subprocess.PIPE, stderr=subprocess.PIPE
        )
        self.assertEqual((done.returncode, done.stdout, done.stderr), (0, b"{\n", b""))

    def test_full_disk(self):
        if not os.path.exists("/dev/full"):
            self.skipTest("this machine has no /dev/full")
        with open("/dev/full", "wb") as full:
            done = subprocess.run([str(CRR), "test", str(CASE_L)], stdout=full, stderr=subprocess.PIPE)
        self.assertEqual(
            (done.returncode, done.stderr),
            (2, b"crr: the output can't be written: No space left on device\n"),
        )

    def test_unwritable(self):
        shutil.copytree(CASE_L, self.folder / "case")
        (self.folder / "file").write_text("")
        self.assertEqual(command("unpack", self.folder / "case", "-o", self.folder / "file" / "below")[0], 2)


if __name__ == "__main__":
    unittest.main()
