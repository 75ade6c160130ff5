"""What is told, and how: equal faults once, huge fields in few words, files under other names, links that
lead nowhere, what check says beside faults."""

import json
import os
import shutil
import subprocess
import time
import unittest

from support import CASE_L, IEEE14, IEEE14_HOURS, ROOT, FolderTest, command, contents
from crr.faults import Fault, Faults, listed

BOOK = "CRR_ID,OWNER,HEDGE_TYPE,TIME_OF_USE,SOURCE,SINK,MW\n"


class Case(FolderTest):
    def setUp(self):
        super().setUp()
        self.case = self.folder / "case"
        shutil.copytree(IEEE14, self.case)

    def said(self, *arguments, status=2):
        """The lines of a command that fails."""
        done = command(*arguments)
        self.assertEqual((done[0], done[1]), (status, ""))
        return done[2].splitlines()


class Grouped(Case):
    def test_equal_faults(self):
        rows = "".join(f"2026-07-31,{hour % 24 + 1},24H,2-4,1\n" for hour in range(100_000))
        (self.case / "prices.csv").write_text(f"OPR_DT,OPR_HR,TIME_OF_USE,CONSTRAINT_ID,SHADOW_PRICE\n{rows}")
        both = "prices.csv:{}:TIME_OF_USE: '24H' is neither ON nor OFF"
        both += "; split such a contract into an ON and an OFF row (refusal 17)"
        expected = [
            *map(both.format, range(2, 7)),
            "prices.csv:7:TIME_OF_USE: and 99,995 more like it, the last in line 100001",
        ]
        self.assertEqual(
            self.said("check", self.case),
            [*expected, f"crr: 100,000 faults in {self.case}; nothing was written"],
        )

    def test_scripts_are_told_all(self):
        rows = "".join(f"C{row},Ash,FWD,ON,Bus 1,Bus 2,1\n" for row in range(50))
        (self.case / "book.csv").write_text(f"{BOOK}{rows}")
        self.assertEqual(len(json.loads(command("check", self.case, "--json")[1])["faults"]), 50)

    def test_alike(self):
        """Those that say the same of different values: twenty, and how many more."""
        rows = "".join(f"C{row},Ash,OBL,ON,Bus {row + 100},Bus 2,1\n" for row in range(90))
        (self.case / "book.csv").write_text(f"{BOOK}{rows}C90,Ash,OBL,ON,Bus 1,Bus 2,x\n")
        said = self.said("check", self.case)
        self.assertEqual(len(said), 20 + 1 + 1 + 1)
        self.assertEqual(said[20], "book.csv:22:SOURCE: and 70 more like it, the last in line 91")
        self.assertEqual(said[21], "book.csv:92:MW: 'x' is not a decimal number")

    def test_few_are_all_shown(self):
        faults = [Fault("a.csv", line, "A", "empty") for line in range(2, 7)]
        self.assertEqual(listed(faults), [f"a.csv:{line}:A: empty" for line in range(2, 7)])
        self.assertEqual(listed([*faults, faults[0]._replace(column="B")])[-1], "a.csv:2:B: empty")
        self.assertEqual(str(Faults(faults)).count("\n"), 4)


class Linear(Case):
    def test_bad_quotes(self):
        """Twice the rows take about twice the time, not four times."""
        times = []
        for rows in (6_000, 12_000):
            text = "".join(f'C{row},"A"sh,OBL,ON,Bus 1,Bus 2,1\n' for row in range(rows))
            (self.case / "book.csv").write_text(f"{BOOK}{text}")
            start = time.process_time()
            said = self.said("check", self.case)
            times.append(time.process_time() - start)
            self.assertEqual(said[0], "book.csv:2:OWNER: quotes: ',' expected after '\"'")
            self.assertEqual(
                said[5], f"book.csv:7:OWNER: and {rows - 5:,} more like it, the last in line {rows + 1}"
            )
        self.assertLess(times[1], 3 * times[0] + 0.5)
        self.assertLess(times[1], 5)

    def test_columns(self):
        """As many columns as another market has constraints."""
        names = [f"K{k}" for k in range(20_000)]
        (self.case / "constraints.csv").write_text(
            "CONSTRAINT_ID,LIMIT_MW\n" + "".join(f"{name},1\n" for name in names)
        )
        (self.case / "factors.csv").write_text(
            ",".join(["NODE_ID", *reversed(names)]) + "\nBus 1" + ",0" * len(names) + "\n"
        )
        start = time.process_time()
        takes = "crr test, cuts, settle, report and pack take more"
        self.assertIn(
            f"constraints.csv:66:CONSTRAINT_ID: more than 64 constraints; {takes} (refusal 3)",
            self.said("check", self.case),
        )
        self.assertLess(time.process_time() - start, 5)


class Huge(Case):
    def book(self, old, new):
        text = (IEEE14 / "book.csv").read_text()
        (self.case / "book.csv").write_text(text.replace(old, new, 1))
        return self.said("check", self.case)

    def test_numbers(self):
        shown = f"{'9' * 30}..{'9' * 15}"
        self.assertEqual(
            self.book("30.000", "9" * 5000)[0],
            f"book.csv:2:MW: {shown}: a number of 5,000 digits before the point",
        )
        self.assertEqual(self.book("30.000", "9" * 5000 + ".5")[0].count("5,000 digits"), 1)
        self.assertEqual(self.book("30.000", "30." + "1" * 5000)[0].count(" has more than 3 decimals"), 1)
        self.assertLess(len(self.book("30.000", "x" * 5000)[0]), 200)
        self.assertEqual(self.book("30.000", "0" * 5000 + "x")[0].count("is not a decimal number"), 1)
        (self.case / "book.csv").write_text(
            (IEEE14 / "book.csv").read_text().replace("30.000", "0" * 5000 + "30." + "0" * 5000, 1)
        )
        self.assertEqual(command("check", self.case)[0], 0)

    def test_balances_and_demands(self):
        demands = self.folder / "demands.csv"
        demands.write_text("COORDINATOR,MEASURED_DEMAND\nAlder,1\n")
        self.assertEqual(self.said("share", "9" * 5000, demands)[0].count("BALANCE: 9999"), 1)
        demands.write_text(
            "COORDINATOR,MEASURED_DEMAND\nAlder," + "9" * 5000 + "\nBirch,0." + "0" * 5000 + "1\n"
        )
        said = self.said("share", "1", demands)
        self.assertEqual(
            (said[0].count("5,000 digits"), said[1].count("has more than 18 decimals"), len(said)), (1, 1, 3)
        )

    def test_fields(self):
        for field in ("x" * 200_000, '"' + "x" * 200_000 + '"'):
            said = self.book("Alder Power", field)
            self.assertEqual(
                said[0], "book.csv:2:OWNER: a field of more than 131,072 characters; is a quote left open?"
            )
            self.assertEqual(len(said), 2)
        self.assertLess(len(self.book("Bus 4", "x" * 100_000)[0]), 300)

    def test_headings(self):
        said = self.book("SINK,MW", f"SINK,MW,{'x' * 100_000}")
        self.assertEqual(said[0], "book.csv:2:column 8: 7 fields where the heading has 8")


class OtherNames(Case):
    def test_csv(self):
        for name, other in (
            ("prices.csv", "Prices.CSV"),
            ("prices.csv", "price.csv"),
            ("prices.csv", "prices.csv.txt"),
            ("names.csv", "Names.csv"),
            ("book.csv", "Book.csv"),
            ("constraints.csv", "constraint.csv"),
            ("factors.csv", "Factors.CSV"),
        ):
            if name == "names.csv":
                (self.case / name).write_text("TABLE,NUMBER,NAME\n")
            os.rename(self.case / name, self.case / other)
            said = self.said("check", self.case)
            self.assertEqual(
                said[0], f"{name}: not there, and {other} is: it is read under the name {name} alone"
            )
            self.assertEqual(self.said("settle", self.case)[0], said[0])
            os.rename(self.case / other, self.case / name)
        self.assertEqual(command("check", self.case)[0], 0)

    def test_all_of_them(self):
        for name in ("constraints", "factors", "book"):
            os.rename(self.case / f"{name}.csv", self.case / f"{name.upper()}.CSV")
        said = f"{self.case}: neither CSV files (constraints.csv, factors.csv, book.csv) nor grid.bin; "
        said += "CONSTRAINTS.CSV, FACTORS.CSV, BOOK.CSV: "
        self.assertEqual(
            self.said("check", self.case)[0], f"{said}found by their names alone, in small letters"
        )

    def test_given_files(self):
        (self.folder / "Hubs.csv").write_text("HUB,NODE_ID,PERCENT\n")
        given = self.folder / "hubs.csv"
        said = f"{given}: not there, and Hubs.csv is: it is read under the name hubs.csv alone"
        self.assertEqual(self.said("hub-mcc", self.case, given)[0], said)

    def test_copies_and_notes_beside_are_left_alone(self):
        for name in ("book.csv.bak", "book_old.csv", "prices (1).csv", "README", "book.html"):
            (self.case / name).write_text("")
        self.assertEqual(
            command("check", self.case),
            (0, command("check", IEEE14)[1].replace(str(IEEE14), str(self.case)), ""),
        )

    def test_bin(self):
        packed = self.folder / "packed"
        command("pack", self.case, "-o", packed)
        for before, after, message in (
            (
                "book.bin",
                "Book.bin",
                "book.bin: not there, and Book.bin is: it is read under the name book.bin alone",
            ),
            (
                "prices/2026-07-31/HE08.bin",
                "prices/2026-07-31/HE8.bin",
                "prices/2026-07-31/HE8.bin: no hour's file: YYYY-MM-DD/HE01.bin to HE25.bin",
            ),
            (
                "prices/2026-07-31/HE08.bin",
                "prices/2026-07-31/he08.BIN",
                "prices/2026-07-31/he08.BIN: no hour's file: YYYY-MM-DD/HE01.bin to HE25.bin",
            ),
            (
                "prices/2026-07-31/HE08.bin",
                "prices/HE08.bin",
                "prices/HE08.bin: no hour's file: YYYY-MM-DD/HE01.bin to HE25.bin",
            ),
            (
                "prices/2026-07-31",
                "prices/2026-7-31",
                "prices/2026-7-31: a folder that is no day, YYYY-MM-DD",
            ),
            (
                "prices/2026-07-31",
                "prices/2026-02-30",
                "prices/2026-02-30: a folder that is no day, YYYY-MM-DD",
            ),
        ):
            os.rename(packed / before, packed / after)
            for arguments in (("check", packed), ("settle", packed)):
                self.assertEqual(self.said(*arguments)[0], message)
            os.rename(packed / after, packed / before)
        self.assertEqual(command("check", packed)[0], 0)
        shutil.copytree(CASE_L, self.folder / "one")
        os.rename(self.folder / "one" / "prices.bin", self.folder / "one" / "Prices.bin")
        said = "prices.bin: not there, and Prices.bin is: it is read under the name prices.bin alone"
        self.assertEqual(self.said("settle", self.folder / "one")[0], said)


class Links(Case):
    def test_nowhere(self):
        for name in ("prices.csv", "book.csv", "names.csv"):
            if (self.case / name).exists():
                os.rename(self.case / name, self.folder / name)
            os.symlink("gone.csv", self.case / name)
            for arguments in (("check", self.case), ("settle", self.case)):
                self.assertEqual(
                    self.said(*arguments)[0], f"{name}: a symbolic link to gone.csv, which is not there"
                )
            os.unlink(self.case / name)
            if (self.folder / name).exists():
                os.rename(self.folder / name, self.case / name)
        os.symlink("gone", self.folder / "link")
        self.assertEqual(
            self.said("check", self.folder / "link")[0],
            f"{self.folder / 'link'}: a symbolic link to gone, which is not there",
        )

    def test_packed(self):
        packed = self.folder / "packed"
        command("pack", self.case, "-o", packed)
        os.rename(packed / "prices", self.folder / "prices")
        os.symlink("gone", packed / "prices")
        for arguments in (("check", packed), ("settle", packed)):
            self.assertEqual(self.said(*arguments)[0], "prices: a symbolic link to gone, which is not there")
        os.unlink(packed / "prices")
        os.symlink(self.folder / "prices", packed / "prices")  # one that leads somewhere
        self.assertEqual(command("settle", packed), command("settle", IEEE14))
        os.unlink(self.folder / "prices" / "2026-07-31" / "HE08.bin")
        os.symlink("gone.bin", self.folder / "prices" / "2026-07-31" / "HE08.bin")
        self.assertEqual(
            self.said("check", packed)[0],
            "prices/2026-07-31/HE08.bin: a symbolic link to gone.bin, which is not there",
        )
        self.assertEqual(command("settle", packed)[0], 2)


class Beside(Case):
    """What check tells beside faults."""

    def test_columns_that_are_not_used(self):
        book = self.case / "book.csv"
        book.write_text(
            "\n".join(
                f"{line},x,y" if number else f"{line},Note,STATUS"
                for number, line in enumerate(book.read_text().splitlines())
            )
            + "\n"
        )
        first = command("check", IEEE14)[1].replace(str(IEEE14), str(self.case))
        self.assertEqual(command("check", self.case), (0, f"{first}book.csv: not used: Note, STATUS\n", ""))
        self.assertEqual(
            json.loads(command("check", self.case, "--json")[1])["notes"],
            ["book.csv: not used: Note, STATUS"],
        )
        self.assertEqual(json.loads(command("check", IEEE14, "--json")[1])["notes"], [])

    def test_older_packed_files(self):
        command("pack", self.case)
        self.assertEqual(command("check", self.case)[1].splitlines()[1:], IEEE14_HOURS.splitlines())
        for name, packed in (
            ("book.csv", "book.bin"),
            ("factors.csv", "grid.bin"),
            ("prices.csv", "prices/"),
        ):
            later = os.stat(self.case / "book.bin").st_mtime + 10
            before = os.stat(self.case / name).st_mtime
            os.utime(self.case / name, (later, later))
            self.assertEqual(
                command("check", self.case)[1].splitlines()[3:],
                [f"{packed}: older than {name}; crr pack renews it"],
            )
            os.utime(self.case / name, (before, before))

    def test_files_that_were_not_read(self):
        (self.case / "Prices.CSV").write_text("")
        self.assertEqual(
            command("check", self.case)[1].splitlines()[3:], ["Prices.CSV: prices.csv was read, not this one"]
        )


class Words(Case):
    def test_packed_already(self):
        said = f"{CASE_L}: packed already: grid.bin, and no CSV files; crr unpack makes CSV files of it"
        before = contents(CASE_L)
        self.assertEqual(self.said("pack", CASE_L)[0], said)
        self.assertEqual(contents(CASE_L), before)
        said = f"{self.case}: CSV files already, and no grid.bin; crr pack makes bin files of them"
        self.assertEqual(self.said("unpack", self.case, "-o", self.folder / "out")[0], said)

    def test_a_file_is_no_folder(self):
        for name in ("check", "test", "pack", "unpack", "settle"):
            self.assertEqual(
                self.said(name, self.case / "book.csv")[0],
                f"{self.case / 'book.csv'}: a file, and a folder is needed",
            )
        self.assertEqual(
            self.said("check", self.folder / "none")[0], f"{self.folder / 'none'}: no such folder"
        )

    def test_paths_as_they_were_given(self):
        (self.folder / "hubs.csv").write_text("HUB,NODE_ID\nNorth,Bus 1\n")
        run = [str(ROOT / "crr"), "hub-mcc", "case", "./case/../hubs.csv"]
        done = subprocess.run(run, cwd=self.folder, stdout=subprocess.PIPE, stderr=subprocess.PIPE)
        self.assertEqual(
            done.stderr.decode().splitlines()[0], "case/../hubs.csv:1:PERCENT: the column is missing"
        )

    def test_no_word_of_the_library(self):
        """No name of a C function in a sentence for people, and nothing that only fits another entry."""
        damaged = self.folder / "damaged"
        shutil.copytree(CASE_L, damaged)
        (damaged / "prices.bin").write_bytes(b"")
        for arguments in (
            ("hours", "2009"),
            ("hours", "2024-13"),
            ("settle", damaged),
            ("check", damaged),
            ("report", damaged),
        ):
            status, out, err = command(*arguments)
            self.assertEqual((status, out), (2, ""))
            self.assertNotRegex(err, r"crr_|given or reached")
            self.assertRegex(err, r"\(refusal [0-9]+\)")

    def test_run_on_csv_files(self):
        done = subprocess.run(
            [str(ROOT / "run"), str(self.case)],
            stdout=subprocess.PIPE,
            stderr=subprocess.PIPE,
            env={**os.environ, "BUILT": "1"},
        )
        crr = ROOT / "crr"
        said = f"run: {self.case} has CSV files and no grid.bin: {crr} test, settle and report read them, "
        said += f"{crr} pack makes bin files of them\n"
        self.assertEqual((done.returncode, done.stdout, done.stderr.decode()), (2, b"", said))

    def test_run_on_older_packed_files(self):
        command("pack", self.case)
        later = os.stat(self.case / "book.bin").st_mtime + 10
        os.utime(self.case / "book.csv", (later, later))
        done = subprocess.run(
            [str(ROOT / "run"), str(self.case)],
            stdout=subprocess.PIPE,
            stderr=subprocess.PIPE,
            env={**os.environ, "BUILT": "1"},
        )
        said = f"run: book.bin is older than book.csv beside it; {ROOT / 'crr'} pack {self.case} renews it\n"
        self.assertTrue(done.stderr.decode().startswith(said), done.stderr.decode())


if __name__ == "__main__":
    unittest.main()
