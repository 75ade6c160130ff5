"""Damaged files: each gives a message with file, line and column, every fault is listed, and nothing is
written."""

import json
import shutil
import unittest

from support import CASE_L, IEEE14, FolderTest, command, contents
from crr.faults import Faults
from crr.from_csv import load

# What is damaged: the file, what stands there once, what is put for it, and the message.
DAMAGED = [
    ("book.csv", "30.000", "30.0005", "book.csv:2:MW: 30.0005 has more than 3 decimals"),
    ("book.csv", "30.000", "1000.001", "book.csv:2:MW: 1000.001 is outside 0.001 to 1000.000 (refusal 13)"),
    ("book.csv", "30.000", "0", "book.csv:2:MW: 0 is outside 0.001 to 1000.000 (refusal 13)"),
    ("book.csv", "30.000", "", "book.csv:2:MW: empty"),
    (
        "book.csv",
        "30.000",
        '"1,000"',
        "book.csv:2:MW: '1,000': a decimal point and no thousands separators, please",
    ),
    (
        "book.csv",
        "30.000",
        "3e1",
        (
            "book.csv:2:MW: '3e1': an exponent may have lost digits; format the column as a number with 3 "
            "decimals"
        ),
    ),
    ("book.csv", "30.000", "３０", "book.csv:2:MW: '３０' is not a decimal number"),
    (
        "book.csv",
        ",Bus 1,Bus 4,30",
        ",Bus 15,Bus 4,30",
        "book.csv:2:SOURCE: no node 'Bus 15' in factors.csv (refusal 11)",
    ),
    (
        "book.csv",
        "Power,OBL,ON",
        "Power,FWD,ON",
        "book.csv:2:HEDGE_TYPE: 'FWD' is neither OBL nor OPT (refusal 17)",
    ),
    (
        "book.csv",
        "OBL,ON",
        "OBL,24H",
        (
            "book.csv:2:TIME_OF_USE: '24H' is neither ON nor OFF; split such a contract into an ON and an "
            "OFF row (refusal 17)"
        ),
    ),
    ("book.csv", "CRR-002", "CRR-001", "book.csv:3:CRR_ID: CRR-001 occurs twice"),
    ("book.csv", "CRR-003,Alder Power,", "CRR-003,,", "book.csv:4:OWNER: empty"),
    ("book.csv", "SINK,MW", "SINK,MEGAWATTS", "book.csv:1:MW: the column is missing"),
    (
        "book.csv",
        "OWNER,",
        "OWNER,Holder,",
        "book.csv:1:OWNER: more than one column has this meaning: OWNER, Holder",
    ),
    ("book.csv", ",Bus 4,30.000", ",30.000", "book.csv:2:MW: 6 fields where the heading has 7"),
    ("book.csv", "CRR-004,Birch", 'CRR-004,"Birch', "book.csv:5:OWNER: quotes: unexpected end of data"),
    ("book.csv", "CRR-004,Birch", 'CRR-004,"Bi"rch', "book.csv:5:OWNER: quotes: ',' expected after '\"'"),
    (
        "book.csv",
        "Birch Energy,OPT",
        "B\udce9rch,OPT",
        "book.csv:6:OWNER: not UTF-8: the byte 0xe9; save as CSV UTF-8",
    ),
    (
        "constraints.csv",
        "1-2,150.000",
        "1-2,100000.001",
        "constraints.csv:2:LIMIT_MW: 100000.001 is outside 0.000 to 100000.000 (refusal 6)",
    ),
    (
        "constraints.csv",
        "1-2,150.000",
        "1-2,-1",
        "constraints.csv:2:LIMIT_MW: -1 is outside 0.000 to 100000.000 (refusal 6)",
    ),
    ("constraints.csv", "1-5,85.000", "1-2,85.000", "constraints.csv:4:CONSTRAINT_ID: 1-2 occurs twice"),
    (
        "factors.csv",
        "-0.83802",
        "-1.00001",
        "factors.csv:3:1-2: -1.00001 is outside -1.00000 to 1.00000 (refusal 7)",
    ),
    ("factors.csv", "-0.83802", "-0.838021", "factors.csv:3:1-2: -0.838021 has more than 5 decimals"),
    (
        "factors.csv",
        "NODE_ID,1-2,",
        "NODE_ID,1-3,",
        "factors.csv:1:1-3: no such constraint in constraints.csv",
    ),
    (
        "factors.csv",
        "NODE_ID,1-2,1-2 reverse",
        "NODE_ID,1-2,1-2",
        "factors.csv:1:1-2: the constraint's column occurs twice",
    ),
    ("factors.csv", "NODE_ID,", "LMP,", "factors.csv:1:NODE_ID: the first column must be this one"),
    ("factors.csv", "Bus 3,", "Bus 2,", "factors.csv:4:NODE_ID: Bus 2 occurs twice"),
    ("prices.csv", "2-4,12.40", "2-4,12.405", "prices.csv:13:SHADOW_PRICE: 12.405 has more than 2 decimals"),
    (
        "prices.csv",
        "2-4,12.40",
        "2-4,-0.01",
        "prices.csv:13:SHADOW_PRICE: -0.01 is outside 0.00 to 5000.00 (refusal 15)",
    ),
    (
        "prices.csv",
        "2-4,12.40",
        "2-40,12.40",
        "prices.csv:13:CONSTRAINT_ID: no constraint '2-40' in constraints.csv",
    ),
    (
        "prices.csv",
        "2026-07-31,1,OFF",
        "31.07.2026,1,OFF",
        (
            "prices.csv:2:OPR_DT: '31.07.2026' is not a day, YYYY-MM-DD; "
            "--dates mdy or --dates dmy tells which part is the month"
        ),
    ),
    (
        "prices.csv",
        "2026-07-31,1,OFF",
        "2026-02-30,1,OFF",
        "prices.csv:2:OPR_DT: '2026-02-30' is not a day, YYYY-MM-DD",
    ),
    (
        "prices.csv",
        "2026-07-31,1,OFF",
        "2026-07-31,26,OFF",
        "prices.csv:2:OPR_HR: '26' is not an hour ending, 1 to 25",
    ),
    (
        "prices.csv",
        "2026-07-31,1,OFF",
        ",,OFF",
        "prices.csv:3:OPR_DT: an hour without day and hour is the only one of its file",
    ),
    (
        "prices.csv",
        "15,ON,5-6",
        "15,OFF,5-6",
        "prices.csv:17:TIME_OF_USE: OFF, and 2026-07-31 HE15 is on-peak; correct it, leave the column out, "
        "or --time-of-use as-given",
    ),
    ("prices.csv", "15,ON,5-6", "15,ON,2-4", "prices.csv:17:CONSTRAINT_ID: 2-4 occurs twice in this hour"),
]


class Damaged(FolderTest):
    def damaged(self, name, text):
        """The message on a copy of the example in which a file has other text; nothing may be written."""
        folder, out = self.folder / "case", self.folder / "out"
        shutil.rmtree(folder, ignore_errors=True)
        shutil.copytree(IEEE14, folder)
        (folder / name).write_bytes(text.encode("utf-8", "surrogateescape"))
        before = contents(self.folder)
        said = None
        for arguments in (
            ("check", folder),
            ("pack", folder, "-o", out),
            ("settle", folder, "-o", out),
            ("report", folder, "-o", out / "page.html"),
        ):
            status, printed, err = command(*arguments)
            self.assertEqual((status, printed), (2, ""))
            self.assertEqual(said or err, err)
            said = err
        self.assertEqual(contents(self.folder), before)
        return said

    def test_each_is_told_where_it_is(self):
        self.assertGreaterEqual(len(DAMAGED), 20)
        for name, old, new, message in DAMAGED:
            with self.subTest(message=message):
                text = (IEEE14 / name).read_text()
                self.assertIn(old, text)
                self.assertIn(message + "\n", self.damaged(name, text.replace(old, new, 1)))

    def test_one_fault_is_one_line(self):
        said = self.damaged("book.csv", (IEEE14 / "book.csv").read_text().replace("30.000", "x", 1))
        self.assertEqual(
            said,
            (
                "book.csv:2:MW: 'x' is not a decimal number\n"
                f"crr: 1 fault in {self.folder / 'case'}; nothing was written\n"
            ),
        )

    def test_all_are_listed(self):
        said = self.damaged(
            "book.csv", (IEEE14 / "book.csv").read_text().replace(",OBL,", ",F,").replace("Bus 9", "Bus 99")
        )
        self.assertEqual((said.count("(refusal 17)"), said.count("and 6 more like it")), (5, 1))
        self.assertEqual(said.count("(refusal 11)"), 4)
        self.assertIn("crr: 15 faults in", said)
        faults = json.loads(command("check", self.folder / "case", "--json")[1])["faults"]
        self.assertEqual(
            [sum(fault["refusal"] == number for fault in faults) for number in (17, 11)], [11, 4]
        )

    def test_whole_files(self):
        for text, message in (
            ("", "book.csv:1:CRR_ID: the file is empty: its first line is the heading"),
            (
                "\udcff\udcfeC\0R\0",
                "book.csv:1:CRR_ID: UTF-16, as some spreadsheets save it; save as CSV UTF-8",
            ),
        ):
            self.assertIn(message + "\n", self.damaged("book.csv", text))

    def test_sizes(self):
        heading = (IEEE14 / "book.csv").read_text().splitlines()[0]
        rows = "".join(f"{i},Ash,OBL,ON,Bus 1,Bus 2,1\n" for i in range(1001))
        folder = self.folder / "large"
        shutil.copytree(IEEE14, folder)
        (folder / "book.csv").write_text(f"{heading}\n{rows}")
        more = "; crr test, cuts, settle, report and pack take more"
        said = command("check", folder)[2]
        self.assertIn(f"book.csv:1002:CRR_ID: more than 1000 contracts{more} (refusal 10)\n", said)
        owners = "".join(f"{i},name {i},OBL,ON,Bus 1,Bus 2,1\n" for i in range(1000))
        (folder / "book.csv").write_text(f"{heading}\n{owners}")
        self.assertEqual(command("check", folder)[0], 0)
        (folder / "constraints.csv").write_text(
            "CONSTRAINT_ID,LIMIT_MW\n" + "".join(f"K{k},1\n" for k in range(65))
        )
        (folder / "factors.csv").write_text(
            "NODE_ID"
            + "".join(f",K{k}" for k in range(65))
            + "\n"
            + "".join(f"N{n}" + ",0" * 65 + "\n" for n in range(4001))
        )
        said = command("check", folder)[2]
        self.assertIn(f"constraints.csv:66:CONSTRAINT_ID: more than 64 constraints{more} (refusal 3)\n", said)
        self.assertIn(f"factors.csv:4002:NODE_ID: more than 4000 nodes{more} (refusal 2)\n", said)
        (folder / "factors.csv").write_text("NODE_ID" + "".join(f",K{k}" for k in range(65)) + "\n")
        self.assertIn("factors.csv:1:NODE_ID: no node (refusal 2)\n", command("check", folder)[2])

    def test_missing_files(self):
        shutil.copytree(IEEE14, self.folder / "case")
        (self.folder / "case" / "factors.csv").unlink()
        status, _, err = command("test", self.folder / "case")
        self.assertEqual(
            (status, err.splitlines()[0].startswith("factors.csv: No such file or directory: ")), (2, True)
        )
        self.assertEqual(
            command("test", self.folder / "nowhere")[2].splitlines()[0],
            f"{self.folder / 'nowhere'}: no such folder",
        )

    def test_what_follows_from_a_fault_is_not_told(self):
        for name in ("constraints.csv", "factors.csv"):
            self.assertIn("crr: 1 fault in", self.damaged(name, ""))
        heading = "CONSTRAINT_ID,LIMIT_MW\n"
        said = self.damaged("constraints.csv", heading)  # no constraint: every column and price is a fault
        self.assertEqual(
            (said.count("constraints.csv\n"), said.count(": and 22 more like it, the last in line 62\n")),
            (40 + 20, 1),
        )
        self.assertIn("crr: 82 faults in", said)

    def test_headings_that_cannot_be_printed(self):
        text = (IEEE14 / "factors.csv").read_text()
        self.assertIn(
            "factors.csv:1:column 2: no such constraint",
            self.damaged("factors.csv", text.replace(",1-2,", ',"\x1b[31m",', 1)),
        )
        self.assertIn(
            "factors.csv:1:column 2: not UTF-8: the byte 0xe9",
            self.damaged("factors.csv", text.replace(",1-2,", ",\udce9,", 1)),
        )

    def test_names(self):
        shutil.copytree(IEEE14, self.folder / "case")
        for row, message in (
            (
                "nodes,0,x",
                "names.csv:2:TABLE: 'nodes' is none of "
                "node, constraint, contract, holder, start, end, hour, form",
            ),
            ("node,-1,x", "names.csv:2:NUMBER: '-1' is not a number from 0 on"),
            ("holder,1024,x", "names.csv:2:NUMBER: holder 1024 is above 1023 (refusal 18)"),
            ("holder,8,7", "names.csv:2:NAME: 7 stands for holder 7, not 8"),
        ):
            (self.folder / "case" / "names.csv").write_text(f"TABLE,NUMBER,NAME\n{row}\n")
            self.assertIn(message + "\n", command("check", self.folder / "case")[2])

    def test_json(self):
        shutil.copytree(IEEE14, self.folder / "case")
        book = self.folder / "case" / "book.csv"
        book.write_text(book.read_text().replace("30.000", "0"))
        status, out, err = command("check", self.folder / "case", "--json")
        self.assertEqual((status, err), (2, ""))
        fault = {
            "file": "book.csv",
            "line": 2,
            "column": "MW",
            "text": "0 is outside 0.001 to 1000.000",
            "refusal": 13,
        }
        self.assertEqual(json.loads(out), {"faults": [fault]})


class Drawn(FolderTest):
    """Files damaged at random: each is read, or gives faults that have a line; nothing else comes out."""

    PIECES = (
        b",",
        b'"',
        b'""',
        b"\n",
        b"\r",
        b"\0",
        b"\xff",
        b"\xe2\x80\xa8",
        b";",
        b"-",
        b".",
        b"e",
        b"9",
        b"",
        b"ON",
        b"\xef\xbb\xbf",
    )

    def test_any_damage(self):
        command("unpack", CASE_L, "-o", self.folder)
        whole, read = contents(self.folder), 0
        for _ in range(400):
            name = self.rng.choice(sorted(whole))
            data = bytearray(whole[name])
            for _ in range(self.rng.randint(1, 3)):
                start = self.rng.randrange(len(data) + 1)
                data[start : start + self.rng.choice((0, 1, 2, 20))] = self.rng.choice(self.PIECES)
            (self.folder / name).write_bytes(data)
            try:
                load(self.folder)
                read += 1
            except Faults as problem:
                self.assertTrue(all(fault.line and fault.column for fault in problem.faults), str(problem))
            (self.folder / name).write_bytes(whole[name])
        self.assertTrue(0 < read < 400)


class DamagedBin(FolderTest):
    def said(self, name, data):
        shutil.rmtree(self.folder, ignore_errors=True)
        shutil.copytree(CASE_L, self.folder)
        (self.folder / name).write_bytes(data)
        status, out, err = command("check", self.folder)
        self.assertEqual((status, out), (2, ""))
        return err.splitlines()[0]

    def test_refusals_in_words(self):
        self.assertEqual(
            self.said("grid.bin", b"\0\0"),
            "grid.bin: nodes 0 or above 4,000; reading or writing a narrow grid, above 200 (refusal 2)",
        )
        short = (
            "book.bin: a file of fewer bytes than its header: two (grid, book), four (wide grid) or one "
            "(prices) (refusal 1)"
        )
        self.assertEqual(self.said("book.bin", b"\0"), short)
        self.assertEqual(
            self.said("prices.bin", b"\0"),
            "prices.bin: the price file's constraint count differs from the one stated (refusal 14)",
        )
        self.assertEqual(
            self.said("grid.bin", bytes(10**6)),
            "grid.bin: nodes 0 or above 4,000; reading or writing a narrow grid, above 200 (refusal 2)",
        )

    def test_every_price_file(self):
        command("pack", IEEE14, "-o", self.folder)
        for hour in ("07", "09"):
            (self.folder / "prices" / "2026-08-01" / f"HE{hour}.bin").write_bytes(b"")
        status, _, err = command("check", self.folder)
        self.assertEqual((status, err.count("prices/2026-08-01/HE0"), err.count("(refusal 1)")), (2, 2, 2))
        status, _, err = command("settle", self.folder)
        self.assertEqual(status, 2)
        self.assertRegex(
            err, r"^crr: .*/prices/2026-08-01/HE07.bin: a file of fewer bytes than .* \(refusal 1\)\n$"
        )


if __name__ == "__main__":
    unittest.main()
