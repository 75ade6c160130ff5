"""The commands on copies of a book: the canonical form, and whether two folders have the same book."""

import hashlib
import json
import shutil
import unittest

from support import CASE_L, IEEE14, FolderTest, command
import crr


class Canonical(FolderTest):
    HEADING = "OWNER,HEDGE_TYPE,TIME_OF_USE,SOURCE,SINK,MW\n"
    BOOK = "CRR_ID,OWNER,HEDGE_TYPE,TIME_OF_USE,SOURCE,SINK,MW\n"

    def case(self, rows):
        folder = self.folder / "case"
        shutil.copytree(IEEE14, folder)
        (folder / "book.csv").write_text(self.BOOK + rows)
        return folder

    def test_former_name(self):
        self.assertEqual(command("settled", CASE_L), command("canonical", CASE_L))

    def test_table(self):
        rows = (
            "a,Fir,OPT,ON,Bus 1,Bus 2,700\nb,Elm,OBL,ON,Bus 2,Bus 1,0.001\nc,Fir,OPT,ON,Bus 1,Bus 2,600.5\n"
            "d,Elm,OBL,OFF,Bus 2,Bus 1,1\n"
        )
        out = (
            "Elm,OBL,OFF,Bus 2,Bus 1,1.000\nElm,OBL,ON,Bus 2,Bus 1,0.001\nFir,OPT,ON,Bus 1,Bus 2,1000.000\n"
            "Fir,OPT,ON,Bus 1,Bus 2,300.500\n"
        )
        case = self.case(rows)
        self.assertEqual(
            command("canonical", case), (0, self.HEADING + out, "4 contracts, 4 rows in the canonical form\n")
        )
        self.assertEqual(command("pack", case, "-o", self.folder / "bin")[0], 0)
        self.assertEqual(command("canonical", self.folder / "bin"), command("canonical", case))

    def test_file(self):
        out = self.folder / "below" / "canonical.bin"
        self.assertEqual(
            command("canonical", CASE_L, "-o", out),
            (0, f"{out}: 4 contracts, 4 rows in the canonical form\n", ""),
        )
        file = bytes.fromhex("0100 009000100005 407000102710 407000200001 c080002001f4")
        self.assertEqual(out.read_bytes(), file)
        status, text, err = command("canonical", CASE_L, "-o", out, "--json")
        answer = json.loads(text)
        self.assertEqual(
            (status, answer["out"], answer["contracts"], len(answer["rows"]), err), (0, str(out), 4, 4, "")
        )
        self.assertEqual(answer["sha256"], hashlib.sha256(file).hexdigest())
        last = {
            "owner": "8",
            "hedge_type": "OPT",
            "time_of_use": "ON",
            "source": "N0",
            "sink": "N2",
            "mw": "0.500",
        }
        self.assertEqual(answer["rows"][3], last)

    def test_empty(self):
        self.assertEqual(
            command("canonical", self.case("")),
            (0, self.HEADING, "0 contracts, 0 rows in the canonical form\n"),
        )

    def test_faults(self):
        status, out, err = command(
            "canonical", self.case("a,Fir,OPT,ON,Bus 1,Bus 2,0\n"), "-o", self.folder / "out.bin"
        )
        self.assertEqual(
            (status, out, err.count("(refusal 13)"), (self.folder / "out.bin").exists()), (2, "", 1, False)
        )


class Same(FolderTest):
    HEADING = "OWNER,HEDGE_TYPE,TIME_OF_USE,SOURCE,SINK,FIRST_MW,SECOND_MW,CHANGE_MW\n"

    def copy(self, name, change=lambda rows: rows, source=IEEE14):
        """A folder whose book's rows, without the heading, are changed."""
        folder = self.folder / name
        shutil.copytree(source, folder)
        heading, *rows = (folder / "book.csv").read_text().splitlines()
        (folder / "book.csv").write_text("\n".join([heading, *change(rows)]) + "\n")
        return folder

    def compared(self, first, second):
        status, out, err = command("same", first, second)
        self.assertTrue(out.startswith(self.HEADING))
        return status, out[len(self.HEADING) :], err.replace(f"{first}, {second}: ", "")

    def test_shuffled_and_split(self):
        """Other rows, other CRR_IDs, nodes in another order, so that holders and nodes have other numbers."""

        def change(rows):
            rows = [row.replace("CRR-001,", "x,").replace(",30.000", ",10.000") for row in rows] + [
                "y,Alder Power,OBL,ON,Bus 1,Bus 4,20"
            ]
            self.rng.shuffle(rows)
            return rows

        copy = self.copy("copy", change)
        heading, *nodes = (copy / "factors.csv").read_text().splitlines()
        (copy / "factors.csv").write_text("\n".join([heading, *reversed(nodes)]) + "\n")
        said = (0, "", "the same book (16 contracts and 17 contracts)\n")
        self.assertEqual(self.compared(IEEE14, copy), said)
        for source, name in ((IEEE14, "bin"), (copy, "copied")):
            command("pack", source, "-o", self.folder / name)
        self.assertEqual(self.compared(self.folder / "bin", self.folder / "copied"), said)
        fives = [
            {row[:5] for row in crr.read_book(14, (self.folder / name / "book.bin").read_bytes())}
            for name in ("bin", "copied")
        ]
        self.assertNotEqual(*fives)
        self.assertEqual(command("test", IEEE14), command("test", copy))
        totals = [json.loads(command("settle", folder, "--json")[1]) for folder in (IEEE14, copy)]
        self.assertEqual(totals[0]["exact_total"], totals[1]["exact_total"])

    def test_one_thousandth(self):
        copy = self.copy("copy", lambda rows: [row.replace("30.000", "30.001") for row in rows[::-1]])
        row = "Alder Power,OBL,ON,Bus 1,Bus 4,30.000,30.001,0.001\n"
        self.assertEqual(
            self.compared(IEEE14, copy),
            (1, row, "not the same book: 1 total differs (16 contracts and 16 contracts)\n"),
        )

    def test_what_one_lacks(self):
        """A holder, a node and a kind that the other has not."""
        copy = self.copy(
            "copy",
            lambda rows: [
                row.replace("Fir Storage", "Gum Wind").replace("OPT,OFF", "OBL,OFF") for row in rows
            ],
        )
        (copy / "factors.csv").write_text((copy / "factors.csv").read_text().replace("Bus 14", "Bus 41"))
        (copy / "book.csv").write_text((copy / "book.csv").read_text().replace("Bus 14", "Bus 41"))
        status, out, err = self.compared(IEEE14, copy)
        self.assertEqual(
            (status, err), (1, "not the same book: 6 totals differ (16 contracts and 16 contracts)\n")
        )
        rows = [
            "City of Cedar,OBL,OFF,Bus 3,Bus 5,0.000,5.000,5.000",
            "City of Cedar,OPT,OFF,Bus 3,Bus 5,5.000,0.000,-5.000",
        ]
        rows += [
            "Fir Storage,OBL,ON,Bus 9,Bus 2,8.000,0.000,-8.000",
            "Gum Wind,OBL,ON,Bus 9,Bus 2,0.000,8.000,8.000",
        ]
        rows += [
            "Birch Energy,OPT,ON,Bus 1,Bus 14,9.250,0.000,-9.250",
            "Birch Energy,OPT,ON,Bus 1,Bus 41,0.000,9.250,9.250",
        ]
        self.assertEqual(sorted(out.splitlines()), sorted(rows))

    def test_more_than_a_row_holds(self):
        row = "Alder Power,OBL,ON,Bus 1,Bus 4"
        first = self.copy("first", lambda rows: [f"{i},{row},{mw}" for i, mw in enumerate((600, 600, 600))])
        second = self.copy("second", lambda rows: [f"{i},{row},{mw}" for i, mw in enumerate((800, 1000))])
        self.assertEqual(
            self.compared(first, second), (0, "", "the same book (3 contracts and 2 contracts)\n")
        )
        third = self.copy("third", lambda rows: [f"{i},{row},{mw}" for i, mw in enumerate((1000, 799.999))])
        differing = (
            1,
            f"{row},1800.000,1799.999,-0.001\n",
            "not the same book: 1 total differs (3 contracts and 2 contracts)\n",
        )
        self.assertEqual(self.compared(first, third), differing)

    def test_forms(self):
        """A narrow book and a wide one of the same contracts."""
        for name, form in (("narrow", 0), ("wide", 1)):
            shutil.copytree(CASE_L, self.folder / name)
            (self.folder / name / "book.bin").write_bytes(
                crr.write_book(3, crr.read_book(3, (CASE_L / "book.bin").read_bytes()), form)
            )
        self.assertEqual(
            self.compared(self.folder / "narrow", self.folder / "wide"),
            (0, "", "the same book (4 contracts and 4 contracts)\n"),
        )

    def test_many_holders(self):
        """More holders than one book can number; empty books."""
        folders = [
            self.copy(name, lambda rows: [f"{i},{name} {i},OBL,ON,Bus 1,Bus 2,1" for i in range(600)])
            for name in ("one", "other")
        ]
        self.assertEqual(
            self.compared(*folders)[::2],
            (1, "not the same book: 1,200 totals differ (600 contracts and 600 contracts)\n"),
        )
        self.assertEqual(
            self.compared(folders[0], folders[0])[::2],
            (0, "the same book (600 contracts and 600 contracts)\n"),
        )
        empty = [self.copy(name, lambda rows: []) for name in ("none", "nothing")]
        self.assertEqual(self.compared(*empty), (0, "", "the same book (0 contracts and 0 contracts)\n"))
        self.assertEqual(
            self.compared(empty[0], folders[0])[::2],
            (1, "not the same book: 600 totals differ (0 contracts and 600 contracts)\n"),
        )

    def test_json(self):
        copy = self.copy("copy", lambda rows: rows[1:])
        status, out, err = command("same", copy, IEEE14, "--json")
        row = {
            "owner": "Alder Power",
            "hedge_type": "OBL",
            "time_of_use": "ON",
            "source": "Bus 1",
            "sink": "Bus 4",
        }
        row.update({"first_mw": "0.000", "second_mw": "30.000", "change_mw": "30.000"})
        self.assertEqual(
            (status, json.loads(out), err),
            (1, {"same": False, "contracts": [15, 16], "differences": [row]}, ""),
        )
        answer = json.loads(command("same", copy, copy, "--json")[1])
        self.assertEqual(answer, {"same": True, "contracts": [15, 15], "differences": []})

    def test_faults(self):
        """Those of both folders, each with its folder."""
        first, second = (
            self.copy(name, lambda rows: [rows[0], rows[1].replace("Bus 4", "Bus 44")])
            for name in ("first", "second")
        )
        lines = [
            f"{folder}/book.csv:3:SINK: no node 'Bus 44' in factors.csv (refusal 11)"
            for folder in (first, second)
        ]
        self.assertEqual(
            command("same", first, second),
            (2, "", "\n".join([*lines, "crr: 2 faults; nothing was written"]) + "\n"),
        )
        gone = self.folder / "gone"
        self.assertEqual(
            command("same", IEEE14, gone),
            (2, "", f"{gone}: no such folder\ncrr: 1 fault; nothing was written\n"),
        )
        self.assertEqual(command("same", IEEE14)[0], 2)


if __name__ == "__main__":
    unittest.main()
