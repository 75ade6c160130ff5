"""The commands on a book: remap, market, holder."""

import json
import shutil
import unittest

from support import CASE_L, IEEE14, FolderTest, command, contents
import crr

class Remap(FolderTest):
    PAIRS = "OLD_NODE,NEW_NODE\nBus 14,Bus 13\nBus 13,Bus 12\n"

    def remapped(self, source):
        pairs, out = self.folder / "pairs.csv", self.folder / "out"
        pairs.write_text(self.PAIRS)
        status, said, _ = command("remap", source, pairs, "-o", out)
        self.assertEqual((status, said), (0, f"{out}: 2 pairs applied, 3 contracts of 16 changed\n"))
        return out

    def test_csv(self):
        out = self.remapped(IEEE14)
        expected = (IEEE14 / "book.csv").read_text().replace(",Bus 14,", ",Bus 12,").replace(
            ",Bus 13,", ",Bus 12,"
        )
        self.assertEqual((out / "book.csv").read_text(), expected)
        for name in ("constraints.csv", "factors.csv", "prices.csv"):
            self.assertEqual((out / name).read_bytes(), (IEEE14 / name).read_bytes())

    def test_bin(self):
        command("pack", IEEE14, "-o", self.folder / "bin")
        before, after = contents(self.folder / "bin"), contents(self.remapped(self.folder / "bin"))
        self.assertEqual([name for name in before if before[name] != after[name]], ["book.bin"])
        ends = [row[3:5] for row in crr.read_book(14, after["book.bin"])]
        self.assertEqual(ends[4], (0, 11))

    def test_no_other_hours(self):
        command("pack", IEEE14, "-o", self.folder / "bin")
        shutil.copytree(self.folder / "bin", self.folder / "out")
        (self.folder / "bin" / "prices" / "2026-08-01" / "HE12.bin").unlink()
        (self.folder / "pairs.csv").write_text(self.PAIRS)
        status, _, err = command(
            "remap", self.folder / "bin", self.folder / "pairs.csv", "-o", self.folder / "out"
        )
        self.assertEqual((status, err.count("HE12.bin is there and not one of the hours written")), (2, 1))

    def test_same_ends(self):
        (self.folder / "pairs.csv").write_text("OLD_NODE,NEW_NODE\nBus 1,Bus 4\n")
        self.assertEqual(command("remap", IEEE14, self.folder / "pairs.csv", "-o", self.folder / "out")[0], 0)
        self.assertIn("OBL,ON,Bus 4,Bus 4,30.000\n", (self.folder / "out" / "book.csv").read_text())
        self.assertEqual(command("check", self.folder / "out")[0], 0)

    def test_faults(self):
        (self.folder / "pairs.csv").write_text("OLD_NODE,NEW_NODE\nBus 15,Bus 13\nBus 1,\n")
        status, _, err = command("remap", IEEE14, self.folder / "pairs.csv", "-o", self.folder / "out")
        self.assertEqual(status, 2)
        self.assertIn("pairs.csv:2:OLD_NODE: no node 'Bus 15' in the grid (refusal 11)\n", err)
        self.assertIn("pairs.csv:3:NEW_NODE: no node '' in the grid (refusal 11)\n", err)
        self.assertFalse((self.folder / "out").exists())


class Views(FolderTest):
    HEADING = "NUMBER,CRR_ID,OWNER,HEDGE_TYPE,TIME_OF_USE,SOURCE,SINK,MW\n"

    def test_market(self):
        out = self.folder / "market.bin"
        said = f"{out}: 16 contracts of 6 holders, all as holder 0; 98 bytes written\n"
        self.assertEqual(command("market", IEEE14, "--file", out), (0, said, ""))
        command("pack", IEEE14, "-o", self.folder / "bin")
        book = crr.read_book(14, (self.folder / "bin" / "book.bin").read_bytes())
        self.assertEqual(
            crr.read_book(14, out.read_bytes()), [contract._replace(holder=0) for contract in book]
        )
        self.assertGreater(len({contract.holder for contract in book}), 1)

    def test_the_market_tests_and_settles_as_all(self):
        """The case that is published is a whole one, in the form that it had, without a name that is not the
        market's."""
        command("pack", IEEE14, "-o", self.folder / "bin")
        for number, folder in enumerate((IEEE14, self.folder / "bin")):
            out = self.folder / f"public{number}"
            said = f"{out}: 16 contracts of 6 holders, all as holder 0; the whole case written\n"
            self.assertEqual(command("market", folder, "-o", out), (0, said, ""))
            self.assertEqual(command("test", out), command("test", IEEE14))
            status, text, err = command("settle", out)
            self.assertEqual((status, err), (0, command("settle", IEEE14)[2]))
            self.assertEqual({line.split(",")[0] for line in text.splitlines()[1:]}, {"0"})
            told = b"".join(contents(out).values())
            for name in (b"Alder", b"Birch", b"Dogwood", b"CRR-0"):
                self.assertNotIn(name, told)
        for name in ("constraints.csv", "factors.csv", "prices.csv"):
            self.assertEqual(
                (self.folder / "public0" / name).read_bytes(), (IEEE14 / name).read_bytes()
            )
        self.assertEqual(
            contents(self.folder / "public1")["grid.bin"], contents(self.folder / "bin")["grid.bin"]
        )

    def test_contracts_names_where_asked_for(self):
        out = self.folder / "public"
        asked = ("market", IEEE14, "-o", out, "--names", "--file", self.folder / "view")
        self.assertEqual(command(*asked)[0], 0)
        book = (out / "book.csv").read_text()
        self.assertTrue(book.splitlines()[1].startswith("CRR-001,0,OBL,"))
        self.assertNotIn("Alder", book)
        self.assertEqual(
            crr.write_market_view(14, crr.from_csv.load(IEEE14)[0].book_file()),
            (self.folder / "view").read_bytes(),
        )

    def test_nowhere_to_write(self):
        status, _, err = command("market", CASE_L)
        self.assertEqual((status, err.count("where to: -o FOLDER for the whole case, --file FILE")), (2, 1))

    def test_a_holder_settles_its_own(self):
        command("pack", IEEE14, "-o", self.folder / "bin")
        lines = command("settle", IEEE14)[1].splitlines()
        of_all = [line for line in lines if line.startswith("City of Cedar")]
        for number, folder in enumerate((IEEE14, self.folder / "bin")):
            out = self.folder / f"cedar{number}"
            status, table, err = command("holder", folder, "City of Cedar", "-o", out)
            said = f"City of Cedar: 3 contracts of 16; {out}: the case of these written\n"
            self.assertEqual((status, err), (0, said))
            self.assertEqual((out / "view.csv").read_text(), table)
            self.assertTrue(table.splitlines()[1].startswith("6,CRR-007,City of Cedar,"))
            self.assertEqual(command("settle", out)[1].splitlines()[1:], of_all)
            self.assertNotIn(b"Alder", b"".join(contents(out).values()))
            self.assertEqual(command("check", out)[0], 0)

    def test_owners_do_not_matter(self):
        """With other owners the market's file is the same, byte by byte."""
        shutil.copytree(IEEE14, self.folder / "other")
        book = self.folder / "other" / "book.csv"
        book.write_text(
            book.read_text().replace("Alder Power", "1023").replace("Fir Storage", "Birch Energy")
        )
        for name, folder in (("one", IEEE14), ("two", self.folder / "other")):
            self.assertEqual(command("market", folder, "--file", self.folder / name)[0], 0)
        self.assertEqual((self.folder / "one").read_bytes(), (self.folder / "two").read_bytes())

    def test_holder(self):
        status, out, err = command("holder", IEEE14, "Alder Power")
        rows = [
            f"{number},{line}"
            for number, line in enumerate((IEEE14 / "book.csv").read_text().splitlines()[1:])
            if ",Alder Power," in line
        ]
        self.assertEqual(
            (status, out, err),
            (0, self.HEADING + "\n".join(rows) + "\n", f"Alder Power: {len(rows)} contracts of 16\n"),
        )
        self.assertIn(",OFF,", out)  # of both periods

    def test_holder_by_number(self):
        out = self.HEADING + "0,0,7,OBL,ON,N0,N1,10.000\n2,2,7,OBL,ON,N0,N2,0.001\n"
        self.assertEqual(command("holder", CASE_L, 7), (0, out, "7: 2 contracts of 4\n"))
        self.assertEqual(command("holder", CASE_L, 1023), (0, self.HEADING, "1023: 0 contracts of 4\n"))
        shutil.copytree(CASE_L, self.folder / "named")
        (self.folder / "named" / "names.csv").write_text("TABLE,NUMBER,NAME\nholder,7,Alder Power\n")
        named = (0, out.replace(",7,", ",Alder Power,"), "Alder Power: 2 contracts of 4\n")
        for holder in (7, "Alder Power"):
            self.assertEqual(command("holder", self.folder / "named", holder), named)

    def test_the_view_itself(self):
        out = self.folder / "view.bin"
        status, _, err = command("holder", CASE_L, 7, "--file", out)
        self.assertEqual((status, err), (0, f"7: 2 contracts of 4; {out}: 16 bytes written\n"))
        self.assertEqual(out.read_bytes().hex(" "), "00 00 40 70 00 10 27 10 00 02 40 70 00 20 00 01")
        self.assertEqual(
            command("holder", CASE_L, 0, "--file", out, "--force")[2],
            f"0: 0 contracts of 4; {out}: 0 bytes written\n",
        )
        self.assertEqual(out.read_bytes(), b"")

    def test_wide(self):
        rows = "".join(f"C{i},{i % 2},OPT,OFF,N{4000 - i},N0,1.5\n" for i in range(1, 4))
        heading = "CRR_ID,OWNER,HEDGE_TYPE,TIME_OF_USE,SOURCE,SINK,MW\n"
        (self.folder / "constraints.csv").write_text("CONSTRAINT_ID,LIMIT_MW\n")
        (self.folder / "factors.csv").write_text("NODE_ID\n" + "".join(f"N{n}\n" for n in range(4000)))
        (self.folder / "book.csv").write_text(heading + rows)
        status, out, err = command("holder", self.folder, 1, "--file", self.folder / "view.bin")
        expected = self.HEADING + "0,C1,1,OPT,OFF,N3999,N0,1.500\n2,C3,1,OPT,OFF,N3997,N0,1.500\n"
        self.assertEqual(
            (status, out, err.count("; "), len((self.folder / "view.bin").read_bytes())), (0, expected, 1, 18)
        )
        self.assertEqual(command("market", self.folder, "--file", self.folder / "market.bin")[0], 0)
        self.assertEqual(
            {row.holder for row in crr.read_book(4000, (self.folder / "market.bin").read_bytes())}, {0}
        )

    def test_json(self):
        status, out, err = command("holder", CASE_L, 9, "--json")
        row = {
            "number": 3,
            "crr_id": "3",
            "owner": "9",
            "hedge_type": "OBL",
            "time_of_use": "OFF",
            "source": "N0",
            "sink": "N1",
            "mw": "0.005",
        }
        self.assertEqual(
            (status, json.loads(out), err),
            (0, {"holder": "9", "number": 9, "contracts": [row], "bytes": 8}, ""),
        )
        place = self.folder / "out.bin"
        self.assertEqual(
            json.loads(command("holder", CASE_L, 9, "--file", place, "--json")[1])["file"], str(place)
        )
        answer = json.loads(command("market", CASE_L, "--file", place, "--json", "--force")[1])
        self.assertEqual(answer, {"file": str(place), "contracts": 4, "bytes": 26})

    def test_both_forms_of_a_folder(self):
        command("pack", IEEE14, "-o", self.folder / "bin")
        self.assertEqual(
            command("holder", IEEE14, "City of Cedar"),
            command("holder", self.folder / "bin", "City of Cedar"),
        )

    def test_faults(self):
        for holder in ("Alder", "1024", "-0", "007", "", "٧", "9" * 5000):
            status, out, err = command("holder", CASE_L, "--", holder)
            said = (
                f"HOLDER: {holder!r} is neither a holder's name nor a number from 0 to 1023\n"
                f"crr: 1 fault in {CASE_L}; nothing was written\n"
            )
            self.assertEqual((status, out, err), (2, "", said))
        shutil.copytree(CASE_L, self.folder / "case")
        before = contents(self.folder / "case")
        for arguments in (("market",), ("holder", 7)):
            place = self.folder / "case" / "book.bin"
            status, _, err = command(arguments[0], self.folder / "case", *arguments[1:], "--file", place)
            self.assertEqual(
                (status, err.splitlines()[0]),
                (2, f"{place}: that is a file of the case itself: choose another"),
            )
        self.assertEqual(contents(self.folder / "case"), before)
        (self.folder / "case" / "book.bin").write_bytes(before["book.bin"] + b"\0")
        self.assertEqual(command("market", self.folder / "case", "--file", self.folder / "market.bin")[0], 2)
        self.assertFalse((self.folder / "market.bin").exists())


if __name__ == "__main__":
    unittest.main()
