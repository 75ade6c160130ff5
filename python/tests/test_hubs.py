"""The commands on trading hubs: their marginal cost of congestion, and contracts from them added to a
book."""

import json
import shutil
import unittest

from support import CASE_L, IEEE14, FolderTest, command, contents
import crr


class Hubs(FolderTest):
    HUBS = "HUB,NODE_ID,PERCENT\nNorth,Bus 6,20\nWest,Bus 8,100\nNorth,Bus 2,50.000\nNorth,Bus 3,30\n"
    HEADING = "CRR_ID,OWNER,HEDGE_TYPE,TIME_OF_USE,SOURCE,SINK,MW\n"
    CONTRACTS = (
        HEADING + "HUB-1,Birch Energy,OBL,ON,North,Bus 4,10.001\nHUB-2,Gum Wind,OPT,OFF,West,Bus 8,0.001\n"
    )
    ADDED = (
        "HUB-1 Bus 2,Birch Energy,OBL,ON,Bus 2,Bus 4,5.001\n"
        "HUB-1 Bus 3,Birch Energy,OBL,ON,Bus 3,Bus 4,3.000\n"
        "HUB-1 Bus 6,Birch Energy,OBL,ON,Bus 6,Bus 4,2.000\n"
        "HUB-2 Bus 8,Gum Wind,OPT,OFF,Bus 8,Bus 8,0.001\n"
    )

    def added(self, case, contracts=CONTRACTS, hubs=HUBS, *arguments):
        (self.folder / "hubs.csv").write_text(hubs)
        (self.folder / "contracts.csv").write_text(contracts)
        return command(
            "hub-add",
            case,
            self.folder / "hubs.csv",
            self.folder / "contracts.csv",
            "-o",
            self.folder / "out",
            *arguments,
        )

    def test_mcc(self):
        (self.folder / "hubs.csv").write_text(
            "HUB,NODE_ID,PERCENT\nMid,N0,33.333\nMid,N2,66.667\nZero,N1,100\n"
        )
        table = "OPR_DT,OPR_HR,TIME_OF_USE,HUB,MCC\n,,ON,Mid,-6.433361000000\n,,ON,Zero,0.000000000000\n"
        self.assertEqual(command("hub-mcc", CASE_L, self.folder / "hubs.csv"), (0, table, "2 hubs, 1 hour\n"))
        status, out, err = command("hub-mcc", CASE_L, self.folder / "hubs.csv", "--json")
        row = {"opr_dt": None, "opr_hr": None, "time_of_use": "ON", "hub": "Zero", "mcc": "0.000000000000"}
        self.assertEqual((status, json.loads(out)["mcc"][1], err), (0, row, ""))

    def test_mcc_in_both_forms(self):
        command("pack", IEEE14, "-o", self.folder / "bin")
        (self.folder / "hubs.csv").write_text(self.HUBS)
        status, out, err = command("hub-mcc", IEEE14, self.folder / "hubs.csv")
        self.assertEqual((status, len(out.splitlines()), err), (0, 97, "2 hubs, 48 hours\n"))
        self.assertIn("\n2026-07-31,12,ON,North,0.795236800000\n2026-07-31,12,ON,West,3.702516000000\n", out)
        self.assertEqual(
            command("hub-mcc", self.folder / "bin", self.folder / "hubs.csv"), (status, out, err)
        )

    def test_added(self):
        status, said, err = self.added(IEEE14)
        self.assertEqual(
            (status, said, err),
            (0, f"{self.folder / 'out'}: 2 hub contracts added as 4 contracts, 20 contracts in all\n", ""),
        )
        self.assertEqual(
            (self.folder / "out" / "book.csv").read_text(), (IEEE14 / "book.csv").read_text() + self.ADDED
        )
        for name in ("constraints.csv", "factors.csv", "prices.csv"):
            self.assertEqual((self.folder / "out" / name).read_bytes(), (IEEE14 / name).read_bytes())
        self.assertEqual(command("check", self.folder / "out")[0], 0)

    def test_added_to_bin(self):
        command("pack", IEEE14, "-o", self.folder / "bin")
        self.assertEqual(self.added(self.folder / "bin")[0], 0)
        before, after = contents(self.folder / "bin"), contents(self.folder / "out")
        self.assertEqual(
            [name for name in after if before.get(name) != after[name]], ["book.bin", "names.csv"]
        )
        command("unpack", self.folder / "out", "-o", self.folder / "csv")
        self.assertEqual(
            (self.folder / "csv" / "book.csv").read_text(), (IEEE14 / "book.csv").read_text() + self.ADDED
        )

    def test_json(self):
        status, out, err = self.added(IEEE14, self.CONTRACTS, self.HUBS, "--json")
        answer = json.loads(out)
        self.assertEqual(
            (status, answer["hub_contracts"], answer["contracts"], len(answer["added"]), err),
            (0, 2, 20, 4, ""),
        )
        self.assertEqual(
            list(answer["added"][3].values()),
            ["HUB-2 Bus 8", "Gum Wind", "OPT", "OFF", "Bus 8", "Bus 8", "0.001"],
        )

    def test_owners_keep_their_numbers(self):
        self.assertEqual(
            self.added(
                IEEE14, self.HEADING + "H,77,OBL,ON,West,Bus 1,1\nI,Fir Storage,OBL,ON,West,Bus 1,1\n"
            )[0],
            0,
        )
        command("pack", self.folder / "out", "-o", self.folder / "bin")
        holders = [row[2] for row in crr.read_book(14, (self.folder / "bin" / "book.bin").read_bytes())]
        self.assertEqual(holders[-3:], [5, 77, 5])

    def test_a_wide_book_where_it_is_needed(self):
        case = self.folder / "case"
        case.mkdir()
        (case / "constraints.csv").write_text("CONSTRAINT_ID,LIMIT_MW\nK,1\n")
        (case / "factors.csv").write_text("NODE_ID,K\n" + "".join(f"N{n},0\n" for n in range(300)))
        (case / "book.csv").write_text(self.HEADING + "1,Ash,OBL,ON,N0,N1,1\n")
        for contract, node in (
            ("A,Ash,OBL,ON,Near,N255,1\n", "N255"),
            ("B,Ash,OBL,ON,Far,N2,1\n", "N256"),
            ("C,Ash,OBL,ON,Near,N256,1\n", "N256"),
        ):
            shutil.rmtree(self.folder / "out", ignore_errors=True)
            status = self.added(
                case,
                self.HEADING + contract,
                "HUB,NODE_ID,PERCENT\nNear,N255,100\nFar,N256,0.001\nFar,N3,99.999\n",
            )[0]
            names = (self.folder / "out" / "names.csv").read_text()
            self.assertEqual((status, "form,1,wide\n" in names), (0, node == "N256"), contract)
            self.assertEqual(command("check", self.folder / "out")[0], 0)

    def test_none_written_over(self):
        self.assertEqual(self.added(IEEE14)[0], 0)
        status, _, err = self.added(IEEE14, self.CONTRACTS.replace("10.001", "10.002"))
        self.assertEqual((status, err.count("book.csv is there and differs")), (2, 1))

    def test_usage(self):
        self.assertEqual(command("hub-mcc", IEEE14)[0], 2)
        self.assertEqual(command("hub-add", IEEE14, "hubs.csv", "contracts.csv")[0], 2)  # no -o


if __name__ == "__main__":
    unittest.main()
