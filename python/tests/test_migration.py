"""Load migration: the function beside fractions, and the command: nets and new contracts, names, months one
after another, too long a book."""

import json
import random
import shutil
import unittest
from fractions import Fraction

from support import CASE_L, MIGRATION, ROOT, SEED, FolderTest, command, draw_book, draw_grid, draw_prices
import crr


class Figures(unittest.TestCase):
    MANUAL = (
        b"RRSSMMAIL",
        [200, 600, 500, 450, 5, 35, 5, 4, 1],
        [5, 5, 10, 10, 200, 200, 800, 850, 8000],
        [1, 1, 2, 4, 1, 2, 3, 3, 1],
        [2, 3, 4, 3, 2, 3, 1, 2, 3],
    )

    def test_manual_migration(self):
        """001's nine rows, on the book and loads that go with them."""
        nets = [[0, 2000, 7000, 0], [-2000, 0, 3600, 5000], [-7000, -3600, 0, -4500], [0, -5000, 4500, 0]]
        self.assertEqual(crr.net_transfers(4, *self.MANUAL), nets)
        new = crr.migrate_load(
            3, 1, (MIGRATION / "book.bin").read_bytes(), *self.MANUAL, [90_000, 86_000, 40_000, 45_000]
        )
        self.assertEqual(new, (ROOT / "tests" / "examples" / "migrated.bin").read_bytes())

    def test_migration(self):
        """By fractions; flows, verdicts and exact totals stay."""
        rng, moved = random.Random(SEED), 0
        for _ in range(150):
            lses, count, nodes, constraints = (
                rng.randint(2, 16), rng.randint(0, 20), rng.randint(2, 5), rng.randint(1, 4)
            )
            olds = [rng.randint(1, lses) for _ in range(count)]
            news = [(old + rng.randint(0, lses - 2)) % lses + 1 for old in olds]
            customers, rates = (
                rng.choices((0, 1, 7, 200, 1_000_000), k=count), rng.choices((0, 1, 5, 800, 10_000), k=count)
            )
            classes = bytes(rng.choices(range(256), k=count))
            moved_load = {(i, j): 0 for i in range(1, lses + 1) for j in range(1, lses + 1)}
            for moving, rate, left, joined in zip(customers, rates, olds, news):
                moved_load[left, joined] += moving * rate
            nets = crr.net_transfers(lses, classes, customers, rates, olds, news)
            self.assertEqual(
                nets,
                [
                    [moved_load[i, j] - moved_load[j, i] for j in range(1, lses + 1)]
                    for i in range(1, lses + 1)
                ],
            )
            loads = [
                sum(max(0, net) for net in line) * rng.choice((1, 1, 2, 3)) + rng.choice((0, 1, 10))
                for line in nets
            ]
            grid = crr.read_grid(draw_grid(rng, nodes, constraints)[0])
            rows = [
                (*row[:2], rng.randint(0, lses + 1), *row[3:])
                for row in draw_book(rng, nodes, rng.randint(0, 12))[1]
            ]
            expected = list(rows)
            for row in rows:
                for gainer, net in enumerate(
                    nets[row[2] - 1] if row[:2] == (0, 1) and 1 <= row[2] <= lses else [], 1
                ):
                    part = int(Fraction(row[5] * net, loads[row[2] - 1])) if net > 0 else 0
                    expected += (
                        [(0, 1, gainer, *row[3:5], part), (0, 1, row[2], row[4], row[3], part)]
                        if part
                        else []
                    )
            old = crr.write_book(nodes, rows)
            new = crr.migrate_load(nodes, 1, old, classes, customers, rates, olds, news, loads)
            self.assertEqual(crr.read_book(nodes, new), expected)
            moved += len(expected) > len(rows)
            for period in (0, 1):
                prices = draw_prices(rng, constraints)[2]
                self.assertEqual(
                    crr.find_flows(grid, old, period).flows, crr.find_flows(grid, new, period).flows
                )
                self.assertEqual(crr.test_book(grid, old, 2, period), crr.test_book(grid, new, 2, period))
                totals = [crr.settle_hour(grid, book, period, prices).total.exact for book in (old, new)]
                self.assertEqual(totals[0], totals[1])
        self.assertGreater(moved, 40)


class Migrate(FolderTest):
    NETS = (
        "LSE,1,2,3,4\n1,0.000,2.000,7.000,0.000\n2,-2.000,0.000,3.600,5.000\n3,-7.000,-3.600,0.000,-4.500\n"
        "4,0.000,-5.000,4.500,0.000\n"
    )
    HEADING = "CRR_ID,OWNER,HEDGE_TYPE,TIME_OF_USE,SOURCE,SINK,MW\n"

    def migrated(self, folder, *arguments, rows="", loads=""):
        for name, text in (("rows.csv", rows), ("loads.csv", loads)):
            (self.folder / name).write_text(text or (MIGRATION / name).read_text())
        return command("migrate", folder, self.folder / "rows.csv", self.folder / "loads.csv", *arguments)

    def named(self):
        """The example with owners by name, as CSV files: LSEs 1, 2 and 4 hold contracts, and names.csv knows
        3 as well."""
        names = "holder,1,Alder\nholder,2,Birch\nholder,3,Cedar\nholder,4,Dogwood\n"
        shutil.copytree(MIGRATION, self.folder / "bin")
        (self.folder / "bin" / "names.csv").write_text(f"TABLE,NUMBER,NAME\n{names}")
        command("unpack", self.folder / "bin", "-o", self.folder / "csv")
        book = self.folder / "csv" / "book.csv"
        book.write_text("".join(line for line in book.read_text().splitlines(True) if ",Cedar," not in line))
        (self.folder / "csv" / "names.csv").write_text(f"TABLE,NUMBER,NAME\n{names}")
        return self.folder / "csv"

    def test_manual(self):
        """001's table of nets, and the contracts that follow; the new book is the stored one."""
        out = self.folder / "out"
        status, said, err = self.migrated(MIGRATION, "--period", "on", "-o", out)
        added = [
            ("0", "2", "1", "N0", "N1", "0.222"),
            ("0", "3", "1", "N0", "N1", "0.777"),
            ("3", "3", "2", "N2", "N1", "1.800"),
        ]
        added += [("3", "4", "2", "N2", "N1", "2.500"), ("5", "3", "4", "N1", "N0", "0.099")]
        pairs = [
            f"{b} LMT {g},{g},OBL,ON,{s},{t},{q}\n{b} CNT {g},{l},OBL,ON,{t},{s},{q}\n"
            for b, g, l, s, t, q in added
        ]
        self.assertEqual(
            (status, said, err),
            (0, f"{self.NETS}\n{self.HEADING}{''.join(pairs)}", f"{out}: 10 of 18 contracts are new\n"),
        )
        self.assertEqual(
            (out / "book.bin").read_bytes(), (ROOT / "tests" / "examples" / "migrated.bin").read_bytes()
        )
        self.assertEqual(command("test", out), command("test", MIGRATION))

    def test_off_peak(self):
        status, said, err = self.migrated(MIGRATION, "--period", "off")
        added = (
            "2 LMT 2,2,OBL,OFF,N0,N1,0.155\n2 CNT 2,1,OBL,OFF,N1,N0,0.155\n2 LMT 3,3,OBL,OFF,N0,N1,0.544\n"
            "2 CNT 3,1,OBL,OFF,N1,N0,0.544\n"
        )
        self.assertEqual(
            (status, said, err), (0, f"{self.NETS}\n{self.HEADING}{added}", "4 of 12 contracts are new\n")
        )

    def test_names(self):
        """LSEs by name and by number; one that holds nothing yet has its name from names.csv. Both forms of a
        folder give the same."""
        case = self.named()
        rows = "Class,Customers,MW_per_customer,Old,New\nR,1,9,Alder,Cedar\nR,1,1,1,Birch\n"
        loads = "LSE,MW\nAlder,90\nBirch,0\nCedar,0\n"
        answer = self.migrated(case, "--period", "on", rows=rows, loads=loads)
        nets = (
            "LSE,Alder,Birch,Cedar\nAlder,0.000,1.000,9.000\nBirch,-1.000,0.000,0.000\n"
            "Cedar,-9.000,0.000,0.000\n"
        )
        added = "0 LMT Birch,Birch,OBL,ON,N0,N1,0.111\n0 CNT Birch,Alder,OBL,ON,N1,N0,0.111\n"
        added += "0 LMT Cedar,Cedar,OBL,ON,N0,N1,1.000\n0 CNT Cedar,Alder,OBL,ON,N1,N0,1.000\n"
        self.assertEqual(answer, (0, f"{nets}\n{self.HEADING}{added}", "4 of 11 contracts are new\n"))
        self.assertEqual(
            self.migrated(case, "--period", "on", "-o", self.folder / "out", rows=rows, loads=loads)[:2],
            answer[:2],
        )
        self.assertEqual(
            (self.folder / "out" / "book.csv").read_text(), (case / "book.csv").read_text() + added
        )
        command("pack", case, "-o", self.folder / "packed")
        self.assertEqual(
            self.migrated(self.folder / "packed", "--period", "on", rows=rows, loads=loads), answer
        )

    def test_a_holder_by_its_number(self):
        """One that the book calls by its number keeps that, whatever names.csv calls it; rows and loads may
        have either."""
        case = self.named()
        book = (case / "book.csv").read_text().replace(",Birch,", ",2,")
        (case / "book.csv").write_text(book)
        heading = "CUSTOMER_CLASS,CUSTOMERS,MW_PER_CUSTOMER,OLD_LSE,NEW_LSE\n"
        answers = [
            self.migrated(
                case,
                *("--period", "on", "-o", self.folder / birch),
                rows=f"{heading}R,1,1,Alder,{birch}\n",
                loads=f"LSE,LOAD_MW\nAlder,90\n{birch},0\n",
            )[:2]
            for birch in ("Birch", "2")
        ]
        added = "0 LMT 2,2,OBL,ON,N0,N1,0.111\n0 CNT 2,Alder,OBL,ON,N1,N0,0.111\n"
        nets = "LSE,Alder,2\nAlder,0.000,1.000\n2,-1.000,0.000\n"
        self.assertEqual(answers, [(0, f"{nets}\n{self.HEADING}{added}")] * 2)
        for out in ("Birch", "2"):
            self.assertEqual((self.folder / out / "book.csv").read_text(), book + added)

    def test_months(self):
        """001's January and February: a tenth goes, and a tenth of what is left; names of contracts stay
        different."""
        (self.folder / "case").mkdir()
        (self.folder / "case" / "grid.bin").write_bytes((CASE_L / "grid.bin").read_bytes())
        (self.folder / "case" / "book.bin").write_bytes(crr.write_book(3, [(0, 1, 1, 0, 1, 100_000)]))
        heading = "CUSTOMER_CLASS,CUSTOMERS,MW_PER_CUSTOMER,OLD_LSE,NEW_LSE\n"
        self.migrated(
            self.folder / "case",
            "--period",
            "on",
            "-o",
            self.folder / "january",
            rows=f"{heading}R,10,1,1,2\n",
            loads="LSE,LOAD_MW\n1,100\n2,0\n",
        )
        loads = "LSE,LOAD_MW\n1,90\n2,10\n"
        said = self.migrated(
            self.folder / "january",
            "--period",
            "on",
            "-o",
            self.folder / "february",
            rows=f"{heading}R,9,1,1,2\n",
            loads=loads,
        )[1]
        rows = [line.split(",") for line in said.splitlines()[5:]]
        self.assertEqual(
            [row[0] for row in rows], ["0 LMT 2 (2)", "0 CNT 2 (2)", "0 CNT 2 LMT 2", "0 CNT 2 CNT 2"]
        )
        held = {1: 0, 2: 0}
        for contract in crr.read_book(3, (self.folder / "february" / "book.bin").read_bytes()):
            held[contract.holder] += contract.quantity if contract.source == 0 else -contract.quantity
        self.assertEqual(held, {1: 81_000, 2: 19_000})

    def test_equal_contracts(self):
        """Each new contract has the name of its own base contract, also where two are equal and one gives
        nothing."""
        (self.folder / "case").mkdir()
        (self.folder / "case" / "grid.bin").write_bytes((CASE_L / "grid.bin").read_bytes())
        book = [(0, 1, 1, 0, 1, 1_000), (0, 1, 1, 0, 1, 1), (1, 1, 1, 0, 1, 1_000), (0, 1, 1, 0, 1, 1_000)]
        (self.folder / "case" / "book.bin").write_bytes(crr.write_book(3, book))
        rows = "CUSTOMER_CLASS,CUSTOMERS,MW_PER_CUSTOMER,OLD_LSE,NEW_LSE\nR,10,1,1,2\nR,20,1,1,3\n"
        said = self.migrated(
            self.folder / "case", "--period", "on", rows=rows, loads="LSE,LOAD_MW\n1,40\n2,0\n3,0\n"
        )[1]
        names = [f"{base} {mark} {gainer}" for base in (0, 3) for gainer in (2, 3) for mark in ("LMT", "CNT")]
        self.assertEqual([line.split(",")[0] for line in said.split("\n\n")[1].splitlines()[1:]], names)

    def test_json(self):
        status, out, err = self.migrated(MIGRATION, "--period", "on", "--json")
        answer = json.loads(out)
        self.assertEqual(
            (status, err, answer["nets"]["2"], answer["contracts"]),
            (0, "", {"1": "-2.000", "2": "0.000", "3": "3.600", "4": "5.000"}, 18),
        )
        first = {
            "crr_id": "0 LMT 2",
            "owner": "2",
            "hedge_type": "OBL",
            "time_of_use": "ON",
            "source": "N0",
            "sink": "N1",
            "mw": "0.222",
        }
        self.assertEqual((answer["added"][0], len(answer["added"])), (first, 10))

    def test_headings(self):
        """Those of 001's own table."""
        rows = (MIGRATION / "rows.csv").read_text().splitlines()[1:]
        heading = "Customer Class,Net number of customer transferred,MW/customer rate,Old LSE,New LSE\n"
        answer = self.migrated(MIGRATION, "--period", "on", rows=heading + "\n".join(rows) + "\n")
        self.assertEqual(answer, self.migrated(MIGRATION, "--period", "on"))

    def test_too_long(self):
        (self.folder / "case").mkdir()
        (self.folder / "case" / "grid.bin").write_bytes((CASE_L / "grid.bin").read_bytes())
        (self.folder / "case" / "book.bin").write_bytes(crr.write_book(3, [(0, 1, 4, 0, 1, 1_000)] * 334))
        said = f"crr: {crr.MEANINGS[10]} (refusal 10)\n"
        self.assertEqual(
            self.migrated(self.folder / "case", "--period", "on", "-o", self.folder / "out"), (2, "", said)
        )
        self.assertFalse((self.folder / "out").exists())

    def test_usage(self):
        self.assertEqual(self.migrated(MIGRATION)[0], 2)  # whose rates and loads?
        self.assertEqual(self.migrated(MIGRATION, "--period", "both")[0], 2)


if __name__ == "__main__":
    unittest.main()
