"""Many hours: every engine gives the same, every sum adds up, and slices give what the whole gives."""

import csv
import io
import shutil
import unittest
from array import array
from concurrent.futures import ProcessPoolExecutor, ThreadPoolExecutor
from fractions import Fraction

from support import (
    IEEE14,
    IEEE14_HOURS,
    FolderTest,
    amounts,
    command,
    draw_book,
    draw_grid,
    draw_prices,
    half_away,
)
import crr
from crr.case import Case, Names, PricedHour
from crr.files import Contract
from crr.hours import _Lanes
from crr.interface import MAX_CONTRACTS, MAX_NODES
from crr.slices import cut, settle_sliced


class Hours(FolderTest):
    def setUp(self):
        super().setUp()
        self.grid, _, self.factors = draw_grid(self.rng, 20, 8)
        self.book, self.rows = draw_book(self.rng, 20, 100)
        self.drawn = [draw_prices(self.rng, 8) for _ in range(120)]
        self.hours = [
            crr.PriceFile(f"2026-{1 + i // 50:02}-01", 1 + i % 24, file)
            for i, (file, _, _) in enumerate(self.drawn)
        ]

    def test_against_fractions(self):
        settled = crr.settle_hours(self.grid, self.book, self.hours)
        exact = [amounts(self.rows, self.factors, 8, period, prices) for _, period, prices in self.drawn]
        self.assertEqual([hour.sum for hour in settled.hours], [sum(map(half_away, hour)) for hour in exact])
        self.assertEqual([hour.exact for hour in settled.hours], [sum(hour) for hour in exact])
        self.assertEqual(list(settled.months), ["2026-01", "2026-02", "2026-03"])
        for month, cents in settled.months.items():
            of_month = [hour for hour, file in zip(exact, self.hours) if file.month == month]
            self.assertEqual(
                cents, [sum(half_away(hour[i]) for hour in of_month) for i in range(len(self.rows))]
            )
        self.assertEqual((settled.sum, settled.exact), (sum(settled.cents), sum(map(sum, exact))))

    def test_engines_agree(self):
        alone = crr.settle_hours(self.grid, self.book, self.hours)
        for engine in (ThreadPoolExecutor(2), ProcessPoolExecutor(2)):
            with engine:
                for parts in (1, 7, 1000):
                    self.assertEqual(
                        crr.settle_hours(self.grid, self.book, self.hours, engine, parts=parts), alone
                    )
                with self.assertRaises(crr.Refused) as caught:
                    crr.settle_hours(
                        self.grid,
                        self.book,
                        self.hours[:9] + [crr.PriceFile("2026-01-09", 9, b"\0")] + self.hours[9:],
                        engine,
                        parts=4,
                    )
                self.assertEqual((caught.exception.number, caught.exception.file), (14, "2026-01-09 HE09"))

    def test_dask(self):
        try:
            from distributed import Client
        except ImportError:
            self.skipTest("dask's distributed is not installed")
        with Client(n_workers=1, threads_per_worker=2, processes=False, dashboard_address=None) as client:
            alone = crr.settle_hours(self.grid, self.book, self.hours)
            self.assertEqual(
                crr.settle_hours(self.grid, self.book, self.hours, client.get_executor(), parts=4), alone
            )

    def test_progress(self):
        steps = []
        crr.settle_hours(
            self.grid,
            self.book,
            self.hours,
            parts=3,
            progress=lambda done, total: steps.append((done, total)),
        )
        self.assertEqual(steps, [(40, 120), (80, 120), (120, 120)])

    def test_none(self):
        settled = crr.settle_hours(self.grid, self.book, [])
        self.assertEqual((settled.hours, settled.cents, settled.sum, settled.exact), ([], [], 0, 0))
        self.assertRaises(crr.Refused, crr.settle_hours, b"", self.book, [])

    def test_lanes(self):
        lanes = _Lanes(5)
        largest = 64_000_000_000  # cents of one contract in one hour
        rows = [
            array(
                "q",
                [
                    self.rng.choice((0, -1, 1, largest, -largest, self.rng.randint(-largest, largest)))
                    for _ in range(5)
                ],
            )
            for _ in range(500)
        ]
        self.assertEqual(lanes.list(sum(map(lanes.number, rows))), [sum(cells) for cells in zip(*rows)])
        self.assertEqual(_Lanes(0).list(_Lanes(0).number(array("q"))), [])


class Results(FolderTest):
    def table(self, name):
        return list(csv.DictReader(io.StringIO((self.folder / name).read_text())))

    def test_they_add_up(self):
        status, out, err = command("settle", IEEE14, "-o", self.folder)
        self.assertEqual(
            (status, out), (0, f"{self.folder}: hours.csv, holders.csv and contracts.csv written\n")
        )
        sums = {sum(Fraction(row["SUM"]) for row in self.table("hours.csv"))}
        sums |= {
            sum(Fraction(row["AMOUNT"]) for row in self.table(name))
            for name in ("holders.csv", "contracts.csv")
        }
        self.assertEqual(sums, {Fraction("11034.22")})
        self.assertEqual(
            sum(Fraction(row["EXACT_TOTAL"]) for row in self.table("hours.csv")), Fraction("11034.2220770875")
        )
        self.assertEqual(err, f"{IEEE14_HOURS}48 hours: sum 11034.22, exact total 11034.2220770875\n")
        self.assertEqual({row["MONTH"] for row in self.table("holders.csv")}, {"2026-07", "2026-08"})
        self.assertEqual(len(self.table("hours.csv")), 48)

    def test_from_the_text_of_the_files(self):
        """Every contract's dollars, worked out from the CSV files by fractions and nothing of the package."""

        def read(name):
            return list(csv.DictReader(io.StringIO((IEEE14 / name).read_text())))

        factors = {
            row.pop("NODE_ID"): {name: Fraction(value) for name, value in row.items()}
            for row in read("factors.csv")
        }
        hours = {}
        for row in read("prices.csv"):
            posted = hours.setdefault((row["OPR_DT"], row["OPR_HR"], row["TIME_OF_USE"]), {})
            if row["CONSTRAINT_ID"]:
                posted[row["CONSTRAINT_ID"]] = Fraction(row["SHADOW_PRICE"])
        expected = {}
        for row in read("book.csv"):
            source, sink, cents = factors[row["SOURCE"]], factors[row["SINK"]], 0
            for (_, _, time_of_use), posted in hours.items():
                amount = (
                    sum(price * (source[name] - sink[name]) for name, price in posted.items())
                    * Fraction(row["MW"])
                    * 100
                )
                if time_of_use == row["TIME_OF_USE"]:
                    cents += half_away(max(amount, 0) if row["HEDGE_TYPE"] == "OPT" else amount)
            expected[row["CRR_ID"]] = Fraction(cents, 100)
        command("settle", IEEE14, "-o", self.folder)
        self.assertEqual(
            {row["CRR_ID"]: Fraction(row["AMOUNT"]) for row in self.table("contracts.csv")}, expected
        )

    def test_processes(self):
        self.assertEqual(command("settle", IEEE14, "-j", "2"), command("settle", IEEE14))

    def test_without_hours(self):
        shutil.copytree(IEEE14, self.folder / "case")
        (self.folder / "case" / "prices.csv").unlink()
        self.assertEqual(
            command("settle", self.folder / "case"),
            (0, "OWNER,MONTH,AMOUNT,INCOMPLETE\n", "0 hours: sum 0.00, exact total 0.0000000000\n"),
        )


class Slices(FolderTest):
    def case(self, nodes, constraints, contracts, hours, priced):
        rng = self.rng
        factors = array("q", [rng.randint(-100_000, 100_000) for _ in range(nodes * constraints)])
        book = [
            Contract(
                rng.randint(0, 1),
                rng.randint(0, 1),
                0,
                *rng.sample(range(nodes), 2),
                rng.randint(1, 1_000_000),
            )
            for _ in range(contracts)
        ]
        out = []
        for i in range(hours):
            prices = array("Q", bytes(8 * constraints))
            for k in rng.sample(range(constraints), priced):
                prices[k] = rng.randint(1, 500_000)
            out.append(
                PricedHour("2026-01-31" if i % 2 else "2026-02-01", 1 + i // 2, rng.randint(0, 1), prices)
            )
        names = Names(
            [f"N{n}" for n in range(nodes)],
            [f"K{k}" for k in range(constraints)],
            [str(i) for i in range(contracts)],
            {},
        )
        return Case(names, array("Q", [0] * constraints), factors, book, out)

    def test_sliced_is_unsliced(self):
        for sizes in ((200, 64, 1000, 6, 20), (200, 64, 1000, 2, 64), (5, 3, 40, 4, 0)):
            case = self.case(*sizes)
            files = [
                crr.PriceFile(hour.day, hour.hour, crr.write_prices(hour.period, hour.prices))
                for hour in case.hours
            ]
            whole = crr.settle_hours(crr.write_grid(case.grid), crr.write_book(sizes[0], case.book), files)
            self.assertEqual(settle_sliced(case), whole)
            with ThreadPoolExecutor(2) as engine:
                self.assertEqual(settle_sliced(case, engine, parts=3), whole)

    def test_larger_than_the_library(self):
        case = self.case(450, 150, 2300, 2, 40)
        self.assertFalse(case.fits)
        slices = cut(case.book)
        self.assertEqual(sorted(i for piece in slices for i in piece.contracts), list(range(2300)))
        self.assertTrue(
            all(len(piece.contracts) <= MAX_CONTRACTS and len(piece.nodes) <= MAX_NODES for piece in slices)
        )
        settled = settle_sliced(case)
        exact = [amounts(case.book, case.factors, 150, hour.period, hour.prices) for hour in case.hours]
        self.assertEqual(settled.cents, [sum(half_away(hour[i]) for hour in exact) for i in range(2300)])
        self.assertEqual(settled.exact, sum(map(sum, exact)))
        self.assertEqual(settled.sum, sum(settled.cents))

    def test_too_many_priced(self):
        with self.assertRaisesRegex(
            Exception, r"prices.csv: 2026-02-01 HE01 has more than 64 priced constraints \(refusal 3\)"
        ):
            settle_sliced(self.case(3, 70, 2, 1, 65))

    def test_by_the_command(self):
        shutil.copytree(IEEE14, self.folder / "case")
        lines = (IEEE14 / "book.csv").read_text().splitlines()
        copies = 100
        rows = [line.replace(",", f"/{copy},", 1) for copy in range(copies) for line in lines[1:]]
        (self.folder / "case" / "book.csv").write_text("\n".join([lines[0], *rows]) + "\n")
        said = command("check", self.folder / "case")[2]
        self.assertIn("more than 1000 contracts; crr test, cuts, settle, report and pack take more ", said)
        status, out, err = command("settle", self.folder / "case")
        total = "48 hours: sum 1103422.00, exact total 1103422.2077087500\n"
        self.assertEqual((status, err), (0, f"{IEEE14_HOURS}{total}"))
        self.assertIn("Fir Storage,2026-07,-78931.00,24 of 744 hours\n", out)
        self.assertEqual(command("settle", self.folder / "case", "-j", "2"), (status, out, err))


if __name__ == "__main__":
    unittest.main()
