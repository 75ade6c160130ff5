"""What a book costs, told to people: `crr exposure`, and rent and shortfall in `crr settle`, by sums of their
own."""

import csv
import io
import json
import shutil
import unittest
from fractions import Fraction

from support import CASE_L, IEEE14, IEEE14_HOURS, FolderTest, command, contents, everything
import crr
from crr.costs import hour_costs
from crr.from_csv import load
from crr.slices import settle_sliced

PERCENT = {"annual": 65, "Tier LT": 60, "monthly": 100}


def table(text):
    return list(csv.DictReader(io.StringIO(text)))


class Exposure(FolderTest):
    def many(self):
        """The example with every limit so low that more than ten constraints are overloaded."""
        shutil.copytree(IEEE14, self.folder / "case")
        path = self.folder / "case" / "constraints.csv"
        rows = [row.rpartition(",")[0] + ",0.010" for row in path.read_text().splitlines()[1:]]
        path.write_text("CONSTRAINT_ID,LIMIT_MW\n" + "\n".join(rows) + "\n")
        return self.folder / "case"

    def test_listed(self):
        status, out, err = command("exposure", IEEE14, "--period", "on")
        self.assertEqual(
            (status, out.splitlines()),
            (
                1,
                [
                    "TIME_OF_USE,PROCESS,LEAST,MOST,PRICES",
                    "ON,annual,11250.0000000000,11250.0000000000,7-8 reverse 5000.00",
                    "ON,Tier LT,26091.0437500000,26091.0437500000,7-8 reverse 5000.00; 7-9 5000.00",
                    "ON,monthly,0.0000000000,0.0000000000,",
                ],
            ),
        )
        said = (
            "ON annual: the book can cost $11,250.00 an hour, at $5,000.00 per MWh on 7-8 reverse\n"
            "ON Tier LT: the book can cost $26,091.04375 an hour, at $5,000.00 per MWh on 7-8 reverse and "
            "7-9\nON monthly: the book passes and costs nothing beyond its rent\n"
        )
        self.assertEqual(err, said)
        self.assertEqual(command("exposure", IEEE14, "--process", "monthly")[0], 0)

    def test_between(self):
        """Where more than ten are overloaded, two figures; what is said is what the library gives."""
        folder = self.many()
        case = load(folder)[0]
        found = crr.find_exposure(case.grid, case.book_file(), crr.MONTHLY, crr.ON_PEAK)
        self.assertLess(found.least.exact, found.most.exact)
        status, out, err = command("exposure", folder, "--process", "monthly", "--period", "on")
        row = table(out)[0]
        self.assertEqual((status, len(table(out))), (1, 1))
        figures = [Fraction(row[name]) * 100 for name in ("LEAST", "MOST")]
        self.assertEqual(figures, [found.least.exact, found.most.exact])
        prices = {name: price for name, price in zip(case.names.constraints, found.prices) if price}
        listed = dict(one.rsplit(" ", 1) for one in row["PRICES"].split("; "))
        self.assertEqual({name: Fraction(price) * 100 for name, price in listed.items()}, prices)
        between = r"between \$[0-9,.]+ and \$[0-9,.]+"
        self.assertRegex(err, rf"^ON monthly: the book can cost {between} an hour, at ")
        self.assertRegex(
            command("test", folder, "--process", "monthly", "--period", "on")[2],
            rf"^ON monthly: at worst an hour pays {between} more than its congestion rent$",
        )

    def test_json(self):
        status, out, err = command("exposure", IEEE14, "--period", "on", "--json")
        answer = json.loads(out)
        self.assertEqual((status, err, answer["passed"], len(answer["exposures"])), (1, "", False, 3))
        price = {"constraint_id": "7-8 reverse", "shadow_price": "5000.00"}
        figures = {"least": "11250.0000000000", "most": "11250.0000000000", "prices": [price]}
        self.assertEqual(answer["exposures"][0], {"time_of_use": "ON", "process": "annual", **figures})
        self.assertEqual(answer["exposures"][2]["prices"], [])

    def test_both_forms(self):
        command("pack", IEEE14, "-o", self.folder / "bin")
        self.assertEqual(command("exposure", IEEE14), command("exposure", self.folder / "bin"))
        self.assertEqual(command("exposure", CASE_L)[0], 0)

    def test_written(self):
        """The case with the list for its prices: settled from either form, it costs what was said."""
        asked = ("--period", "on", "--process", "lt")
        command("pack", IEEE14, "-o", self.folder / "bin")
        for source in (IEEE14, self.folder / "bin"):
            out = self.folder / source.name / "worst"
            status, _, err = command("exposure", source, *asked, "-o", out)
            files = "book.bin, book.csv, constraints.csv, factors.csv, grid.bin, names.csv, prices.bin"
            self.assertEqual((status, err.splitlines()[-1]), (1, f"{out}: {files}, prices.csv written"))
            self.assertEqual(
                (out / "prices.csv").read_text().splitlines()[1:],
                [",,ON,7-8 reverse,5000.00", ",,ON,7-9,5000.00"],
            )
            constraints = len(load(IEEE14)[0].names.constraints)
            prices = crr.read_prices(constraints, (out / "prices.bin").read_bytes())
            self.assertEqual((prices.period, sum(prices.prices)), (crr.ON_PEAK, 1_000_000))
            self.assertEqual(command("check", out)[1].count("without a fault\n"), 1)
            for name in ("constraints.csv", "factors.csv", "book.csv"):
                self.assertEqual((out / name).read_text(), (IEEE14 / name).read_text())
            said = command("settle", out, "--process", "lt")[2].splitlines()
            self.assertTrue(said[1].startswith("Tier LT: rent "), said)
            cost = "26091.0437500000"
            self.assertTrue(said[1].endswith(f"shortfall {cost}; the hour falls short by {cost}"), said)
            for file in out.glob("*.csv"):
                if file.name != "names.csv":
                    file.unlink()
            self.assertEqual(command("settle", out, "--process", "lt")[2].splitlines(), said)
            files = [(out / f"{name}.bin").read_bytes() for name in ("grid", "book", "prices")]
            exact = Fraction(said[0].rpartition(" ")[2]) * 100
            self.assertIn(f"{int(exact)}", crr.write_statement(*files).replace(",", ""))

    def test_one_hour_alone_is_written(self):
        before = everything(self.folder)
        for asked in ((), ("--period", "on"), ("--process", "lt")):
            status, out, err = command("exposure", IEEE14, *asked, "-o", self.folder / "worst")
            text = "-o writes the prices of one hour: choose one with --period and --process\n"
            self.assertEqual((status, out, err.startswith(text)), (2, "", True))
        self.assertEqual(everything(self.folder), before)

    def test_over_nobody_s_prices(self):
        shutil.copytree(IEEE14, self.folder / "case")
        before, asked = contents(self.folder), ("--period", "on", "--process", "lt")
        status, out, err = command("exposure", self.folder / "case", *asked, "-o", self.folder / "case")
        self.assertEqual((status, out, err.count("prices.csv is there and differs")), (2, "", 1))
        command("pack", IEEE14, "-o", self.folder / "bin")
        status, out, err = command("exposure", IEEE14, *asked, "-o", self.folder / "bin", "--force")
        self.assertEqual((status, out, err.count("not one of the hours written")), (2, "", 48))
        shutil.rmtree(self.folder / "bin")
        self.assertEqual(contents(self.folder), before)

    def test_a_passing_book(self):
        """Its list is 0 everywhere: an hour without congestion."""
        out = self.folder / "worst"
        asked = ("--period", "on", "--process", "monthly")
        self.assertEqual(command("exposure", IEEE14, *asked, "-o", out)[0], 0)
        self.assertEqual((out / "prices.csv").read_text().splitlines()[1:], [",,ON,,"])
        self.assertIn("shortfall 0.0000000000; no hour falls short", command("settle", out, *asked[2:])[2])

    def test_faults(self):
        status, out, err = command("exposure", self.folder)
        self.assertEqual((status, out, err.count("neither CSV files")), (2, "", 1))


class RentAndShortfall(FolderTest):
    def settled(self, name):
        return table((self.folder / name).read_text())

    def test_from_the_text_of_the_files(self):
        """Rent by hour and month, from the CSV files by fractions; the shortfall is the total less it."""
        limits = {row["CONSTRAINT_ID"]: row for row in table((IEEE14 / "constraints.csv").read_text())}
        for process, percent in PERCENT.items():
            said = command("settle", IEEE14, "--process", process, "-o", self.folder)
            files = "hours.csv, holders.csv, contracts.csv and months.csv"
            self.assertEqual(said[:2], (0, f"{self.folder}: {files} written\n"))
            rents = {}
            for row in table((IEEE14 / "prices.csv").read_text()):
                hour = row["OPR_DT"], row["OPR_HR"]
                rents.setdefault(hour, Fraction(0))
                if row["CONSTRAINT_ID"]:
                    limit = Fraction(limits[row["CONSTRAINT_ID"]]["LIMIT_MW"])
                    rents[hour] += limit * percent / 100 * Fraction(row["SHADOW_PRICE"])
            hours, months = self.settled("hours.csv"), self.settled("months.csv")
            self.assertEqual(len(hours), 48)
            for row in hours:
                rent = rents[row["OPR_DT"], row["OPR_HR"]]
                expected = (process, rent, Fraction(row["EXACT_TOTAL"]) - rent)
                given = (row["PROCESS"], Fraction(row["RENT"]), Fraction(row["SHORTFALL"]))
                self.assertEqual(given, expected)
            self.assertEqual([row["MONTH"] for row in months], ["2026-07", "2026-08"])
            for row in months:
                of_month = [hour for hour in hours if hour["OPR_DT"].startswith(row["MONTH"])]
                self.assertEqual((row["HOURS"], row["PROCESS"]), (str(len(of_month)), process))
                for column in ("EXACT_TOTAL", "RENT", "SHORTFALL"):
                    added = sum(Fraction(hour[column]) for hour in of_month)
                    self.assertEqual(Fraction(row[column]), added)
                short = sum(Fraction(hour["SHORTFALL"]) > 0 for hour in of_month)
                self.assertEqual(row["HOURS_SHORT"], str(short))

    def test_words(self):
        status, out, err = command("settle", IEEE14, "--process", "lt")
        self.assertEqual((status, out), command("settle", IEEE14)[:2])
        self.assertEqual(
            err.splitlines(),
            [
                *IEEE14_HOURS.splitlines(),
                "48 hours: sum 11034.22, exact total 11034.2220770875",
                "2026-07 Tier LT: rent 11624.9100000000, shortfall -4268.2127249750",
                "2026-08 Tier LT: rent 5811.3000000000, shortfall -2133.7751979375",
                "Tier LT: rent 17436.2100000000, shortfall -6401.9879229125; 2 hours fall short, the most "
                "2026-07-31 HE21 by 10.8298757875",
            ],
        )
        said = command("settle", CASE_L, "--process", "monthly")[2].splitlines()
        self.assertEqual(
            said[1:], ["monthly: rent 2275.0000000000, shortfall -2266.0083000000; no hour falls short"]
        )

    def test_without_a_process_nothing_is_new(self):
        self.assertEqual(sorted(json.loads(command("settle", IEEE14, "--json")[1])), ORDINARY)
        command("settle", IEEE14, "-o", self.folder)
        self.assertEqual(sorted(contents(self.folder)), ["contracts.csv", "holders.csv", "hours.csv"])

    def test_json(self):
        answer = json.loads(command("settle", IEEE14, "--process", "lt", "--json")[1])
        more = ["process", "rent", "shortfall", "hours_short", "by_month"]
        self.assertEqual(sorted(answer), sorted([*ORDINARY, *more]))
        self.assertEqual((answer["process"], answer["hours_short"]), ("Tier LT", 2))
        self.assertEqual((answer["rent"], answer["shortfall"]), ("17436.2100000000", "-6401.9879229125"))
        self.assertEqual(answer["by_month"][0]["shortfall"], "-4268.2127249750")
        short = [hour["opr_hr"] for hour in answer["by_hour"] if Fraction(hour["shortfall"]) > 0]
        self.assertEqual(short, [21, 21])

    def test_months_of_another_run(self):
        """With or without a process, results are replaced; months.csv is left beside none that it is not
        of."""
        for process in ("lt", "annual"):
            self.assertEqual(command("settle", IEEE14, "--process", process, "-o", self.folder)[0], 0)
        before = contents(self.folder)
        status, out, err = command("settle", IEEE14, "-o", self.folder)
        text = "months.csv is there, of a settlement with --process"
        self.assertEqual((status, out, err.count(text)), (2, "", 1))
        self.assertEqual(contents(self.folder), before)
        (self.folder / "months.csv").unlink()
        self.assertEqual(command("settle", IEEE14, "-o", self.folder)[0], 0)
        self.assertEqual(command("settle", IEEE14, "--process", "lt", "-o", self.folder)[0], 0)

    def test_both_forms_and_processes(self):
        command("pack", IEEE14, "-o", self.folder)
        asked = ("--process", "annual")
        plain = command("settle", IEEE14, *asked)
        self.assertEqual(command("settle", self.folder, *asked), plain)
        self.assertEqual(command("settle", IEEE14, *asked, "-j", "2"), plain)

    def test_payments_are_the_settlement_s(self):
        case = load(IEEE14)[0]
        result = crr.settle_hours(*crr.packed.packed(case))
        for process in (crr.ANNUAL, crr.TIER_LT, crr.MONTHLY):
            costs = hour_costs(case, result.hours, process)
            paid = [hour.payment.exact for hour in costs.hours]
            self.assertEqual(paid, [hour.exact for hour in result.hours])

    def test_larger_than_the_library(self):
        """By slices the same, hour by hour."""
        case = load(IEEE14)[0]
        whole = hour_costs(case, crr.settle_hours(*crr.packed.packed(case)).hours, crr.TIER_LT)

        class Larger(type(case)):
            fits = False

        larger = Larger(**{name: getattr(case, name) for name in case.__dataclass_fields__})
        self.assertEqual(hour_costs(larger, settle_sliced(case).hours, crr.TIER_LT), whole)

    def test_without_hours(self):
        shutil.copytree(IEEE14, self.folder / "case")
        (self.folder / "case" / "prices.csv").unlink()
        said = "annual: rent 0.0000000000, shortfall 0.0000000000; no hour falls short"
        self.assertEqual(
            command("settle", self.folder / "case", "--process", "annual")[2].splitlines()[1:], [said]
        )


ORDINARY = ["by_holder", "by_hour", "coverage", "exact_total", "hours"]
ORDINARY += ["rounded_factors", "rounded_prices", "sum"]

if __name__ == "__main__":
    unittest.main()
