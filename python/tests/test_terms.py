"""Contracts in force: settled day by day, tested for each set in force together, kept by every form."""

import csv
import io
import json
import shutil
import unittest
from datetime import date, timedelta
from fractions import Fraction

from support import CASE_L, IEEE14, FolderTest, amounts, command, contents, half_away
from crr.case import Case, Names, Term
from crr.files import Contract
from crr.from_csv import load
from crr.terms import spans

# By the contract's place in the example's book.
TERMS = {
    0: ("2026-08-01", ""),
    1: ("", "2026-07-31"),
    10: ("", "2026-07-31"),
    12: ("2030-01-01", "2030-12-31"),
}


def table(text):
    return list(csv.DictReader(io.StringIO(text)))


class Terms(FolderTest):
    def setUp(self):
        super().setUp()
        self.case = self.folder / "case"
        shutil.copytree(IEEE14, self.case)
        self.lines = (IEEE14 / "book.csv").read_text().splitlines()
        self.write(self.case, TERMS)

    def write(self, folder, terms, heading="START_DATE,END_DATE"):
        rows = [f"{line},{','.join(terms.get(at, ('', '')))}" for at, line in enumerate(self.lines[1:])]
        (folder / "book.csv").write_text("\n".join([f"{self.lines[0]},{heading}", *rows]) + "\n")

    def without(self, name, *left_out):
        """The example with some contracts left out by hand."""
        folder = self.folder / name
        shutil.copytree(IEEE14, folder)
        rows = [line for at, line in enumerate(self.lines) if at - 1 not in left_out]
        (folder / "book.csv").write_text("\n".join(rows) + "\n")
        return folder

    def test_settled_over_the_contracts_in_force(self):
        case, _ = load(self.case)
        sums, exact, short = {}, Fraction(0), 0
        for hour in case.hours:
            paid = amounts(case.book, case.factors, 40, hour.period, hour.prices)
            for at, (contract, amount) in enumerate(zip(case.book, paid)):
                start, end = TERMS.get(at, ("", ""))
                counts = (not start or start <= hour.day) and (not end or hour.day <= end)
                key = (case.names.holder(contract.holder), hour.day[:7])
                sums[key] = sums.get(key, 0) + (half_away(amount) if counts else 0)
                exact += amount if counts else 0
        status, out, err = command("settle", self.case, "--process", "monthly")
        rows = {(row["OWNER"], row["MONTH"]): half_away(100 * Fraction(row["AMOUNT"])) for row in table(out)}
        self.assertEqual((status, rows), (0, sums))
        total = next(line for line in err.splitlines() if line.startswith("48 hours: "))
        self.assertEqual(Fraction(total.split("exact total ")[1].partition(";")[0]), exact / 100)
        self.assertTrue(total.endswith("; 1 contract in force in none of these hours"))
        self.assertEqual(command("settle", self.case, "--process", "monthly", "-j", "2"), (status, out, err))

    def test_costs_are_those_of_the_books_by_day(self):
        """By hour, those of the days settled by themselves over the contracts of each."""
        command("settle", self.case, "--process", "lt", "-o", self.folder / "all")
        expected = {}
        for day, left_out in (("2026-07-31", (0, 12)), ("2026-08-01", (1, 10, 12))):
            folder = self.without(day, *left_out)
            command("settle", folder, "--process", "lt", "-o", self.folder / f"of {day}")
            text = (self.folder / f"of {day}" / "hours.csv").read_text()
            expected.update({(day, row["OPR_HR"]): row for row in table(text) if row["OPR_DT"] == day})
        hours = table((self.folder / "all" / "hours.csv").read_text())
        self.assertEqual(hours, list(expected.values()))

    def test_each_set_is_tested(self):
        for name, rows in (("test", "verdicts"), ("cuts", "verdicts"), ("flows", "flows")):
            status, out, err = command(name, self.case)
            of_span = {}
            for row in table(out):
                of_span.setdefault((row.pop("START_DATE"), row.pop("END_DATE")), []).append(row)
            sets = {
                ("", "2026-07-31"): (0, 12),
                ("2026-08-01", "2029-12-31"): (1, 10, 12),
                ("2030-01-01", "2030-12-31"): (1, 10),
                ("2031-01-01", ""): (1, 10, 12),
            }
            for at, (span, left_out) in enumerate(sets.items()):
                folder = self.without(f"{name} {at}", *left_out)
                self.assertEqual(of_span.pop(span, []), table(command(name, folder)[1]), (name, span))
            self.assertEqual((status, of_span), (1, {}))
            self.assertIn("\nfrom 2031-01-01: ", err if name != "test" else "\nfrom 2031-01-01: ")
            data = json.loads(command(name, self.case, "--json")[1])
            self.assertEqual((data["passed"], data[rows][0]["end_date"]), (False, "2026-07-31"))

    def test_on_a_day(self):
        cut = self.without("cut", 1, 10, 12)
        for name in ("test", "cuts", "flows"):
            status, out, err = command(name, self.case, "--on", "2026-08-01")
            self.assertEqual((status, out), command(name, cut)[:2])
            self.assertTrue(err.startswith("2026-08-01: 13 of 16 contracts in force\n"))
        status, _, err = command("test", self.case, "--on", "2026-02-30")
        self.assertEqual((status, err.count("'2026-02-30' is not a day, YYYY-MM-DD")), (2, 1))

    def test_alike_terms_are_one_book(self):
        self.write(self.case, {at: ("2026-08-01", "2026-08-31") for at in range(16)})
        self.assertEqual(command("test", self.case), command("test", IEEE14))
        july = [row["AMOUNT"] for row in table(command("settle", self.case)[1]) if row["MONTH"] == "2026-07"]
        self.assertEqual(july, ["0.00"] * 6)
        self.assertEqual(command("report", self.case, "-o", self.folder / "page.html")[0], 0)

    def test_names_of_markets(self):
        headings = ("StartDate,EndDate", "Start Day,End Day", "valid_from,VALID_TO", "END_DATE,START_DATE")
        for heading in headings:
            self.write(self.case, {} if heading.startswith("END") else TERMS, heading)
            status, out, _ = command("check", self.case)
            self.assertEqual((status, out.count("not used")), (0, 0), heading)

    def test_packed_and_back(self):
        bin_folder, again = self.folder / "bin", self.folder / "again"
        self.assertEqual(command("pack", self.case, "-o", bin_folder)[0], 0)
        names = (bin_folder / "names.csv").read_text()
        self.assertTrue(names.endswith("start,0,2026-08-01\nend,1,2026-07-31\nend,10,2026-07-31\n"
                                       "start,12,2030-01-01\nend,12,2030-12-31\n"))
        self.assertEqual(command("settle", bin_folder), command("settle", self.case))
        self.assertEqual(command("test", bin_folder), command("test", self.case))
        self.assertEqual(command("unpack", bin_folder, "-o", again)[0], 0)
        self.assertEqual((again / "book.csv").read_bytes(), (self.case / "book.csv").read_bytes())

    def test_faults(self):
        damaged = {
            "2026-08-32,": "book.csv:2:START_DATE: '2026-08-32' is not a day, YYYY-MM-DD",
            "2026-08-02,2026-08-01": "book.csv:2:END_DATE: 2026-08-01 comes before 2026-08-02",
            "1 Aug,": "book.csv:2:START_DATE: '1 Aug' is not a day, YYYY-MM-DD",
        }
        for text, message in damaged.items():
            self.write(self.case, {0: tuple(text.split(","))})
            status, _, err = command("check", self.case)
            self.assertEqual((status, err.splitlines()[0]), (2, message))
        self.write(self.case, {}, "START_DATE,StartDate")
        text = "book.csv:1:START_DATE: more than one column has this meaning: START_DATE, StartDate"
        self.assertEqual(command("check", self.case)[2].splitlines()[0], text)

    def test_faults_of_names(self):
        command("pack", self.case, "-o", self.folder / "bin")
        names = self.folder / "bin" / "names.csv"
        text = names.read_text()
        for old, new, message in (
            ("start,0,2026-08-01", "start,0,soon", "names.csv:78:NAME: 'soon' is not a day, YYYY-MM-DD"),
            ("end,10,", "end,16,", "names.csv: contract 16 has a day, and book.bin has 16 of them"),
            ("end,12,2030", "end,12,2029", "names.csv: contract 12 ends on 2029-12-31 and begins on 2030-01"),
        ):
            self.assertIn(old, text)
            names.write_text(text.replace(old, new))
            status, _, err = command("check", self.folder / "bin")
            self.assertEqual((status, err.count(message)), (2, 1))

    def test_an_hour_without_a_day(self):
        shutil.copytree(CASE_L, self.folder / "l")
        (self.folder / "l" / "names.csv").write_text("TABLE,NUMBER,NAME\nstart,0,2026-01-01\n")
        text = "prices.bin: an hour without a day, and contracts that have first or last days: "
        for asked in (("settle",), ("statement",)):
            status, _, err = command(*asked, self.folder / "l")
            self.assertEqual((status, err.count(text)), (2, 1))

    def test_the_case_of_a_day(self):
        for name in ("exposure", "report", "canonical"):
            status, _, err = command(name, self.case)
            text = f"book.csv: contracts in force on different days: crr in-force {self.case} DATE -o OUT"
            self.assertEqual((status, err.count(text)), (2, 1), name)
        day = self.folder / "day"
        said = f"{day}: 2026-08-01, 13 of 16 contracts in force, 24 hours\n"
        self.assertEqual(command("in-force", self.case, "2026-08-01", "-o", day), (0, said, ""))
        cut = self.without("cut", 1, 10, 12)
        self.assertEqual((day / "book.csv").read_text(), (cut / "book.csv").read_text())
        self.assertEqual(command("exposure", day), command("exposure", cut))
        self.assertEqual(command("report", day)[0], 0)

    def test_other_commands_keep_them(self):
        (self.folder / "pairs.csv").write_text("OLD_NODE,NEW_NODE\nBus 14,Bus 13\n")
        command("remap", self.case, self.folder / "pairs.csv", "-o", self.folder / "moved")
        before, after = (contents(folder)["book.csv"] for folder in (self.case, self.folder / "moved"))
        self.assertEqual(before.replace(b"Bus 14", b"Bus 13"), after)
        status, out, err = command("same", self.case, IEEE14)
        self.assertEqual((status, len(table(out))), (1, 8))
        self.assertIn("Alder Power from 2026-08-01,OBL,ON,Bus 1,Bus 4,30.000,0.000,-30.000\n", out)

    def test_hub_contracts_have_their_own(self):
        (self.folder / "hubs.csv").write_text("HUB,NODE_ID,PERCENT\nH,Bus 1,50\nH,Bus 2,50\n")
        heading = "CRR_ID,OWNER,HEDGE_TYPE,TIME_OF_USE,SOURCE,SINK,MW"
        for case, heads, row, ends in (
            (self.case, ",StartDate", ",07/06/2026", ",2026-07-06,"),
            (self.case, "", "", ",,"),
            (IEEE14, ",EndDate", ",07/06/2026", ",,2026-07-06"),
            (IEEE14, "", "", ""),
        ):
            rows = f"{heading}{heads}\nH-1,Gum Wind,OBL,ON,H,Bus 4,2{row}\n"
            (self.folder / "contracts.csv").write_text(rows)
            given = (case, self.folder / "hubs.csv", self.folder / "contracts.csv")
            asked = ("hub-add", *given, "-o", self.folder / "out", "--force", "--dates", "mdy")
            self.assertEqual(command(*asked)[0], 0)
            last = (self.folder / "out" / "book.csv").read_text().splitlines()[-1]
            self.assertEqual(last, f"H-1 Bus 2,Gum Wind,OBL,ON,Bus 2,Bus 4,1.000{ends}")

    def test_awards_have_none(self):
        heading = "OPERATION,TIER,CRR_ID,OWNER,HEDGE_TYPE,TIME_OF_USE,SOURCE,SINK,MW,START_DATE\n"
        row = "add,,A,Gum Wind,OBL,ON,Bus 1,Bus 4,2,"
        for day, count in (("", 0), ("2026-07-01", 1)):
            (self.folder / "awards.csv").write_text(f"{heading}{row}{day}\n")
            asked = ("tiers", IEEE14, self.folder / "awards.csv", "--period", "on", "--process", "lt")
            status, _, err = command(*asked)
            text = "awards are tried together: one with a first or last day can't be"
            self.assertEqual((status, err.count(text)), (2 * count, count))

    def test_hours_by_name(self):
        numbers = [row["CRR_ID"] for row in table(command("statement", self.case, "2026-07-31/12")[1])]
        self.assertEqual(("CRR-001" in numbers, "CRR-011" in numbers), (False, True))
        status, _, err = command("explain", self.case, "CRR-001", "2026-07-31/12")
        text = "CRR_ID: CRR-001 is in force from 2026-08-01, and not on 2026-07-31"
        self.assertEqual((status, err.splitlines()[0]), (2, text))
        status, out, _ = command("explain", self.case, "CRR-003", "2026-08-01/12")
        flow = table(out)[0]["CONSTRAINT_FLOW_MW"]
        whole = table(command("explain", self.case, "CRR-002")[1])
        self.assertEqual({row["CONSTRAINT_FLOW_MW"] for row in whole}, {""})
        command("settle", self.case, "-o", self.folder / "out")
        contracts = table((self.folder / "out" / "contracts.csv").read_text())
        data = json.loads(command("explain", self.case, "CRR-002", "--json")[1])
        self.assertEqual(data["amount"], contracts[1]["AMOUNT"])
        flows = table(command("flows", self.case, "--on", "2026-08-01", "--period", "on")[1])
        of_line = next(row["FLOW_MW"] for row in flows if row["CONSTRAINT_ID"] == "2-4")
        self.assertEqual((status, flow), (0, of_line))


class Spans(FolderTest):
    def test_every_day(self):
        """Drawn terms: the stretches are every day's contracts, and follow one another."""
        days = [(date(2026, 1, 1) + timedelta(at)).isoformat() for at in range(-2, 14)]
        for _ in range(200):
            drawn = []
            for _ in range(self.rng.randint(1, 5)):
                start, end = sorted(self.rng.sample(days[2:12], 2))
                drawn.append(Term(*(day if self.rng.random() < 0.7 else "" for day in (start, end))))
            book = [Contract(0, 0, 0, 0, 0, 1)] * len(drawn)
            found = spans(Case(Names(), [], [], book, terms=drawn))
            for day in days:
                expected = [at for at, term in enumerate(drawn) if term.covers(day)]
                told = [span.contracts for span in found if span.days.covers(day)]
                self.assertEqual(told, [expected] if expected else [])


if __name__ == "__main__":
    unittest.main()
