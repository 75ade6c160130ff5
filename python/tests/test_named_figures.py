"""Every figure by name: flows, mcc, statement and explain, against the rules by fractions."""

import csv
import io
import json
import shutil
import unittest
from fractions import Fraction
from unittest import mock

from support import CASE_L, IEEE14, FolderTest, amounts, command, flows
import crr
from crr.case import PricedHour
from crr.from_csv import load


def table(text):
    """The rows of a CSV text by heading."""
    return list(csv.DictReader(io.StringIO(text)))


class Flows(FolderTest):
    def setUp(self):
        super().setUp()
        self.case, _ = load(IEEE14)

    def test_every_figure(self):
        status, out, err = command("flows", IEEE14)
        rows, names = table(out), self.case.names.constraints
        self.assertEqual((status, len(rows)), (1, 6 * 40))
        for period, time_of_use in enumerate(("OFF", "ON")):
            own = flows(self.case.book, self.case.factors, 40, period)
            for process, share in (("annual", 65), ("Tier LT", 60), ("monthly", 100)):
                line = (time_of_use, process)
                of_line = [row for row in rows if (row["TIME_OF_USE"], row["PROCESS"]) == line]
                self.assertEqual([row["CONSTRAINT_ID"] for row in of_line], names)
                for row, flow, limit in zip(of_line, own, self.case.limits):
                    released = Fraction(limit * share, 10**5)
                    self.assertEqual(Fraction(row["FLOW_MW"]), Fraction(flow, 10**8))
                    self.assertEqual(Fraction(row["LIMIT_MW"]), Fraction(limit, 1000))
                    self.assertEqual(Fraction(row["RELEASED_MW"]), released)
                    self.assertEqual(Fraction(row["EXCESS_MW"]), Fraction(flow, 10**8) - released)
                    exact = Fraction(flow, 10**8) / released * 100
                    self.assertLessEqual(abs(Fraction(row["LOADING_PERCENT"]) - exact), Fraction(1, 200))
        self.assertIn("ON annual: 1 of 40 constraints overloaded, 7-8 reverse the most, by 2.25000000", err)
        self.assertIn("ON monthly: none of 40 constraints overloaded; 7-8 reverse has the least room, 1", err)

    def test_one_line_and_json(self):
        asked = ("flows", IEEE14, "--period", "on", "--process", "monthly")
        status, out, _ = command(*asked)
        self.assertEqual((status, len(table(out))), (0, 40))
        data = json.loads(command(*asked, "--json")[1])
        self.assertEqual((data["passed"], data["flows"][0]["constraint_id"]), (True, "1-2"))

    def test_nothing_released(self):
        shutil.copytree(IEEE14, self.folder / "case")
        path = self.folder / "case" / "constraints.csv"
        path.write_text(path.read_text().replace("1-2,150.000", "1-2,0"))
        row = table(command("flows", self.folder / "case", "--period", "on")[1])[0]
        self.assertEqual((row["LOADING_PERCENT"], row["EXCESS_MW"]), ("", row["FLOW_MW"]))

    def test_what_differs_from_the_test_is_told(self):
        verdict = crr.Verdict(1 << 5, 1, 5, 225_000_000)
        with mock.patch("crr.loading.test_book", return_value=verdict):
            status, out, err = command("flows", IEEE14, "--period", "on", "--process", "annual")
        self.assertEqual((status, out), (2, ""))
        self.assertIn("ON annual, overloaded constraints: (27,) worked out here, (5,) by the library", err)


class Hours(FolderTest):
    def test_mcc(self):
        heading = "OPR_DT,OPR_HR,TIME_OF_USE,NODE_ID,MCC\n"
        rows = ("N0,-0.9000000", "N1,0.0000000", "N2,-9.2000000")
        text = heading + "".join(f",,ON,{row}\n" for row in rows)
        self.assertEqual(command("mcc", CASE_L), (0, text, "3 nodes, 1 hour\n"))

    def test_mcc_of_every_hour(self):
        case, _ = load(IEEE14)
        rows = table(command("mcc", IEEE14)[1])
        self.assertEqual(len(rows), 48 * 14)
        for at, hour in enumerate(case.hours):
            for node in range(14):
                row = rows[14 * at + node]
                exact = -sum(f * p for f, p in zip(case.factors[40 * node : 40 * node + 40], hour.prices))
                self.assertEqual(
                    (row["OPR_DT"], int(row["OPR_HR"]), row["NODE_ID"], Fraction(row["MCC"])),
                    (hour.day, hour.hour, f"Bus {node + 1}", Fraction(exact, 10**7)),
                )

    def test_one_hour_and_nodes(self):
        asked = ("mcc", IEEE14, "--node", "Bus 4", "--node", "Bus 2")
        for hour in ("2026-07-31 HE12", "2026-07-31HE12", "2026-07-31/12", "2026-07-31 12", "2026-07-31T12"):
            status, out, err = command(*asked, "--hour", hour)
            self.assertEqual((status, [row["NODE_ID"] for row in table(out)]), (0, ["Bus 4", "Bus 2"]), hour)
            self.assertEqual(err, "2 nodes, 1 hour\n")
        status, _, err = command("mcc", IEEE14, "--node", "Bus 40")
        self.assertEqual((status, err.count("--node: no node 'Bus 40' (refusal 11)")), (2, 1))
        for wrong in ("2026-07-31", "2026-07-32 HE01", "2026-07-31 HE26", "2026-07-31 HE0", "HE12"):
            status, _, err = command("statement", IEEE14, wrong)
            self.assertEqual((status, err.count(f"{wrong!r} is no hour, such as")), (2, 1), wrong)

    def test_which_hour(self):
        status, _, err = command("statement", IEEE14)
        text = "HOUR: the prices have 48 hours, 2026-07-31 HE01 to 2026-08-01 HE24"
        self.assertEqual((status, err.splitlines()[0]), (2, f"{text}: which?"))
        status, _, err = command("statement", IEEE14, "2026-08-02/1")
        self.assertEqual((status, err.splitlines()[0]), (2, f"{text}, and not 2026-08-02 HE01"))
        status, _, err = command("statement", CASE_L, "2026-08-02/1")
        self.assertIn("HOUR: the prices have 1 hour, without a day, and not 2026-08-02 HE01\n", err)

    def test_statement_is_the_programs(self):
        """By numbers, case L's is the text that the library writes."""
        status, out, err = command("statement", CASE_L)
        rows = [
            (row["CRR_ID"], row["OWNER"], row["HEDGE_TYPE"], row["AMOUNT"].replace(".", ""), row["PRICED"])
            for row in table(out)
        ]
        plain = [(*row[:3], str(int(row[3])), row[4]) for row in rows]
        files = [(CASE_L / name).read_bytes() for name in ("grid.bin", "book.bin", "prices.bin")]
        lines = [line.split(",") for line in crr.write_statement(*files).splitlines()]
        self.assertEqual((status, plain), (0, [tuple(line) for line in lines[1:-2]]))
        self.assertEqual(err, "the hour ON: 3 contracts, sum 8.99, exact total 8.9917000000\n")
        self.assertEqual([row["CONSTRAINTS"] for row in table(out)], ["K0; K1"] * 3)

    def test_statement_of_an_hour(self):
        data = json.loads(command("statement", IEEE14, "2026-07-31/20", "--json")[1])
        self.assertEqual((data["hour"], data["time_of_use"]), ("2026-07-31 HE20", "ON"))
        self.assertEqual(len(data["contracts"]), 10)
        first = data["contracts"][0]
        self.assertEqual((first["amount"], first["constraints"]), ("207.47", ["2-4", "7-9"]))
        cents = sum(round(100 * float(row["amount"])) for row in data["contracts"])
        self.assertEqual(f"{cents / 100:.2f}", data["sum"])

    def test_no_prices(self):
        shutil.copytree(IEEE14, self.folder / "case")
        (self.folder / "case" / "prices.csv").unlink()
        status, _, err = command("statement", self.folder / "case")
        self.assertEqual((status, err.splitlines()[0]), (2, "no prices, so there is no hour"))


class Explain(FolderTest):
    def setUp(self):
        super().setUp()
        self.case, _ = load(IEEE14)

    def explained(self, *asked):
        status, out, err = command("explain", IEEE14, *asked)
        self.assertEqual(status, 0)
        return table(out), err, json.loads(command("explain", IEEE14, *asked, "--json")[1])

    def test_every_contract(self):
        """Over all hours the amounts add up to what settling gives, and flows are the contract's own."""
        self.assertEqual(command("settle", IEEE14, "-o", self.folder / "out")[0], 0)
        contracts = table((self.folder / "out" / "contracts.csv").read_text())
        paid = {row["CRR_ID"]: row["AMOUNT"] for row in contracts}
        for number, name in enumerate(self.case.names.contracts):
            rows, _, data = self.explained(name)
            row = self.case.book[number]
            exact = sum(
                amounts([row], self.case.factors, 40, hour.period, hour.prices)[0] for hour in self.case.hours
            )
            self.assertEqual((data["amount"], Fraction(data["exact_total"])), (paid[name], exact / 100))
            together = sum(Fraction(each["AMOUNT"]) for each in rows)
            self.assertEqual(together + Fraction(data["not_charged"]), exact / 100)
            own = dict(zip(self.case.names.constraints, flows([row], self.case.factors, 40, row.period)))
            whole = dict(zip(own, flows(self.case.book, self.case.factors, 40, row.period)))
            for each in rows:
                k = each["CONSTRAINT_ID"]
                self.assertEqual(Fraction(each["FLOW_MW"]), Fraction(own.pop(k), 10**8))
                self.assertEqual(Fraction(each["CONSTRAINT_FLOW_MW"]), Fraction(whole[k], 10**8))
            self.assertEqual(set(own.values()) - {0}, set())

    def test_one_hour(self):
        rows, err, data = self.explained("CRR-001", "2026-07-31/20")
        self.assertEqual([row["CONSTRAINT_ID"] for row in rows], ["2-4", "7-9"])
        for row in rows:
            difference = Fraction(row["SOURCE_FACTOR"]) - Fraction(row["SINK_FACTOR"])
            self.assertEqual(
                Fraction(row["AMOUNT"]), Fraction(row["SHADOW_PRICE"]) * difference * Fraction(row["MW"])
            )
        self.assertIn("the constraints add up to 207.4662450000; paid 207.47, each hour", err)
        self.assertEqual((data["exact_total"], data["hours"]), ("207.4662450000", 1))

    def test_an_option_is_not_charged(self):
        _, err, data = self.explained("CRR-003", "2026-07-31/21")
        self.assertEqual((data["not_charged"], data["amount"]), ("1.7357725000", "0.00"))
        self.assertIn("an option is not charged, here 1.7357725000, so it is 0.0000000000; paid 0.00", err)

    def test_a_charge(self):
        _, err, data = self.explained("CRR-010", "2026-07-31/12")
        self.assertEqual(data["amount"], "-24.89")
        self.assertIn("; charged 24.89, ", err)

    def test_the_other_period(self):
        rows, err, data = self.explained("CRR-001", "2026-07-31/1")
        self.assertEqual((rows, data["amount"], data["hours"]), ([], "0.00", 0))
        self.assertIn("2026-07-31 HE01 OFF: no hour of the contract's period, ON, so nothing is paid\n", err)

    def test_no_such_contract(self):
        status, _, err = command("explain", IEEE14, "CRR-099")
        self.assertEqual((status, err.splitlines()[0]), (2, "CRR_ID: no contract 'CRR-099' in the book"))

    def test_a_difference_is_an_error(self):
        """Where the library settles other prices than were read, each comparison tells it."""
        hour = next(hour for hour in self.case.hours if any(hour.prices) and hour.period)
        other = PricedHour(hour.day, hour.hour, hour.period, hour.prices[:])
        other.prices[next(k for k, price in enumerate(other.prices) if price)] += 1
        file = crr.write_prices(other.period, other.prices)
        asked = ("explain", IEEE14, "CRR-001", f"{hour.day}/{hour.hour}")
        with mock.patch("crr.explain.write_prices", return_value=file):
            status, out, err = command(*asked)
        self.assertEqual((status, out, err.count("exact amount: ")), (2, "", 1))
        with mock.patch("crr.explain.find_flows", side_effect=[crr.Flows([n], 1) for n in (1, 2, 4)]):
            status, out, err = command(*asked)
        self.assertEqual((status, out), (2, ""))
        self.assertIn("flows, one by one: [3] worked out here, [4] by the library", err)


if __name__ == "__main__":
    unittest.main()
