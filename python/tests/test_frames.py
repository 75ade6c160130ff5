"""pandas: a case comes back from its frames, of Decimals and of floats; what is no multiple of its unit is a
fault by its label; results are those of the library."""

import unittest
from dataclasses import replace
from datetime import datetime
from decimal import Decimal
from fractions import Fraction

from support import CASE_L, IEEE14, FolderTest, command
import crr
from crr import frames
from crr.faults import Faults
from crr.frame_cells import units_of

try:
    import pandas
except ImportError:
    raise unittest.SkipTest("pandas is not installed") from None


class Cases(FolderTest):
    def setUp(self):
        super().setUp()
        self.case = crr.from_csv.load(IEEE14)[0]
        self.frames = frames.frames_of(self.case, floats=True)

    def faults(self, rounded=False, **changed):
        with self.assertRaises(Faults) as caught:
            frames.case_from(*self.frames._replace(**changed), rounded=rounded)
        return [str(fault) for fault in caught.exception.faults]

    def test_there_and_back(self):
        for case in (self.case, crr.packed.unpacked(CASE_L), replace(self.case, hours=[])):
            for floats in (False, True):
                # frames don't carry the numbers that holders had
                back = frames.case_from(*frames.frames_of(case, floats))
                self.assertEqual(back, replace(case, names=replace(case.names, holders=back.names.holders)))
        of_decimals = frames.frames_of(self.case)
        self.assertEqual(of_decimals.book["MW"][0], Decimal("30"))
        self.assertTrue(all(isinstance(factor, Decimal) for factor in of_decimals.factors.loc["Bus 4"]))

    def test_every_figure_of_a_unit_is_taken_as_a_float(self):
        for number in [*range(0, 100_001, 7), 33_333_333, 99_999_999]:
            for places in (2, 3, 5):
                self.assertEqual(units_of(number / 10**places, places), number)
        for wrong in (0.0005, 1e-9, 12.34567, 0.1 + 0.2 + 1e-6):
            self.assertIsNone(units_of(wrong, 3))

    def test_what_is_no_multiple(self):
        book = self.frames.book.assign(MW=self.frames.book["MW"].astype(object))
        book.loc[3, "MW"], book.loc[4, "MW"] = 1.0005, Fraction(1, 3)
        said = "is no multiple of 0.001; rounded=True rounds it"
        told = [f"book.loc[3, 'MW']: 1.0005 {said}", f"book.loc[4, 'MW']: 1/3 {said}"]
        self.assertEqual(self.faults(book=book), told)
        case = frames.case_from(*self.frames._replace(book=book), rounded=True)
        # the float is below 1.0005 by a hair
        self.assertEqual([case.book[row].quantity for row in (3, 4)], [1000, 333])
        self.assertEqual(case.rounded, 2)

    def test_faults_by_label(self):
        book = self.frames.book.set_index(pandas.Index([f"row {i}" for i in range(len(self.case.book))]))
        book.loc["row 2", "SOURCE"], book.loc["row 5", "MW"] = "a\nb", 5000.0
        book.loc["row 7", "OWNER"] = None
        self.assertEqual(
            self.faults(book=book),
            [
                "book.loc['row 2', 'SOURCE']: no node 'a\\nb' in factors (refusal 11)",
                "book.loc['row 5', 'MW']: 5000.000 is outside 0.001 to 1000.000 (refusal 13)",
                "book.loc['row 7', 'OWNER']: empty",
            ],
        )
        self.assertEqual(
            self.faults(constraints=self.frames.constraints.drop(columns="LIMIT_MW"))[0],
            "constraints['LIMIT_MW']: the column is missing",
        )

    def test_columns_and_cells_that_people_have(self):
        """Nodes in a column, other names and another order, days as timestamps, figures as texts and ints."""
        factors = self.frames.factors.reset_index().rename(columns={"NODE_ID": "PNODE"})
        factors = factors[[*factors.columns[1:], "PNODE"]]
        prices = self.frames.prices.assign(OPR_DT=pandas.to_datetime(self.frames.prices["OPR_DT"]))
        self.assertIsInstance(prices["OPR_DT"][0], datetime)
        limits = [str(limit) for limit in self.frames.constraints["LIMIT_MW"]]
        constraints = self.frames.constraints.assign(LIMIT_MW=limits).rename(columns={"LIMIT_MW": "Limit"})
        book = self.frames.book[self.frames.book.columns[::-1]]
        self.assertEqual(frames.case_from(constraints, factors, book, prices), self.case)


class Results(FolderTest):
    def setUp(self):
        super().setUp()
        self.case = crr.from_csv.load(IEEE14)[0]

    def test_verdicts_and_cuts(self):
        table = frames.verdicts(self.case).set_index(["TIME_OF_USE", "PROCESS"])
        self.assertEqual(list(table["PASSED"]), [True, True, True, False, False, True])
        row = table.loc[("ON", "annual")]
        self.assertEqual((row["LOWEST_NUMBERED"], row["EXCESS_MW"]), ("7-8 reverse", Decimal("2.25")))
        cut = frames.cuts(self.case, [(crr.ON_PEAK, crr.ANNUAL)], floats=True)
        self.assertEqual(cut.values.tolist(), [["ON", "annual", "CRR-011", "Dogwood Trading", 2.25]])

    def test_flows(self):
        table = frames.flows(self.case, [(crr.ON_PEAK, crr.TIER_LT)])
        flows = crr.find_flows(self.case.grid, self.case.book_file(), crr.ON_PEAK).flows
        self.assertEqual([flow * 10**8 for flow in table["FLOW_MW"]], flows)
        over = table[table["EXCESS_MW"] > 0]
        self.assertEqual(list(over["CONSTRAINT_ID"])[0], "7-8 reverse")
        self.assertTrue((over["LOADING"] > 1).all())

    def test_exposure(self):
        table = frames.exposure(self.case).set_index(["TIME_OF_USE", "PROCESS"])
        self.assertEqual(table.loc[("ON", "Tier LT"), "AT_LEAST"], Decimal("26091.04375"))
        self.assertEqual(table.loc[("ON", "monthly"), "AT_MOST"], 0)

    def test_what_hours_came_to(self):
        settled = crr.settle_hours(*crr.packed.packed(self.case))
        contracts, hours = frames.cents(self.case, settled), frames.hours(self.case, settled)
        months = frames.months(self.case, settled)
        sums = {column.sum() for column in (contracts["AMOUNT"], hours["SUM"], months["SUM"])}
        self.assertEqual(sums, {Decimal("11034.22")})
        exact = {table["EXACT_TOTAL"].sum() for table in (hours, months)}
        self.assertEqual(exact, {Decimal("11034.2220770875")})
        command("settle", IEEE14, "-o", self.folder)
        written = pandas.read_csv(self.folder / "holders.csv", dtype=str)
        added = contracts.groupby(["OWNER", "MONTH"])["AMOUNT"].sum()
        for _, row in written.iterrows():
            self.assertEqual(added[row["OWNER"], row["MONTH"]], Decimal(row["AMOUNT"]))


if __name__ == "__main__":
    unittest.main()
