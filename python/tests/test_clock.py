"""Which hours there are, and of which period: TIME_OF_USE missing, contradicting the rule, taken as given;
days of 23, 24 and 25 hours; how many hours of a month were found."""

import csv
import io
import json
import shutil
import unittest
from datetime import date, datetime, timedelta, timezone

from support import CASE_L, IEEE14, IEEE14_HOURS, FolderTest, command
import crr
from crr.clock import coverage, hours_in
from crr.from_csv import load
from crr.words import Period

try:
    from zoneinfo import ZoneInfo, ZoneInfoNotFoundError
except ImportError:  # before Python 3.9
    ZoneInfo = None

HEADING = "OPR_DT,OPR_HR,TIME_OF_USE,CONSTRAINT_ID,SHADOW_PRICE"
AS_GIVEN = ("--time-of-use", "as-given")
WAYS = "correct it, leave the column out, or --time-of-use as-given"


def days(first, last):
    return [first + timedelta(number) for number in range((last - first).days + 1)]


class Days(unittest.TestCase):
    def test_the_clock(self):
        """Second Sunday of March, first of November: counted from the month's first day on."""
        for year in range(2010, 2038):
            march, november = (
                [day for day in days(date(year, month, 1), date(year, month, 30)) if day.isoweekday() == 7]
                for month in (3, 11)
            )
            longer = {march[1]: 23, november[0]: 25}
            for day in days(date(year, 1, 1), date(year, 12, 31)):
                self.assertEqual(hours_in(day.isoformat()), longer.get(day, 24), day)

    def test_by_the_zone(self):
        """From one midnight to the next, by the zone that the tariff's market keeps."""
        try:
            zone = ZoneInfo and ZoneInfo("America/Los_Angeles")
        except ZoneInfoNotFoundError:
            zone = None
        if zone is None:
            self.skipTest("Python has no time zones here")
        for day in days(date(2010, 1, 1), date(2036, 12, 31)):
            start, end = (
                datetime(at.year, at.month, at.day, tzinfo=zone).astimezone(timezone.utc)
                for at in (day, day + timedelta(1))
            )
            passed = end - start
            self.assertEqual(timedelta(hours=hours_in(day.isoformat())), passed, day)

    def test_a_year_of_hours(self):
        """Every hour of 2024: each month is whole, and its on-peak hours are the table's."""
        times = [
            (day.isoformat(), hour)
            for day in days(date(2024, 1, 1), date(2024, 12, 31))
            for hour in range(1, hours_in(day.isoformat()) + 1)
        ]
        periods = [crr.hour_period(*map(int, day.split("-")), hour) for day, hour in times]
        months = coverage(times, periods)
        self.assertEqual((len(times), len(months)), (366 * 24, 12))
        for name, month in months.items():
            year, number = map(int, name.split("-"))
            self.assertEqual(month.found[Period.ON_PEAK], crr.month_hours(year, number))
            self.assertEqual((month.found, month.whole, month.mark), (month.there, True, ""))
        self.assertEqual((months["2024-03"].hours, months["2024-11"].hours), (31 * 24 - 1, 30 * 24 + 1))
        self.assertEqual(months["2024-01"].words, "2024-01: 416 of 416 on-peak and 328 of 328 off-peak hours")
        one = coverage(times[:1], periods[:1])["2024-01"]
        self.assertEqual((one.whole, one.mark), (False, "1 of 744 hours"))
        self.assertEqual(one.words, "2024-01: 0 of 416 on-peak and 1 of 328 off-peak hours; not whole")

    def test_outside_the_years(self):
        month = coverage([("2038-01-01", 8)], [1])["2038-01"]
        self.assertEqual((month.there, month.mark), ((None, None), "1 of 744 hours"))
        self.assertEqual(month.words, "2038-01: 1 on-peak and 0 off-peak hours; not whole")


class Prices(FolderTest):
    """Case L as CSV files, with other prices."""

    def setUp(self):
        super().setUp()
        self.case = self.folder / "case"
        command("unpack", CASE_L, "-o", self.case)

    def write(self, *rows, heading=HEADING):
        (self.case / "prices.csv").write_text("".join(f"{row}\n" for row in (heading, *rows)))

    def faults(self, *rows, options=()):
        """What is told of each fault; the last line counts them."""
        self.write(*rows)
        status, _, err = command("check", self.case, *options)
        self.assertEqual(status, 2, err)
        return err.splitlines()[:-1]

    def periods(self, *rows, heading=HEADING, **options):
        self.write(*rows, heading=heading)
        return [Period(hour.period).name for hour in load(self.case, **options)[0].hours]


class TimeOfUse(Prices):
    def test_missing(self):
        """Of the column, and of a field."""
        without = "OPR_DT,OPR_HR,CONSTRAINT_ID,SHADOW_PRICE"
        times = ("2026-07-03,6", "2026-07-03,7", "2026-07-04,8", "2026-07-05,8", "2026-07-06,22")
        rows = [f"{time},K0,1" for time in times]
        expected = ["OFF_PEAK", "ON_PEAK", "OFF_PEAK", "OFF_PEAK", "ON_PEAK"]
        self.assertEqual(self.periods(*rows, heading=without), expected)
        self.assertEqual(self.periods(*rows, heading=without, as_given=True), expected)
        self.assertEqual(self.periods("2026-07-03,7,,K0,1", "2026-07-03,23,,K1,1"), ["ON_PEAK", "OFF_PEAK"])

    def test_without_the_column_all_is_the_same(self):
        shutil.copytree(IEEE14, self.folder / "other")
        with open(IEEE14 / "prices.csv", newline="") as file:
            rows = [row[:2] + row[3:] for row in csv.reader(file)]
        text = io.StringIO()
        csv.writer(text, lineterminator="\n").writerows(rows)
        (self.folder / "other" / "prices.csv").write_text(text.getvalue())
        self.assertEqual(load(self.folder / "other"), load(IEEE14))
        self.assertEqual(command("settle", self.folder / "other"), command("settle", IEEE14))

    def test_contradictions(self):
        """A Sunday, holidays where they are observed, an hour of the night, an hour of the day."""
        for row, said in (
            ("2026-07-05,8,ON", "ON, and 2026-07-05 HE08 is off-peak, a Sunday"),
            ("2026-07-04,8,ON", "ON, and 2026-07-04 HE08 is off-peak, a holiday"),
            ("2021-07-05,8,ON", "ON, and 2021-07-05 HE08 is off-peak, a holiday"),
            ("2026-11-26,8,peak", "ON, and 2026-11-26 HE08 is off-peak, a holiday"),
            ("2026-07-03,6,ON", "ON, and 2026-07-03 HE06 is off-peak"),
            ("2026-07-03,22,off", "OFF, and 2026-07-03 HE22 is on-peak"),
            ("2026-11-01,25,ON", "ON, and 2026-11-01 HE25 is off-peak, a Sunday"),
        ):
            with self.subTest(row=row):
                told = self.faults("2026-07-03,1,OFF,K0,1", f"{row},K0,1")
                self.assertEqual(told, [f"prices.csv:3:TIME_OF_USE: {said}; {WAYS}"])

    def test_as_given(self):
        rows = ("2026-07-05,8,ON,K0,1", "2026-07-06,8,OFF,K1,1")
        self.assertEqual(self.periods(*rows, as_given=True), ["ON_PEAK", "OFF_PEAK"])
        for name in ("check", "settle", "report", "pack"):
            out = () if name != "pack" else ("-o", self.folder / "bin")
            self.assertEqual(command(name, self.case, *out)[0], 2)
            self.assertEqual(command(name, self.case, *out, *AS_GIVEN)[0], 0)
            self.assertEqual(command(name, self.case, *out, "--time-of-use", "by-rule")[0], 2)
        self.assertEqual(
            self.faults("2026-07-05,8,ON,K0,1", "2026-07-05,8,OFF,K1,1", options=AS_GIVEN),
            ["prices.csv:3:TIME_OF_USE: OFF, and the other one in an earlier row of this hour"],
        )

    def test_prices_are_handed_on(self):
        """Commands that write a case anew, and do not look at periods, leave them as they are."""
        self.write("2026-07-05,8,ON,K0,1.00")
        (self.folder / "pairs.csv").write_text("OLD_NODE,NEW_NODE\nN0,N1\n")
        done = command("remap", self.case, self.folder / "pairs.csv", "-o", self.folder / "out")
        self.assertEqual(done[0], 0, done[2])
        prices = [folder / "prices.csv" for folder in (self.case, self.folder / "out")]
        self.assertEqual(prices[0].read_text(), prices[1].read_text())

    def test_where_the_rule_does_not_reach(self):
        reach = "prices.csv:2:TIME_OF_USE: ON or OFF is needed: the on-peak rule reaches from 2010 to 2037"
        self.assertEqual(self.faults("2038-01-01,8,,K0,1"), [reach])
        self.assertEqual(self.faults("2009-12-31,8,,K0,1"), [reach])
        self.assertEqual(self.periods("2038-01-01,8,ON,K0,1", "2009-12-31,8,OFF,,"), ["OFF_PEAK", "ON_PEAK"])
        alone = "ON or OFF is needed: an hour without day and hour has its period from there alone"
        self.assertEqual(self.faults(",,,K0,1"), [f"prices.csv:2:TIME_OF_USE: {alone}"])
        self.assertEqual(self.periods(",,ON,K0,1"), ["ON_PEAK"])

    def test_what_else_is_wrong(self):
        """A word that is none, and an hour that is none beside a period that is missing."""
        self.assertEqual(
            self.faults("2026-07-05,8,sometimes,K0,1", "2026-07-05,27,,K0,1", "July,8,,K0,1", ",8,24H,K0,1"),
            [
                "prices.csv:2:TIME_OF_USE: 'sometimes' is neither ON nor OFF (refusal 17)",
                "prices.csv:3:OPR_HR: '27' is not an hour ending, 1 to 25",
                "prices.csv:4:OPR_DT: 'July' is not a day, YYYY-MM-DD",
                "prices.csv:5:OPR_DT: '' is not a day, YYYY-MM-DD",
                "prices.csv:5:TIME_OF_USE: '24H' is neither ON nor OFF; split such a contract into an ON and "
                "an OFF row (refusal 17)",
            ],
        )

    def test_the_option(self):
        status, _, err = command("settle", self.case, "--time-of-use", "mine")
        self.assertEqual((status, "'mine' is neither by-rule nor as-given" in err), (2, True), err)


class Hours(Prices):
    def test_hour_25(self):
        self.assertEqual(self.periods("2026-11-01,25,OFF,K0,1"), ["OFF_PEAK"])
        back = "the clock is set back on November's first Sunday"
        for day in ("2026-11-08", "2026-10-25", "2026-11-02", "2026-03-01"):
            for options in ((), AS_GIVEN):
                told = self.faults(f"{day},25,OFF,K0,1", options=options)
                self.assertEqual(told, [f"prices.csv:2:OPR_HR: hour 25: {day} has 24 hours; {back}"])

    def test_hour_24(self):
        forward = "hour 24: 2026-03-08 has 23 hours, its clock is set forward"
        self.assertEqual(self.faults("2026-03-08,24,OFF,K0,1"), [f"prices.csv:2:OPR_HR: {forward}"])
        self.assertEqual(self.periods("2026-03-15,24,OFF,K0,1"), ["OFF_PEAK"])

    def test_the_last_hour_missing(self):
        short, other = ([f"{day},{hour},,," for hour in range(1, 24)] for day in ("2026-03-08", "2026-03-15"))
        self.assertEqual(len(self.periods(*short)), 23)
        missing = "hour 24 of 2026-03-15 is missing; the clock is set forward on March's second Sunday alone"
        self.assertEqual(self.faults(*short, *other), [f"prices.csv:47:OPR_HR: {missing}"])
        self.assertEqual(len(self.periods(*short, *other, "2026-03-15,24,,,")), 47)
        # a part of a day is told with its month, and is no fault
        self.assertEqual(len(self.periods(*other[:-1])), 22)
        self.assertEqual(len(self.periods(*other[1:])), 22)


class PriceFiles(Prices):
    """The same of bin files: a fault names the file."""

    def setUp(self):
        super().setUp()
        self.packed = self.folder / "packed"
        self.write("2026-07-05,8,ON,K0,1", "2026-07-06,8,ON,K0,1")
        command("pack", self.case, "-o", self.packed, *AS_GIVEN)

    def test_periods(self):
        said = "ON, and 2026-07-05 HE08 is off-peak, a Sunday; --time-of-use as-given takes it so"
        (self.folder / "hubs.csv").write_text("HUB,NODE_ID,PERCENT\nH,N0,100\n")
        for name, *more in (
            ("check",),
            ("settle",),
            ("settle", "--process", "annual"),
            ("report",),
            ("hub-mcc", self.folder / "hubs.csv"),
        ):
            with self.subTest(command=(name, *more)):
                status, _, err = command(name, self.packed, *more)
                by_time = f"2026-07-05 HE08: {said}" if "--process" in more else said
                self.assertEqual((status, err.count(by_time)), (2, 1))
                self.assertEqual(command(name, self.packed, *more, *AS_GIVEN)[0], 0)
        status, _, err = command("check", self.packed)
        self.assertEqual(err.splitlines()[0], f"prices/2026-07-05/HE08.bin: {said}")

    def test_hours(self):
        hour = (self.packed / "prices" / "2026-07-06" / "HE08.bin").read_bytes()
        (self.packed / "prices" / "2026-07-06" / "HE25.bin").write_bytes(hour)
        told = "hour 25: 2026-07-06 has 24 hours; the clock is set back on November's first Sunday"
        self.assertIn(f"prices/2026-07-06/HE25.bin: {told}\n", command("check", self.packed)[2])
        (self.packed / "prices" / "2026-07-06" / "HE25.bin").unlink()
        for number in range(1, 24):
            (self.packed / "prices" / "2026-07-06" / f"HE{number:02}.bin").write_bytes(hour)
        told = "hour 24 of 2026-07-06 is missing; the clock is set forward on March's second Sunday alone"
        self.assertIn(f"prices/2026-07-06/HE23.bin: {told}\n", command("check", self.packed, *AS_GIVEN)[2])

    def test_one_hour(self):
        self.write("2026-07-05,8,ON,K0,1")
        one = self.folder / "one"
        command("pack", self.case, "-o", one, *AS_GIVEN)
        self.assertIn("prices.bin: ON, and 2026-07-05 HE08 is off-peak", command("settle", one)[2])
        names = one / "names.csv"
        names.write_text(names.read_text().replace("2026-07-05 HE08", "2026-07-05 HE25"))
        self.assertIn("names.csv: hour 25: 2026-07-05 has 24 hours", command("settle", one, *AS_GIVEN)[2])


class Found(Prices):
    """How many hours were found of how many there are."""

    def test_check(self):
        self.assertEqual(command("check", IEEE14)[1].splitlines()[1:], IEEE14_HOURS.splitlines())
        rows = json.loads(command("check", IEEE14, "--json")[1])["coverage"]
        self.assertEqual(rows[0], {"month": "2026-07", "time_of_use": "OFF", "hours": 8, "of_hours": 328})
        self.assertEqual(rows[1], {"month": "2026-07", "time_of_use": "ON", "hours": 16, "of_hours": 416})
        self.assertEqual(len(rows), 4)
        self.assertEqual(json.loads(command("check", CASE_L, "--json")[1])["coverage"], [])

    def test_settle(self):
        status, out, err = command("settle", IEEE14)
        rows = list(csv.DictReader(io.StringIO(out)))
        self.assertEqual({row["INCOMPLETE"] for row in rows}, {"24 of 744 hours"})
        self.assertEqual((status, err.splitlines()[:2]), (0, IEEE14_HOURS.splitlines()))
        answer = json.loads(command("settle", IEEE14, "--json")[1])
        self.assertEqual(answer["coverage"], json.loads(command("check", IEEE14, "--json")[1])["coverage"])
        command("settle", IEEE14, "--process", "annual", "-o", self.folder / "out")
        with open(self.folder / "out" / "months.csv", newline="") as file:
            months = list(csv.DictReader(file))
        self.assertEqual([row["INCOMPLETE"] for row in months], ["24 of 744 hours"] * 2)

    def test_a_whole_month(self):
        """November 2026: 721 hours, the first day of 25, and a day of December."""
        november = days(date(2026, 11, 1), date(2026, 11, 30))
        rows = [
            f"{day},{hour},,," for day in november for hour in range(1, 26 if day == november[0] else 25)
        ]
        self.write(*rows, *(f"2026-12-01,{hour},,," for hour in range(1, 25)))
        status, out, err = command("settle", self.case)
        marks = {row["MONTH"]: row["INCOMPLETE"] for row in csv.DictReader(io.StringIO(out))}
        self.assertEqual((status, marks), (0, {"2026-11": "", "2026-12": "24 of 744 hours"}))
        self.assertEqual(
            err.splitlines()[:2],
            [
                "2026-11: 384 of 384 on-peak and 337 of 337 off-peak hours",
                "2026-12: 16 of 416 on-peak and 8 of 328 off-peak hours; not whole",
            ],
        )
        text = self.page()
        self.assertIn('<th scope=row>2026-11</th><td class=figure data-name="days">30</td>', text)
        self.assertIn(">384 of 384<", text)
        self.assertIn("<th scope=row>2026-12<br><span class=faint>not whole</span></th>", text)

    def page(self):
        self.assertEqual(command("report", self.case, "-o", self.folder / "page.html", "--force")[0], 0)
        return (self.folder / "page.html").read_text()

    def test_an_hour_without_a_day(self):
        """It is of no month: nothing is said of it, and nothing is marked."""
        self.assertEqual(command("settle", CASE_L)[2].count("\n"), 1)
        self.write(",,ON,K0,1")
        self.assertIn("<th scope=row>all</th>", self.page())

    def test_earlier_results_are_replaced(self):
        """Tables of before, without the mark."""
        out = self.folder / "out"
        command("settle", IEEE14, "--process", "annual", "-o", out)
        for name in ("holders.csv", "months.csv"):
            lines = (out / name).read_text().splitlines()
            (out / name).write_text("".join(line.rpartition(",")[0] + "\n" for line in lines))
        self.assertEqual(command("settle", IEEE14, "--process", "annual", "-o", out)[0], 0)


if __name__ == "__main__":
    unittest.main()
