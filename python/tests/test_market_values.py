"""Values as markets write them: hours, dates and words; factors and prices rounded in one way, and told."""

import json
import re
import shutil
import unittest
from fractions import Fraction

from support import IEEE14, ROOT, FolderTest, command, half_away
from crr.days import plain_day, plain_hour
from crr.decimals import nearest, whole
from crr.network import factor
from crr.words import SPELLINGS, WEEKENDS, Kind, Period


class MarketValues(FolderTest):
    def setUp(self):
        super().setUp()
        self.case = self.folder / "case"
        shutil.copytree(IEEE14, self.case)

    def replaced(self, name, *pairs):
        text = (IEEE14 / name).read_text()
        for old, new in pairs:
            text = re.sub(old, new, text)
        (self.case / name).write_text(text)

    def test_hours(self):
        expected = command("settle", IEEE14)
        for form in (r"\1,HE\2,", r"\1,\2:00,", r"\1,he \2,"):
            self.replaced("prices.csv", (r"(?m)^(2026-0.-..),(\d+),", form))
            self.assertEqual(command("settle", self.case), expected, form)
        for hour in ("HE26", "HE0", "25:30", "8:30", "HE", "00:00", "HE008"):
            self.replaced("prices.csv", (r"2026-07-31,1,", f"2026-07-31,{hour},"))
            status, _, err = command("check", self.case)
            self.assertEqual((status, err.count("is not an hour ending, 1 to 25")), (2, 1), hour)

    def test_dates(self):
        expected = command("settle", IEEE14)
        forms = (("mdy", r"\2/\3/\1"), ("dmy", r"\3.\2.\1"), ("MDY", r"\2-\3-\1"), ("dmy", r"\1-\2-\3"))
        for order, form in forms:
            self.replaced("prices.csv", (r"(2026)-(0.)-(..)", form))
            self.assertEqual(command("settle", self.case, "--dates", order), expected, order)
        self.replaced("prices.csv", (r"(2026)-0(.)-0?(\d+)", r"\2/\3/\1"))
        self.assertEqual(command("settle", self.case, "--dates", "mdy"), expected)
        status, _, err = command("settle", self.case)
        text = "prices.csv:2:OPR_DT: '7/31/2026' is not a day, YYYY-MM-DD; --dates mdy or --dates dmy tells"
        self.assertEqual((status, err.startswith(text)), (2, True))
        status, _, err = command("settle", self.case, "--dates", "dmy")  # no month 31
        self.assertEqual((status, err.startswith(text)), (2, True))
        status, _, err = command("settle", self.case, "--dates", "ydm")
        self.assertEqual((status, err.count("'ydm' is none of ymd, mdy, dmy")), (2, 1))

    def test_dates_of_terms(self):
        lines = (IEEE14 / "book.csv").read_text().splitlines()
        rows = [lines[0] + ",StartDate", lines[1] + ",07/06/2026", *(line + "," for line in lines[2:])]
        (self.case / "book.csv").write_text("\n".join(rows))
        for order, day in (("mdy", "2026-07-06"), ("dmy", "2026-06-07")):
            status, out, _ = command("test", self.case, "--dates", order, "--process", "annual")
            self.assertEqual({line.split(",")[0] for line in out.splitlines()[1:]}, {"", day})
        status, _, err = command("check", self.case)
        self.assertEqual((status, err.count("book.csv:2:StartDate: '07/06/2026' is not a day")), (2, 1))

    def test_words(self):
        expected = command("test", IEEE14)
        for word in ("PeakWD", "HLH", "On Peak", "peak", "5X16"):
            self.replaced("book.csv", (r",ON,", f",{word},"), (r",OFF,", ",LLH,"))
            self.assertEqual(command("test", self.case), expected, word)
        self.replaced("book.csv", (r",ON,", ",PeakWD,"))
        note = "book.csv: PeakWD: read as ON, hours ending 7 to 22, Monday to Saturday"
        self.assertEqual(json.loads(command("check", self.case, "--json")[1])["notes"], [note])
        self.replaced("book.csv", (r"CRR-001,(.*),ON,", r"CRR-001,\1,PeakWE,"))
        status, _, err = command("check", self.case)
        text = "'PeakWE' is neither ON nor OFF: Saturday's peak hours are ON here and Sunday's OFF"
        self.assertEqual((status, err.count(text)), (2, 1))

    def test_the_table_of_words(self):
        """The page prints every word that is understood, and those that are not."""
        page = (ROOT / "docs" / "COMMANDS.md").read_text()
        for words in (Kind, Period):
            for spelling in SPELLINGS[words]:
                row = next(line for line in page.splitlines() if line.startswith(f"| `{spelling.table}` |"))
                told = {word.upper() for word in re.findall(r"`([^`]+)`", row)}
                self.assertEqual(told, {word.upper() for word in (*spelling[:3], *spelling.others)})
        for word in WEEKENDS:
            self.assertIn(f"`{word.lower()}`", page.lower())

    def test_rounded_factors(self):
        given = (("-0.83802", "-0.838015"), ("-0.16198", "-0.1619849"), ("0.02735", "0.0273500"))
        self.replaced("factors.csv", *given)
        status, _, err = command("check", self.case)
        self.assertEqual((status, err.count("has more than 5 decimals")), (2, 2))
        status, out, _ = command("check", self.case, "--round-factors")
        self.assertEqual((status, out.count("; 2 factors rounded to five decimals\n")), (0, 1))
        self.assertEqual(command("test", self.case, "--round-factors"), command("test", IEEE14))
        out = self.folder / "out"
        data = json.loads(command("pack", self.case, "--round-factors", "-o", out, "--json")[1])
        self.assertEqual((data["rounded_prices"], data["rounded_factors"]), (0, 2))
        command("unpack", out, "-o", self.folder / "again")
        again = (self.folder / "again" / "factors.csv").read_bytes()
        self.assertEqual(again, (IEEE14 / "factors.csv").read_bytes())

    def test_both_are_told(self):
        self.replaced("factors.csv", ("-0.83802", "-0.838015"))
        self.replaced("prices.csv", (",12.40\n", ",12.404\n"))
        asked = ("settle", self.case, "--round-factors", "--round-prices")
        status, out, err = command(*asked)
        said = "; 1 price rounded to cents; 1 factor rounded to five decimals\n"
        self.assertEqual((status, out, err.endswith(said)), (*command("settle", IEEE14)[:2], True))


class OneRule(unittest.TestCase):
    def test_half_away_from_zero(self):
        """Of the words of a file, of a network's factors and of what is drawn."""
        for over in range(-40, 41):
            exact = Fraction(over, 16)
            text = f"{'-' if over < 0 else ''}{abs(over) * 625 // 10000}.{abs(over) * 625 % 10000:04}"
            self.assertEqual(whole(text, 0, rounded=True), half_away(exact))
            self.assertEqual(nearest(over, 16), half_away(exact))
            self.assertEqual(factor(exact / 10**5), half_away(exact))

    def test_plain(self):
        self.assertEqual(plain_day("02/30/2026", "mdy"), "02/30/2026")
        self.assertEqual(plain_day("2/3/2026", "dmy"), "2026-03-02")
        self.assertEqual(plain_day("2/3.2026", "dmy"), "2/3.2026")
        self.assertEqual([plain_hour(text) for text in ("he24", "01:00", "7", "HE7")], ["24", "1", "7", "7"])


if __name__ == "__main__":
    unittest.main()
