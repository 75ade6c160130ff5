"""CSV files: there and back byte by byte, with names, and what spreadsheets and markets make of them."""

import shutil
import unittest
from pathlib import Path

from support import CASE_L, IEEE14, FolderTest, command, contents, draw_book, draw_grid, draw_prices
import crr
from crr.case import holder_numbers
from crr.book_csv import BOOK
from crr.demands_csv import DEMANDS
from crr.from_csv import PRICES, load
from crr.hubs_csv import HUBS
from crr.migration_csv import LOADS, ROWS
from crr.names_csv import HEADING
from crr.sheet import ALIASES

BIN = ("grid.bin", "book.bin")
CSV = ("book.csv", "constraints.csv", "factors.csv", "prices.csv")


class RoundTrips(FolderTest):
    def there_and_back(self, source):
        """bin, CSV, bin, CSV: the same bytes each time."""
        self.assertEqual(command("unpack", source, "-o", self.folder / "csv")[0], 0)
        packing = ("pack", self.folder / "csv", "-o", self.folder / "bin", "--time-of-use", "as-given")
        self.assertEqual(command(*packing)[0], 0)
        self.assertEqual(command("unpack", self.folder / "bin", "-o", self.folder / "again")[0], 0)
        self.assertEqual(contents(self.folder / "csv"), contents(self.folder / "again"))
        packed = contents(self.folder / "bin")
        for name, data in contents(source).items():
            self.assertEqual(packed.pop(name), data, name)
        files = crr.packed.read_packed(source)  # made anew of what was read
        self.assertEqual((files.grid, files.book), tuple((source / name).read_bytes() for name in BIN))
        return packed

    def test_case_l(self):
        self.assertEqual(list(self.there_and_back(CASE_L)), ["names.csv"])

    def test_ieee14(self):
        self.assertEqual(command("pack", IEEE14, "-o", self.folder / "bin")[0], 0)
        self.assertEqual(command("unpack", self.folder / "bin", "-o", self.folder / "csv")[0], 0)
        for name in CSV:
            self.assertEqual((self.folder / "csv" / name).read_bytes(), (IEEE14 / name).read_bytes(), name)
        shutil.rmtree(self.folder / "csv")
        (self.folder / "bin").rename(self.folder / "source")
        self.assertEqual(self.there_and_back(self.folder / "source"), {})

    def test_a_folder_by_its_name(self):
        """The package takes a folder as text too."""
        case, rounded = crr.from_csv.load(str(IEEE14))
        self.assertEqual((case, rounded), load(IEEE14))
        crr.packed.write_packed(case, str(self.folder / "bin"))
        self.assertEqual(crr.packed.unpacked(str(self.folder / "bin")), case)
        files = crr.packed.read_packed(str(self.folder / "bin"))
        self.assertEqual(files.grid, (self.folder / "bin" / "grid.bin").read_bytes())
        self.assertEqual(files.book, (self.folder / "bin" / "book.bin").read_bytes())
        self.assertTrue(all(Path(hour.file).is_file() for hour in files.hours))
        self.assertEqual(crr.settle_hours(*files), crr.settle_hours(*crr.packed.packed(case)))
        crr.to_csv.write_csv(case, str(self.folder / "csv"))
        self.assertEqual(load(self.folder / "csv"), (case, 0))

    def test_drawn(self):
        for nodes, constraints, contracts, hours in (
            (1, 0, 0, 0), (2, 0, 3, 1), (200, 64, 1000, 3), (7, 5, 9, 30)
        ):
            with self.subTest(nodes=nodes):
                source = self.folder / f"source-{nodes}"
                source.mkdir()
                (source / "grid.bin").write_bytes(draw_grid(self.rng, nodes, constraints)[0])
                (source / "book.bin").write_bytes(draw_book(self.rng, nodes, contracts)[0])
                for hour in range(hours):
                    path = (
                        source / "prices.bin"
                        if hours == 1
                        else source / "prices" / f"2026-11-{1 + hour // 25:02}" / f"HE{1 + hour % 25:02}.bin"
                    )
                    path.parent.mkdir(parents=True, exist_ok=True)
                    path.write_bytes(draw_prices(self.rng, constraints)[0])
                self.assertEqual(list(self.there_and_back(source)), ["names.csv"])
                for name in ("csv", "bin", "again"):
                    shutil.rmtree(self.folder / name)

    def test_forms_are_kept(self):
        for nodes, form in ((3, 1), (300, 1), (200, 0)):
            with self.subTest(nodes=nodes, form=form):
                source = self.folder / f"source-{nodes}"
                source.mkdir()
                factors = [self.rng.randint(-100_000, 100_000) for _ in range(2 * nodes)]
                (source / "grid.bin").write_bytes(crr.write_grid(crr.Grid(nodes, 2, [5, 6], factors, form)))
                (source / "book.bin").write_bytes(crr.write_book(nodes, [(0, 1, 2, nodes - 1, 0, 7)], form))
                self.assertEqual(list(self.there_and_back(source)), ["names.csv"])
                for name in ("csv", "bin", "again"):
                    shutil.rmtree(self.folder / name)

    def test_an_hour_keeps_its_time(self):
        command("unpack", CASE_L, "-o", self.folder / "csv")
        prices = self.folder / "csv" / "prices.csv"
        prices.write_text(prices.read_text().replace("\n,,", "\n2026-11-01,25,"))
        packed = command("pack", self.folder / "csv", "-o", self.folder / "bin", "--time-of-use", "as-given")
        self.assertEqual(packed[0], 0)
        self.assertIn("hour,0,2026-11-01 HE25\n", (self.folder / "bin" / "names.csv").read_text())
        command("unpack", self.folder / "bin", "-o", self.folder / "again")
        self.assertEqual((self.folder / "again" / "prices.csv").read_text(), prices.read_text())

    def test_pack_leaves_no_other_hours(self):
        command("pack", IEEE14, "-o", self.folder)
        before = contents(self.folder)
        command("unpack", CASE_L, "-o", self.folder / "csv")
        status, _, err = command("pack", self.folder / "csv", "-o", self.folder)
        self.assertEqual(status, 2)
        self.assertIn("prices/2026-08-01/HE24.bin: ", err)
        self.assertEqual(
            {name: data for name, data in contents(self.folder).items() if not name.startswith("csv/")},
            before,
        )

    def test_unpack_spares_other_work(self):
        command("unpack", CASE_L, "-o", self.folder)
        (self.folder / "book.csv").write_text("mine")
        status, _, err = command("unpack", CASE_L, "-o", self.folder)
        self.assertEqual((status, (self.folder / "book.csv").read_text()), (2, "mine"))
        self.assertIn("book.csv: ", err)
        self.assertEqual(command("unpack", CASE_L, "-o", self.folder, "--force")[0], 0)


class Habits(FolderTest):
    def setUp(self):
        super().setUp()
        command("unpack", CASE_L, "-o", self.folder)
        self.book = crr.read_book(3, (CASE_L / "book.bin").read_bytes())

    def change(self, name, *pairs):
        text = (self.folder / name).read_text()
        for old, new in pairs:
            self.assertIn(old, text)
            text = text.replace(old, new)
        return text

    def test_spreadsheets(self):
        text = self.change(
            "book.csv",
            (",", ";"),
            ("TIME_OF_USE", "Time of use"),
            ("OWNER", "AccountHolder"),
            ("OBL", " obl "),
            ("ON;", "Peak;"),
            ("\n", "\r\n"),
        )
        (self.folder / "book.csv").write_bytes(b"\xef\xbb\xbf" + text.encode())
        self.assertEqual(load(self.folder)[0].book, self.book)

    def test_separators_within_names(self):
        """A heading of commas may have more semicolons: its columns are found by commas."""
        shutil.copytree(IEEE14, self.folder / "case")
        for name in ("constraints.csv", "factors.csv", "prices.csv"):
            path = self.folder / "case" / name
            path.write_text(path.read_text().replace("7-9", "7" + 50 * ";" + "9"))
        self.assertEqual(command("check", self.folder / "case")[0], 0)

    def test_other_columns_and_order(self):
        rows = [line.split(",") for line in (self.folder / "book.csv").read_text().splitlines()]
        lines = [",".join(['"a, b"', *reversed(row)]) for row in rows] + ["", ",,,,,,,"]
        (self.folder / "book.csv").write_text("\n".join(lines).replace('"a, b"', "remark", 1) + "\n")
        self.assertEqual(load(self.folder)[0].book, self.book)

    def test_factors_in_another_order(self):
        rows = [line.split(",") for line in (self.folder / "factors.csv").read_text().splitlines()]
        (self.folder / "factors.csv").write_text(
            "\n".join(",".join((row[0], row[2], row[1])) for row in rows) + "\n"
        )
        self.assertEqual(list(load(self.folder)[0].factors), [60_000, -20_000, 0, 0, -10_000, 40_000])

    def test_a_constraint_may_be_called_node(self):
        for name in ("constraints.csv", "factors.csv", "prices.csv"):
            (self.folder / name).write_text(self.change(name, ("K0", "Node")))
        self.assertEqual(load(self.folder)[0].names.constraints, ["Node", "K1"])

    def test_no_alias_twice(self):
        """No heading has two meanings in one file; CLASS, OLD, NEW and MW have another one in the files of
        load migration."""
        for need in (("CONSTRAINT_ID", "LIMIT_MW"), BOOK, PRICES, DEMANDS, HUBS, HEADING, ROWS, LOADS):
            names = [name for column in need for name in (column, *ALIASES[column])]
            self.assertEqual(len(names), len(set(names)), need)
        names = [
            name
            for column, others in ALIASES.items()
            if column not in ROWS + LOADS
            for name in (column, *others)
        ]
        self.assertEqual(len(names), len(set(names)))

    def test_rounded_prices(self):
        (self.folder / "prices.csv").write_text(
            self.change("prices.csv", ("10.00", "9.99500"), ("25.50", "25.5000"))
        )
        self.assertEqual(command("check", self.folder)[0], 2)
        status, out, _ = command("check", self.folder, "--round-prices")
        self.assertEqual((status, out.strip().endswith("1 price rounded to cents")), (0, True))
        case, rounded = load(self.folder, round_prices=True)
        self.assertEqual((list(case.hours[0].prices), rounded), ([1000, 2550], 1))

    def test_an_hour_without_congestion(self):
        (self.folder / "prices.csv").write_text(
            "OPR_DT,OPR_HR,TIME_OF_USE,CONSTRAINT_ID,SHADOW_PRICE\n2026-01-02,8,ON,,\n2026-01-02,2,OFF,K1,1\n"
        )
        hours = load(self.folder)[0].hours
        self.assertEqual(
            [(hour.hour, hour.period, list(hour.prices)) for hour in hours],
            [(2, 0, [0, 100]), (8, 1, [0, 0])],
        )


class Owners(unittest.TestCase):
    def test_numbers(self):
        self.assertEqual(holder_numbers(["b", "a", "b"], {}), {"b": 0, "a": 1})
        self.assertEqual(holder_numbers(["7", "a", "0", "1023"], {}), {"7": 7, "a": 1, "0": 0, "1023": 1023})
        self.assertEqual(holder_numbers(["007", "1024", "7"], {}), {"007": 0, "1024": 1, "7": 7})
        self.assertEqual(holder_numbers(["new", "old"], {5: "old", 0: "gone"}), {"old": 5, "new": 0})
        self.assertEqual(holder_numbers(["5", "old"], {5: "old"}), {"5": 5, "old": 0})


class KeptNumbers(FolderTest):
    def test_holders_by_name_keep_their_numbers(self):
        source = self.folder / "source"
        source.mkdir()
        (source / "grid.bin").write_bytes(draw_grid(self.rng, 2, 1)[0])
        (source / "book.bin").write_bytes(
            crr.write_book(2, [(0, 1, holder, 0, 1, 1) for holder in (900, 3, 900, 12)])
        )
        (source / "names.csv").write_text("TABLE,NUMBER,NAME\nholder,900,Ash\nholder,3,Beech\nnode,1,Hub\n")
        command("unpack", source, "-o", self.folder / "csv")
        self.assertEqual(
            [line.split(",")[1] for line in (self.folder / "csv" / "book.csv").read_text().splitlines()[1:]],
            ["Ash", "Beech", "Ash", "12"],
        )
        self.assertIn("N0,Hub", (self.folder / "csv" / "book.csv").read_text())
        self.assertEqual(command("pack", self.folder / "csv", "-o", self.folder / "bin")[0], 0)
        self.assertEqual((self.folder / "bin" / "book.bin").read_bytes(), (source / "book.bin").read_bytes())


if __name__ == "__main__":
    unittest.main()
