"""Rows: none is dropped, errors name the parameter and the row; words for kinds, periods and processes; the
package's modules; running tests that are pickled and copied."""

import copy
import pickle
import subprocess
import sys
import unittest
from array import array

from support import IEEE14, ROOT, FolderTest, command
import crr
from crr.case import Case, Names, PricedHour
from crr.native import Lent

try:
    import numpy
except ImportError:
    numpy = None
try:
    import pandas
except ImportError:
    pandas = None

ROW = (0, 1, 7, 0, 1, 10_000)
FIGURES = "kind, period, holder, source, sink, quantity"


class SixFigures(unittest.TestCase):
    def refused(self, kind, words, function, *arguments, **named):
        with self.assertRaises(kind) as raised:
            function(*arguments, **named)
        self.assertNotIsInstance(raised.exception, crr.Refused)
        self.assertIn(words, str(raised.exception))

    def test_rows(self):
        for rows, words in (
            ([ROW[:5]], f"row 0 of book has 5 figures and not 6: {FIGURES}"),
            ([ROW, ROW, (*ROW, 1)], "row 2 of book has 7 figures and not 6"),
            ([ROW, ROW[:5], (*ROW, 1)], "row 1 of book has 5 figures"),  # twelve in all
            ([ROW, ()], "row 1 of book has 0 figures"),
            ((row for row in (ROW, ROW[:1])), "row 1 of book has 1 figures"),
        ):
            self.refused(ValueError, words, crr.write_book, 3, rows)

    def test_buffers(self):
        for cells, words in (
            (array("Q", ROW[:5]), "row 0 of book has 5 figures and not 6"),
            (array("Q", ROW + ROW[:1]), "row 1 of book has 1 figures"),
            (memoryview(array("Q", ROW + ROW[:1])), "row 1 of book has 1 figures"),
            (list(ROW + ROW[:2]), "row 1 of book has 2 figures"),
        ):
            self.refused(ValueError, words, crr.write_book, 3, cells)

    def test_taken(self):
        expected = crr.write_book(3, [ROW, ROW])
        for book in (
            iter([ROW, list(ROW)]),
            array("Q", ROW + ROW),
            memoryview(array("Q", ROW + ROW)),
            list(ROW + ROW),
            [iter(ROW), ROW],
        ):
            self.assertEqual(crr.write_book(3, book), expected)
        for book in ([], (), array("Q"), iter([])):
            self.assertEqual(crr.write_book(3, book), b"\0\0")

    def test_types(self):
        self.refused(TypeError, "row 1 of book: kind, period", crr.write_book, 3, [ROW, 5])
        self.refused(
            TypeError,
            "row 0 of book[5]: a whole number is needed, not str",
            crr.write_book,
            3,
            [(*ROW[:5], "10000")],
        )
        self.refused(
            TypeError,
            "row 0 of book[5]: a whole number is needed, not float",
            crr.write_book,
            3,
            [(*ROW[:5], 10.0)],
        )
        self.refused(
            OverflowError,
            "row 0 of book[2] is a number of 64 bits, not -1",
            crr.write_book,
            3,
            [(0, 1, -1, 0, 1, 1)],
        )
        self.refused(
            TypeError,
            "book: contracts, or six cells for each, are needed, not bytes",
            crr.write_book,
            3,
            bytes(12),
        )
        self.refused(
            TypeError,
            "book: contracts, or six cells for each, are needed, not NoneType",
            crr.write_book,
            3,
            None,
        )

    def test_awards(self):
        running = crr.RunningTest(crr.Grid(2, 1, [5], [50_000, 0]), crr.MONTHLY, crr.ON_PEAK)
        for award in (ROW[:5], (*ROW, 1), ()):
            for add in (running.add, lambda row: crr.add_award(running, row)):
                self.refused(ValueError, f"award has {len(award)} figures and not 6", add, award)
        self.refused(TypeError, "award: kind, period", running.add, 5)
        self.refused(
            TypeError,
            "award[0]: a whole number is needed, not str",
            running.add,
            "OBL,ON".split(",") + [0] * 4,
        )
        self.assertEqual(running.held, [])

    def test_matrices(self):
        self.refused(
            ValueError,
            "row 1 of the matrix has 3 factors where row 0 has 2",
            crr.network.both_directions,
            [[0, 1], [0, 1, 1]],
        )

    def test_cases(self):
        """A case whose names and tables differ in length is not written in part."""
        names = Names(["A", "B"], ["K"], ["one"], {})
        whole = Case(
            names,
            array("Q", [5]),
            array("q", [1, 0]),
            [crr.Contract(*ROW)],
            [PricedHour("2026-07-01", 8, 1, array("Q", [1]))],
        )
        self.assertIn("one,7,OBL,ON,A,B,10.000\n", crr.to_csv.csv_files(whole)["book.csv"])
        for change, words in (
            ({"book": [crr.Contract(*ROW)] * 2}, "case: 2 contracts, and names for 1"),
            ({"limits": array("Q", [5, 6])}, "case: 2 limits, and names for 1"),
            ({"factors": array("q", [1, 0, 0])}, "case: 3 factors, and names for 2"),
            (
                {"hours": [PricedHour("2026-07-01", 8, 1, array("Q", [1, 2]))]},
                "case: 2 prices of 2026-07-01 HE08, and names for 1",
            ),
        ):
            case = Case(**{**vars(whole), **change})
            for write in (crr.to_csv.csv_files, crr.packed.packed):
                self.refused(ValueError, words, write, case)

    def test_parameters_are_named(self):
        grid, book, hub = crr.Grid(2, 1, [5], [1, 0]), crr.write_book(2, []), ([0], [100_000])
        for words, function, arguments in (
            ("limits: ", crr.write_grid, [crr.Grid(2, 1, "5", [1, 0])]),
            ("factors: ", crr.write_grid, [crr.Grid(2, 1, [5], array("Q", [1, 0]))]),
            (
                "factors[1]: a whole number is needed, not float",
                crr.test_book,
                [crr.Grid(2, 1, [5], [1, 0.5]), book, 2, 1],
            ),
            ("limits: ", crr.RunningTest, [crr.Grid(2, 1, array("d", [5]), [1, 0]), 2, 1]),
            ("file: the bytes of a file are needed, not str", crr.read_grid, ["grid.bin"]),
            ("file: ", crr.read_book, [2, "book.bin"]),
            ("book: the bytes of a file are needed, not list", crr.test_book, [grid, [ROW], 2, 1]),
            (
                "process of crr_test_book: a whole number is needed, not str",
                crr.test_book,
                [grid, book, "monthly", 1],
            ),
            (
                "period of crr_find_flows: a whole number is needed, not NoneType",
                crr.find_flows,
                [grid, book, None],
            ),
            ("prices: ", crr.find_mcc, [grid, array("q", [1])]),
            ("prices[0]: ", crr.write_prices, [1, ["12.40"]]),
            ("old_nodes: ", crr.remap_book, [2, book, "0", [1]]),
            ("hub_weights[0]: ", crr.find_hub_mcc, [grid, [1], [0], [0.5]]),
            ("hub_nodes: ", crr.add_hub_contract, [2, book, 0, 1, 7, None, hub[1], 1, 5]),
            ("demands[1]: ", crr.share_balance, [100, [1, 1.5]]),
            ("loads: ", crr.migrate_load, [2, 1, book, b"", [], [], [], [], 5]),
            ("grid: the bytes of a file are needed, not Grid", crr.write_report, [grid, book]),
            ("grid: the bytes of a file are needed, not Grid", crr.settle_hours, [grid, book, []]),
            ("book: the bytes of a file are needed, not list", crr.settle_hours, [b"", [ROW], []]),
            ("view: the bytes of a file are needed, not str", crr.read_holder_view, [2, "view.bin"]),
            ("year of crr_month_hours: a whole number is needed, not str", crr.month_hours, ["2024", 1]),
            ("prices: the bytes of a file are needed, not list", crr.write_statement, [b"", b"", [1]]),
        ):
            self.refused(TypeError, words, function, *arguments)
        self.refused(
            OverflowError,
            "customers[0] is a number of 64 bits, not -1",
            crr.migrate_load,
            2,
            1,
            book,
            b"\0",
            [-1],
            [1],
            [1],
            [2],
            [5, 5],
        )
        self.refused(BufferError, "file: ", Lent, b"", "B", True, "file")

    @unittest.skipIf(numpy is None, "numpy is not installed")
    def test_numpy(self):
        rows = numpy.array([ROW] * 6, dtype=numpy.uint64)
        self.assertEqual(crr.write_book(3, rows), crr.write_book(3, [ROW] * 6))
        self.assertEqual(crr.write_book(3, rows.reshape(36)), crr.write_book(3, [ROW] * 6))
        self.assertEqual(crr.write_book(3, list(rows)), crr.write_book(3, [ROW] * 6))  # rows that are arrays
        self.assertEqual(crr.write_book(3, rows[:0]), b"\0\0")
        self.refused(
            ValueError,
            "row 0 of book has 5 figures",
            crr.write_book,
            3,
            numpy.zeros((6, 5), dtype=numpy.uint64),
        )  # 30 cells
        self.refused(
            ValueError, "row 5 of book has 1 figures", crr.write_book, 3, numpy.zeros(31, dtype=numpy.uint64)
        )
        self.refused(
            ValueError, "3 dimensions", crr.write_book, 3, numpy.zeros((1, 1, 6), dtype=numpy.uint64)
        )
        self.refused(TypeError, "book: a buffer of cells 'Q'", crr.write_book, 3, rows.astype(numpy.int64))
        self.refused(BufferError, "book: ", crr.write_book, 3, numpy.asfortranarray(rows))

    @unittest.skipIf(pandas is None, "pandas is not installed")
    def test_pandas(self):
        self.assertEqual(crr.write_book(3, pandas.Series(ROW, dtype="uint64")), crr.write_book(3, [ROW]))
        self.refused(
            ValueError,
            "row 1 of book has 1 figures",
            crr.write_book,
            3,
            pandas.Series([*ROW, 1], dtype="uint64"),
        )
        self.refused(
            TypeError,
            "book: a table with named columns",
            crr.write_book,
            3,
            pandas.DataFrame([ROW], dtype="uint64"),
        )


class Words(unittest.TestCase):
    def test_enums(self):
        self.assertEqual((crr.OBLIGATION, crr.OPTION), (0, 1))
        self.assertEqual((crr.OFF_PEAK, crr.ON_PEAK), (0, 1))
        self.assertEqual((crr.ANNUAL, crr.TIER_LT, crr.MONTHLY), (0, 1, 2))
        self.assertEqual([list(crr.Kind), list(crr.Period), list(crr.Process)], [[0, 1], [0, 1], [0, 1, 2]])
        self.assertIs(crr.MONTHLY, crr.Process.MONTHLY)

    def test_every_function_takes_them(self):
        grid = crr.Grid(2, 1, [5], [50_000, 0])
        rows = [
            crr.Contract(crr.OPTION, crr.ON_PEAK, 7, 0, 1, 10),
            crr.Contract(crr.OBLIGATION, crr.OFF_PEAK, 7, 0, 1, 10),
        ]
        book = crr.write_book(2, rows)
        self.assertEqual(crr.read_book(2, book), rows)
        self.assertEqual(crr.test_book(grid, book, crr.MONTHLY, crr.ON_PEAK), crr.test_book(grid, book, 2, 1))
        self.assertEqual(crr.find_cuts(grid, book, crr.ANNUAL, crr.ON_PEAK), crr.find_cuts(grid, book, 0, 1))
        self.assertEqual(crr.find_flows(grid, book, crr.ON_PEAK), crr.find_flows(grid, book, 1))
        self.assertEqual(crr.released_percent(crr.TIER_LT), 60)
        self.assertEqual(crr.settle_hour(grid, book, crr.ON_PEAK, [7]), crr.settle_hour(grid, book, 1, [7]))
        self.assertEqual(crr.write_prices(crr.ON_PEAK, [1]), b"\x81\0\0\x20")
        added = crr.add_hub_contract(2, book, crr.OPTION, crr.ON_PEAK, 7, [0], [100_000], 1, 5)
        self.assertEqual(added, crr.add_hub_contract(2, book, 1, 1, 7, [0], [100_000], 1, 5))
        lists = ([1], [1], [1], [2], [5, 5])
        self.assertEqual(
            crr.migrate_load(2, crr.ON_PEAK, book, b"\0", *lists), crr.migrate_load(2, 1, book, b"\0", *lists)
        )
        running = crr.RunningTest(grid, crr.MONTHLY, crr.ON_PEAK)
        running.add(rows[0])
        self.assertEqual((running.held, running.book()), (rows[:1], crr.write_book(2, rows[:1])))

    def test_one_spelling_everywhere(self):
        """A process, and a period, as any command or file of ours writes it is taken by every command."""
        expected = command("test", IEEE14, "--process", "lt", "--period", "on")
        self.assertEqual(expected[0], 1)
        for process in ("LT", "Tier LT", "tier lt", "tier_lt", "tier-lt"):
            for period in ("ON", "on-peak", "On-Peak", "on_peak", "peak"):
                self.assertEqual(command("test", IEEE14, "--process", process, "--period", period), expected)
        expected = command("tiers", IEEE14, "--process", "annual", "--period", "off")
        self.assertEqual(expected[0], 0)
        self.assertEqual(command("tiers", IEEE14, "--process", "Annual", "--period", "off-peak"), expected)
        self.assertEqual(
            command("test", IEEE14, "--process", "ALL", "--period", "Both"), command("test", IEEE14)
        )

    def test_no_such_word(self):
        status, _, err = command("test", IEEE14, "--process", "weekly")
        self.assertEqual(
            (status, err.count("argument --process: 'weekly' is none of annual, lt, monthly, all")), (2, 1)
        )
        status, _, err = command("tiers", IEEE14, "--process", "lt", "--period", "both")
        self.assertEqual((status, err.count("argument --period: 'both' is none of off, on")), (2, 1))


class Modules(FolderTest):
    def test_import_is_enough(self):
        asked = ("network.ptdf", "from_csv.load", "to_csv.write_csv", "packed.read_packed")
        code = f"import crr; print({', '.join(f'crr.{name}.__name__' for name in asked)})"
        done = subprocess.run(
            [sys.executable, "-c", code],
            env={"PYTHONPATH": str(ROOT / "python" / "src")},
            stdout=subprocess.PIPE,
        )
        self.assertEqual(done.stdout, b"ptdf load write_csv read_packed\n")

    def test_none_is_imported_before_it_is_asked_for(self):
        modules = {"crr.network", "crr.from_csv", "crr.to_csv", "crr.packed"}
        code = f"import sys, crr; print(sorted(set(sys.modules) & {modules}))"
        done = subprocess.run(
            [sys.executable, "-c", code],
            env={"PYTHONPATH": str(ROOT / "python" / "src")},
            stdout=subprocess.PIPE,
        )
        self.assertEqual(done.stdout, b"[]\n")

    def test_no_other(self):
        with self.assertRaisesRegex(AttributeError, "module 'crr' has no attribute 'csv'"):
            crr.csv
        self.assertLessEqual({"network", "from_csv", "to_csv", "packed", "MONTHLY"}, set(dir(crr)))


class Pickled(unittest.TestCase):
    GRID = crr.Grid(3, 2, [6_000, 50_000], [60_000, -20_000, 0, 0, -10_000, 40_000])

    def state(self, running):
        return (
            running.held,
            running.counted,
            running.flows,
            running.marks,
            running.process,
            running.period,
            running.book(),
        )

    def test_a_copy_goes_on_by_itself(self):
        running = crr.RunningTest(self.GRID, crr.MONTHLY, crr.ON_PEAK)
        running.add((0, 1, 7, 0, 1, 1_000))
        running.mark(1)
        for make in (lambda before: pickle.loads(pickle.dumps(before)), copy.copy, copy.deepcopy):
            before = self.state(running)
            other = make(running)
            self.assertEqual(self.state(other), before)
            other.add((1, 1, 8, 0, 2, 500))
            other.mark(2)
            with self.assertRaises(crr.Refused):
                other.add((0, 1, 9, 0, 1, 1_000_000))
            self.assertEqual((len(other.held), other.marks, self.state(running)), (2, {1: 1, 2: 2}, before))
            other.return_to(1)
            self.assertEqual(self.state(other), before)

    def test_its_tables_are_lent_to_the_library(self):
        other = pickle.loads(pickle.dumps(crr.RunningTest(self.GRID, crr.MONTHLY, crr.ON_PEAK)))
        with self.assertRaises(BufferError):
            other._awards.append(1)


if __name__ == "__main__":
    unittest.main()
