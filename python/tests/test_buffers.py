"""Lending: no copy, the right cells, nothing misaligned; numpy and pandas where they are installed."""

import ctypes
import unittest
from array import array

import support
import crr
from crr.native import Entry, Lent, lend_cells

try:
    import numpy
except ImportError:
    numpy = None
try:
    import pandas
except ImportError:
    pandas = None


def address(buffer):
    return ctypes.addressof(ctypes.c_char.from_buffer(buffer))


class Lending(unittest.TestCase):
    def test_no_copy(self):
        cells = array("q", [1, 2, 3])
        lent = lend_cells(cells, "q")
        self.assertEqual((lent.address, lent.cells), (address(cells), 3))
        with self.assertRaises(BufferError):
            cells.append(4)  # what is lent stays where it is ..
        del lent
        cells.append(4)  # .. as long as it is lent

    def test_read_only_and_views(self):
        data = bytes(range(64))
        self.assertEqual(Lent(memoryview(data)[8:], "B").address, Lent(data, "B").address + 8)
        with self.assertRaises(BufferError):
            Lent(data, "B", writable=True)

    def test_empty_is_aligned(self):
        for code in "qQ":
            self.assertEqual(Lent(array(code), code).address % 8, 0)
        self.assertNotEqual(Lent(b"", "B").address, 0)

    def test_wrong_cells(self):
        for owner in (array("i", [1]), array("d", [1.0]), array("Q", [1]), b"12345678"):
            with self.assertRaises(TypeError):
                Lent(owner, "q")
        for owner in ("text", 5, None):
            with self.assertRaises(TypeError):
                lend_cells(owner, "Q")
        with self.assertRaises(TypeError):
            Lent(memoryview(bytes(24))[4:20].cast("Q"), "Q")  # not aligned

    def test_arguments_are_checked(self):
        entry = Entry("crr_released_percent")
        with self.assertRaises(TypeError):
            entry(1)
        with self.assertRaises(TypeError):
            entry(1, ctypes.c_int64())
        with self.assertRaises(TypeError):
            entry(1.5, ctypes.c_uint64())
        with self.assertRaises(OverflowError):
            entry(-1, ctypes.c_uint64())
        with self.assertRaises(TypeError):
            # to be written, and read-only
            Entry("crr_write_prices")(1, 1, lend_cells([1], "Q"), Lent(b"123", "B"), ctypes.c_uint64())

    def test_sequences(self):
        self.assertEqual(crr.write_prices(1, [1]), b"\x81\0\0\x20")
        self.assertEqual(crr.write_prices(1, (1,)), b"\x81\0\0\x20")
        with self.assertRaises(OverflowError):
            crr.write_prices(1, [-1])


@unittest.skipIf(numpy is None, "numpy is not installed")
class Numpy(unittest.TestCase):
    def test_no_copy(self):
        table = numpy.array([[60_000, -20_000], [0, 0], [-10_000, 40_000]])
        self.assertEqual(
            (lend_cells(table, "q").address, lend_cells(table, "q").cells), (table.ctypes.data, 6)
        )
        grid = crr.Grid(3, 2, numpy.array([100_000, 50_000], dtype=numpy.uint64), table)
        self.assertEqual(crr.write_grid(grid), (support.CASE_L / "grid.bin").read_bytes())
        self.assertEqual(
            numpy.asarray(crr.find_mcc(grid, numpy.array([1000, 2550], dtype=numpy.uint64))).tolist(),
            [-9_000_000, 0, -92_000_000],
        )

    def test_book_of_six_columns(self):
        rows = numpy.array([[0, 1, 7, 0, 1, 10_000]], dtype=numpy.uint64)
        self.assertEqual(crr.write_book(3, rows), bytes.fromhex("0040407000102710"))

    def test_wrong_types_are_refused_not_copied(self):
        for wrong in (
            numpy.zeros(2), numpy.zeros(2, dtype=numpy.int32), numpy.zeros((4, 4), dtype=numpy.int64)[:, ::2]
        ):
            with self.assertRaises((TypeError, BufferError, ValueError)):
                lend_cells(wrong, "q")

    def test_numbers(self):
        self.assertEqual(crr.released_percent(numpy.int64(2)), 100)


@unittest.skipIf(pandas is None, "pandas is not installed")
class Pandas(unittest.TestCase):
    def test_no_copy(self):
        column = pandas.Series([1000, 2550], dtype="uint64")
        self.assertEqual(lend_cells(column, "Q").address, column.to_numpy().ctypes.data)
        self.assertEqual(crr.write_prices(1, column), (support.CASE_L / "prices.bin").read_bytes())


if __name__ == "__main__":
    unittest.main()
