"""Every entry: the refusals that it can give."""

import pickle
import unittest
from array import array
from ctypes import c_uint64
from fractions import Fraction

from support import bits
from crr.native import Entry, Lent
import crr


class Refusals(unittest.TestCase):
    """Each by an input that differs from an accepted one in that alone."""

    def refused(self, number, function, *arguments):
        with self.assertRaises(crr.Refused) as caught:
            function(*arguments)
        refused = caught.exception
        self.assertEqual((refused.number, refused.meaning), (number, crr.MEANINGS[number]))
        self.assertTrue(refused.entry.startswith("crr_"))
        again = pickle.loads(pickle.dumps(refused))
        self.assertEqual(
            (again.number, again.meaning, again.entry, again.file, str(again)),
            (number, refused.meaning, refused.entry, refused.file, str(refused)),
        )

    def test_read_grid(self):
        fields = [(8, 1), (7, 1), (1, 0), (27, 5), (18, -7)]
        self.assertEqual(list(crr.read_grid(bits(fields)).factors), [-7])

        def changed(place, value):
            return bits(
                [(width, value if at == place else before) for at, (width, before) in enumerate(fields)]
            )

        self.refused(1, crr.read_grid, b"\1")
        self.refused(2, crr.read_grid, changed(0, 0))
        self.refused(3, crr.read_grid, changed(1, 65))
        self.refused(4, crr.read_grid, changed(2, 1))
        self.refused(5, crr.read_grid, bits(fields) + b"\0")
        self.refused(6, crr.read_grid, changed(3, 100_000_001))
        self.refused(7, crr.read_grid, changed(4, 100_001))
        self.refused(8, crr.read_grid, bits(fields + [(3, 1)]))

    def test_write_grid(self):
        self.refused(2, crr.write_grid, crr.Grid(0, 0, [], []))
        self.refused(3, crr.write_grid, crr.Grid(1, 65, [0] * 65, [0] * 65))
        self.refused(9, crr.write_grid, crr.Grid(1, 1, [], [0]))
        self.refused(6, crr.write_grid, crr.Grid(1, 1, [100_000_001], [0]))
        self.refused(7, crr.write_grid, crr.Grid(1, 1, [0], [-100_001]))

    def test_book(self):
        row = (0, 1, 7, 0, 1, 10)
        self.assertEqual(crr.read_book(2, crr.write_book(2, [row])), [row])

        def changed(place, value):
            return [tuple(value if at == place else before for at, before in enumerate(row))]

        self.refused(2, crr.write_book, 0, [row])
        self.refused(10, crr.write_book, 2, [row] * 1001)
        self.refused(17, crr.write_book, 2, changed(0, 2))
        self.refused(17, crr.write_book, 2, changed(1, 2))
        self.refused(18, crr.write_book, 2, changed(2, 1024))
        self.refused(11, crr.write_book, 2, changed(3, 2))
        self.refused(13, crr.write_book, 2, changed(5, 0))
        self.refused(13, crr.write_book, 2, changed(5, 1_000_001))
        self.refused(1, crr.read_book, 2, b"")
        self.refused(10, crr.read_book, 2, bits([(10, 1001), (6, 0)]))
        self.refused(4, crr.read_book, 2, bits([(10, 0), (6, 1)]))
        self.refused(5, crr.read_book, 2, bits([(10, 1), (6, 0)]))
        self.refused(11, crr.read_book, 1, crr.write_book(2, [row]))

    def test_remap(self):
        book = crr.write_book(3, [(0, 1, 7, 0, 1, 10), (1, 0, 8, 2, 1, 20)])
        self.assertEqual(crr.remap_book(3, book, [], []), book)
        # 1 to 2, then 2 to 0: both end at 0
        moved = crr.read_book(3, crr.remap_book(3, book, [1, 2], [2, 0]))
        self.assertEqual([row[3:5] for row in moved], [(0, 0), (0, 0)])
        self.refused(11, crr.remap_book, 3, book, [3], [0])
        self.refused(11, crr.remap_book, 3, book, [0], [3])
        self.refused(9, crr.remap_book, 3, book, [0, 1], [0])
        self.refused(2, crr.remap_book, 0, book, [], [])

    def test_views(self):
        book = crr.write_book(3, [(0, 1, 7, 0, 1, 10), (1, 0, 8, 2, 1, 20)])
        self.assertEqual(crr.write_holder_view(3, book, 9), b"")
        # 18 comes last
        for view, arguments in ((crr.write_market_view, ()), (crr.write_holder_view, (1024,))):
            self.refused(2, view, 0, book, *arguments)
            self.refused(1, view, 3, b"\0", *arguments)
            self.refused(10, view, 3, bits([(10, 1001), (6, 1)]), *arguments)
            self.refused(4, view, 3, bits([(10, 1), (6, 1)]), *arguments)
            self.refused(5, view, 3, book + b"\0", *arguments)
            self.refused(11, view, 2, book, *arguments)
            self.refused(13, view, 3, bits([(10, 1), (6, 0), (12, 0), (16, 0), (20, 0)]), *arguments)
        for holder in (1024, 2**16 + 7, 2**64 - 1):
            self.refused(18, crr.write_holder_view, 3, book, holder)
        with self.assertRaises(OverflowError):
            crr.write_holder_view(3, book, -1)

    def test_places_for_views(self):
        """The functions in Python lend places for the longest views: 9 is asked of the entries themselves."""
        book = crr.write_book(2, [(0, 1, 7, 0, 1, 10), (0, 1, 7, 1, 0, 20)])
        for name, arguments, length in (
            ("crr_write_market_view", (), 14),
            ("crr_write_holder_view", (7,), 16),
            ("crr_write_holder_view", (8,), 0),
        ):

            def written(room, figure):
                place = Lent(bytearray(b"x" * room), "B", True)
                Entry(name)(2, Lent(book, "B"), *arguments, place, figure)
                return bytes(place.owner[length:])

            figure = c_uint64(99)
            if length:
                self.refused(9, written, length - 1, figure)
                self.refused(9, written, 0, figure)
            self.assertEqual(figure.value, 99)
            self.assertEqual((written(length, figure), figure.value), (b"", length))
            self.assertEqual((written(length + 2, figure), figure.value), (b"xx", length))

    def test_canonical(self):
        rows = [(0, 1, 7, 0, 1, 600_000)] * 3
        for form, file in ((0, "0080 4070001f4240 4070001c3500"), (1, "00bf 407000001f4240 407000001c3500")):
            self.assertEqual(crr.write_canonical_book(2, crr.write_book(2, rows, form)), bytes.fromhex(file))
        book = crr.write_book(2, rows[:1])
        self.refused(2, crr.write_canonical_book, 0, book)
        self.refused(1, crr.write_canonical_book, 2, b"")
        self.refused(10, crr.write_canonical_book, 2, bits([(10, 1001), (6, 0)]))
        self.refused(4, crr.write_canonical_book, 2, bits([(10, 0), (6, 1)]))
        self.refused(5, crr.write_canonical_book, 2, book + b"\0")
        self.refused(11, crr.write_canonical_book, 1, book)
        self.refused(13, crr.write_canonical_book, 2, book[:-3] + b"\x1f\xff\xff")

    def test_place_for_the_canonical_form(self):
        """The function in Python lends a place for any book: 9 is asked of the entry itself."""
        entry, book = Entry("crr_write_canonical_book"), crr.write_book(2, [(0, 1, 7, 0, 1, 5)] * 2)
        place, count = bytearray(b"\7" * 9), c_uint64(7)
        with self.assertRaises(crr.Refused) as caught:
            entry(2, Lent(book, "B"), Lent(memoryview(place)[:7], "B", True), count)
        self.assertEqual((caught.exception.number, bytes(place), count.value), (9, b"\7" * 9, 7))
        entry(2, Lent(book, "B"), Lent(memoryview(place)[:8], "B", True), count)
        self.assertEqual((bytes(place), count.value), (bytes.fromhex("004040700010000a07"), 8))

    def test_add_hub_contract(self):
        book, hub = crr.write_book(3, [(0, 1, 7, 0, 1, 10)]), ([2, 0, 1], [33_333, 33_333, 33_334])
        grown = crr.read_book(3, crr.add_hub_contract(3, book, 1, 0, 8, *hub, 2, 1_000))
        self.assertEqual(
            grown, [(0, 1, 7, 0, 1, 10), (1, 0, 8, 0, 2, 333), (1, 0, 8, 1, 2, 334), (1, 0, 8, 2, 2, 333)]
        )
        full = crr.write_book(3, [(0, 1, 7, 0, 1, 10)] * 1000)
        self.refused(2, crr.add_hub_contract, 0, book, 0, 1, 7, *hub, 2, 10)
        self.refused(1, crr.add_hub_contract, 3, b"", 0, 1, 7, *hub, 2, 10)
        self.refused(10, crr.add_hub_contract, 3, bits([(10, 1001), (6, 0)]), 0, 1, 7, *hub, 2, 10)
        self.refused(4, crr.add_hub_contract, 3, bits([(10, 0), (6, 1)]), 0, 1, 7, *hub, 2, 10)
        self.refused(5, crr.add_hub_contract, 3, book + b"\0", 0, 1, 7, *hub, 2, 10)
        self.refused(11, crr.add_hub_contract, 1, book, 0, 1, 7, [0], [100_000], 0, 10)
        self.refused(17, crr.add_hub_contract, 3, book, 2, 1, 7, *hub, 2, 10)
        self.refused(17, crr.add_hub_contract, 3, book, 0, 2, 7, *hub, 2, 10)
        self.refused(18, crr.add_hub_contract, 3, book, 0, 1, 1024, *hub, 2, 10)
        self.refused(11, crr.add_hub_contract, 3, book, 0, 1, 7, [3], [100_000], 2, 10)
        self.refused(11, crr.add_hub_contract, 3, book, 0, 1, 7, *hub, 3, 10)
        self.refused(13, crr.add_hub_contract, 3, book, 0, 1, 7, *hub, 2, 0)
        self.refused(24, crr.add_hub_contract, 3, book, 0, 1, 7, hub[0], hub[1][:2], 2, 10)
        self.refused(25, crr.add_hub_contract, 3, book, 0, 1, 7, [0, 0], [50_000, 50_000], 2, 10)
        self.refused(10, crr.add_hub_contract, 3, full, 0, 1, 7, *hub, 2, 10)

    def test_find_hub_mcc(self):
        grid = crr.Grid(2, 1, [5], [1, 0])
        self.assertEqual(crr.find_hub_mcc(grid, [1], [0, 1], [1, 99_999]), (-1, 99_999))
        self.assertEqual(crr.find_hub_mcc(grid, [1], [1, 0], [99_999, 1]).exact, Fraction(-1, 100_000))
        self.refused(2, crr.find_hub_mcc, crr.Grid(0, 1, [5], []), [1], [0], [100_000])
        self.refused(3, crr.find_hub_mcc, crr.Grid(1, 65, [], [0] * 65), [0] * 65, [0], [100_000])
        self.refused(9, crr.find_hub_mcc, grid, [], [0], [100_000])
        self.refused(7, crr.find_hub_mcc, crr.Grid(2, 1, [5], [1, 100_001]), [1], [0], [100_000])
        self.refused(15, crr.find_hub_mcc, grid, [500_001], [0], [100_000])
        self.refused(11, crr.find_hub_mcc, grid, [1], [2], [100_000])
        self.refused(24, crr.find_hub_mcc, grid, [1], [0, 1], [50_000, 49_999])
        self.refused(24, crr.find_hub_mcc, grid, [1], [0, 1], [2**63, 2**63 + 100_000])
        self.refused(24, crr.find_hub_mcc, grid, [1], [], [])
        self.refused(25, crr.find_hub_mcc, grid, [1], [1, 1], [50_000, 50_000])

    def test_running(self):
        for number, nodes, constraints, process, period, limit in (
            (2, 0, 65, 3, 2, 5), (3, 2, 65, 3, 2, 5), (16, 2, 1, 3, 2, 5), (17, 2, 1, 2, 2, 5)
        ):
            self.refused(
                number, crr.open_running, crr.Grid(nodes, constraints, [limit], [10**6, 0]), process, period
            )
        self.refused(6, crr.open_running, crr.Grid(2, 1, [10**9], [10**6, 0]), 2, 1)
        self.refused(7, crr.open_running, crr.Grid(2, 1, [5], [10**6, 0]), 2, 1)
        self.refused(9, crr.open_running, crr.Grid(2, 1, [10**9], [1]), 2, 1)
        running, row = crr.open_running(crr.Grid(2, 1, [5], [50_000, 0]), 2, 1), [0, 1, 7, 0, 1, 10]
        crr.add_award(running, row)
        for at, value, number in (
            (0, 2, 17),
            (1, 2, 17),
            (2, 1024, 18),
            (3, 2, 11),
            (4, 2, 11),
            (5, 0, 13),
            (5, 10**6 + 1, 13),
            (5, 1, 21),
        ):
            self.refused(number, crr.add_award, running, [*row[:at], value, *row[at + 1 :]])
        with self.assertRaisesRegex(ValueError, "award has 5 figures and not 6"):
            crr.add_award(running, row[:5])
        for tier in (0, 5, 2**64 - 1):
            self.refused(20, crr.mark_tier, running, tier)
            self.refused(20, crr.return_to_tier, running, tier)
        self.refused(20, crr.return_to_tier, running, 4)
        for _ in range(999):
            crr.add_award(running, [1, 0, 0, 1, 0, 10**6])
        self.refused(10, crr.add_award, running, [2, 2, 1024, 2, 2, 0])
        self.assertEqual((len(running.held), running.counted, running.flows), (1000, 1, [500_000]))

    def test_same_ends(self):
        self.assertEqual(len(crr.write_book(2, [(0, 1, 7, 1, 1, 10)])), 8)

    def test_prices(self):
        self.refused(14, crr.read_prices, 2, crr.write_prices(1, [1]))
        self.refused(15, crr.write_prices, 1, [500_001])
        self.refused(17, crr.write_prices, 2, [1])
        self.refused(3, crr.write_prices, 1, [0] * 65)
        self.refused(3, crr.read_prices, 65, b"\0")
        self.refused(1, crr.read_prices, 0, b"")

    def test_rules(self):
        grid = crr.Grid(2, 1, array("Q", [5]), array("q", [1, 2]))
        empty = b"\0\0"
        with_process = (crr.test_book, crr.find_cuts, crr.find_exposure)
        for entry in with_process:
            self.refused(16, entry, grid, empty, 3, 1)
        self.refused(16, crr.released_percent, 3)
        for entry, arguments in [(crr.find_flows, (2,)), *((entry, (2, 2)) for entry in with_process)]:
            self.refused(17, entry, grid, empty, *arguments)
        for entry, arguments in [(crr.find_flows, (1,)), *((entry, (2, 1)) for entry in with_process)]:
            self.refused(9, entry, crr.Grid(2, 1, array("Q"), grid.factors), empty, *arguments)
            self.refused(6, entry, crr.Grid(2, 1, [100_000_001], grid.factors), empty, *arguments)
            self.refused(7, entry, crr.Grid(2, 1, grid.limits, [100_001, 0]), empty, *arguments)
            self.refused(4, entry, grid, b"\0\1", *arguments)
        self.running_totals(grid, empty)
        self.refused(9, crr.find_mcc, grid, [])
        self.refused(15, crr.find_mcc, grid, [500_001])
        self.refused(17, crr.settle_hour, grid, empty, 2, [1])
        self.refused(15, crr.settle_hour, grid, empty, 1, [500_001])

    def running_totals(self, grid, empty):
        """add_flows refuses what find_flows does, too few cells, and totals that are none; judge_flows these
        too. Nothing is changed then."""
        totals = array("q", [200_000_000_000])

        def added(*given):
            before = totals[:]
            try:
                return crr.add_flows(*given)
            finally:
                self.assertEqual(totals, before)

        self.refused(2, added, crr.Grid(0, 1, grid.limits, []), empty, 1, totals, 1)
        self.refused(3, added, crr.Grid(1, 65, [0] * 65, [0] * 65), empty, 1, totals, 1)
        self.refused(17, added, grid, empty, 2, totals, 1)
        self.refused(9, added, crr.Grid(2, 1, [], grid.factors), empty, 1, totals, 1)
        self.refused(6, added, crr.Grid(2, 1, [100_000_001], grid.factors), empty, 1, totals, 1)
        self.refused(7, added, crr.Grid(2, 1, grid.limits, [100_001, 0]), empty, 1, totals, 1)
        self.refused(4, added, grid, b"\0\1", 1, totals, 1)
        self.refused(9, crr.add_flows, grid, empty, 1, array("q"), 1)
        for cells, summed in ((totals[0], 0), (-totals[0], 0), (totals[0] + 1, 1), (0, 20_000_001)):
            self.refused(10, crr.add_flows, grid, empty, 1, array("q", [cells]), summed)
            self.refused(10, crr.judge_flows, grid, 2, [cells], summed)
        full = crr.write_book(2, [(0, 1, 7, 0, 1, 10)])
        self.refused(10, crr.add_flows, grid, full, 1, array("q", [0]), 20_000_000)
        self.assertEqual(added(grid, empty, 1, totals, 20_000_000), (20_000_000, 0))
        self.refused(3, crr.judge_flows, crr.Grid(1, 65, [0] * 65, []), 2, totals, 1)
        self.refused(16, crr.judge_flows, grid, 3, totals, 1)
        self.refused(9, crr.judge_flows, grid, 2, [], 1)
        self.refused(9, crr.judge_flows, crr.Grid(2, 1, [], []), 2, totals, 1)
        self.refused(6, crr.judge_flows, crr.Grid(2, 1, [100_000_001], []), 2, totals, 1)

    def test_places_for_cuts(self):
        """The function in Python lends places for all contracts: 9 for the rows is asked of the entry
        itself."""
        entry, book = Entry("crr_find_cuts"), crr.write_book(2, [(0, 1, 7, 0, 1, 10)])

        def listed(cells, numbers, cuts):
            places = [Lent(array("Q", [7] * count), "Q", True) for count in (numbers, cuts)]
            given = (2, 1, 2, 1, Lent(array("Q", [0]), "Q"), Lent(array("q", [1, 0]), "q"), Lent(book, "B"))
            entry(*given, *places, cells)
            return [list(place.owner) for place in places]

        figure = c_uint64(7)
        self.refused(9, listed, figure, 0, 1)
        self.refused(9, listed, figure, 1, 0)
        self.assertEqual(figure.value, 7)
        self.assertEqual((listed(figure, 1, 2), figure.value), ([[0], [10, 7]], 1))

    def test_calendar(self):
        for year, month in ((2009, 12), (2038, 1), (2024, 0), (2024, 13), (2**64 - 1, 1)):
            self.refused(19, crr.month_hours, year, month)
            self.refused(19, crr.weekday, year, month, 1)
            self.refused(19, crr.hour_period, year, month, 1, 8)
            self.refused(19, crr.month_later, year, month, 1)
        for month, day in ((2, 30), (4, 31), (4, 0), (1, 32), (1, 2**64 - 1)):
            self.refused(19, crr.weekday, 2024, month, day)
            self.refused(19, crr.month_later, 2024, month, day)
            self.refused(19, crr.hour_period, 2024, month, day, 8)
        self.refused(19, crr.month_later, 2037, 12, 1)  # reached
        for hour in (0, 26, 2**32 + 8, 2**64 - 1):
            self.refused(19, crr.hour_period, 2024, 1, 2, hour)
        with self.assertRaises(OverflowError):
            crr.month_hours(-1, 1)

    def test_share_balance(self):
        most = 10**9
        self.assertEqual(
            list(crr.share_balance(-most, [most] * 3)), [-333_333_334, -333_333_333, -333_333_333]
        )
        self.refused(26, crr.share_balance, 5, [])
        self.refused(26, crr.share_balance, 5, [1] * 257)
        self.refused(26, crr.share_balance, 5, [1, most + 1])
        for balance in (most + 1, -most - 1, 2**63 - 1, -(2**63)):
            self.refused(26, crr.share_balance, balance, [0])
        self.refused(27, crr.share_balance, 0, [0, 0])
        for balance in (2**63, -(2**63) - 1):
            with self.assertRaisesRegex(
                OverflowError, "balance of crr_share_balance is a number of 64 bits with its sign"
            ):
                crr.share_balance(balance, [1])

    def test_migrate_load_and_net_transfers(self):
        book = crr.write_book(2, [(0, 1, 1, 0, 1, 1000)])
        one = (b"\7", [10], [1], [1], [2])

        def changed(place, value):
            return tuple(value if at == place else before for at, before in enumerate(one))

        new = crr.read_book(2, crr.migrate_load(2, 1, book, *one, [40, 0]))
        self.assertEqual(new, [(0, 1, 1, 0, 1, 1000), (0, 1, 2, 0, 1, 250), (0, 1, 1, 1, 0, 250)])
        self.assertEqual(crr.migrate_load(2, 0, book, *one, array("Q", [40, 0])), book)
        self.assertEqual(crr.migrate_load(2, 1, book, b"", [], [], [], [], [0]), book)
        self.refused(17, crr.migrate_load, 0, 2, book, *one, [0, 0])
        self.refused(2, crr.migrate_load, 0, 1, book, *one, [0, 0])
        self.refused(11, crr.migrate_load, 1, 1, book, *one, [0, 0])
        wrong = [
            (0, b""),
            (1, [1_000_001]),
            (2, [10_001]),
            (3, [0]),
            (3, [3]),
            (4, [0]),
            (4, [3]),
            (4, [1]),
            (4, []),
            (1, [10, 10]),
        ]
        for place, value in wrong:
            self.refused(22, crr.migrate_load, 2, 1, book, *changed(place, value), [0, 0])
            self.refused(22, crr.net_transfers, 2, *changed(place, value))
        for loads in ([], [0] * 17, [10**12 + 1, 0]):
            self.refused(22, crr.migrate_load, 2, 1, book, *one, loads)
        many = (bytes(1001), [0] * 1001, [0] * 1001, [1] * 1001, [2] * 1001)
        self.refused(22, crr.migrate_load, 2, 1, book, *many, [0, 0])
        self.assertEqual(
            [crr.net_transfers(2, *one), crr.net_transfers(1, b"", [], [], [], [])],
            [[[0, 10], [-10, 0]], [[0]]],
        )
        for lses, lists in ((0, one), (17, one), (2**64 - 1, one), (2, many)):
            self.refused(22, crr.net_transfers, lses, *lists)
        for load in (0, 9):
            self.refused(23, crr.migrate_load, 2, 1, book, *one, [load, 0])
        self.refused(
            10, crr.migrate_load, 2, 1, crr.write_book(2, [(0, 1, 1, 0, 1, 1000)] * 334), *one, [40, 0]
        )

    def test_the_file_is_named(self):
        with self.assertRaisesRegex(
            crr.Refused, "^here/grid.bin: refused 1 by crr_read_grid: a file of fewer bytes"
        ):
            crr.read_grid(b"", "here/grid.bin")


if __name__ == "__main__":
    unittest.main()
