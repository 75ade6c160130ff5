"""What a book costs at any prices and at worst: refusals, case L, and random cases against fractions and
every corner of the box of prices."""

import random
import unittest
from array import array
from ctypes import c_int64, c_uint64
from fractions import Fraction
from itertools import product

from support import CASE_L, SEED, amounts, bits, flows
from crr.native import Entry, Lent
import crr

HIGHEST = 500_000
PERCENT = (65, 60, 100)


def costs(rows, limits, factors, process, period, prices):
    """Net payment, rent and shortfall in cents, by the definitions of document 01."""
    payment = sum(amounts(rows, factors, len(limits), period, prices), Fraction(0))
    rents = (limit * PERCENT[process] * 1000 * price for limit, price in zip(limits, prices))
    rent = Fraction(sum(rents), 10**8)
    return payment, rent, payment - rent


def draw(rng):
    """(limits, factors, rows) of 3 nodes: few figures, so that sets of constraints cost as much as others,
    and limits about the flows."""
    constraints = rng.choice((0, 1, 2, 3, 4, 4, 5))
    factors = rng.choices((-100_000, -50_000, 0, 50_000, 100_000, 33_333), k=3 * constraints)
    rows = [
        (*rng.choices((0, 1), k=2), 7, *rng.choices(range(3), k=2), rng.choice((100, 200, 999)))
        for _ in range(rng.randint(0, 7))
    ]
    loaded = flows(rows, factors, constraints, 1)
    limits = [max(0, flow // 100_000 - rng.choice((-20, 1, 10, flow // 200_000))) for flow in loaded]
    return limits, factors, rows


class Refusals(unittest.TestCase):
    """Each by an input that differs from an accepted one in that alone."""

    def refused(self, number, function, *arguments):
        with self.assertRaises(crr.Refused) as caught:
            function(*arguments)
        self.assertEqual(caught.exception.number, number)

    def test_both(self):
        book = crr.write_book(2, [(0, 1, 7, 0, 1, 10)])
        for entry, more in ((crr.find_shortfall, ([3],)), (crr.find_exposure, ())):

            def tried(
                nodes=2,
                constraints=1,
                process=2,
                period=1,
                limits=(5,),
                factors=(50_000, 0),
                file=book,
                entry=entry,
                more=more,
            ):
                grid = crr.Grid(nodes, constraints, list(limits), list(factors))
                return entry(grid, file, process, period, *more)

            tried()
            self.refused(2, lambda: tried(nodes=0))
            self.refused(3, lambda: tried(constraints=65))
            self.refused(16, lambda: tried(process=3))
            self.refused(17, lambda: tried(period=2))
            self.refused(9, lambda: tried(limits=()))
            self.refused(9, lambda: tried(factors=(1,)))
            self.refused(6, lambda: tried(limits=(100_000_001,)))
            self.refused(7, lambda: tried(factors=(0, -100_001)))
            self.refused(1, lambda: tried(file=b"\0"))
            self.refused(10, lambda: tried(file=bits([(10, 1001), (6, 0)])))
            self.refused(4, lambda: tried(file=bits([(10, 0), (6, 1)])))
            self.refused(5, lambda: tried(file=book + b"\0"))
            self.refused(11, lambda: tried(nodes=1))
            self.refused(13, lambda: tried(file=book[:-3] + b"\x1f\xff\xff"))

    def test_prices(self):
        grid = crr.Grid(2, 1, [5], [50_000, 0])
        self.refused(9, crr.find_shortfall, grid, b"\0", 2, 1, [])
        self.refused(15, crr.find_shortfall, grid, b"\0", 2, 1, [500_001])

    def test_place_for_the_prices(self):
        """The function in Python lends a cell for each constraint: 9 is asked of the entry itself."""
        entry, book = Entry("crr_find_exposure"), crr.write_book(2, [(0, 1, 7, 0, 1, 10)])

        def written(cells, figures):
            place = Lent(array("Q", [7] * cells), "Q", True)
            given = (2, 1, 2, 1, Lent(array("Q", [0]), "Q"), Lent(array("q", [1, 0]), "q"), Lent(book, "B"))
            entry(*given, place, *figures)
            return list(place.owner)

        figures = (c_int64(-7), c_uint64(7), c_int64(-7), c_uint64(7))
        self.refused(9, written, 0, figures)
        self.assertEqual([figure.value for figure in figures], [-7, 7, -7, 7])
        self.assertEqual(written(2, figures), [HIGHEST, 7])
        # 10 x 1 over, at 500,000 cents
        self.assertEqual([figure.value for figure in figures], [0, 5_000_000] * 2)


class Figures(unittest.TestCase):
    def test_case_l(self):
        grid, book = crr.read_grid((CASE_L / "grid.bin").read_bytes()), (CASE_L / "book.bin").read_bytes()
        found = crr.find_shortfall(grid, book, crr.MONTHLY, crr.ON_PEAK, [1_000, 2_550])
        self.assertEqual(found, ((899, 17_000_000), (227_500, 0), (-226_601, 17_000_000)))
        self.assertEqual(found.shortfall.exact, Fraction("899.17") - 227_500)
        none = crr.find_exposure(grid, book, crr.MONTHLY, crr.ON_PEAK)
        self.assertEqual(none, ((0, 0), (0, 0), array("Q", [0, 0])))
        tight = crr.Grid(3, 2, [6_001, 50_000], grid.factors)
        some = crr.find_exposure(tight, book, crr.MONTHLY, crr.ON_PEAK)
        self.assertEqual(some, ((174_850, 0), (174_850, 0), array("Q", [HIGHEST, 0])))
        one_cent = crr.find_shortfall(tight, book, crr.MONTHLY, crr.ON_PEAK, [1, 0])
        self.assertEqual(one_cent.shortfall, (0, crr.test_book(tight, book, crr.MONTHLY, crr.ON_PEAK).excess))

    def one_case(self, rng):
        """Whether it fails."""
        limits, factors, rows = draw(rng)
        grid, book = crr.Grid(3, len(limits), limits, factors), crr.write_book(3, rows)
        process = rng.randrange(3)
        drawn = [rng.choice((0, 1, rng.randint(0, HIGHEST), HIGHEST)) for _ in limits]
        for prices in ([0] * len(limits), drawn):
            found = crr.find_shortfall(grid, book, process, 1, prices)
            expected = costs(rows, limits, factors, process, 1, prices)
            self.assertEqual(tuple(figure.exact for figure in found), expected)
        corners = [list(corner) for corner in product((0, HIGHEST), repeat=len(limits))]
        # by the number of the set, bit k for constraint k
        corners.sort(key=lambda corner: [price > 0 for price in reversed(corner)])
        each = [costs(rows, limits, factors, process, 1, corner)[2] for corner in corners]
        exposure = crr.find_exposure(grid, book, process, 1)
        self.assertEqual((exposure.least.exact, exposure.most), (max(each), exposure.least))
        self.assertEqual(list(exposure.prices), corners[each.index(max(each))])
        reached = crr.find_shortfall(grid, book, process, 1, exposure.prices)
        self.assertEqual(reached.shortfall, exposure.least)
        verdict = crr.test_book(grid, book, process, 1)
        self.assertEqual(verdict.passed, max(each) == 0)
        return not verdict.passed, each.count(max(each)) > 1

    def test_random_cases(self):
        rng = random.Random(SEED)
        shown = [self.one_case(rng) for _ in range(300)]
        self.assertGreater(sum(fails for fails, _ in shown), 50)
        self.assertGreater(sum(fails and equal for fails, equal in shown), 5)

    def test_ten_and_eleven(self):
        """Options from node k to k + 1, each loading constraint k and relieving the one behind it by as
        much."""
        for count in (10, 11):
            factors = [100_000 * (k == node) for node in range(count + 1) for k in range(count)]
            rows = [(1, 1, 7, node, node + 1, 1_000) for node in range(count)]
            grid, book = crr.Grid(count + 1, count, [900] * count, factors), crr.write_book(count + 1, rows)
            found = crr.find_exposure(grid, book, crr.MONTHLY, crr.ON_PEAK)
            # Each is over by 100: every second one alone costs 100 x 500,000 each; two neighbours, of which
            # one option is not paid, 800 less.
            if count == 10:
                self.assertEqual((found.least, found.most), ((250_000, 0), (250_000, 0)))
                self.assertEqual(list(found.prices), [HIGHEST, 0] * 5)
            else:
                self.assertEqual((found.least, found.most), ((50_000, 0), (550_000, 0)))
                self.assertEqual(list(found.prices), [HIGHEST] + [0] * 10)


if __name__ == "__main__":
    unittest.main()
