"""Every entry on random cases, against exact fractions and a second packing."""

import random
import unittest
from array import array
from calendar import monthrange
from datetime import date, timedelta
from fractions import Fraction

from support import CASE_L, SEED, amounts, bits, draw_book, draw_grid, draw_prices, flows, half_away
import crr

class Figures(unittest.TestCase):
    def one_case(self, rng, nodes, constraints, contracts):
        file, limits, factors = draw_grid(rng, nodes, constraints)
        book, rows = draw_book(rng, nodes, contracts)
        price_file, period, prices = draw_prices(rng, constraints)
        grid = crr.read_grid(file)
        self.assertEqual(
            (list(grid.limits), list(grid.factors), crr.write_grid(grid)), (limits, factors, file)
        )
        self.assertEqual((crr.read_book(nodes, book), crr.write_book(nodes, rows)), (rows, book))
        read = crr.read_prices(constraints, price_file)
        self.assertEqual(
            (read.period, list(read.prices), crr.write_prices(period, prices)), (period, prices, price_file)
        )
        exact = amounts(rows, factors, constraints, period, prices)
        hour = crr.settle_hour(grid, book, period, prices)
        self.assertEqual(list(hour.cents), [half_away(amount) for amount in exact])
        self.assertEqual((hour.total.sum, hour.total.exact), (sum(hour.cents), sum(exact)))
        posted = {k for k in range(constraints) if prices[k]}
        for row, priced in zip(rows, hour.priced):
            differ = {
                k for k in posted if factors[row[3] * constraints + k] != factors[row[4] * constraints + k]
            }
            self.assertEqual(
                {k for k in range(constraints) if priced >> k & 1}, differ if row[1] == period else set()
            )
        settler = crr.Settler(grid, book, contracts)
        self.assertEqual(
            (settler.settle(price_file), settler.cents, settler.priced), (hour.total, hour.cents, hour.priced)
        )
        for each in (0, 1):
            self.verdicts(
                grid,
                book,
                each,
                limits,
                flows(rows, factors, constraints, each),
                sum(row[1] == each for row in rows),
            )

    def verdicts(self, grid, book, period, limits, expected, counted):
        self.assertEqual(crr.find_flows(grid, book, period), (expected, counted))
        totals = array("q", bytes(8 * len(limits)))
        self.assertEqual(crr.add_flows(grid, book, period, totals), (counted, counted))
        self.assertEqual(list(totals), expected)
        twice = totals[:]
        self.assertEqual(crr.add_flows(grid, book, period, twice, counted), (2 * counted, counted))
        self.assertEqual(list(twice), [2 * flow for flow in expected])
        for process in range(3):
            released = [limit * crr.released_percent(process) * 1000 for limit in limits]
            over = tuple(k for k, flow in enumerate(expected) if flow > released[k])
            verdict = crr.test_book(grid, book, process, period)
            self.assertEqual(crr.judge_flows(grid, process, totals, counted), verdict)
            self.assertEqual((verdict.passed, verdict.overloaded, verdict.count), (not over, over, len(over)))
            self.assertEqual(
                (verdict.named, verdict.excess),
                (over[0], expected[over[0]] - released[over[0]]) if over else (None, 0),
            )

    def test_random_cases(self):
        rng = random.Random(SEED)
        for _ in range(4):
            self.one_case(rng, 200, 64, 1000)
        for _ in range(150):
            self.one_case(rng, *rng.choice(((2, 0, 3), (5, 3, 20), (30, 12, 80), (9, 5, 0))))

    def cuts(self, grid, rows, process, period):
        """The cuts by trying each: the book with one contract lowered, or taken out, is tested."""
        if crr.test_book(grid, crr.write_book(grid.nodes, rows), process, period).passed:
            return []
        cuts = []
        for number, row in enumerate(rows):
            for cut in range(1, row[5] + 1):
                left = [(*row[:5], row[5] - cut)] if cut < row[5] else []
                book = crr.write_book(grid.nodes, rows[:number] + left + rows[number + 1 :])
                if crr.test_book(grid, book, process, period).passed:
                    cuts.append((cut, number))
                    break
        return [(number, cut) for cut, number in sorted(cuts)]

    def test_canonical_books(self):
        """Shuffled and split copies have one form, that of the totals; a thousandth more has another."""
        rng = random.Random(SEED)
        for _ in range(200):
            _, drawn = draw_book(rng, rng.choice((2, 3, 200)), rng.randint(1, 40))
            rows = [(*rng.choice(drawn[:5])[:5], row[5]) for row in drawn]
            totals = {}
            for row in rows:
                totals[row[:5]] = totals.get(row[:5], 0) + row[5]
            cut = [
                (*five, min(10**6, total - done))
                for five, total in sorted(totals.items())
                for done in range(0, total, 10**6)
            ]
            form = crr.write_book(200, cut)
            self.assertEqual(crr.write_canonical_book(200, crr.write_book(200, rows)), form)
            self.assertEqual(crr.write_canonical_book(200, form), form)
            split = [(*row[:5], part) for row in rows for part in (row[5] // 2, row[5] - row[5] // 2) if part]
            rng.shuffle(split)
            self.assertEqual(crr.write_canonical_book(200, crr.write_book(200, split)), form)
            split[0] = (*split[0][:5], split[0][5] + 1)
            self.assertNotEqual(crr.write_canonical_book(200, crr.write_book(200, split)), form)

    def test_cuts(self):
        rng, listed = random.Random(SEED), 0
        for _ in range(60):
            nodes, constraints = rng.randint(2, 4), rng.randint(1, 3)
            rows = [
                (*rng.choices((0, 1), k=2), 7, *rng.choices(range(nodes), k=2), rng.randint(1, 25))
                for _ in range(rng.randint(1, 6))
            ]
            factors = rng.choices((-100_000, -50_000, 0, 30_000, 100_000), k=nodes * constraints)
            for period in (0, 1):
                limits = [
                    max(0, flow // 100_000 + rng.choice((-9, -3, 1, 2, 20)))
                    for flow in flows(rows, factors, constraints, period)
                ]
                grid = crr.Grid(nodes, constraints, limits, factors)
                expected = self.cuts(grid, rows, 2, period)
                self.assertEqual(crr.find_cuts(grid, crr.write_book(nodes, rows), 2, period), expected)
                listed += len(expected)
        self.assertGreater(listed, 20)

    def test_many_cuts(self):
        grid = crr.Grid(2, 1, [9_999], [1_000, 0])
        self.assertEqual(
            crr.find_cuts(grid, crr.write_book(2, [(0, 1, 7, 0, 1, 1_000)] * 1000), 2, 1),
            [(number, 100) for number in range(1000)],
        )

    def test_views(self):
        """In both forms: the market's by a second packing, each holder's by the rows, and all of them
        together the book."""
        rng = random.Random(SEED)
        for form, nodes in ((0, 200), (1, 4000), (0, 2), (1, 2)):
            widths = (1, 1, 10, 12, 12, 20) if form else (1, 1, 10, 8, 8, 20)

            def packed(rows):
                return bits(
                    [(10, len(rows)), (6, 63 * form)] + [field for row in rows for field in zip(widths, row)]
                )

            for contracts in (0, 1, 40, 1000):
                rows = [
                    crr.Contract(*row)._replace(holder=rng.choice((0, 5, 6, 7, 1023)))
                    for row in draw_book(rng, nodes, contracts)[1]
                ]
                book = crr.write_book(nodes, rows, form)
                self.assertEqual(book, packed(rows))
                self.assertEqual(
                    crr.write_market_view(nodes, book), packed([row._replace(holder=0) for row in rows])
                )
                together = []
                for holder in (0, 4, 5, 6, 7, 1023):
                    held = [(number, row) for number, row in enumerate(rows) if row.holder == holder]
                    view = crr.write_holder_view(nodes, book, holder)
                    self.assertEqual(
                        view, b"".join(bits([(16, number), *zip(widths, row)]) for number, row in held)
                    )
                    self.assertEqual(crr.read_holder_view(nodes, view, form), held)
                    together += held
                self.assertEqual(sorted(together), list(enumerate(rows)))

    def test_what_is_no_view(self):
        one, most = (
            crr.write_holder_view(2, crr.write_book(2, [(0, 1, 7, 0, 1, 10)] * count), 7)
            for count in (1, 1000)
        )
        for data, number in (
            (one[:-1], 5), (one + b"\0", 5), (one[:6] + b"\0\0", 13), (most + one, 10), (2 * most, 10)
        ):
            with self.assertRaises(crr.Refused) as caught:
                crr.read_holder_view(2, data)
            self.assertEqual(caught.exception.number, number)
        with self.assertRaisesRegex(ValueError, "row 1 of the view has the number 03e8, of no contract"):
            crr.read_holder_view(2, one + b"\x03\xe8" + one[2:])

    def test_mcc(self):
        grid = crr.read_grid((CASE_L / "grid.bin").read_bytes())
        self.assertEqual(list(crr.find_mcc(grid, [1000, 2550])), [-9_000_000, 0, -92_000_000])

    def test_released(self):
        self.assertEqual([crr.released_percent(process) for process in range(3)], [65, 60, 100])

    def test_every_date(self):
        """Each against Python's own calendar, with the holidays named by the day and moved by their
        weekday."""
        days = [date(2010, 1, 1) + timedelta(number) for number in range(10_227)]
        self.assertEqual(days[-1], date(2037, 12, 31))
        off, hours = set(), {}
        for day in days:
            # such as the fourth Thursday of November
            place = (day.month, (day.day + 6) // 7, day.isoweekday())
            last = (day + timedelta(7)).month != day.month
            if (
                (day.month, day.day) in ((1, 1), (7, 4), (12, 25))
                or place in ((9, 1, 1), (11, 4, 4))
                or (last and place[::2] == (5, 1))
            ):
                off.add(day + timedelta(day.isoweekday() == 7))
        for day in days:
            self.assertEqual(crr.weekday(day.year, day.month, day.day), day.isoweekday())
            month = (day.year, day.month)
            on_peak = day.isoweekday() < 7 and day not in off
            hours[month] = hours.get(month, 0) + 16 * on_peak
            periods = [crr.hour_period(*month, day.day, hour) for hour in (1, 6, 7, 22, 23, 24, 25)]
            self.assertEqual(periods, [0, 0, on_peak, on_peak, 0, 0, 0], day)
            if month < (2037, 12):
                year, number = (day.year, day.month + 1) if day.month < 12 else (day.year + 1, 1)
                self.assertEqual(
                    crr.month_later(day.year, day.month, day.day),
                    date(year, number, min(day.day, monthrange(year, number)[1])),
                )
        self.assertEqual({month: crr.month_hours(*month) for month in hours}, hours)
        self.assertEqual((len(hours), sum(hours.values()), hours[2024, 1]), (336, 137_568, 416))

    def test_shares(self):
        """By fractions; each leftover cent goes to the coordinator that is the furthest below its proportion
        in size."""
        rng = random.Random(SEED)
        for _ in range(500):
            count, largest = rng.choice((1, 2, 3, 10, 256)), rng.choice((1, 3, 1000, 10**9))
            demands = [rng.randint(0, largest) for _ in range(count)] + [1] * (count < 256)
            balance = rng.choice((-1, 1)) * rng.choice(
                (rng.randint(0, 2 * count), rng.randint(0, 10**9), 10**9)
            )
            exact = [Fraction(balance * demand, sum(demands) or 1) for demand in demands]
            shares = [int(proportion) for proportion in exact]
            missing = balance - sum(shares)
            # equal ones stay in order
            by_size = sorted(range(len(demands)), key=lambda at: abs(shares[at] - exact[at]), reverse=True)
            for at in by_size[: abs(missing)]:
                shares[at] += 1 if missing > 0 else -1
            self.assertEqual(list(crr.share_balance(balance, array("Q", demands))), shares)
            self.assertTrue(
                sum(shares) == balance and all(abs(share - part) < 1 for share, part in zip(shares, exact))
            )

    def test_hubs(self):
        """Shares by fractions: each leftover thousandth goes to the node that is the furthest below its part,
        the MCC is a weighted mean of the nodes'."""
        rng = random.Random(SEED)
        for _ in range(300):
            nodes, constraints, form = *rng.choice(((3, 2), (40, 3), (200, 4), (4000, 1))), rng.choice((0, 1))
            count = rng.randint(1, min(32, nodes))
            hub_nodes = rng.sample(range(min(nodes, (256, 4000)[form])), count)
            cuts = [0, *sorted(rng.sample(range(1, 100_000), count - 1)), 100_000]
            weights = (
                [high - low for low, high in zip(cuts, cuts[1:])]
                if rng.random() < 0.6 or 100_000 % count
                else [100_000 // count] * count
            )
            quantity = rng.choice((1, count, rng.randint(1, 100), rng.randint(1, 1_000_000)))
            parts = {node: Fraction(quantity * weight, 100_000) for node, weight in zip(hub_nodes, weights)}
            shares = {node: int(parts[node]) for node in sorted(parts)}
            by_size = sorted(shares, key=lambda node: shares[node] - parts[node])  # equal ones stay in order
            for node in by_size[: quantity - sum(shares.values())]:
                shares[node] += 1
            old = [(0, 0, 9, 0, 1, 5)] * rng.randint(0, 3)
            order = (rng.randint(0, 1), rng.randint(0, 1), rng.randint(0, 1023))
            sink = rng.choice(hub_nodes)
            grown = crr.add_hub_contract(
                nodes,
                crr.write_book(nodes, old, form),
                *order,
                hub_nodes,
                array("Q", weights),
                sink,
                quantity,
            )
            expected = [(*order, node, sink, share) for node, share in shares.items() if share]
            self.assertEqual(
                (crr.read_book(nodes, grown), crr.read_book_form(nodes, grown)), (old + expected, form)
            )
            factors, prices = (
                rng.choices(range(-100_000, 100_001), k=nodes * constraints),
                rng.choices(range(500_001), k=constraints),
            )
            grid = crr.Grid(nodes, constraints, [0] * constraints, array("q", factors))
            mcc = crr.find_mcc(grid, prices)
            hub_mcc = crr.find_hub_mcc(grid, prices, array("Q", hub_nodes), weights)
            self.assertEqual(
                hub_mcc.exact,
                sum(Fraction(mcc[node] * weight, 100_000) for node, weight in zip(hub_nodes, weights)),
            )
            self.assertEqual(hub_mcc.quotient, hub_mcc.exact.__floor__())

    def test_texts(self):
        files = [(CASE_L / name).read_bytes() for name in ("grid.bin", "book.bin", "prices.bin")]
        self.assertEqual(crr.write_statement(*files).splitlines()[-1], "exact,899,17000000")
        self.assertIn("on-peak,monthly,pass,0,,,\n", crr.write_report(*files[:2]))
        self.assertEqual(crr.write_report(b"", b""), "refused,grid,1\n")


if __name__ == "__main__":
    unittest.main()
