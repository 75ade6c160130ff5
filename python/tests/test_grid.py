"""Grids of networks: `crr grid`, the factors after outages held against networks without the branches that
are out, floating point against fractions, and every fault with file, line and column."""

import csv
import importlib.util
import io
import json
import shutil
import unittest
from fractions import Fraction

from support import IEEE14, FolderTest, command
from crr.network import Branch, Contingency, Line, Unsolved, factor, grid_of, ptdf
from crr.network_floats import _NOISE

HAS_SCIPY = all(importlib.util.find_spec(name) for name in ("numpy", "scipy"))


def ieee14():
    with open(IEEE14 / "branches.csv", newline="") as file:
        rows = list(csv.DictReader(file))
    return [
        Branch(
            f"{row['FROM_BUS']}-{row['TO_BUS']}",
            row["FROM_BUS"],
            row["TO_BUS"],
            Fraction(row["REACTANCE"]) * Fraction(row["TAP_RATIO"]),
            1000 * int(row["RATING_MW"]),
        )
        for row in rows
    ]


def drawn(rng, nodes, more):
    """A network that hangs together, with parallel branches."""
    branches = []
    for end in range(1, nodes):
        branches.append((rng.randrange(end), end))
    for _ in range(more):
        branches.append(tuple(rng.sample(range(nodes), 2)))
    return [
        Branch(f"L{at}", f"B{ends[0]}", f"B{ends[1]}", Fraction(rng.randint(1, 999), 1000), limit)
        for at, ends in enumerate(branches)
        for limit in [rng.choice((None, 5000))]
    ]


def alone(branches, out, slack, monitored):
    """The rounded factors of a branch in the network without those that are out, by the PTDF matrix of that
    network."""
    numbers = {}
    for branch in branches:
        for bus in (branch.start, branch.end):
            numbers.setdefault(bus, len(numbers))
    left = [branch for branch in branches if branch.name not in out]
    lines = [Line(numbers[b.start], numbers[b.end], Fraction(b.reactance)) for b in left]
    rows = ptdf(lines, len(numbers), numbers[slack])
    return [factor(value) for value in rows[[b.name for b in left].index(monitored)]]


class Factors(FolderTest):
    def test_after_outages_as_without_the_branches(self):
        branches = ieee14()
        outages = [Contingency("one", ["2-4"]), Contingency("two", ["1-5", "4-5"])]
        grid = grid_of(branches, outages, "6")
        rows = dict(zip(grid.constraints[::2], grid.rows))
        self.assertEqual((len(rows), grid.exact, grid.slack), (20 + 19 + 18, True, "6"))
        out_of = {"": (), "one": ("2-4",), "two": ("1-5", "4-5")}
        for name, row in rows.items():
            branch, _, after = name.partition(" after ")
            self.assertEqual(list(row), alone(branches, out_of[after], "6", branch), name)

    def test_the_example_s_own(self):
        grid = grid_of(ieee14())
        with open(IEEE14 / "factors.csv", newline="") as file:
            heading, *rows = csv.reader(file)
        expected = {row[0]: [int(Fraction(cell) * 100_000) for cell in row[1:]] for row in rows}
        count, cells = len(grid.constraints), list(grid.factors)
        self.assertEqual(grid.constraints, heading[1:])
        for at, node in enumerate(grid.nodes):
            self.assertEqual(cells[at * count : (at + 1) * count], expected[f"Bus {node}"])

    def test_rounding_is_told(self):
        branches = [Branch("a", "1", "2", 1, 1000), Branch("b", "2", "3", 1), Branch("c", "1", "3", 1)]
        grid = grid_of(branches)
        self.assertEqual([list(row) for row in grid.rows], [[0, -66_667, -33_333]])
        rounding = grid.rounding
        self.assertEqual((rounding.rounded, rounding.factors, rounding.close), (2, 3, 0))
        self.assertAlmostEqual(rounding.largest, 1 / 300_000)
        half = [Branch("a", "1", "2", Fraction(199_999), 1000), Branch("b", "1", "2", Fraction(1))]
        self.assertEqual([list(row) for row in grid_of(half).rows], [[0, -1]])  # -1/200,000

    def test_emergency_limits(self):
        branches = [branch._replace(emergency=branch.limit + 7) for branch in ieee14()]
        grid = grid_of(branches, [Contingency("out", ["1-2"])])
        by_name = dict(zip(grid.constraints, grid.limits))
        self.assertEqual((by_name["1-5"], by_name["1-5 reverse after out"]), (85_000, 85_007))

    def test_least_shift(self):
        every = grid_of(ieee14(), [Contingency("out", ["1-2"])])
        some = grid_of(ieee14(), [Contingency("out", ["1-2"])], least_shift=0.05)
        self.assertEqual(some.unshifted, len(every.rows) - len(some.rows))
        rows = dict(zip(every.constraints[::2], every.rows))
        for name, row in zip(some.constraints[::2], some.rows):
            self.assertEqual(row, rows[name])
        self.assertIn("1-5 after out", some.constraints)  # which takes all of it

    @unittest.skipUnless(HAS_SCIPY, "numpy and scipy are not installed")
    def test_floating_point_is_exact(self):
        for _ in range(20):
            branches = drawn(self.rng, 12, 14)
            branches[0] = branches[0]._replace(limit=5000)
            names = [branch.name for branch in branches]
            sizes = [self.rng.choice((1, 2)) for _ in range(4)]
            outages = [Contingency(str(at), self.rng.sample(names, size)) for at, size in enumerate(sizes)]
            exact, near = (grid_of(branches, outages, None, way, skip_splits=True) for way in (True, False))
            self.assertEqual(near.rounding.close, 0)
            for what in ("nodes", "constraints", "limits", "rows", "left_out"):
                self.assertEqual(getattr(near, what), getattr(exact, what))
            self.assertEqual(near.rounding.rounded, exact.rounding.rounded)
            self.assertLess(abs(near.rounding.largest - exact.rounding.largest), _NOISE)

    def test_splits(self):
        """The outages that the search in depth finds are those that leave a singular matrix."""
        for _ in range(30):
            branches = drawn(self.rng, 8, 4)
            branches[0] = branches[0]._replace(limit=5000)
            outages = [Contingency(branch.name, [branch.name]) for branch in branches]
            found = grid_of(branches, outages, skip_splits=True).left_out
            self.assertEqual(found, [b.name for b in branches if self.splits(branches, b.name)])

    def splits(self, branches, out):
        numbers = {bus: int(bus[1:]) for branch in branches for bus in (branch.start, branch.end)}
        left = [branch for branch in branches if branch.name != out]
        try:
            ptdf([Line(numbers[b.start], numbers[b.end], b.reactance) for b in left], len(numbers))
            return False
        except ValueError:
            return True

    def test_a_problem_names_its_row(self):
        with self.assertRaises(Unsolved) as caught:
            grid_of([Branch("a", "1", "2", 0, 5), Branch("a", "2", "2", 1)], [Contingency("x", ["b"])], "9")
        self.assertEqual(
            [(p.table, p.row, p.column) for p in caught.exception.problems],
            [
                ("branches", 0, "REACTANCE"),
                ("branches", 1, "TO_BUS"),
                ("branches", 1, "BRANCH_ID"),
                ("slack", 0, ""),
                ("contingencies", 0, "BRANCH_ID"),
            ],
        )


HEADING = "BRANCH_ID,FROM_BUS,TO_BUS,REACTANCE,LIMIT_MW\n"


class Command(FolderTest):
    def grid(self, branches, contingencies=None, *options):
        (self.folder / "branches.csv").write_text(branches)
        given = [self.folder / "branches.csv"]
        if contingencies is not None:
            (self.folder / "out.csv").write_text(contingencies)
            given.append(self.folder / "out.csv")
        status, out, err = command("grid", *given, "-o", self.folder / "made", *options)
        self.assertEqual(status == 0, (self.folder / "made").exists())
        return status, out, err.replace(f"{self.folder}/", "")

    def test_a_case(self):
        made = self.folder / "made"
        status, out, err = command("grid", IEEE14 / "branches.csv", "-o", made)
        written = f"{made}: constraints.csv and factors.csv written: 14 nodes, 40 constraints\n"
        self.assertEqual((status, out), (0, written))
        self.assertEqual(
            err,
            "slack 1; 280 factors by exact fractions, 247 of them rounded to five decimals (the nearest, a "
            "half away from zero), by at most 0.0000049975\n",
        )
        book = (IEEE14 / "book.csv").read_text().replace("Bus ", "")
        (made / "book.csv").write_text(book)
        self.assertEqual(command("test", made), command("test", IEEE14))

    def test_again(self):
        made = self.folder / "made"
        for options, status in (((), 0), ((), 0), (("--slack", "3"), 2), (("--slack", "3", "--force"), 0)):
            answer = command("grid", IEEE14 / "branches.csv", "-o", made, *options)
            self.assertEqual(answer[0], status, answer)

    def test_json(self):
        status, out, _ = command("grid", IEEE14 / "branches.csv", "-o", self.folder / "made", "--json")
        said = json.loads(out)
        self.assertEqual((status, said["nodes"], said["rounding"]["factors"]), (0, 14, 280))

    def test_faults(self):
        a, b = "a,1,2,0.1,5\n", "b,2,3,0.1,\n"
        for rows, outages, options, expected in (
            (a + "b,2,3,0,5\n", None, (), "branches.csv:3:REACTANCE: a reactance of 0: make its two "),
            (a + "b,2,3,abc,5\n", None, (), "branches.csv:3:REACTANCE: 'abc' is not a number\n"),
            (a + "b,2,3,,5\n", None, (), "branches.csv:3:REACTANCE: empty\n"),
            (a + "b,2,3,nan,5\n", None, (), "branches.csv:3:REACTANCE: 'nan' is not a number\n"),
            (a + "b,2,2,0.1,5\n", None, (), "branches.csv:3:TO_BUS: from 2 to itself\n"),
            (a + "a,2,3,0.1,5\n", None, (), "branches.csv:3:BRANCH_ID: a occurs twice\n"),
            (a + "b,2,3,0.1,5.0005\n", None, (), "branches.csv:3:LIMIT_MW: 5.0005 has more than 3 "),
            (a + "b,7,8,0.1,5\n", None, (), "branches.csv:3:FROM_BUS: an island: nothing connects "),
            (b, None, (), "branches.csv:2:LIMIT_MW: no branch has a limit: nothing is monitored\n"),
            ("", None, (), "branches.csv: no branch\n"),
            (a + b, "x,a\n", (), "out.csv:2:CONTINGENCY_ID: its outage splits off 2 buses (2, 3): "),
            (a + b, "x,c\n", (), "out.csv:2:BRANCH_ID: no branch 'c'\n"),
            (a + b, "x,a\ny,b\nx,a\n", (), "out.csv:4:BRANCH_ID: a occurs twice in this contingency\n"),
            (a + b, None, ("--slack", "9"), "--slack: no bus '9' in the branches\n"),
            (a + "a reverse,1,2,1,5\n", None, (), "branches.csv: two constraints would be called "),
        ):
            outages = outages and "CONTINGENCY_ID,BRANCH_ID\n" + outages
            status, out, err = self.grid(HEADING + rows, outages, *options)
            self.assertEqual((status, out), (2, ""), rows)
            self.assertTrue(err.startswith(expected), err)

    def test_a_negative_reactance_may_leave_no_solution(self):
        rows = "a,1,2,0.1,5\nb,1,2,-0.1,5\n"
        status, _, err = self.grid(HEADING + rows)
        self.assertEqual(status, 2)
        self.assertIn("branches.csv:2:REACTANCE: negative reactances leave a network that has no", err)

    def test_names_of_parallel_branches(self):
        text = "FROM,TO,X,RATING_MW,TAP\n1,2,0.1,5,\n1,2,1e-1,5,0.5\n"
        self.assertEqual(self.grid(text)[0], 0)
        rows = list(csv.reader(io.StringIO((self.folder / "made" / "factors.csv").read_text())))
        self.assertEqual(rows[0], ["NODE_ID", "1-2", "1-2 reverse", "1-2 2", "1-2 2 reverse"])
        self.assertEqual(rows[2], ["2", "-0.33333", "0.33333", "-0.66667", "0.66667"])

    def test_names_that_need_quotes(self):
        text = 'BRANCH_ID,FROM_BUS,TO_BUS,REACTANCE,LIMIT_MW\n"a, b","North, old",South,0.1,5\n'
        self.assertEqual(self.grid(text)[0], 0)
        made = self.folder / "made"
        shutil.copy(IEEE14 / "book.csv", made / "book.csv")
        (made / "book.csv").write_text(
            'CRR_ID,OWNER,HEDGE_TYPE,TIME_OF_USE,SOURCE,SINK,MW\n1,A,OBL,ON,"North, old",South,1\n'
        )
        self.assertEqual(command("check", made)[0], 0)


if __name__ == "__main__":
    unittest.main()
