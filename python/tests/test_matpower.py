"""MATPOWER case files: `crr from-matpower` against numpy's PTDFs and against `crr grid`, and every fault with
its line."""

import csv
import io
import json
import re
import unittest
from collections import Counter

from power_flow import numpy, places, power_flow, table
from support import IEEE14, ROOT, FolderTest, command
from crr.matpower import read_case

CASES = ROOT / "tests" / "matpower"
SMALL = """function mpc = small
mpc.version = '2';  % with 100 % of what is needed ]
%{
mpc.branch = [ of no use ];
%}
mpc.bus = [ 1 3; 2, 1; 3 1; 4 4 ];
mpc.bus_name = {'A'; 'B % [not a comment]'; 'C'; 'D'};
mpc.branch = [
    1 2 0 0.1 0 50 0 60 0   0 1; 1 2 0 0.1 0 50 0 0 0 0 1  % a parallel one
    2 3 0 0.2 0 40 0 0  0.5 0 1;
    1 3 0 1e-1 0 0 0 0  0   30 1;
    3 4 0 0.1 0 10 0 0  0   0 1;
    1 3 0 0.1 0 10 0 0  0   0 0;
];
"""

# Magnitude and angle of each bus as MATPOWER prints the power flow of its case 30.
SOLVED30 = """
1.000 0.000   1.000 -0.415  0.983 -1.522  0.980 -1.795  0.982 -1.864  0.973 -2.267  0.967 -2.652
0.961 -2.726  0.981 -2.997  0.984 -3.375  0.981 -2.997  0.985 -1.537  1.000 1.476   0.977 -2.308
0.980 -2.312  0.977 -2.644  0.977 -3.392  0.968 -3.478  0.965 -3.958  0.969 -3.871  0.993 -3.488
1.000 -3.393  1.000 -1.589  0.989 -2.631  0.990 -1.690  0.972 -2.139  1.000 -0.828  0.975 -2.266
0.980 -2.128  0.968 -3.042
"""


def numpy_ptdf(path, slack):
    """B_f · B_bus^-1 of the DC power flow, a row for each branch, a column for each bus."""
    buses, branches = table(path, "bus")[:, 0], table(path, "branch")
    taps = numpy.where(branches[:, 8] == 0, 1, branches[:, 8])
    incidence = (branches[:, :1] == buses).astype(float) - (branches[:, 1:2] == buses)
    flows = incidence / (branches[:, 3] * taps)[:, None]
    others = buses != slack
    out = numpy.zeros_like(flows)
    out[:, others] = flows[:, others] @ numpy.linalg.inv((incidence.T @ flows)[numpy.ix_(others, others)])
    return out


def degrees(volts):
    return numpy.degrees(numpy.angle(volts))


@unittest.skipIf(numpy is None, "numpy is not installed")
class Figures(unittest.TestCase):
    """A case's figures, held to the solution of its AC power flow as it is published."""

    def setUp(self):
        self.tables = [table(CASES / "case30.m", name) for name in ("bus", "gen", "branch")]
        self.solved = numpy.array(SOLVED30.split(), dtype=float).reshape(30, 2)

    def off(self, volts):
        return max(abs(abs(volts) - self.solved[:, 0]).max(), abs(degrees(volts) - self.solved[:, 1]).max())

    def test_case30_is_solved_as_published(self):
        volts, injections = power_flow(*self.tables)
        self.assertLess(self.off(volts), 0.0005)
        self.assertEqual(round(injections.real.sum(), 3), 2.444)  # the losses
        self.assertEqual([round(load, 3) for load in self.tables[0][:, 2:4].sum(0)], [189.2, 107.2])

    def test_a_wrong_reactance_shows(self):
        """By one in its last digit; but of 9-11, behind which nothing is drawn."""
        buses, generators, branches = self.tables
        unseen = []
        for at, branch in enumerate(branches):
            other = branches.copy()
            other[at, 3] += 0.01
            if self.off(power_flow(buses, generators, other)[0]) < 0.0005:
                unseen.append(tuple(branch[:2]))
        self.assertEqual(unseen, [(9, 11)])

    def test_case118_is_solved_as_published(self):
        """Generation and losses as MATPOWER prints them of its case 118; the archive's own voltages are not
        quite the solution of its figures."""
        buses, generators, branches = (table(CASES / "case118.m", name) for name in ("bus", "gen", "branch"))
        volts, injections = power_flow(buses, generators, branches)
        start, end = (places(buses, branches[:, at]) for at in (0, 1))
        taps = numpy.where(branches[:, 8] == 0, 1, branches[:, 8])
        currents = (volts[start] / taps - volts[end]) / (branches[:, 2] + 1j * branches[:, 3])
        loads, lost = buses[:, 2:4].sum(0), (abs(currents) ** 2) @ branches[:, 2:4] * 100
        self.assertEqual([round(figure) for figure in loads], [4242, 1438])
        self.assertEqual([round(figure, 1) for figure in loads + self.sums(injections)], [4374.9, 795.7])
        self.assertEqual((round(lost[0], 3), round(lost[1], 2)), (132.863, 783.79))
        near = buses[:, 0] != 30
        self.assertLess(abs(abs(volts) - buses[:, 7])[near].max(), 0.0095)
        self.assertLess(abs(degrees(volts) - buses[:, 8]).max(), 0.31)

    def sums(self, injections):
        return numpy.array([injections.real.sum(), injections.imag.sum()])

    def test_case118_has_its_branches(self):
        branches = table(CASES / "case118.m", "branch")
        pairs = Counter(tuple(map(int, row[:2])) for row in branches)
        twice = {(42, 49), (49, 54), (49, 66), (56, 59), (77, 80), (89, 90), (89, 92)}
        self.assertEqual((len(branches), {pair for pair, count in pairs.items() if count > 1}), (186, twice))
        taps = [(int(row[0]), int(row[1]), row[8]) for row in branches if row[8]]
        by_tap = {0.985: {(8, 5), (64, 61)}, 0.96: {(26, 25), (30, 17), (63, 59)}}
        by_tap[0.935] = {(38, 37), (65, 66), (68, 69), (81, 80)}
        self.assertEqual({tap: {row[:2] for row in taps if row[2] == tap} for _, _, tap in taps}, by_tap)


class Cases(FolderTest):
    def made(self, case, *options, status=0):
        got = command("from-matpower", case, *options, "-o", self.folder / "grid", "--force")
        self.assertEqual(got[0], status, got[2])
        return got

    def factors(self):
        rows = list(csv.reader(io.StringIO((self.folder / "grid" / "factors.csv").read_text())))
        figures = [[float(cell) for cell in row[1:]] for row in rows[1:]]
        return rows[0][1:], [row[0] for row in rows[1:]], figures

    @unittest.skipIf(numpy is None, "numpy is not installed")
    def test_against_numpy(self):
        cases = [("case14", "1", (14, 40)), ("case14", "9", (14, 40)), ("case30", "22", (30, 82))]
        cases += [("case118", slack, (118, 372)) for slack in ("69", "1", "116")]
        for name, slack, counts in cases:
            case = CASES / f"{name}.m"
            self.made(case, "--slack", slack, "--limit", "100")
            constraints, nodes, factors = self.factors()
            self.assertEqual((len(nodes), len(constraints)), counts)
            expected = numpy_ptdf(case, float(slack)).T
            buses = [str(int(bus)) for bus in table(case, "bus")[:, 0]]
            found = numpy.array([factors[nodes.index(bus)] for bus in buses])
            self.assertLessEqual(abs(found[:, ::2] - expected).max(), 0.000005 + 1e-12)
            self.assertTrue((found[:, 1::2] == -found[:, ::2]).all())

    def test_case14_is_the_example(self):
        """The example's network is the same, with ratings of its own and buses by name."""
        self.made(CASES / "case14.m", "--limit", "100")
        example = (IEEE14 / "factors.csv").read_text().replace("Bus ", "")
        rows, expected = (self.folder / "grid" / "factors.csv").read_text().splitlines(), example.splitlines()
        self.assertEqual((rows[0], sorted(rows)), (expected[0], sorted(expected)))

    def test_case30_has_its_ratings(self):
        status, out, err = self.made(CASES / "case30.m")
        limits = dict(csv.reader(io.StringIO((self.folder / "grid" / "constraints.csv").read_text())))
        names = ("4-6", "4-6 reverse", "29-30")
        self.assertEqual([limits[name] for name in names], ["90.000", "90.000", "16.000"])
        self.assertNotIn("not monitored", err)
        self.assertTrue(out.endswith(": 30 nodes, 82 constraints\n"), out)

    def test_case118_has_no_ratings(self):
        """So none is monitored, and that is said; 9,900 MW, as older files of it have, is a limit."""
        _, _, err = self.made(CASES / "case118.m", status=2)
        self.assertIn("every branch has rating 0, which is no limit", err)
        path = self.folder / "case118.m"
        path.write_text((CASES / "case118.m").read_text().replace("0.0254\t0\t", "0.0254\t9900\t", 1))
        _, _, err = self.made(path)
        self.assertIn("185 branches of rating 0, which is none, not monitored", err)
        limits = (self.folder / "grid" / "constraints.csv").read_text().splitlines()
        self.assertEqual(limits, ["CONSTRAINT_ID,LIMIT_MW", "1-2,9900.000", "1-2 reverse,9900.000"])

    def test_crr_grid_makes_the_same(self):
        """Of the branches that are written, with an outage."""
        (self.folder / "out.csv").write_text("CONTINGENCY_ID,BRANCH_ID\nwest,1-3\n")
        for case in ("case14", "case30"):
            outages = (self.folder / "out.csv",) if case == "case30" else ()
            self.made(CASES / f"{case}.m", *outages, "--limit", "75")
            again = ("grid", self.folder / "grid" / "branches.csv", *outages, "--slack", "1", "-o")
            self.assertEqual(command(*again, self.folder / "again", "--force")[0], 0)
            for name in ("constraints.csv", "factors.csv"):
                made, same = (self.folder / place / name for place in ("grid", "again"))
                self.assertEqual(made.read_bytes(), same.read_bytes())

    @unittest.skipIf(numpy is None, "numpy is not installed")
    def test_recipe(self):
        """The page's recipe, with numpy's PTDFs of the case, gives what the command gives."""
        case = CASES / "case30.m"
        self.made(case, "--slack", "22")
        page = (ROOT / "docs" / "NETWORKS.md").read_text()
        made = {}
        exec(re.search(r"```python\n(.*?)```", page, re.S)[1], made)
        rows = table(case, "branch")
        branches = [f"{int(row[0])}-{int(row[1])}" for row in rows]
        buses = [str(int(bus)) for bus in table(case, "bus")[:, 0]]
        made["write_grid_files"](numpy_ptdf(case, 22), branches, buses, rows[:, 5], self.folder / "recipe")
        for name in ("constraints.csv", "factors.csv"):
            one, other = ((self.folder / place / name).read_text() for place in ("grid", "recipe"))
            self.assertEqual(sorted(one.splitlines()), sorted(other.splitlines()))

    def test_what_is_read(self):
        """Comments, parallel branches, taps, ratings, branches out of service and isolated buses."""
        path = self.folder / "small.m"
        path.write_text(SMALL)
        read = read_case(path)
        self.assertEqual((read.reference, read.out_of_service), ("1", 2))
        rows = [(b.name, float(b.reactance), b.limit, b.emergency) for b in read.network.branches]
        self.assertEqual(
            rows,
            [
                ("1-2", 0.1, 50_000, 60_000),
                ("1-2 2", 0.1, 50_000, None),
                ("2-3", 0.1, 40_000, None),
                ("1-3", 0.1, None, None),
            ],
        )
        self.assertEqual(read.network.branch_lines, [9, 9, 10, 11])
        _, _, err = self.made(path)
        self.assertIn("2 branches out of service left out\n1 branch of rating 0, which is none, not", err)
        data = json.loads(self.made(path, "--json")[1])
        self.assertEqual((data["out_of_service"], data["not_monitored"]), (2, 1))

    def test_faults(self):
        path = self.folder / "small.m"
        for old, new, said in (
            ("0.2 0 40", "x 0 40", "small.m:10:BR_X: 'x' is not a number"),
            ("    2 3 0", "    2 7 0", "small.m:10:T_BUS: no bus '7' in mpc.bus"),
            ("0 40 0", "0 40.0001 0", "small.m:10:RATE_A: 40.0001 has more than 3 decimals"),
            ("0 40 0", "0 1e6 0", "small.m:10:RATE_A: 1e6 is outside 0.000 to 100000.000 (refusal 6)"),
            ("0.5 0 1;", ";", "small.m:10:mpc.branch: 8 fields; at least 11 are needed"),
            ("2, 1;", "1, 1;", "small.m:6:BUS_I: bus 1 occurs twice"),
            ("mpc.branch = [\n", "branch = [\n", "small.m: no table mpc.branch = [ .. ]"),
            ("];\n", "];\nmpc.branch(:, 4) = 2;\n", "small.m:15:mpc.branch: worked out here"),
            ("0 1e-1 0", "0 0 0", "small.m:11:REACTANCE: "),
        ):
            at = SMALL.rindex(old) if old == "];\n" else SMALL.index(old)
            path.write_text(SMALL[:at] + new + SMALL[at + len(old) :])
            _, out, err = self.made(path, status=2)
            self.assertEqual((out, said in err), ("", True), err)
        _, _, err = self.made(CASES / "case14.m", status=2)
        self.assertIn("every branch has rating 0, which is no limit: --limit MW gives them one", err)
        _, _, err = self.made(CASES / "case14.m", "--limit", "0", status=2)
        self.assertIn("0 is no limit above 0 and up to 100000.000 MW", err)
        _, _, err = self.made(self.folder / "none.m", status=2)
        self.assertIn("none.m: No such file or directory", err)
        self.assertFalse((self.folder / "grid").exists())


if __name__ == "__main__":
    unittest.main()
