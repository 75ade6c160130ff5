"""Networks: the PTDF matrix obeys the laws of flows, and the IEEE 14-bus example is what its script makes."""

import csv
import subprocess
import sys
import unittest
from fractions import Fraction

from support import IEEE14, FolderTest
from crr.network import Line, both_directions, factor, ptdf


def ieee14():
    with open(IEEE14 / "branches.csv", newline="") as file:
        rows = list(csv.DictReader(file))
    return [
        Line(
            int(row["FROM_BUS"]) - 1,
            int(row["TO_BUS"]) - 1,
            Fraction(row["REACTANCE"]) * Fraction(row["TAP_RATIO"]),
        )
        for row in rows
    ]


class Matrix(FolderTest):
    def test_power_is_conserved(self):
        lines, slack = ieee14(), 0
        matrix = ptdf(lines, 14, slack)
        for at in range(14):  # a MW in at this node, out at the slack
            left = [Fraction(0)] * 14
            for line, row in zip(lines, matrix):
                left[line.start] += row[at]
                left[line.end] -= row[at]
            expected = [Fraction((node == at) - (node == slack)) for node in range(14)]
            self.assertEqual(left, expected)

    def test_no_loop_flow(self):
        lines = ieee14()
        matrix = ptdf(lines, 14)
        loop = {(0, 1): 1, (1, 4): 1, (0, 4): -1}  # 1-2-5-1
        for at in range(14):
            drops = [
                sign * row[at] * line.reactance
                for line, row in zip(lines, matrix)
                for ends, sign in loop.items()
                if (line.start, line.end) == ends
            ]
            self.assertEqual((len(drops), sum(drops)), (3, 0))

    def test_the_slack_changes_no_flow_between_two_nodes(self):
        one, other = ptdf(ieee14(), 14, 0), ptdf(ieee14(), 14, 8)
        for row, same in zip(one, other):
            self.assertEqual([value - row[3] for value in row], [value - same[3] for value in same])

    def test_two_parallel_lines(self):
        lines = [Line(0, 1, Fraction(1, 10)), Line(0, 1, Fraction(3, 10))]
        self.assertEqual(ptdf(lines, 2), [[0, Fraction(-3, 4)], [0, Fraction(-1, 4)]])

    def test_not_connected(self):
        with self.assertRaisesRegex(ValueError, "not connected"):
            ptdf([Line(0, 1, Fraction(1)), Line(2, 3, Fraction(1))], 4)

    def test_rounding(self):
        self.assertEqual([factor(Fraction(n, 200_000)) for n in (1, 3, -1, -3)], [1, 2, -1, -2])
        self.assertEqual([factor(value) for value in (0.25, 1, -1.0)], [25_000, 100_000, -100_000])
        with self.assertRaises(ValueError):
            factor(1.00001)

    def test_both_directions(self):
        self.assertEqual(
            both_directions([[0.5, 0], [0.25, -1]]),
            [[50_000, -50_000, 25_000, -25_000], [0, 0, -100_000, 100_000]],
        )


class Example(FolderTest):
    def test_the_script_makes_it(self):
        subprocess.run([sys.executable, str(IEEE14 / "make"), str(self.folder)], check=True)
        for name in ("constraints.csv", "factors.csv", "prices.csv"):
            self.assertEqual((self.folder / name).read_bytes(), (IEEE14 / name).read_bytes(), name)

    def test_known_factor(self):
        with open(IEEE14 / "factors.csv", newline="") as file:
            rows = {row["NODE_ID"]: row for row in csv.DictReader(file)}
        self.assertEqual(
            (rows["Bus 2"]["1-2"], rows["Bus 2"]["1-2 reverse"], rows["Bus 8"]["7-8 reverse"]),
            ("-0.83802", "0.83802", "1.00000"),
        )


if __name__ == "__main__":
    unittest.main()
