"""Sparse symmetric systems solved exactly, by fractions: a network's susceptances have few entries in a row,
and stay so where the node of fewest neighbours is eliminated first."""

from __future__ import annotations

from fractions import Fraction
from typing import Dict, List, Tuple

Row = Dict[int, Fraction]


class Elimination:
    """A symmetric matrix, by rows of entries that are not 0, eliminated once. One that is singular is a
    ValueError."""

    def __init__(self, rows: Dict[int, Row]) -> None:
        left = {i: dict(row) for i, row in rows.items()}
        self._steps: List[Tuple[int, Fraction, Row]] = []
        while left:
            pivots = [i for i, row in left.items() if row.get(i)]
            if not pivots:
                raise ValueError("the network is not connected")
            self._eliminate(left, min(pivots, key=lambda i: len(left[i])))

    def _eliminate(self, left: Dict[int, Row], pivot: int) -> None:
        row = left.pop(pivot)
        diagonal = row.pop(pivot)
        shares = {j: value / diagonal for j, value in row.items()}
        for i, value in row.items():
            of_i = left[i]
            del of_i[pivot]
            for j, share in shares.items():
                entry = of_i.get(j, 0) - value * share
                if entry:
                    of_i[j] = entry
                else:
                    of_i.pop(j, None)
        self._steps.append((pivot, diagonal, shares))

    def solve(self, right: Row) -> Row:
        """The solution for a right-hand side, entries that are 0 left out."""
        values = dict(right)
        solution: Row = {}
        for pivot, _, shares in self._steps:
            value = values.get(pivot)
            if value:
                for j, share in shares.items():
                    values[j] = values.get(j, Fraction(0)) - share * value
        for pivot, diagonal, shares in reversed(self._steps):
            value = values.get(pivot, Fraction(0)) / diagonal
            value -= sum(share * solution[j] for j, share in shares.items() if j in solution)
            if value:
                solution[pivot] = value
        return solution
