"""A network's factors by fractions: nothing is lost before the one rounding at the end."""

from __future__ import annotations

from array import array
from fractions import Fraction
from typing import TYPE_CHECKING, Dict, List, Sequence, Tuple

from .decimals import nearest
from .elimination import Elimination
from .interface import SHIFT_FACTOR
from .network import Branch, Line, NetworkGrid, Problem, Unsolved, eliminated_network, line_factors

if TYPE_CHECKING:
    from .topology import Topology

_ONE = 10**SHIFT_FACTOR.places
Rows = Dict[int, List[Fraction]]  # the factors of a branch by its number


def _rounded(grid: NetworkGrid, branch: int, name: str, row: Sequence[Fraction]) -> "array[int]":
    """A row of factors to the nearest hundred-thousandth, a half away from zero."""
    whole = [nearest(value.numerator * _ONE, value.denominator) for value in row]
    if min(whole) < SHIFT_FACTOR.low or max(whole) > SHIFT_FACTOR.high:
        text = f"{name}: a factor beyond -1 to 1, of a negative reactance; choose another slack"
        raise Unsolved([Problem("branches", branch, "REACTANCE", text)])
    changes = [abs(number - value * _ONE) for number, value in zip(whole, row)]
    of_all = grid.rounding
    of_all.factors += len(row)
    of_all.rounded += sum(change > 0 for change in changes)
    of_all.largest = max(of_all.largest, float(max(changes) / _ONE))
    return array("i", whole)


def _shifts(rows: Rows, lines: Sequence[Line], monitored: int, out: Sequence[int]) -> List[Fraction]:
    """The line outage distribution factors of a line: the share of each outage's flow that it takes."""
    size = len(out)

    def between(row: List[Fraction], line: Line) -> Fraction:
        return row[line.start] - row[line.end]

    # s (I - F) = f, where F has the outages' factors among themselves: solved by Gauss and Jordan
    wide = [
        [Fraction(i == j) - between(rows[out[j]], lines[out[i]]) for j in range(size)]
        + [between(rows[monitored], lines[out[i]])]
        for i in range(size)
    ]
    for at in range(size):
        pivot = next((i for i in range(at, size) if wide[i][at]), None)
        if pivot is None:
            raise ValueError("the outages leave a network that has no solution")
        wide[at], wide[pivot] = wide[pivot], wide[at]
        wide[at] = [value / wide[at][at] for value in wide[at]]
        for i in range(size):
            if i != at and wide[i][at]:
                times = wide[i][at]
                wide[i] = [value - times * pivotal for value, pivotal in zip(wide[i], wide[at])]
    return [row[size] for row in wide]


def fill(
    grid: NetworkGrid,
    branches: Sequence[Branch],
    topology: Topology,
    monitored: Sequence[int],
    outages: Sequence[Tuple[str, List[int]]],
    least_shift: float,
) -> None:
    """Adds the monitored branches, as they are and after each outage."""
    nodes, slack = len(topology.nodes), topology.numbers[topology.slack]
    lines = [Line(*ends, Fraction(branch.reactance)) for ends, branch in zip(topology.ends, branches)]
    try:
        eliminated: Elimination = eliminated_network(lines, nodes, slack)
    except ValueError:
        text = "negative reactances leave a network that has no solution"
        raise Unsolved([Problem("branches", 0, "REACTANCE", text)]) from None
    needed = sorted({*monitored, *(number for _, out in outages for number in out)})
    rows = {number: line_factors(lines[number], eliminated, nodes, slack) for number in needed}
    for number in monitored:
        branch = branches[number]
        grid.add(branch.name, "", branch.limit or 0, _rounded(grid, number, branch.name, rows[number]))
    for name, out in outages:
        for number in monitored:
            if number not in out:
                _add_after(grid, branches[number], number, name, out, rows, lines, least_shift)


def _add_after(
    grid: NetworkGrid,
    branch: Branch,
    number: int,
    name: str,
    out: Sequence[int],
    rows: Rows,
    lines: Sequence[Line],
    least_shift: float,
) -> None:
    """Adds a branch after an outage, unless it takes less than the least share of its flow."""
    shifts = _shifts(rows, lines, number, out)
    if max(abs(shift) for shift in shifts) < least_shift:
        grid.unshifted += 1
        return
    row = rows[number]
    for shift, at in zip(shifts, out):
        if shift:
            row = [value + shift * lost for value, lost in zip(row, rows[at])]
    limit = branch.limit if branch.emergency is None else branch.emergency
    grid.add(branch.name, name, limit or 0, _rounded(grid, number, f"{branch.name} after {name}", row))
