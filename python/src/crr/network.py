"""Grids from networks: shift factors (a PTDF matrix) of branches with reactances by the DC power flow, for
the network as it is and after outages, and any PTDF matrix as a grid's factors.

The DC approximation: a branch's flow is the difference of its ends' angles over its reactance. A MW put in at
a node and taken out at the slack flows over each branch by that branch's factor for the node. After an outage
the others carry its flow by their line outage distribution factors (LODF).

Rounding, once and at the end: the nearest hundred-thousandth, a half away from zero.
"""

from __future__ import annotations

from array import array
from dataclasses import dataclass, field
from decimal import Decimal
from fractions import Fraction
from typing import Dict, Iterator, List, NamedTuple, Optional, Sequence, Tuple, Union

from .decimals import nearest
from .elimination import Elimination
from .interface import SHIFT_FACTOR
from .topology import Topology

Number = Union[Fraction, Decimal, int, float]


class Line(NamedTuple):
    """A line or transformer between two nodes, by number: reactance per unit, times the tap ratio where it
    has one."""

    start: int
    end: int
    reactance: Fraction


def eliminated_network(lines: Sequence[Line], nodes: int, slack: int) -> Elimination:
    """The susceptances of the network without its slack, ready to be solved for angles."""
    rows: List[Dict[int, Fraction]] = [{} for _ in range(nodes)]
    for line in lines:
        for i, j in ((line.start, line.end), (line.end, line.start)):
            if i != slack and i != j:
                rows[i][i] = rows[i].get(i, Fraction(0)) + 1 / line.reactance
                if j != slack:
                    rows[i][j] = rows[i].get(j, Fraction(0)) - 1 / line.reactance
    return Elimination({node: row for node, row in enumerate(rows) if node != slack})


def line_factors(line: Line, eliminated: Elimination, nodes: int, slack: int) -> List[Fraction]:
    """A line's factors: since the matrix is symmetric, the angles for a MW from its start to its end."""
    ends = {node: Fraction(sign) for node, sign in ((line.start, 1), (line.end, -1)) if node != slack}
    angles = eliminated.solve(ends if line.start != line.end else {})
    return [angles.get(node, Fraction(0)) / line.reactance for node in range(nodes)]


def ptdf(lines: Sequence[Line], nodes: int, slack: int = 0) -> List[List[Fraction]]:
    """The PTDF matrix, a row for each line and a column for each node; the slack's column is 0. A reactance
    of 0, or a network in several parts, is a ValueError."""
    for number, line in enumerate(lines):
        if not line.reactance:
            raise ValueError(f"line {number} from node {line.start} to node {line.end} has a reactance of 0")
    eliminated = eliminated_network(lines, nodes, slack)
    return [line_factors(line, eliminated, nodes, slack) for line in lines]


def factor(value: Number) -> int:
    """A PTDF as a shift factor in hundred-thousandths, the nearest, a half away from zero. Beyond -1 to 1 it
    is a ValueError: choose another slack."""
    exact = Fraction(value) * 10**SHIFT_FACTOR.places
    number = nearest(exact.numerator, exact.denominator)
    if not SHIFT_FACTOR.low <= number <= SHIFT_FACTOR.high:
        advice = "subtract one node's column from all, which changes no flow between two nodes"
        raise ValueError(f"a factor of {float(value)}: {advice}")
    return number


def both_directions(matrix: Sequence[Sequence[Number]]) -> List[List[int]]:
    """The factors of a grid whose constraints are the matrix's lines, forward and reverse in turn: a row for
    each node. Rows of different lengths are a ValueError with the row's number."""
    forward = [[factor(value) for value in row] for row in matrix]
    nodes = len(forward[0]) if forward else 0
    for number, row in enumerate(forward):
        if len(row) != nodes:
            raise ValueError(f"row {number} of the matrix has {len(row)} factors where row 0 has {nodes}")
    return [[sign * row[node] for row in forward for sign in (1, -1)] for node in range(nodes)]


class Branch(NamedTuple):
    """A line or transformer by its buses' names: reactance per unit, times the tap ratio where it has one;
    its limit in thousandths of a MW, or none where it is not monitored, and the limit after an outage where
    that is another."""

    name: str
    start: str
    end: str
    reactance: Number
    limit: Optional[int] = None
    emergency: Optional[int] = None


class Contingency(NamedTuple):
    """Branches that go out together, by name."""

    name: str
    branches: Sequence[str]


class Problem(NamedTuple):
    """What is wrong with a row of a table: "branches", "contingencies", or "slack", which has none."""

    table: str
    row: int
    column: str
    text: str


class Unsolved(ValueError):
    """A network that gives no grid, with every problem found."""

    def __init__(self, problems: Sequence[Problem]) -> None:
        self.problems = list(problems)
        super().__init__("; ".join(f"{p.table} row {p.row}: {p.text}" for p in self.problems))


@dataclass
class Rounding:
    """What rounding changed: how many factors, of how many, and the largest change. `close` counts those so
    near a half that the error of floating point could decide; by fractions there are none."""

    rounded: int = 0
    factors: int = 0
    largest: float = 0.0
    close: int = 0


@dataclass
class NetworkGrid:
    """A grid of both directions of each monitored branch. `rows` has the forward factors, a row for each pair
    of constraints; the reverse ones are their negatives."""

    nodes: List[str]
    slack: str
    exact: bool
    constraints: List[str] = field(default_factory=list)
    limits: "array[int]" = field(default_factory=lambda: array("Q"))
    rows: List["array[int]"] = field(default_factory=list)
    rounding: Rounding = field(default_factory=Rounding)
    left_out: List[str] = field(default_factory=list)  # contingencies that split the network
    unshifted: int = 0  # lines after outages that were left out: less than the least shift

    def add(self, name: str, after: str, limit: int, row: "array[int]") -> None:
        """Adds a branch in both directions."""
        behind = f" after {after}" if after else ""
        self.constraints += [f"{name}{behind}", f"{name} reverse{behind}"]
        self.limits.extend((limit, limit))
        self.rows.append(row)

    def node_factors(self) -> Iterator[Tuple[int, ...]]:
        """The forward factors of each node, in the order of nodes."""
        return zip(*self.rows) if self.rows else iter([()] * len(self.nodes))

    @property
    def factors(self) -> "array[int]":
        """The factors of both directions as a grid's table has them."""
        cells = array("q")
        for row in self.node_factors():
            cells.extend(sign * value for value in row for sign in (1, -1))
        return cells


EXACT_NODES, EXACT_FACTORS = 150, 30_000  # the most that is worked out by fractions unless they are asked for


def grid_of(
    branches: Sequence[Branch],
    contingencies: Sequence[Contingency] = (),
    slack: Optional[str] = None,
    exact: Optional[bool] = None,
    skip_splits: bool = False,
    least_shift: float = 0.0,
) -> NetworkGrid:
    """The grid of a network: each branch with a limit in both directions, and the same after each
    contingency, those that are out apart. Raises `Unsolved`.

    The slack is the first branch's start where none is named. By fractions, or with numpy and scipy by
    floating point; `exact` asks for one of them, else the network's size decides. A contingency that splits
    the network is a problem, or left out with `skip_splits`. With `least_shift` a line stands after a
    contingency only where it takes at least this share of some outage's flow."""
    topology = _checked(Topology(branches, contingencies, slack), skip_splits)
    monitored = [number for number, branch in enumerate(branches) if branch.limit is not None]
    if exact is None:
        size = len(topology.nodes) * len(monitored) * (1 + len(contingencies))
        exact = len(topology.nodes) <= EXACT_NODES and size <= EXACT_FACTORS
    grid = NetworkGrid(topology.nodes, topology.slack, exact)
    grid.left_out = [contingencies[number].name for number in topology.splits]
    named = zip((contingency.name for contingency in contingencies), topology.outages)
    outages = [outage for number, outage in enumerate(named) if number not in topology.splits]
    if exact:
        from .network_exact import fill
    else:
        from .network_floats import fill
    fill(grid, branches, topology, monitored, outages, least_shift)
    return grid


def _checked(topology: Topology, skip_splits: bool) -> Topology:
    """Raises a network's problems, contingencies that split it among them unless they are left out."""
    problems = [Problem(*problem) for problem in topology.problems]
    if not skip_splits:
        column = "CONTINGENCY_ID"
        problems += [Problem("contingencies", row, column, text) for row, text in topology.splits.items()]
    if problems:
        raise Unsolved(problems)
    return topology
