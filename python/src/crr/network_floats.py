"""A network's factors with numpy and scipy: 10,000 buses in seconds. Their error, some 10^-12, is far below
the rounding; factors so near a half that it could decide are counted."""

from __future__ import annotations

from array import array
from typing import TYPE_CHECKING, Any, List, Sequence, Tuple

from .faults import Fault, Faults
from .interface import SHIFT_FACTOR
from .network import EXACT_FACTORS, EXACT_NODES, Branch, NetworkGrid, Problem, Unsolved
from .packages import installed

if TYPE_CHECKING:
    from .topology import Topology

_ONE = 10**SHIFT_FACTOR.places
_NOISE = 1e-6  # of a hundred-thousandth: what floating point may be off
_CHUNK = 256  # branches solved at once
_SOLVABLE = 1e-9  # the least part of an outage's flow that finds another way


def _packages() -> Tuple[Any, Any, Any]:
    """numpy, scipy.sparse and its solver."""
    found = [installed(name) for name in ("numpy", "scipy.sparse", "scipy.sparse.linalg")]
    if None in found:
        sizes = f"above {EXACT_NODES} buses or {EXACT_FACTORS:,} factors"
        text = f"{sizes} numpy and scipy are needed, which this Python lacks; install them, or --exact"
        raise Faults([Fault("", 0, "", text)])
    return found[0], found[1], found[2]


class _Solver:
    """The factors of branches, a row for each, by one factorisation of the susceptances."""

    def __init__(self, branches: Sequence[Branch], topology: Topology) -> None:
        self.np, sparse, linalg = _packages()
        np = self.np
        self.nodes, self.slack = len(topology.nodes), topology.numbers[topology.slack]
        self.start, self.end = (np.array(ends, dtype=np.int64) for ends in zip(*topology.ends))
        self.susceptance = 1.0 / np.array([float(branch.reactance) for branch in branches])
        places = np.concatenate((self.start, self.end, self.start, self.end))
        others = np.concatenate((self.start, self.end, self.end, self.start))
        values = np.concatenate((self.susceptance, self.susceptance, -self.susceptance, -self.susceptance))
        matrix = sparse.csc_matrix((values, (places, others)), shape=(self.nodes, self.nodes))
        kept = np.delete(np.arange(self.nodes), self.slack)
        try:
            options = {"SymmetricMode": True}
            reduced = matrix[kept][:, kept].tocsc()
            self._solver = linalg.splu(reduced, permc_spec="MMD_AT_PLUS_A", options=options)
        except RuntimeError:
            text = "negative reactances leave a network that has no solution"
            raise Unsolved([Problem("branches", 0, "REACTANCE", text)]) from None

    def rows(self, numbers: Sequence[int]) -> Any:
        """The factors of branches by their numbers."""
        np, count = self.np, len(numbers)
        out = np.zeros((count, self.nodes))
        for first in range(0, count, _CHUNK):
            some = np.array(numbers[first : first + _CHUNK], dtype=np.int64)
            right = np.zeros((self.nodes, len(some)))
            places = np.arange(len(some))
            right[self.start[some], places] += 1.0
            right[self.end[some], places] -= 1.0
            solved = self._solver.solve(np.delete(right, self.slack, axis=0))
            out[first : first + len(some)] = self.susceptance[some][:, None] * np.insert(
                solved, self.slack, 0.0, axis=0
            ).T
        return out


def _rounded(np: Any, grid: NetworkGrid, rows: Any, names: Sequence[str], at: Sequence[int]) -> Any:
    """Rows to the nearest hundred-thousandth, a half away from zero."""
    scaled = rows * _ONE
    whole = np.copysign(np.floor(np.abs(scaled) + 0.5), scaled)
    beyond = np.flatnonzero(np.abs(whole).max(axis=1, initial=0) > SHIFT_FACTOR.high)
    if len(beyond):
        text = f"{names[beyond[0]]}: a factor beyond -1 to 1, of a negative reactance; choose another slack"
        raise Unsolved([Problem("branches", at[beyond[0]], "REACTANCE", text)])
    changes = np.abs(whole - scaled)
    of_all = grid.rounding
    of_all.factors += changes.size
    of_all.rounded += int(np.count_nonzero(changes > _NOISE))
    of_all.close += int(np.count_nonzero(changes > 0.5 - _NOISE))
    of_all.largest = max(of_all.largest, float(changes.max(initial=0.0)) / _ONE)
    return whole.astype(np.int32)


def _add(
    np: Any,
    grid: NetworkGrid,
    branches: Sequence[Branch],
    numbers: Sequence[int],
    after: str,
    rows: Any,
) -> None:
    """Adds branches with their rows, as they are or after an outage."""
    behind = f" after {after}" if after else ""
    names = [f"{branches[number].name}{behind}" for number in numbers]
    for number, row in zip(numbers, _rounded(np, grid, rows, names, numbers)):
        branch = branches[number]
        limit = branch.emergency if after and branch.emergency is not None else branch.limit
        grid.add(branch.name, after, limit or 0, array("i", row.tobytes()))


def fill(
    grid: NetworkGrid,
    branches: Sequence[Branch],
    topology: Topology,
    monitored: Sequence[int],
    outages: Sequence[Tuple[str, List[int]]],
    least_shift: float,
) -> None:
    """Adds the monitored branches, as they are and after each outage."""
    solver = _Solver(branches, topology)
    np = solver.np
    base = solver.rows(monitored)
    _add(np, grid, branches, monitored, "", base)
    lost = sorted({number for _, out in outages for number in out})
    place = {number: at for at, number in enumerate(lost)}
    lost_rows = solver.rows(lost)
    numbers = np.array(monitored, dtype=np.int64)
    for name, out in outages:
        at = [place[number] for number in out]
        among = lost_rows[at][:, solver.start[out]] - lost_rows[at][:, solver.end[out]]
        left = np.eye(len(out)) - among
        if np.linalg.svd(left, compute_uv=False).min(initial=1.0) < _SOLVABLE:
            text = f"the outage of {name} leaves a network that has no solution"
            raise Unsolved([Problem("contingencies", 0, "CONTINGENCY_ID", text)])
        shifts = np.linalg.solve(left.T, (base[:, solver.start[out]] - base[:, solver.end[out]]).T).T
        kept = ~np.isin(numbers, out)
        moved = np.abs(shifts).max(axis=1, initial=0.0) >= least_shift
        grid.unshifted += int(np.count_nonzero(kept & ~moved))
        some = np.flatnonzero(kept & moved)
        after = base[some] + shifts[some] @ lost_rows[at]
        _add(np, grid, branches, [int(number) for number in numbers[some]], name, after)
