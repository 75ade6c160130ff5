"""The commands `crr grid`, a network's branches to the grid files of a case, and `crr from-matpower`, which
takes them from a MATPOWER case file."""

from __future__ import annotations

import argparse
from fractions import Fraction
from pathlib import Path
from typing import Dict, Iterator, List, Optional, Sequence, Tuple, cast

from .branches_csv import Network, placed, read_contingencies, read_network
from .command import FORCE, PASSES, Answer, argument, command, counted, reads, writes
from .decimals import decimal
from .faults import Fault, raise_any
from .from_csv import CONSTRAINTS
from .interface import LIMIT, SHIFT_FACTOR
from .matpower import read_case, unlimited_limit
from .network import Branch, NetworkGrid, Unsolved, grid_of
from .to_csv import csv_text
from .writing import Content, write_files

_PIECE = 64  # nodes written at a time


class _Texts(Dict[int, str]):
    """The text of a factor in both directions, made when it is first needed."""

    def __missing__(self, factor: int) -> str:
        text = ",".join(decimal(sign * factor, SHIFT_FACTOR.places) for sign in (1, -1))
        self[factor] = text
        return text


def _factor_lines(grid: NetworkGrid) -> Iterator[bytes]:
    """factors.csv, piece by piece: of a large network it has hundreds of MB."""
    yield csv_text(("NODE_ID", *grid.constraints), ()).encode()
    texts, piece = _Texts(), []
    for node, factors in zip(grid.nodes, grid.node_factors()):
        cells = ",".join(map(texts.__getitem__, factors))
        piece.append(csv_text((node,), ()).rstrip("\n") + f",{cells}\n")
        if len(piece) == _PIECE:
            yield "".join(piece).encode()
            piece = []
    yield "".join(piece).encode()


def grid_files(grid: NetworkGrid) -> Dict[str, Content]:
    """constraints.csv and factors.csv of a network."""
    limits = [decimal(limit, LIMIT.places) for limit in grid.limits]
    return {
        "constraints.csv": csv_text(CONSTRAINTS, zip(grid.constraints, limits)).encode(),
        "factors.csv": lambda: _factor_lines(grid),
    }


def _check_names(grid: NetworkGrid, branches: Path) -> None:
    """Constraints of one name, such as `A reverse` and the reverse of A, are a fault."""
    seen: Dict[str, int] = {}
    for name in grid.constraints:
        seen[name] = seen.get(name, 0) + 1
    twice = [name for name, count in seen.items() if count > 1]
    text = "two constraints would be called {!r}: give the branch another BRANCH_ID"
    raise_any([Fault(str(branches), 0, "", text.format(name)) for name in twice])


def rounding_words(grid: NetworkGrid) -> str:
    """How the factors were made and rounded."""
    rounding = grid.rounding
    way = "exact fractions" if grid.exact else "floating point"
    counts = f"{rounding.factors:,} factors by {way}, {rounding.rounded:,} of them rounded to five decimals"
    said = f"slack {grid.slack}; {counts} (the nearest, a half away from zero)"
    said += f", by at most {rounding.largest:.10f}"
    if rounding.close:
        said += f"; {counted(rounding.close, 'factor')} so near a half that floating point may have decided"
    return said + "\n"


def _left_out_words(grid: NetworkGrid) -> str:
    said = ""
    if grid.left_out:
        names = ", ".join(grid.left_out[:5]) + (", .." if len(grid.left_out) > 5 else "")
        said += f"{len(grid.left_out):,} left out, whose outage splits the network: {names}\n"
    if grid.unshifted:
        said += f"{counted(grid.unshifted, 'line')} after outages left out, for less than the least shift\n"
    return said


def _share(text: str) -> float:
    """A share from 0 to 1."""
    try:
        value = float(text)
    except ValueError:
        value = -1.0
    if not 0 <= value <= 1:
        raise argparse.ArgumentTypeError(f"{text!r} is no share, from 0 to 1")
    return value


OUTAGES = reads("contingencies", "a CSV file CONTINGENCY_ID,BRANCH_ID, a row for each branch out", nargs="?")
SLACK = argument("--slack", metavar="BUS", help="the bus whose factors are 0; without it, the first one")
HOW = (
    argument("--exact", action="store_true", help="by exact fractions, whatever the size"),
    argument("--skip-splits", action="store_true", help="leave out contingencies that split the network"),
    argument(
        "--least-shift",
        type=_share,
        default=0.0,
        metavar="SHARE",
        help="after an outage, only lines that take at least this share of its flow, such as 0.05; else all",
    ),
)


@command(
    "grid",
    "constraints.csv and factors.csv of a network by the DC power flow, both directions, after outages too",
    reads("branches", "a CSV file FROM_BUS,TO_BUS,REACTANCE,LIMIT_MW, also BRANCH_ID,TAP_RATIO,EMERGENCY_MW"),
    OUTAGES,
    SLACK,
    *HOW,
    writes("a folder for constraints.csv and factors.csv", required=True),
    FORCE,
)
def grid(
    branches: Path,
    contingencies: Optional[Path],
    slack: Optional[str],
    exact: bool,
    skip_splits: bool,
    least_shift: float,
    out: Path,
    force: bool,
) -> Answer:
    """Writes the grid of a network."""
    network = read_network(branches, contingencies)
    made = solved(network, (branches, contingencies), (slack, exact or None, skip_splits, least_shift))
    write_files(out, grid_files(made), force)
    return grid_answer(made, out, "constraints.csv and factors.csv")


def solved(
    network: Network,
    paths: Tuple[Path, Optional[Path]],
    asked: Tuple[Optional[str], Optional[bool], bool, float],
) -> NetworkGrid:
    """A network's grid as it is asked for, or its problems as faults of the files at these paths."""
    try:
        made = grid_of(network.branches, network.contingencies, *asked)
    except Unsolved as unsolved:
        raise placed(unsolved, network, *paths) from None
    _check_names(made, paths[0])
    return made


def grid_answer(made: NetworkGrid, out: Path, files: str) -> Answer:
    """What is said of a grid that was written."""
    counts = f"{counted(len(made.nodes), 'node')}, {counted(len(made.constraints), 'constraint')}"
    text = f"{out}: {files} written: {counts}\n"
    data: Dict[str, object] = {
        "out": str(out),
        "nodes": len(made.nodes),
        "constraints": len(made.constraints),
        "slack": made.slack,
        "exact": made.exact,
        "rounding": cast(object, dict(vars(made.rounding))),
        "left_out": made.left_out,
        "unshifted": made.unshifted,
    }
    return Answer(PASSES, text, data, rounding_words(made) + _left_out_words(made))


MATPOWER_BRANCHES = ("BRANCH_ID", "FROM_BUS", "TO_BUS", "REACTANCE", "LIMIT_MW", "EMERGENCY_MW")


def _mw(text: str) -> int:
    try:
        return unlimited_limit(text)
    except ValueError as error:
        raise argparse.ArgumentTypeError(str(error)) from None


def _decimal(number: Fraction) -> str:
    """A finite decimal with all its digits: a product of decimals is one."""
    places = 0
    while (number * 10**places).denominator != 1:
        places += 1
    return decimal(int(number * 10**places), places)


def _branch_rows(branches: Sequence[Branch]) -> List[Tuple[str, ...]]:
    """The rows of branches.csv, as `crr grid` reads it; reactances have their taps in them."""

    def limit(figure: Optional[int]) -> str:
        return "" if figure is None else decimal(figure, LIMIT.places)

    return [
        (branch.name, branch.start, branch.end, _decimal(Fraction(branch.reactance)))
        + (limit(branch.limit), limit(branch.emergency))
        for branch in branches
    ]


def _branches(count: int) -> str:
    return f"{count:,} {'branch' if count == 1 else 'branches'}"


def _left_words(out_of_service: int, unlimited: int) -> str:
    said = ""
    if out_of_service:
        said += f"{_branches(out_of_service)} out of service left out\n"
    if unlimited:
        advice = "--limit MW gives them one"
        said += f"{_branches(unlimited)} of rating 0, which is none, not monitored: {advice}\n"
    return said


@command(
    "from-matpower",
    "constraints.csv, factors.csv and branches.csv of a MATPOWER case file's network, as crr grid makes them",
    reads("case", "a MATPOWER case file of version 2, CASE.m, with its tables written out"),
    OUTAGES,
    SLACK.with_help("the bus, by number, whose factors are 0; without it, the file's reference bus"),
    argument("--limit", type=_mw, metavar="MW", help="for branches whose rating is 0; else not monitored"),
    *HOW,
    writes("a folder for the three files", required=True),
    FORCE,
)
def from_matpower(
    case: Path,
    contingencies: Optional[Path],
    slack: Optional[str],
    limit: Optional[int],
    exact: bool,
    skip_splits: bool,
    least_shift: float,
    out: Path,
    force: bool,
) -> Answer:
    """Writes the grid of a case file's network."""
    read = read_case(case, limit)
    faults: List[Fault] = []
    network = read.network
    if contingencies:
        outages, lines = read_contingencies(contingencies, network.branches, faults)
        network = network._replace(contingencies=outages, contingency_lines=lines)
    if not any(branch.limit for branch in network.branches):
        text = "every branch has rating 0, which is no limit: --limit MW gives them one"
        faults.append(Fault(str(case), 0, "", text))
    raise_any(faults)
    asked = (slack or read.reference, exact or None, skip_splits, least_shift)
    made = solved(network, (case, contingencies), asked)
    branches = csv_text(MATPOWER_BRANCHES, _branch_rows(network.branches)).encode()
    write_files(out, {**grid_files(made), "branches.csv": branches}, force)
    answer = grid_answer(made, out, "constraints.csv, factors.csv and branches.csv")
    unlimited = sum(branch.limit is None for branch in network.branches)
    counts: Dict[str, object] = {"out_of_service": read.out_of_service, "not_monitored": unlimited}
    data = {**answer.data, **counts}
    return answer._replace(data=data, note=_left_words(read.out_of_service, unlimited) + answer.note)
