"""The command `crr flows`: how full each constraint is, by period and process."""

from __future__ import annotations

from functools import partial
from pathlib import Path
from typing import Callable, Dict, List, NamedTuple, Optional, Sequence, Tuple

from .case import Case
from .command import ANY_PERIODS, ANY_PROCESSES, FAILS, FOLDERS, JOBS, PASSES, Answer
from .command import command, counted, objects
from .decimals import decimal, nearest
from .faults import must_agree
from .feasibility import Verdict, excesses, find_flows, released_limit, released_percent, test_book
from .folders import each
from .interface import FLOW_PLACES, LIMIT
from .opening import opened
from .reading import READING_BOOK, Reading
from .terms import ON, by_span
from .to_csv import csv_text
from .words import Line, line_names, line_words

FLOWS = (
    *("TIME_OF_USE", "PROCESS", "CONSTRAINT_ID", "FLOW_MW", "LIMIT_MW", "RELEASED_MW"),
    *("LOADING_PERCENT", "EXCESS_MW"),
)


class Loading(NamedTuple):
    """A constraint's flow, what a process releases of its limit, and by how much the one exceeds the other,
    in 10^-8 MW."""

    flow: int
    released: int
    excess: int

    @property
    def percent(self) -> str:
        """The flow as a share of what is released, to two decimals; of nothing there is none."""
        return decimal(nearest(10_000 * self.flow, self.released), 2) if self.released else ""


def _checked(line: Line, verdict: Verdict, over: Sequence[int]) -> None:
    """Excesses are worked out here: the test must find the same constraints overloaded, and the same excess
    at the lowest."""
    overloaded = tuple(k for k, excess in enumerate(over) if excess > 0)
    must_agree(f"{line_words(line)}, overloaded constraints", overloaded, verdict.overloaded)
    must_agree(f"{line_words(line)}, excess", over[overloaded[0]] if overloaded else 0, verdict.excess)


def loadings(case: Case, lines: Sequence[Line]) -> Dict[Line, List[Loading]]:
    """How full each constraint is in each period and process."""
    grid, book, limits = case.grid, case.book_file(), case.limits
    flows = {period: find_flows(grid, book, period).flows for period, _ in lines}
    found: Dict[Line, List[Loading]] = {}
    for period, process in lines:
        percent = released_percent(process)
        over = excesses(limits, flows[period], percent)
        _checked((period, process), test_book(grid, book, process, period), over)
        released = [released_limit(limit, percent) for limit in limits]
        found[period, process] = list(map(Loading, flows[period], released, over))
    return found


def _row(case: Case, line: Line, k: int, loading: Loading) -> Tuple[str, ...]:
    flow, released, excess = (decimal(figure, FLOW_PLACES) for figure in loading)
    limit = decimal(case.limits[k], LIMIT.places)
    return (*line_names(line), case.names.constraints[k], flow, limit, released, loading.percent, excess)


def _words(case: Case, found: Dict[Line, List[Loading]]) -> str:
    """How many constraints are overloaded, and which is the fullest by its MW, a sentence for each line."""
    said = ""
    for line, of_line in found.items():
        over = sum(loading.excess > 0 for loading in of_line)
        said += f"{line_words(line)}: {over or 'none'} of {counted(len(of_line), 'constraint')} overloaded"
        if of_line:
            most = max(range(len(of_line)), key=lambda k: (of_line[k].excess, -k))
            excess, name = of_line[most].excess, case.names.constraints[most]
            size = f"{decimal(abs(excess), FLOW_PLACES)} MW"
            said += f", {name} the most, by {size}" if excess > 0 else f"; {name} has the least room, {size}"
        said += "\n"
    return said


@command(
    "flows",
    "the flow on each constraint, its limit, what the process releases of it, the loading and the excess",
    FOLDERS,
    ANY_PERIODS,
    ANY_PROCESSES,
    ON,
    *READING_BOOK,
    JOBS,
)
def flows(
    folders: List[Path],
    periods: Sequence[int],
    processes: Sequence[int],
    on: Optional[str],
    reading: Reading,
    jobs: int,
) -> Answer:
    """How full each constraint is; the status is the test's: 1 where one has an excess above 0."""
    judge = partial(_loaded, periods=periods, processes=processes)
    return each(partial(_flows, on=on, judge=judge, reading=reading), folders, jobs)


def _flows(folder: Path, on: Optional[str], judge: Callable[[Case], Answer], reading: Reading) -> Answer:
    return by_span(opened(folder, reading, prices=False, terms=True), on, judge, "flows")


def _loaded(case: Case, periods: Sequence[int], processes: Sequence[int]) -> Answer:
    found = loadings(case, [(period, process) for period in periods for process in processes])
    rows = [
        _row(case, line, k, loading) for line, of_line in found.items() for k, loading in enumerate(of_line)
    ]
    passed = not any(loading.excess > 0 for of_line in found.values() for loading in of_line)
    data: Dict[str, object] = {"passed": passed, "flows": objects(FLOWS, rows)}
    return Answer(PASSES if passed else FAILS, csv_text(FLOWS, rows), data, _words(case, found))
