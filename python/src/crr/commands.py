"""The commands on a case as a whole: check, pack, unpack, test, cuts, settle."""

from __future__ import annotations

import os
from dataclasses import replace
from functools import partial
from pathlib import Path
from typing import Callable, Dict, List, Mapping, Optional, Sequence, Tuple, cast

from .bar import Bar
from .case import Case, Names
from .clock import COVERAGE, coverage, coverage_rows, coverage_words
from .command import (
    ANY_PERIODS,
    ANY_PROCESSES,
    FAILS,
    FOLDER,
    FOLDERS,
    FORCE,
    JOBS,
    MEMORY,
    PASSES,
    RENT_PROCESS,
    Answer,
    command,
    counted,
    objects,
    writes,
)
from .costs import hour_costs
from .decimals import decimal
from .dense import write_dense
from .exposures import exposure_figures, exposures, worst_words
from .faults import Fault, raise_any
from .feasibility import Cut, Verdict, excesses, find_cuts, released_percent, test_book, worst
from .folders import as_counted, as_judged, each
from .from_csv import load
from .interface import FLOW_PLACES, QUANTITY
from .large import flows_of, judged, large_cuts, large_words
from .notes import notes
from .opening import (
    check_periods,
    counts,
    counts_words,
    is_csv,
    judged_hours,
    opened,
    rounded_data,
    rounded_words,
    settled,
)
from .packed import only_hour_name, read_bin, write_packed
from .reading import READING, READING_BOOK, Reading
from .results import (
    HOLDERS,
    MONTHS_FILE,
    cost_data,
    costs_words,
    dollars,
    exact_dollars,
    holder_rows,
    hour_heading,
    hour_rows,
    is_result,
    result_files,
    settled_months,
)
from .terms import ON, by_span, idle_words
from .to_csv import csv_text, write_csv
from .words import Line, Period, Process, line_names, line_words
from .writing import write_files


@command("check", "read everything and list every fault", FOLDERS, *READING, JOBS)
def check(folders: List[Path], reading: Reading, jobs: int) -> Answer:
    """Reads everything; every fault is raised."""
    return each(partial(_check, reading=reading), folders, jobs, as_counted)


def _check(folder: Path, reading: Reading) -> Answer:
    case = opened(folder, reading, terms=True)
    periods = [hour.period for hour in judged_hours(case, reading)]  # price files too
    form = "CSV" if case.is_csv else "bin"
    text = f"{folder}: {counts_words(case)}; {form} files without a fault{rounded_words(case)}\n"
    beside, months = notes(folder, case.is_csv), coverage(case.times, periods)
    data: Dict[str, object] = {"folder": str(folder), "form": form, **counts(case)}
    data.update(coverage=objects(COVERAGE, coverage_rows(months)), **rounded_data(case), notes=beside)
    return Answer(PASSES, text + coverage_words(months) + "".join(f"{note}\n" for note in beside), data)


_BESIDE = "a folder; without it, the same folder"


@command(
    "pack",
    "CSV files to grid.bin, book.bin, names.csv and price files",
    FOLDER,
    *READING,
    writes(_BESIDE),
    FORCE,
    MEMORY,
)
def pack(folder: Path, out: Optional[Path], reading: Reading, force: bool, memory: int) -> Answer:
    """CSV files to bin files, read back and compared. Beside the CSV files, where no other folder is named,
    they replace those of before."""
    target = out or folder
    if not is_csv(folder):
        text = "packed already: grid.bin, and no CSV files; crr unpack makes CSV files of it"
        raise_any([Fault(str(folder), 0, "", text)])
    case, _ = load(folder, True, memory=memory, **reading._asdict())
    force = force or target.resolve() == folder.resolve()
    if not case.fits:
        return _packed_large(case, target, force)
    written = write_packed(case, target, force)
    hours = f"{counted(len(case.hours), 'hour')} of prices"
    text = f"grid.bin, book.bin, names.csv and {hours} written and read back{rounded_words(case)}"
    data: Dict[str, object] = {"out": str(target), "written": written, **rounded_data(case)}
    return Answer(PASSES, f"{target}: {text}\n", data)


def _packed_large(case: Case, target: Path, force: bool) -> Answer:
    """A case that the library does not take whole, in a form of its own; prices are left out, and terms are a
    fault."""
    if case.terms:
        text = "first or last days are not packed at this size: crr in-force writes the case of a day"
        raise_any([Fault("book.csv", 0, "", text)])
    written = write_dense(case, target, force)
    text = f"larger than the library's sizes: {', '.join(written)} written and read back, for crr test"
    left = f"; {counted(len(case.hours), 'hour')} of prices not packed: crr settle takes the CSV files"
    data: Dict[str, object] = {"out": str(target), "written": written, "rounded_prices": 0}
    return Answer(PASSES, f"{target}: {text}{left if case.hours else ''}\n", data)


@command("unpack", "bin files to CSV files", FOLDER, writes(_BESIDE), FORCE)
def unpack(folder: Path, out: Optional[Path], force: bool) -> Answer:
    """Bin files to CSV files, beside them where no other folder is named."""
    target = out or folder
    if is_csv(folder) and not os.path.lexists(folder / "grid.bin"):
        text = "CSV files already, and no grid.bin; crr pack makes bin files of them"
        raise_any([Fault(str(folder), 0, "", text)])
    case = read_bin(folder)
    written = write_csv(case, target, only_hour_name(case), force)
    text = f"{target}: {', '.join(sorted(written))} written\n"
    return Answer(PASSES, text, {"out": str(target), "written": written})


VERDICTS = (
    *("TIME_OF_USE", "PROCESS", "VERDICT", "OVERLOADED", "LOWEST_NUMBERED", "EXCESS_MW"),
    *("WORST", "WORST_EXCESS_MW", "CONSTRAINTS"),
)

def verdicts(
    case: Case, periods: Sequence[int] = tuple(Period), processes: Sequence[int] = tuple(Process)
) -> Dict[Line, Verdict]:
    """The test's answers by period and process."""
    if not case.fits:
        return judged(case, periods, processes)
    grid, book = case.grid, case.book_file()
    lines = [(period, process) for period in periods for process in processes]
    return {(period, process): test_book(grid, book, process, period) for period, process in lines}


def _verdict_rows(case: Case, answers: Dict[Line, Verdict]) -> List[Tuple[object, ...]]:
    """A row for each period and process, as VERDICTS heads them; the constraints as a list."""
    names = case.names.constraints
    flows = {period: flows_of(case, period) for period, _ in answers}
    rows: List[Tuple[object, ...]] = []
    for (period, process), verdict in answers.items():
        line = line_names((period, process))
        if verdict.passed:
            rows.append((*line, "pass", 0, "", "", "", "", []))
            continue
        over = excesses(case.limits, flows[period], released_percent(process))
        most = worst(verdict, over)
        lowest = (names[verdict.lowest], decimal(verdict.excess, FLOW_PLACES))
        overloaded = [names[k] for k in verdict.overloaded]
        largest = (names[most], decimal(over[most], FLOW_PLACES))
        rows.append((*line, "fail", verdict.count, *lowest, *largest, overloaded))
    return rows


AT_WORST = ("EXPOSURE_LEAST", "EXPOSURE_MOST")  # beside the verdicts, for scripts


@command(
    "test",
    "the simultaneous feasibility test",
    FOLDERS,
    ANY_PERIODS,
    ANY_PROCESSES,
    ON,
    *READING_BOOK,
    JOBS,
    MEMORY,
)
def test(
    folders: List[Path],
    periods: Sequence[int],
    processes: Sequence[int],
    on: Optional[str],
    reading: Reading,
    jobs: int,
    memory: int,
) -> Answer:
    """The simultaneous feasibility test; status 1 where the book fails in one of the periods and processes
    asked for."""
    judge = partial(_test, periods=periods, processes=processes)
    taken = _taken(reading, memory, jobs, folders)
    return each(partial(_by_span, taken, on=on, judge=judge), folders, jobs, as_judged)


Taken = Callable[[Path], Case]


def _taken(reading: Reading, memory: int, jobs: int, folders: Sequence[Path]) -> Taken:
    """How a folder is opened to be tested, at any size. Processes share folders or, of one folder, slices."""
    shared = jobs if len(folders) == 1 else 1
    memory = 0 if shared > 1 else memory  # processes read the factors from a file, each what it needs
    return partial(
        opened, reading=reading, any_size=True, prices=False, terms=True, memory=memory, jobs=shared
    )


def _by_span(taken: Taken, folder: Path, on: Optional[str], judge: Callable[[Case], Answer]) -> Answer:
    """The verdicts on a folder's contracts in force."""
    return by_span(taken(folder), on, judge, "verdicts")


def _test(case: Case, periods: Sequence[int], processes: Sequence[int]) -> Answer:
    answers = verdicts(case, periods, processes)
    rows = _verdict_rows(case, answers)
    status = PASSES if all(verdict.passed for verdict in answers.values()) else FAILS
    text = csv_text(VERDICTS, ((*row[:-1], "; ".join(cast(List[str], row[-1]))) for row in rows))
    found = exposures(case, answers) if case.fits else {}
    at_worst = [exposure_figures(found[line]) if line in found else ("", "") for line in answers]
    data = [
        dict(verdict, **cost) for verdict, cost in zip(objects(VERDICTS, rows), objects(AT_WORST, at_worst))
    ]
    note = worst_words(found) + large_words(case, status == PASSES)
    return Answer(status, text, {"passed": status == PASSES, "verdicts": data}, note)


CUTS = ("CRR_ID", "OWNER", "MW", "CUT_MW", "LEFT_MW")
CutRow = Tuple[str, str, str, str, str]


def cut_rows(case: Case, answers: Dict[Line, Verdict]) -> Dict[Line, List[CutRow]]:
    """For each period and process in which the book fails, the contracts each of which clears it by a cut of
    its own, the smallest cut first."""
    failing = {line: verdict for line, verdict in answers.items() if not verdict.passed}
    if not case.fits:
        listed = {line: large_cuts(case, line, verdict) for line, verdict in failing.items()}
    else:
        grid, book = case.grid, case.book_file()
        listed = {(period, process): find_cuts(grid, book, process, period) for period, process in failing}
    return {line: [_cut_row(case, cut) for cut in cuts] for line, cuts in listed.items()}


def _cut_row(case: Case, cut: Cut) -> CutRow:
    contract = case.book[cut.contract]
    figures = (contract.quantity, cut.cut, contract.quantity - cut.cut)
    quantity, cut_by, left = (decimal(number, QUANTITY.places) for number in figures)
    return case.names.contracts[cut.contract], case.names.holder(contract.holder), quantity, cut_by, left


@command(
    "cuts",
    "what clears a failing book: each contract whose quantity, lowered alone, lets it pass, and by how much",
    FOLDERS,
    ANY_PERIODS,
    ANY_PROCESSES,
    ON,
    *READING_BOOK,
    JOBS,
    MEMORY,
)
def cuts(
    folders: List[Path],
    periods: Sequence[int],
    processes: Sequence[int],
    on: Optional[str],
    reading: Reading,
    jobs: int,
    memory: int,
) -> Answer:
    """What clears a failing book; the status is the test's, since an empty list alone does not tell whether
    the book passes."""
    judge = partial(_cuts, periods=periods, processes=processes)
    return each(partial(_by_span, _taken(reading, memory, jobs, folders), on=on, judge=judge), folders, jobs)


def _cuts(case: Case, periods: Sequence[int], processes: Sequence[int]) -> Answer:
    answers = verdicts(case, periods, processes)
    listed = cut_rows(case, answers)
    status = FAILS if listed else PASSES
    table = ((*line_names(line), *row) for line, rows in listed.items() for row in rows)
    text = csv_text(("TIME_OF_USE", "PROCESS", *CUTS), table)
    verdict_objects = objects(VERDICTS, _verdict_rows(case, answers))
    data = [
        dict(verdict, cuts=objects(CUTS, listed.get(line, [])))
        for line, verdict in zip(answers, verdict_objects)
    ]
    note = _cuts_words(case.names, answers, listed)
    return Answer(status, text, {"passed": status == PASSES, "verdicts": data}, note)


def _cuts_words(names: Names, answers: Dict[Line, Verdict], listed: Dict[Line, List[CutRow]]) -> str:
    """What the list says of each period and process, in words."""
    if not listed:
        return "the book passes in all that was asked for: nothing to cut\n"
    said = []
    for line, rows in listed.items():
        verdict = answers[line]
        others = verdict.count - 1
        more = f" and at {others} more constraint{'' if others == 1 else 's'}" if others else ""
        which = f"any one of the {len(rows):,} contracts" if len(rows) > 1 else "the one contract"
        clears = f"cutting {which} listed clears it" if rows else "no cut of a single contract clears it"
        excess = f"{names.constraints[verdict.lowest]} by {decimal(verdict.excess, FLOW_PLACES)} MW"
        said.append(f"{line_words(line)}: the book fails at {excess}{more}; {clears}\n")
    passing = ", ".join(line_words(line) for line in answers if line not in listed)
    return "".join(said) + (f"{passing}: the book passes\n" if passing else "")


@command(
    "settle",
    "settle every hour: holder by month, hour by hour, contract by contract",
    FOLDER,
    *READING,
    RENT_PROCESS,
    writes("a folder for the result files"),
    FORCE,
    JOBS,
    MEMORY,
)
def settle(
    folder: Path,
    out: Optional[Path],
    jobs: int,
    reading: Reading,
    process: Optional[int],
    force: bool,
    memory: int,
) -> Answer:
    """Settles every hour; with `out` writes hours.csv, holders.csv and contracts.csv there, over those of
    before. With a process, each hour's rent and shortfall too, and months.csv."""
    memory = 0 if jobs > 1 else memory  # processes read the factors from a file, each what it needs
    case = opened(folder, reading, any_size=True, terms=True, memory=memory)
    if process is not None:  # hours are read once: what is settled is what the rent is of
        case = replace(case, hours=case.priced_hours())
    result = settled(case, jobs, Bar("settle"))
    if not reading.as_given:
        check_periods(case, [hour.period for hour in result.hours])
    costs = None if process is None else hour_costs(case, result.hours, process)
    text = _written(out, result_files(result, case.names, case.book, case.times, costs), force) if out else ""
    rows = holder_rows(result, case.names, case.book, case.times)
    months = settled_months(result, case.times)
    total, exact = dollars(result.sum), exact_dollars(result.exact)
    hours = counted(len(result.hours), "hour")
    note = f"{coverage_words(months)}{hours}: sum {total}, exact total {exact}"
    note += f"{rounded_words(case)}{idle_words(case)}\n"
    data: Dict[str, object] = {
        "hours": len(result.hours),
        "sum": total,
        "exact_total": exact,
        "by_holder": objects(HOLDERS, rows),
        "by_hour": objects(hour_heading(costs), hour_rows(result, case.times, costs)),
        "coverage": objects(COVERAGE, coverage_rows(months)),
        **rounded_data(case),
    }
    if costs:
        note += costs_words(costs, case.times)
        data.update(cost_data(costs, case.times, months))
    return Answer(PASSES, text or csv_text(HOLDERS, rows), data, note)


def _written(out: Path, files: Mapping[str, str], force: bool) -> str:
    """Writes the result files, and says so. months.csv of an earlier run would stand beside results that it
    is not of: a fault."""
    months = out / MONTHS_FILE
    if MONTHS_FILE not in files and months.is_file() and is_result(MONTHS_FILE, months.read_bytes()):
        text = f"{months} is there, of a settlement with --process: remove it, or choose another folder (-o)"
        raise_any([Fault(MONTHS_FILE, 0, "", text)])
    write_files(out, {name: text.encode() for name, text in files.items()}, force, is_result)
    *names, last = files
    return f"{out}: {', '.join(names)} and {last} written\n"
