"""The case of a folder in either form, as commands take it."""

from __future__ import annotations

import os
import signal
from concurrent.futures import Executor
from contextlib import contextmanager
from dataclasses import replace
from pathlib import Path
from typing import Dict, Iterable, Iterator, List, Mapping, Optional, Sequence, Tuple, Union

from .blocks import MEMORY
from .case import Case, PricedHour, holder_numbers, hour_name, plain_number, short_name
from .clock import contradiction
from .command import counted
from .dense import is_dense, read_dense
from .faults import Fault, raise_any
from .from_csv import load
from .hours import PriceFile, Progress, Settled, settle_hours
from .interface import HOLDER
from .packed import only_hour_name, price_file_names, read_bin, write_bin
from .reading import Reading
from .sheet import Sheet, alike
from .slices import settle_sliced
from .terms import differ, settle_in_force
from .to_csv import write_csv
from .writing import IsAnswer, no_answer, write_file


def is_csv(folder: Path) -> bool:
    """Whether a folder is taken as CSV files; the bin files that `pack` puts beside them are then left
    alone."""
    if not folder.is_dir():
        raise_any([Fault(str(folder), 0, "", _no_folder(folder))])
    if any(os.path.lexists(folder / name) for name in _CSV):
        return True
    if not os.path.lexists(folder / "grid.bin"):
        others = [other for name in (*_CSV, "grid.bin") for other in alike(folder / name)]
        hint = f"; {', '.join(others)}: found by their names alone, in small letters" if others else ""
        raise_any([Fault(str(folder), 0, "", f"neither CSV files ({', '.join(_CSV)}) nor grid.bin{hint}")])
    return False


_CSV = ("constraints.csv", "factors.csv", "book.csv")


def _no_folder(path: Path) -> str:
    if path.is_symlink() and not path.exists():
        return f"a symbolic link to {os.readlink(path)}, which is not there"
    return "a file, and a folder is needed" if path.exists() else "no such folder"


def opened(
    folder: Path,
    reading: Reading = Reading(),
    any_size: bool = False,
    prices: bool = True,
    terms: bool = False,
    memory: int = MEMORY,
    jobs: int = 1,
) -> Case:
    """The case of a folder in either form. One that is larger than the library's sizes is a fault, unless any
    size is asked for: its factors then take at most so much memory, and so many processes share its slices.
    One whose contracts are in force on different days is a fault unless terms are asked for; a period of
    prices.csv that the on-peak rule contradicts, unless it is taken as given."""
    case = _opened(folder, reading, any_size, prices, memory)
    if differ(case) and not terms:
        one = f"crr in-force {folder} DATE -o OUT writes the case of one"
        file = "book.csv" if case.is_csv else "names.csv"
        raise_any([Fault(file, 0, "", f"contracts in force on different days: {one}")])
    return replace(case, jobs=jobs)


def _opened(folder: Path, reading: Reading, any_size: bool, prices: bool, memory: int) -> Case:
    if is_dense(folder):
        if prices or not any_size:
            text = "larger than the library's sizes, and packed without prices: crr test and crr cuts take it"
            raise_any([Fault(str(folder), 0, "", text)])
        return read_dense(folder)
    if not is_csv(folder):
        return read_bin(folder)
    case, _ = load(folder, any_size, prices=prices, memory=memory, **reading._asdict())
    if case.fits:  # the forms that names.csv asks for may be too narrow: the library refuses them then
        case.grid_file()
        case.book_file()
    return case


def judged_hours(case: Case, reading: Reading) -> List[PricedHour]:
    """Each hour's prices; a period that the on-peak rule contradicts is a fault, unless it is taken as
    given."""
    hours = case.priced_hours()
    if not reading.as_given:
        check_periods(case, [hour.period for hour in hours])
    return hours


def check_periods(case: Case, periods: Iterable[int]) -> None:
    """A fault for each price file whose period is not the one of the on-peak rule. Those of prices.csv are
    looked at while it is read."""
    hours = [] if case.is_csv else [hour for hour in zip(case.hours, periods) if hour[0].day]
    wrong = [(hour, contradiction(hour.day, hour.hour, period)) for hour, period in hours]
    takes = "--time-of-use as-given takes it so"
    raise_any([Fault(_hour_file(hour), 0, "", f"{text}; {takes}") for hour, text in wrong if text])


def _hour_file(hour: Union[PricedHour, PriceFile]) -> str:
    if isinstance(hour, PriceFile) and isinstance(hour.file, str):
        return short_name(hour.file)
    return hour_name(hour.day, hour.hour)


def rounded_words(case: Case) -> str:
    """How many prices and factors were rounded, behind other words."""
    prices = f"; {counted(case.rounded, 'price')} rounded to cents" if case.rounded else ""
    factors = counted(case.rounded_factors, "factor")
    return prices + (f"; {factors} rounded to five decimals" if case.rounded_factors else "")


def rounded_data(case: Case) -> Dict[str, int]:
    """The same for a script."""
    return {"rounded_prices": case.rounded, "rounded_factors": case.rounded_factors}


def counts(case: Case) -> Dict[str, int]:
    """How many of what a case has."""
    return {
        "nodes": len(case.names.nodes),
        "constraints": len(case.names.constraints),
        "contracts": len(case.book),
        "holders": len({contract.holder for contract in case.book}),
        "hours": len(case.hours),
    }


def counts_words(case: Case) -> str:
    """The counts in words."""
    return ", ".join(counted(number, what[:-1]) for what, number in counts(case).items())


def settled(case: Case, jobs: int, progress: Progress) -> Settled:
    """All hours of a case."""
    with workers(jobs) as pool:
        return settle_in_force(case, lambda part, told: _settled(part, pool, told), progress)


@contextmanager
def workers(jobs: int) -> Iterator[Optional[Executor]]:
    """So many processes, or none where one is enough."""
    if jobs <= 1:
        yield None
        return
    from concurrent.futures import ProcessPoolExecutor  # a tenth of a second that other commands do without
    from concurrent.futures.process import BrokenProcessPool

    try:
        with ProcessPoolExecutor(jobs, initializer=_end_at_once) as pool:
            yield pool
    except BrokenProcessPool:
        text = "a worker process was ended from outside, for lack of memory perhaps: take fewer with -j"
        raise OSError(text) from None


def _end_at_once() -> None:
    """A worker ends at Ctrl-C without a word: its parent has the last one. Where Ctrl-C is ignored, it stays
    so."""
    if signal.getsignal(signal.SIGINT) is not signal.SIG_IGN:
        signal.signal(signal.SIGINT, signal.SIG_DFL)


def _settled(case: Case, executor: Optional[Executor], progress: Progress) -> Settled:
    """By slices where the library does not take the case whole."""
    if not case.fits:
        return settle_sliced(case, executor, progress=progress)
    files = (case.grid_file(), case.book_file(), case.price_files())
    return settle_hours(*files, executor, progress=progress)


def write_like(case: Case, out: Path, force: bool, beside: Mapping[str, bytes] = {}) -> None:
    """Writes a case to a folder as CSV or bin files, whichever it was read from, with others beside them."""
    if case.is_csv:
        write_csv(case, out, only_hour_name(case), force, beside)
    else:
        write_bin(case, out, force, beside=beside)


_BIN = ("grid.bin", "book.bin", "prices.bin")
_CASE_FILES = (*_BIN, "names.csv", "constraints.csv", "factors.csv", "book.csv", "prices.csv")


def _is_of_case(folder: Path, out: Path) -> bool:
    """Whether a file is one of the case's own, by its name or by a link."""
    if out.name in _CASE_FILES and out.resolve().parent == folder.resolve():
        return True
    files = [folder / name for name in (*_CASE_FILES, *price_file_names(folder))]
    return out.exists() and any(path.exists() and os.path.samefile(path, out) for path in files)


def write_beside(
    folder: Path, out: Path, data: bytes, force: bool, is_answer: IsAnswer = no_answer
) -> None:
    """Writes a file that was made from a case, over no file of that case, forced or not."""
    if _is_of_case(folder, out):
        raise_any([Fault(str(out), 0, "", "that is a file of the case itself: choose another")])
    write_file(out, data, force, is_answer)


def owner_numbers(case: Case, sheet: Sheet, rows: Sequence[Tuple[int, str]]) -> Dict[str, int]:
    """The number of each owner, of the book and of rows by line and owner. Those of the book stay as they
    are."""
    names = case.names
    for line, owner in rows:
        if plain_number(owner) in names.holders:
            holder = names.holder(int(owner))
            sheet.fault(line, "OWNER", f"{owner} stands for holder {owner}, and that one is {holder} here")
    owners = [names.holder(contract.holder) for contract in case.book] + [owner for _, owner in rows]
    numbers = holder_numbers(owners, names.holders)
    too_many = next((line for line, owner in rows if numbers[owner] > HOLDER.high), None)
    if too_many:
        sheet.fault(too_many, "OWNER", f"more than {HOLDER.high + 1} owners", 18)
    return numbers
