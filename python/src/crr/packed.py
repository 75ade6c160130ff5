"""A case as bin files: grid.bin, book.bin, names.csv, and prices.bin for one hour or
prices/YYYY-MM-DD/HEhh.bin for several."""

from __future__ import annotations

import os
import re
from array import array
from dataclasses import replace
from pathlib import Path
from typing import Callable, Dict, List, Mapping, NamedTuple, Tuple, Union, cast

from .case import HOUR_FILE, Case, hour_name, short_name
from .clock import last_missing, no_such_hour
from .days import is_date
from .faults import Fault, Faults, raise_any
from .files import Contract, Grid, read_book, read_book_form, read_grid
from .hours import PriceFile
from .inputs import Input, note
from .interface import MAX_BOOK_BYTES, MAX_GRID_BYTES
from .names_csv import HEADING, name_rows, names_of, read_names, term_rows, terms_of
from .native import Refused
from .sheet import alike, unread
from .to_csv import csv_text
from .writing import write_files

_HOUR_NAME = re.compile(r"([0-9]{4}-[0-9]{2}-[0-9]{2}) HE(0[1-9]|1[0-9]|2[0-5])")
_DAY = re.compile(r"[0-9]{4}-[0-9]{2}-[0-9]{2}")


class Files(NamedTuple):
    """The files of a case as `settle_hours` takes them."""

    grid: bytes
    book: bytes
    hours: List[PriceFile]


def packed(case: Case) -> Files:
    """A case's files."""
    return Files(case.grid_file(), case.book_file(), case.price_files())


def read_packed(folder: Union[str, Path]) -> Files:
    """The files of a bin folder. A grid or book that is missing or refused is a fault; price files are read
    when they are needed."""
    return packed(read_bin(folder))


def only_hour_name(case: Case) -> str:
    """What names.csv says of the hour of prices.bin."""
    return hour_name(*case.times[0]) if len(case.hours) == 1 and case.hours[0].hour else ""


def _bin_name(hour: PriceFile, count: int) -> str:
    return "prices.bin" if count == 1 else f"prices/{hour.day}/HE{hour.hour:02}.bin"


def bin_files(case: Case) -> Dict[str, bytes]:
    """The bytes of each file of a folder, by name. A price file that the library refuses is a fault: it is
    not handed on."""
    files = {"grid.bin": case.grid_file(), "book.bin": case.book_file()}
    for hour, _ in case.read_hours():
        files[_bin_name(hour, len(case.hours))] = cast(bytes, hour.file)
    names = name_rows(case.names, only_hour_name(case), (case.grid_form, case.book_form))
    files["names.csv"] = csv_text(HEADING, names + term_rows(case.terms)).encode()
    return files


def write_bin(
    case: Case,
    folder: Path,
    force: bool = False,
    whole: Callable[[Path], None] = lambda staged: None,
    beside: Mapping[str, bytes] = {},
) -> List[str]:
    """Writes the files into a folder, as `write_files` does, with others beside them, and gives the names of
    all. Price files of other hours that stand there already are faults: they would be settled along with
    these."""
    files = {**beside, **bin_files(case)}
    stale = [name for name in price_file_names(folder) if name not in files]
    text = "is there and not one of the hours written: remove it first"
    raise_any([Fault(name, 0, "", f"{folder / name} {text}") for name in stale])
    write_files(folder, files, force, whole=whole)
    return list(files)


def write_packed(
    case: Case, folder: Union[str, Path], force: bool = False, beside: Mapping[str, bytes] = {}
) -> List[str]:
    """Packs a case into a folder, with other files beside its own. What was written is read back and compared
    before it is moved to its place."""

    def same(staged: Path) -> None:
        try:
            if unpacked(staged) != replace(case, hours=case.priced_hours()):
                raise OSError("it does not read back as the same case")
        except (Faults, Refused) as problem:
            raise OSError(f"it does not read back: {problem}") from None

    return write_bin(case, Path(folder), force, same, beside)


def unpacked(folder: Union[str, Path]) -> Case:
    """The case of a bin folder, with its price files read. Every file that is refused is a fault."""
    case = read_bin(folder)
    return replace(case, hours=case.priced_hours())


def price_file_names(folder: Path) -> List[str]:
    """The price files of a bin folder, in the order of their hours."""
    names = ["prices.bin"] if os.path.lexists(folder / "prices.bin") else []
    days = folder / "prices"
    for day in sorted(os.listdir(days)) if days.is_dir() else []:
        if _DAY.fullmatch(day) and (days / day).is_dir():
            hours = [name for name in sorted(os.listdir(days / day)) if HOUR_FILE.fullmatch(name)]
            names += [f"prices/{day}/{name}" for name in hours]
    return names


def _strays(folder: Path) -> List[Fault]:
    """What looks like hours but is none, such as Prices.bin, prices/2026-7-1 and HE8.bin: it would be left
    out in silence."""
    days, one = folder / "prices", folder / "prices.bin"
    if not os.path.lexists(one) and alike(one):
        return [Fault(one.name, 0, "", unread(one, FileNotFoundError()))]
    if days.is_symlink() and not days.exists():
        return [Fault("prices", 0, "", f"a symbolic link to {os.readlink(days)}, which is not there")]
    faults = []
    for day in sorted(os.listdir(days)) if days.is_dir() else []:
        if not (days / day).is_dir():
            names = [day]
        elif not is_date(day):
            faults.append(Fault(f"prices/{day}", 0, "", "a folder that is no day, YYYY-MM-DD"))
            continue
        else:
            hours = sorted(os.listdir(days / day))
            names = [f"{day}/{name}" for name in hours if not HOUR_FILE.fullmatch(name)]
        strays = [name for name in names if name.lower().endswith(".bin")]
        text = "no hour's file: YYYY-MM-DD/HE01.bin to HE25.bin"
        faults += [Fault(f"prices/{name}", 0, "", text) for name in strays]
    return faults


def _clock_faults(hours: List[PriceFile]) -> List[Fault]:
    """The hours that their days do not have, and the days that have all hours but the last."""
    days: Dict[str, List[PriceFile]] = {}
    for hour in hours:
        if is_date(hour.day):
            days.setdefault(hour.day, []).append(hour)
    faults = []
    for day, files in days.items():
        wrong = [(file, no_such_hour(day, file.hour)) for file in files]
        wrong.append((files[-1], last_missing(day, [file.hour for file in files])))
        faults += [Fault(short_name(str(file.file)), 0, "", text) for file, text in wrong if text]
    return faults


def _hours(folder: Path, names: Dict[int, str], faults: List[Fault]) -> List[PriceFile]:
    """A bin folder's hours, by path. The names are those of hours in names.csv."""
    files = price_file_names(folder)
    faults += _strays(folder)
    if files[:1] != ["prices.bin"]:
        hours = [PriceFile(file[7:17], int(file[20:22]), os.path.join(folder, file)) for file in files]
        faults += _clock_faults(hours)
        return hours
    if len(files) > 1:
        text = "prices.bin and prices/ are both there: which hours are meant?"
        faults.append(Fault("prices.bin", 0, "", text))
    match = _HOUR_NAME.fullmatch(names.get(0, ""))
    if names and not match:
        text = f"hour 0 is called {names.get(0, '')!r} and not YYYY-MM-DD HEhh"
        faults.append(Fault("names.csv", 0, "", text))
    day, hour = (match[1], int(match[2])) if match else ("", 0)
    if match and is_date(day) and no_such_hour(day, hour):
        faults.append(Fault("names.csv", 0, "", no_such_hour(day, hour)))
    return [PriceFile(day, hour, os.path.join(folder, "prices.bin"))]


def read_bin(folder: Union[str, Path]) -> Case:
    """The case of a bin folder. A grid or book that is missing or refused is a fault; price files are read
    when they are needed."""
    faults: List[Fault] = []
    inputs: List[Input] = []
    folder = Path(folder)
    grid_file = _read(folder / "grid.bin", MAX_GRID_BYTES, faults, inputs)
    book_file = _read(folder / "book.bin", MAX_BOOK_BYTES, faults, inputs)
    tables = read_names(folder, faults, inputs)
    hours = _hours(folder, tables["hour"], faults)
    raise_any(faults)
    grid, book, book_form = _tables(grid_file, book_file)
    names = names_of(tables, grid.nodes, grid.constraints, len(book), faults)
    terms = terms_of(tables, len(book), faults)
    raise_any(faults)
    limits, factors = cast("array[int]", grid.limits), cast("array[int]", grid.factors)
    forms = (grid.form, book_form)
    return Case(names, limits, factors, book, hours, *forms, inputs, is_csv=False, terms=terms)


def _read(path: Path, longest: int, faults: List[Fault], inputs: List[Input]) -> bytes:
    """A file's bytes, up to one past the longest that is allowed."""
    try:
        with open(path, "rb") as file:
            data = file.read(longest + 1)
        note(inputs, path.name, data)
        return data
    except OSError as error:
        faults.append(Fault(path.name, 0, "", unread(path, error)))
        return b""


def _tables(grid_file: bytes, book_file: bytes) -> Tuple[Grid, List[Contract], int]:
    """The grid, the book, and the book's form."""
    try:
        grid = read_grid(grid_file)
    except Refused as refused:
        raise Faults([Fault("grid.bin", 0, "", refused.meaning, refused.number)]) from refused
    try:
        return grid, read_book(grid.nodes, book_file), read_book_form(grid.nodes, book_file)
    except Refused as refused:
        raise Faults([Fault("book.bin", 0, "", refused.meaning, refused.number)]) from refused
