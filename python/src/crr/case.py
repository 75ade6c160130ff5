"""A case: a grid, a book and hours of prices, with the names that people use for what the library numbers."""

from __future__ import annotations

import re
from array import array
from dataclasses import dataclass, field, replace
from pathlib import Path
from typing import Dict, Iterable, List, NamedTuple, Optional, Sequence, Tuple, Union

from .blocks import Blocks
from .faults import Fault, raise_any
from .files import (
    Contract,
    Grid,
    read_book,
    read_book_form,
    read_prices,
    write_book,
    write_grid,
    write_prices,
)
from .hours import PriceFile, read_price_file
from .inputs import Input
from .interface import HOLDER, MAX_CONSTRAINTS, MAX_CONTRACTS, MAX_NARROW_NODES, MAX_NODES, NARROW, WIDE
from .native import Refused
from .sheet import unread

HOUR_FILE = re.compile(r"HE(0[1-9]|1[0-9]|2[0-5])\.bin")
Time = Tuple[str, int]  # the day and the hour ending


class PricedHour(NamedTuple):
    """An hour's prices. The day is YYYY-MM-DD and the hour is the hour ending, 1 to 25; a single hour may go
    without: empty and 0."""

    day: str
    hour: int
    period: int
    prices: "array[int]"


class Term(NamedTuple):
    """The first and the last day on which a contract is in force, YYYY-MM-DD; empty where it is open."""

    start: str = ""
    end: str = ""

    def covers(self, day: str) -> bool:
        """Whether the contract is in force on a day."""
        return self.start <= day and (not self.end or day <= self.end)

    @property
    def words(self) -> str:
        """2026-07-01 to 2026-07-31, or as far as it has ends."""
        if self.start and self.end:
            return f"{self.start} to {self.end}"
        return f"from {self.start}" if self.start else f"to {self.end}" if self.end else "always"


@dataclass
class Names:
    """Names by number, all different in each list. A holder that is not named is called by its number."""

    nodes: List[str] = field(default_factory=list)
    constraints: List[str] = field(default_factory=list)
    contracts: List[str] = field(default_factory=list)
    holders: Dict[int, str] = field(default_factory=dict)

    def holder(self, number: int) -> str:
        """A holder's name."""
        return self.holders.get(number, str(number))


@dataclass
class Case:
    """Tables of any size; `fits` says whether the library takes them whole. Its files are made when they are
    asked for. An hour of a bin folder is kept by its path: a year of them is read while it is settled."""

    names: Names
    limits: "array[int]"
    factors: "array[int]"
    book: List[Contract] = field(default_factory=list)
    hours: Sequence[Union[PricedHour, PriceFile]] = field(default_factory=list)
    grid_form: int = NARROW
    book_form: int = NARROW
    inputs: List[Input] = field(default_factory=list, compare=False)  # that were read, price files apart
    is_csv: bool = field(default=True, compare=False)  # what it was read from: CSV files, or bin files
    rounded: int = field(default=0, compare=False)  # how many prices were, when they were read
    rounded_factors: int = field(default=0, compare=False)  # likewise
    terms: List[Term] = field(default_factory=list)  # of each contract; none where all are always in force
    jobs: int = field(default=1, compare=False)  # processes that the slices of a large case are shared among
    blocks: Optional[Blocks] = field(default=None, compare=False)  # of a large grid, in place of its factors
    flows: Dict[int, List[int]] = field(default_factory=dict, compare=False)  # of a large case, tested

    @property
    def grid(self) -> Grid:
        """The grid's tables for the library."""
        nodes, constraints = len(self.names.nodes), len(self.names.constraints)
        return Grid(nodes, constraints, self.limits, self.factors, self.grid_form)

    @property
    def fits(self) -> bool:
        """Whether no count, and no holder's number, is above the library's."""
        names = self.names
        tables = len(names.nodes) <= MAX_NODES and len(names.constraints) <= MAX_CONSTRAINTS
        book = len(self.book) <= MAX_CONTRACTS and all(row.holder <= HOLDER.high for row in self.book)
        return tables and book and self.blocks is None

    def columns(self, constraints: Iterable[int]) -> Dict[int, "array[int]"]:
        """The factors of all nodes on some constraints, by number."""
        if self.blocks is not None:
            return self.blocks.columns(constraints)
        count = len(self.names.constraints)
        return {k: self.factors[k::count] for k in constraints}

    @property
    def times(self) -> List[Time]:
        """The day and the hour ending of each hour."""
        return [(hour.day, hour.hour) for hour in self.hours]

    def grid_file(self) -> bytes:
        """grid.bin, written by the library, which checks every figure once more."""
        check_lengths(self)
        return write_grid(self.grid)

    def book_file(self) -> bytes:
        """book.bin, likewise."""
        check_lengths(self)
        return write_book(len(self.names.nodes), self.book, self.book_form)

    def price_files(self) -> List[PriceFile]:
        """Each hour's price file: its path, or the bytes that the library writes."""
        check_lengths(self)
        return [hour if isinstance(hour, PriceFile) else _price_file(hour) for hour in self.hours]

    def read_hours(self) -> List[Tuple[PriceFile, PricedHour]]:
        """Each hour with the bytes of its file, which is read once, and their prices. A file that can't be
        read, or is refused, is a fault."""
        hours, faults = [], []
        for hour in self.price_files():
            name = hour.file if isinstance(hour.file, str) else hour_name(hour.day, hour.hour)
            try:
                data = read_price_file(hour.file)[0]
                prices = read_prices(len(self.names.constraints), data)
                hours.append((hour._replace(file=data), PricedHour(hour.day, hour.hour, *prices)))
            except Refused as refused:
                faults.append(Fault(short_name(name), 0, "", refused.meaning, refused.number))
            except OSError as error:
                faults.append(Fault(short_name(name), 0, "", unread(Path(name), error)))
        raise_any(faults)
        return hours

    def priced_hours(self) -> List[PricedHour]:
        """Each hour's prices; those kept by their paths are read now, as `read_hours` does."""
        known = [hour for hour in self.hours if isinstance(hour, PricedHour)]
        return known if len(known) == len(self.hours) else [hour for _, hour in self.read_hours()]

    def with_book(self, file: bytes, names: Names) -> Case:
        """The same case with the book of a file, and names for it. Contracts that it has more are in force as
        its first is."""
        nodes = len(names.nodes)
        book, form = read_book(nodes, file), read_book_form(nodes, file)
        terms = (self.terms + self.terms[:1] * (len(book) - len(self.terms)))[: len(book)]
        return replace(self, names=names, book=book, book_form=form, terms=terms)

    def cut(self, contracts: Sequence[int]) -> Case:
        """The same case with these contracts of its book alone, by number."""
        book = [self.book[number] for number in contracts]
        names = replace(self.names, contracts=[self.names.contracts[number] for number in contracts])
        terms = [self.terms[number] for number in contracts] if self.terms else []
        return replace(self, names=names, book=book, terms=terms if any(map(any, terms)) else [])


def _price_file(hour: PricedHour) -> PriceFile:
    return PriceFile(hour.day, hour.hour, write_prices(hour.period, hour.prices))


def hour_name(day: str, hour: int) -> str:
    """2026-07-01 HE08."""
    return f"{day} HE{hour:02}"


def short_name(path: str) -> str:
    """prices.bin, or prices/2026-07-01/HE08.bin."""
    parts = Path(path).parts
    return "/".join(parts[-3:]) if HOUR_FILE.fullmatch(parts[-1]) else parts[-1]


def check_lengths(case: Case) -> None:
    """A ValueError where a case's tables and its names are of different lengths: writing would drop what has
    no partner."""
    names = case.names
    constraints = len(names.constraints)
    lengths = [
        ("limits", len(case.limits), constraints),
        ("factors", len(case.factors), constraints * len(names.nodes)),
        ("contracts", len(case.book), len(names.contracts)),
    ]
    if case.terms:
        lengths.append(("terms", len(case.terms), len(case.book)))
    for hour in case.hours:
        if isinstance(hour, PricedHour) and len(hour.prices) != constraints:
            lengths.append((f"prices of {hour_name(hour.day, hour.hour)}", len(hour.prices), constraints))
    for what, count, expected in lengths:
        if count != expected:
            raise ValueError(f"case: {count:,} {what}, and names for {expected:,}")


# Behind a fault of a size, for commands that take no other.
TAKE_MORE = "; crr test, cuts, settle, report and pack take more"
FORMS = ("narrow", "wide")  # by number
NARROW_ENDS = 256  # node numbers that a narrow book has room for


def grid_form(nodes: int) -> int:
    """The form that a grid of so many nodes is written in where none is asked for: narrow where it can be."""
    return NARROW if nodes <= MAX_NARROW_NODES else WIDE


def book_form(book: Sequence[Contract]) -> int:
    """The form that a book is written in where none is asked for: narrow where it can be."""
    return NARROW if all(max(contract.source, contract.sink) < NARROW_ENDS for contract in book) else WIDE


def holder_numbers(owners: List[str], known: Dict[int, str]) -> Dict[str, int]:
    """The number of each owner, all different.

    An owner that is itself a number from 0 to 1,023 stands for that holder. Every other keeps the number that
    it had before (`known`, from names.csv) or gets, in the order in which they come, the lowest that no owner
    has; with too many owners it passes the highest."""
    plain = {owner: number for owner in owners for number in [plain_number(owner)] if number is not None}
    taken = set(plain.values())
    before = {name: number for number, name in known.items() if number not in taken}
    kept = {owner: before[owner] for owner in owners if owner in before and owner not in plain}
    numbers = {**plain, **kept}
    taken, free = set(numbers.values()), 0
    for owner in owners:
        if owner not in numbers:
            while free in taken:
                free += 1
            numbers[owner] = free
            taken.add(free)
    return numbers


def plain_number(name: str) -> Optional[int]:
    """The holder that a name stands for by itself: a number from 0 to 1,023 without leading zeros."""
    if not (name.isascii() and name.isdigit() and len(name) <= 4):
        return None
    number = int(name)
    return number if str(number) == name and number <= HOLDER.high else None
