"""The command `crr migrate`."""

from __future__ import annotations

from dataclasses import replace
from pathlib import Path
from typing import Dict, List, Optional, Tuple

from .book_csv import BOOK
from .case import Case, Names
from .command import FOLDER, FORCE, PASSES, PERIOD, Answer, command, objects, reads, writes
from .decimals import decimal
from .faults import Fault, raise_any
from .files import Contract, read_book, write_book
from .interface import LOAD, WIDE
from .migration import migrate_load
from .migration_csv import Migration, read_migration
from .names_csv import read_names
from .opening import opened, write_like
from .reading import HANDING_ON, Reading
from .to_csv import book_row, csv_text
from .words import Period


def _holders(folder: Path, names: Names) -> Dict[int, str]:
    """The names that rows and loads may call holders by: the case's, and that of names.csv for one that the
    book calls by its number."""
    holders = dict(names.holders)
    for number, name in read_names(folder, [])["holder"].items():
        if number not in holders and name not in holders.values():
            holders[number] = name
    return holders


def _pairs(nodes: int, period: int, book: List[Contract], migration: Migration) -> List[Tuple[int, int]]:
    """The base contract's number and the gainer of each pair of new contracts, in their order. What follows
    from a contract is what migration adds to a book of it alone: pairs, the gainer's first."""
    pairs: List[Tuple[int, int]] = []
    for number, contract in enumerate(book):
        alone = migrate_load(nodes, period, write_book(nodes, [contract], WIDE), *migration[:-1])
        pairs += [(number, gained.holder) for gained in read_book(nodes, alone)[1::2]]
    return pairs


def _ids(names: Names, pairs: List[Tuple[int, int]]) -> List[str]:
    """A name for each contract. A new one has its base contract's, LMT for the gainer's or CNT for the
    loser's counter-flow, and the gainer's, with a number where an earlier month has that name."""
    ids, taken = list(names.contracts), set(names.contracts)
    for base, gainer in pairs:
        for mark in ("LMT", "CNT"):
            plain = crr_id = f"{names.contracts[base]} {mark} {names.holder(gainer)}"
            count = 1
            while crr_id in taken:
                count += 1
                crr_id = f"{plain} ({count})"
            ids.append(crr_id)
            taken.add(crr_id)
    return ids


def _net_rows(names: Names, migration: Migration) -> List[Tuple[str, ...]]:
    """A row for each LSE: its net losses to each, gains negative."""
    nets, lses = migration.nets, migration.lses
    return [
        (names.holder(loser), *(decimal(nets[loser - 1][gainer - 1], LOAD.places) for gainer in lses))
        for loser in lses
    ]


def _migrated(case: Case, period: Period, migration: Migration) -> Case:
    """The case with the contracts that follow from the migration behind those of the book."""
    nodes = len(case.names.nodes)
    book = migrate_load(nodes, period, case.book_file(), *migration[:-1])
    ids = _ids(case.names, _pairs(nodes, period, case.book, migration))
    return case.with_book(book, replace(case.names, contracts=ids))


@command(
    "migrate",
    "the transfer of contracts between load-serving entities whose customers moved, for one period",
    FOLDER,
    *HANDING_ON,
    reads("rows", "a CSV file CUSTOMER_CLASS,CUSTOMERS,MW_PER_CUSTOMER,OLD_LSE,NEW_LSE"),
    reads("loads", "a CSV file LSE,LOAD_MW"),
    PERIOD.with_help("whose rates and loads these are"),
    writes("a folder"),
    FORCE,
)
def migrate(
    folder: Path,
    period: Period,
    rows: Path,
    loads: Path,
    out: Optional[Path],
    reading: Reading,
    force: bool,
) -> Answer:
    """Migrates load in a book for one period: the nets, and the contracts that are added; with `out` the
    whole case is written there in the form that it had."""
    case = opened(folder, reading.handed_on)
    faults: List[Fault] = []
    migration = read_migration(rows, loads, _holders(folder, case.names), faults)
    raise_any(faults)
    grown = _migrated(case, period, migration)
    names, book = grown.names, grown.book
    if out:
        write_like(grown, out, force)
    added = [book_row(names, names.contracts[at], book[at]) for at in range(len(case.book), len(book))]
    lses, nets = [names.holder(number) for number in migration.lses], _net_rows(names, migration)
    text = csv_text(("LSE", *lses), nets) + "\n" + csv_text(BOOK, added)
    note = f"{f'{out}: ' if out else ''}{len(added):,} of {len(book):,} contracts are new\n"
    data: Dict[str, object] = {"nets": {row[0]: dict(zip(lses, row[1:])) for row in nets}}
    data.update(added=objects(BOOK, added), contracts=len(book), out=str(out) if out else None)
    return Answer(PASSES, text, data, note)
