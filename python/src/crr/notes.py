"""What `crr check` tells beside faults: columns that were not used, files that were not read, and packed
files that are older than the CSV files beside them."""

from __future__ import annotations

import os
from pathlib import Path
from typing import Dict, List, Tuple

from .book_csv import BOOK, TERM
from .from_csv import CONSTRAINTS, PRICES
from .names_csv import HEADING
from .packed import price_file_names
from .sheet import Sheet, alike
from .words import WEEKDAYS

_CSV: Dict[str, Tuple[str, ...]] = {
    "constraints.csv": CONSTRAINTS,
    "book.csv": (*BOOK, *TERM),
    "prices.csv": PRICES,
    "names.csv": HEADING,
}


def unused_columns(folder: Path) -> Dict[str, List[str]]:
    """By file, the headings of the columns that nobody asked for. All of factors.csv are asked for."""
    unused = {
        name: Sheet(folder / name, need, [], name=name).unused
        for name, need in _CSV.items()
        if (folder / name).exists()
    }
    return {name: columns for name, columns in unused.items() if columns}


def weekday_words(folder: Path) -> Dict[str, List[str]]:
    """By file, the words for peak hours of weekdays, which are read as those of the on-peak rule."""
    found: Dict[str, List[str]] = {}
    for name in ("book.csv", "prices.csv"):
        sheet = Sheet(folder / name, ("TIME_OF_USE",), [], name=name)
        at = sheet.at.get("TIME_OF_USE")
        words = {row[at] for _, row in sheet.rows()} if at is not None else set()
        found[name] = sorted(word for word in words if word.upper() in WEEKDAYS)
    return {name: words for name, words in found.items() if words}


def unread_files(folder: Path, is_csv: bool) -> Dict[str, str]:
    """The files that look like ones that were read, and are not: by their names, what was read instead."""
    names = (*_CSV, "factors.csv") if is_csv else ("grid.bin", "book.bin", "prices.bin", "names.csv")
    return {other: name for name in names if (folder / name).exists() for other in alike(folder / name)}


def older_packed(folder: Path) -> Dict[str, str]:
    """The packed files that are older than the CSV file beside them that they are made of: by their names,
    it."""
    older: Dict[str, str] = {}
    hours = price_file_names(folder)
    made = {
        "grid.bin": ("constraints.csv", "factors.csv"),
        "book.bin": ("book.csv",),
        **{hour: ("prices.csv",) for hour in hours},
    }
    for packed, sources in made.items():
        for source in sources:
            if (
                (folder / source).exists()
                and (folder / packed).exists()
                and os.stat(folder / source).st_mtime_ns > os.stat(folder / packed).st_mtime_ns
            ):
                older.setdefault(packed if not packed.startswith("prices/") else "prices/", source)
    return older


def notes(folder: Path, is_csv: bool) -> List[str]:
    """All of it, a sentence each."""
    sentences = [
        f"{name}: {other} was read, not this one" for name, other in unread_files(folder, is_csv).items()
    ]
    if is_csv:
        sentences += [
            f"{name}: not used: {', '.join(columns)}" for name, columns in unused_columns(folder).items()
        ]
        sentences += [
            f"{name}: {', '.join(words)}: read as ON, hours ending 7 to 22, Monday to Saturday"
            for name, words in weekday_words(folder).items()
        ]
        sentences += [
            f"{packed}: older than {source}; crr pack renews it"
            for packed, source in older_packed(folder).items()
        ]
    return sentences
