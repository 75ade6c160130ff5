"""The parts of docs/PERFORMANCE.md that are made of a record, each between two comments that name it."""

import re
from textwrap import fill
from typing import Callable, Dict, List

from figures import PLAIN, PROVED, Record, Row, above, largest, micros, place, ranged, rates, ratios
from figures import size, targets

WIDTH = 100


def table(heads: List[str], rows: List[List[str]]) -> str:
    lines = [heads, ["---"] * len(heads), *rows]
    return "\n".join(f"| {' | '.join(cells)} |" for cells in lines)


def machine(record: Record) -> str:
    """The machine, the compilers and the run, as an item of a list."""
    own = record["processor"]
    runs = "1 run" if record["runs"] == 1 else f"{record['runs']} runs"
    load = [", ".join(f"{each:.2f}" for each in record[when]) for when in ("load_before", "load_after")]
    clean = "" if record["clean"] else ", with changes that are not committed"
    built = [f"{each['name']} `{each['sha256'][:16]}`" for each in record["targets"]]
    without = "" if "x86-64-v3" in targets(record) else " x86-64-v3 was not measured: the processor is none."
    words = (
        f"- **Machine**: {own['model name']}, {record['cores']} cores (family {own['cpu family']}, model "
        f"{own['model']}, stepping {own['stepping']}; cache {own['cache size']}), {record['kernel']}, "
        f"{record['date']}. Load average {load[0]} before, {load[1]} after, with the benchmark's own. "
        f"{runs} in {record['seconds']} s. Commit `{record['commit'][:12]}`{clean}; "
        f"{record['rustc']}; proved with {record['kit']}; archives by SHA-256: {', '.join(built)}.{without}"
    )
    return fill(words, WIDTH, subsequent_indent="  ", break_long_words=False, break_on_hyphens=False)


def sides(record: Record) -> List[str]:
    return [head for name in targets(record) for head in (f"{name}: proved µs", "plain µs", "ratio")]


def cells(row: Row, target: str) -> List[str]:
    times = [micros(row, target, side) for side in (PROVED, PLAIN)]
    return [*(f"{each:,.2f}" for each in times), ranged(ratios(row, target))]


def label(row: Row) -> str:
    return f"{row['entry']}" if row["by"] in ("", "calls") else f"{row['entry']}, {size(row)}"


def group(name: str, form: str, head: str) -> Callable[[Record], str]:
    """A table of a group's rows in one form."""

    def made(record: Record) -> str:
        rows = [row for row in record["rows"] if (row["group"], row["form"]) == (name, form)]
        names = targets(record)
        body = [[label(row), *(cell for target in names for cell in cells(row, target))] for row in rows]
        return table([head, *sides(record)], body)

    return made


def growth(record: Record) -> str:
    """A line for each entry and count, with the ratio at each."""
    lines: Dict[str, List[Row]] = {}
    for row in record["rows"]:
        if row["group"] == "growth":
            wide = "wide, " if row["form"] == "wide" else ""
            lines.setdefault(f"`{row['entry']}`, {wide}{row['by']}", []).append(row)
    body = [[head, *(ratios_at_each(rows, name) for name in targets(record))] for head, rows in lines.items()]
    return table(["entry, by", *targets(record)], body)


def ratios_at_each(rows: List[Row], target: str) -> str:
    return ", ".join(f"{row['at']:,}: {ranged(ratios(row, target))}" for row in rows)


def limits(record: Record) -> str:
    """Rates beside what the machine can do, and the proved code's share of it."""
    heads = ["entry", "in a call", "target", "proved G/s", "plain G/s", "limit G/s", "limit", "reached"]
    rows = [row for row in record["rows"] if row["group"] == "limit"]
    return table(heads, [limit_cells(record, row, name) for row in rows for name in targets(record)])


def limit_cells(record: Record, row: Row, target: str) -> List[str]:
    proved, plain, limit = rates(row, largest(record["rows"], row), target)
    told = [f"{each:.2f}" for each in (proved, plain, limit)]
    entry = f"`{row['entry']}`" + (", wide" if row["form"] == "wide" else "")
    way, share = row["times"][target]["way"], f"{100 * proved / limit:.0f} %"
    return [entry, f"{row['amount']:,} {row['unit']}", target, *told, way, share]


def told_ratios(row: Row, names: List[str]) -> List[str]:
    return [ranged(ratios(row, name)) for name in names]


def above_table(quick: bool) -> Callable[[Record], str]:
    """The rows above 1.0: of a microsecond or more a call, or quicker."""

    def made(record: Record) -> str:
        rows = above(record)[quick]
        if not rows:
            return "None."
        heads = [[f"`{row['entry']}`", place(row)] for row in rows]
        body = [[*head, *told_ratios(row, targets(record))] for head, row in zip(heads, rows)]
        return table(["entry", "at", *targets(record)], body)

    return made


PARTS: Dict[str, Callable[[Record], str]] = {
    "machine": machine,
    "narrow": group("largest", "narrow", "entry"),
    "wide": group("largest", "wide", "entry, wide"),
    "narrow at 8": group("8 constraints", "narrow", "entry"),
    "wide at 8": group("8 constraints", "wide", "entry, wide"),
    "calendar": group("calendar", "narrow", "entry, 1,000 calls"),
    "growth": growth,
    "limits": limits,
    "above": above_table(False),
    "above, quick": above_table(True),
}


def made_page(page: str, record: Record) -> str:
    """The page with every part made anew; each must be there once."""
    for name, part in PARTS.items():
        marks = re.compile(rf"(<!-- made: {name} -->\n).*?(<!-- end: {name} -->)", re.S)
        if len(marks.findall(page)) != 1:
            raise ValueError(f"the page must have one part between comments 'made: {name}' and 'end: {name}'")
        page = marks.sub(lambda found: f"{found[1]}{part(record)}\n{found[2]}", page)
    return page
