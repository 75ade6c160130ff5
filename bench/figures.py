"""What a record's rows say: ratios and their range over the runs, what is above 1.0, rates beside limits."""

from statistics import median
from typing import Any, Dict, List, Tuple

Row = Dict[str, Any]
Record = Dict[str, Any]

PROVED, PLAIN = 0, 1
SIZES = ("largest", "8 constraints")


def micros(row: Row, target: str, side: int) -> float:
    """The median over the runs."""
    return float(median(run[side] for run in row["times"][target]))


def ratios(row: Row, target: str) -> List[float]:
    """Proved to plain in each run, as they are told."""
    return [round(run[PROVED] / run[PLAIN], 2) for run in row["times"][target]]


def ranged(values: List[float]) -> str:
    low, high = f"{min(values):.2f}", f"{max(values):.2f}"
    return low if low == high else f"{low} to {high}"


def size(row: Row) -> str:
    """What is told of a row's size beside its entry's name, such as `226 nodes`."""
    return f"{row['at']:,} {row['by']}" if row["by"] else ""


def place(row: Row) -> str:
    """Where a row stands, in words."""
    wide, group = row["form"] == "wide", row["group"] in SIZES
    return ", ".join(filter(None, ("wide" if wide else "", row["group"] if group else "", size(row))))


def call_micros(row: Row, target: str) -> float:
    """The longer of both sides for one call."""
    calls = int(row["at"]) if row["by"] == "calls" else 1
    return max(micros(row, target, PROVED), micros(row, target, PLAIN)) / calls


def above(record: Record) -> Tuple[List[Row], List[Row]]:
    """The rows of which a run is above 1.0, each once: of a microsecond or more a call, and quicker."""
    names = targets(record)
    slow: List[Row] = []
    quick: List[Row] = []
    seen: List[Any] = []
    for row in record["rows"]:
        if row["group"] == "limit" or row["times"] in seen:
            continue
        seen.append(row["times"])
        if max(max(ratios(row, name)) for name in names) > 1:
            (slow if max(call_micros(row, name) for name in names) >= 1 else quick).append(row)
    return slow, quick


def targets(record: Record) -> List[str]:
    return [target["name"] for target in record["targets"]]


def above_one(record: Record) -> List[str]:
    """The same in lines."""
    names = targets(record)
    lines: List[str] = []
    for what, rows in zip(("above 1.0", "above 1.0, of less than a microsecond"), above(record)):
        lines += [f"\n{what}"] if rows else []
        for row in rows:
            told = [f"{name} {ranged(ratios(row, name))}" for name in names]
            lines.append(f"{row['entry']}, {place(row)}: {', '.join(told)}")
    return lines


def largest(rows: List[Row], limit: Row) -> Row:
    """The row of which a limit is one."""
    same = ("largest", limit["form"], limit["entry"])
    return next(row for row in rows if (row["group"], row["form"], row["entry"]) == same)


def rates(limit: Row, row: Row, target: str) -> Tuple[float, float, float]:
    """Thousand millions a second: proved, plain, and what the machine can do."""
    thousands = limit["amount"] / 1000
    proved, plain = (thousands / micros(row, target, side) for side in (PROVED, PLAIN))
    return proved, plain, thousands / median(limit["times"][target]["micros"])


# ---- lines for the terminal


def heading(row: Row, names: List[str]) -> str:
    if row["group"] == "limit":
        sides = [f"{name}: proved, plain, limit".center(37) for name in names]
        return f"{row['unit'] + ', G/s':<38} |" + "|".join(sides)
    what = {"largest": "largest", "calendar": "1,000 calls", "growth": f"{row['entry']}, {row['by']}"}
    label = ", ".join([what.get(row["group"], row["group"]), *(["wide"] if row["form"] == "wide" else [])])
    return f"{label:<38} |" + "|".join(f"{name}: proved µs, plain µs, ratio".center(37) for name in names)


def line(row: Row, names: List[str], rows: List[Row]) -> str:
    """A row's figures in the latest run."""
    if row["group"] == "limit":
        label, sides = f"{row['entry']}, {row['form']}", [limit_side(row, name, rows) for name in names]
    else:
        told = ", ".join(filter(None, (row["entry"], size(row))))
        label = f"{row['at']:,}" if row["group"] == "growth" else told
        sides = [side(row["times"][name][-1]) for name in names]
    return f"{label:<38} |" + "|".join(f"{each:<37}" for each in sides)


def side(times: List[float]) -> str:
    proved, plain, _ = times
    return f" {proved:>10.3f} {plain:>10.3f} {proved / plain:>8.2f}"


def limit_side(row: Row, target: str, rows: List[Row]) -> str:
    proved, plain, limit = rates(row, largest(rows, row), target)
    return f" {proved:>6.2f} {plain:>6.2f} {limit:>6.2f}  {row['times'][target]['way']}"
