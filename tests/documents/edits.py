"""Holds the must-fail edits and docs/DEMANDS.md to each other.

An edit begins with lines that say which sentences it breaks:

    # 01, PART: "WORDS"
    # 02, paper N: "WORDS" and "OTHER WORDS"; 01: "WORDS": what it does
    # ours: WORDS

A row of DEMANDS.md stands under 01, under a request of 02, or under "Beyond the papers", and has a sentence
in its first cell. It names behind "Edits:", at its end, exactly the edits whose words are of its sentence.

Usage: edits.py [--write]   --write puts the names that are due into the rows.
"""

import re
import sys
from pathlib import Path
from typing import Dict, List, NamedTuple, Set, Tuple

ROOT = Path(__file__).resolve().parents[2]
DEMANDS = ROOT / "docs/DEMANDS.md"
PARTS = "units|rules|files|refusals|statement|values|testers|forms|traps"
PLACE = rf"(?:01(?:, (?:{PARTS}))?|02, paper \d+)"
WORDS = r'"[^"]+"(?: and "[^"]+")*'
HEAD = re.compile(rf"# ({PLACE}: {WORDS}(?:; {PLACE}: {WORDS})*)(?:: .*)?")
CLAUSE = re.compile(rf"({PLACE}): ({WORDS})")
NAMED = re.compile(r" Edits: (`\w+`(?:, `\w+`)*) \|$")

# Where a sentence stands ("01", "02, paper 6", "ours"), and its words.
Broken = Tuple[str, str]


class Row(NamedTuple):
    line: int
    place: str
    sentence: str
    named: List[str]


def broken_in(line: str) -> List[Broken]:
    """What one line says, and nothing where it is of no known shape."""
    if line.startswith("# ours: "):
        return [("ours", line[len("# ours: ") :])]
    found: List[Broken] = []
    head = HEAD.fullmatch(line)
    for place, words in CLAUSE.findall(head[1]) if head else []:
        under = "01" if place.startswith("01") else place
        found.extend((under, quoted) for quoted in re.findall(r'"([^"]+)"', words))
    return found


def all_edits(faults: List[str]) -> Dict[str, List[Broken]]:
    """Each edit's lines before its first 'file:'."""
    edits: Dict[str, List[Broken]] = {}
    for edit in sorted(ROOT.glob("crates/*/must-fail/*.edit")):
        name = edit.relative_to(ROOT)
        if edit.stem in edits:
            faults.append(f"{name}: another edit has this name")
        edits[edit.stem] = []
        for line in edit.read_text(encoding="utf-8").splitlines():
            if line.startswith("file: "):
                break
            found = broken_in(line)
            if not found:
                faults.append(f"{name}: this names no sentence: {line}")
            edits[edit.stem].extend(found)
        if not edits[edit.stem]:
            faults.append(f"{name}: it does not say which sentence it breaks")
    return edits


def all_rows(lines: List[str], faults: List[str]) -> List[Row]:
    rows: List[Row] = []
    place = ""
    for number, line in enumerate(lines, 1):
        if line.startswith("## "):
            place = "ours" if line == "## Beyond the papers" else "01"
        paper = re.match(r"### Paper (\d+)\. ", line)
        if paper:
            place = f"02, paper {paper[1]}"
        heads_a_table = number < len(lines) and lines[number].startswith("|---")
        if not line.startswith("| ") or heads_a_table:
            continue
        named = NAMED.search(line)
        if named is None and "Edits:" in line:
            faults.append(f"docs/DEMANDS.md:{number}: edits stand at the row's end, as in 'Edits: `a`, `b`'")
        labels = re.findall(r"`(\w+)`", named[1]) if named else []
        rows.append(Row(number, place, line[2:].split(" | ", 1)[0], labels))
    return rows


def of_one(words: str, sentence: str) -> bool:
    """Whether words are of a sentence: the one is in the other, whatever stop it ends in."""
    short, whole = words.rstrip("."), sentence.rstrip(".,;")
    return short in whole or whole in short


def due_in(row: Row, edits: Dict[str, List[Broken]]) -> Dict[str, List[Broken]]:
    due: Dict[str, List[Broken]] = {}
    for label, broken in edits.items():
        found = [one for one in broken if one[0] == row.place and of_one(one[1], row.sentence)]
        if found:
            due[label] = found
    return due


def compare(edits: Dict[str, List[Broken]], rows: List[Row], faults: List[str]) -> None:
    in_some_row: Set[Tuple[str, Broken]] = set()
    for row in rows:
        due = due_in(row, edits)
        in_some_row.update((label, one) for label, found in due.items() for one in found)
        at = f"docs/DEMANDS.md:{row.line}"
        for label in row.named:
            if label not in edits:
                faults.append(f"{at}: there is no edit {label}")
            elif label not in due:
                faults.append(f"{at}: {label} has no words of this sentence")
        for label in due:
            if label not in row.named:
                faults.append(f"{at}: {label} breaks this sentence and is not named")
    for label, broken in edits.items():
        for place, words in broken:
            if (label, (place, words)) not in in_some_row:
                faults.append(f"{label}: no row of docs/DEMANDS.md has, under {place}: {words}")


def written(edits: Dict[str, List[Broken]], rows: List[Row], lines: List[str]) -> List[str]:
    """The rows with the names that are due, those already there in the order that they have."""
    new = list(lines)
    for row in rows:
        due = due_in(row, edits)
        labels = [label for label in row.named if label in due]
        labels += [label for label in due if label not in labels]
        bare = re.sub(r" \|$", "", NAMED.sub(" |", lines[row.line - 1]))
        if labels:
            stop = "" if bare.endswith(".") else "."
            new[row.line - 1] = f"{bare}{stop} Edits: {', '.join(f'`{label}`' for label in labels)} |"
        elif row.named:
            new[row.line - 1] = f"{bare.rstrip('.')} |"
    return new


def main(words: List[str]) -> int:
    faults: List[str] = []
    edits = all_edits(faults)
    lines = DEMANDS.read_text(encoding="utf-8").splitlines()
    if words == ["--write"]:
        lines = written(edits, all_rows(lines, []), lines)
        DEMANDS.write_text("\n".join(lines) + "\n", encoding="utf-8")
    compare(edits, all_rows(lines, faults), faults)
    for fault in faults:
        print(f"edits: {fault}", file=sys.stderr)
    if not faults:
        print(f"edits: {len(edits)}, each named by the rows of the sentences that it breaks")
    return 1 if faults else 0


if __name__ == "__main__":
    sys.exit(main(sys.argv[1:]))
