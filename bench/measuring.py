"""The benchmark's programs, one for each target, and what a record says of the machine and the compilers."""

import json
import os
import platform
import re
import subprocess
from datetime import datetime, timezone
from pathlib import Path
from typing import Any, Dict, List, NamedTuple, Tuple

from figures import Record, Row

ROOT = Path(__file__).resolve().parents[1]
# What a record is written to and what is made of it.
MADE = ("bench/record.json", "docs/PERFORMANCE.md")


class Failed(Exception):
    """Nothing was measured, and why."""


class Target(NamedTuple):
    """As bench/build tells it."""

    name: str
    archive: str
    sha256: str
    program: str
    rustflags: str


def build() -> Tuple[str, List[Target]]:
    """The kit that proved the archives, and what was built."""
    done = subprocess.run([str(ROOT / "bench" / "build")], stdout=subprocess.PIPE, text=True)
    if done.returncode:
        raise Failed("not built")
    kit, *lines = done.stdout.splitlines()
    return kit, [Target(*each.split("\t")) for each in lines]


def linked(rows: List[Row]) -> List[Row]:
    """A row whose figures are those of its entry's row in another group shares them, and has no number."""
    for row in rows:
        if row["same"]:
            row.pop("number")
            source = next(own for own in rows if own["group"] == row["same"] and same_entry(own, row))
            row["times"] = source["times"]
        row.pop("same")
    return rows


def same_entry(one: Row, other: Row) -> bool:
    return (one["form"], one["entry"]) == (other["form"], other["entry"])


class Bench:
    """A running program: the number of a row on a line in, its figures on a line out."""

    def __init__(self, target: Target) -> None:
        self.target, self.program = target.name, target.program
        pipe = subprocess.PIPE
        self.process = subprocess.Popen([target.program], stdin=pipe, stdout=pipe, text=True, bufsize=1)

    def rows(self) -> List[Row]:
        listed = subprocess.run([self.program, "list"], stdout=subprocess.PIPE, text=True, check=True)
        rows = [json.loads(each) for each in listed.stdout.splitlines()]
        return linked([{**row, "number": number, "times": {}} for number, row in enumerate(rows)])

    def answer(self, number: int) -> Dict[str, Any]:
        asked, answers = self.process.stdin, self.process.stdout
        assert asked and answers
        try:
            print(number, file=asked, flush=True)
            return dict(json.loads(answers.readline()))
        except (OSError, ValueError):
            raise Failed(f"the program for {self.target} stopped") from None

    def measure(self, row: Row) -> None:
        """Adds one run's figures to a row: of a limit, or times of proved and plain, with their rounds."""
        if "number" not in row:
            return
        figures = self.answer(row["number"])
        if row["group"] == "limit":
            row["amount"], row["unit"] = figures["amount"], figures["unit"]
            times = row["times"].setdefault(self.target, {"way": figures["way"], "micros": []})
            times["micros"].append(brief(figures["micros"]))
        else:
            told = [brief(figures["proved"]), brief(figures["plain"]), figures["rounds"]]
            row["times"].setdefault(self.target, []).append(told)


def brief(micros: float) -> float:
    return float(f"{micros:.4g}")


def chosen(rows: List[Row], names: str) -> List[Row]:
    """All rows, or those of the entries that are named, separated by commas."""
    wanted = {name.strip() for name in names.split(",") if name.strip()}
    unknown = wanted - {row["entry"] for row in rows}
    if unknown:
        raise Failed(f"no entry {', '.join(sorted(unknown))}; there are {', '.join(entries(rows))}")
    return [row for row in rows if not wanted or row["entry"] in wanted]


def entries(rows: List[Row]) -> List[str]:
    return list(dict.fromkeys(row["entry"] for row in rows))


def told(*command: str) -> str:
    """What a command prints; nothing where it is not there."""
    try:
        done = subprocess.run(command, cwd=ROOT, stdout=subprocess.PIPE, stderr=subprocess.DEVNULL, text=True)
    except OSError:
        return ""
    return done.stdout.strip()


def processor(cpuinfo: str) -> Dict[str, str]:
    """The first processor, as /proc/cpuinfo tells it."""
    fields = {}
    for name in ("model name", "cpu family", "model", "stepping", "cache size"):
        found = re.search(rf"^{name}\s*: (.*)$", cpuinfo, re.M)
        fields[name] = found[1] if found else "unknown"
    return fields


def load() -> List[float]:
    return [round(each, 2) for each in os.getloadavg()]


def machine(kit: str, targets: List[Target]) -> Record:
    """What is known before anything is measured."""
    return {
        "commit": told("git", "rev-parse", "HEAD"),
        "clean": not told("git", "status", "--porcelain", "--", ".", *(f":!{made}" for made in MADE)),
        "date": datetime.now(timezone.utc).strftime("%Y-%m-%d %H:%M UTC"),
        "processor": processor(Path("/proc/cpuinfo").read_text(encoding="utf-8", errors="replace")),
        "cores": os.cpu_count(),
        "kernel": f"{platform.system()} {platform.release()}",
        "rustc": told("rustc", "--version"),
        "kit": kit,
        "load_before": load(),
        "targets": [
            {"name": each.name, "archive": each.archive, "sha256": each.sha256, "rustflags": each.rustflags}
            for each in targets
        ],
    }


def text(record: Record) -> str:
    """JSON, a row a line."""
    rows = [{key: value for key, value in row.items() if key != "number"} for row in record["rows"]]
    head = json.dumps({key: value for key, value in record.items() if key != "rows"}, indent=1)
    lines = ",\n".join(json.dumps(row) for row in rows)
    return f'{head[:-2]},\n "rows": [\n{lines}\n]}}\n'
