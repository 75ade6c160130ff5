"""The benchmark's record and the tables that are made of it: on a small record, and the page as it stands."""

import json
import re
import sys
import unittest
from pathlib import Path
from typing import Any, Dict, List

ROOT = Path(__file__).resolve().parents[2]
sys.path.insert(0, str(ROOT / "bench"))

import measuring  # noqa: E402
from figures import above, above_one, heading, line, ranged  # noqa: E402
from tables import PARTS, made_page  # noqa: E402

TARGETS = ("x86-64", "x86-64-v3")
CPUINFO = """processor\t: 0
cpu family\t: 25
model\t\t: 1
model name\t: A Processor
stepping\t: 2

model\t\t: 9
"""
# Not timed: a number of the interface, a sentence, and a choice among three figures.
UNTIMED = {"interface", "refusal_text", "released_percent"}
PAGE = "".join(f"before {name}\n<!-- made: {name} -->\nold\n<!-- end: {name} -->\n" for name in PARTS)


def row(group: str, entry: str, proved: List[float], **more: Any) -> Dict[str, Any]:
    """A row of three runs in which plain Rust takes 10 µs; on the second target half of all."""
    times = {name: [[each / (k + 1), 10 / (k + 1), 301] for each in proved] for k, name in enumerate(TARGETS)}
    return {"group": group, "form": "narrow", "entry": entry, "by": "", "at": 0, "times": times, **more}


def small_record() -> Dict[str, Any]:
    test = row("largest", "test_book", [7, 8, 9])
    limits = {name: {"way": "in vectors", "micros": [2, 3, 1]} for name in TARGETS}
    rows = [
        test,
        row("largest", "settle_hour", [9.9, 10.2, 10.1]),
        row("largest", "write_report", [10, 10.04, 9], form="wide", by="nodes", at=226),
        row("8 constraints", "settle_hour", [11, 12, 11.5], form="wide"),
        row("calendar", "weekday", [15, 15, 15], by="calls", at=1000),
        row("growth", "test_book", [10, 11, 12], by="contracts", at=125),
        {**test, "group": "growth", "by": "contracts", "at": 1000},
        {**row("limit", "test_book", []), "amount": 32000, "unit": "multiply-adds", "times": limits},
    ]
    return {
        "commit": "c" * 40,
        "clean": False,
        "date": "2026-01-02 03:04 UTC",
        "processor": measuring.processor(CPUINFO),
        "cores": 2,
        "kernel": "Linux 6",
        "rustc": "rustc 1",
        "kit": "a kit",
        "load_before": [0.1, 0.2, 0.3],
        "load_after": [1, 1, 1],
        "targets": [{"name": name, "sha256": "5" * 64} for name in TARGETS],
        "runs": 3,
        "seconds": 9,
        "only": "",
        "rows": rows,
    }


class Tables(unittest.TestCase):
    def part(self, name: str) -> List[str]:
        return PARTS[name](small_record()).splitlines()

    def test_times_and_the_range_of_ratios(self) -> None:
        made = self.part("narrow")
        self.assertEqual(made[0].count("|"), 8)
        self.assertEqual(made[2], "| test_book | 8.00 | 10.00 | 0.70 to 0.90 | 4.00 | 5.00 | 0.70 to 0.90 |")
        self.assertEqual(len(made), 4)
        self.assertIn("| write_report, 226 nodes | 10.00 |", self.part("wide")[2])
        self.assertIn("| weekday | 15.00 | 10.00 | 1.50 |", self.part("calendar")[2])
        self.assertEqual(ranged([0.804, 0.799]), "0.80")

    def test_growth_is_a_line_for_each_count(self) -> None:
        told = "125: 1.00 to 1.20, 1,000: 0.70 to 0.90"
        self.assertEqual(self.part("growth")[2:], [f"| `test_book`, contracts | {told} | {told} |"])

    def test_above_one(self) -> None:
        """A run above 1.0 as it is told is enough, and what takes nanoseconds stands apart."""
        slow, quick = above(small_record())
        self.assertEqual([row["entry"] for row in slow], ["settle_hour", "settle_hour", "test_book"])
        self.assertEqual([row["entry"] for row in quick], ["weekday"])
        told = self.part("above")
        self.assertIn("| `settle_hour` | wide, 8 constraints | 1.10 to 1.20 | 1.10 to 1.20 |", told)
        self.assertIn("| `test_book` | 125 contracts | 1.00 to 1.20 | 1.00 to 1.20 |", told)
        self.assertEqual(len(above_one(small_record())), 6)
        record = small_record()
        record["rows"] = record["rows"][:1]
        self.assertEqual(PARTS["above"](record), "None.")

    def test_limits(self) -> None:
        limit = "| `test_book` | 32,000 multiply-adds | x86-64 | 4.00 | 3.20 | 16.00 | in vectors | 25 % |"
        self.assertEqual(self.part("limits")[2], limit)

    def test_the_machine(self) -> None:
        told = " ".join(each.strip() for each in self.part("machine"))
        words = ("A Processor, 2 cores (family 25, model 1, stepping 2; cache unknown)", "rustc 1", "a kit")
        for each in (*words, "0.10, 0.20, 0.30 before", "`cccccccccccc`, with changes", "3 runs in 9 s"):
            self.assertIn(each, told)
        self.assertTrue(all(len(each) <= 100 for each in self.part("machine")))

    def test_a_page(self) -> None:
        made = made_page(PAGE, small_record())
        self.assertNotIn("old", made)
        self.assertEqual(made_page(made, small_record()), made)
        self.assertEqual(re.findall("^before .*$", made, re.M), [f"before {name}" for name in PARTS])
        for damaged in (PAGE.replace("end: growth", "end growth"), PAGE + PAGE, ""):
            self.assertRaises(ValueError, made_page, damaged, small_record())

    def test_one_target(self) -> None:
        record = small_record()
        self.assertNotIn("not measured", PARTS["machine"](record))
        record["targets"].pop()
        self.assertEqual(PARTS["narrow"](record).splitlines()[0].count("|"), 5)
        self.assertIn("not measured", " ".join(PARTS["machine"](record).split()))


class Rows(unittest.TestCase):
    def test_a_record_is_read_as_it_was_written(self) -> None:
        record = small_record()
        record["rows"][0]["number"] = 7
        read = json.loads(measuring.text(record))
        record["rows"][0].pop("number")
        self.assertEqual(read, record)

    def test_rows_that_share_figures(self) -> None:
        listed = [row("largest", "test_book", []), row("growth", "test_book", [], by="nodes", at=200)]
        listed = [{**each, "number": k, "same": "largest" if k else ""} for k, each in enumerate(listed)]
        first, second = measuring.linked(listed)
        self.assertIs(first["times"], second["times"])
        self.assertEqual(("number" in first, "number" in second, "same" in second), (True, False, False))

    def test_chosen_entries(self) -> None:
        rows = small_record()["rows"]
        self.assertEqual(measuring.chosen(rows, ""), rows)
        some = measuring.chosen(rows, "weekday, settle_hour")
        self.assertEqual([each["entry"] for each in some], ["settle_hour", "settle_hour", "weekday"])
        self.assertRaises(measuring.Failed, measuring.chosen, rows, "test_bok")

    def test_lines(self) -> None:
        rows = small_record()["rows"]
        for each in rows:
            self.assertEqual(line(each, list(TARGETS), rows).count("|"), 2)
            self.assertEqual(heading(each, list(TARGETS)).count("|"), 2)


class Standing(unittest.TestCase):
    def test_the_page_is_made_of_the_record(self) -> None:
        page = (ROOT / "docs" / "PERFORMANCE.md").read_text(encoding="utf-8")
        record = json.loads((ROOT / "bench" / "record.json").read_text(encoding="utf-8"))
        self.assertEqual(record["only"], "")
        self.assertEqual(made_page(page, record), page, "bench/table makes it anew")

    def test_every_function_is_timed(self) -> None:
        header = (ROOT / "include" / "crr.h").read_text(encoding="utf-8")
        functions = re.findall(r"^uint64_t crr_(\w+)", header, re.M)
        sources = "".join(file.read_text(encoding="utf-8") for file in (ROOT / "bench" / "src").glob("*.rs"))
        called = set(re.findall(r"\blibrary::(\w+)\(", sources))
        self.assertEqual(set(functions) - called, UNTIMED)


if __name__ == "__main__":
    unittest.main()
