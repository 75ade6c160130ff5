"""The page: well-formed, self-contained, the same for the same input; its figures are the library's, or added
up from them."""

import csv
import hashlib
import random
import re
import shutil
import unittest
from decimal import Decimal
from html.parser import HTMLParser
from itertools import product
from unittest import mock
from xml.etree import ElementTree

from support import CASE_L, IEEE14, SEED, FolderTest, command, contents, draw_book, draw_grid, flows
import crr
import crr.report
from crr.decimals import decimal
from crr.drawing import exact_megawatts, exact_money, grouped, megawatts, money, share
from crr.feasibility import excesses, worst
from crr.from_csv import load
from crr.library import library_path
from crr.report import covered

VOID = {"meta", "rect", "line", "br", "path"}


def pictures(text):
    """Each picture, with those that stand in it."""
    depth, start = 0, 0
    for tag in re.finditer(r"<svg|</svg>", text):
        start = tag.start() if not depth else start
        depth += 1 if tag[0] == "<svg" else -1
        if not depth:
            yield text[start : tag.end()]


def unfolded(text):
    """The page without what is folded."""
    return re.sub(r"<details>.*?</details>", "", text, flags=re.S)


class Tags(HTMLParser):
    """Fails on a tag that is not closed, or closed out of turn."""

    def __init__(self):
        super().__init__()
        self.open, self.seen = [], set()

    def handle_starttag(self, tag, attributes):
        self.seen.add(tag)
        if tag not in VOID:
            self.open.append(tag)

    def handle_startendtag(self, tag, attributes):
        self.seen.add(tag)

    def handle_endtag(self, tag):
        assert self.open and self.open.pop() == tag, f"</{tag}> at {self.getpos()}"


class Page(FolderTest):
    def page(self, source, *more):
        path = self.folder / "page.html"
        status, out, err = command("report", source, "-o", path, *more)
        self.assertEqual((status, out, err), (0, f"{path} written\n", ""))
        text = path.read_text(encoding="utf-8")
        tags = Tags()
        tags.feed(text)
        tags.close()
        self.assertEqual(tags.open, [])
        self.assertFalse(tags.seen & {"script", "link", "img", "iframe", "object"})
        self.assertIsNone(re.search(r"https?:|url\((?!#hatch)|@import", text))
        self.assertGreater(len(list(map(ElementTree.fromstring, pictures(text)))), 0)
        self.assertFalse("-0.0%" in text)
        return text

    def case(self, **changes):
        """The example with other limits, by constraint."""
        shutil.copytree(IEEE14, self.folder / "case", dirs_exist_ok=True)
        path = self.folder / "case" / "constraints.csv"
        path.write_text(
            re.sub(
                r"(.*),(\d+\.000)",
                lambda row: f"{row[1]},{changes.get(row[1], changes.get('others', row[2]))}",
                path.read_text(),
            )
        )
        return self.folder / "case"

    def says(self, text, *words):
        for some in words:
            self.assertTrue(some in text, some)  # assertIn would print the page

    def test_case_l(self):
        text = self.page(CASE_L)
        self.assertEqual((text.count("<li class=pass>"), text.count("<li class=fail>")), (6, 0))
        self.says(text, "6.351 of 100.000 MW", "K1: -2.00060000 MW of 50.000 MW, -4.0%, within", ">$8.9917<")
        self.says(
            text, "One hour of prices, without a date.", ">$2,275.00<"
        )  # 100 MW at $10.00, 50 MW at $25.50

    def test_ieee14(self):
        text = self.page(IEEE14)
        self.assertEqual((text.count("<li class=pass>"), text.count("<li class=fail>")), (4, 2))
        self.says(
            text,
            "<p>1 constraint overloaded: 7-8 reverse, by 2.25 MW.</p>",
            "<p>At worst an hour pays $11,250.00 more than its congestion rent.</p>",
        )
        self.says(
            text, "<p>2 constraints overloaded.</p><p>Lowest numbered and worst: 7-8 reverse, by 4 MW.</p>"
        )
        self.says(
            text,
            "62.2%</small> <small>over Tier LT by 1.21820875 MW</small>",
            "-$1,183.88 <small>charged</small>",
            ">2026-08<",
            "$11,034.2220770875",
        )
        self.says(text, "2 days covered: 2026-07-31 to 2026-08-01.")
        self.says(
            text,
            "<p>This cut clears it:</p>",
            "CRR-011 <small>Dogwood Trading</small></th><td class=figure>2.250</td>"
            "<td class=figure>22.750</td>",
        )
        self.says(text, "prefers-color-scheme: dark", "@media print", "@media (max-width")
        self.assertEqual(text.count("<code>"), 5)
        self.assertTrue(text == self.page(IEEE14))

    def test_cuts(self):
        shutil.copytree(IEEE14, self.folder / "case")
        limits, book = self.folder / "case" / "constraints.csv", self.folder / "case" / "book.csv"
        limits.write_text(limits.read_text().replace("2-4,65.000", "2-4,22.500"))
        book.write_text(book.read_text() + "CRR-017,Elm Irrigation,OPT,ON,Bus 2,Bus 4,2.000\n")
        text = self.page(self.folder / "case")
        self.says(
            text,
            "<p>Any one of these cuts clears it:</p>",
            "<summary>1 more</summary>",
            "<p>No cut of a single contract clears it.</p>",
        )

    def test_flows(self):
        text, case = self.page(IEEE14), load(IEEE14)[0]
        for period in (0, 1):
            for name, flow in zip(
                case.names.constraints, flows(case.book, case.factors, len(case.names.constraints), period)
            ):
                self.says(text, f"<title>{name}: {decimal(flow, 8)} MW of ")

    def test_names_are_escaped(self):
        shutil.copytree(IEEE14, self.folder / "case")
        for name in ("constraints.csv", "factors.csv", "book.csv", "prices.csv"):
            path = self.folder / "case" / name
            path.write_text(
                path.read_text().replace("7-9", "<b>&9").replace("Fir Storage", "<script>\"'&amp;")
            )
        text = self.page(self.folder / "case")
        self.says(text, "&lt;b&gt;&amp;9", "&lt;script&gt;&quot;&#x27;&amp;amp;")

    def test_edges(self):
        text = self.page(self.case(others="0.000"))
        self.says(
            text,
            "limit 0</small> <small>over annual by 25 MW</small> <small>over Tier LT by 25 MW</small>"
            " <small>over monthly by 25 MW</small>",
        )
        (self.folder / "case" / "prices.csv").unlink()
        text = self.page(self.folder / "case")
        self.assertFalse("Payments" in text)
        self.says(text, "No prices, so nothing is settled.")

    def test_no_constraints(self):
        (self.folder / "case").mkdir()
        heading = (IEEE14 / "book.csv").read_text().splitlines()[0]
        for name, text in (
            ("constraints", "CONSTRAINT_ID,LIMIT_MW"),
            ("factors", "NODE_ID\nA\nB"),
            ("book", heading),
        ):
            (self.folder / "case" / f"{name}.csv").write_text(f"{text}\n")
        self.says(self.page(self.folder / "case"), "The grid has no constraints.")

    def test_default_place(self):
        shutil.copytree(CASE_L, self.folder / "case")
        self.assertEqual(command("report", self.folder / "case")[0], 0)
        self.assertTrue((self.folder / "case" / "report.html").is_file())

    def test_hashes_are_of_what_was_read(self):
        """Files that change while the page is made, names.csv among them: hashes are of the bytes read."""
        command("pack", IEEE14, "-o", self.folder / "bin")
        command("unpack", self.folder / "bin", "-o", self.folder / "csv")
        flows_of = crr.report.flows_of
        for form in ("csv", "bin"):
            files = contents(self.folder / form)

            def changed(*arguments):
                for name in files:
                    (self.folder / form / name).write_bytes(b"something else")
                return flows_of(*arguments)

            with mock.patch("crr.report.flows_of", changed):
                text = self.page(self.folder / form)
            if form == "bin":
                files["prices"] = b"".join(
                    files.pop(name) for name in sorted(files) if name.startswith("prices/")
                )
            hashes = re.findall(r"<td class=figure>([0-9,]+) bytes</td><td><code>([0-9a-f]{64})</code>", text)
            expected = {(f"{len(data):,}", hashlib.sha256(data).hexdigest()) for data in files.values()}
            library = library_path().read_bytes()
            self.assertEqual(set(hashes[:-1]), expected)
            self.assertEqual(hashes[-1], (f"{len(library):,}", hashlib.sha256(library).hexdigest()))
            self.says(text, "<td>names.csv</td>", f"<td>libcrr.so, version {crr.__version__}</td>")

    def test_worst(self):
        text = self.page(self.case(**{"1-2": "10.000", "2-4": "0.001"}))
        self.says(text, "<p>Lowest numbered: 1-2, by 13.41678125 MW.</p><p>Worst: 2-4, by 22.45729 MW.</p>")

    def test_all_overloaded_are_shown(self):
        """More than fit: every one of them with its excess in each process, by a second sum of flows."""
        text = unfolded(self.page(self.case(others="0.010")))
        case = load(self.folder / "case")[0]
        names, shown = case.names.constraints, 0
        for period, flow in (
            (period, flow)
            for period in (0, 1)
            for flow in enumerate(flows(case.book, case.factors, len(names), period))
        ):
            k, total = flow
            over = {
                name: total - 10 * percent * 1000
                for name, percent in (("annual", 65), ("Tier LT", 60), ("monthly", 100))
            }
            words = "".join(
                f" <small>over {name} by {exact_megawatts(excess)} MW</small>"
                for name, excess in over.items()
                if excess > 0
            )
            if words:
                shown += 1
                row = rf"<th scope=row>{re.escape(names[k])}</th>(?:(?!</tr>).)*{re.escape(words)}</td></tr>"
                self.assertEqual(len(re.findall(row, text)), 1, (period, names[k], words))
        self.assertGreater(shown, 30)

    def test_bars_that_leave_the_scale(self):
        text = self.page(self.case(**{"2-4": "0.001"}))
        self.assertEqual(text.count('class="broken"'), 2)  # of both periods
        self.says(text, ">2,245,829.0%</text>", "A bar of more than 150% is broken off")
        text = self.page(self.case(**{"2-4": "15.000"}))
        self.assertEqual((text.count('class="broken"'), text.count("is broken off")), (0, 0))
        self.says(text, "<small>149.7%</small>")

    def test_others_unfold(self):
        shutil.copytree(IEEE14, self.folder / "case")
        path = self.folder / "case" / "book.csv"
        path.write_text(
            path.read_text() + "".join(f"N-{i},Owner {i},OBL,ON,Bus 1,Bus 4,0.{i:03}\n" for i in range(1, 31))
        )
        text = self.page(self.folder / "case")
        rows = [line.split(",") for line in command("settle", self.folder / "case")[1].splitlines()[1:]]
        sums = {}
        for owner, _, amount, _ in rows:
            sums[owner] = sums.get(owner, 0) + Decimal(amount)
        small = sorted(sums, key=lambda owner: abs(sums[owner]))[: len(sums) - 25]
        together = money(str(sum(sums[owner] for owner in small)))
        folded = re.search(
            rf"<details><summary>11 others, together {re.escape(together)}</summary>(.*?)</details>",
            text,
            re.S,
        )
        self.assertEqual(len(small), 11)
        for owner in sums:
            self.says(
                folded[1] if owner in small else unfolded(text), f">{owner}</th>", money(str(sums[owner]))
            )

    def test_rent(self):
        """By month, from the text of the files; the shortfall is exact payments less rent."""
        pages = {100: self.page(IEEE14), 60: self.page(IEEE14, "--process", "lt")}
        with open(IEEE14 / "constraints.csv", newline="") as file:
            limits = {row["CONSTRAINT_ID"]: Decimal(row["LIMIT_MW"]) for row in csv.DictReader(file)}
        rents = {}
        with open(IEEE14 / "prices.csv", newline="") as file:
            for row in csv.DictReader(file):
                for month in (row["OPR_DT"][:7], "all"):
                    rents[month] = rents.get(month, Decimal(0)) + (
                        limits[row["CONSTRAINT_ID"]] * Decimal(row["SHADOW_PRICE"])
                        if row["CONSTRAINT_ID"]
                        else 0
                    )
        exact = {
            "2026-07": Decimal("7356.697275025"),
            "2026-08": Decimal("3677.5248020625"),
            "all": Decimal("11034.2220770875"),
        }
        for (percent, text), month in product(pages.items(), rents):
            part = "<br><span class=faint>not whole</span>"
            row = re.search(rf"<th scope=row>{month}{part}</th>(.*?)</tr>", text)[1]
            hours = ("32 of 832", "16 of 656") if month == "all" else ("16 of 416", "8 of 328")
            self.says(row, *(f">{count}<" for count in hours))
            rent = rents[month] * percent / 100
            self.says(
                row,
                f">{exact_money(str(exact[month]))}<",
                f">{exact_money(f'{rent:f}')}<",
                f">{exact_money(f'{exact[month] - rent:f}')}<",
            )
        self.says(
            pages[100],
            "the limit that the monthly process releases, 100% of it",
            "release 65% (annual) and 60% (Tier LT)",
            "Hour by hour, the largest shortfall first; no hour falls short",
        )
        self.says(
            pages[60],
            "the limit that the Tier LT process releases, 60% of it",
            "release 65% (annual) and 100% (monthly)",
            "Hour by hour, the largest shortfall first; 2 hours fall short",
            '<th scope=row>2026-07-31 HE21</th><td class=figure data-name="payments, exact">',
        )
        self.assertLess(pages[60].index("2026-07-31 HE21"), pages[60].index("2026-07-31 HE01"))

    def test_at_worst(self):
        """A bar for each overloaded constraint, the most expensive first, and which are on the list."""
        text = self.page(IEEE14)
        listed = "at $5,000.00 per MWh on 7-8 reverse and 7-9, and 0 elsewhere"
        self.says(text, "<h3>On-peak, Tier LT</h3>", listed)
        bars = re.findall(r"<title>([^<]*: \$[^<]* alone, [^<]*)</title>", text)
        lt = ["7-8 reverse: $20,000.00 alone, on the list", "7-9: $6,091.04375 alone, on the list"]
        self.assertEqual(sorted(bars), sorted(["7-8 reverse: $11,250.00 alone, on the list", *lt]))
        self.assertFalse("What the book can cost" in self.page(CASE_L))
        text = self.page(self.case(others="0.010"))
        self.says(text, "At worst an hour pays between $", " more constraints</summary>", "alone, on the ")

    def test_what_is_whose(self):
        text = self.page(CASE_L)
        self.assertFalse("this page draws them" in text)
        self.says(
            text,
            "The proved library's own figures: whether the book passes",
            "Worked out here from these, in whole numbers: the excess at every other constraint",
        )

    def test_days_covered(self):
        day = [(f"2026-02-{number:02}", hour) for number in (1, 3) for hour in range(1, 25)]
        self.assertEqual(
            covered(day), "2 days covered: 2026-02-01 to 2026-02-03; 1 day between them without prices."
        )
        self.assertEqual(covered(day[:20]), "1 day covered: 2026-02-01; 1 day of fewer than 23 hours.")
        self.assertEqual(covered(day[:23]), "1 day covered: 2026-02-01.")

    def test_excesses(self):
        """Those worked out here, against what the library's test says of the same book."""
        rng = random.Random(SEED)
        failed = 0
        for nodes, constraints, contracts in ((2, 1, 1), (5, 7, 9), (30, 64, 200)) * 4:
            file, limits, _ = draw_grid(rng, nodes, constraints)
            grid, book = crr.read_grid(file), draw_book(rng, nodes, contracts)[0]
            for period in (0, 1):
                flow = crr.find_flows(grid, book, period).flows
                for process in (0, 1, 2):
                    over, verdict = excesses(limits, flow, crr.released_percent(process)), crr.test_book(
                        grid, book, process, period
                    )
                    self.assertEqual(
                        tuple(k for k, excess in enumerate(over) if excess > 0), verdict.overloaded
                    )
                    if not verdict.passed:
                        failed += 1
                        self.assertEqual(over[verdict.lowest], verdict.excess)
                        self.assertEqual(over[worst(verdict, over)], max(over))
        self.assertGreater(failed, 10)

    def test_figures_in_words(self):
        for flow, text in (
            (0, "0.000"),
            (49_999, "0.000"),
            (50_000, "0.001"),
            (-49_999, "0.000"),
            (-50_000, "-0.001"),
            (123_456_700_000_000, "1,234,567.000"),
        ):
            self.assertEqual(megawatts(flow), text)
        for flow, text in ((1, "0.00000001"), (-225_000_000, "-2.25"), (10**11, "1,000")):
            self.assertEqual(exact_megawatts(flow), text)
        for flow, limit, text in (
            (-4, 1, "0.0%"),
            (-49, 1, "0.0%"),
            (-50, 1, "-0.1%"),
            (50, 1, "0.1%"),
            (10**9, 1, "1,000,000.0%"),
        ):
            self.assertEqual(share(flow, limit), text)
        for amount, text in (("-1234567.50", "-1,234,567.50"), ("0.001", "0.001"), ("999.0", "999.0")):
            self.assertEqual(grouped(amount), text)
        for amount, text in (
            ("1250.0000000000", "$1,250.00"),
            ("-0.0225000000", "-$0.0225"),
            ("0.5000000000", "$0.50"),
        ):
            self.assertEqual(exact_money(amount), text)


if __name__ == "__main__":
    unittest.main()
