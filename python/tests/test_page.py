"""The command `crr page`: the case that it puts into the page is the case's own files and names, and it
writes as `crr report` does. What the page shows is read in browsers (test_page_chromium.py and others)."""

import base64
import json
import re
import shutil
import unittest
from datetime import date, timedelta

from support import CASE_L, IEEE14, ROOT, FolderTest, command, contents, draw_book, draw_grid, draw_prices
import crr
from crr.clock import hours_in
from crr.from_csv import load
from crr.library import page_path
from crr.packed import read_packed, write_packed
from crr.page_command import case_json, page_with
from page_support import needs_page

CASE = re.compile(rb'^<script type="application/json" id="case">(.*)</script>$', re.M)


def held(path):
    """The case that a page holds, and the page without it."""
    (found,) = CASE.finditer(path.read_bytes())
    around = found.string[: found.start(1)], found.string[found.end(1) :]
    return json.loads(found[1]), found[1], b"null".join(around)


def data(text):
    return base64.b64decode(text, validate=True)


@needs_page
class Page(FolderTest):
    def made(self, source, *more):
        path = self.folder / "page.html"
        self.assertEqual(command("page", source, "-o", path, *more), (0, f"{path} written\n", ""))
        return path

    def test_empty(self):
        path = self.folder / "deep" / "page.html"
        status, out, err = command("page", "-o", path, "--json")
        self.assertEqual((status, json.loads(out), err), (0, {"out": str(path)}, ""))
        self.assertEqual(path.read_bytes(), page_path().read_bytes())
        self.assertEqual(held(path)[:2], (None, b"null"))

    def test_a_case_of_csv_files(self):
        case, raw, around = held(self.made(IEEE14))
        files = read_packed(self.packed(IEEE14))
        self.assertEqual(around, page_path().read_bytes())
        self.assertEqual(sorted(case), ["book", "grid", "hours", "names", "title"])
        self.assertEqual(case["title"], "ieee14")
        self.assertEqual((data(case["grid"]), data(case["book"])), (files.grid, files.book))
        hours = [(hour.day, hour.hour, open(hour.file, "rb").read()) for hour in files.hours]
        self.assertEqual([(one["day"], one["hour"], data(one["file"])) for one in case["hours"]], hours)
        names = load(IEEE14)[0].names
        self.assertEqual(case["names"]["nodes"], names.nodes)
        self.assertEqual(case["names"]["constraints"], names.constraints)
        self.assertEqual(case["names"]["contracts"], [{"id": name} for name in names.contracts])
        self.assertEqual(
            case["names"]["owners"], {str(number): name for number, name in names.holders.items()}
        )
        self.assertEqual(raw, json.dumps(case, sort_keys=True, separators=(",", ":")).encode())

    def packed(self, source):
        write_packed(load(source)[0], self.folder / "packed")
        return self.folder / "packed"

    def test_packed_is_the_same(self):
        text = self.made(IEEE14).read_bytes()
        packed = self.packed(IEEE14)
        packed.rename(self.folder / "ieee14")
        self.assertEqual(self.made(self.folder / "ieee14").read_bytes(), text)

    def test_an_hour_without_a_date_and_no_names(self):
        """What names.csv leaves out is called as every command calls it; holders go by their numbers."""
        case, _, _ = held(self.made(CASE_L))
        (hour,) = case["hours"]
        self.assertEqual((hour["day"], hour["hour"]), ("", 0))
        self.assertEqual(data(hour["file"]), (CASE_L / "prices.bin").read_bytes())
        contracts = [{"id": name} for name in "0123"]
        names = {"nodes": ["N0", "N1", "N2"], "constraints": ["K0", "K1"], "contracts": contracts}
        self.assertEqual(case["names"], names)

    def test_no_name_ends_the_script(self):
        folder = self.folder / "a <b>&amp; case"
        shutil.copytree(IEEE14, folder)
        for path in folder.glob("*.csv"):
            path.write_text(path.read_text().replace("Alder Power", '</script><!-- "Ålder" \\'))
        case, raw, _ = held(self.made(folder))
        self.assertEqual(case["title"], "a <b>&amp; case")
        self.assertIn('</script><!-- "Ålder" \\', case["names"]["owners"].values())
        self.assertNotIn(b"<", raw)
        self.assertTrue(raw.isascii())

    def test_a_year(self):
        folder = self.folder / "year"
        folder.mkdir()
        (folder / "grid.bin").write_bytes(draw_grid(self.rng, 200, 64)[0])
        (folder / "book.bin").write_bytes(draw_book(self.rng, 200, 1000)[0])
        drawn = [draw_prices(self.rng, 64)[0] for _ in range(100)]
        for day in ((date(2026, 1, 1) + timedelta(days=n)).isoformat() for n in range(365)):
            (folder / "prices" / day).mkdir(parents=True)
            for hour in range(1, hours_in(day) + 1):
                (folder / "prices" / day / f"HE{hour:02}.bin").write_bytes(self.rng.choice(drawn))
        path = self.made(folder, "--time-of-use", "as-given")
        case, _, _ = held(path)
        self.assertEqual(len(case["hours"]), 8760)
        self.assertEqual({len(data(hour["file"])) for hour in case["hours"]}, {153})
        self.assertLess(path.stat().st_size - page_path().stat().st_size, 2_300_000)


@needs_page
class Faults(FolderTest):
    def refused(self, *arguments):
        before = contents(self.folder)
        status, out, err = command("page", *arguments)
        self.assertEqual((status, out, contents(self.folder)), (2, "", before))
        return err

    def test_of_the_case(self):
        out = self.folder / "page.html"
        self.assertIn("book.csv:12:MW: 21.0005", self.refused(ROOT / "examples" / "broken", "-o", out))
        self.assertIn("no such folder", self.refused(self.folder / "none", "-o", out))
        self.assertIn("crr in-force", self.refused(ROOT / "examples" / "terms", "-o", out))

    def test_of_a_price_file(self):
        """Each is read by the library, and its period by the on-peak rule."""
        case = self.folder / "case"
        write_packed(load(IEEE14)[0], case)
        hour = case / "prices" / "2026-07-31" / "HE08.bin"
        hour.write_bytes(bytes([hour.read_bytes()[0] ^ 0x80]) + hour.read_bytes()[1:])
        out = self.folder / "page.html"
        self.assertIn("--time-of-use as-given takes it so", self.refused(case, "-o", out))
        hour.write_bytes(b"")
        self.assertIn("prices/2026-07-31/HE08.bin: ", self.refused(case, "-o", out))

    def test_sizes(self):
        """A case beyond the library's sizes is refused as by every command that takes no other."""
        folder = self.folder / "large"
        shutil.copytree(IEEE14, folder)
        rows = "".join(f"X-{n},Fir Storage,OBL,ON,Bus 1,Bus 2,1.000\n" for n in range(1000))
        (folder / "book.csv").write_text((folder / "book.csv").read_text() + rows)
        said = self.refused(folder, "-o", self.folder / "page.html")
        self.assertIn("crr test, cuts, settle, report and pack take more", said)

    def test_writing(self):
        """An earlier page is replaced; another file by force alone, and never one of the case."""
        case, out = self.folder / "case", self.folder / "page.html"
        shutil.copytree(IEEE14, case)
        said = self.refused(case, "-o", case / "book.csv", "--force")
        self.assertIn("that is a file of the case itself", said)
        out.write_text("somebody's")
        for given in ((), (case,)):
            self.assertIn("is there and differs", self.refused(*given, "-o", out))
        self.assertEqual(command("page", case, "-o", out, "--force")[0], 0)
        for given in ((), (case,), (CASE_L,)):
            self.assertEqual(command("page", *given, "-o", out)[0], 0)
        self.assertEqual(command("report", case, "-o", self.folder / "report.html")[0], 0)
        self.assertIn("is there and differs", self.refused(case, "-o", self.folder / "report.html"))
        self.assertIn("required: -o/--out", self.refused(case))

    def test_a_page_without_a_place(self):
        case = case_json("ieee14", load(IEEE14)[0])
        line = b'<script type="application/json" id="case">null</script>\n'
        for page in (b"", line * 2):
            with self.assertRaisesRegex(ValueError, "one place"):
                page_with(page, case)
        self.assertEqual(page_with(line, case), line.replace(b"null", case))


class Sources(unittest.TestCase):
    def test_the_version_is_one(self):
        """js/package.json, which the page tells, has the package's version."""
        self.assertEqual(json.loads((ROOT / "js" / "package.json").read_text())["version"], crr.__version__)


if __name__ == "__main__":
    unittest.main()
