"""The page in Chromium: files are dropped, figures edited, and all that it shows is compared with what
`crr --json` says of the same case with the same change. It asks for nothing, and its console stays empty."""

import time
import unittest
from dataclasses import replace

from support import IEEE14, ROOT
from crr.files import Contract, read_grid
from crr.from_csv import load
from crr.native import Refused
from crr.packed import read_bin
from page_browser import (
    CRR_011,
    LINE_2_4,
    LINE_8_7,
    Browser,
    overbooked,
    with_contract,
    with_limit,
    with_more,
    with_price,
)
from page_support import answer


class Shows(Browser):
    def test_examples(self):
        for folder in (IEEE14, ROOT / "examples" / "case-l"):
            case = load(folder)[0] if folder == IEEE14 else read_bin(folder)
            self.opened(case)
            self.assert_shows(case)

    def test_derated(self):
        """Many cuts, of which some are folded, and lines that no cut clears."""
        case = replace(load(ROOT / "examples" / "derated")[0], hours=load(IEEE14)[0].hours)
        self.opened(case)
        self.assertTrue(self.page.count("details[data-more]") or len(self.page.cuts()["ON monthly"]) == 5)
        self.assert_shows(case)

    def test_what_it_is(self):
        page = self.opened(overbooked(), "over")
        wasm = (ROOT / "dist" / "SHA256SUMS").read_text()
        self.assertIn(f"{page.text('#wasm-hash')}  wasm32/crr.wasm", wasm)
        self.assertIn("the same", page.text("#wasm-same"))
        self.assertEqual((page.text("h1"), page.text("#version")), ("over", answer("--version")["version"]))


class Edits(Browser):
    def test_each_and_back(self):
        """Each change after the others, and all of them taken back one by one."""
        case = overbooked()
        page = self.opened(case)
        self.assert_shows(case)
        states = [(case, {**page.figures(), "sums": None})]

        def changed(case, hour=0):
            self.assert_shows(case, hour)
            states.append((case, {**page.figures(), "sums": None}))
            return case

        page.type(f'input[data-quantity="{CRR_011}"]', "36.125")
        case = changed(with_contract(case, CRR_011, quantity=36_125))
        page.type(f'input[data-limit="{LINE_2_4}"]', "21.5")
        case = changed(with_limit(case, LINE_2_4, 21_500))
        self.assertEqual(page.verdicts()["ON monthly"][:2], ("fail", [LINE_2_4, LINE_8_7]))
        page.click('button[data-drop="3"]')
        case = changed(case.cut([n for n in range(16) if n != 3]))
        new = Contract(1, 1, 4, 0, 3, 7_250)
        page.add("Bus 1", "Bus 4", "OPT", "ON", case.names.holder(4), "7.250")
        case = changed(with_more(case, "new 1", new))
        page.choose("hour", 16)
        self.assert_shows(case, 16)
        page.type('input[data-shadow="5"]', "12.34")
        case = changed(with_price(case, 16, 5, 1234), 16)
        self.assertEqual(page.count("#changes li"), 5)
        for _, before in reversed(states[:-1]):
            page.click("#undo")
            self.assertEqual({**page.figures(), "sums": None}, before)
        self.assert_shows(states[0][0], 16)
        self.assertEqual((page.count("#changes li"), page.text("#change-count")), (0, "no changes"))
        for _ in states[1:]:
            page.click("#redo")
        self.assert_shows(case, 16)
        page.click('button[data-undo="d3"]')
        self.assertEqual(len(page.quantities()), 17)
        page.click("#undo-all")
        self.assertEqual({**page.figures(), "sums": None}, states[0][1])

    def test_a_cut(self):
        """Taken from the list, it clears its line, and nothing less does."""
        case = overbooked()
        page = self.opened(case)
        ((name, cut),) = page.cuts()["ON Tier LT"]
        page.click(f'button[data-take="ON Tier LT {CRR_011}"]')
        left = case.book[CRR_011].quantity - cut
        self.assertEqual((name, cut, left), ("CRR-011", 19_000, 21_000))
        self.assert_shows(with_contract(case, CRR_011, quantity=left))
        self.assertEqual({state for state, *_ in page.verdicts().values()}, {"pass"})
        self.assertIn("passes now", page.said())
        page.type(f'input[data-quantity="{CRR_011}"]', "21.001")
        self.assertEqual(page.verdicts()["ON Tier LT"], ("fail", [LINE_8_7], 100_000))

    def test_what_is_refused(self):
        """A figure out of its range is marked and told, and nothing changes."""
        case = overbooked()
        page = self.opened(case)
        for text in ("0", "1000.001", "0.0005", "x", "", "-1"):
            page.paste(f'input[data-quantity="{CRR_011}"]', text)
            invalid = page.attribute(f'input[data-quantity="{CRR_011}"]', "aria-invalid")
            self.assertEqual((invalid, page.count("#changes li")), ("true", 0), text)
        page.leave()
        self.assert_shows(case)
        page.add("Bus 1", "Bus 2", "OBL", "ON", "Alder Power", "1000.001")
        self.assertIn("refused", page.text("#add-problem"))
        page.add("Bus 99", "Bus 1", "OBL", "ON", "Alder Power", "5")
        self.assertIn("Bus 99", page.text("#add-problem"))
        self.assertEqual(page.count("#changes li"), 0)

    def test_the_worst_prices(self):
        """An hour at the prices of the worst falls short by what the book can cost."""
        page = self.opened(overbooked())
        for line, (least, _, prices) in page.exposures().items():
            page.click(f'button[data-try="{line}"]')
            page.choose("rent-process", ("annual", "Tier LT", "monthly").index(line.partition(" ")[2]))
            self.assertEqual(page.sums()[3], least, line)
            self.assertEqual([price for _, price in sorted(page.prices().items())], prices, line)


class Files(Browser):
    def files(self, case):
        """The files of a packed case, by their paths."""
        folder = self.told(case, "packed").folder
        paths = [path for path in sorted(folder.rglob("*")) if path.is_file()]
        return {path.relative_to(folder).as_posix(): path for path in paths}

    def test_dropped(self):
        """First the book, then the rest: the hours go by their folders."""
        case = load(IEEE14)[0]
        page, files = self.opened(), self.files(case)
        self.assertEqual(page.state(), "waiting")
        page.names = case.names.contracts
        page.drop({"book.bin": files.pop("book.bin")})
        self.assertIn("grid.bin", page.text("#held"))
        page.drop(files)
        page.until("open")
        self.assert_shows(case)

    def test_chosen(self):
        """By the file input, one hour and its name; CSV is left to crr."""
        case = load(IEEE14)[0]
        case = replace(case, hours=case.priced_hours()[8:9])
        page, files = self.opened(), self.files(case)
        page.names = case.names.contracts
        page.choose_files([IEEE14 / "book.csv"])
        self.assertIn("crr", page.text("#messages"))
        page.choose_files(files.values())
        page.until("open")
        self.assert_shows(case)
        self.assertIn("2026-07-31 HE09", page.text("#hour"))

    def test_damaged(self):
        page, files = self.opened(), self.files(load(IEEE14)[0])
        short = files["grid.bin"].read_bytes()[:-1]
        files["grid.bin"].write_bytes(short)
        page.drop(files)
        page.wait_for("#messages [data-refusal]")
        with self.assertRaises(Refused) as refused:
            read_grid(short)
        shown = page.attribute("#messages p", "data-refusal"), page.state()
        self.assertEqual(shown, (str(refused.exception.number), "waiting"))

    def test_saved(self):
        """What is saved is the case as it was changed, which crr takes."""
        out = self.folder / "saved"
        out.mkdir()
        behaviour = {"behavior": "allow", "downloadPath": str(out)}
        self.driver.execute_cdp_cmd("Browser.setDownloadBehavior", behaviour)
        case = overbooked()
        page = self.opened(case)
        page.type(f'input[data-quantity="{CRR_011}"]', "35")
        page.type(f'input[data-limit="{LINE_2_4}"]', "60")
        page.click('button[data-drop="0"]')
        page.add("Bus 1", "Bus 4", "OBL", "OFF", "Fir Storage", "2")
        page.choose("hour", 9)
        page.type('input[data-shadow="5"]', "3.21")
        for name in ("grid", "book", "prices", "names"):
            page.click(f"#save-{name}")
        end = time.monotonic() + 20
        while len([path for path in out.iterdir() if path.suffix in (".bin", ".csv")]) < 4:
            self.assertLess(time.monotonic(), end, list(out.iterdir()))
            time.sleep(0.05)
        case = with_limit(with_contract(case, CRR_011, quantity=35_000), LINE_2_4, 60_000).cut(range(1, 16))
        holder = next(number for number, name in case.names.holders.items() if name == "Fir Storage")
        case = with_price(with_more(case, "new 1", Contract(0, 0, holder, 0, 3, 2_000)), 9, 5, 321)
        saved = read_bin(out)
        self.assertEqual(replace(saved, hours=saved.priced_hours()), replace(case, hours=case.hours[9:10]))

    def test_a_link(self):
        case = overbooked()
        page = self.opened(case)
        page.type(f'input[data-quantity="{CRR_011}"]', "35")
        page.choose("hour", 9)
        page.type('input[data-shadow="5"]', "3.21")
        page.click("#copy-link")
        link = page.attribute("#link", "value")
        fragment = link[link.index("#") :]
        case = with_price(with_contract(case, CRR_011, quantity=35_000), 9, 5, 321)
        page.open("about:blank", "")
        page.open(link)
        self.assert_shows(case, 9)
        self.opened(load(IEEE14)[0], "another", fragment)
        self.page.wait_for("#messages p")
        self.assertIn("another case", self.page.text("#messages"))
        self.assert_shows(load(IEEE14)[0])


if __name__ == "__main__":
    unittest.main()
