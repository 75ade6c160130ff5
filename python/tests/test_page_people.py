"""The page for every person, in Chromium: by keys alone, by a screen reader's tree, on 400 pixels and in the
dark, on paper; and with the largest case."""

import base64
import shutil
import subprocess
import unittest
from array import array
from collections import Counter

from support import IEEE14, ROOT, draw_book, draw_grid, draw_prices
from crr.case import Case, Names, PricedHour
from crr.files import Contract
from crr.from_csv import load
from page_browser import CRR_011, Browser, overbooked, with_contract, with_limit
from page_support import answer, asked_for

# The least contrast of a text with what stands behind it, and that text.
CONTRAST = """
const rgba = (text) => (text.match(/[0-9.]+/g) || [0, 0, 0, 0]).map(Number);
const light = ([r, g, b]) => [r, g, b].map((c) => c / 255)
  .map((c) => (c <= 0.04045 ? c / 12.92 : ((c + 0.055) / 1.055) ** 2.4))
  .reduce((sum, c, i) => sum + c * [0.2126, 0.7152, 0.0722][i], 0);
const behind = (element) => {
  for (let each = element; each; each = each.parentElement) {
    const colour = rgba(getComputedStyle(each).backgroundColor);
    if (colour.length === 3 || colour[3] === 1) return colour;
  }
  return [255, 255, 255];
};
const own = (element) => [...element.childNodes].some((node) => node.nodeType === 3 && node.data.trim());
const told = [...document.querySelectorAll("body *")]
  .filter((e) => own(e) && e.checkVisibility() && !e.closest("[aria-hidden],:disabled,.unseen,.skip,script"))
  .map((element) => {
    const [one, other] = [rgba(getComputedStyle(element).color), behind(element)].map(light);
    return [(Math.max(one, other) + 0.05) / (Math.min(one, other) + 0.05), element.textContent.slice(0, 40)];
  });
return told.sort(([a], [b]) => a - b)[0];
"""
# Parts that go beyond the window's width, apart from those that scroll by themselves.
BEYOND = """
const wide = document.documentElement.clientWidth;
return [document.documentElement.scrollWidth, wide];
"""
KEPT = "return document.activeElement !== document.body"
NAMED = {"button", "textbox", "searchbox", "combobox", "link", "table", "region", "spinbutton", "checkbox"}


def largest(rng):
    """64 constraints, 1,000 contracts, 200 nodes; hardly a limit, so that every line fails."""
    _, limits, factors = draw_grid(rng, 200, 64)
    _, rows = draw_book(rng, 200, 1000)
    hours = [PricedHour("2026-07-01", hour, *draw_prices(rng, 64)[1:]) for hour in (8, 9)]
    hours = [hour._replace(prices=array("Q", hour.prices)) for hour in hours]
    names = Names([f"Node {n}" for n in range(200)], [f"Line {k}" for k in range(64)])
    names.contracts = [f"CRR-{n:04}" for n in range(1000)]
    book = [Contract(*row) for row in rows]
    return Case(names, array("Q", limits), array("q", factors), book, hours)


class Tiers(Browser):
    def operations(self, told):
        """What crr says of a running test, as the page lists it."""
        of = {"add": "award", "mark": "mark", "return": "return"}
        return [
            (
                of[row["operation"]],
                row["name"] if row["operation"] == "add" else f"tier {row['name']}",
                row["answer"],
                row["held"],
                row["counted"],
                row["excess_mw"] and row["excess_mw"].replace(".", "").lstrip("0"),
            )
            for row in told
        ]

    def test_the_book(self):
        """Its contracts in their order."""
        case = overbooked()
        page, folder = self.opened(case), self.told(case).folder
        lines = (("on annual", 1, 0), ("on lt", 1, 1), ("on monthly", 1, 2), ("off lt", 0, 1))
        for line, period, process in lines:
            page.choose("tier-period", period)
            page.choose("tier-process", process)
            page.click("#tier-all")
            spelled = line.split()
            told = answer("tiers", folder, "--period", spelled[0], "--process", spelled[1])["operations"]
            self.assertEqual(page.operations(), self.operations(told))

    def test_marks(self):
        """Three awards, tier 1, two more and one of one's own, back to tier 1; tier 2 was never marked."""
        case = load(IEEE14)[0]
        page, folder = self.opened(case), self.told(case).folder
        for _ in range(3):
            page.click("#tier-next")
        page.click("#tier-mark")
        for _ in range(2):
            page.click("#tier-next")
        page.run("document.getElementById('award').closest('details').open = true")
        page.fill("award", "Bus 8", "Bus 9", "OBL", "ON", "Fir Storage", "30")
        page.click("#tier-return")
        page.choose("tier", 2)
        page.click("#tier-return")
        heading, *rows = (IEEE14 / "book.csv").read_text().splitlines()
        own = [f"{page.operations()[6][1]},Fir Storage,OBL,ON,Bus 8,Bus 9,30"]
        added = [f"add,,{row}" for row in rows[:5] + own]
        lines = [f"OPERATION,TIER,{heading}", *added[:3], "mark,1,,,,,,,", *added[3:]]
        awards = self.folder / "awards.csv"
        awards.write_text("\n".join([*lines, "return,1,,,,,,,", "return,2,,,,,,,"]) + "\n")
        told = answer("tiers", folder, awards, "--period", "on", "--process", "annual")["operations"]
        self.assertEqual(page.operations(), self.operations(told))


class Keys(Browser):
    def test_a_cut_by_keys(self):
        """Tab to the first cut, take it, hear that it passes, and take it back."""
        from selenium.webdriver.common.action_chains import ActionChains
        from selenium.webdriver.common.keys import Keys

        def press(*keys):
            ActionChains(self.driver).send_keys(*keys).perform()

        def focused(name):
            return page.run("return document.activeElement.dataset[arguments[0]]", name)

        def tab_to(name, value):
            for _ in range(60):
                press(Keys.TAB)
                if focused(name) == value:
                    return
                self.assertTrue(page.run(KEPT), "the focus is lost")
            self.fail(f"no {name} {value}")

        case = overbooked()
        page = self.opened(case)
        tab_to("take", f"ON annual {CRR_011}")
        outline = page.run("return getComputedStyle(document.activeElement).outlineStyle")
        self.assertNotEqual(outline, "none")
        press(Keys.ENTER)
        self.assertEqual(page.verdicts()["ON annual"][0], "pass")
        self.assertIn("On-peak, annual passes now", page.said())
        self.assertTrue(page.run(KEPT), "the focus is lost")
        ActionChains(self.driver).key_down(Keys.CONTROL).send_keys("z").key_up(Keys.CONTROL).perform()
        self.assertEqual(page.verdicts()["ON annual"][0], "fail")
        tab_to("quantity", "0")
        press(Keys.ARROW_DOWN, Keys.ARROW_DOWN)
        self.assertEqual(focused("quantity"), "2")
        ActionChains(self.driver).key_down(Keys.CONTROL).send_keys("a").key_up(Keys.CONTROL).perform()
        press("13.5", Keys.TAB)
        self.assertEqual(page.quantities()["CRR-003"], 13_500)


class Everyone(Browser):
    def test_names_and_headings(self):
        """Every field, button, link, table and part has a name; headings go down by steps of one."""
        self.opened(overbooked())
        self.page.run("document.querySelectorAll('details').forEach((part) => (part.open = true))")
        nodes = self.driver.execute_cdp_cmd("Accessibility.getFullAXTree", {})["nodes"]
        seen, levels = Counter(), []
        for node in nodes:
            role, name = (node.get(part, {}).get("value", "") for part in ("role", "name"))
            if node.get("ignored"):
                continue
            seen[role] += 1
            if role in NAMED:
                self.assertTrue(name.strip(), node)
            if role == "heading":
                levels += [one["value"]["value"] for one in node["properties"] if one["name"] == "level"]
        for role in ("main", "status", "alert", "textbox", "combobox", "table", "columnheader", "row"):
            self.assertGreater(seen[role], 0, role)
        self.assertEqual((levels[0], levels.count(1)), (1, 1))
        for before, level in zip(levels, levels[1:]):
            self.assertLessEqual(level, before + 1)
        page = self.page
        language = page.run("return [document.documentElement.lang, document.title]")
        self.assertEqual((language[0], bool(language[1])), ("en", True))
        repeated = Counter(page.run("return [...document.querySelectorAll('[id]')].map((e) => e.id)"))
        self.assertEqual({name for name, count in repeated.items() if count > 1}, set())

    def test_widths_and_colours(self):
        """Nothing beside the screen from 360 to 1,600 pixels; every text stands out, in the dark too."""
        passing = load(ROOT / "examples" / "cleared")[0]
        for name, case in (("failing", overbooked()), ("passing", passing), ("empty", None)):
            page = self.opened(case, name)
            for dark in (False, True):
                features = [{"name": "prefers-color-scheme", "value": "dark" if dark else "light"}]
                self.driver.execute_cdp_cmd("Emulation.setEmulatedMedia", {"features": features})
                for width in () if dark else (360, 400, 768, 1600):
                    size = {"width": width, "height": 900, "deviceScaleFactor": 1, "mobile": width < 500}
                    self.driver.execute_cdp_cmd("Emulation.setDeviceMetricsOverride", size)
                    wide, seen = page.run(BEYOND)
                    self.assertLessEqual((wide, seen), (width, width), (name, width))
                contrast, text = page.run(CONTRAST)
                self.assertGreaterEqual(contrast, 4.5, (name, dark, text))
                behind = page.run("return getComputedStyle(document.body).backgroundColor")
                self.assertEqual(sum(map(int, behind[4:-1].split(","))) < 200, dark, behind)

    def test_paper(self):
        """Every contract is on paper, with the limits and what was changed."""
        page = self.opened(overbooked())
        page.type(f'input[data-quantity="{CRR_011}"]', "35")
        pdf = self.folder / "page.pdf"
        pdf.write_bytes(base64.b64decode(self.driver.print_page()))
        self.assertEqual(pdf.read_bytes()[:5], b"%PDF-")
        if not shutil.which("pdftotext"):
            self.skipTest("pdftotext is not installed (Debian: apt-get install poppler-utils)")
        read = subprocess.run(["pdftotext", "-layout", pdf, "-"], stdout=subprocess.PIPE, check=True)
        text = read.stdout.decode()
        changed = "CRR-011: 40.000 to 35.000 MW"
        for said in (*self.page.names, changed, "SHA-256", "13-14 reverse", "Fir Storage"):
            self.assertIn(said, text)


class Largest(Browser):
    def test_it_follows_at_once(self):
        """Every figure of 1,000 contracts on 64 constraints; rows are drawn as they are seen."""
        case = largest(self.rng)
        page = self.opened(case)
        self.assert_shows(case)
        times = []
        for n in range(8):
            page.paste('input[data-quantity="0"]', f"{n + 1}.5")
            times.append(float(page.run("return document.documentElement.dataset.edit")))
        page.leave()
        self.assertLess(min(times), 500, times)  # 15 to 20 on a core of its own
        self.assertLess(page.count("#contracts [data-key]"), 100)
        case = with_limit(with_contract(case, 0, quantity=8_500), 0, 1)
        page.type('input[data-limit="0"]', "0.001")
        told, shown = self.told(case), page.figures()
        self.assertEqual(shown["verdicts"], told.verdicts())
        self.assertEqual(shown["cuts"], told.cuts())
        self.assertEqual(shown["exposures"], told.exposures())


class Policy(Browser):
    def test_nothing_may_be_asked_for(self):
        """What tries to is stopped by the page's own policy."""
        page = self.opened(load(IEEE14)[0])
        self.driver.get_log("browser")
        asked_for(self.driver)
        self.driver.set_script_timeout(20)
        stopped = self.driver.execute_async_script(
            """
            const done = arguments[0], told = [];
            const stopped = ({ effectiveDirective }) => told.push(effectiveDirective);
            document.addEventListener("securitypolicyviolation", stopped);
            const image = new Image();
            image.src = "http://127.0.0.1:9/image";
            const script = document.createElement("script");
            script.src = "http://127.0.0.1:9/script";
            document.body.append(image, script);
            fetch("http://127.0.0.1:9/fetch").catch(() => {});
            try { new WebSocket("ws://127.0.0.1:9/socket"); } catch { }
            navigator.sendBeacon("http://127.0.0.1:9/beacon", "x");
            setTimeout(() => done([...new Set(told)].sort()), 500);
            """
        )
        self.assertEqual(stopped, ["connect-src", "img-src", "script-src-elem"])
        self.assertEqual((page.state(), asked_for(self.driver)), ("open", []))
        self.driver.get_log("browser")  # what the policy said


if __name__ == "__main__":
    unittest.main()
