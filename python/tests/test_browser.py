"""The page in Chromium: nothing beside the screen at 1280 and 390 pixels, dark where that is asked for, what
unfolds, bars that are broken off, print."""

import json
import re
import shutil
import subprocess
import tempfile
import unittest
from html import escape, unescape

from support import IEEE14, FolderTest, command

BROWSER = next(filter(None, map(shutil.which, ("chromium", "chromium-browser", "google-chrome"))), None)
SHELL = ["--headless", "--no-sandbox", "--disable-gpu", "--hide-scrollbars", "--allow-file-access-from-files"]

# What is measured in each frame: its width and the page's, how many cards stand in the first row, colours,
# how high the rows are that unfold, before and after, and where the figures of broken bars stand in them.
MEASURE = """
const measures = {};
for (const frame of document.querySelectorAll("iframe")) {
  const page = frame.contentDocument, root = page.documentElement;
  const box = element => element.getBoundingClientRect();
  const cards = [...page.querySelectorAll(".verdicts li")].map(card => box(card).top);
  const folded = [...page.querySelectorAll("details table")];
  const seen = table => table.checkVisibility({contentVisibilityAuto: true});
  const height = () => folded.map(table => seen(table) ? box(table).height : 0);
  const before = height();
  const wide = root.scrollWidth;
  page.querySelectorAll("details").forEach(part => part.open = true);
  const breaks = [...page.querySelectorAll(".broken text")].map(text => {
    const label = box(text), bar = box(text.closest("td").querySelector("svg"));
    const sides = [label.left - bar.left, bar.right - label.right];
    return [...sides, label.top - bar.top, bar.bottom - label.bottom, text.textContent];
  });
  const style = page.defaultView.getComputedStyle(page.body);
  measures[frame.id] = {
    width: frame.clientWidth, wide, unfolded: root.scrollWidth,
    columns: cards.filter(top => top == cards[0]).length, page: style.backgroundColor, text: style.color,
    before, after: height(), breaks,
  };
}
document.getElementById("measures").textContent = JSON.stringify(measures);
"""


@unittest.skipUnless(
    BROWSER, "neither chromium nor google-chrome is installed (Debian: apt-get install chromium)"
)
class Browser(FolderTest):
    def run_browser(self, *arguments):
        with tempfile.TemporaryDirectory() as profile:
            given = [BROWSER, *SHELL, f"--user-data-dir={profile}", *map(str, arguments)]
            done = subprocess.run(given, stdout=subprocess.PIPE, stderr=subprocess.PIPE, timeout=120)
        self.assertEqual(done.returncode, 0, done.stderr.decode(errors="replace")[-2000:])
        return done.stdout.decode()

    def failing(self):
        """The example with hardly a limit, long names, and more holders than are shown at once."""
        case = self.folder / "failing case"
        shutil.copytree(IEEE14, case)
        for name in ("constraints.csv", "factors.csv", "prices.csv"):
            path = case / name
            path.write_text(
                path.read_text().replace(
                    "7-9", "230_KV_LINE_NORTH-TO-SOUTH_CONTINGENCY_OF_THE_SECOND_CIRCUIT"
                )
            )
        limits = case / "constraints.csv"
        limits.write_text(re.sub(r",\d+\.000", ",0.010", limits.read_text()))
        book = case / "book.csv"
        more = "".join(
            f"N-{i},Northern Irrigation District number {i},OBL,ON,Bus 1,Bus 4,900.{i:03}\n"
            for i in range(1, 31)
        )
        book.write_text(book.read_text() + more)
        return case

    def pages(self):
        for name, case in (("passing", IEEE14), ("failing", self.failing())):
            path = self.folder / f"{name}.html"
            self.assertEqual(command("report", case, "-o", path)[0], 0)
            yield name, path

    def measured(self, *arguments):
        """What is measured of both pages, in frames of 1280 and 390 pixels."""
        frames = [
            f'<iframe id="{name}-{width}" style="border:0;width:{width}px;height:900px"'
            f' srcdoc="{escape(path.read_text())}"></iframe>'
            for name, path in self.pages()
            for width in (1280, 390)
        ]
        harness = self.folder / "harness.html"
        script = f"<script>window.onload = () => {{ {MEASURE} }};</script>"
        harness.write_text(f"<!doctype html><body>{''.join(frames)}<pre id=measures></pre>{script}")
        page = self.run_browser(*arguments, "--window-size=1400,1000", "--dump-dom", harness.as_uri())
        return json.loads(unescape(re.search(r"<pre id=\"measures\">(.*?)</pre>", page, re.S)[1]))

    def test_light(self):
        measures = self.measured()
        self.assertEqual(sorted(measures), ["failing-1280", "failing-390", "passing-1280", "passing-390"])
        for name, measured in measures.items():
            with self.subTest(page=name):
                self.assertEqual(measured["width"], int(name.rpartition("-")[2]))
                self.assertLessEqual(max(measured["wide"], measured["unfolded"]), measured["width"])
                self.assertEqual(measured["columns"], 3 if measured["width"] == 1280 else 1)
                self.assertEqual(
                    (measured["page"], measured["text"]), ("rgb(255, 255, 255)", "rgb(26, 28, 32)")
                )
                self.assertEqual(set(measured["before"]), {0})
                self.assertGreater(min(measured["after"]), 20)
                self.assertEqual(len(measured["breaks"]) > 20, name.startswith("failing"))
                for left, right, top, bottom, figure in measured["breaks"]:
                    self.assertGreater(left, 100, figure)
                    self.assertGreaterEqual(min(right, top, bottom), -1, figure)
                    self.assertRegex(figure, r"^[0-9,]+\.[0-9]%$")

    def test_dark(self):
        for name, measured in self.measured("--blink-settings=preferredColorScheme=0").items():
            self.assertEqual(
                (measured["page"], measured["text"]), ("rgb(21, 23, 28)", "rgb(232, 234, 240)"), name
            )

    def test_print(self):
        """On paper all is unfolded."""
        for name, path in self.pages():
            pdf = self.folder / f"{name}.pdf"
            self.run_browser("--no-pdf-header-footer", f"--print-to-pdf={pdf}", path.as_uri())
            self.assertEqual(pdf.read_bytes()[:5], b"%PDF-")
            if not shutil.which("pdftotext"):
                self.skipTest(
                    "pdftotext is not installed (Debian: apt-get install poppler-utils): the PDF was not read"
                )
            text = subprocess.run(
                ["pdftotext", "-layout", pdf, "-"], stdout=subprocess.PIPE, check=True
            ).stdout.decode()
            for said in (
                "9-10 reverse",
                "2 days covered",
                "SHA-256",
                "Fir Storage",
            ):  # the first is folded, in the failing case the last too
                self.assertTrue(said in text, said)

    def test_pictures(self):
        """A picture of each page is as large as was asked for, and has something on it."""
        for name, path in self.pages():
            for width, height in ((1280, 1600), (500, 1600)):
                picture = self.folder / f"{name}-{width}.png"
                self.run_browser(f"--window-size={width},{height}", f"--screenshot={picture}", path.as_uri())
                data = picture.read_bytes()
                self.assertEqual(
                    (data[:8], data[16:24]),
                    (b"\x89PNG\r\n\x1a\n", width.to_bytes(4, "big") + height.to_bytes(4, "big")),
                )
                self.assertGreater(len(data), 40_000)


if __name__ == "__main__":
    unittest.main()
