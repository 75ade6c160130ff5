"""The page in Firefox: it opens, shows what `crr --json` says, follows an edit, and its console is empty."""

import unittest

from support import FolderTest, command
from crr.from_csv import load
from marionette import FIREFOX, Failed, Firefox
from page_browser import CRR_011, IEEE14, overbooked, with_contract
from page_support import Told, needs_page

READ = """
const all = (where, of) => [...document.querySelectorAll(where)].map(of);
const whole = (text) => (text || "").split(" ").filter((word) => word).map(Number);
return {
  verdicts: all("[data-verdict]", ({ dataset: d }) =>
    [d.verdict, d.state, whole(d.overloaded), d.excess ? Number(d.excess) : null]),
  exposures: all("[data-exposure][data-least]", ({ dataset: d }) =>
    [d.exposure, Number(d.least), Number(d.most), whole(d.prices)]),
  state: document.documentElement.dataset.state,
  fetched: performance.getEntriesByType("resource").map((one) => one.name),
};
"""
EDIT = """
const field = document.querySelector(arguments[0]);
field.focus();
field.value = arguments[1];
field.dispatchEvent(new Event("input", { bubbles: true }));
field.blur();
"""


@needs_page
@unittest.skipUnless(FIREFOX, "firefox-esr is not installed (Debian: apt-get install firefox-esr)")
class InFirefox(FolderTest):
    def setUp(self):
        super().setUp()
        try:
            self.firefox = Firefox()
        except Failed as failed:
            self.skipTest(f"this machine has a Firefox that can't be driven: {failed}")
        self.addCleanup(self.firefox.close)

    def opened(self, *given):
        path = self.folder / "page.html"
        self.assertEqual(command("page", *given, "-o", path)[0], 0)
        self.firefox.call("WebDriver:Navigate", url=path.as_uri())
        return self.until("open" if given else "waiting")

    def until(self, state):
        """What is shown, once the page is so far."""
        waits = """
            const [state, done] = arguments;
            const ask = () => document.documentElement.dataset.state === state ? done() : setTimeout(ask, 20);
            ask();
        """
        self.firefox.call("WebDriver:ExecuteAsyncScript", script=waits, args=[state])
        return self.firefox.run(READ)

    def assert_shows(self, shown, case):
        told = Told(case, self.folder / "told")
        verdicts = {line: (state, over, excess) for line, state, over, excess in shown["verdicts"]}
        self.assertEqual(verdicts, told.verdicts())
        exposures = {line: (least, most, prices) for line, least, most, prices in shown["exposures"]}
        self.assertEqual(exposures, told.exposures())
        self.assertEqual(shown["fetched"], [])

    def test_it_shows_and_follows(self):
        self.assertEqual(self.opened()["state"], "waiting")
        self.assert_shows(self.opened(IEEE14), load(IEEE14)[0])
        case = overbooked()
        self.assert_shows(self.opened(Told(case, self.folder / "case").folder), case)
        self.firefox.run(EDIT, f'input[data-quantity="{CRR_011}"]', "35.000")
        self.assert_shows(self.firefox.run(READ), with_contract(case, CRR_011, quantity=35_000))
        self.assertEqual([one for one in self.firefox.messages() if "page.html" in one], [])


if __name__ == "__main__":
    unittest.main()
