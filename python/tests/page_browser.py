"""Chromium with the page in it, for tests; and cases with a change, as the page makes them."""

import unittest
from array import array
from dataclasses import replace

from support import IEEE14, ROOT, FolderTest, command
from crr.from_csv import load
from page_support import Told, asked_for, chromium, needs_chromium, needs_page

OVERBOOKED = ROOT / "examples" / "overbooked"
CRR_011 = 10  # the contract of 40 MW from bus 8 to bus 9, and the line that it overloads
LINE_2_4, LINE_8_7 = 6, 27


def overbooked():
    """The failing case with the hours of the IEEE 14-bus one."""
    return replace(load(OVERBOOKED)[0], hours=load(IEEE14)[0].hours)


def with_contract(case, number, **changes):
    book = list(case.book)
    book[number] = book[number]._replace(**changes)
    return replace(case, book=book)


def with_limit(case, constraint, limit):
    limits = array("Q", case.limits)
    limits[constraint] = limit
    return replace(case, limits=limits)


def with_price(case, number, constraint, price):
    hours = case.priced_hours()
    prices = array("Q", hours[number].prices)
    prices[constraint] = price
    hours[number] = hours[number]._replace(prices=prices)
    return replace(case, hours=hours)


def with_more(case, name, contract):
    names = replace(case.names, contracts=[*case.names.contracts, name])
    return replace(case, book=[*case.book, contract], names=names)


@needs_page
@needs_chromium
class Browser(FolderTest):
    """A test with a page of its own, in one browser for all of a module."""

    driver = None

    @classmethod
    def setUpClass(cls):
        if Browser.driver is None:
            Browser.driver = chromium()
            unittest.addModuleCleanup(cls.closed)

    @staticmethod
    def closed():
        Browser.driver.quit()
        Browser.driver = None

    def setUp(self):
        super().setUp()
        self.driver.execute_cdp_cmd("Emulation.clearDeviceMetricsOverride", {})
        self.driver.execute_cdp_cmd("Emulation.setEmulatedMedia", {"features": []})
        asked_for(self.driver)
        self.driver.get_log("browser")
        self.allowed = []
        self.addCleanup(self.nothing_else_happened)

    def nothing_else_happened(self):
        """No request left the page, and neither its script nor its policy had anything to say."""
        urls = [url for url in asked_for(self.driver) if not url.startswith(("data:", "blob:"))]
        self.assertEqual({url.partition("#")[0] for url in urls} - set(self.allowed), set())
        self.assertEqual(self.driver.get_log("browser"), [])

    def opened(self, case=None, name="page", fragment=""):
        """The page of a case, or the one that waits."""
        path = self.folder / f"{name}.html"
        given = [] if case is None else [self.told(case, name).folder]
        self.assertEqual(command("page", *given, "-o", path, "--time-of-use", "as-given")[0], 0)
        self.allowed.append(path.as_uri())
        from page_shown import Shown  # which needs selenium

        self.page = Shown(self.driver, [] if case is None else case.names.contracts)
        self.page.open(path.as_uri() + fragment)
        return self.page

    def told(self, case, name="told"):
        return Told(case, self.folder / name)

    def assert_shows(self, case, hour=0):
        """Everything that the page shows is what crr says of a case."""
        told, page = self.told(case), self.page
        shown = page.figures()
        self.assertEqual(shown["verdicts"], told.verdicts())
        self.assertEqual(shown["exposures"], told.exposures())
        self.assertEqual(shown["cuts"], told.cuts())
        self.assertEqual(shown["flows"], told.flows())
        quantities = {name: row.quantity for name, row in zip(case.names.contracts, case.book)}
        self.assertEqual(page.quantities(), quantities)
        self.assertEqual(page.statement(case.names.constraints), told.statement(hour))
        for number, process in enumerate(("annual", "lt", "monthly")):
            page.choose("rent-process", number)
            self.assertEqual(page.sums(), told.hour_sums(hour, process), process)
        self.assertEqual(page.holders(), told.holders())
