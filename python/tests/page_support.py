"""What the tests of the page share: what `crr --json` says of a case, as whole numbers in the library's units
by which the page tells its figures too; and Chromium, driven."""

import importlib.util
import json
import shutil
import unittest
from pathlib import Path

from support import command
from crr.case import hour_name
from crr.decimals import whole
from crr.library import page_path
from crr.packed import read_bin, write_packed

FLOW, EXACT, MW, CENTS = 8, 10, 3, 2  # decimals of what crr prints: MW of a flow, dollars, MW, dollars


def _unlike():
    """Why there is no page of these sources."""
    try:
        page_path()
    except FileNotFoundError as missing:
        return str(missing)
    return ""


needs_page = unittest.skipIf(_unlike(), f"dist/ is of other sources: {_unlike()}")


def answer(*arguments):
    """What a command answers as JSON."""
    return json.loads(command(*arguments, "--json")[1])


class Told:
    """What crr says of a case. Constraints go by their numbers, contracts by their ids, a period and process
    as `ON annual`."""

    def __init__(self, case, folder):
        self.folder = Path(folder)
        shutil.rmtree(self.folder, ignore_errors=True)
        write_packed(case, self.folder)
        self.case = read_bin(self.folder)
        self.constraint = {name: k for k, name in enumerate(self.case.names.constraints)}

    def lines(self, key, *arguments):
        rows = answer(*arguments)[key]
        return {f"{row['time_of_use']} {row['process']}": row for row in rows}

    def verdicts(self):
        """(state, overloaded constraints, the lowest's excess)"""
        out = {}
        for line, row in self.lines("verdicts", "test", self.folder).items():
            over = [self.constraint[name] for name in row["constraints"]]
            excess = whole(row["excess_mw"], FLOW) if over else None
            if over:
                assert self.constraint[row["lowest_numbered"]] == over[0] and row["overloaded"] == len(over)
            out[line] = (row["verdict"], over, excess)
        return out

    def exposures(self):
        """(least, most, prices) of lines that fail."""
        out = {}
        for line, row in self.lines("exposures", "exposure", self.folder).items():
            prices = [0] * len(self.constraint)
            for price in row["prices"]:
                prices[self.constraint[price["constraint_id"]]] = whole(price["shadow_price"], CENTS)
            if whole(row["most"], EXACT):
                out[line] = (whole(row["least"], EXACT), whole(row["most"], EXACT), prices)
        return out

    def cuts(self):
        """(contract, cut) of lines that fail, in their order."""
        rows = self.lines("verdicts", "cuts", self.folder)
        return {
            line: [(cut["crr_id"], whole(cut["cut_mw"], MW)) for cut in row["cuts"]]
            for line, row in rows.items()
            if row["verdict"] == "fail"
        }

    def flows(self):
        """(flow, released, excess) by line and constraint."""
        return {
            (f"{row['time_of_use']} {row['process']}", self.constraint[row["constraint_id"]]): tuple(
                whole(row[name], FLOW) for name in ("flow_mw", "released_mw", "excess_mw")
            )
            for row in answer("flows", self.folder)["flows"]
        }

    def statement(self, number):
        """Cents and pricing constraints of each contract of an hour."""
        day, hour = self.case.times[number]
        asked = [hour_name(day, hour)] if hour else []
        rows = answer("statement", self.folder, *asked, "--time-of-use", "as-given")["contracts"]
        return {
            row["crr_id"]: (
                whole(row["amount"], CENTS),
                [self.constraint[name] for name in row["constraints"]],
            )
            for row in rows
        }

    def settled(self, process):
        """The settlement of all hours, with its rent and shortfall in a process."""
        return answer("settle", self.folder, "--process", process, "--time-of-use", "as-given")

    def hour_sums(self, number, process):
        """(sum of cents, exact total, rent, shortfall) of an hour."""
        row = self.settled(process)["by_hour"][number]
        exact = (whole(row[name], EXACT) for name in ("exact_total", "rent", "shortfall"))
        return (whole(row["sum"], CENTS), *exact)

    def holders(self):
        """Cents of each owner in all hours."""
        sums = {}
        for row in self.settled("monthly")["by_holder"]:
            sums[row["owner"]] = sums.get(row["owner"], 0) + whole(row["amount"], CENTS)
        return sums


CHROMIUM = next(filter(None, map(shutil.which, ("chromium", "chromium-browser", "google-chrome"))), None)
DRIVER = shutil.which("chromedriver")


def _missing():
    packages = {"chromium": CHROMIUM, "chromium-driver": DRIVER}
    packages["python3-selenium"] = importlib.util.find_spec("selenium")
    return [name for name, found in packages.items() if not found]


needs_chromium = unittest.skipIf(
    _missing(), f"not installed: {', '.join(_missing())} (Debian: apt-get install {' '.join(_missing())})"
)


def chromium(*arguments, downloads=None):
    """A headless Chromium that notes what it asks for and what its console says."""
    from selenium.webdriver import Chrome, ChromeOptions
    from selenium.webdriver.chrome.service import Service

    options = ChromeOptions()
    options.binary_location = CHROMIUM
    shell = ("--headless=new", "--no-sandbox", "--disable-gpu", "--disable-dev-shm-usage")
    for argument in (*shell, "--hide-scrollbars", "--window-size=1280,1000", *arguments):
        options.add_argument(argument)
    options.set_capability("goog:loggingPrefs", {"performance": "ALL", "browser": "ALL"})
    if downloads:
        options.add_experimental_option("prefs", {"download.default_directory": str(downloads)})
    return Chrome(service=Service(DRIVER), options=options)


def asked_for(driver):
    """The addresses that were asked for since it was asked last, whoever asked. What a page's policy stopped
    left nothing."""
    urls, stopped = {}, set()
    for entry in driver.get_log("performance"):
        message = json.loads(entry["message"])["message"]
        params = message["params"]
        if message["method"] in ("Network.requestWillBeSent", "Network.webSocketCreated"):
            urls[params["requestId"]] = params.get("request", params).get("url")
        elif message["method"] == "Network.loadingFailed" and params.get("blockedReason") == "csp":
            stopped.add(params["requestId"])
    return [url for number, url in urls.items() if number not in stopped]
