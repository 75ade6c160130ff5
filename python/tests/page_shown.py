"""What the page shows, read from Chromium, in the form in which page_support.py has what crr says; and what a
person does with the page."""

import base64
import time

from selenium.webdriver.common.by import By
from selenium.webdriver.common.keys import Keys
from selenium.webdriver.support.select import Select

# Everything that is drawn at once. A figure's whole number stands beside it, as data.
READ = """
const all = (where, of) => [...document.querySelectorAll(where)].map(of);
for (const more of document.querySelectorAll("details[data-more]")) more.open = true;
return new Promise((done) => setTimeout(() => done({
  verdicts: all("[data-verdict]", ({ dataset: d }) =>
    [d.verdict, d.state, d.overloaded || "", d.excess || "", d.lowest || "", d.count]),
  cuts: all("[data-verdict]", (card) => [card.dataset.verdict,
    [...card.querySelectorAll("[data-cut]")].map(({ dataset: d }) => [d.cut, d.value])]),
  exposures: all("[data-exposure][data-least]", ({ dataset: d }) => [d.exposure, d.least, d.most, d.prices]),
  flows: all("[data-flow]", (bar) => [bar.dataset.flow, bar.dataset.value, bar.dataset.excess,
    bar.closest("[data-constraint]").dataset.released]),
  sums: ["sum", "exact", "rent", "shortfall"].map((id) => document.getElementById(id).dataset.value),
})));
"""
# The rows of a list that is drawn as it is seen, gathered while it is scrolled through: of each its data, the
# texts of its cells and the data of these and of its field.
LIST = """
const list = document.getElementById(arguments[0]), done = arguments[1], rows = new Map();
const gather = () => {
  for (const row of list.querySelectorAll("[data-key]")) {
    const fields = [...row.querySelectorAll("input")].map((field) => ({ ...field.dataset }));
    rows.set(row.dataset.key, [{ ...row.dataset }, [...row.children].map((cell) => cell.textContent),
      [...row.children].map((cell) => cell.dataset.value), fields]);
  }
};
const frame = () => new Promise((next) => requestAnimationFrame(() => setTimeout(next)));
(async () => {
  gather();
  if (rows.size === list.getAttribute("aria-rowcount") - 1) return done([...rows.values()]);
  const before = list.scrollTop;
  for (let at = 0; ; at += Math.max(40, list.clientHeight)) {
    list.scrollTop = at;
    await frame();
    gather();
    if (at >= list.scrollHeight - list.clientHeight) break;
  }
  list.scrollTop = before;
  return done([...rows.values()]);
})();
"""
DROP = """
const transfer = new DataTransfer();
for (const [path, text] of Object.entries(arguments[0])) {
  const file = new File([Uint8Array.from(atob(text), (c) => c.charCodeAt(0))], path);
  transfer.items.add(file);
}
document.getElementById("drop").dispatchEvent(
  new DragEvent("drop", { dataTransfer: transfer, bubbles: true, cancelable: true }));
"""
PROCESSES = ("annual", "Tier LT", "monthly")


def numbers(text):
    return [int(word) for word in text.split()]


class Shown:
    """The page in a browser. Contracts are told by their ids; `names` are those of the case's own."""

    def __init__(self, driver, names):
        self.driver, self.names = driver, names

    # ---- what is there

    def open(self, url, state=None):
        self.driver.get(url)
        if state is None:
            self.until("open", "waiting")

    def until(self, *states, seconds=20):
        end = time.monotonic() + seconds
        while self.state() not in states:
            if self.state() == "failed" or time.monotonic() > end:
                raise AssertionError(f"the page is {self.state()}: {self.text('#messages')}")
            time.sleep(0.02)

    def wait_for(self, where, seconds=20):
        end = time.monotonic() + seconds
        while not self.count(where):
            if time.monotonic() > end:
                raise AssertionError(f"no {where}: {self.text('#messages')}")
            time.sleep(0.02)

    def run(self, script, *arguments):
        return self.driver.execute_script(script, *arguments)

    def state(self):
        return self.run("return document.documentElement.dataset.state")

    def text(self, where):
        return self.run("return document.querySelector(arguments[0])?.textContent", where)

    def count(self, where):
        return self.run("return document.querySelectorAll(arguments[0]).length", where)

    def attribute(self, where, name):
        return self.driver.find_element(By.CSS_SELECTOR, where).get_attribute(name)

    def said(self):
        """What a screen reader was told last."""
        time.sleep(0.3)
        return self.text("#spoken")

    # ---- figures

    def name(self, key):
        return f"new {key[1:]}" if key[0] == "a" else self.names[int(key)]

    def figures(self):
        """Verdicts, cuts, exposures, flows by line and constraint, and the hour's sums."""
        read = self.run(READ)
        verdicts, flows = {}, {}
        for line, state, over, excess, lowest, count in read["verdicts"]:
            assert int(count) == len(numbers(over)) and numbers(lowest) == numbers(over)[:1]
            verdicts[line] = (state, numbers(over), int(excess) if excess else None)
        for name, flow, excess, released in read["flows"]:
            period, k = name.split()
            for process, over, of in zip(PROCESSES, numbers(excess), numbers(released)):
                flows[f"{period} {process}", int(k)] = (int(flow), of, over)
        cuts = {line: [(self.name(key), int(cut)) for key, cut in rows] for line, rows in read["cuts"]}
        cuts = {line: rows for line, rows in cuts.items() if verdicts[line][0] == "fail" or rows}
        exposures = {line: (*map(int, costs), numbers(prices)) for line, *costs, prices in read["exposures"]}
        sums = tuple(map(int, read["sums"]))
        return {"verdicts": verdicts, "cuts": cuts, "exposures": exposures, "flows": flows, "sums": sums}

    def verdicts(self):
        return self.figures()["verdicts"]

    def cuts(self):
        return self.figures()["cuts"]

    def exposures(self):
        return self.figures()["exposures"]

    def sums(self):
        return self.figures()["sums"]

    def rows(self, name):
        return self.driver.execute_async_script(LIST, name)

    def quantities(self):
        return {cells[0]: int(data["value"]) for data, cells, _, _ in self.rows("contracts")}

    def prices(self):
        return {int(fields[0]["shadow"]): int(fields[0]["value"]) for *_, fields in self.rows("prices")}

    def statement(self, constraints):
        """Cents and pricing constraints, by the constraints' names."""
        by = {name: k for k, name in enumerate(constraints)}
        out = {}
        for data, cells, _, _ in self.rows("statement"):
            priced = [by[name] for name in cells[3].split(", ") if name]
            assert len(priced) == int(data["priced"])
            out[cells[0]] = (int(data["value"]), priced)
        return out

    def holders(self):
        """Cents in all hours, by owner."""
        end = time.monotonic() + 20
        while self.attribute("#holders", "data-state") != "done" and time.monotonic() < end:
            time.sleep(0.02)
        return {cells[0]: int(values[2]) for _, cells, values, _ in self.rows("holders") if values[2]}

    def operations(self):
        """(what, of, answer, held, counted, the lowest's excess) of the running test, the first one first."""
        rows = sorted(self.rows("operations"), key=lambda row: int(row[0]["operation"]))
        return [
            (cells[0], cells[1], data["answer"], int(data["held"]), int(data["counted"]), data.get("excess"))
            for data, cells, _, _ in rows
        ]

    # ---- what a person does

    def element(self, where):
        found = self.driver.find_element(By.CSS_SELECTOR, where)
        self.run("arguments[0].scrollIntoView({ block: 'center' })", found)
        return found

    def click(self, where):
        self.element(where).click()

    def type(self, where, text, leave=True):
        field = self.element(where)
        field.click()
        field.send_keys(Keys.CONTROL, "a")
        field.send_keys(text or Keys.DELETE)
        if leave:
            self.leave()

    def paste(self, where, text):
        """A text at once, in place of what stands there."""
        self.element(where).send_keys(Keys.CONTROL, "a", Keys.NULL, Keys.DELETE)
        self.driver.execute_cdp_cmd("Input.insertText", {"text": text})

    def leave(self):
        """Leaves the field, as by Tab."""
        self.run("document.activeElement.blur()")
        time.sleep(0.02)

    def choose(self, name, value):
        Select(self.element(f"#{name}")).select_by_value(str(value))

    def fill(self, prefix, source, sink, kind, period, owner, mw):
        """A form for a contract, sent by Enter."""
        for name, text in (("source", source), ("sink", sink), ("owner", owner), ("mw", mw)):
            field = self.element(f"#{prefix}-{name}")
            field.clear()
            field.send_keys(text)
        Select(self.element(f"#{prefix}-kind")).select_by_visible_text(kind)
        Select(self.element(f"#{prefix}-period")).select_by_visible_text(period)
        self.element(f"#{prefix}-mw").send_keys(Keys.ENTER)

    def add(self, *contract):
        self.run("document.getElementById('add-part').open = true")
        self.fill("add", *contract)

    def drop(self, files):
        """Drops files, by their paths."""
        self.run(DROP, {path: base64.b64encode(file.read_bytes()).decode() for path, file in files.items()})

    def choose_files(self, paths):
        self.driver.find_element(By.ID, "files").send_keys("\n".join(map(str, paths)))
