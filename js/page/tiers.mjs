// The running test as it is played: awards, marks and returns, and how each was answered.
import { flowWords } from "./decimals.mjs";
import { awardForm } from "./contracts.mjs";
import { byId, options, show } from "./dom.mjs";
import { List } from "./list.mjs";
import { RunningTest } from "./running.mjs";
import { counted, lineName, PERIODS, PROCESSES, TIERS } from "./words.mjs";

const SLICE = 12; // milliseconds of awards before the page has its turn
const KINDS = ["id", "owner", "kind", "mw", "ends"];

export class Tiers {
  constructor(app) {
    this.app = app;
    options(byId("tier-period"), [[1, PERIODS[1]], [0, PERIODS[0]]]);
    options(byId("tier-process"), PROCESSES.map((name, i) => [i, name]));
    options(byId("tier"), TIERS.slice(1).map((name, i) => [i + 1, name]));
    const columns = ["operation", "of", "answer", "held", "overloaded"].map((name, i) => [name, KINDS[i]]);
    const cells = () => KINDS.map((kind) => ({ kind, of: "" }));
    const fill = (element, entry) => this.fill(element, entry);
    const key = (entry) => String(entry.operation);
    const label = "Operations, the last one first";
    this.list = new List(byId("operations"), { label, columns, key, row: cells, fill });
    for (const id of ["tier-open", "tier-period", "tier-process"]) {
      byId(id).addEventListener(id === "tier-open" ? "click" : "change", () => this.open());
    }
    byId("tier-next").onclick = () => this.next();
    byId("tier-all").onclick = () => this.all();
    byId("tier-mark").onclick = () => this.tier((test, tier) => test.markTier(tier, TIERS[tier]));
    byId("tier-return").onclick = () => this.tier((test, tier) => test.returnTo(tier, TIERS[tier]));
    awardForm(app, "award", (row) => this.played(this.test.add(`your own ${(this.own += 1)}`, row)));
  }

  // Opens a running test on the grid as it is now; the awards of the book begin with the first.
  open() {
    clearTimeout(this.timer);
    const [process, period] = ["tier-process", "tier-period"].map((id) => Number(byId(id).value));
    const { crr, opened, now } = this.app.model;
    this.test = new RunningTest(crr, opened, now.grid, { process, period });
    this.limits = now.grid.limits.join();
    this.following = 0;
    this.own = 0;
    this.show();
  }

  // The book may have changed; a test that runs keeps the limits that it was opened with.
  update() {
    if (this.test.log.length === 0) this.open();
    else this.show();
  }

  award() {
    const row = this.app.model.now.rows[this.following];
    this.following += 1;
    return this.test.add(this.app.model.id(row.key), row);
  }

  next() {
    if (this.following < this.app.model.now.rows.length) this.played(this.award());
  }

  // All that follow, in slices.
  all() {
    clearTimeout(this.timer);
    const before = this.test.held.length;
    const work = () => {
      const until = performance.now() + SLICE;
      while (this.following < this.app.model.now.rows.length) {
        this.award();
        if (performance.now() > until) {
          this.timer = setTimeout(work);
          return this.show();
        }
      }
      this.show();
      return this.app.say(`${counted(this.test.held.length - before, "award")} more held.`);
    };
    work();
  }

  tier(operation) {
    this.played(operation(this.test, Number(byId("tier").value)));
  }

  played(entry) {
    this.show();
    this.app.say(`${entry.what} ${entry.name}: ${entry.answer}${this.overWords(entry)}.`);
  }

  overWords({ over, text }) {
    if (!over) return text ? `: ${text}` : "";
    const name = this.app.model.opened.names.constraints[over.lowest];
    const more = over.count > 1 ? ` and ${over.count - 1} more` : "";
    return `, ${name} by ${flowWords(over.excess)} MW${more}`;
  }

  fill(element, entry) {
    const [what, of, answer, held, over] = element.children;
    element.dataset.operation = entry.operation;
    element.dataset.answer = entry.answer;
    element.dataset.held = entry.held;
    element.dataset.counted = entry.counted;
    if (entry.over) Object.assign(element.dataset, { lowest: entry.over.lowest, excess: entry.over.excess });
    show(what, entry.what === "add" ? "award" : entry.what);
    show(of, entry.what === "add" ? entry.name : `tier ${entry.name}`);
    show(answer, entry.answer);
    answer.classList.toggle("refused", entry.number !== 0);
    show(held, `${entry.held}`);
    show(over, this.overWords(entry).replace(/^[,:] /, ""));
    over.title = over.textContent;
  }

  // The tiers that are marked, in words.
  markWords() {
    const at = (tier) => this.test.mark(tier);
    const marked = [1, 2, 3, 4].filter((tier) => at(tier) !== undefined);
    const words = marked.map((tier) => `tier ${TIERS[tier]} at ${counted(at(tier), "award")}`);
    return words.length ? `Marked: ${words.join(", ")}.` : "No tier is marked.";
  }

  show() {
    const { held, counted: of, period, process, log } = this.test;
    const { rows, grid } = this.app.model.now;
    const left = Math.max(0, rows.length - this.following);
    const stale = this.limits === grid.limits.join() ? "" : " On the limits as they were when it was opened.";
    const line = lineName(period, process);
    const state = byId("tier-state");
    Object.assign(state.dataset, { held: held.length, counted: of, line });
    const said = `${line}: ${counted(held.length, "award")} held, ${of} of them ${PERIODS[period]}.`;
    show(state, `${said} ${this.markWords()} ${counted(left, "contract")} of the book to come.${stale}`);
    byId("tier-next").disabled = byId("tier-all").disabled = left === 0;
    this.list.show([...log].reverse());
  }
}
