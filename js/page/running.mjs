// Tiers: awards tried one after another by the running test, with marks to come back to.
import { constants, Refused, running } from "../crr.mjs";
import { bookFileOf, cellsOf } from "./case.mjs";

const DONE = { add: "held", mark: "marked", return: "returned" };

export class RunningTest {
  // On the grid as it is now: later changes of limits are another test's.
  constructor(crr, opened, grid, { process, period }) {
    Object.assign(this, { crr, opened, process, period });
    this.tables = { ...grid, process, period };
    this.state = running();
    this.log = [];
    this.held = [];
    crr.open_running({ ...this.tables, ...this.state });
  }

  get counted() {
    return Number(this.state.numbers[1]);
  }

  // Whether a tier is marked, and with how many awards.
  mark(tier) {
    const { numbers } = this.state;
    return numbers[3 * tier - 1] === 1n ? Number(numbers[3 * tier]) : undefined;
  }

  add(name, row) {
    const award = cellsOf([row]);
    const words = { ...this.tables, award, ...this.state };
    const entry = this.carry("add", name, () => this.crr.add_award(words));
    if (entry.number === constants.AWARD_OVERLOAD) entry.over = this.overload(row);
    if (entry.number === 0) this.held.push({ name, row });
    return entry;
  }

  markTier(tier, name) {
    return this.carry("mark", name, () => this.crr.mark_tier({ tier, ...this.state }));
  }

  returnTo(tier, name) {
    return this.carry("return", name, () => this.crr.return_to_tier({ tier, ...this.state }));
  }

  // Carries an operation out and writes down how it was answered.
  carry(what, name, operation) {
    const entry = { operation: this.log.length, what, name, answer: DONE[what], number: 0 };
    try {
      operation();
    } catch (problem) {
      if (!(problem instanceof Refused)) throw problem;
      const { number, text } = problem;
      Object.assign(entry, { answer: `refused ${number}`, number, text });
    }
    this.held.length = Math.min(this.held.length, Number(this.state.numbers[0]));
    entry.held = Number(this.state.numbers[0]);
    entry.counted = this.counted;
    this.log.push(entry);
    return entry;
  }

  // Where the awards held fail with one more, which the refusal does not say.
  overload(row) {
    const rows = [...this.held.map((award) => award.row), row];
    return this.crr.test_book({ ...this.tables, book: bookFileOf(this.crr, this.opened, rows) });
  }
}
