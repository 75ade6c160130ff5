// A case with its changes: the tables that follow from both, and every figure of them.
import { constants } from "../crr.mjs";
import { bookFileOf } from "./case.mjs";
import { changed, Changes } from "./changes.mjs";
import { Figures } from "./figures.mjs";
import { LINES } from "./words.mjs";

function withRow(row, version) {
  const quantity = version.get(`q${row.key}`);
  return quantity === undefined ? row : { ...row, quantity };
}

// The contracts of a version: those of the book that are not dropped, then the added ones.
export function rowsAt(opened, version) {
  const kept = opened.rows.filter((row) => !version.has(`d${row.key}`)).map((row) => withRow(row, version));
  const added = [...version].filter(([target]) => target[0] === "a");
  return [
    ...kept,
    ...added.map(([target, [kind, period, holder, source, sink, quantity]]) => {
      return { key: target, kind, period, holder, source, sink, quantity };
    }),
  ];
}

function limitsAt(opened, version) {
  const limits = opened.grid.limits.slice();
  for (const [target, value] of version) {
    const k = Number(target.slice(1));
    if (target[0] === "l" && k < limits.length) limits[k] = BigInt(value);
  }
  return limits;
}

function hourAt(opened, version, number) {
  const hour = opened.hours[number];
  const prices = hour.prices.slice();
  for (const [target, value] of version) {
    const [of, k] = target.slice(1).split(".").map(Number);
    if (target[0] === "p" && of === number && k < prices.length) prices[k] = BigInt(value);
  }
  return { ...hour, prices };
}

const rowKey = (row) => [row.key, row.kind, row.holder, row.source, row.sink, row.quantity].join(" ");

// Whether each change speaks of something that the case has; a link may be damaged.
function checkTargets(opened, version) {
  const { grid, rows, hours } = opened;
  for (const target of version.keys()) {
    const [first, second] = target.slice(1).split(".").map(Number);
    const known =
      target[0] === "a" ||
      ("qd".includes(target[0]) && first < rows.length) ||
      (target[0] === "l" && first < grid.constraints) ||
      (target[0] === "p" && first < hours.length && second < grid.constraints);
    if (!known) throw new Error(`the case has nothing that ${target} would change`);
  }
}

export class Model {
  constructor(crr, opened) {
    this.crr = crr;
    this.opened = opened;
    this.figures = new Figures(crr);
    this.changes = new Changes();
    this.known = [];
    this.hour = 0;
    this.process = constants.MONTHLY; // whose rent an hour is given
    this.work(new Map());
  }

  // Works everything out for a version; a refusal leaves the model as it was.
  work(version) {
    checkTargets(this.opened, version);
    const grid = { ...this.opened.grid, limits: limitsAt(this.opened, version) };
    const rows = rowsAt(this.opened, version);
    const book = bookFileOf(this.crr, this.opened, rows);
    const judged = this.judge(grid, rows, book);
    const priced = hourAt(this.opened, version, this.hour);
    const hour = this.figures.hour(grid, rows, book, priced, this.process);
    this.now = { grid, rows, book, ...judged, priced, hour, version };
  }

  // Verdicts and loading. A period whose contracts and limits are those of before has the figures of before.
  judge(grid, rows, book) {
    const limits = grid.limits.join();
    const periods = [constants.OFF_PEAK, constants.ON_PEAK].map((period) => {
      const key = `${limits} ${rows.filter((row) => row.period === period).map(rowKey).join()}`;
      if (this.known[period]?.key === key) return this.known[period];
      return (this.known[period] = { key, ...this.figures.period(grid, rows, book, period) });
    });
    const lines = LINES.map(({ period, process }) => periods[period].lines[process]);
    return { lines, loading: this.figures.loading(grid, periods) };
  }

  // Takes a version where the library takes it; else throws its refusal, and nothing has changed.
  take(version, touched = "") {
    this.work(version);
    this.changes.take(version, touched);
  }

  set(target, value, touched = "") {
    this.take(changed(this.changes.now, [[target, value]]), touched);
  }

  // Changes back to what the case has are no changes.
  setQuantity(key, quantity, touched = "") {
    if (key[0] === "a") {
      const cells = [...this.changes.now.get(key).slice(0, 5), quantity];
      this.set(key, cells, touched);
    } else {
      const same = quantity === this.opened.rows[Number(key)].quantity;
      this.set(`q${key}`, same ? undefined : quantity, touched);
    }
  }

  drop(key) {
    if (key[0] === "a") this.set(key, undefined);
    else this.set(`d${key}`, true);
  }

  add(row) {
    const used = [...this.changes.now.keys()].filter((target) => target[0] === "a");
    const number = 1 + Math.max(0, ...used.map((target) => Number(target.slice(1))));
    this.set(`a${number}`, [row.kind, row.period, row.holder, row.source, row.sink, row.quantity]);
    return `a${number}`;
  }

  setLimit(k, limit, touched = "") {
    const same = BigInt(limit) === this.opened.grid.limits[k];
    this.set(`l${k}`, same ? undefined : limit, touched);
  }

  setPrice(k, price, touched = "") {
    const same = BigInt(price) === this.opened.hours[this.hour].prices[k];
    this.set(`p${this.hour}.${k}`, same ? undefined : price, touched);
  }

  // A cut of the whole quantity takes the contract out.
  takeCut({ row, cut }) {
    if (cut === row.quantity) this.drop(row.key);
    else this.setQuantity(row.key, row.quantity - cut);
  }

  // The worst prices of a period and process, in the hour of one's own of that period, which is picked.
  tryPrices({ period, process, exposure: { prices } }) {
    this.process = process;
    this.hour = this.opened.given + (period === 1 ? 0 : 1);
    const target = (k) => `p${this.hour}.${k}`;
    const entries = Array.from(prices, (price, k) => [target(k), price ? Number(price) : undefined]);
    this.take(changed(this.changes.now, entries));
  }

  pick(hour, process = this.process) {
    Object.assign(this, { hour, process });
    this.work(this.changes.now);
  }

  // The changes and the hour of a link; refused, all is as before.
  apply({ hour, version }) {
    const before = this.hour;
    this.hour = Math.min(hour, this.opened.hours.length - 1);
    try {
      this.take(version);
    } catch (problem) {
      this.hour = before;
      throw problem;
    }
  }

  step(by) {
    this.changes.step(by);
    this.work(this.changes.now);
  }

  // The cents of each contract over all hours of the case, hour after hour, by what asks for them.
  *everyHour() {
    const { grid, rows, book, version } = this.now;
    const sums = rows.map((row) => ({ row, cents: 0n }));
    for (const { number } of this.opened.hours.slice(0, this.opened.given)) {
      const cents = this.figures.cents(grid, book, hourAt(this.opened, version, number));
      cents.forEach((amount, i) => (sums[i].cents += amount));
      yield { sums, done: number + 1 };
    }
  }

  // The id of a contract, by its key.
  id(key) {
    return this.opened.ids.get(key) ?? `new ${key.slice(1)}`;
  }
}
