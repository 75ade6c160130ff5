// An hour: its prices, which can be set, the statement, rent and shortfall, and what holders are paid.
import { cents, decimal, exactMoney, PLACES } from "./decimals.mjs";
import { byId, fill, make, options, show } from "./dom.mjs";
import { holderSums } from "./figures.mjs";
import { List } from "./list.mjs";
import { hourName, KINDS, PERIODS, PROCESSES } from "./words.mjs";

const SLICE = 4; // milliseconds of work on all hours before the page has its turn

const SUMS = [
  ["sum", "payments, rounded cents"],
  ["exact", "payments, exact"],
  ["rent", "congestion rent"],
  ["shortfall", "shortfall"],
];

const STATEMENT = [
  ["contract", "id"],
  ["owner", "owner"],
  ["kind", "kind"],
  ["priced by", "ends"],
  ["amount", "mw"],
];

export class Hour {
  constructor(app) {
    this.app = app;
    const parts = SUMS.map(([id, name]) => make("div", {}, make("dt", {}, name), make("dd", { id })));
    byId("sums").replaceChildren(...parts);
    byId("hour").onchange = (event) => app.edit(() => app.model.pick(Number(event.target.value)));
    options(byId("rent-process"), PROCESSES.map((name, i) => [i, name]));
    byId("rent-process").onchange = ({ target: { value } }) =>
      app.edit(() => app.model.pick(app.model.hour, Number(value)));
    this.prices = new List(byId("prices"), this.pricesList());
    this.statement = new List(byId("statement"), this.statementList());
    this.holders = new List(byId("holders"), this.holdersList());
  }

  pricesList() {
    return {
      label: "Shadow prices of the hour",
      columns: [["constraint", "id"], ["$/MWh", "mw"]],
      key: (item) => String(item.k),
      row: () => [{ kind: "id", of: "" }, { kind: "mw", of: this.priceField() }],
      fill: (element, { k, price }) => {
        const [name, cell] = element.children;
        const input = cell.firstChild;
        show(name, this.app.model.opened.names.constraints[k]);
        element.classList.toggle("zero", price === 0n);
        input.dataset.shadow = k;
        input.dataset.value = price;
        input.setAttribute("aria-label", `Shadow price of ${name.textContent}, dollars per MWh`);
        const { opened, hour } = this.app.model;
        input.classList.toggle("changed", opened.hours[hour].prices[k] !== price);
        fill(input, decimal(price, PLACES.price));
      },
    };
  }

  priceField() {
    const input = make("input", { inputmode: "decimal", autocomplete: "off", "data-column": "price" });
    this.app.field(input, PLACES.price, (price) => {
      const k = Number(input.dataset.shadow);
      this.app.model.setPrice(k, Number(price), `p${this.app.model.hour}.${k}`);
    });
    return input;
  }

  statementList() {
    return {
      label: "Statement of the hour",
      columns: STATEMENT,
      key: (item) => item.row.key,
      row: () => STATEMENT.map(([, kind]) => ({ kind, of: "" })),
      fill: (element, { row, cents: amount, priced }) => {
        const { names } = this.app.model.opened;
        const [id, owner, kind, by, paid] = element.children;
        element.dataset.settled = row.key;
        element.dataset.value = amount;
        element.dataset.priced = priced.length;
        show(id, this.app.model.id(row.key));
        show(owner, names.owner(row.holder));
        show(kind, KINDS[row.kind]);
        show(by, priced.map((k) => names.constraints[k]).join(", "));
        by.title = by.textContent;
        show(paid, cents(amount), amount);
      },
    };
  }

  holdersList() {
    return {
      label: "Payments by holder",
      columns: [["holder", "id"], ["this hour", "mw"], ["all hours", "mw"]],
      key: (item) => String(item.holder),
      row: () => ["id", "mw", "mw"].map((kind) => ({ kind, of: "" })),
      fill: (element, { holder, hour, all }) => {
        const [name, now, ever] = element.children;
        element.dataset.holder = holder;
        show(name, this.app.model.opened.names.owner(holder));
        show(now, hour === undefined ? "" : cents(hour), hour ?? "");
        show(ever, all === undefined ? "" : cents(all), all ?? "");
      },
    };
  }

  // A new case: its hours.
  open() {
    const { hours } = this.app.model.opened;
    this.sumsBefore = undefined;
    const name = (hour) => `${hourName(hour) || "the hour"}${hour.own ? "" : ` (${PERIODS[hour.period]})`}`;
    options(byId("hour"), hours.map((hour) => [hour.number, name(hour)]));
  }

  update({ hour, priced }) {
    byId("hour").value = String(this.app.model.hour);
    byId("rent-process").value = String(hour.process);
    this.prices.show(Array.from(priced.prices, (price, k) => ({ k, price })));
    this.statement.show(hour.contracts);
    this.sums(hour);
    this.all(hour.holders);
  }

  sums(hour) {
    show(byId("sum"), cents(hour.sum), hour.sum);
    for (const id of ["exact", "rent", "shortfall"]) show(byId(id), exactMoney(hour[id]), hour[id]);
    byId("shortfall").classList.toggle("short", hour.shortfall > 0n);
  }

  // Sums over all hours, in slices after the edit, so that a month of a large case holds nothing up. The next
  // edit begins anew.
  all(hour) {
    clearTimeout(this.timer);
    const { given } = this.app.model.opened;
    const steps = this.app.model.everyHour();
    let last;
    const work = () => {
      for (const until = performance.now() + SLICE; performance.now() < until; ) {
        const { value, done } = steps.next();
        if (done) return this.showHolders(hour, holderSums(last?.sums ?? []), "done");
        last = value;
      }
      show(byId("holders-words"), `All hours: ${last.done} of ${given} settled so far.`);
      this.timer = setTimeout(work);
      return undefined;
    };
    this.showHolders(hour, this.sumsBefore ?? new Map(), "working");
    this.timer = setTimeout(work);
  }

  showHolders(hour, all, state) {
    const { given } = this.app.model.opened;
    const holders = [...new Set([...all.keys(), ...hour.keys()])].sort((a, b) => a - b);
    this.sumsBefore = all;
    this.holders.show(holders.map((holder) => ({ holder, hour: hour.get(holder), all: all.get(holder) })));
    byId("holders").dataset.state = state;
    const words = `All hours: the ${given} of the case, with their prices as set.`;
    show(byId("holders-words"), given ? words : "The case has no prices.");
  }
}
