// The contracts: a list in which quantities are changed and contracts dropped, and forms for new ones.
import { decimal, PLACES, whole } from "./decimals.mjs";
import { byId, fill, make, options, show } from "./dom.mjs";
import { List } from "./list.mjs";
import { counted, KINDS, PERIODS } from "./words.mjs";

const COLUMNS = [
  ["contract", "id"],
  ["owner", "owner"],
  ["kind", "kind"],
  ["from \u2192 to", "ends"],
  ["MW", "mw"],
  ["", "act"],
];

export class Contracts {
  constructor(app) {
    this.app = app;
    this.list = new List(byId("contracts"), {
      label: "Contracts",
      columns: COLUMNS,
      key: (row) => row.key,
      row: () => this.cells(),
      fill: (element, row) => this.fill(element, row),
    });
    byId("find").addEventListener("input", () => this.update(app.model.now));
    awardForm(app, "add", (row) => app.say(`${app.model.id(app.model.add(row))} added.`));
  }

  cells() {
    const input = make("input", { inputmode: "decimal", autocomplete: "off", "data-column": "mw" });
    const key = () => input.closest("[data-key]").dataset.key;
    const take = (mw) => this.app.model.setQuantity(key(), Number(mw), `q${key()}`);
    this.app.field(input, PLACES.quantity, take);
    const pressed = { onclick: () => this.drop(key()) };
    const drop = make("button", { type: "button", "data-column": "drop", ...pressed }, "Drop");
    const of = { id: "", owner: "", kind: "", ends: "", mw: input, act: drop };
    return Object.entries(of).map(([kind, content]) => ({ kind, of: content }));
  }

  // The focus goes on to the contract that follows.
  drop(key) {
    const at = this.shown.findIndex((row) => row.key === key);
    const next = this.shown[at + 1] ?? this.shown[at - 1];
    this.app.edit(() => this.app.model.drop(key));
    this.app.say(`${this.app.model.id(key)} dropped.`);
    const row = next && this.list.rows.get(next.key);
    (row?.querySelector("[data-column=drop]") ?? byId("contracts-head")).focus({ preventScroll: true });
  }

  fill(element, row) {
    const { model } = this.app;
    const { names, rows } = model.opened;
    const [id, owner, kind, ends, mw, act] = element.children;
    const name = model.id(row.key);
    const before = row.key[0] === "a" ? undefined : rows[Number(row.key)].quantity;
    element.dataset.contract = row.key;
    element.dataset.value = row.quantity;
    show(id, name);
    show(owner, names.owner(row.holder));
    show(kind, `${PERIODS[row.period]} ${KINDS[row.kind]}`);
    show(ends, `${names.nodes[row.source]} \u2192 ${names.nodes[row.sink]}`);
    ends.title = ends.textContent;
    const input = mw.firstChild;
    fill(input, decimal(row.quantity, PLACES.quantity));
    input.dataset.quantity = row.key;
    input.setAttribute("aria-label", `Quantity of ${name}, MW`);
    input.classList.toggle("changed", before !== row.quantity);
    act.firstChild.dataset.drop = row.key;
    act.firstChild.setAttribute("aria-label", `Drop ${name}`);
  }

  // Whether a contract has a text in its id, owner or nodes.
  has(row, text) {
    const { names } = this.app.model.opened;
    const ends = [names.nodes[row.source], names.nodes[row.sink]];
    const words = [this.app.model.id(row.key), names.owner(row.holder), ...ends];
    return words.some((word) => word.toLowerCase().includes(text));
  }

  update({ rows }) {
    const text = byId("find").value.trim().toLowerCase();
    this.shown = text ? rows.filter((row) => this.has(row, text)) : rows;
    const all = counted(rows.length, "contract");
    show(byId("found"), text ? `${this.shown.length} of ${all}` : all);
    this.list.show(this.shown);
  }
}

// The number of a name, or of a number itself where no name is so.
function numberOf(text, byName, what) {
  const known = byName.get(text.trim());
  if (known !== undefined) return known;
  if (/^[0-9]{1,9}$/.test(text.trim())) return Number(text);
  throw new Error(`${what}: ${text} is not known`);
}

// Makes a contract of what a form has.
function contractOf(app, prefix) {
  const value = (name) => byId(`${prefix}-${name}`).value;
  const quantity = Number(whole(value("mw"), PLACES.quantity));
  if (quantity < 0) throw new Error("MW: above 0, please");
  return {
    kind: Number(value("kind")),
    period: Number(value("period")),
    holder: numberOf(value("owner"), app.owners, "owner"),
    source: numberOf(value("source"), app.nodes, "from"),
    sink: numberOf(value("sink"), app.nodes, "to"),
    quantity,
  };
}

// A form for a contract; what it makes is taken, or told why it was not.
export function awardForm(app, prefix, take) {
  options(byId(`${prefix}-kind`), KINDS.map((name, i) => [i, name]));
  options(byId(`${prefix}-period`), [[1, PERIODS[1]], [0, PERIODS[0]]]);
  byId(prefix).addEventListener("submit", (event) => {
    event.preventDefault();
    const problem = byId(`${prefix}-problem`);
    show(problem, "");
    app.edit(() => take(contractOf(app, prefix)), (text) => show(problem, text));
  });
}
