// What was changed: listed, undone and redone, saved as files, or copied as a link.
import { fragmentOf } from "./changes.mjs";
import { cents, limitWords } from "./decimals.mjs";
import { byId, make, redraw, show } from "./dom.mjs";
import { save } from "./files.mjs";
import { writeNames } from "./names.mjs";
import { counted, hourName, KINDS, PERIODS } from "./words.mjs";

// A change in words: limit of North line: 100.000 to 80.000 MW.
export function changeWords(model, target, value) {
  const { names, rows, grid, hours } = model.opened;
  const [first, second] = target.slice(1).split(".").map(Number);
  const change = (before) => `${limitWords(before)} to ${limitWords(value)} MW`;
  if (target[0] === "d") return `contract ${model.id(String(first))} dropped`;
  if (target[0] === "q") return `contract ${model.id(String(first))}: ${change(rows[first].quantity)}`;
  if (target[0] === "l") return `limit of ${names.constraints[first]}: ${change(grid.limits[first])}`;
  if (target[0] === "p") {
    const before = hours[first].prices[second];
    const when = hourName(hours[first]) || "the hour";
    return `price of ${names.constraints[second]}, ${when}: ${cents(before)} to ${cents(value)}`;
  }
  const [kind, period, holder, source, sink, quantity] = value;
  const ends = `${names.nodes[source]} \u2192 ${names.nodes[sink]}`;
  const words = `${PERIODS[period]} ${KINDS[kind]} of ${names.owner(holder)}, ${ends}`;
  return `contract ${model.id(target)} added: ${words}, ${limitWords(quantity)} MW`;
}

// names.csv of the case as it is now, for the hour that is saved.
function namesFile(model) {
  const { names, hours } = model.opened;
  const { rows, grid } = model.now;
  const hour = hours[model.hour];
  return writeNames([
    ...names.nodes.map((name, i) => ["node", i, name]),
    ...names.constraints.map((name, i) => ["constraint", i, name]),
    ...rows.map((row, i) => ["contract", i, model.id(row.key)]),
    ...Object.entries(names.owners).map(([number, name]) => ["holder", number, name]),
    ...(grid.form ? [["form", 0, "wide"]] : []),
    ...(model.crr.read_book({ ...grid, file: model.now.book }).form ? [["form", 1, "wide"]] : []),
    ...(hour.hour ? [["hour", 0, hourName(hour)]] : []),
  ]);
}

// A button that is no longer to be pressed hands the focus on.
function enable(id, can, other) {
  const focused = byId(id) === document.activeElement;
  byId(id).disabled = !can;
  if (!can && focused) {
    byId(other).disabled = false;
    byId(other).focus();
  }
}

export class History {
  constructor(app) {
    this.app = app;
    byId("undo").onclick = () => app.edit(() => app.model.step(-1));
    byId("redo").onclick = () => app.edit(() => app.model.step(1));
    byId("undo-all").onclick = () => app.edit(() => app.model.take(new Map()));
    byId("copy-link").onclick = () => this.copy();
    byId("save-grid").onclick = () => save("grid.bin", app.model.crr.write_grid(app.model.now.grid).file);
    byId("save-book").onclick = () => save("book.bin", app.model.now.book);
    byId("save-prices").onclick = () => this.savePrices();
    byId("save-names").onclick = () => save("names.csv", new TextEncoder().encode(namesFile(app.model)));
    document.addEventListener("keydown", (event) => this.key(event));
  }

  savePrices() {
    const { crr, now } = this.app.model;
    save("prices.bin", crr.write_prices({ ...now.priced, constraints: now.grid.constraints }).file);
  }

  // Undo and redo by keys, where no text is being typed.
  key(event) {
    const typing = event.target.matches?.("input, select");
    const pressed = (event.ctrlKey || event.metaKey) && event.key.toLowerCase() === "z";
    if (typing || !pressed || !this.app.model) return;
    event.preventDefault();
    this.app.edit(() => this.app.model.step(event.shiftKey ? 1 : -1));
  }

  get link() {
    const { opened, hour, changes } = this.app.model;
    return `${location.href.split("#")[0]}#${fragmentOf(opened.hash, hour, changes.now)}`;
  }

  async copy() {
    const field = byId("link");
    field.hidden = false;
    field.value = this.link;
    field.select();
    let copied = false;
    try {
      await navigator.clipboard.writeText(field.value);
      copied = true;
    } catch {
      copied = document.execCommand("copy");
    }
    const words = "Opened with this page of the same case, it applies the changes again.";
    show(byId("link-words"), `${copied ? "Copied" : "Copy this"}. ${words}`);
  }

  row(target, value) {
    const words = changeWords(this.app.model, target, value);
    const button = make("button", {
      type: "button",
      "data-undo": target,
      "data-focus": `undo ${target}`,
      "aria-label": `Undo: ${words}`,
      onclick: () => this.app.edit(() => this.app.model.set(target, undefined)),
    }, "Undo");
    return make("li", { "data-change": target }, make("span", {}, words), button);
  }

  update() {
    const { changes } = this.app.model;
    const rows = [...changes.now].map(([target, value]) => this.row(target, value));
    redraw(byId("changes"), rows, byId("changes-head"));
    byId("no-changes").hidden = rows.length > 0;
    byId("undo-all").disabled = rows.length === 0;
    enable("undo", changes.canUndo, "redo");
    enable("redo", changes.canRedo, "undo");
    show(byId("change-count"), rows.length ? counted(rows.length, "change") : "no changes");
    if (!byId("link").hidden) byId("link").value = this.link;
  }
}
