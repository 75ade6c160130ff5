// The page: what it holds, the case that it is on, and what happens to it.
import { constants, load, Refused } from "../crr.mjs";
import { openCase } from "./case.mjs";
import { readFragment } from "./changes.mjs";
import { Contracts } from "./contracts.mjs";
import { whole } from "./decimals.mjs";
import { byId, faulty, make, show } from "./dom.mjs";
import { Exposure } from "./exposure.mjs";
import { dropped, embedded, fromBase64, Held } from "./files.mjs";
import { History } from "./history.mjs";
import { Hour } from "./hour.mjs";
import { Loading } from "./loading.mjs";
import { Model } from "./model.mjs";
import { sha256 } from "./sha256.mjs";
import { Tiers } from "./tiers.mjs";
import { Verdicts } from "./verdicts.mjs";
import { counted } from "./words.mjs";

const root = document.documentElement;
const VIEWS = [Verdicts, Loading, Contracts, Exposure, Hour, Tiers, History];

// The units that the library's sentences count in, where the page has others.
const UNITS = {
  [constants.LIMIT_RANGE]: " thousandths of a MW",
  [constants.QUANTITY_RANGE]: " thousandths of a MW",
  [constants.PRICE_RANGE]: " cents per MWh",
};

// What went wrong, as the library or the page says it.
function problemWords(problem) {
  if (!(problem instanceof Refused)) return problem.message;
  return `refused ${problem.number}: ${problem.text}${UNITS[problem.number] ?? ""}`;
}

const message = ({ text, number }) =>
  make("p", { class: "problem", "data-message": text, "data-refusal": number || undefined }, text);

class App {
  constructor(crr) {
    this.crr = crr;
    this.held = new Held();
    this.views = VIEWS.map((View) => new View(this));
    this.listen();
  }

  listen() {
    for (const id of ["files", "folder"]) {
      byId(id).addEventListener("change", (event) => {
        const path = (file) => file.webkitRelativePath || file.name;
        const files = Array.from(event.target.files, (file) => ({ path: path(file), file }));
        event.target.value = "";
        this.take(files);
      });
    }
    byId("open-other").onclick = () => this.wait();
    document.addEventListener("dragover", (event) => event.preventDefault());
    document.addEventListener("drop", async (event) => {
      event.preventDefault();
      this.take(await dropped(event.dataTransfer));
    });
    addEventListener("hashchange", () => this.model && this.applyLink());
    addEventListener("beforeprint", () => this.print(true));
    addEventListener("afterprint", () => this.print(false));
  }

  // Waits for files.
  wait() {
    byId("waiting").hidden = false;
    root.dataset.state = this.model ? "open" : "waiting";
    byId("files").focus();
  }

  // Messages above all else; none clears them.
  tell(texts) {
    byId("messages").replaceChildren(...texts.map(message));
  }

  say(text) {
    clearTimeout(this.saying);
    this.saying = setTimeout(() => show(byId("spoken"), text), 150);
  }

  // Takes files; where grid and book are there the case is opened.
  async take(files) {
    const told = [];
    for (const { path, file } of files) {
      try {
        const text = this.held.take(path, new Uint8Array(await file.arrayBuffer()));
        if (text) told.push({ text });
      } catch (problem) {
        told.push({ text: problem.message });
      }
    }
    if (this.held.any && (this.model || this.held.missing.length === 0)) told.push(...this.openHeld());
    const { missing } = this.held;
    show(byId("held"), this.model || missing.length === 0 ? "" : `Still missing: ${missing.join(" and ")}.`);
    this.tell(told);
  }

  openHeld() {
    try {
      const { notes } = this.held;
      this.open(this.model ? this.held.filesOn(this.files) : this.held.files);
      this.held = new Held();
      return notes;
    } catch (problem) {
      if (this.model) this.held = new Held();
      else this.held.forget(problem.file);
      return [{ text: problemWords(problem), number: problem.number }];
    }
  }

  open(files) {
    const began = performance.now();
    this.model = new Model(this.crr, openCase(this.crr, files));
    this.files = files;
    const { opened } = this.model;
    const { nodes, constraints } = opened.grid;
    const counts = { node: nodes, constraint: constraints, contract: opened.rows.length, hour: opened.given };
    const words = Object.entries(counts).map(([what, count]) => counted(count, what));
    show(byId("title"), opened.title);
    document.title = `${opened.title}: try a book of congestion revenue rights`;
    show(byId("summary"), `${words.join(", ")}.`);
    show(byId("case-hash"), opened.hash);
    this.know();
    byId("waiting").hidden = true;
    for (const id of ["parts", "strip", "other-files", "case-hash-words"]) byId(id).hidden = false;
    for (const view of this.views) view.open?.();
    this.update(began);
    root.dataset.state = "open";
    this.applyLink();
  }

  // Nodes and owners by name, for forms.
  know() {
    const { names } = this.model.opened;
    this.nodes = new Map(names.nodes.map((name, number) => [name, number]));
    this.owners = new Map(Object.entries(names.owners).map(([number, name]) => [name, Number(number)]));
    byId("nodes").replaceChildren(...names.nodes.map((value) => make("option", { value })));
    byId("owners").replaceChildren(...[...this.owners.keys()].map((value) => make("option", { value })));
  }

  // Applies the changes of a link where they are of this case.
  applyLink() {
    try {
      const read = readFragment(location.hash, this.model.opened.hash);
      if (!read) return;
      this.model.apply(read);
      this.update();
      this.say(`${counted(read.version.size, "change")} of the link applied.`);
    } catch (problem) {
      this.tell([{ text: problemWords(problem), number: problem.number }]);
    }
  }

  // An edit: every figure follows, or why it was not taken is told.
  edit(doing, told = (text) => this.tell([{ text }])) {
    const began = performance.now();
    try {
      doing();
    } catch (problem) {
      told(problemWords(problem));
      return false;
    }
    this.tell([]);
    this.update(began);
    return true;
  }

  update(began = performance.now()) {
    const worked = performance.now();
    for (const view of this.views) view.update(this.model.now);
    root.dataset.worked = (worked - began).toFixed(1);
    root.dataset.edit = (performance.now() - began).toFixed(1);
    root.dataset.edits = String(Number(root.dataset.edits ?? 0) + 1);
  }

  // A field of decimals: figures follow while it is typed; what is not taken is marked and told. Left with a
  // text that is not taken, it has what it had before.
  field(input, places, take) {
    let before;
    const told = (text) => {
      faulty(input, text);
      this.tell([{ text }]);
    };
    input.addEventListener("input", () => {
      before ??= this.model.changes.now;
      if (this.edit(() => take(within(input.value, places)), told)) faulty(input);
    });
    input.addEventListener("blur", () => {
      if (before === undefined) return;
      const back = input.classList.contains("faulty") && this.model.changes.now !== before;
      before = undefined;
      faulty(input);
      this.model.changes.settle();
      queueMicrotask(() => {
        if (back) this.model.step(-1);
        this.update();
      });
    });
  }

  // All rows of the lists on paper.
  print(whole) {
    for (const view of this.views) for (const each of Object.values(view)) each?.drawWhole?.(whole);
  }
}

// A decimal that is not below 0: the library's own ranges follow.
function within(text, places) {
  const number = whole(text, places);
  if (number < 0n) throw new Error("not below 0, please");
  return number;
}

async function start() {
  const wasm = fromBase64(byId("wasm").textContent);
  const same = sha256(wasm) === root.dataset.wasm;
  if (!same) throw new Error("its WebAssembly is not the one that it was made with");
  show(byId("wasm-same"), "(worked out again here: the same)");
  const app = new App(await load(wasm));
  show(byId("interface"), String(constants.INTERFACE));
  const files = embedded(byId("case").textContent);
  if (files) app.open(files);
  else app.wait();
}

start().catch((problem) => {
  root.dataset.state = "failed";
  byId("messages").append(message({ text: `The page could not start: ${problemWords(problem)}` }));
});
