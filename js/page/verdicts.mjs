// The verdicts by period and process, with the cuts that clear a failing book, and the same in short.
import { exactMoney, flowWords, limitWords } from "./decimals.mjs";
import { byId, figure, make, namesOn, redraw } from "./dom.mjs";
import { counted, lineWords, PROCESSES } from "./words.mjs";

const MOST_CUTS = 5; // shown at once; the others unfold
const MOST_NAMES = 8;

export const stateOf = (line) => (line.overloaded.length === 0 ? "pass" : "fail");
const mark = (line) => (stateOf(line) === "pass" ? "\u2713 pass" : "\u2717 FAIL");

// Whether an edit left all verdicts, and what goes with them, as they were.
export function sameLines(before, lines) {
  return before !== undefined && lines.every((line, i) => line === before[i]);
}

// $1,125.00, or between that and more.
export function costWords({ least, most }) {
  return least === most ? exactMoney(least) : `between ${exactMoney(least)} and ${exactMoney(most)}`;
}

// Where the book fails: the lowest numbered with its excess, and all by name.
function whereWords(app, line) {
  const { names } = app.model.opened;
  const { count, lowest, excess } = line.verdict;
  const by = figure(flowWords(excess), excess);
  const at = make("p", {}, namesOn([names.constraints[lowest]]), ", by ", by, " MW.");
  const all = line.overloaded.map((k) => names.constraints[k]);
  at.prepend(count === 1 ? "1 constraint overloaded: " : "Lowest numbered: ");
  if (count === 1) return [at];
  const others = all.length > MOST_NAMES ? [counted(all.length - MOST_NAMES, "other")] : [];
  const named = namesOn(all.slice(0, MOST_NAMES), others);
  return [make("p", {}, `${counted(count, "constraint")} overloaded: `, named, "."), at];
}

function cutRow(app, line, cut) {
  const { row } = cut;
  const name = app.model.id(row.key);
  const take = make("button", {
    type: "button",
    "data-take": `${line.name} ${row.key}`,
    "data-focus": `take ${line.name} ${row.key}`,
    "aria-label": `Take the cut of ${name} by ${limitWords(cut.cut)} MW`,
    onclick: () => app.edit(() => app.model.takeCut(cut)),
  }, "Take it");
  const who = make("small", {}, app.model.opened.names.owner(row.holder));
  return make("tr", { "data-cut": row.key, "data-value": cut.cut },
    make("th", { scope: "row" }, name, " ", who),
    make("td", { class: "figure" }, limitWords(cut.cut)),
    make("td", { class: "figure" }, limitWords(row.quantity - cut.cut)),
    make("td", { class: "figure" }, take));
}

function cutTable(line, rows) {
  const heads = ["contract", "cut, MW", "left, MW"].map((name, i) =>
    make("th", { scope: "col", class: i ? "figure" : undefined }, name));
  const last = make("th", { scope: "col" }, make("span", { class: "unseen" }, "take it"));
  const head = make("thead", {}, make("tr", {}, heads, last));
  const label = `Cuts that clear ${lineWords(line)}`;
  return make("table", { class: "cuts", "aria-label": label }, head, make("tbody", {}, rows));
}

// A long list of cuts is drawn when it is unfolded.
function cutsPart(app, line, unfolded) {
  if (line.cuts.length === 0) return [make("p", {}, "No cut of a single contract clears it.")];
  const rows = (cuts) => cuts.map((cut) => cutRow(app, line, cut));
  const words = line.cuts.length > 1 ? "Any one of these cuts clears it:" : "This cut clears it:";
  const parts = [make("p", {}, words), cutTable(line, rows(line.cuts.slice(0, MOST_CUTS)))];
  const more = line.cuts.slice(MOST_CUTS);
  if (more.length === 0) return parts;
  const rest = make("details", { "data-more": line.name }, make("summary", {}, `${more.length} more`));
  const unfold = () => rest.open && rest.childElementCount === 1 && rest.append(cutTable(line, rows(more)));
  rest.addEventListener("toggle", () => {
    unfolded[rest.open ? "add" : "delete"](line.name);
    unfold();
  });
  rest.open = unfolded.has(line.name);
  unfold();
  return [...parts, rest];
}

export class Verdicts {
  constructor(app) {
    this.app = app;
    this.unfolded = new Set();
    this.before = undefined;
  }

  update({ lines }) {
    if (sameLines(this.lines, lines)) return;
    this.lines = lines;
    const heading = byId("verdicts-head");
    redraw(byId("verdicts"), lines.map((line) => this.card(line)), heading);
    redraw(byId("chips"), lines.map((line) => this.chip(line)), heading);
    this.speak(lines);
  }

  card(line) {
    const state = stateOf(line);
    const percent = `(${this.app.model.figures.percents[line.process]}% released)`;
    const head = make("h3", {}, `${lineWords(line)} `, make("span", { class: "faint" }, percent));
    const data = { "data-verdict": line.name, "data-state": state, "data-count": line.verdict.count };
    if (state === "fail") {
      data["data-lowest"] = line.verdict.lowest;
      data["data-excess"] = line.verdict.excess;
      data["data-overloaded"] = line.overloaded.join(" ");
    }
    const told = state === "pass" ? [] : this.told(line);
    return make("li", { class: state, ...data }, head, make("b", {}, mark(line)), told);
  }

  // Of a failing book: where, what it costs, and what clears it.
  told(line) {
    const cost = costWords(line.exposure);
    const worst = make("p", {}, `At worst an hour pays ${cost} more than its congestion rent.`);
    return [whereWords(this.app, line), worst, cutsPart(this.app, line, this.unfolded)];
  }

  chip(line) {
    const text = `${lineWords(line)}: ${stateOf(line) === "pass" ? "passes" : "fails"}`;
    const short = `${line.period ? "ON" : "OFF"} ${PROCESSES[line.process]}`;
    return make("li", { class: stateOf(line), "data-chip": line.name, title: text },
      make("span", { "aria-hidden": "true" }, `${stateOf(line) === "pass" ? "\u2713" : "\u2717"} ${short}`),
      make("span", { class: "unseen" }, text));
  }

  // Says which verdicts have changed.
  speak(lines) {
    const now = lines.map(stateOf);
    const changed = this.before ? lines.filter((line, i) => now[i] !== this.before[i]) : [];
    this.before = now;
    if (changed.length === 0) return;
    const state = (line) => (stateOf(line) === "pass" ? "passes now" : "fails now");
    const words = changed.map((line) => `${lineWords(line)} ${state(line)}`);
    this.app.say(`${words.join(". ")}.`);
  }
}
