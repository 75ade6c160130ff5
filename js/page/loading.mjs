// Loading of constraints: a bar for each period against the limit, a mark for what each process releases,
// and the limit, which can be changed.
import { constants } from "../crr.mjs";
import { decimal, flowWords, limitWords, percentWords, PLACES } from "./decimals.mjs";
import { byId, draw, fill, make, show } from "./dom.mjs";
import { PERIODS, PROCESSES } from "./words.mjs";

const LONGEST = 1.5; // of a limit: a longer bar ends there, and its figure tells
const KEYS = [["within", "within in every process"], ["some", "over in some"], ["over", "over in all"]];
const IN_ORDER = [constants.ON_PEAK, constants.OFF_PEAK];

// A limit in the unit of flows.
const limitFlow = ({ limit }) => limit * 10n ** BigInt(PLACES.flow - PLACES.limit);

// A flow as a share of the limit, for drawing alone; of nothing everything is too much.
function share(constraint, { flow }) {
  const limit = Number(limitFlow(constraint));
  return limit ? Number(flow) / limit : flow > 0n ? 1e9 : 0;
}

function kindOf({ over }) {
  if (over.length === 0) return "within";
  return over.length === PROCESSES.length ? "over" : "some";
}

function barOf(percents) {
  const rect = (kind) => draw("rect", { class: kind, y: 3, height: 12 });
  const parts = { track: rect("track"), bar: rect("within"), hatch: rect("hatched") };
  parts.track.setAttribute("width", "100%");
  parts.hatch.setAttribute("fill", "url(#hatch)");
  parts.marks = percents.map((_, process) => draw("line", { class: `mark mark${process}`, y1: 0, y2: 18 }));
  parts.svg = draw("svg", { "aria-hidden": "true" }, parts.track, parts.bar, parts.hatch, ...parts.marks);
  return parts;
}

function drawBar(parts, constraint, period, full) {
  const of = share(constraint, period);
  const width = `${(Math.max(0, Math.min(of, full)) / full) * 100}%`;
  const kind = kindOf(period);
  parts.bar.setAttribute("class", kind);
  parts.bar.setAttribute("width", width);
  parts.hatch.setAttribute("width", kind === "over" ? width : "0");
  const whole = Number(limitFlow(constraint));
  parts.marks.forEach((mark, process) => {
    const at = whole ? Number(constraint.released[process]) / whole : 0;
    mark.setAttribute("x1", `${(at / full) * 100}%`);
    mark.setAttribute("x2", `${(at / full) * 100}%`);
  });
}

// 45.5 MW, 91.0%; over annual by 2.25 MW.
function words(constraint, period) {
  const whole = limitFlow(constraint);
  const of = whole > 0n ? percentWords(period.flow, whole) : "limit 0";
  const excess = (process) => `over ${PROCESSES[process]} by ${flowWords(period.excess[process])} MW`;
  const over = period.over.map(excess);
  return `${flowWords(period.flow)} MW, ${of}${over.length ? `; ${over.join(", ")}` : ""}`;
}

const sample = (...of) => draw("svg", { "aria-hidden": "true" }, ...of);

function fillBar({ parts, text, element }, constraint, of, full) {
  drawBar(parts, constraint, of, full);
  show(text, words(constraint, of));
  Object.assign(element.dataset, { value: of.flow, state: kindOf(of) });
  Object.assign(element.dataset, { over: of.over.join(" "), excess: of.excess.join(" ") });
}

export class Loading {
  constructor(app) {
    this.app = app;
    this.order = "full";
    byId("order").onchange = (event) => {
      this.order = event.target.value;
      this.update(app.model.now);
    };
  }

  // A new case: rows for its constraints.
  open() {
    const { names } = this.app.model.opened;
    const heads = ["constraint", "on-peak and off-peak", "limit, MW"];
    const cells = heads.map((name) => make("div", { role: "columnheader" }, name));
    const head = make("div", { role: "row", class: "head" }, cells);
    this.rows = names.constraints.map((name, k) => this.row(name, k));
    this.body = make("div", { role: "rowgroup" });
    byId("loading").replaceChildren(make("div", { role: "rowgroup" }, head), this.body);
    this.legend();
  }

  legend() {
    const { percents } = this.app.model.figures;
    const boxes = KEYS.map(([kind, text]) => {
      const size = { width: "100%", height: 12 };
      const hatch = kind === "over" ? draw("rect", { ...size, fill: "url(#hatch)" }) : "";
      return make("span", {}, sample(draw("rect", { ...size, class: kind }), hatch), text);
    });
    const marks = percents.map((percent, process) => {
      const line = draw("line", { class: `mark mark${process}`, x1: "50%", x2: "50%", y1: 0, y2: 14 });
      return make("span", {}, sample(line), `${PROCESSES[process]} ${percent}%`);
    });
    byId("legend").replaceChildren(...boxes, ...marks);
  }

  row(name, k) {
    const bars = IN_ORDER.map((period) => {
      const parts = barOf(this.app.model.figures.percents);
      const text = make("span", { class: "words" });
      const label = make("span", { class: "when" }, PERIODS[period]);
      const data = { "data-flow": `${PERIODS[period]} ${k}` };
      const element = make("div", { class: "bar", ...data }, label, parts.svg, text);
      return { period, parts, text, element };
    });
    const data = { "data-limit": k, "aria-label": `Limit of ${name}, MW` };
    const input = make("input", { inputmode: "decimal", autocomplete: "off", ...data });
    this.app.field(input, PLACES.limit, (limit) => this.app.model.setLimit(k, Number(limit), `l${k}`));
    const cells = [name, bars.map((bar) => bar.element), input].map((of, i) => {
      return make("div", { role: i ? "cell" : "rowheader" }, of);
    });
    const element = make("div", { role: "row", class: "line", "data-constraint": k }, cells);
    return { k, bars, input, element };
  }

  update({ loading }) {
    const shares = loading.map((each) => Math.max(...each.periods.map((period) => share(each, period))));
    const full = 1.04 * Math.max(1, ...shares.map((of) => Math.min(of, LONGEST)));
    loading.forEach((constraint) => this.fill(constraint, full));
    if (!this.body.contains(document.activeElement)) this.sort(shares);
  }

  // Bars whose figures are those that they show are left alone.
  fill(constraint, full) {
    const { bars, input, element } = this.rows[constraint.k];
    for (const bar of bars) {
      const of = constraint.periods[bar.period];
      const figures = [full, constraint.limit, of.flow, of.over].join();
      if (bar.figures !== figures) fillBar(bar, constraint, of, full);
      bar.figures = figures;
    }
    const before = this.app.model.opened.grid.limits[constraint.k];
    element.dataset.value = constraint.limit;
    element.dataset.released = constraint.released.join(" ");
    fill(input, decimal(constraint.limit, PLACES.limit));
    input.classList.toggle("changed", constraint.limit !== before);
    if (!input.classList.contains("faulty")) input.title = `${limitWords(before)} MW in the case`;
  }

  // Not while a limit is typed: the row would go away from under it.
  sort(shares) {
    const by = (a, b) => shares[b.k] - shares[a.k] || a.k - b.k;
    const sorted = this.order === "full" ? [...this.rows].sort(by) : this.rows;
    if (sorted.some((row, i) => this.body.children[i] !== row.element)) {
      this.body.replaceChildren(...sorted.map((row) => row.element));
    }
  }
}
