// What a failing book can cost, with a price list that costs it, which can be tried as an hour.
import { cents } from "./decimals.mjs";
import { byId, make, namesOn, redraw } from "./dom.mjs";
import { costWords, sameLines } from "./verdicts.mjs";
import { lineWords } from "./words.mjs";

// $5,000.00 per MWh on 1-2 and 2-4.
function priceWords(prices, names) {
  const on = new Map();
  prices.forEach((price, k) => price && on.set(price, [...(on.get(price) ?? []), names[k]]));
  return [...on].flatMap(([price, at], i) => [`${i ? ", " : ""}${cents(price)} per MWh on `, namesOn(at)]);
}

export class Exposure {
  constructor(app) {
    this.app = app;
  }

  update({ lines }) {
    if (sameLines(this.lines, lines)) return;
    this.lines = lines;
    const failing = lines.filter((line) => line.exposure);
    const parts = failing.map((line) => this.part(line));
    const words = "Nothing: the book passes in every period and process.";
    const none = make("p", { "data-exposure": "none" }, words);
    redraw(byId("exposure"), parts.length ? parts : [none], byId("exposure-head"));
  }

  tried(line) {
    if (this.app.edit(() => this.app.model.tryPrices(line))) this.app.say("Set in an hour of your own.");
  }

  part(line) {
    const { least, most, prices } = line.exposure;
    const worst = `At worst an hour pays ${costWords(line.exposure)} more than its congestion rent: at `;
    const on = priceWords(prices, this.app.model.opened.names.constraints);
    const words = make("p", {}, worst, on, ", and 0 elsewhere.");
    const button = make("button", {
      type: "button",
      "data-try": line.name,
      "data-focus": `try ${line.name}`,
      "aria-label": `Settle an hour at these prices, ${lineWords(line)}`,
      onclick: () => this.tried(line),
    }, "Settle an hour at these prices");
    const data = { "data-exposure": line.name, "data-least": least, "data-most": most };
    const head = make("h3", {}, lineWords(line));
    return make("div", { ...data, "data-prices": prices.join(" ") }, head, words, button);
  }
}
