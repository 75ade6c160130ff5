// What was changed in a case: a Map by what it changes. Every version is kept, to be undone and redone.
//
//   q17      the quantity of contract 17, in thousandths of a MW
//   d17      contract 17 is dropped
//   a1       an added contract: its six cells, as a row of a book
//   l3       the limit of constraint 3, in thousandths of a MW
//   p5.3     the price of hour 5 on constraint 3, in cents
//
// A link's fragment has the same: #case=HASH&hour=5&changes=q17:5000,d3,a1:0-1-2-3-4-5000

const SHOWN = 16; // digits of the case's hash in a link
const FORMS = {
  q: /^q([0-9]{1,4}):([0-9]{1,9})$/,
  d: /^d([0-9]{1,4})$/,
  a: /^a([0-9]{1,4}):([0-9]{1,9}(?:-[0-9]{1,9}){5})$/,
  l: /^l([0-9]{1,4}):([0-9]{1,12})$/,
  p: /^p([0-9]{1,6}\.[0-9]{1,4}):([0-9]{1,9})$/,
};

// A history of versions; `at` is the one that counts.
export class Changes {
  constructor() {
    this.versions = [new Map()];
    this.at = 0;
    this.touched = "";
  }

  get now() {
    return this.versions[this.at];
  }

  get canUndo() {
    return this.at > 0;
  }

  get canRedo() {
    return this.at < this.versions.length - 1;
  }

  // A new version. What is typed into one field, `touched`, is one step until the field is left.
  take(version, touched = "") {
    const typing = touched !== "" && touched === this.touched && !this.canRedo;
    this.versions.length = this.at + 1;
    if (typing) this.versions.pop();
    this.versions.push(version);
    this.at = this.versions.length - 1;
    this.touched = touched;
  }

  // The field is left: what is typed next is another step.
  settle() {
    this.touched = "";
  }

  step(by) {
    this.at = Math.min(Math.max(this.at + by, 0), this.versions.length - 1);
    this.touched = "";
  }
}

// A version with one change more, or, where the value is undefined, without it.
export function changed(version, entries) {
  const next = new Map(version);
  for (const [target, value] of entries) {
    if (value === undefined) next.delete(target);
    else next.set(target, value);
  }
  return next;
}

function written([target, value]) {
  if (target[0] === "d") return target;
  return `${target}:${Array.isArray(value) ? value.join("-") : value}`;
}

// The fragment of a link, without #.
export function fragmentOf(hash, hour, version) {
  return `case=${hash.slice(0, SHOWN)}&hour=${hour}&changes=${[...version].map(written).join(",")}`;
}

function readChange(text) {
  const match = FORMS[text[0]]?.exec(text);
  if (!match) throw new Error(`the link is damaged: ${text.slice(0, 40)} is no change`);
  const [, number, value] = match;
  if (text[0] === "d") return [`d${number}`, true];
  return [`${text[0]}${number}`, text[0] === "a" ? value.split("-").map(Number) : Number(value)];
}

// What a fragment says: nothing where it is none of ours. That of another case, or a damaged one, is an
// Error.
export function readFragment(fragment, hash) {
  const words = new URLSearchParams(fragment.replace(/^#/, ""));
  if (!words.has("case")) return undefined;
  if (words.get("case") !== hash.slice(0, SHOWN)) {
    throw new Error("the link's changes are of another case: they were not applied");
  }
  const texts = (words.get("changes") ?? "").split(",").filter((text) => text !== "");
  return { hour: Number(words.get("hour") ?? 0) || 0, version: new Map(texts.map(readChange)) };
}
