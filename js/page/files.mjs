// Files that are dropped or chosen, and files that are saved.
import { namesOf, readNames } from "./names.mjs";

const HOUR = /(?:^|\/)HE(0[1-9]|1[0-9]|2[0-5])\.bin$/i;
const DAY = /([0-9]{4}-[0-9]{2}-[0-9]{2})/;
const NAMED_HOUR = /^([0-9]{4}-[0-9]{2}-[0-9]{2}) HE(0[1-9]|1[0-9]|2[0-5])$/;

export const CSV_WORDS =
  "CSV of a case is read by crr: crr pack FOLDER -o OUT makes the files that this page takes, " +
  "and crr page FOLDER -o FILE.html a page with the case in it";

// What is kept of the files so far: grid, book, price files by path, names.
export class Held {
  constructor() {
    this.prices = new Map();
    this.title = "";
  }

  get any() {
    return Boolean(this.grid || this.book || this.tables || this.prices.size);
  }

  get missing() {
    return [!this.grid && "grid.bin", !this.book && "book.bin"].filter(Boolean);
  }

  // Takes a file, and gives a message where it is none of a case. A damaged names.csv is an Error.
  take(path, bytes) {
    const name = path.split("/").pop().toLowerCase();
    if (path.includes("/")) this.title = path.split("/")[0];
    if (name === "grid.bin") this.grid = bytes;
    else if (name === "book.bin") this.book = bytes;
    else if (name === "names.csv") this.tables = readTables(path, bytes);
    else if (name.endsWith(".csv")) return `${path}: ${CSV_WORDS}`;
    else if (name.endsWith(".bin")) this.prices.set(path, bytes);
    else return `${path}: not a file of a case: grid.bin, book.bin, prices.bin or HEhh.bin, names.csv`;
    return "";
  }

  // Puts away a file that was found faulty.
  forget(path) {
    const field = { "grid.bin": "grid", "book.bin": "book", "names.csv": "tables" }[path];
    if (field) this[field] = undefined;
    else this.prices.delete(path);
  }

  // The hours in their order: by day and hour where paths tell them, else by name.
  get hours() {
    const paths = [...this.prices.keys()].sort();
    const only = paths.length === 1 ? NAMED_HOUR.exec(this.tables?.hour.get(0) ?? "") : null;
    return paths.map((path) => {
      const hour = only ? Number(only[2]) : Number(HOUR.exec(path)?.[1] ?? 0);
      const day = only ? only[1] : hour ? (DAY.exec(path)?.[1] ?? "") : path.split("/").pop();
      return { day: hour || paths.length > 1 ? day : "", hour, file: this.prices.get(path), path };
    });
  }

  get files() {
    const names = this.tables ? namesOf(this.tables) : {};
    return { title: this.title || "A case", grid: this.grid, book: this.book, hours: this.hours, names };
  }

  // The same on an open case: what is not among the files is the case's, with the names that still fit.
  filesOn(files) {
    const { nodes, constraints, contracts, owners } = files.names ?? {};
    const ofGrid = this.grid ? {} : { nodes, constraints };
    const ofBook = this.book ? {} : { contracts };
    return {
      title: this.title || files.title,
      grid: this.grid ?? files.grid,
      book: this.book ?? files.book,
      hours: this.prices.size ? this.hours : this.grid ? [] : files.hours,
      names: this.tables ? namesOf(this.tables) : { ...ofGrid, ...ofBook, owners },
    };
  }

  // What is told of files that were opened.
  get notes() {
    const terms = this.tables && this.tables.start.size + this.tables.end.size > 0;
    const words = "names.csv: first and last days are not looked at: all contracts are taken to be in force";
    return terms ? [{ text: words }] : [];
  }
}

function readTables(path, bytes) {
  try {
    return readNames(new TextDecoder("utf-8", { fatal: true }).decode(bytes));
  } catch (problem) {
    throw new Error(`${path}: ${problem instanceof TypeError ? "it is no UTF-8 text" : problem.message}`);
  }
}

// The files of a drop with their paths; folders are gone through.
export async function dropped(transfer) {
  const entries = Array.from(transfer.items ?? [], (item) => item.webkitGetAsEntry?.()).filter(Boolean);
  if (entries.length === 0) return Array.from(transfer.files, (file) => ({ path: file.name, file }));
  return (await Promise.all(entries.map((entry) => within(entry, "")))).flat();
}

async function within(entry, above) {
  const path = `${above}${entry.name}`;
  if (entry.isFile) {
    return [{ path, file: await new Promise((resolve, reject) => entry.file(resolve, reject)) }];
  }
  const reader = entry.createReader();
  const all = [];
  for (;;) {
    const some = await new Promise((resolve, reject) => reader.readEntries(resolve, reject));
    if (some.length === 0) break;
    all.push(...some);
  }
  return (await Promise.all(all.map((each) => within(each, `${path}/`)))).flat();
}

// Bytes of base64 text.
export function fromBase64(text) {
  return Uint8Array.from(atob(text), (character) => character.charCodeAt(0));
}

// The case that stands in the page, or undefined.
export function embedded(text) {
  const held = JSON.parse(text);
  if (held === null) return undefined;
  const hours = (held.hours ?? []).map((hour) => ({ ...hour, file: fromBase64(hour.file) }));
  return { ...held, grid: fromBase64(held.grid), book: fromBase64(held.book), hours };
}

// Saves bytes as a file, by the browser's own download.
export function save(name, bytes) {
  const url = URL.createObjectURL(new Blob([bytes], { type: "application/octet-stream" }));
  const link = document.createElement("a");
  link.href = url;
  link.download = name;
  document.body.append(link);
  link.click();
  link.remove();
  setTimeout(() => URL.revokeObjectURL(url), 10000);
}
