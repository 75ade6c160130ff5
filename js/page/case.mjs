// A case: the tables of grid.bin, book.bin and price files as the library reads them, with their names.
import { Refused } from "../crr.mjs";
import { completed } from "./names.mjs";
import { sha256 } from "./sha256.mjs";
import { PERIOD_WORDS } from "./words.mjs";

const CELLS = 6; // of a contract

// A fault of a file: which, what, and the refusal's number where the library refused it.
export class FileFault extends Error {
  constructor(file, problem) {
    const refused = problem instanceof Refused;
    super(refused ? `${file}: refused ${problem.number}: ${problem.text}` : `${file}: ${problem.message}`);
    this.file = file;
    this.number = refused ? problem.number : 0;
  }
}

function read(file, reading) {
  try {
    return reading();
  } catch (problem) {
    throw new FileFault(file, problem);
  }
}

// The contracts of a book's cells; each is known by its key, whatever is dropped before it.
function rowsOf(book) {
  const rows = [];
  for (let at = 0; at < book.length; at += CELLS) {
    const [kind, period, holder, source, sink, quantity] = Array.from(book.slice(at, at + CELLS), Number);
    rows.push({ key: String(at / CELLS), kind, period, holder, source, sink, quantity });
  }
  return rows;
}

// The six cells of each contract, as the library takes them.
export function cellsOf(rows) {
  const cells = new BigUint64Array(CELLS * rows.length);
  rows.forEach((row, i) => {
    const { kind, period, holder, source, sink, quantity } = row;
    cells.set([kind, period, holder, source, sink, quantity].map(BigInt), CELLS * i);
  });
  return cells;
}

// One hash over all files of a case, each with its length before it.
function hashOf(files) {
  const lengthOf = (file) => new Uint8Array(BigUint64Array.of(BigInt(file.length)).buffer);
  const parts = files.flatMap((file) => [lengthOf(file), file]);
  const all = new Uint8Array(parts.reduce((sum, part) => sum + part.length, 0));
  let at = 0;
  for (const part of parts) {
    all.set(part, at);
    at += part.length;
  }
  return sha256(all);
}

function readHours(crr, grid, hours) {
  return hours.map(({ day, hour, file, path }, number) => {
    const name = path ?? (hour ? `prices of ${day} HE${String(hour).padStart(2, "0")}` : "prices.bin");
    const { prices, period } = read(name, () => crr.read_prices({ ...grid, file }));
    return { number, day, hour, period: Number(period), prices };
  });
}

// Hours of one's own behind those of the case, one for each period, with prices of 0 to begin with.
function ownHours(grid, count) {
  return [1, 0].map((period, i) => ({
    number: count + i,
    day: `an hour of your own, ${PERIOD_WORDS[period]}`,
    hour: 0,
    period,
    prices: new BigUint64Array(grid.constraints),
    own: true,
  }));
}

// Opens a case of bytes: { title, grid, book, hours: [{ day, hour, file }], names }.
export function openCase(crr, { title, grid: gridFile, book: bookFile, hours, names }) {
  const grid = read("grid.bin", () => crr.read_grid({ file: gridFile }));
  const { book, form } = read("book.bin", () => crr.read_book({ ...grid, file: bookFile }));
  const rows = rowsOf(book);
  const counts = { nodes: grid.nodes, constraints: grid.constraints, contracts: rows.length };
  const known = read("names.csv", () => completed(names ?? {}, counts));
  const ids = new Map(rows.map((row, i) => [row.key, known.contracts[i]]));
  const given = readHours(crr, grid, hours ?? []);
  return {
    title,
    grid,
    rows,
    bookForm: form,
    names: known,
    ids,
    hours: [...given, ...ownHours(grid, given.length)],
    given: given.length,
    hash: hashOf([gridFile, bookFile, ...(hours ?? []).map((hour) => hour.file)]),
  };
}

// book.bin of contracts, in the case's form or, where that cannot hold their ends, the wide one.
export function bookFileOf(crr, opened, rows) {
  const words = { nodes: opened.grid.nodes, contracts: rows.length, book: cellsOf(rows) };
  try {
    return crr.write_book({ ...words, form: opened.bookForm }).file;
  } catch (problem) {
    if (!(problem instanceof Refused) || problem.number !== 11 || opened.bookForm !== 0n) throw problem;
    return crr.write_book({ ...words, form: 1 }).file;
  }
}
