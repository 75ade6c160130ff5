// Writes a case of the largest size into a folder: node largest.mjs WASM FOLDER [failing]. 4,000 nodes, 64
// constraints, 1,000 contracts and 24 hours, by a fixed sequence of numbers; for measuring and for tests.
import { mkdirSync, readFileSync, writeFileSync } from "node:fs";
import { pathToFileURL } from "node:url";
import { constants, load } from "../crr.mjs";

// xorshift: the same numbers everywhere.
function numbers(seed) {
  let x = seed;
  return (below) => {
    x ^= x << 13;
    x ^= x >>> 17;
    x ^= x << 5;
    return (x >>> 0) % below;
  };
}

export function largest(crr, limit = 90000000) {
  const next = numbers(2463534242);
  const nodes = constants.MAX_NODES;
  const constraints = constants.MAX_CONSTRAINTS;
  const factors = new BigInt64Array(nodes * constraints).map(() => BigInt(next(120001) - 60000));
  const limits = new BigUint64Array(constraints).fill(BigInt(limit));
  const book = [];
  for (let i = 0; i < constants.MAX_CONTRACTS; i++) {
    book.push(next(4) === 0 ? 1 : 0, next(2), next(60), next(nodes), next(nodes), 1 + next(200000));
  }
  const wide = constants.WIDE;
  const hours = [];
  for (let hour = 1; hour <= 24; hour++) {
    const prices = Array.from({ length: constraints }, () => (next(4) === 0 ? next(5000) : 0));
    const period = hour > 6 && hour < 23 ? 1 : 0;
    hours.push({ day: "2026-07-01", hour, file: crr.write_prices({ period, constraints, prices }).file });
  }
  return {
    grid: crr.write_grid({ form: wide, nodes, constraints, limits, factors }).file,
    book: crr.write_book({ form: wide, nodes, contracts: book.length / 6, book }).file,
    hours,
  };
}

if (process.argv[1] && import.meta.url === pathToFileURL(process.argv[1]).href) {
  const [wasm, folder, limit] = process.argv.slice(2);
  const { grid, book, hours } = largest(await load(readFileSync(wasm)), limit && Number(limit));
  for (const { day, hour, file } of hours) {
    mkdirSync(`${folder}/prices/${day}`, { recursive: true });
    writeFileSync(`${folder}/prices/${day}/HE${String(hour).padStart(2, "0")}.bin`, file);
  }
  writeFileSync(`${folder}/grid.bin`, grid);
  writeFileSync(`${folder}/book.bin`, book);
}
