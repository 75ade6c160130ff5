// Tests the book of a folder against its grid and settles its hour, as examples/c/hour.c does:
// node example.mjs WASM FOLDER, such as node js/example.mjs dist/wasm32/crr.wasm examples/case-l
import { readFile } from "node:fs/promises";
import { constants, load, Refused } from "./crr.mjs";

const [wasm, folder] = process.argv.slice(2);
const crr = await load(await readFile(wasm));
const fileOf = (name) => readFile(`${folder}/${name}.bin`);

try {
  const grid = crr.read_grid({ file: await fileOf("grid") });
  const { prices, period } = crr.read_prices({ ...grid, file: await fileOf("prices") });
  const book = await fileOf("book");
  const verdict = crr.test_book({ ...grid, process: constants.MONTHLY, period, book });
  console.log(verdict.set === 0n ? "pass" : `fail: constraint ${verdict.lowest} by ${verdict.excess}`);
  const hour = crr.settle_hour({ ...grid, period, prices, book });
  console.log(`sum ${hour.sum}, exact ${hour.whole} cents and ${hour.parts} parts`);
} catch (error) {
  if (!(error instanceof Refused)) throw error;
  console.error(`${folder}: ${error.message}`);
  process.exitCode = 1;
}
