// What js/crr.mjs turns down before the library is called, how a refusal is told, and what a load refuses:
// node turned_down.mjs WASM
import assert from "node:assert/strict";
import { readFileSync } from "node:fs";
import { constants, load, Refused, running } from "../../js/crr.mjs";

const bytes = readFileSync(process.argv[2]);
const crr = await load(bytes);
const grid = { nodes: 3, constraints: 2, limits: [6000, 5000], factors: [60000, -20000, 0, 0, -10000, 40000] };
const when = { process: constants.MONTHLY, period: constants.ON_PEAK };
let tried = 0;

function turnsDown(name, call, expected) {
  tried += 1;
  assert.throws(call, expected, name);
}

const date = { year: 2024, month: 1, day: 31 };
const whole = "a whole number is needed, not";
for (const [year, message] of [
  [2024.5, `year of weekday: ${whole} 2024.5`],
  ["2024", `year of weekday: ${whole} 2024`],
  [undefined, `year of weekday: ${whole} undefined`],
  [2 ** 53, `year of weekday: ${whole} 9007199254740992`],
]) {
  turnsDown(String(year), () => crr.weekday({ ...date, year }), { name: "TypeError", message });
}
turnsDown("below 0", () => crr.weekday({ ...date, year: -1 }), { name: "RangeError" });
turnsDown("65 bits", () => crr.weekday({ ...date, year: 1n << 64n }), { name: "RangeError" });
turnsDown("no object", () => crr.weekday(), { name: "TypeError" });
const file = "file of read_grid";
turnsDown("a text", () => crr.read_grid({ file: "grid" }), {
  message: `${file}: a Uint8Array, or an array of whole numbers, is needed`,
});
turnsDown("other cells", () => crr.read_grid({ file: new BigInt64Array(2) }), { name: "TypeError" });
turnsDown("a byte of 256", () => crr.read_grid({ file: [1, 256] }), {
  name: "RangeError",
  message: `${file}[1] is a whole number of 0 to 255, not 256`,
});
turnsDown("an array to be written", () => crr.share_balance({ balance: 1, demands: [1], shares: [0] }), {
  message: "shares of share_balance: a BigInt64Array is needed",
});
turnsDown("a state left out", () => crr.mark_tier({ tier: 1 }), {
  message: "numbers of mark_tier: a BigUint64Array is needed",
});

// A refusal: the number, the library's sentence, and nothing changed.
const state = running();
crr.open_running({ ...grid, ...when, ...state });
crr.add_award({ ...grid, ...when, ...state, award: [0, 1, 7, 0, 1, 10000] });
const held = structuredClone(state);
const refused = { name: "Refused", number: constants.AWARD_OVERLOAD, entry: "add_award" };
turnsDown("overload", () => crr.add_award({ ...grid, ...when, ...state, award: [0, 1, 7, 0, 1, 1] }), refused);
assert.deepEqual(state, held);
assert.equal(state.numbers[0], 1n);
turnsDown("a short place", () => crr.write_book({ form: 0, nodes: 3, contracts: 0, book: [], file: new Uint8Array(1) }), {
  text: "a lent table, or a place for an answer, of too few cells; remapping, unequal lists",
});
assert.ok(new Refused(1, "a", "b") instanceof Error);

// The largest grid there and back, which makes the memory grow.
const [nodes, constraints] = [constants.MAX_NODES, constants.MAX_CONSTRAINTS];
const large = { nodes, constraints, limits: new BigUint64Array(constraints).fill(7n) };
large.factors = BigInt64Array.from({ length: nodes * constraints }, (_, i) => BigInt((i % 200001) - 100000));
const written = crr.write_grid({ ...large, form: constants.WIDE });
assert.equal(written.bytes, constants.MAX_GRID_BYTES);
assert.deepEqual(crr.read_grid(written), { ...large, form: 1n });

// A library that is none, and one compiled before.
await assert.rejects(load(bytes.subarray(0, 100)), WebAssembly.CompileError);
await assert.rejects(load(Uint8Array.of(0, 97, 115, 109, 1, 0, 0, 0)), /crr.wasm has no crr_interface: it is older/);
assert.equal((await load(await WebAssembly.compile(bytes))).interface(), constants.INTERFACE);
console.log(`${tried} calls turned down, ${Object.keys(crr).length} functions`);
