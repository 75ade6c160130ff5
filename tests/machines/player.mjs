// Plays the calls that plays.py wrote on crr.wasm: node player.mjs WASM PLAYS
//
// Twice by its exports alone, as player.c does: with margins around all that is handed over, what is filled
// holding the opposite bits the second time, and then three cells more in each place that is filled, where the
// call succeeds. Then by js/crr.mjs, with the buffers handed in, and with those left out that it makes itself.
// How much of the stack the first two use must be what crr.h says is enough.
import { readFileSync } from "node:fs";
import { constants, load, Refused } from "../../js/crr.mjs";
import { functions } from "../../js/header.mjs";

const ARRAYS = { B: Uint8Array, Q: BigUint64Array, q: BigInt64Array };
const MARGIN = 8; // cells
const MORE = 3;
const STACK = 524288; // as tools/machines.sh has it

// ---- the calls

function cellsOf(type, words) {
  const array = new ARRAYS[type](Number(words[0]));
  let at = 0;
  for (const word of words.slice(1)) {
    const [value, times] = word.split("*");
    const end = at + Number(times ?? 1);
    array.fill(type === "B" ? Number(value) : BigInt(value), at, end);
    at = end;
  }
  return array;
}

function parameterOf(form, [type, ...rest]) {
  if (form === "n") return { form, number: BigInt(type) };
  if (form === "f") return { form, type, length: 1 };
  const one = { form, type, length: Number(rest[0]) };
  if (form === "s") return { ...one, slot: rest[1], fresh: rest[2] === "new" };
  return form === "w" ? one : { ...one, cells: cellsOf(type, rest) };
}

function callsOf(text) {
  const calls = [];
  for (const line of text.split("\n")) {
    const [form, ...words] = line.split(" ");
    const last = calls.at(-1);
    if (form === "call") {
      const [name, answer, place] = words;
      calls.push({ name, answer: Number(answer), place, parameters: [], written: [] });
    } else if (form === "x") {
      const { type } = last.parameters[words[0]];
      last.written.push({ which: Number(words[0]), at: Number(words[1]), cells: cellsOf(type, words.slice(2)) });
    } else if (form !== "go" && form !== "") last.parameters.push(parameterOf(form, words));
  }
  return calls;
}

// ---- what is handed over

function filled(type, length, opposite) {
  const array = new ARRAYS[type](length);
  const bytes = new Uint8Array(array.buffer);
  for (let i = 0; i < bytes.length; i++) bytes[i] = (((i + length) * 2654435761) >>> 13) ^ (opposite ? 0xff : 0);
  return array;
}

// The cells of a parameter beforehand. Those of a running test are kept in `slots`.
function before(parameter, call, opposite, slots) {
  const { form, type, length, slot, fresh, cells } = parameter;
  if (form === "s") {
    if (fresh) slots.set(slot, filled(type, length, opposite));
    return slots.get(slot);
  }
  return cells?.slice() ?? filled(type, length + (form === "w" && opposite && call.answer === 0 ? MORE : 0), opposite);
}

const bytesOf = (array) => Buffer.from(array.buffer, array.byteOffset, array.byteLength);
const same = (one, other) => bytesOf(one).equals(bytesOf(other));

// Each parameter with what it holds beforehand and afterwards, none for a number.
function heldOf(call, opposite, slots) {
  const held = call.parameters.map((parameter) => {
    if (parameter.form === "n") return undefined;
    const cells = before(parameter, call, opposite, slots);
    return { cells, expected: cells.slice() };
  });
  for (const { which, at, cells } of call.written) held[which].expected.set(cells, at);
  call.parameters.forEach(({ form, slot }, i) => form === "s" && slots.set(slot, held[i].expected));
  return held;
}

// ---- by the exports

function byExports(exports, call, opposite, slots) {
  let top = Math.ceil(exports.__heap_base.value / 16) * 16;
  const held = heldOf(call, opposite, slots);
  const around = call.parameters.map(({ type }, i) => {
    if (!held[i]) return undefined;
    const margin = filled(type, MARGIN, opposite);
    const make = (cells) => {
      const whole = new ARRAYS[type](MARGIN + cells.length + MARGIN);
      [margin, cells, margin].reduce((at, part) => (whole.set(part, at), at + part.length), 0);
      return whole;
    };
    const one = { place: top, cells: make(held[i].cells), expected: make(held[i].expected) };
    top += Math.ceil(one.cells.byteLength / 16) * 16;
    return { ...one, start: one.place + margin.byteLength, length: held[i].cells.length };
  });
  const missing = top - exports.memory.buffer.byteLength;
  if (missing > 0) exports.memory.grow(Math.ceil(missing / 65536));
  const view = (i) => new ARRAYS[call.parameters[i].type](exports.memory.buffer, around[i].place, around[i].cells.length);
  around.forEach((one, i) => one && view(i).set(one.cells));
  const words = call.parameters.flatMap(({ form, number }, i) => {
    if (form === "n") return [number];
    return form === "f" || form === "c" ? [around[i].start] : [around[i].start, BigInt(around[i].length)];
  });
  const answer = Number(exports[`crr_${call.name}`](...words));
  return answer === call.answer && around.every((one, i) => !one || same(view(i), one.expected));
}

// ---- by crr.mjs

function answered(crr, call, given) {
  if (call.name === "interface") return { answer: crr.interface(), out: {} };
  try {
    return { answer: 0, out: crr[call.name](given) };
  } catch (error) {
    if (!(error instanceof Refused) || error.text === "") throw error;
    return { answer: error.number, out: {} };
  }
}

// With every buffer handed in, or (`made`) without those that crr.mjs makes.
function byModule(crr, call, made, slots) {
  const declared = functions[call.name];
  const held = heldOf(call, false, slots);
  const left = (i) => made && call.answer === 0 && declared[i].room !== undefined;
  const given = {};
  call.parameters.forEach(({ form, number }, i) => {
    if (form === "n") given[declared[i].name] = number;
    else if (form === "c") [given[declared[i].name]] = held[i].cells;
    else if (form !== "f" && !left(i)) given[declared[i].name] = held[i].cells;
  });
  const { answer, out } = answered(crr, call, given);
  const wrote = (i) => call.written.find(({ which }) => which === i)?.cells ?? new Uint8Array(0);
  return answer === call.answer && call.parameters.every(({ form }, i) => {
    const now = out[declared[i].name];
    const isFigure = form === "f" || form === "c";
    if (form === "n" || (isFigure && answer !== 0)) return true;
    if (isFigure) return BigInt(now) === held[i].expected[0];
    return left(i) ? same(now, wrote(i)) : same(held[i].cells, held[i].expected);
  });
}

// ---- all of it

const [wasm, plays] = process.argv.slice(2);
const bytes = readFileSync(wasm);
const { instance } = await WebAssembly.instantiate(bytes, {});
const crr = await load(bytes);
// The stack stands first in memory and grows down; nothing else does.
const stack = () => new Uint8Array(instance.exports.memory.buffer, 0, STACK);
stack().fill(0xa5);
const calls = callsOf(readFileSync(plays, "utf8"));
const ways = {
  "by its exports": (call, slots) => byExports(instance.exports, call, false, slots),
  "by its exports, other bits": (call, slots) => byExports(instance.exports, call, true, slots),
  "by crr.mjs": (call, slots) => byModule(crr, call, false, slots),
  "by crr.mjs, buffers made": (call, slots) => byModule(crr, call, true, slots),
};
let differ = 0;
for (const [way, play] of Object.entries(ways)) {
  const slots = new Map();
  for (const call of calls) {
    if (play(call, slots)) continue;
    differ += 1;
    console.log(`${call.place}: ${call.name} ${way} is not as it should be`);
  }
}
const used = STACK - stack().findIndex((byte) => byte !== 0xa5);
console.log(`${calls.length * Object.keys(ways).length} calls, ${differ} differ; ${used} bytes of stack`);
process.exitCode = differ === 0 && calls.length > 0 && used <= constants.TEXT_STACK_BYTES ? 0 : 1;
