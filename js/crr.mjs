// Congestion revenue rights (CRRs) tested against a grid and settled hour by hour: the functions of
// include/crr.h over crr.wasm, which is made of the proved library. For Node and browsers; nothing is needed
// beside this file, header.mjs and the bytes of crr.wasm.
import { constants, functions } from "./header.mjs";

export { constants };

// Input was turned down: the refusal's number, the library's sentence for it, and the function that refused.
// What was handed in has not changed.
export class Refused extends Error {
  constructor(number, text, entry) {
    super(`refused ${number} by ${entry}: ${text}`);
    this.name = "Refused";
    this.number = number;
    this.text = text;
    this.entry = entry;
  }
}

// Fresh buffers for a running test, which open_running opens.
export function running() {
  return {
    awards: new BigUint64Array(constants.RUNNING_AWARDS),
    numbers: new BigUint64Array(constants.RUNNING_NUMBERS),
    flows: new BigInt64Array(constants.RUNNING_FLOWS),
  };
}

const ARRAYS = { uint8_t: Uint8Array, uint64_t: BigUint64Array, int64_t: BigInt64Array };
const RANGES = {
  uint8_t: [0n, 0xffn],
  uint64_t: [0n, 0xffffffffffffffffn],
  size_t: [0n, 0xffffffffffffffffn],
  int64_t: [-0x8000000000000000n, 0x7fffffffffffffffn],
};

function whole(value, type, name) {
  if (typeof value !== "bigint" && !Number.isSafeInteger(value)) {
    throw new TypeError(`${name}: a whole number is needed, not ${String(value)}`);
  }
  const number = BigInt(value);
  const [low, high] = RANGES[type];
  if (number < low || number > high) {
    throw new RangeError(`${name} is a whole number of ${low} to ${high}, not ${number}`);
  }
  return number;
}

// Cells as a typed array: one of the right kind as it is, an array of whole numbers in one of its own.
function cells(value, parameter, name) {
  const array = ARRAYS[parameter.type];
  if (ArrayBuffer.isView(value) && value[Symbol.toStringTag] === array.name) return value;
  if (Array.isArray(value) && parameter.form === "read") {
    const numbers = value.map((each, i) => whole(each, parameter.type, `${name}[${i}]`));
    return array === Uint8Array ? Uint8Array.from(numbers, Number) : array.from(numbers);
  }
  const also = parameter.form === "read" ? ", or an array of whole numbers," : "";
  throw new TypeError(`${name}: a ${array.name}${also} is needed`);
}

// What is handed over for a parameter: a number, cells, how many cells are to be made, or a figure's one.
function taken(entry, parameter, given) {
  const name = `${parameter.name} of ${entry}`;
  if (parameter.form === "figure") {
    const first = parameter.carried ? whole(given[parameter.name], parameter.type, name) : undefined;
    return { parameter, first, length: 1, size: 8 };
  }
  const value = given[parameter.name];
  if (parameter.form === "number") return { parameter, number: whole(value, parameter.type, name) };
  const size = ARRAYS[parameter.type].BYTES_PER_ELEMENT;
  if (value === undefined && parameter.room !== undefined) return { parameter, length: parameter.room, size };
  const held = cells(value, parameter, name);
  return { parameter, held, length: held.length, size };
}

// Gives each buffer and figure its place behind the library's own memory, and makes the memory large enough.
// A call ends before the next begins, so the places of all calls are the same.
function place(exports, words) {
  let top = exports.__heap_base.value;
  for (const word of words) {
    if (word.length !== undefined) {
      top = Math.ceil(top / 16) * 16;
      word.place = top;
      top += word.length * word.size;
    }
  }
  const missing = top - exports.memory.buffer.byteLength;
  if (missing > 0) exports.memory.grow(Math.ceil(missing / 65536));
  return exports.memory.buffer;
}

// A parameter as the library takes it: pointers have 32 bits there, numbers and lengths 64.
function passed(word) {
  if (word.number !== undefined) return [word.number];
  return word.parameter.form === "figure" ? [word.place] : [word.place, BigInt(word.length)];
}

function figure(memory, { parameter, place }) {
  const [value] = new (parameter.type === "int64_t" ? BigInt64Array : BigUint64Array)(memory, place, 1);
  return parameter.type === "size_t" ? Number(value) : value;
}

// What a call wrote: the figures, then buffers that were made, cut to what was written. Buffers that were
// handed in are written in place.
function results(memory, words) {
  const out = {};
  const values = {};
  for (const word of words) {
    const { name, form } = word.parameter;
    values[name] = word.number !== undefined ? Number(word.number) : word.held;
    if (form === "figure") values[name] = out[name] = figure(memory, word);
  }
  for (const { parameter, held, place, length } of words) {
    if (parameter.form === "lent") {
      const now = new ARRAYS[parameter.type](memory, place, length);
      if (held) held.set(now);
      if (parameter.room !== undefined) out[parameter.name] = held ?? now.slice(0, parameter.used(values));
    }
  }
  return out;
}

// The refusal's number, 0 for none, and what was written.
function call(exports, entry, given) {
  const words = functions[entry].map((parameter) => taken(entry, parameter, given));
  const memory = place(exports, words);
  for (const { held, first, place, length, parameter } of words) {
    if (first !== undefined) new BigUint64Array(memory, place, 1)[0] = first;
    if (held) new ARRAYS[parameter.type](memory, place, length).set(held);
  }
  const answer = exports[`crr_${entry}`](...words.flatMap(passed));
  return { number: Number(answer), out: answer === 0n ? results(memory, words) : {} };
}

function bound(exports, entry) {
  return (given = {}) => {
    const { number, out } = call(exports, entry, given);
    if (number === 0) return out;
    const { text } = call(exports, "refusal_text", { number }).out;
    throw new Refused(number, new TextDecoder().decode(text), entry);
  };
}

// Loads crr.wasm, from its bytes or compiled, and gives its functions by their names in crr.h without crr_.
// Each takes an object by the header's parameter names and gives one with what it wrote.
export async function load(wasm) {
  const module = wasm instanceof WebAssembly.Module ? wasm : await WebAssembly.compile(wasm);
  const { exports } = await WebAssembly.instantiate(module, {});
  const missing = Object.keys(functions).find((entry) => !(`crr_${entry}` in exports));
  if (missing) throw new Error(`crr.wasm has no crr_${missing}: it is older than crr.mjs`);
  const number = Number(exports.crr_interface());
  if (number !== constants.INTERFACE) {
    throw new Error(`crr.wasm has interface ${number}, and crr.mjs is for ${constants.INTERFACE}`);
  }
  const bind = (entry) => [entry, entry === "interface" ? () => number : bound(exports, entry)];
  return Object.freeze(Object.fromEntries(Object.keys(functions).map(bind)));
}
