// Decimals as text and as whole numbers of their smallest unit, exactly: nothing here is a floating number.

export const PLACES = Object.freeze({ quantity: 3, limit: 3, price: 2, cents: 2, flow: 8, exact: 10 });

const DECIMAL = /^([+-]?)([0-9]*)(?:\.([0-9]*))?$/;

// "12.5" with 3 places is 12500n. Anything that is not exactly such a decimal is an Error, in words.
export function whole(text, places) {
  const plain = text.trim().replace(/^\$/, "");
  const match = DECIMAL.exec(plain);
  if (!match || !(match[2] || match[3])) {
    if (plain === "") throw new Error("empty");
    const why = plain.includes(",") ? "no thousands separators, please" : "no decimal";
    throw new Error(`${plain.slice(0, 40)}: ${why}`);
  }
  const parts = (match[3] ?? "").replace(/0+$/, "");
  if (parts.length > places) throw new Error(`${plain.slice(0, 40)} has more than ${places} decimals`);
  if (match[2].length > 15) throw new Error("a number of too many digits");
  const number = BigInt(`${match[2]}${parts.padEnd(places, "0")}`);
  return match[1] === "-" ? -number : number;
}

// 12500n with 3 places is "12.500".
export function decimal(number, places) {
  const value = BigInt(number);
  const digits = String(value < 0n ? -value : value).padStart(places + 1, "0");
  const sign = value < 0n ? "-" : "";
  return places ? `${sign}${digits.slice(0, -places)}.${digits.slice(-places)}` : sign + digits;
}

// "-1234567.50" is "-1,234,567.50".
export function grouped(text) {
  const [, sign, units, parts] = /^(-?)([0-9]+)(.*)$/.exec(text);
  return `${sign}${units.replace(/\B(?=(?:[0-9]{3})+$)/g, ",")}${parts}`;
}

// All the decimals that it has, and so many at least.
function shortened(text, least) {
  const [units, parts = ""] = text.split(".");
  const kept = parts.replace(/0+$/, "").padEnd(least, "0");
  return kept ? `${units}.${kept}` : units;
}

// "-1250.00" is "-$1,250.00".
function dollarSign(text) {
  return text.startsWith("-") ? `-$${text.slice(1)}` : `$${text}`;
}

export const megawatts = (number, places) => grouped(shortened(decimal(number, places), 0));
export const flowWords = (flow) => megawatts(flow, PLACES.flow);
export const limitWords = (limit) => grouped(decimal(limit, PLACES.limit));
export const cents = (number) => dollarSign(grouped(decimal(number, PLACES.cents)));
export const exactMoney = (number) => dollarSign(grouped(shortened(decimal(number, PLACES.exact), 2)));

// Whole cents and their parts of 10^-8 as one number, as the header reads them.
export const together = (cents, parts) => cents * 100000000n + parts;

// A flow in percent of a capacity, both in 10^-8 MW, to one decimal, a half away from zero: for reading.
export function percentWords(flow, capacity) {
  const size = flow < 0n ? -flow : flow;
  const tenths = (2000n * size + capacity) / (2n * capacity);
  return `${grouped(decimal(flow < 0n ? -tenths : tenths, 1))}%`;
}
