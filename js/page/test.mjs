// Tests of the page that need no browser: node js/page/test.mjs WASM. Prints what was tried.
import assert from "node:assert/strict";
import { createHash } from "node:crypto";
import { readFileSync } from "node:fs";
import { load, Refused } from "../crr.mjs";
import { FileFault, openCase } from "./case.mjs";
import { changed, Changes, fragmentOf, readFragment } from "./changes.mjs";
import { cents, decimal, exactMoney, flowWords, grouped, percentWords, whole } from "./decimals.mjs";
import { Held } from "./files.mjs";
import { largest } from "./largest.mjs";
import { Model } from "./model.mjs";
import { completed, namesOf, readNames, records, writeNames } from "./names.mjs";
import { RunningTest } from "./running.mjs";
import { sha256 } from "./sha256.mjs";
import { LINES } from "./words.mjs";

const crr = await load(readFileSync(process.argv[2]));
const tried = [];
const test = (name, doing) => {
  doing();
  tried.push(name);
};

// Two constraints, three nodes: the case of the README.
function small(limits = [100000, 50000]) {
  const factors = [60000, -20000, 0, 0, -10000, 40000];
  const book = [0, 1, 0, 0, 1, 10000, 1, 1, 1, 0, 2, 500, 0, 0, 2, 0, 1, 5];
  const grid = crr.write_grid({ form: 0, nodes: 3, constraints: 2, limits, factors }).file;
  const prices = crr.write_prices({ period: 1, constraints: 2, prices: [1000, 2550] }).file;
  const hours = [{ day: "2026-07-01", hour: 8, file: prices }];
  const { file } = crr.write_book({ form: 0, nodes: 3, contracts: 3, book });
  return { title: "small", grid, book: file, hours };
}

const model = (files = small()) => new Model(crr, openCase(crr, files));

test("decimals", () => {
  assert.equal(whole("12.5", 3), 12500n);
  assert.equal(whole("-0.00000001", 8), -1n);
  assert.equal(whole("5.1000", 2), 510n);
  assert.equal(whole(".5", 3), 500n);
  for (const text of ["", ".", "1,5", "1e3", "1.2345", "0x1", "\u0661", "1234567890123456"]) {
    assert.throws(() => whole(text, 3), Error, text);
  }
  assert.equal(decimal(-5n, 3), "-0.005");
  assert.equal(grouped("-1234567.50"), "-1,234,567.50");
  assert.equal(flowWords(225000000n), "2.25");
  assert.equal(flowWords(400000000n), "4");
  assert.equal(cents(-125000n), "-$1,250.00");
  assert.equal(exactMoney(260910437500000n), "$26,091.04375");
  assert.equal(percentWords(-5n, 10000n), "-0.1%");
  assert.equal(percentWords(4n, 10000n), "0.0%");
});

test("SHA-256", () => {
  for (const length of [0, 1, 55, 56, 63, 64, 65, 1000, 100000]) {
    const bytes = Uint8Array.from({ length }, (_, i) => (i * 31 + 7) & 255);
    assert.equal(sha256(bytes), createHash("sha256").update(bytes).digest("hex"));
  }
});

test("names.csv", () => {
  const rows = [["node", 0, 'A, "B"'], ["node", 2, "C"], ["holder", 7, "Dogwood"], ["contract", 0, "x\ny"]];
  const tables = readNames(writeNames(rows));
  const names = completed(namesOf(tables), { nodes: 3, constraints: 1, contracts: 2 });
  assert.deepEqual(names.nodes, ['A, "B"', "N1", "C"]);
  assert.deepEqual(names.constraints, ["K0"]);
  assert.deepEqual(names.contracts, ["x\ny", "1"]);
  assert.equal(names.owner(7) + names.owner(8), "Dogwood8");
  const read = records("a,b\r\nc,\r\n").map(({ line, row }) => [line, ...row]);
  assert.deepEqual(read, [[1, "a", "b"], [2, "c", ""]]);
  const damaged = ['node,0,"x', 'node,0,"x"y', "node,x,y", "bus,0,y", "node,0,y\nnode,0,z", "node,0,"];
  for (const rows of [...damaged, "holder,1024,y"]) {
    assert.throws(() => readNames(`TABLE,NUMBER,NAME\n${rows}`), /^Error: line /, rows);
  }
  for (const text of ["", "A,B\n"]) assert.throws(() => readNames(text), /first line/);
  const counts = { nodes: 2, constraints: 0, contracts: 0 };
  assert.throws(() => completed({ nodes: ["a", "a"] }, counts), /one name/);
  assert.throws(() => completed({ nodes: ["a", "b", "c"] }, counts), /is named/);
});

test("changes are undone and redone", () => {
  const changes = new Changes();
  changes.take(changed(changes.now, [["l0", 1]]), "l0");
  changes.take(changed(changes.now, [["l0", 12]]), "l0");
  changes.settle();
  changes.take(changed(changes.now, [["l0", 3]]), "l0");
  changes.step(-1);
  assert.equal(changes.now.get("l0"), 12);
  changes.step(-1);
  assert.equal(changes.now.size, 0);
  changes.step(2);
  assert.equal(changes.now.get("l0"), 3);
});

test("links", () => {
  const changes = { q0: 5000, d1: true, a1: [0, 1, 2, 3, 4, 5], l3: 80000, "p5.3": 2500 };
  const version = new Map(Object.entries(changes));
  const [hash, other] = [[], [1]].map((bytes) => sha256(Uint8Array.from(bytes)));
  const link = `#${fragmentOf(hash, 5, version)}`;
  const read = readFragment(link, hash);
  assert.deepEqual(read, { hour: 5, version });
  assert.equal(readFragment("#changes-part", hash), undefined);
  assert.throws(() => readFragment(link, other), /another case/);
  for (const text of ["z1:2", "q1", "q1:x", "a1:1-2", "d1:2", "l-1:2"]) {
    assert.throws(() => readFragment(`#case=${hash.slice(0, 16)}&changes=${text}`, hash), /damaged/, text);
  }
  assert.throws(() => model().take(new Map([["l9", 1]])), /nothing that l9/);
});

// The page's figures against direct calls of the library on the tables that the changes come to.
test("figures are the library's", () => {
  const page = model(small([6000, 50000]));
  page.setLimit(1, 40000);
  page.setQuantity("0", 11000);
  page.add({ kind: 1, period: 1, holder: 3, source: 2, sink: 1, quantity: 1500 });
  page.drop("2");
  page.step(-1);
  page.step(1);
  const grid = { ...crr.read_grid({ file: small().grid }), limits: [6000, 40000] };
  const cells = [0, 1, 0, 0, 1, 11000, 1, 1, 1, 0, 2, 500, 1, 1, 3, 2, 1, 1500];
  const book = crr.write_book({ form: 0, nodes: 3, contracts: 3, book: cells }).file;
  assert.deepEqual(page.now.book, book);
  for (const [i, { process, period }] of LINES.entries()) {
    const line = page.now.lines[i];
    assert.deepEqual(line.verdict, crr.test_book({ ...grid, process, period, book }));
    if (line.overloaded.length === 0) continue;
    const { cuts } = crr.find_cuts({ ...grid, process, period, book });
    assert.deepEqual(line.cuts.map((cut) => BigInt(cut.cut)), [...cuts]);
    assert.deepEqual(line.exposure.prices, crr.find_exposure({ ...grid, process, period, book }).prices);
    const { k, released, periods } = page.now.loading[line.verdict.lowest];
    assert.equal(periods[period].flow - released[process], line.verdict.excess);
    assert.equal(periods[period].excess[process], line.verdict.excess, `constraint ${k}`);
  }
  const { flows } = crr.find_flows({ ...grid, period: 1, book });
  assert.deepEqual(page.now.loading.map(({ periods }) => periods[1].flow), [...flows]);
  const settled = crr.settle_hour({ ...grid, period: 1, prices: [1000, 2550], book });
  assert.equal(page.now.hour.sum, settled.sum);
  assert.deepEqual(page.now.hour.contracts.map((contract) => contract.cents), [...settled.cents]);
  assert.equal([...page.now.hour.holders.values()].reduce((sum, each) => sum + each), settled.sum);
});

test("a refusal changes nothing", () => {
  const page = model();
  const before = page.now;
  const refused = (number) => (problem) => problem instanceof Refused && problem.number === number;
  assert.throws(() => page.setQuantity("0", 0), refused(13));
  assert.throws(() => page.setLimit(0, 100000001), refused(6));
  assert.throws(() => page.setPrice(0, 500001), refused(15));
  assert.equal(page.now, before);
  assert.equal(page.changes.canUndo, false);
  page.setQuantity("0", 10000);
  assert.equal(page.changes.now.size, 0, "what the case has is no change");
});

test("every cut of the list clears the book", () => {
  const page = model(small([6000, 50000]));
  const { cuts, name } = page.now.lines.find((line) => line.cuts.length > 0);
  for (const cut of cuts) {
    page.takeCut(cut);
    assert.equal(page.now.lines.find((line) => line.name === name).overloaded.length, 0);
    page.step(-1);
  }
});

test("the worst prices cost what they are said to", () => {
  const page = model(small([5000, 50000]));
  const line = page.now.lines.find((each) => each.exposure && each.period === 1);
  page.tryPrices(line);
  assert.equal(page.now.hour.shortfall, line.exposure.least);
});

test("tiers", () => {
  const { opened, now } = model(small([6000, 50000]));
  const running = new RunningTest(crr, opened, now.grid, { process: 2, period: 1 });
  const award = (quantity) => ({ kind: 0, period: 1, holder: 0, source: 0, sink: 1, quantity });
  assert.equal(running.add("a", award(9000)).answer, "held");
  assert.equal(running.markTier(1, "1").answer, "marked");
  assert.equal(running.add("b", award(1000)).held, 2);
  const refused = running.add("c", award(1));
  assert.deepEqual([refused.number, refused.over.lowest, refused.over.excess], [21, 0, 60000n]);
  assert.equal(running.returnTo(2, "2").answer, "refused 20");
  assert.equal(running.returnTo(1, "1").held, 1);
  assert.deepEqual(running.held.map(({ name }) => name), ["a"]);
  assert.equal(running.mark(1), 1);
});

test("files", () => {
  const held = new Held();
  const files = small();
  assert.match(held.take("x/book.csv", files.book), /crr pack/);
  held.take("x/grid.bin", files.grid);
  assert.deepEqual(held.missing, ["book.bin"]);
  held.take("x/book.bin", files.book);
  held.take("x/prices/2026-07-01/HE09.bin", files.hours[0].file);
  held.take("x/prices/2026-07-01/HE08.bin", files.hours[0].file);
  assert.deepEqual(held.hours.map(({ day, hour }) => [day, hour]), [["2026-07-01", 8], ["2026-07-01", 9]]);
  assert.equal(openCase(crr, held.files).given, 2);
  assert.throws(() => held.take("names.csv", Uint8Array.of(0xff)), /UTF-8/);
  const one = new Held();
  one.take("prices.bin", files.hours[0].file);
  const names = writeNames([["hour", 0, "2026-07-01 HE08"], ["start", 0, "2026-07-01"]]);
  one.take("names.csv", new TextEncoder().encode(names));
  assert.deepEqual(one.hours.map(({ day, hour }) => [day, hour]), [["2026-07-01", 8]]);
  assert.equal(one.notes.length, 1);
  assert.equal(openCase(crr, one.filesOn(files)).given, 1);
  held.take("book.bin", files.book.slice(1));
  const faulty = (problem) => problem instanceof FileFault && problem.number > 0;
  assert.throws(() => openCase(crr, held.files), faulty);
});

// The least of several edits of a case of the largest size, in milliseconds of wall clock.
function timed(limit) {
  const page = model(largest(crr, limit));
  const times = Array.from({ length: 20 }, (_, i) => {
    const began = performance.now();
    page.setQuantity(String(i), 1000 + i);
    return performance.now() - began;
  });
  const failing = page.now.lines.filter((line) => line.overloaded.length > 0).length;
  return { failing, least: Math.min(...times), median: times.sort((a, b) => a - b)[10] };
}

console.log(`page: ${tried.length} tests without a browser pass: ${tried.join("; ")}`);
for (const limit of [90000000, 5000000, 2500000]) {
  const { failing, least, median } = timed(limit);
  const words = `${least.toFixed(1)} ms at least, ${median.toFixed(1)} in the middle`;
  console.log(`page: an edit of the largest case, every figure, ${failing} of 6 failing: ${words}`);
}
