// Every figure of a case, from the library. What is worked out here is sums and differences of whole numbers
// that it gave.
import { constants } from "../crr.mjs";
import { together } from "./decimals.mjs";
import { LINES } from "./words.mjs";

// What a process releases of a limit, in 10^-8 MW: the congestion rent, in 10^-8 cents, of one cent on a
// constraint of that limit.
function releasing(crr) {
  const known = new Map();
  const { file: book } = crr.write_book({ form: constants.NARROW, nodes: 1, contracts: 0, book: [] });
  const alone = { nodes: 1, constraints: 1, period: 0, factors: [0], prices: [1], book };
  return (limit, process) => {
    const key = `${process} ${limit}`;
    if (!known.has(key)) {
      const { rent_whole, rent_parts } = crr.find_shortfall({ ...alone, process, limits: [limit] });
      known.set(key, together(rent_whole, rent_parts));
    }
    return known.get(key);
  };
}

// The constraints of a set: bit k is constraint k.
export function members(set) {
  const out = [];
  for (let k = 0, left = BigInt(set); left > 0n; k++, left >>= 1n) if (left & 1n) out.push(k);
  return out;
}

function exposureOf(crr, tables) {
  const found = crr.find_exposure(tables);
  return {
    prices: found.prices,
    least: together(found.least_whole, found.least_parts),
    most: together(found.most_whole, found.most_parts),
  };
}

function cutsOf(crr, tables, rows) {
  const { numbers, cuts } = crr.find_cuts(tables);
  return Array.from(numbers, (number, i) => ({ row: rows[Number(number)], cut: Number(cuts[i]) }));
}

export class Figures {
  constructor(crr) {
    this.crr = crr;
    this.released = releasing(crr);
    this.percents = [0, 1, 2].map((process) => Number(crr.released_percent({ process }).percent));
  }

  // Of a period: the flows, and by process the verdict and, where the book fails, what clears it and what it
  // can cost.
  period(grid, rows, book, period) {
    const { flows, counted } = this.crr.find_flows({ ...grid, period, book });
    const lines = LINES.filter((line) => line.period === period).map((line) => {
      const tables = { ...grid, process: line.process, period, book };
      const verdict = this.crr.test_book(tables);
      const overloaded = members(verdict.set);
      if (overloaded.length === 0) return { ...line, verdict, overloaded, cuts: [] };
      const cuts = cutsOf(this.crr, tables, rows);
      return { ...line, verdict, overloaded, cuts, exposure: exposureOf(this.crr, tables) };
    });
    return { flows, counted, lines };
  }

  // Each constraint's flow by period, what each process releases, and the difference of the two.
  loading({ limits }, periods) {
    return Array.from(limits, (limit, k) => {
      const released = [0, 1, 2].map((process) => this.released(limit, process));
      const of = periods.map(({ flows, lines }) => ({
        flow: flows[k],
        excess: released.map((capacity) => flows[k] - capacity),
        over: lines.filter((line) => line.overloaded.includes(k)).map((line) => line.process),
      }));
      return { k, limit, released, periods: of };
    });
  }

  // An hour's statement, with its rent and shortfall in a process.
  hour(grid, rows, book, { period, prices }, process) {
    const tables = { ...grid, process, period, prices, book };
    const settled = this.crr.settle_hour(tables);
    const contracts = rows.flatMap((row, i) =>
      row.period === period ? [{ row, cents: settled.cents[i], priced: members(settled.priced[i]) }] : [],
    );
    const cost = this.crr.find_shortfall(tables);
    return {
      period,
      process,
      contracts,
      sum: settled.sum,
      exact: together(settled.whole, settled.parts),
      rent: together(cost.rent_whole, cost.rent_parts),
      shortfall: together(cost.shortfall_whole, cost.shortfall_parts),
      holders: holderSums(contracts),
    };
  }

  // What each contract is paid in an hour, for sums over hours.
  cents(grid, book, { period, prices }) {
    return this.crr.settle_hour({ ...grid, period, prices, book }).cents;
  }
}

// The cents of each holder, by number.
export function holderSums(contracts) {
  const sums = new Map();
  for (const { row, cents } of contracts) sums.set(row.holder, (sums.get(row.holder) ?? 0n) + cents);
  return new Map([...sums].sort(([a], [b]) => a - b));
}
