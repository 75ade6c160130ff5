// Written by js/generate from include/crr.h, whose comments say what each function does and refuses.

/** A whole number; a number that is not a safe integer is turned down. */
export type Whole = number | bigint;

/** Cells that are read only. */
export type Bytes = Uint8Array | readonly Whole[];
export type Naturals = BigUint64Array | readonly Whole[];
export type Integers = BigInt64Array | readonly Whole[];

/** The numbers that crr.h names, without CRR_: sizes, refusals, periods, processes. */
export const constants: {
  readonly INTERFACE: 2;
  readonly TEXT_STACK_BYTES: 200000;
  readonly STACK_BYTES: 50000;
  readonly MAX_NODES: 4000;
  readonly MAX_NARROW_NODES: 200;
  readonly MAX_CONSTRAINTS: 64;
  readonly MAX_CONTRACTS: 1000;
  readonly MAX_SUMMED: 20000000;
  readonly MAX_COORDINATORS: 256;
  readonly MAX_HUB_NODES: 32;
  readonly MAX_LSES: 16;
  readonly MAX_MIGRATION_ROWS: 1000;
  readonly RUNNING_AWARDS: 6000;
  readonly RUNNING_NUMBERS: 14;
  readonly RUNNING_FLOWS: 320;
  readonly MARK_LT: 4;
  readonly HUB_WEIGHT: 100000;
  readonly MAX_CUSTOMERS: 1000000;
  readonly MAX_CUSTOMER_LOAD: 10000;
  readonly MAX_LOAD: 1000000000000;
  readonly MAX_GRID_BYTES: 576220;
  readonly MAX_BOOK_BYTES: 7002;
  readonly MAX_HOLDER_VIEW_BYTES: 9000;
  readonly MAX_PRICE_BYTES: 153;
  readonly MAX_TEXT_GRID_BYTES: 32768;
  readonly STATEMENT_BYTES: 29085;
  readonly REPORT_BYTES: 2048;
  readonly REFUSAL_TEXT_BYTES: 128;
  readonly FIRST_YEAR: 2010;
  readonly LAST_YEAR: 2037;
  readonly NARROW: 0;
  readonly WIDE: 1;
  readonly OFF_PEAK: 0;
  readonly ON_PEAK: 1;
  readonly ANNUAL: 0;
  readonly TIER_LT: 1;
  readonly MONTHLY: 2;
  readonly OK: 0;
  readonly SHORT_FILE: 1;
  readonly NODE_COUNT: 2;
  readonly CONSTRAINT_COUNT: 3;
  readonly SPARE_BITS: 4;
  readonly FILE_LENGTH: 5;
  readonly LIMIT_RANGE: 6;
  readonly FACTOR_RANGE: 7;
  readonly PADDING: 8;
  readonly SHORT_TABLE: 9;
  readonly CONTRACT_COUNT: 10;
  readonly NODE_NUMBER: 11;
  readonly QUANTITY_RANGE: 13;
  readonly PRICE_COUNT: 14;
  readonly PRICE_RANGE: 15;
  readonly PROCESS_NUMBER: 16;
  readonly PERIOD_OR_KIND: 17;
  readonly HOLDER_RANGE: 18;
  readonly NO_SUCH_DATE: 19;
  readonly TIER_MARK: 20;
  readonly AWARD_OVERLOAD: 21;
  readonly MIGRATION_RANGE: 22;
  readonly LOAD_EXCEEDED: 23;
  readonly HUB_SHAPE: 24;
  readonly HUB_NODE_TWICE: 25;
  readonly SHARE_RANGE: 26;
  readonly NO_DEMAND: 27;
};

/** Input was turned down. What was handed in has not changed. */
export class Refused extends Error {
  constructor(number: number, text: string, entry: string);
  /** The refusal's number, as constants name it. */
  readonly number: number;
  /** The library's own sentence for it. */
  readonly text: string;
  /** The function that refused. */
  readonly entry: string;
}

/** The three buffers of a running test (crr.h, RUNNING TEST), to be handed to the functions on it. */
export interface Running {
  awards: BigUint64Array;
  numbers: BigUint64Array;
  flows: BigInt64Array;
}

/** Fresh buffers for a running test, which open_running opens. */
export function running(): Running;

/**
 * The functions of crr.h without crr_. Each takes an object by the header's parameter names and gives one
 * with the figures and buffers that it wrote, or throws Refused. A buffer that may be left out is made as
 * long as is ever needed and given back cut to what was written; one that is handed in is written in place.
 */
export interface Library {
  /** Gives the number of the interface that the library has: CRR_INTERFACE of the header that it was
   * built with. */
  interface(): number;
  /** Writes what a refusal's number means: the sentence that stands beside it above, 0 for none among
   * them. */
  refusal_text(given: {
    number: Whole; text?: Uint8Array;
  }): {
    text: Uint8Array; bytes: number;
  };
  /** Reads a grid's file, of either form. */
  read_grid(given: {
    file: Bytes; limits?: BigUint64Array; factors?: BigInt64Array;
  }): {
    limits: BigUint64Array; factors: BigInt64Array; nodes: number; constraints: number; form: bigint;
  };
  /** Writes a grid's file from the first cells of its tables, in the form told: 0 narrow, any other
   * number wide. */
  write_grid(given: {
    form: Whole; nodes: Whole; constraints: Whole; limits: Naturals; factors: Integers; file?: Uint8Array;
  }): {
    file: Uint8Array; bytes: number;
  };
  /** Reads a book's file, of either form, for a grid of so many nodes. */
  read_book(given: {
    nodes: Whole; file: Bytes; book?: BigUint64Array;
  }): {
    book: BigUint64Array; contracts: number; form: bigint;
  };
  /** Writes a book's file, for a grid of so many nodes, from the first 6 * contracts cells of book, in
   * the form told: 0 narrow, any other number wide. */
  write_book(given: {
    form: Whole; nodes: Whole; contracts: Whole; book: Naturals; file?: Uint8Array;
  }): {
    file: Uint8Array; bytes: number;
  };
  /** Remaps a book's file, for a grid of so many nodes: moves the ends of its contracts by pairs of node
   * numbers, cell i of old_nodes and cell i of new_nodes. */
  remap_book(given: {
    nodes: Whole; book: Bytes; old_nodes: Naturals; new_nodes: Naturals; file?: Uint8Array;
  }): {
    file: Uint8Array; bytes: number;
  };
  /** Writes the market's view of a book's file, for a grid of so many nodes: the same contracts, in the
   * same order and form, with holder 0 in each. */
  write_market_view(given: {
    nodes: Whole; book: Bytes; file?: Uint8Array;
  }): {
    file: Uint8Array; bytes: number;
  };
  /** Writes a holder's view of a book's file, for a grid of so many nodes: the holder's contracts of both
   * periods, in the order of the book. */
  write_holder_view(given: {
    nodes: Whole; book: Bytes; holder: Whole; view?: Uint8Array;
  }): {
    view: Uint8Array; bytes: number;
  };
  /** Writes the canonical form of a book's file, for a grid of so many nodes: what document 02 calls its
   * "settled form", one for all copies of a book, whatever the order of their rows and however they are
   * split. */
  write_canonical_book(given: {
    nodes: Whole; book: Bytes; file?: Uint8Array;
  }): {
    file: Uint8Array; bytes: number;
  };
  /** Adds a contract from a hub to a sink to a book's file, for a grid of so many nodes, as contracts
   * from the hub's nodes to the sink, with the kind, period and holder given. */
  add_hub_contract(given: {
    nodes: Whole; book: Bytes; kind: Whole; period: Whole; holder: Whole; hub_nodes: Naturals;
    hub_weights: Naturals; sink: Whole; quantity: Whole; file?: Uint8Array;
  }): {
    file: Uint8Array; bytes: number;
  };
  /** Reads a price file, for a grid of so many constraints. */
  read_prices(given: {
    constraints: Whole; file: Bytes; prices?: BigUint64Array;
  }): {
    prices: BigUint64Array; period: bigint;
  };
  /** Writes a price file from the first cells of prices. */
  write_prices(given: {
    period: Whole; constraints: Whole; prices: Naturals; file?: Uint8Array;
  }): {
    file: Uint8Array; bytes: number;
  };
  /** The simultaneous feasibility test: whether the contracts of one period, of a book's file, are
   * feasible on a grid in a process. */
  test_book(given: {
    nodes: Whole; constraints: Whole; process: Whole; period: Whole; limits: Naturals; factors: Integers;
    book: Bytes;
  }): {
    set: bigint; count: number; lowest: number; excess: bigint;
  };
  /** Finds the flow on each constraint of the contracts of one period, of a book's file, as the test
   * counts them: an option only where its flow is positive. */
  find_flows(given: {
    nodes: Whole; constraints: Whole; period: Whole; limits: Naturals; factors: Integers; book: Bytes;
    flows?: BigInt64Array;
  }): {
    flows: BigInt64Array; counted: number;
  };
  /** Adds the flow on each constraint of the contracts of one period, of a book's file, to running
   * totals: a step of a test of any size. */
  add_flows(given: {
    nodes: Whole; constraints: Whole; period: Whole; limits: Naturals; factors: Integers; book: Bytes;
    flows: BigInt64Array; count: Whole;
  }): {
    count: number; counted: number;
  };
  /** Judges the running totals of a block of constraints, as the test judges: the last step of a test of
   * any size, for each block. */
  judge_flows(given: {
    constraints: Whole; process: Whole; limits: Naturals; flows: Integers; summed: Whole;
  }): {
    set: bigint; count: number; lowest: number; excess: bigint;
  };
  /** Finds, for a book that fails the test, every contract of the period tested whose quantity, lowered
   * alone, makes the book pass in the process, with the smallest cut that does. */
  find_cuts(given: {
    nodes: Whole; constraints: Whole; process: Whole; period: Whole; limits: Naturals; factors: Integers;
    book: Bytes; numbers?: BigUint64Array; cuts?: BigUint64Array;
  }): {
    numbers: BigUint64Array; cuts: BigUint64Array; listed: number;
  };
  /** Finds what a book costs at a price list, for a process and period: net payment, congestion rent and
   * shortfall of one hour (document 01, "Terms of the third demand"). */
  find_shortfall(given: {
    nodes: Whole; constraints: Whole; process: Whole; period: Whole; limits: Naturals; factors: Integers;
    prices: Naturals; book: Bytes;
  }): {
    payment_whole: bigint; payment_parts: bigint; rent_whole: bigint; rent_parts: bigint;
    shortfall_whole: bigint; shortfall_parts: bigint;
  };
  /** Finds what a book can cost in a process and period: how much its holders can be owed beyond the
   * congestion rent of one hour, at the worst shadow prices. */
  find_exposure(given: {
    nodes: Whole; constraints: Whole; process: Whole; period: Whole; limits: Naturals; factors: Integers;
    book: Bytes; prices?: BigUint64Array;
  }): {
    prices: BigUint64Array; least_whole: bigint; least_parts: bigint; most_whole: bigint;
    most_parts: bigint;
  };
  /** Opens a running test (see RUNNING TEST) on a grid, for a process and a period: no award is held and
   * no tier is marked. */
  open_running(given: {
    nodes: Whole; constraints: Whole; process: Whole; period: Whole; limits: Naturals; factors: Integers;
    awards: Naturals; numbers: BigUint64Array; flows: BigInt64Array;
  }): Record<string, never>;
  /** Adds an award to a running test: the first six cells of award, a row of a book. */
  add_award(given: {
    nodes: Whole; constraints: Whole; process: Whole; period: Whole; limits: Naturals; factors: Integers;
    award: Naturals; awards: BigUint64Array; numbers: BigUint64Array; flows: BigInt64Array;
  }): Record<string, never>;
  /** Marks a tier of a running test at the awards held now, also where there are none. */
  mark_tier(given: {
    tier: Whole; numbers: BigUint64Array; flows: BigInt64Array;
  }): Record<string, never>;
  /** Returns to a marked tier of a running test: the awards held at its mark are held again, those added
   * since are dropped, and so is every mark made when more awards were held, whatever its tier. */
  return_to_tier(given: {
    tier: Whole; numbers: BigUint64Array; flows: BigInt64Array;
  }): Record<string, never>;
  /** Gives the share of each limit that a process releases. */
  released_percent(given: {
    process: Whole;
  }): {
    percent: bigint;
  };
  /** Finds the MCC of all nodes: minus the sum over constraints of factor * price. */
  find_mcc(given: {
    nodes: Whole; constraints: Whole; factors: Integers; prices: Naturals; mcc?: BigInt64Array;
  }): {
    mcc: BigInt64Array;
  };
  /** Finds the MCC of a hub: the sum over its nodes of weight * MCC of the node, divided by 100,000. */
  find_hub_mcc(given: {
    nodes: Whole; constraints: Whole; factors: Integers; prices: Naturals; hub_nodes: Naturals;
    hub_weights: Naturals;
  }): {
    quotient: bigint; remainder: bigint;
  };
  /** Settles an hour of a period, for the contracts of a book's file. */
  settle_hour(given: {
    nodes: Whole; constraints: Whole; period: Whole; factors: Integers; prices: Naturals; book: Bytes;
    cents?: BigInt64Array; priced?: BigUint64Array;
  }): {
    cents: BigInt64Array; priced: BigUint64Array; sum: bigint; whole: bigint; parts: bigint;
  };
  /** Shares a balance, of either sign, among Scheduling Coordinators by their demands: cell i of demands
   * is that of coordinator i. */
  share_balance(given: {
    balance: Whole; demands: Naturals; shares?: BigInt64Array;
  }): {
    shares: BigInt64Array;
  };
  /** Nets the load that moved between LSEs: the square of net transfers that crr_migrate_load follows,
   * for those who want to see it; no paper asks for it by itself. */
  net_transfers(given: {
    lses: Whole; classes: Bytes; customers: Naturals; rates: Naturals; olds: Naturals; news: Naturals;
    nets?: BigInt64Array;
  }): {
    nets: BigInt64Array;
  };
  /** Migrates load: the monthly transfer of CRRs between LSEs whose customers moved, for one period, from
   * a book's file, for a grid of so many nodes. */
  migrate_load(given: {
    nodes: Whole; period: Whole; book: Bytes; classes: Bytes; customers: Naturals; rates: Naturals;
    olds: Naturals; news: Naturals; loads: Naturals; file?: Uint8Array;
  }): {
    file: Uint8Array; bytes: number;
  };
  /** Writes the feasibility report on a grid's file and a book's file: a heading and a line for each
   * period and process, or the one line `refused,grid,N` or `refused,book,N`. */
  write_report(given: {
    grid_file: Bytes; book_file: Bytes; text?: Uint8Array;
  }): {
    text: Uint8Array; bytes: number;
  };
  /** Writes the hour statement on a grid's file, a book's file and a price file: the heading
   * `contract,holder,kind,cents,priced`, a line of these five for each contract of the hour's period, the
   * sum and the exact total, or the one line `refused,grid,N`, `refused,book,N` or `refused,prices,N`. */
  write_statement(given: {
    grid_file: Bytes; book_file: Bytes; price_file: Bytes; text?: Uint8Array;
  }): {
    text: Uint8Array; bytes: number;
  };
  /** Gives the on-peak hours of a month: the hours ending 7 to 22, 16 of a day, on Mondays to Saturdays
   * that are no holiday. */
  month_hours(given: {
    year: Whole; month: Whole;
  }): {
    hours: bigint;
  };
  /** Gives the period of an hour of a date, by the rule of crr_month_hours: on-peak are the hours ending
   * 7 to 22 of the days that it counts. */
  hour_period(given: {
    year: Whole; month: Whole; day: Whole; hour_ending: Whole;
  }): {
    period: bigint;
  };
  /** Gives the weekday of a date. */
  weekday(given: {
    year: Whole; month: Whole; day: Whole;
  }): {
    weekday: bigint;
  };
  /** Gives the date one month later: the same day of the next month, or that month's last day where it is
   * a shorter one. */
  month_later(given: {
    year: Whole; month: Whole; day: Whole;
  }): {
    later_year: bigint; later_month: bigint; later_day: bigint;
  };
}

/** Loads crr.wasm, from its bytes or compiled. */
export function load(wasm: ArrayBuffer | ArrayBufferView | WebAssembly.Module): Promise<Library>;
