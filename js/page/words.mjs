// Kinds, periods and processes by number, as tables and sentences spell them.
import { constants } from "../crr.mjs";

export const KINDS = ["OBL", "OPT"];
export const PERIODS = ["OFF", "ON"];
export const PERIOD_WORDS = ["off-peak", "on-peak"];
export const PROCESSES = ["annual", "Tier LT", "monthly"];
export const TIERS = ["", "1", "2", "3", "LT"];

const IN_ORDER = [constants.ON_PEAK, constants.OFF_PEAK];

// A period and a process, in the order in which the report has them.
export const LINES = IN_ORDER.flatMap((period) =>
  PROCESSES.map((_, process) => ({ period, process, name: lineName(period, process) })),
);

// ON annual.
export function lineName(period, process) {
  return `${PERIODS[period]} ${PROCESSES[process]}`;
}

// On-peak, annual.
export function lineWords({ period, process }) {
  const words = PERIOD_WORDS[period];
  return `${words[0].toUpperCase()}${words.slice(1)}, ${PROCESSES[process]}`;
}

// 1 contract, 1,000 contracts.
export function counted(count, what) {
  return `${count.toLocaleString("en-US")} ${what}${count === 1 ? "" : "s"}`;
}

// 2026-07-01 HE08.
export function hourName({ day, hour }) {
  return hour ? `${day} HE${String(hour).padStart(2, "0")}`.trim() : day;
}
