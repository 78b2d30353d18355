// Parses the durations in tests and properties: `538`, `538 cycles`, `54 us`, `20 ms` or `1.5 s`. The blank before `us`, `ms` and `s` is
// optional.

import { cyclesFromMilliseconds } from "../time/mcs4_time.js";

/** The maximum duration, in cycles: three hours of a real 4004. */
const MAX_CYCLES = 1000000000;
/** The length of each unit in milliseconds. */
const UNIT_MILLISECONDS = new Map([["us", 0.001], ["ms", 1], ["s", 1000]]);

/**
 * A duration in cycles (0 if it is invalid), and the number of words that form it.
 * @typedef {{ cycles: number, wordCount: number }} Duration
 */

/**
 * Parses the duration that starts at a word.
 * @param {string[]} words
 * @param {number} from the index of the first word
 * @returns {Duration}
 */
export function parseDuration(words, from) {
  const joinedMatch = /^([0-9.]+)(us|ms|s)$/.exec(words[from] || "");
  const [number, unit] = joinedMatch ? joinedMatch.slice(1) : [words[from] || "", words[from + 1] || ""];
  if (!/^\d+(\.\d+)?$/.test(number) || number.length > 12) return { cycles: 0, wordCount: 0 };
  const milliseconds = UNIT_MILLISECONDS.get(unit);
  if (milliseconds) {
    const cycles = cyclesFromMilliseconds(Number(number) * milliseconds);
    return { cycles: cycles > MAX_CYCLES ? 0 : cycles, wordCount: joinedMatch ? 1 : 2 };
  }
  if (number.includes(".")) return { cycles: 0, wordCount: 0 };
  const hasUnit = unit === "cycles" || unit === "cycle";
  return { cycles: Number(number) > MAX_CYCLES ? 0 : Number(number), wordCount: hasUnit ? 2 : 1 };
}

/**
 * Parses words that must form exactly one duration. Returns its length in cycles, or 0 if the words are invalid.
 * @param {string[]} words
 */
export function parseExactDuration(words) {
  const { cycles, wordCount: count } = parseDuration(words, 0);
  return count === words.length ? cycles : 0;
}
