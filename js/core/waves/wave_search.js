// Searches a recording for a value or an edge. Examples of searches: `9` (on the marked line), `r5 = 9`, `rom0 != 0`, `lamp15 rises`,
// `@LABEL`.

import { parseNumber } from "../bench/numbers.js";
import { isDecoder, parseScan } from "./decoders.js";
import { countUpTo } from "./number_queue.js";
import { findLineByName } from "./trigger.js";
import * as say from "../../words/waves.js";

/**
 * @typedef {import("./wave_recording.js").Waves} Waves
 *
 * A search: the index of a line, and a function that returns whether a value matches. If `findsEachMatch` is true, the search finds every
 * change to a matching value. Otherwise it finds a change only if the previous value does not match.
 * @typedef {{ line: number, matches: (value: number) => boolean, findsEachMatch: boolean }} Search
 */

/** @type {Record<string, (left: number, right: number) => boolean>} the comparisons, by operator */
const COMPARISONS = {
  "=": (left, right) => left === right, "!=": (left, right) => left !== right, "<": (left, right) => left < right,
  ">": (left, right) => left > right, "<=": (left, right) => left <= right, ">=": (left, right) => left >= right,
};

/** @type {Record<string, (value: number) => boolean>} tests of the value after an edge, by kind of edge */
const EDGE_TESTS = { rises: (value) => value === 1, falls: (value) => value === 0, changes: () => true };

/**
 * Creates an error result.
 * @param {string} error
 * @returns {{ search: null, error: string }}
 */
function createSearchError(error) {
  return { search: null, error };
}

/**
 * Returns the address of a label, and the number of the label in the label track; null if the label does not exist.
 * @param {Waves} waves
 * @param {string} name
 */
function findLabel(waves, name) {
  const labelIndex = waves.program ? waves.program.labels.findIndex((label) => label.name === name) : -1;
  return labelIndex < 0 ? null : { address: waves.program ? waves.program.labels[labelIndex].address : 0, number: labelIndex + 1 };
}

/**
 * Parses a search text. If the text has an error, `error` is the message.
 * @param {string} text
 * @param {Waves} waves
 * @param {number} markedLine the index of the marked line; -1 for none
 * @returns {{ search: Search | null, error: string }}
 */
export function parseSearch(text, waves, markedLine) {
  const trimmed = text.trim();
  if (trimmed === "") return createSearchError(say.searchQuestion(say.SEARCH_FORMS));
  if (trimmed.startsWith("@")) {
    const label = findLabel(waves, trimmed.slice(1));
    const counterLine = waves.lines.findIndex(({ kind }) => kind === "pc");
    if (!label) return createSearchError(say.noLabelMessage(trimmed.slice(1)));
    return { search: { line: counterLine, matches: (value) => value === label.address, findsEachMatch: false }, error: "" };
  }
  const edge = /^(?:(.*\S)\s+)?(rises|falls|changes)$/.exec(trimmed);
  if (edge) return makeEdgeSearch(edge[1], edge[2], waves, markedLine);
  const comparison = /^(.*?)\s*(!=|<=|>=|=|<|>)\s*(\S+)$/.exec(trimmed);
  const [, name, operator, value] = comparison || ["", "", "=", trimmed];
  return makeValueSearch(name, operator, value, waves, markedLine);
}

/**
 * Returns the index of the line that a search reads: the line with a name, or the marked line if the name is "". If there is no such line,
 * `error` is the error message.
 * @param {string} name
 * @param {Waves} waves
 * @param {number} markedLine
 */
function findSearchedLine(name, waves, markedLine) {
  const line = name ? findLineByName(name, waves.lines) : markedLine;
  if (line >= 0) return { line, error: "" };
  return { line, error: name ? say.notRecordedMessage(name) : say.NO_ROW_SELECTED };
}

/**
 * Returns the search for an edge, or an error.
 * @param {string | undefined} name
 * @param {string} edge
 * @param {Waves} waves
 * @param {number} markedLine
 */
function makeEdgeSearch(name, edge, waves, markedLine) {
  const { line, error } = findSearchedLine(name || "", waves, markedLine);
  if (error) return createSearchError(error);
  const { width } = waves.lines[line];
  if (edge !== "changes" && isDecoder(waves.lines[line])) return createSearchError(say.decodedRowMessage(waves.lines[line].name));
  if (edge !== "changes" && width > 1) return createSearchError(say.numberRowMessage(waves.lines[line].name));
  return { search: { line, matches: EDGE_TESTS[edge], findsEachMatch: true }, error: "" };
}

/**
 * Returns the search for a value, or an error.
 * @param {string} name
 * @param {string} operator the comparison operator
 * @param {string} value
 * @param {Waves} waves
 * @param {number} markedLine
 */
function makeValueSearch(name, operator, value, waves, markedLine) {
  const { line, error } = findSearchedLine(name, waves, markedLine);
  if (error) return createSearchError(error);
  const { kind, width, name: lineName } = waves.lines[line];
  if (isDecoder(waves.lines[line])) return makeKeySearch(waves.lines[line], line, operator, value);
  const label = kind === "label" || kind === "pc" ? findLabel(waves, value.replace(/^@/, "")) : null;
  const binary = /^0b([01]+)$/i.exec(value);
  const number = label ? (kind === "pc" ? label.address : label.number) : binary ? parseInt(binary[1], 2) : parseNumber(value);
  if (kind === "label" && !label) return createSearchError(say.noLabelMessage(value));
  if (Number.isNaN(number)) return createSearchError(say.noNumberMessage(value, say.SEARCH_FORMS));
  const maxValue = 2 ** width - 1;
  if (kind !== "label" && number > maxValue) return createSearchError(say.valueTooLarge(lineName, width, maxValue));
  const matches = (/** @type {number} */ lineValue) => COMPARISONS[operator](lineValue, number);
  return { search: { line, matches, findsEachMatch: false }, error: "" };
}

/**
 * Returns the search for a key in a key scan, or an error.
 * @param {import("./wave_lines.js").WaveLine} decoder
 * @param {number} line the index of the key scan line
 * @param {string} operator
 * @param {string} key
 * @returns {{ search: Search | null, error: string }}
 */
function makeKeySearch(decoder, line, operator, key) {
  if (operator !== "=" || !decoder.places.includes(key)) return createSearchError(say.decodedRowMessage(decoder.name));
  return { search: { line, matches: (value) => parseScan(decoder, value).keys.includes(key), findsEachMatch: false }, error: "" };
}

/**
 * Returns the moment of the next match after a moment, or of the last match before it; -1 if there is none.
 * @param {Waves} waves
 * @param {Search} search
 * @param {number} moment
 * @param {boolean} isForward true to search after the moment, false to search before it
 */
export function findMatch(waves, { line, matches, findsEachMatch }, moment, isForward) {
  const track = waves.getTrack(line);
  const changeMoments = track.moments.all;
  const direction = isForward ? 1 : -1;
  const first = isForward ? countUpTo(changeMoments, moment) : countUpTo(changeMoments, moment - 1) - 1;
  for (let index = first; index >= 0 && index < changeMoments.length; index += direction) {
    if (matches(track.valueAfter(index + 1)) && (findsEachMatch || !matches(track.valueAfter(index)))) return changeMoments[index];
  }
  // A backward search can also find the initial value, at the start of the recording.
  return !isForward && !findsEachMatch && moment > waves.from && matches(track.first) ? waves.from : -1;
}
