// Compiles conditions that start with a keyword: `lamps`, `display`, `printed`, `cycles`, or the name of a chain (`chain0`). Also compiles
// conditions on the program counter. The parser has already split the conditions into words. All functions that compile a condition throw
// `ConditionError` if the condition has an error.

import { hex, indices } from "../bench/numbers.js";
import { DisplayText } from "../board/display_text.js";
import { lampsOfGroup, findPrinter } from "../board/face_board.js";
import { PerceivedText, hasScannedDisplay } from "../engine/perceived_text.js";
import { parseExactDuration } from "./durations.js";
import { parsePlace } from "./places.js";
import { fail } from "./scanner.js";
import { findLampNumber } from "./values.js";
import * as say from "../../words/conditions.js";

/**
 * @typedef {import("./condition_language.js").Names} Names
 * @typedef {import("./condition_language.js").ExtraValues} ExtraValues
 * @typedef {import("./compiler.js").CompiledCondition} CompiledCondition
 * @typedef {import("./values.js").Dependencies} Dependencies
 *
 * The parts of a keyword condition. `subject` is the name of the measured value in messages; `isPlural` is true if that name is plural.
 * `required` is the text of the required value. `measure` returns the text of the actual value, `matches` returns whether that text
 * satisfies the condition, and `remark` returns text to append to the message.
 * @typedef {{ subject: string, required: string, isPlural?: boolean, measure: (values: string[], extraValues: ExtraValues) => string,
 *   matches: (actual: string, extraValues: ExtraValues) => boolean, remark?: (actual: string) => string, address?: number }}
 *   KeywordConditionParts
 */

/**
 * Compiles a keyword condition from its parts.
 * @param {KeywordConditionParts} parts
 * @returns {CompiledCondition}
 */
function createKeywordCondition({ subject, required, isPlural = false, measure, matches, remark, address = -1 }) {
  return {
    address,
    matches: (values, extraValues) => matches(measure(values, extraValues), extraValues),
    explain: (values, extraValues, isNot) => {
      const actual = measure(values, extraValues);
      return say.mustBeMessage(subject, actual, required + (remark ? remark(actual) : ""), isPlural, isNot);
    },
  };
}

/**
 * Returns whether the text matches a pattern. `?` in the pattern matches any character.
 * @param {string} text
 * @param {string} pattern
 */
function matchesPattern(text, pattern) {
  return text.length === pattern.length && [...pattern].every((mark, index) => mark === "?" || mark === text[index]);
}

/** @type {(value: string) => string} returns the marks in the value of the place `lamps`, one per lamp; "" if the board has no lamps */
const lampMarks = (value) => (value === "-" ? "" : value);

/**
 * Returns whether a lamp is an unnamed lamp of a display.
 * @param {number} lamp the lamp number
 * @param {Names} names
 */
function isUnnamedDisplayLamp(lamp, { face }) {
  if (face.lamps.has(lamp)) return false;
  return face.groups.some((group) => group.kind === "display" && lampsOfGroup(group).includes(lamp));
}

/**
 * Compiles `lamps` with a pattern of `*` (on), `.` (off) and `?` (on or off), or with the names of all lamps that must be on. The word
 * `none` means that all lamps must be off. If names or `none` are used, unnamed display lamps are ignored.
 * @param {string[]} words
 * @param {Names} names
 * @param {Dependencies} dependencies
 */
export function compileLamps(words, names, dependencies) {
  const count = names.board.lamps.length;
  if (words.length === 0) fail(say.LAMPS_SYNTAX);
  let required = words.join("");
  if (!/^[*.?]+$/.test(required)) {
    const requiredLamps = new Set(words.join(" ") === "none" ? [] : words.map((name) => findLampNumber(name, names)));
    required = indices(count).map((lamp) => (requiredLamps.has(lamp) ? "*" : isUnnamedDisplayLamp(lamp, names) ? "?" : ".")).join("");
  }
  if (required.length !== count) fail(say.wrongPatternLength(required.length, count));
  const place = dependencies.addPlace("lamps");
  /** @type {(actual: string) => string} */
  const describeLitLamps = (actual) => {
    const litLamps = [...names.face.lamps].filter(([lamp]) => actual[lamp] === "*").sort(([a], [b]) => a - b);
    return litLamps.length === 0 ? "" : say.litLamps(litLamps.map(([, { text }]) => text).join(" "));
  };
  return createKeywordCondition({
    subject: "lamps", isPlural: true, required, remark: describeLitLamps, measure: (values) => lampMarks(values[place]),
    matches: (actual) => matchesPattern(actual, required),
  });
}

/**
 * Compiles `display 42`, which compares the number on the display, or `display 0 overflow`, which compares the number and the lamp names
 * that `mcs4 display` prints. The number on a multiplexed display is the perceived number.
 * @param {string[]} words
 * @param {Names} names
 * @param {Dependencies} dependencies
 */
export function compileDisplay(words, names, dependencies) {
  const { face, board } = names;
  const displays = face.groups.filter(({ kind }) => kind === "display");
  if (displays.length === 0) fail(say.NO_DISPLAY);
  if (words.length === 0 || /^([<>]=?|!=?|==?)$/.test(words[0])) fail(say.DISPLAY_SYNTAX);
  const required = words.join(" ");
  /** @type {(shown: { number: string, names: string }) => string} */
  const displayedWords = ({ number, names: lampWords }) => (
    lampWords === "" || number === required ? number : `${number} ${lampWords}`);
  const matches = (/** @type {string} */ actual) => actual === required;
  if (hasScannedDisplay(face)) {
    dependencies.addNeed("lampForecast", say.DIGITS_ARE_MULTIPLEXED);
    const perceivedText = new PerceivedText(face, board.lamps.length);
    return createKeywordCondition({
      subject: "display", required, matches, measure: (_, extraValues) => displayedWords(perceivedText.read(extraValues.lampForecast)),
    });
  }
  const reader = new DisplayText(displays, [...face.lamps].map(([lamp, { text }]) => ({ lamp, text })));
  const place = dependencies.addPlace("lamps");
  return createKeywordCondition({
    subject: "display", required, matches, measure: (values) => displayedWords(reader.read(lampMarks(values[place]))),
  });
}

/**
 * Compiles `printed 12+ 30= 42`, which compares the last printed words. The word `nothing` means an empty printout.
 * @param {string[]} words
 * @param {Names} names
 * @param {Dependencies} dependencies
 */
export function compilePrinted(words, { face, board }, dependencies) {
  if (!findPrinter(board, face)) fail(say.NO_PRINTER);
  if (words.length === 0) fail(say.PRINTED_SYNTAX);
  dependencies.addNeed("printed", say.PRINTED_ONLY_IN_TESTS);
  const required = words.join(" ");
  return createKeywordCondition({
    subject: "printed", required, matches: (actual) => actual === required,
    measure: (_, { printed }) => printed.slice(-words.length).join(" ") || "nothing",
  });
}

/**
 * Compiles `cycles 538`, `cycles at most 20 ms` or `cycles at least 1 s`, which compare the cycles since the last `mark` line of a test.
 * @param {string[]} words
 * @param {Names} names
 * @param {Dependencies} dependencies
 * @returns {CompiledCondition}
 */
export function compileCycles(words, names, dependencies) {
  const comparison = words[0] === "at" ? words.slice(0, 2).join(" ") : "";
  const cycles = parseExactDuration(words.slice(comparison === "" ? 0 : 2));
  if (cycles < 1 || !/^(|at most|at least)$/.test(comparison)) fail(say.CYCLES_SYNTAX);
  dependencies.addNeed("cycles", say.onlyInTests("cycles"));
  /** @type {(actual: number) => boolean} */
  const matches = (actual) => (comparison === "" ? actual === cycles : comparison === "at most" ? actual <= cycles : actual >= cycles);
  const required = `${comparison && `${comparison} `}${cycles}`;
  return {
    address: -1,
    matches: (_, extraValues) => matches(extraValues.cycles),
    explain: (_, extraValues, isNot) => say.wrongCycleCountMessage(extraValues.cycles, required, isNot),
  };
}

/**
 * Compiles `chain0 1100??????`, which compares the bits of a chain.
 * @param {string} name the name of the chain
 * @param {string[]} words
 * @param {Names} names
 * @param {Dependencies} dependencies
 */
export function compileChain(name, words, { board }, dependencies) {
  const place = parsePlace(name);
  if (!place || place.probesOn(board).length === 0) return fail(say.boardLacks(name));
  const bitCount = 10 * board.chains[Number(name.slice("chain".length))].chips;
  const required = words.join("");
  if (!/^[01?]+$/.test(required) || required.length !== bitCount) fail(say.chainBits(name.slice("chain".length), bitCount));
  const valueIndex = dependencies.addPlace(name);
  return createKeywordCondition({
    subject: name, required, measure: (values) => values[valueIndex], matches: (actual) => matchesPattern(actual, required),
  });
}

/**
 * Returns an address with its name in the program, such as `012 (next + 2)`.
 * @param {number} address
 * @param {Names} names
 */
function formatAddress(address, { map }) {
  const name = map ? map.nameOf(address) : "";
  return `${hex(address, 3)}${name && ` (${name})`}`;
}

/**
 * Compiles the condition that the program counter is equal to an address. The condition is true only between two instructions.
 * @param {number} address
 * @param {string} required the address as written in the condition
 * @param {Names} names
 * @param {Dependencies} dependencies
 */
export function compileProgramCounter(address, required, names, dependencies) {
  const digits = hex(address, 3);
  const valueIndex = dependencies.addPlace("pc");
  return createKeywordCondition({
    subject: "pc", required, address,
    measure: (values, { owed }) => `${formatAddress(parseInt(values[valueIndex], 16), names)}${owed === "1" ? say.WITHIN_INSTRUCTION : ""}`,
    matches: (actual, { owed }) => actual.slice(0, 3) === digits && owed !== "1",
  });
}
