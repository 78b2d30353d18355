// Finds all errors in a program. The bench reports the line number and the refusal number of each error. This module adds the range of the
// wrong word in the line, and a message.

import { findDefinedNames, splitStatement } from "./assembly.js";
import { hex } from "../bench/numbers.js";
import { MAX_ERRORS } from "../bench/text_check_answers.js";
import { explainProgramLine } from "./program_words.js";
import { TEXT_TOO_LONG, toAsciiComments, findSendingErrors, sentLine } from "./sendable_text.js";
import * as say from "../../words/text.js";

/**
 * @typedef {import("../bench/answers.js").Refusal} Refusal
 * @typedef {import("../help/manual.js").Instruction} Instruction
 * @typedef {import("./program_words.js").KnownWords} KnownWords
 * @typedef {import("./program_words.js").WordError} WordError
 * @typedef {import("./sendable_text.js").TextError} TextError
 *
 * The errors in a program or board text. `errors` are the errors in its lines. `isComplete` is false if the text can have more errors.
 * `generalRefusal` is an error that belongs to no particular line, such as refusal 42 (the board lacks a ROM); null if there is none.
 * @typedef {{ errors: TextError[], isComplete: boolean, generalRefusal: Refusal | null }} TextErrors
 */

/** The refusal number for a program that needs a ROM that the board lacks. */
export const MISSING_ROM = 42;

/**
 * Creates an error in a line. The range of the error is the wrong word, or all code of the line if no word is known.
 * @param {string} source the text of the line
 * @param {number} lineNumber
 * @param {WordError | null} error the wrong word and the message; null if only the refusal number is known
 * @param {number} number the refusal number
 * @param {(number: number) => string} messageFor returns the message of a refusal
 * @returns {TextError}
 */
function createError(source, lineNumber, error, number, messageFor) {
  const code = source.slice(0, splitStatement(source).comment);
  const from = code.length - code.trimStart().length;
  const range = error && error.word ? { from: error.word.from, to: error.word.to } : { from, to: Math.max(from, code.trimEnd().length) };
  const quickFixTexts = error && error.word && error.quickFixTexts ? { quickFixTexts: error.quickFixTexts } : {};
  return { number, line: lineNumber, ...range, words: error ? error.message : messageFor(number), ...quickFixTexts };
}

/**
 * Converts an error that the bench reports for a line to an error with a position and a message.
 * @param {string[]} lines the program lines
 * @param {import("../bench/text_check_answers.js").LineError} error
 * @param {KnownWords} knownWords
 * @param {(number: number) => string} messageFor returns the message of a refusal
 * @returns {TextError}
 */
export function createLineError(lines, { line, number }, knownWords, messageFor) {
  const text = lines[line - 1];
  return createError(text, line, explainProgramLine(text, number, knownWords), number, messageFor);
}

/**
 * Resolves to the errors in a program. Sends an empty line to the bench instead of each line that cannot be sent.
 * @param {string} program
 * @param {Map<string, Instruction>} instructions
 * @param {(number: number) => string} messageFor returns the message of a refusal
 * @param {Pick<import("./text_error_finder.js").ErrorQueries, "findLineErrors" | "findRefusal">} queries
 * @returns {Promise<TextErrors>}
 */
export async function findProgramErrors(program, instructions, messageFor, queries) {
  const sendingErrors = findSendingErrors(program, ";");
  const isTooLong = sendingErrors.some(({ number }) => number === TEXT_TOO_LONG);
  if (isTooLong) return { errors: sendingErrors, isComplete: false, generalRefusal: null };
  const lines = toAsciiComments(program, ";").split("\n");
  const unsendableLines = new Set(sendingErrors.map(({ line }) => line));
  const sendableProgram = lines.map((line, index) => (unsendableLines.has(index + 1) ? "" : sentLine(line, ";"))).join("\n");
  const rejectedLines = await queries.findLineErrors(sendableProgram);
  /** @type {KnownWords} */
  const knownWords = { instructions, names: findDefinedNames(lines) };
  const lineErrors = rejectedLines.map((error) => createLineError(lines, error, knownWords, messageFor));
  const errors = [...sendingErrors, ...lineErrors].sort((one, other) => one.line - other.line || one.from - other.from);
  const generalRefusal = errors.length === 0 ? await queries.findRefusal(sendableProgram) : null;
  return { errors, isComplete: rejectedLines.length < MAX_ERRORS, generalRefusal };
}

/**
 * Returns an error for each ROM that the program needs and the board lacks, at the first program line in that ROM.
 * @param {string[]} lines the program lines
 * @param {import("../machine/source_map.js").SourceMap} map the source map of the program
 * @param {Set<number>} roms the numbers of the ROMs on the board
 * @returns {TextError[]}
 */
export function findMissingRoms(lines, map, roms) {
  /** @type {Map<number, TextError>} */
  const errors = new Map();
  lines.forEach((text, index) => {
    const line = index + 1;
    const address = map.addressOf(line);
    if (address === undefined) return;
    const chip = [Math.floor(address / 256), Math.floor((address + map.sizes[line] - 1) / 256)].find((romNumber) => !roms.has(romNumber));
    if (chip === undefined || errors.has(chip)) return;
    const message = say.noRomForLineMessage(chip, hex(address, 3));
    errors.set(chip, createError(text, line, { word: null, message }, MISSING_ROM, () => message));
  });
  return [...errors.values()];
}

/**
 * Returns whether a text is probably not a program: it has lines with code, and each of these lines has an error. If the list of errors is
 * incomplete, ignores the lines after the last error.
 * @param {string} program
 * @param {TextErrors} textErrors the errors in the text
 */
export function isProbablyNotProgram(program, { errors, isComplete }) {
  const wrongLines = new Set(errors.map(({ line }) => line));
  const last = isComplete ? Infinity : Math.max(0, ...wrongLines);
  /** @type {(text: string) => boolean} */
  const isCode = (text) => text.slice(0, splitStatement(text).comment).trim() !== "";
  const code = program.split("\n").flatMap((text, index) => (index < last && isCode(text) ? [index + 1] : []));
  return code.length > 0 && code.every((line) => wrongLines.has(line));
}
