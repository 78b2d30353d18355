// `mcs4 rom`: converts ROM images to session lines, and the bench's answers to ROM images.
import { parseRefusal } from "../../core/bench/answers.js";
import { hex, parseNumber } from "../../core/bench/numbers.js";
import { ADDRESS_COUNT, MAX_LISTING_LINES, NO_BYTE, parseRomBytes } from "../../core/bench/rom_bytes.js";
import { detectFormat, readBnpf, readSRecords, writeBnpf } from "../../core/bench/rom_formats.js";
import { RecordError, ImageError, readBytes, readHex, writeHex } from "../../core/bench/rom_image.js";
import { createByteTexts } from "../../core/text/asm_texts.js";
import * as say from "../../words/commands.js";
import { checkArguments } from "../arguments.mjs";
import { InputTexts, MAX_ANSWERS_BYTES, MAX_TEXT_BYTES, STANDARD_INPUT } from "../input_texts.mjs";
import { CommandError, UsageError, print, printBytes } from "../output.mjs";
import { readStream } from "../user_files.mjs";

/** @typedef {import("../../core/bench/rom_formats.js").ImageFormat} ImageFormat */

/** @type {Record<string, ImageFormat[]>} the image formats that each action accepts */
const ACTION_FORMATS = { load: ["hex", "srec", "bnpf", "binary"], ask: [], save: ["hex", "bnpf"] };
const PARSERS = { hex: readHex, srec: readSRecords, bnpf: readBnpf };

/**
 * Returns the image format that an option names, or null if there is no such option. Throws a UsageError if options name two formats, or a format
 * that the action does not accept.
 * @param {string} action
 * @param {import("./table.mjs").Values} values
 * @returns {ImageFormat | null}
 */
function chooseFormat(action, values) {
  const chosenFormats = ACTION_FORMATS.load.filter((name) => values[name]);
  if (chosenFormats.length > 1) throw new UsageError(say.cannotCombine(`--${chosenFormats[0]}`, `--${chosenFormats[1]}`));
  const [format = null] = chosenFormats;
  if (format && !ACTION_FORMATS[action].includes(format)) throw new UsageError(say.unsupportedFormat(action, format));
  return format;
}

/**
 * Parses a ROM image. Returns the bytes of the image.
 * @param {ImageFormat} format
 * @param {Buffer} file
 * @param {number} address the address of the first byte; for a format with addresses, a number that is added to each of them
 */
function parseImage(format, file, address) {
  return format === "binary" ? readBytes(file, address) : PARSERS[format](file.toString("latin1"), address);
}

/**
 * Prints the session lines that load an image into ROM.
 * @param {ImageFormat | null} chosenFormat the format that an option names; null to detect the format
 * @param {string[]} words
 */
function printLoadLines(chosenFormat, words) {
  checkArguments(words, ["IMAGE"], 2);
  const [name, word = "0"] = words;
  const address = parseNumber(word);
  if (!(address < ADDRESS_COUNT)) throw new UsageError(say.ADDRESS_RANGE);
  const file = new InputTexts().read(name, MAX_TEXT_BYTES);
  const format = chosenFormat || detectFormat(name, file);
  if (!format) throw new CommandError(say.textIsNotImageMessage(name));
  try {
    print(createByteTexts(parseImage(format, file, address)).map((text) => `asm\n${text}.\n`).join(""));
  } catch (error) {
    if (!(error instanceof ImageError)) throw error;
    const hint = chosenFormat === null && error instanceof RecordError && error.message.startsWith("line 1:") ? say.BINARY_HINT : "";
    throw new CommandError(`${name}: ${error.message}${hint}`);
  }
}

/**
 * Parses the first address and the byte count of a range. Throws a UsageError if they are not a range within ROM.
 * @param {string[]} words
 */
function parseRange(words) {
  checkArguments(words, ["FIRST", "COUNT"]);
  const [first, count] = words.map(parseNumber);
  if (Number.isNaN(first) || Number.isNaN(count)) throw new UsageError(say.RANGE_NUMBERS_SYNTAX);
  if (first >= ADDRESS_COUNT || count < 1 || first + count > ADDRESS_COUNT) throw new UsageError(say.BYTE_RANGE_SYNTAX);
  return { first, count };
}

/**
 * Prints the session lines that query the bytes of a range.
 * @param {string[]} words
 */
function printQueries(words) {
  const { first, count } = parseRange(words);
  let lines = "";
  for (let address = first; address < first + count; address += MAX_LISTING_LINES) {
    lines += `list 0x${hex(address, 3)} ${Math.min(MAX_LISTING_LINES, first + count - address)}\n`;
  }
  print(lines);
}

/**
 * Returns an image of ROM that contains the bytes of a range, from the bench's answers, and NO_BYTE at all other addresses. A later answer overrides
 * an earlier answer. Throws a CommandError if an answer is a refusal or a byte is missing.
 * @param {string} answers
 * @param {{ first: number, count: number }} range
 */
function readAnswerBytes(answers, { first, count }) {
  // A last line without a line feed is truncated, so ignore it.
  const lines = answers.split("\n").slice(0, -1).map((line) => line.replace(/\r$/, ""));
  const refusalIndex = lines.findIndex((line) => parseRefusal(line));
  if (refusalIndex >= 0) throw new CommandError(say.answerIsRefusalMessage(refusalIndex + 1, lines[refusalIndex]));
  const bytes = parseRomBytes(lines);
  const missingOffset = bytes.subarray(first, first + count).indexOf(NO_BYTE);
  if (missingOffset >= 0) throw new CommandError(say.noAnswerShowsMessage(hex(first + missingOffset, 3)));
  bytes.fill(NO_BYTE, 0, first).fill(NO_BYTE, first + count);
  return bytes;
}

/**
 * Reads answers from standard input, and prints the bytes of a range as an image.
 * @param {ImageFormat} format
 * @param {string[]} words
 */
function printImage(format, words) {
  const range = parseRange(words);
  const { first, count } = range;
  if (format === "binary" && process.stdout.isTTY) throw new CommandError(say.NO_TERMINAL);
  const answers = readStream(STANDARD_INPUT, "-", MAX_ANSWERS_BYTES);
  if (answers.length === 0) throw new CommandError(say.NO_ANSWERS);
  const bytes = readAnswerBytes(answers.toString("latin1"), range);
  if (format === "hex") print(writeHex(bytes));
  else if (format === "bnpf") print(writeBnpf(bytes, first, count));
  else printBytes(Uint8Array.from(bytes.subarray(first, first + count)));
}

/** @type {import("./table.mjs").CommandModule["run"]} */
export function run(values, [action, ...words]) {
  if (action === undefined) throw new UsageError(say.LOAD_ASK_OR_SAVE_MISSING);
  if (!Object.hasOwn(ACTION_FORMATS, action)) throw new UsageError(say.unknownRomActionMessage(action));
  const format = chooseFormat(action, values);
  if (action === "load") printLoadLines(format, words);
  else if (action === "ask") printQueries(words);
  else printImage(format || "binary", words);
  return 0;
}
