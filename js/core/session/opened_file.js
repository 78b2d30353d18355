// Determines the contents of a file that the user chooses or drops: a project, a session, a board, a program, tests, properties, bench
// lines or a ROM image. Checks the first bytes, then the file name, then the text.

import { readInputs } from "../bench/inputs.js";
import { PROJECT_FILE } from "../project/project_toml.js";
import { readSRecords } from "../bench/rom_formats.js";
import { readBytes, readHex } from "../bench/rom_image.js";
import { MAX_STORED_LENGTH } from "../text/sendable_text.js";
import { isProject } from "./project_file.js";
import * as say from "../../words/session.js";

/**
 * The texts in a file; null for each kind of text that the file lacks. `lines` contains the bench lines that set neither the board nor the
 * program, "" for none. `isGuess` is true if neither the name nor the text shows the kind, so that the text is assumed to be a program.
 * @typedef {{ board: string | null, program: string | null, tests: string | null, properties: string | null, lines: string,
 *   isGuess?: boolean }} FileTexts
 *
 * The contents of a file. `bytes` are the bytes of a ROM image, by address, NO_BYTE (-1) for none.
 * @typedef {{ kind: "project" } | { kind: "session" } | { kind: "texts", texts: FileTexts } | { kind: "image", bytes: Int16Array }}
 *   FileContents
 */

/** The error that is thrown for a file that the bench cannot use. Its message gives the reason. */
export class UnusableFile extends Error {}

/** The first bytes of a session file. */
const SESSION_MAGIC = "MCS4BEN1";
const IMAGE_FILE_NAME = /\.(bin|rom)$/i;
const HEX_FILE_NAME = /\.(hex|ihx|ihex)$/i;
const BOARD_FILE_NAME = /\.toml$/i;
const TEST_FILE_NAME = /\.test$/i;
const PROPERTY_FILE_NAME = /\.props$/i;
const PROGRAM_FILE_NAME = /\.(asm|s|src|a4|4004)$/i;
/** Matches the names of text files whose kind is not clear from the name: names without an extension, `.txt` and `.text`. */
const TEXT_FILE_NAME = /(^[^.]*|\.(txt|text))$/i;

/**
 * Returns the error for a file that the bench cannot use.
 * @param {string} reason
 * @returns {UnusableFile}
 */
function createUnusableFileError(reason) {
  return new UnusableFile(say.supportedFiles(reason));
}

/**
 * Decodes bytes as UTF-8, or else as Windows-1252. Returns null if the bytes contain control characters that do not occur in text.
 * @param {Uint8Array} bytes
 */
function decodeText(bytes) {
  // Text contains no control characters except tab, line feed, form feed, carriage return and Ctrl-Z.
  if (bytes.some((byte) => byte < 32 && ![9, 10, 12, 13, 26].includes(byte))) return null;
  try {
    return new TextDecoder("utf-8", { fatal: true }).decode(bytes);
  } catch {
    return new TextDecoder("windows-1252").decode(bytes);
  }
}

/**
 * Returns the last board and the last program in bench lines, and the other lines.
 * @param {string} script
 * @returns {FileTexts}
 */
function readTextsInLines(script) {
  const inputs = readInputs(script);
  /** @type {(kind: string) => string | null} */
  const findLastText = (kind) => {
    const lastInput = inputs.filter((input) => input.kind === kind).pop();
    return lastInput ? lastInput.text.map((line) => `${line}\n`).join("") : null;
  };
  const otherInputs = inputs.filter(({ kind }) => kind !== "wire" && kind !== "asm");
  const lines = otherInputs.map(({ line, text }) => (
    [line, ...text, ...(text.length > 0 ? ["."] : [])].map((benchLine) => `${benchLine}\n`).join("")));
  return { board: findLastText("wire"), program: findLastText("asm"), tests: null, properties: null, lines: lines.join("") };
}

/**
 * Determines the kind of a text from the file name, or else from the text itself. Returns the text in the property for this kind. If the
 * text contains bench lines, returns the board and the program in them, and the other lines.
 * @param {string} name
 * @param {string} text
 * @returns {FileTexts}
 */
function readTexts(name, text) {
  const noTexts = { board: null, program: null, tests: null, properties: null, lines: "" };
  if (BOARD_FILE_NAME.test(name)) return { ...noTexts, board: text };
  if (TEST_FILE_NAME.test(name)) return { ...noTexts, tests: text };
  if (PROPERTY_FILE_NAME.test(name)) return { ...noTexts, properties: text };
  if (PROGRAM_FILE_NAME.test(name)) return { ...noTexts, program: text };
  if (/^[ \t]*(wire|asm)[ \t]*\r?$/m.test(text)) return readTextsInLines(text);
  if (/^([ \t]*([#;].*)?\r?\n)*[ \t]*test[ \t]+[^01\s]/.test(text)) return { ...noTexts, tests: text };
  if (/^[ \t]*\[\[?(rom|ram|chain|keys|lamp)\]\]?/m.test(text)) return { ...noTexts, board: text };
  return { ...noTexts, program: text, isGuess: true };
}

/**
 * Returns the contents of a text file. Throws an error if the bench cannot use the file.
 * @param {string} name the name of the file
 * @param {string} text
 * @returns {FileContents}
 */
function readTextFile(name, text) {
  if (name === PROJECT_FILE) throw new UnusableFile(say.PROJECT_FILE_ALONE);
  const kinds = [HEX_FILE_NAME, BOARD_FILE_NAME, PROGRAM_FILE_NAME, TEST_FILE_NAME, PROPERTY_FILE_NAME, TEXT_FILE_NAME];
  if (!kinds.some((pattern) => pattern.test(name)) && !/^\s*(:|S)[0-9A-F]{9}/i.test(text)) {
    throw createUnusableFileError(say.UNKNOWN_TEXT_KIND);
  }
  if (HEX_FILE_NAME.test(name) || /^\s*:[0-9A-F]{10}/i.test(text)) return { kind: "image", bytes: readHex(text) };
  if (/^\s*S[0-9][0-9A-F]{8}/.test(text)) return { kind: "image", bytes: readSRecords(text) };
  const texts = readTexts(name, text);
  for (const storedText of [texts.board, texts.program, texts.tests, texts.properties]) {
    if (storedText === null || storedText.length <= MAX_STORED_LENGTH) continue;
    const [size, maxLength] = [storedText.length, MAX_STORED_LENGTH].map((count) => count.toLocaleString("en"));
    throw new UnusableFile(say.tooLongMessage(size, maxLength));
  }
  return { kind: "texts", texts };
}

/**
 * Returns the contents of a file. Throws an error if the bench cannot use the file.
 * @param {string} name the name of the file
 * @param {Uint8Array} bytes
 * @returns {FileContents}
 */
export function readOpenedFile(name, bytes) {
  if (isProject(bytes)) return { kind: "project" };
  const magic = new TextDecoder("latin1").decode(bytes.subarray(0, SESSION_MAGIC.length));
  if (magic === SESSION_MAGIC || /\.mcs$/i.test(name)) return { kind: "session" };
  if (IMAGE_FILE_NAME.test(name)) return { kind: "image", bytes: readBytes(bytes) };
  const text = decodeText(bytes);
  if (text !== null && text.trim() !== "") return readTextFile(name, text);
  throw createUnusableFileError(text === null ? say.NOT_A_TEXT : say.EMPTY);
}
