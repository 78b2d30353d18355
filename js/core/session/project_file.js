// Reads and writes project files (`.mcsp`). A project file is a text file that contains the name of a project, the texts in the editors,
// and a session file. The manual ("A project file") describes its lines. project_parts.js writes the same contents as files in a folder.

import { checksum } from "./checksum.js";
import { shortenName } from "./names.js";
import { hex } from "../bench/numbers.js";
import { parseBreakpoint, limitBreakpoints, formatBreakpoints } from "../debug/breakpoint_lines.js";
import { MAX_STORED_LENGTH } from "../text/sendable_text.js";
import * as say from "../../words/session.js";

/**
 * The name and the texts of a project. A project file omits empty tests and properties.
 * @typedef {{ name: string, boardText: string, programText: string, testText?: string, propertiesText?: string }} Texts
 * @typedef {import("../debug/breakpoints.js").SavedBreakpoint} SavedBreakpoint
 *
 * The name and the texts of a project, with the saved breakpoints and the watch expressions as text (`watched`).
 * @typedef {Texts & { breakpoints?: SavedBreakpoint[], watched?: string[] }} TextsWithBreakpoints
 *
 * The contents of a project file; `file` contains the bytes of the session file.
 * @typedef {TextsWithBreakpoints & { file: Uint8Array }} Project
 *
 * The word in the line before a text, which determines the kind of the text: board, program, tests or properties.
 * @typedef {"wire" | "asm" | "test" | "properties"} Word
 */

/** The first line of a project file, with the version of the format. */
const FIRST_LINE = "fethsaim project 1";
/** The line that ends a text in a project file, as in bench lines. */
const DOT = ".";
/** The last line of a project file. */
const LAST_LINE = "end";
const CHECKSUM_LINE = /^cksum \d+$/;
/** The number of bytes of the session file in each line. A line with only zeros is omitted. */
const BYTES_PER_LINE = 16;
/** The maximum size of a project file in bytes, much more than the longest texts and a session need. */
export const MAX_PROJECT_BYTES = 4 << 20;

/** The error that is thrown for bytes that are not a valid project. Its message gives the reason. */
export class InvalidProject extends Error {}

/** The error that is thrown if a text in a project is longer than the editors accept. */
export class TextTooLong extends InvalidProject {}

/**
 * Returns an error message if a text is too long for a project or a link; "" if no text is too long.
 * @param {{ boardText: string, programText: string, testText?: string, propertiesText?: string }} texts
 */
export function tooLongMessage({ boardText, programText, testText = "", propertiesText = "" }) {
  const namedTexts = [[say.BOARD_TEXT, boardText], [say.THE_SOURCE, programText], [say.TESTS_TEXT, testText],
    [say.PROPERTIES_TEXT, propertiesText]];
  const [textName, text] = namedTexts.find(([, candidate]) => candidate.length > MAX_STORED_LENGTH) || namedTexts[0];
  const [size, maxLength] = [text.length, MAX_STORED_LENGTH].map((count) => count.toLocaleString("en"));
  return text.length > MAX_STORED_LENGTH ? say.textTooLong(textName, size, maxLength) : "";
}

// --- writing ---

/**
 * Returns the lines of a project file for a text. Adds a dot to each line that consists only of dots, so that the line does not end the
 * text.
 * @param {Word} word
 * @param {string} text
 */
function formatTextLines(word, text) {
  const lines = text.split("\n");
  if (lines[lines.length - 1] === "") lines.pop();
  return [word, ...lines.map((line) => (/^\.+$/.test(line) ? `.${line}` : line)), DOT];
}

/**
 * Returns a list with the line `unended WORD` if a text is not empty and does not end with a line feed; otherwise an empty list.
 * @param {Word} word
 * @param {string} text
 */
function listUnendedLine(word, text) {
  return text === "" || text.endsWith("\n") ? [] : [`unended ${word}`];
}

/**
 * Returns the lines of a project file that contain a session file.
 * @param {Uint8Array} file
 */
function formatSessionLines(file) {
  const lines = [];
  for (let index = 0; index < file.length; index += BYTES_PER_LINE) {
    const bytes = file.subarray(index, index + BYTES_PER_LINE);
    if (bytes.some((byte) => byte !== 0)) {
      const digits = Array.from(bytes, (byte) => byte.toString(16).padStart(2, "0")).join("");
      lines.push(`${hex(index, 5).toLowerCase()} ${digits}`);
    }
  }
  return [`session ${file.length}`, ...lines, DOT];
}

/**
 * Removes the carriage returns at line ends. The bench ignores such carriage returns.
 * @param {string} text
 */
function removeCarriageReturns(text) {
  return text.replace(/\r(?=\n|$)/g, "");
}

/**
 * Replaces each sequence of blanks and line ends in a string with one blank, and trims the string.
 * @param {string} text
 */
function toOneLine(text) {
  return text.replace(/\s+/g, " ").trim();
}

/**
 * Returns the lines of a project file that contain the name, the breakpoints, the watch expressions and the texts.
 * @param {TextsWithBreakpoints} texts
 */
export function projectLines({ name, boardText, programText, testText = "", propertiesText = "", breakpoints = [], watched = [] }) {
  const [board, program, tests, properties] = [boardText, programText, testText, propertiesText].map(removeCarriageReturns);
  const head = [`name ${toOneLine(name)}`, ...listUnendedLine("wire", board), ...listUnendedLine("asm", program),
    ...listUnendedLine("test", tests), ...listUnendedLine("properties", properties), ...formatBreakpoints(breakpoints),
    ...watched.map((text) => ["value", toOneLine(text)].join(" "))];
  return [...head, ...formatTextLines("wire", board), ...formatTextLines("asm", program),
    ...(tests === "" ? [] : formatTextLines("test", tests)), ...(properties === "" ? [] : formatTextLines("properties", properties))];
}

/**
 * Returns the text of a project file.
 * @param {Project} project
 */
export function projectText(project) {
  const body = `${[say.ABOUT_PROJECT, ...projectLines(project), ...formatSessionLines(project.file), LAST_LINE].join("\n")}\n`;
  return `${FIRST_LINE}\ncksum ${checksum(new TextEncoder().encode(body))}\n${body}`;
}

// --- reading ---

/**
 * Returns whether bytes begin with the first words of a project file.
 * @param {Uint8Array} bytes
 */
export function isProject(bytes) {
  return /^\uFEFF?fethsaim project /.test(new TextDecoder("utf-8", { ignoreBOM: true }).decode(bytes.subarray(0, 40)));
}

/** Reads the lines of a project file one after another. `index` is the index of the next line. */
export class ProjectLineReader {
  /** @param {string} text */
  constructor(text) {
    this.lines = text.split("\n");
    this.index = 0;
  }

  get nextLine() {
    return this.lines[this.index];
  }

  takeLine() {
    const line = this.lines[this.index];
    this.index += 1;
    return line;
  }

  /**
   * Returns the error for an unexpected next line.
   * @param {string} expected a description of the expected line
   * @returns {InvalidProject}
   */
  createLineError(expected) {
    return new InvalidProject(say.lineMustBe(this.index + 1, expected));
  }

  /**
   * Reads the lines after the line `word`, up to a line with a dot. Throws InvalidProject if the next line is not `word`.
   * @param {string} word
   */
  readUpToDot(word) {
    if (this.nextLine !== word) throw this.createLineError(`\`${word}\``);
    const end = this.lines.indexOf(DOT, this.index + 1);
    if (end < 0) throw new InvalidProject(say.noEndMessage(word));
    const lines = this.lines.slice(this.index + 1, end);
    this.index = end + 1;
    return lines;
  }
}

/**
 * Checks the first and the last line of a project file, and the checksum if the file has a checksum. Throws InvalidProject if a check
 * fails.
 * @param {string} text
 */
function checkEnvelope(text) {
  const firstLine = text.slice(0, text.indexOf("\n"));
  const version = /^fethsaim project (\d+)$/.exec(firstLine);
  if (!version) throw new InvalidProject(say.NO_PROJECT);
  if (firstLine !== FIRST_LINE) throw new InvalidProject(say.otherVersion(version[1]));
  if (!text.endsWith(`\n${LAST_LINE}\n`)) throw new InvalidProject(say.projectCutOff(LAST_LINE));
  const match = /^[^\n]*\ncksum (\d+)\n/.exec(text);
  if (!match) return;
  const actualChecksum = checksum(new TextEncoder().encode(text.slice(match[0].length)));
  if (actualChecksum !== Number(match[1])) {
    throw new InvalidProject(say.WRONG_CHECKSUM);
  }
}

/**
 * Reads the lines before the first text: the name, the breakpoints and the watch expressions. In the result, `unendedWords` has the words
 * of the texts that do not end with a line feed. Throws InvalidProject if a line is invalid.
 * @param {ProjectLineReader} lines
 */
function readLinesBeforeTexts(lines) {
  let name = "";
  const unendedWords = new Set();
  /** @type {SavedBreakpoint[]} */
  const breakpoints = [];
  /** @type {string[]} */
  const watched = [];
  while (lines.nextLine !== "wire") {
    const [match, word, value] = /^(name|unended|value) (.+)$|^#/.exec(lines.nextLine) || [];
    const breakpoint = parseBreakpoint(lines.nextLine || "");
    if (breakpoint) breakpoints.push(breakpoint);
    else if (match === undefined) throw lines.createLineError(say.HEADER_LINE);
    if (word === "name") name = shortenName(value);
    if (word === "unended") unendedWords.add(value);
    if (word === "value") watched.push(value);
    lines.takeLine();
  }
  return { name, unendedWords, breakpoints, watched };
}

/**
 * Reads the text that starts at the next line, and returns it. Throws InvalidProject if this line is not `word`.
 * @param {ProjectLineReader} lines
 * @param {Word} word
 * @param {Set<string>} unendedWords the words of the texts that do not end with a line feed
 */
function readText(lines, word, unendedWords) {
  const text = lines.readUpToDot(word).map((line) => `${/^\.\.+$/.test(line) ? line.slice(1) : line}\n`).join("");
  return unendedWords.has(word) ? text.slice(0, -1) : text;
}

/**
 * Reads and returns the name, the texts, the breakpoints and the watch expressions. Throws InvalidProject if a line is invalid, and
 * TextTooLong if a text is too long for the editors.
 * @param {ProjectLineReader} lines
 * @param {boolean} [acceptsLongTexts] true to accept texts that are too long for the editors
 * @returns {TextsWithBreakpoints}
 */
export function readTexts(lines, acceptsLongTexts = false) {
  const { name, unendedWords, breakpoints, watched } = readLinesBeforeTexts(lines);
  const [boardText, programText] = [readText(lines, "wire", unendedWords), readText(lines, "asm", unendedWords)];
  const [testText, propertiesText] = (/** @type {Word[]} */ (["test", "properties"])).map((word) => (
    lines.nextLine === word ? readText(lines, word, unendedWords) : ""));
  const texts = { name, boardText, programText, testText, propertiesText };
  const message = tooLongMessage(texts);
  if (message && !acceptsLongTexts) throw new TextTooLong(message);
  const withBreakpoints = breakpoints.length > 0 ? { ...texts, breakpoints: limitBreakpoints(breakpoints) } : texts;
  return watched.length > 0 ? { ...withBreakpoints, watched } : withBreakpoints;
}

/**
 * Reads the bytes of the session file. Throws InvalidProject if a line is invalid.
 * @param {ProjectLineReader} lines
 * @param {number} size the size of every session file in bytes
 */
function readSessionFile(lines, size) {
  const firstLineNumber = lines.index + 2;
  const file = new Uint8Array(size);
  let end = 0;
  lines.readUpToDot(`session ${size}`).forEach((line, index) => {
    const match = /^([0-9a-f]{5}) ([0-9a-f]{32})$/.exec(line);
    const address = match ? parseInt(match[1], 16) : 0;
    if (!match || address % BYTES_PER_LINE !== 0 || address < end || address >= size) {
      throw new InvalidProject(say.notOfSessionMessage(firstLineNumber + index));
    }
    file.set((match[2].match(/../g) || []).map((digits) => parseInt(digits, 16)), address);
    end = address + BYTES_PER_LINE;
  });
  return file;
}

/**
 * Returns the contents of a project file. Throws InvalidProject if the bytes are not a valid project.
 * @param {Uint8Array} bytes
 * @param {number} size the size of every session file in bytes
 * @param {boolean} [acceptsLongTexts] true to accept texts that are too long for the editors
 * @returns {Project}
 */
export function readProject(bytes, size, acceptsLongTexts = false) {
  if (bytes.length > MAX_PROJECT_BYTES) throw new InvalidProject(say.TOO_MANY_BYTES);
  if (bytes.includes(0)) throw new InvalidProject(say.CONTAINS_NUL);
  const text = decodeUtf8(bytes);
  checkEnvelope(text);
  const lines = new ProjectLineReader(text);
  lines.takeLine();
  if (CHECKSUM_LINE.test(lines.nextLine)) lines.takeLine();
  const texts = readTexts(lines, acceptsLongTexts);
  const file = readSessionFile(lines, size);
  if (lines.nextLine !== LAST_LINE) throw lines.createLineError(say.END_OF_FILE);
  lines.takeLine();
  if (lines.index !== lines.lines.length - 1) throw lines.createLineError(say.END_OF_FILE);
  return { ...texts, file };
}

/**
 * Decodes UTF-8 text, and removes carriage returns at line ends. Throws InvalidProject if the bytes are not UTF-8.
 * @param {Uint8Array} bytes
 */
function decodeUtf8(bytes) {
  try {
    return removeCarriageReturns(new TextDecoder("utf-8", { fatal: true }).decode(bytes));
  } catch {
    throw new InvalidProject(say.NOT_UTF8);
  }
}
