// Reads the files, the pipes and standard input (`-`) that the arguments of a command name.
import { closeSync, openSync } from "node:fs";
import { CommandError } from "./output.mjs";
import { readStream, readUserFile, statInput } from "./user_files.mjs";
import { noAnswersMessage } from "../words/commands.js";

/** The maximum sizes of a session script, of the bench's answers, and of a single text, in bytes. */
export const MAX_SCRIPT_BYTES = 16777216;
export const MAX_ANSWERS_BYTES = 67108864;
export const MAX_TEXT_BYTES = 1048576;
/** The file descriptor of standard input. */
export const STANDARD_INPUT = 0;
const UTF8_MARK = Buffer.from([0xEF, 0xBB, 0xBF]);
/** @type {Record<string, string>} the encodings, by byte order mark in hexadecimal; PowerShell writes UTF-16 */
const UTF_16_ENCODINGS = { fffe: "utf-16le", feff: "utf-16be" };

/**
 * The text of a board or a program, from a file. `name` is the name of the file. `linesBefore` is the number of lines before the text in the file.
 * `encoding` is the encoding in which a command prints the text.
 * @typedef {{ name: string, text: string, linesBefore: number, encoding: BufferEncoding }} InputText
 */

/**
 * Decodes text and removes its byte order mark. Recognises UTF-16 by this mark. Decodes bytes that are not valid UTF-8 as Latin 1.
 * @param {Buffer} bytes
 * @returns {{ text: string, encoding: BufferEncoding }}
 */
function decodeText(bytes) {
  const utf16Encoding = UTF_16_ENCODINGS[bytes.toString("hex", 0, 2)];
  if (utf16Encoding) return { text: new TextDecoder(utf16Encoding).decode(bytes), encoding: "utf8" };
  try {
    return { text: new TextDecoder("utf-8", { fatal: true }).decode(bytes), encoding: "utf8" };
  } catch {
    const isMarked = bytes.subarray(0, UTF8_MARK.length).equals(UTF8_MARK);
    return { text: bytes.toString("latin1", isMarked ? UTF8_MARK.length : 0), encoding: "latin1" };
  }
}

/**
 * Reads and decodes a regular file.
 * @param {string} name
 * @param {number} maxBytes the maximum number of bytes
 */
export function readDecodedFile(name, maxBytes) {
  return decodeText(readUserFile(name, maxBytes));
}

/**
 * Returns true if a name refers to a pipe or a character device.
 * @param {string} name
 */
function isPipe(name) {
  const stat = statInput(name);
  return stat !== undefined && (stat.isFIFO() || stat.isCharacterDevice());
}

/** The inputs of a command. */
export class InputTexts {
  constructor() {
    /** @type {Buffer | null} the contents of standard input, which can be read only once; null before it is read */
    this.standardInput = null;
  }

  /**
   * Returns the contents of the file, pipe or standard input that an argument names. Throws an error if there are no bytes.
   * @param {string} name
   * @param {number} maxBytes the maximum number of bytes
   */
  read(name, maxBytes) {
    const bytes = name === "-" ? this.readStandardInput(maxBytes) : this.readFileOrPipe(name, maxBytes);
    if (bytes.length === 0) throw new CommandError(`${name} is empty`);
    return bytes;
  }

  /**
   * Returns the contents of standard input. Reads them on the first call.
   * @param {number} maxBytes the maximum number of bytes
   */
  readStandardInput(maxBytes) {
    if (!this.standardInput) this.standardInput = readStream(STANDARD_INPUT, "-", maxBytes);
    return this.standardInput;
  }

  /**
   * Returns the contents of a file or a pipe.
   * @param {string} name
   * @param {number} maxBytes the maximum number of bytes
   */
  readFileOrPipe(name, maxBytes) {
    if (!isPipe(name)) return readUserFile(name, maxBytes);
    const pipe = openSync(name, "r");
    try {
      return readStream(pipe, name, maxBytes);
    } finally {
      closeSync(pipe);
    }
  }

  /**
   * Returns the text of a test file or a properties file.
   * @param {string} name
   */
  readSource(name) {
    return { name, text: decodeText(this.read(name, MAX_TEXT_BYTES)).text.replace(/\r\n?/g, "\n") };
  }

  /**
   * Returns the text of a board (`wire`) or of a program (`asm`). If the file is a session script, returns the text after its first `word` command.
   * Otherwise, returns the complete file, or throws an error if the file is too long.
   * @param {string} name
   * @param {"wire" | "asm"} word
   * @returns {InputText}
   */
  readText(name, word) {
    const bytes = this.read(name, MAX_SCRIPT_BYTES);
    const { text, encoding } = decodeText(bytes);
    const lines = text.split(/\r\n?|\n/);
    const beginIndex = lines.findIndex((line) => line.replace(/[ \t]+$/, "") === word);
    if (beginIndex < 0 && bytes.length > MAX_TEXT_BYTES) {
      throw new CommandError(`${name} has ${bytes.length} bytes, more than the text of a board or a program can have (${MAX_TEXT_BYTES})`);
    }
    if (beginIndex < 0) return { name, text: lines.join("\n"), linesBefore: 0, encoding };
    const endIndex = lines.indexOf(".", beginIndex);
    const textLines = lines.slice(beginIndex + 1, endIndex < 0 ? lines.length : endIndex);
    return { name, text: textLines.map((line) => `${line}\n`).join(""), linesBefore: beginIndex + 1, encoding };
  }

  /** Returns the text on standard input. */
  readInputText() {
    return decodeText(this.readStandardInput(MAX_SCRIPT_BYTES));
  }

  /**
   * Returns the bench's answer lines on standard input. Ignores a last line without a line feed, because it is truncated. Throws an error
   * if standard input is empty.
   * @param {string} command the command that reads the answers
   */
  readAnswers(command) {
    if (this.readStandardInput(MAX_ANSWERS_BYTES).length === 0) throw new CommandError(noAnswersMessage(command));
    return decodeText(this.readStandardInput(MAX_ANSWERS_BYTES)).text.split("\n").slice(0, -1).map((line) => line.replace(/\r$/, ""));
  }

  /**
   * Returns the text of a session script.
   * @param {string} name
   */
  readScript(name) {
    return decodeText(this.read(name, MAX_SCRIPT_BYTES)).text;
  }
}
