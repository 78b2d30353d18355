// Reads ROM images in the S-record format and in BNPF, Intel's format for the masks of the 4001. Writes BNPF. Detects the format of an
// image from its file name and its bytes.

import { hex } from "./numbers.js";
import { ImageBytes, RecordError, ImageError, forEachLine } from "./rom_image.js";
import * as say from "../../words/bench.js";

/** @typedef {"hex" | "srec" | "bnpf" | "binary"} ImageFormat */

// --- S-records ---

/** The number of address bytes, by data record type. */
const ADDRESS_SIZES = new Map([["1", 2], ["2", 3], ["3", 4]]);
/** The types of records that can end a file. */
const END_RECORD_TYPES = ["7", "8", "9"];

/**
 * Stores the bytes of a data record in the image. Ignores other records. Returns whether the record ends the file. Throws `RecordError` or
 * `ImageError` if the record is invalid.
 * @param {string} record
 * @param {ImageBytes} image
 */
function storeSRecord(record, image) {
  if (!/^S\d([0-9A-F]{2}){4,}$/i.test(record)) throw new RecordError(say.S_RECORD_SYNTAX);
  const [count, ...bytes] = (record.slice(2).match(/../g) || []).map((digits) => parseInt(digits, 16));
  if (bytes.length !== count) throw new RecordError(say.wrongByteCountMessage(count, bytes.length));
  const expectedChecksum = 0xff - (bytes.slice(0, -1).reduce((sum, byte) => sum + byte, count) & 0xff);
  const checksum = bytes[bytes.length - 1];
  if (checksum !== expectedChecksum) throw new ImageError(say.wrongChecksum(hex(checksum, 2), hex(expectedChecksum, 2)));
  const size = ADDRESS_SIZES.get(record[1]);
  if (size === undefined) return END_RECORD_TYPES.includes(record[1]);
  if (bytes.length < size + 1) throw new ImageError(say.SHORT_RECORD);
  image.put(bytes.slice(0, size).reduce((address, byte) => address * 256 + byte, 0), bytes.slice(size, -1));
  return false;
}

/**
 * Parses S-records; returns the image bytes. Throws `ImageError` if the text is invalid.
 * @param {string} text
 * @param {number} [offset] added to each address
 */
export function readSRecords(text, offset = 0) {
  const image = new ImageBytes(offset);
  let isEnded = false;
  forEachLine(text, (line) => {
    const record = line.trim();
    if (record === "") return;
    if (isEnded) throw new ImageError(say.AFTER_S9);
    isEnded = storeSRecord(record, image);
  });
  if (!isEnded) throw new ImageError(say.NO_S9);
  if (image.isEmpty) throw new ImageError(say.IMAGE_IS_EMPTY);
  return image.bytes;
}

// --- BNPF ---

/** The number of letters in a BNPF word, not counting the final `F`. */
const WORD_LETTERS = 9;
/** Matches the text after the `B` of a BNPF word: the next three letters of the word, or fewer if the line ends. */
const TEXT_AFTER_B = /[ \t]*(?:[NP][ \t]*[NP][ \t]*[NP]|(?:[NP][ \t]*)?(?:[NP][ \t]*)?$)/iy;

/**
 * Returns whether the `B` at an index begins a BNPF word. A `B` in a comment, such as the first letter of `BNPF`, does not.
 * @param {string} line
 * @param {number} index
 */
function beginsWord(line, index) {
  if (index > 0 && /[A-EG-Z]/i.test(line[index - 1])) return false;
  TEXT_AFTER_B.lastIndex = index + 1;
  return TEXT_AFTER_B.test(line);
}

/**
 * Parses BNPF; returns the image bytes. Throws `ImageError` if the text is invalid. A word is `B`, eight letters `P` (1) or `N` (0) with
 * the highest bit first, and `F`. A word can continue on the next line. Ignores text between words.
 * @param {string} text
 * @param {number} [from] the address of the first word
 */
export function readBnpf(text, from = 0) {
  const image = new ImageBytes(from);
  let [word, count] = ["", 0];
  const addLetter = (/** @type {string} */ letter, /** @type {boolean} */ startsWord) => {
    if (word === "") {
      if (startsWord) word = letter;
    } else if (/[NP]/.test(letter) && word.length < WORD_LETTERS) word += letter;
    else if (letter === "F" && word.length === WORD_LETTERS) {
      image.put(count, [parseInt(word.slice(1).replace(/P/g, "1").replace(/N/g, "0"), 2)]);
      count += 1;
      word = "";
    } else if (!/[ \t]/.test(letter)) throw new ImageError(say.bnpfSyntax(word + letter));
  };
  forEachLine(text, (rawLine) => {
    const line = rawLine.trim();
    for (let index = 0; index < line.length; index++) {
      addLetter(line[index].toUpperCase(), /b/i.test(line[index]) && beginsWord(line, index));
    }
  });
  const lines = text.replace(/\n$/, "").split("\n").length;
  if (word !== "") throw new ImageError(say.imageErrorInLine(lines, say.bnpfWithoutEnd(word)));
  if (count === 0) throw new ImageError(say.IMAGE_IS_EMPTY);
  return image.bytes;
}

/**
 * Formats a byte as a BNPF word.
 * @param {number} byte
 */
function bnpfWord(byte) {
  return `B${byte.toString(2).padStart(8, "0").replace(/1/g, "P").replace(/0/g, "N")}F`;
}

/** The number of BNPF words per written line. */
const WORDS_PER_LINE = 4;

/**
 * Formats a range of bytes as BNPF. Each line starts with the address of its first word, as a comment.
 * @param {Int16Array} bytes the bytes, by address
 * @param {number} from the first address
 * @param {number} count
 */
export function writeBnpf(bytes, from, count) {
  let text = "";
  for (let address = from; address < from + count; address += WORDS_PER_LINE) {
    const bnpfWords = [...bytes.subarray(address, Math.min(address + WORDS_PER_LINE, from + count))].map(bnpfWord);
    text += `${String(address).padStart(4)} ${bnpfWords.join(" ")}\n`;
  }
  return text;
}

// --- The format of an image ---

/** @type {(bytes: Uint8Array, isAllowed: (byte: number) => boolean) => boolean} */
const containsOnly = (bytes, isAllowed) => bytes.every(isAllowed);
const isTextByte = (/** @type {number} */ byte) => byte === 9 || byte === 10 || byte === 13 || (byte >= 32 && byte < 127);

/**
 * Returns whether bytes are ASCII or UTF-8 text. Non-ASCII text must contain a line feed.
 * @param {Uint8Array} bytes
 */
function isText(bytes) {
  if (!containsOnly(bytes, (byte) => isTextByte(byte) || byte >= 128)) return false;
  if (bytes.every((byte) => byte < 128)) return true;
  if (!bytes.includes(10)) return false;
  try {
    new TextDecoder("utf-8", { fatal: true }).decode(bytes);
    return true;
  } catch {
    return false;
  }
}

/**
 * Returns the image format, detected from the file name and the bytes; null for text in an unknown format.
 * @param {string} name
 * @param {Uint8Array} bytes
 * @returns {ImageFormat | null}
 */
export function detectFormat(name, bytes) {
  if (/\.(hex|ihx)$/i.test(name)) return "hex";
  if (/\.bnpf?$/i.test(name)) return "bnpf";
  const firstCharacters = String.fromCharCode(...bytes.subarray(0, 2));
  if (firstCharacters.startsWith(":")) return "hex";
  if (/^S\d/.test(firstCharacters)) return "srec";
  if (containsOnly(bytes, isTextByte) && /B[NP]{8}F/i.test(new TextDecoder("latin1").decode(bytes))) return "bnpf";
  return isText(bytes) ? null : "binary";
}
