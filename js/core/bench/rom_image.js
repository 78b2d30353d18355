// Reads raw ROM images and Intel HEX; writes Intel HEX. See rom_formats.js for S-records and BNPF.

import { ADDRESS_COUNT, NO_BYTE } from "./rom_bytes.js";
import { hex } from "./numbers.js";
import * as say from "../../words/bench.js";

/** The error for a file that is not a valid ROM image. */
export class ImageError extends Error {}

/** The error for a line that is not a record, perhaps because the file has another format. */
export class RecordError extends ImageError {}

/** The maximum number of data bytes per written record. */
const BYTES_PER_RECORD = 16;
/** The record types for data, and for the end of the file. */
const DATA_RECORD_TYPE = 0;
const END_RECORD_TYPE = 1;
/** The record types for segment and linear base addresses. In an image for a 4004, these base addresses must be 0. */
const BASE_RECORD_TYPES = [2, 4];
/** The types of the records in which linkers write a program's start address. The reader ignores these records: the 4004 starts at 000. */
const START_RECORD_TYPES = [3, 5];

/** The bytes of a ROM image that is being read. */
export class ImageBytes {
  /** @param {number} offset added to each address */
  constructor(offset) {
    this.offset = offset;
    this.bytes = new Int16Array(ADDRESS_COUNT).fill(NO_BYTE);
  }

  get isEmpty() {
    return this.bytes.every((byte) => byte === NO_BYTE);
  }

  /**
   * Stores bytes at consecutive addresses. Throws `ImageError` if an address is outside ROM or already has a byte.
   * @param {number} address
   * @param {ArrayLike<number>} data
   */
  put(address, data) {
    const from = address + this.offset;
    if (from + data.length > ADDRESS_COUNT) throw new ImageError(say.PAST_LAST_ADDRESS);
    for (let index = 0; index < data.length; index++) {
      if (this.bytes[from + index] !== NO_BYTE) throw new ImageError(say.duplicateAddress(hex(from + index, 3)));
      this.bytes[from + index] = data[index];
    }
  }
}

/**
 * Returns the bytes of a raw image, by address. Throws `ImageError` if the file is empty or too long.
 * @param {Uint8Array} file
 * @param {number} [from] the address of the first byte
 */
export function readBytes(file, from = 0) {
  if (file.length === 0) throw new ImageError(say.IMAGE_IS_EMPTY);
  if (from + file.length > ADDRESS_COUNT) {
    const [size, maxSize] = [file.length, ADDRESS_COUNT - from].map((count) => count.toLocaleString("en"));
    throw new ImageError(from === 0 ? say.tooManyBytesMessage(size, maxSize) : say.tooManyBytesFromMessage(size, maxSize, hex(from, 3)));
  }
  const image = new ImageBytes(from);
  image.put(0, file);
  return image.bytes;
}

/**
 * Calls `read` for each line of the text. Adds the line number to the message of an `ImageError`.
 * @param {string} text
 * @param {(line: string) => void} read
 */
export function forEachLine(text, read) {
  text.split("\n").forEach((line, index) => {
    try {
      read(line);
    } catch (error) {
      if (error instanceof ImageError) error.message = say.imageErrorInLine(index + 1, error.message);
      throw error;
    }
  });
}

/**
 * Parses an Intel HEX record. Throws `RecordError` if the text is not a record, and `ImageError` if the checksum is wrong.
 * @param {string} text
 * @returns {{ address: number, type: number, data: number[] }}
 */
function readRecord(text) {
  if (!text.startsWith(":")) throw new RecordError(say.BEGINS_WITH_COLON);
  if (!/^:([0-9A-F]{2}){5,}$/i.test(text)) throw new RecordError(say.RECORD_SYNTAX);
  const bytes = (text.slice(1).match(/../g) || []).map((digits) => parseInt(digits, 16));
  const [count, high, low, type] = bytes;
  if (bytes.length !== count + 5) throw new RecordError(say.wrongByteCountMessage(count, bytes.length - 5));
  const expectedChecksum = -bytes.slice(0, -1).reduce((sum, byte) => sum + byte, 0) & 0xff;
  if (bytes[count + 4] !== expectedChecksum) {
    throw new ImageError(say.wrongChecksum(hex(bytes[count + 4], 2), hex(expectedChecksum, 2)));
  }
  return { address: high * 256 + low, type, data: bytes.slice(4, -1) };
}

/** The number of data bytes per record, for types with a fixed size. */
const DATA_SIZES = new Map([[END_RECORD_TYPE, 0], ...BASE_RECORD_TYPES.map((type) => /** @type {[number, number]} */ ([type, 2])),
  ...START_RECORD_TYPES.map((type) => /** @type {[number, number]} */ ([type, 4]))]);

/**
 * Stores a data record, and checks records of the other known types. Throws `ImageError` if the record is invalid.
 * @param {{ address: number, type: number, data: number[] }} record
 * @param {ImageBytes} image
 */
function storeRecord({ address, type, data }, image) {
  const size = DATA_SIZES.get(type);
  if (type === DATA_RECORD_TYPE) image.put(address, data);
  else if (size === undefined) throw new ImageError(say.unknownTypeMessage(hex(type, 2)));
  else if (data.length !== size) throw new ImageError(say.wrongRecordSize(hex(type, 2), size));
  else if (BASE_RECORD_TYPES.includes(type) && data.some((byte) => byte !== 0)) throw new ImageError(say.addressPastLast(type));
}

/**
 * Parses Intel HEX; returns the image bytes. Throws `ImageError` if the text is invalid.
 * @param {string} text
 * @param {number} [offset] added to each address
 */
export function readHex(text, offset = 0) {
  const image = new ImageBytes(offset);
  let isEnded = false;
  forEachLine(text, (line) => {
    const record = line.trim();
    if (record === "") return;
    if (isEnded) throw new ImageError(say.AFTER_LAST_RECORD);
    const parsedRecord = readRecord(record);
    storeRecord(parsedRecord, image);
    isEnded = parsedRecord.type === END_RECORD_TYPE;
  });
  if (!isEnded) throw new ImageError(say.NO_LAST_RECORD);
  if (image.isEmpty) throw new ImageError(say.IMAGE_IS_EMPTY);
  return image.bytes;
}

/**
 * Formats an Intel HEX record.
 * @param {number} address
 * @param {number} type
 * @param {number[]} data
 */
function formatRecord(address, type, data) {
  const bytes = [data.length, address >> 8, address & 0xff, type, ...data];
  const checksum = -bytes.reduce((sum, byte) => sum + byte, 0) & 0xff;
  return `:${[...bytes, checksum].map((byte) => hex(byte, 2)).join("")}\n`;
}

/**
 * Formats bytes as Intel HEX. Skips addresses without a byte. A record has at most 16 data bytes.
 * @param {Int16Array} bytes
 */
export function writeHex(bytes) {
  let records = "";
  for (let address = 0; address < ADDRESS_COUNT;) {
    let end = address;
    while (end < ADDRESS_COUNT && end < address + BYTES_PER_RECORD && bytes[end] !== NO_BYTE) end += 1;
    if (end > address) records += formatRecord(address, DATA_RECORD_TYPE, [...bytes.subarray(address, end)]);
    address = Math.max(end, address + 1);
  }
  return records + formatRecord(0, END_RECORD_TYPE, []);
}
