// Loads ROM images from files into ROM, and saves ROM contents to files.

import { readBoard } from "../bench/answers.js";
import { formatQuantity, hex } from "../bench/numbers.js";
import { NO_BYTE, PAGE_NUMBERS, PAGE_BYTES, parseRomBytes, listQueries } from "../bench/rom_bytes.js";
import { writeHex } from "../bench/rom_image.js";
import { createByteTexts } from "../text/asm_texts.js";
import * as say from "../../words/session.js";

/**
 * The callbacks that RomFiles needs.
 * @typedef {object} RomCallbacks
 * @property {(lines: string) => Promise<string[]>} ask Resolves to the bench's answers to queries.
 * @property {(lines: string) => Promise<string | null>} execute Executes bench lines that change the session. Resolves to the first answer.
 *   If a line fails, reports the error and resolves to null.
 * @property {() => Promise<void>} stop Pauses the machine. Resolves when the machine is paused.
 */

/** The error that is thrown if the board lacks a ROM for an image. Its message names this ROM. */
export class MissingRom extends Error {}

export class RomFiles {
  /** @param {RomCallbacks} callbacks */
  constructor(callbacks) {
    this.callbacks = callbacks;
  }

  /** Resolves to the numbers of the ROMs on the board. */
  async readRomNumbers() {
    return readBoard(await this.callbacks.ask("board\n")).roms.map(({ chip }) => chip);
  }

  /**
   * Pauses the machine and loads an image into ROM. Changes nothing else in the session. Resolves to a message about the loaded bytes, or
   * to "" if `execute` has reported an error. Throws MissingRom if the board lacks a ROM for the image.
   * @param {string} name the name of the image file
   * @param {Int16Array} bytes the bytes by address, NO_BYTE for an address without a byte
   */
  async load(name, bytes) {
    const romNumbers = await this.readRomNumbers();
    const missingAddress = bytes.findIndex((byte, index) => byte !== NO_BYTE && !romNumbers.includes(Math.floor(index / PAGE_BYTES)));
    if (missingAddress >= 0) {
      const chip = Math.floor(missingAddress / PAGE_BYTES);
      throw new MissingRom(say.lacksRom(chip, hex(missingAddress, 3)));
    }
    await this.callbacks.stop();
    const answer = await this.callbacks.execute(createByteTexts(bytes).map((text) => `asm\n${text}.\n`).join(""));
    const firstAddress = bytes.findIndex((byte) => byte !== NO_BYTE);
    const count = bytes.filter((byte) => byte !== NO_BYTE).length;
    return answer === null ? "" : say.bytesInRom(formatQuantity(count, "byte"), name, count === 1, hex(firstAddress, 3));
  }

  /**
   * Resolves to the bytes of all ROMs on the board, by address. An address without a ROM has NO_BYTE, even if `list` reports a byte there.
   */
  async readBytes() {
    const romNumbers = await this.readRomNumbers();
    const allBytes = parseRomBytes(await this.callbacks.ask(listQueries(PAGE_NUMBERS.filter((page) => romNumbers.includes(page)))));
    return allBytes.map((byte, index) => (romNumbers.includes(Math.floor(index / PAGE_BYTES)) ? byte : NO_BYTE));
  }

  /** Resolves to the ROM contents in Intel HEX format; to "" if the board has no ROM. */
  async readHex() {
    return (await this.readRomNumbers()).length === 0 ? "" : writeHex(await this.readBytes());
  }

  /** Resolves to the bytes from address 000 to the end of the last ROM on the board, with 0 for missing ROMs. */
  async readImage() {
    const end = (Math.max(-1, ...(await this.readRomNumbers())) + 1) * PAGE_BYTES;
    return Uint8Array.from((await this.readBytes()).subarray(0, end), (byte) => Math.max(0, byte));
  }
}
