// Creates source texts for a session file, which stores neither comments nor names. If an example has the same board and the same ROM
// contents, all its texts are used. If only the board is the same, its board text is used, and the program is disassembled from ROM.
// Without such an example, the board text comes from the bench's answer to `board`.

import { readListing } from "../bench/answers.js";
import { exampleLines } from "./examples.js";
import { BenchRefusal, OUT_OF_MEMORY } from "../bench/bench_errors.js";
import { LAST_ADDRESS, hex } from "../bench/numbers.js";
import { MAX_LISTING_LINES, PAGE_NUMBERS, listQueries } from "../bench/rom_bytes.js";

/**
 * @typedef {import("./examples.js").Example} Example
 * @typedef {{ boardText: string, programText: string, testText: string, propertiesText: string }} Texts
 * @typedef {import("./engine_host.js").EngineHost} Engine
 */

/** The empty test and properties texts for a session, used unless its board and its program both match an example. */
const NO_TEST_TEXTS = { testText: "", propertiesText: "" };
/** The queries that list all ROMs. */
const LIST_ALL_ROMS = listQueries(PAGE_NUMBERS);

/**
 * Returns source texts for a session file.
 * @param {Engine} engine
 * @param {Uint8Array} file
 * @param {Example[]} examples
 * @returns {Texts}
 */
export function recoverTexts(engine, file, examples) {
  const boardAnswer = engine.ask(file, "board\n").answers.join("\n");
  const romListing = engine.ask(file, LIST_ALL_ROMS).answers.join("\n");
  const exampleFile = new Uint8Array(file.length);
  for (const example of examples.filter((candidate) => candidate.board)) {
    engine.serve(engine.begin(exampleFile), exampleLines(example), exampleFile);
    if (engine.ask(exampleFile, "board\n").answers.join("\n") !== boardAnswer) continue;
    const hasSameRom = engine.ask(exampleFile, LIST_ALL_ROMS).answers.join("\n") === romListing;
    if (hasSameRom) return textsOfExample(example);
    return { boardText: example.board, programText: disassembleRom(engine, file), ...NO_TEST_TEXTS };
  }
  const lines = boardAnswer.split("\n").slice(1);
  return { boardText: lines.map((line) => `${line}\n`).join(""), programText: disassembleRom(engine, file), ...NO_TEST_TEXTS };
}

/**
 * @param {Example} example
 * @returns {Texts}
 */
function textsOfExample({ board, program, tests = "", properties = "" }) {
  return { boardText: board, programText: program, testText: tests, propertiesText: properties };
}

/** @param {string} line a listing line */
function hasTwoBytes(line) {
  return line.slice(7, 9).trim() !== "";
}

/**
 * Returns the listing lines of addresses 000 to FFF. Throws BenchRefusal if the bench returns no lines.
 * @param {Engine} engine
 * @param {Uint8Array} file
 */
function listAllLines(engine, file) {
  const lines = [];
  let address = 0;
  while (address <= LAST_ADDRESS) {
    const listingLines = readListing(engine.ask(file, `list ${address} ${MAX_LISTING_LINES}\n`).answers);
    if (listingLines.length === 0) throw new BenchRefusal(OUT_OF_MEMORY);
    lines.push(...listingLines);
    const lastLine = listingLines[listingLines.length - 1];
    address = lastLine.address + (hasTwoBytes(lastLine.line) ? 2 : 1);
  }
  return lines;
}

/** The minimum number of consecutive NOPs that count as an empty part of ROM. */
const MIN_EMPTY_NOPS = 4;

/**
 * Returns source text that assembles to the bytes in ROM. Leaves out empty parts of ROM, and the NOPs at the end.
 * @param {Engine} engine
 * @param {Uint8Array} file
 */
export function disassembleRom(engine, file) {
  const text = [];
  /** @type {string[]} */
  let emptyLines = [];
  for (const { address, line } of listAllLines(engine, file)) {
    if (line.slice(4, 6) === "00" && !hasTwoBytes(line)) {
      emptyLines.push("\tNOP");
    } else {
      if (emptyLines.length < MIN_EMPTY_NOPS) text.push(...emptyLines);
      else text.push(`\tORG 0x${hex(address, 3)}`);
      emptyLines = [];
      text.push(`\t${line.slice(10)}`);
    }
  }
  return text.length === 0 ? "" : `${text.join("\n")}\n`;
}
