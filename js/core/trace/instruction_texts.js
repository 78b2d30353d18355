// Formats the first columns of a trace line: the elapsed cycles, and the instruction with its address and bytes. The label of an
// instruction is on a separate line before it.

import { hex } from "../bench/numbers.js";
import { ADDRESS_COUNT } from "../bench/rom_bytes.js";
import { joinLines } from "../bench/inputs.js";
import { instructionWords } from "../engine/rom_codes.js";
import { expandTabs } from "../text/tab_expansion.js";

/**
 * @typedef {import("../engine/engine_host.js").EngineHost} EngineHost
 * @typedef {import("../engine/engine_host.js").State} State
 * @typedef {import("../machine/source_map.js").SourceMap} SourceMap
 *
 * The names of a program. If the trace shows source lines, `source` contains them, and the number of lines before them in their file
 * (`linesBefore`).
 * @typedef {{ map: SourceMap, source: { lines: string[], linesBefore: number } | null }} TraceSource
 */

/** The width of the instruction text in characters, without and with source lines. */
const TEXT_WIDTH = 25;
const SOURCE_WIDTH = 42;
/** Matches a listing line with JUN, JMS, JCN or ISZ; captures the text before the target, and the target. */
const JUMP_LINE = /^(?=.{10}(?:JUN|JMS|JCN|ISZ) )(.{7}[^ ].*)0x([0-9A-F]{3})$/;
const LAST_ADDRESS = ADDRESS_COUNT - 1;
/** The start and end column of the first byte in a listing line. */
const CODE_COLUMNS = /** @type {const} */ ([4, 6]);

/**
 * Returns the first column of a trace line: the number of cycles before the instruction.
 * @param {number} cycles
 */
function formatElapsed(cycles) {
  return `${String(cycles).padStart(8)}  `;
}

/**
 * Returns a source line without its comment and with tabs replaced by blanks.
 * @param {string} line
 */
function extractCode(line) {
  return expandTabs(line).replace(/;.*/, "").replace(/ +$/, "");
}

/**
 * The mnemonics of two-byte instructions by the first hexadecimal digit of the opcode, each with a function that formats the operands.
 * @type {Record<number, [string, (operand: number, digits: string) => string]>}
 */
const TWO_BYTE_INSTRUCTIONS = {
  0x1: ["JCN", (operand, digits) => `${operand}, 0x0${digits}`],
  0x2: ["FIM", (operand, digits) => `P${operand >> 1}, 0x${digits}`],
  0x4: ["JUN", (operand, digits) => `0x${hex(operand, 1)}${digits}`],
  0x5: ["JMS", (operand, digits) => `0x${hex(operand, 1)}${digits}`],
  0x7: ["ISZ", (operand, digits) => `R${operand}, 0x0${digits}`],
};

/**
 * Returns the listing line of a two-byte instruction at the last address. The second byte of this instruction is at address 0.
 * @param {number} firstByte
 * @param {number} secondByte
 */
function formatWrapped(firstByte, secondByte) {
  const digits = hex(secondByte, 2);
  const [name, formatOperands] = TWO_BYTE_INSTRUCTIONS[firstByte >> 4];
  return [hex(LAST_ADDRESS, 3), hex(firstByte, 2), digits, name, formatOperands(firstByte % 16, digits)].join(" ");
}

export class InstructionTexts {
  /** @param {TraceSource | null} names */
  constructor(names) {
    /** The first bytes of the instructions that have been read, by address. */
    this.codes = new Uint8Array(ADDRESS_COUNT);
    this.names = names;
    this.width = names && names.source ? SOURCE_WIDTH : TEXT_WIDTH;
    /** @type {Map<number, { label: string, text: string }>} the instruction texts, by address */
    this.texts = new Map();
  }

  /**
   * Reads the instructions at `addresses` from the bench, except those that have been read before.
   * @param {EngineHost} engine
   * @param {State} state
   * @param {number[]} addresses
   */
  readInstructions(engine, state, addresses) {
    const unreadAddresses = addresses.filter((address) => !this.texts.has(address));
    if (unreadAddresses.length === 0) return;
    // An instruction at the last address can have its second byte at address 0.
    const listedAddresses = unreadAddresses.includes(LAST_ADDRESS) ? [...unreadAddresses, 0] : unreadAddresses;
    const { answers } = engine.ask(state, joinLines(listedAddresses.map((address) => `list 0x${hex(address, 3)} 1`)));
    listedAddresses.forEach((address, index) => {
      this.codes[address] = parseInt(answers[index].slice(...CODE_COLUMNS), 16);
    });
    unreadAddresses.forEach((address, index) => this.texts.set(address, this.formatInstruction(address, answers[index])));
  }

  /**
   * Returns the text of an instruction (`text`), and the line with its label (`label`). `label` is "" if the instruction has no label, or
   * if its source line already shows the label.
   * @param {number} address
   * @param {string} listingLine the listing line of the instruction
   */
  formatInstruction(address, listingLine) {
    const { codes, names } = this;
    const isWrapped = address === LAST_ADDRESS && instructionWords(codes[address]) === 2;
    const fullListingLine = isWrapped ? formatWrapped(codes[address], codes[0]) : listingLine;
    if (!names) return { label: "", text: `${fullListingLine.padEnd(this.width)}  ` };
    const text = this.replaceWithSource(this.replaceTarget(fullListingLine), address);
    const [label = ""] = names.map.labelsAt(address);
    const isLabelInSourceLine = names.source && names.map.beginsInstruction(address)
      && names.map.lineOfLabel(label) === names.map.lineOf(address);
    return { label: label === "" || isLabelInSourceLine ? "" : `          ${label}:\n`, text: `${text.padEnd(this.width)}  ` };
  }

  /**
   * Replaces the target address of a jump in a listing line with the label of the target, if it has one.
   * @param {string} text
   */
  replaceTarget(text) {
    const [, textBefore = "", target = ""] = JUMP_LINE.exec(text) || [];
    const [label] = this.names && target ? this.names.map.labelsAt(parseInt(target, 16)) : [];
    return label ? `${textBefore}${label}` : text;
  }

  /**
   * Replaces the instruction in a listing line with the number and the text of the source line. If no instruction of the source starts at
   * the address, adds only the line number. Returns the listing line unchanged if the trace shows no source line for the address.
   * @param {string} text the listing line
   * @param {number} address
   */
  replaceWithSource(text, address) {
    const { map, source = null } = this.names || {};
    const line = map ? map.lineOf(address) : 0;
    if (!map || !source || line === 0) return text;
    const code = map.beginsInstruction(address) ? extractCode(source.lines[line - 1]) : text.slice(10);
    return `${text.slice(0, 9)}${String(line + source.linesBefore).padStart(5)}  ${code}`;
  }

  /**
   * Returns the label line of an instruction, if any, and the first columns of its trace line. `readInstructions` must have read the
   * instruction at this address before.
   * @param {number} cycles the cycles before the instruction
   * @param {number} address
   */
  formatInstructionLine(cycles, address) {
    const { label, text } = /** @type {{ label: string, text: string }} */ (this.texts.get(address));
    return `${label}${formatElapsed(cycles)}${text}`;
  }

  /**
   * Returns the first columns of a trace line that has `text` instead of an instruction.
   * @param {number} cycles the cycles before the line
   * @param {string} text
   */
  formatPlainLine(cycles, text) {
    return `${formatElapsed(cycles)}${text.padEnd(this.width)}  `;
  }
}
