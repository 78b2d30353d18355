// Defines the common mistakes, for which the prover checks every program, even without a properties text. Also checks whether the program
// in a bench session makes such a mistake.

import { parseState, parsePorts, parseRegisters } from "../bench/state_line.js";
import { indices } from "../bench/numbers.js";
import { ADDRESS_COUNT, PAGE_BYTES } from "../bench/rom_bytes.js";
import { RDR, WRR } from "../engine/rom_codes.js";
import { standardProperties } from "../explore/properties.js";
import * as say from "../../words/prove.js";

/**
 * @typedef {import("../bench/answers.js").Board} Board
 * @typedef {import("../explore/properties.js").Property} Property
 * @typedef {import("../explore/subject.js").Subject} Subject
 *
 * A common mistake: the word for it in a question, and the property that excludes it.
 * @typedef {{ word: keyof typeof say.MISTAKES, property: Property }} Mistake
 *
 * The state that decides whether the next instruction makes a mistake. `address` and `code` are the address and the opcode of the
 * instruction. `dcl` is the selected RAM bank, and `pair` is the value of register pair P0. `lastSrcByte` is the byte of the last SRC,
 * which selects the ROM port. `bankSrcBytes` contains the byte of the last SRC to each RAM bank, by bank number.
 * @typedef {{ board: Board, address: number, code: number, dcl: number, pair: number, lastSrcByte: number,
 *   bankSrcBytes: Map<number, number> }} MachineState
 */

/** The instructions that access RAM: WRM, WMP, WR0 to WR3, SBM, RDM, ADM, RD0 to RD3. */
const RAM_OPCODES = new Set([0xE0, 0xE1, ...indices(4).map((k) => 0xE4 + k), 0xE8, 0xE9, 0xEB, ...indices(4).map((k) => 0xEC + k)]);
/** Returns whether an instruction is FIN. */
const isFin = (/** @type {number} */ code) => (code & 0xF1) === 0x30;
/** Returns whether an instruction has two words: JCN, FIM, JUN, JMS or ISZ. */
const hasTwoWords = (/** @type {number} */ code) => [1, 4, 5, 7].includes(code >> 4) || (code & 0xF1) === 0x20;
/** The maximum number of cycles of a session that are checked for a mistake. */
const MAX_CHECKED_CYCLES = 200000;
/** The maximum number of cycles that one call of the bench runs. */
const CHUNK_CYCLES = 500;

/** @type {(board: Board, chip: number) => string} returns the port of a ROM as in the board text; "" if the board lacks the ROM */
const findPortMarks = ({ roms }, chip) => (roms.find((rom) => Number(rom.chip) === chip) || { port: "" }).port;
/** @type {(board: Board, address: number) => boolean} returns whether the board lacks the ROM that contains an address */
const lacksRom = (board, address) => findPortMarks(board, address >> 8) === "";

/**
 * The functions that check whether the next instruction makes a mistake. The mistakes that are not listed here have property forms
 * (PROPERTY_FORMS), so a search detects them.
 * @type {Partial<Record<keyof typeof say.MISTAKES, (state: MachineState) => boolean>>}
 */
const MISTAKE_CHECKS = {
  ram: ({ board, code, dcl, bankSrcBytes }) => {
    const bank = board.banks.find((candidate) => Number(candidate.bank) === dcl);
    return RAM_OPCODES.has(code) && (bankSrcBytes.get(dcl) || 0) >> 6 >= (bank ? Number(bank.chips) : 0);
  },
  rom: ({ board, address, code, pair }) => {
    const nextAddress = (address + 1) % ADDRESS_COUNT;
    return lacksRom(board, address) || (hasTwoWords(code) && lacksRom(board, nextAddress))
      || (isFin(code) && lacksRom(board, nextAddress - nextAddress % PAGE_BYTES + pair));
  },
  rdr: ({ board, code, lastSrcByte }) => code === RDR && !findPortMarks(board, lastSrcByte >> 4).includes("i"),
  wrr: ({ board, code, lastSrcByte }) => code === WRR && /^i*$/.test(findPortMarks(board, lastSrcByte >> 4)),
};

/**
 * Parses the machine state in an answer of the bench.
 * @param {Subject} subject
 * @param {string} answer the answer to `state`
 * @returns {MachineState & { isSecondCyclePending: boolean }}
 */
function parseMachineState({ codes, names: { board } }, answer) {
  const { registers, ports } = parseState(answer);
  const { counter, owed, bank, registers: [highDigit, lowDigit] } = parseRegisters(registers);
  const { srcBytes: [lastSrcByte, ...banks] } = parsePorts(ports);
  const address = parseInt(counter, 16);
  return {
    board, address, code: codes[address], dcl: Number(bank), pair: parseInt(highDigit + lowDigit, 16),
    lastSrcByte: parseInt(lastSrcByte, 16), isSecondCyclePending: owed === "1",
    bankSrcBytes: new Map(banks.map((bankText) => {
      const [number, byte] = bankText.split(".");
      return [Number(number), parseInt(byte, 16)];
    })),
  };
}

/**
 * Returns the number of cycles up to the first instruction that makes a mistake; -1 if there is none within `cycles` cycles, or within
 * MAX_CHECKED_CYCLES. Also returns -1 for a mistake that MISTAKE_CHECKS does not list.
 * @param {Subject} subject
 * @param {Uint8Array} file the session file at the start
 * @param {string} word the word for the mistake, such as `ram`
 * @param {number} cycles
 */
export function countCyclesToMistake(subject, file, word, cycles) {
  const makesMistake = MISTAKE_CHECKS[/** @type {keyof typeof MISTAKE_CHECKS} */ (word)];
  const workFile = file.slice();
  let checkedCycles = 0;
  for (let answers = subject.engine.ask(workFile, "state\n").answers; makesMistake && answers.length > 0;) {
    for (const answer of answers.filter((line) => line.startsWith("state"))) {
      const { isSecondCyclePending, ...state } = parseMachineState(subject, answer);
      if (!isSecondCyclePending && makesMistake(state)) return checkedCycles;
      checkedCycles += 1;
    }
    const cyclesToRun = Math.min(CHUNK_CYCLES, Math.min(cycles, MAX_CHECKED_CYCLES) + 1 - checkedCycles);
    answers = cyclesToRun > 0 ? subject.engine.serve(workFile, "run 1\nstate\n".repeat(cyclesToRun), workFile).answers : [];
  }
  return -1;
}

/** The property forms of those mistakes that a search also detects, by the word for the mistake. */
const PROPERTY_FORMS = { code: "code", call: "calls", return: "returns" };

/**
 * Returns all common mistakes, in the order in which they are reported.
 * @returns {Mistake[]}
 */
export function listMistakes() {
  const properties = standardProperties();
  return Object.entries(say.MISTAKES).map(([word, text]) => {
    const property = properties.find(({ form }) => form === PROPERTY_FORMS[/** @type {keyof typeof PROPERTY_FORMS} */ (word)]);
    return /** @type {Mistake} */ ({ word, property: { ...(property || properties[0]), ...(property ? {} : { form: "mistake" }), text } });
  });
}
