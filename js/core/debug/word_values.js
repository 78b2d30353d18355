// Describes the current value of a word in the source. The word is a register, a register pair, an instruction that uses a RAM character, a
// number or a label. A description is a list of pieces: strings, and values that the user can edit.
//
//     joinPieces(valuePieces("        SRC P2", 13, machineState, names))     "P2 = 60: R4 6, R5 0; selects ROM 6; bank 0, chip 1, .."

import { hex, parseNumber } from "../bench/numbers.js";
import { NUMBER, PAIR, REGISTER, splitStatement, wordAt } from "../text/assembly.js";
import { describeCharacter } from "./machine_state.js";
import * as say from "../../words/debug.js";

/**
 * @typedef {import("./machine_state.js").MachineState} MachineState
 * @typedef {import("../text/assembly.js").Parts} Parts
 *
 * An editable value: its `poke` place, its title, and its text.
 * @typedef {{ place: string, name: string, value: string }} EditableValue
 * @typedef {string | EditableValue} Piece
 *
 * A name in the program, which is a label or a constant: its value, and its description.
 * @typedef {{ value: number, isLabel: boolean, description: string }} NamedValue
 *
 * Two functions that explain the words of a program. `nameOf` returns the named value; undefined for any other word. `describeInstruction`
 * returns the description of an instruction; "" for any other word.
 * @typedef {{ nameOf: (name: string) => NamedValue | undefined, describeInstruction: (word: string) => string }} WordLookup
 */

/** Matches the mnemonic of an instruction that uses a status character, and captures the number of this character. */
const STATUS_INSTRUCTION = /^(?:RD|WR)([0-3])$/;
/** Matches a description of an instruction that uses the accumulator or the carry. */
const ACCUMULATOR_WORD = /\b(ACC|CY|carry|borrow)\b/;
/** The instructions that use a RAM character. */
const CHARACTER_INSTRUCTIONS = new Set(["WRM", "RDM", "ADM", "SBM"]);

/**
 * Joins pieces into one string.
 * @param {Piece[]} pieces
 */
export function joinPieces(pieces) {
  return pieces.map((piece) => (typeof piece === "string" ? piece : piece.value)).join("");
}

/**
 * Returns the value of a register.
 * @param {number} number the register number
 * @param {MachineState} machineState
 * @returns {EditableValue}
 */
function editableRegister(number, machineState) {
  return { place: `r${number}`, name: `R${number}`, value: machineState.register(number) };
}

/**
 * Returns the value of the accumulator or the carry.
 * @param {string} place `acc` or `cy`
 * @param {string} name the title
 * @param {MachineState} machineState
 * @returns {EditableValue}
 */
function editableAccumulatorOrCarry(place, name, { registers }) {
  return { place, name, value: place === "acc" ? registers.accumulator : registers.carry };
}

/**
 * Describes a RAM character with its value.
 * @param {number} bank
 * @param {number} byte
 * @param {MachineState} machineState
 * @returns {Piece[]}
 */
function characterPieces(bank, byte, machineState) {
  const description = say.inBank(bank, describeCharacter(byte));
  const value = machineState.character(bank, byte);
  if (value === "") return [say.boardLacks(description)];
  return [`${description} = `, { place: `ram.${bank}.0x${hex(byte, 2)}`, name: description, value }];
}

/**
 * Describes what a byte selects when SRC sends it: a ROM port, and a RAM character in the current bank.
 * @param {number} byte
 * @param {MachineState} machineState
 * @returns {Piece[]}
 */
function selectionPieces(byte, machineState) {
  const chip = byte >> 4;
  const roms = machineState.romPort(chip) ? [say.romChip(chip)] : [];
  const hasRam = machineState.latchedSrcByte() !== undefined;
  if (!hasRam) return roms.length > 0 ? roms : [say.NOTHING_ON_BOARD];
  return [...roms.map((description) => `${description}; `), ...characterPieces(machineState.bank, byte, machineState)];
}

/**
 * Describes the value of a register or register pair. For the operand of SRC, also describes the chip and the RAM character that SRC
 * selects.
 * @param {string} word
 * @param {Parts} parts the parts of the line
 * @param {MachineState} machineState
 * @returns {Piece[]}
 */
function registerPieces(word, { head }, machineState) {
  const number = Number(word.slice(1));
  if (!PAIR.test(word)) return [`R${number} = `, editableRegister(number, machineState)];
  const byte = machineState.pair(number);
  /** @type {Piece[]} */
  const pieces = [`P${number} = ${byte}: R${2 * number} `, editableRegister(2 * number, machineState), `, R${2 * number + 1} `,
    editableRegister(2 * number + 1, machineState)];
  if (!head || head.text.toUpperCase() !== "SRC") return pieces;
  return [...pieces, say.SELECTS, ...selectionPieces(parseInt(byte, 16), machineState)];
}

/**
 * Describes the port or character that SRC has selected for an instruction. Returns no pieces if the instruction accesses no port and no
 * character.
 * @param {string} name the upper-case mnemonic
 * @param {MachineState} machineState
 * @returns {Piece[]}
 */
function accessedPieces(name, machineState) {
  const { bank } = machineState;
  if (name === "WRR" || name === "RDR") {
    const chip = machineState.romSrcByte >> 4;
    const port = machineState.romPort(chip);
    return [port ? say.portOfRom(chip, port.out, port.in) : say.boardLacks(say.romChip(chip))];
  }
  const byte = machineState.latchedSrcByte();
  const usesRam = CHARACTER_INSTRUCTIONS.has(name) || name === "WMP" || STATUS_INSTRUCTION.test(name);
  if (byte === undefined) return usesRam ? [say.bankWithoutRam(bank)] : [];
  if (CHARACTER_INSTRUCTIONS.has(name)) return characterPieces(bank, byte, machineState);
  if (name === "WMP") {
    const output = machineState.ramPort(bank, byte >> 6);
    return [say.portOfRam(bank, byte >> 6, output)];
  }
  const statusMatch = STATUS_INSTRUCTION.exec(name);
  if (!statusMatch) return [];
  const description = say.statusAt(bank, byte >> 6, byte >> 4 & 3, statusMatch[1]);
  const value = machineState.status(bank, byte >> 4, Number(statusMatch[1]));
  if (value === "") return [say.boardLacks(description)];
  return [`${description} = `, { place: `st.${bank}.${byte >> 4}.${statusMatch[1]}`, name: description, value }];
}

/**
 * Describes the values that an instruction uses in addition to its operands.
 * @param {string} name the upper-case mnemonic
 * @param {string} description the description of the instruction
 * @param {Parts} parts
 * @param {MachineState} machineState
 * @returns {Piece[]}
 */
function instructionPieces(name, description, parts, machineState) {
  const [operand] = parts.operands;
  if (name === "SRC" && operand && PAIR.test(operand.text)) return registerPieces(operand.text, parts, machineState);
  const pieces = accessedPieces(name, machineState);
  if (!ACCUMULATOR_WORD.test(description)) return pieces;
  /** @type {Piece[]} */
  const accumulatorPieces = [
    "acc ", editableAccumulatorOrCarry("acc", "acc", machineState), ", cy ", editableAccumulatorOrCarry("cy", "cy", machineState)];
  return pieces.length > 0 ? [...pieces, "; ", ...accumulatorPieces] : accumulatorPieces;
}

/**
 * Describes a number, with its value in binary. For the operand of FIM, also describes the chip and the RAM character that SRC would select
 * with this number.
 * @param {string} numberText the number in decimal and hexadecimal
 * @param {number} value
 * @param {Parts} parts
 * @param {MachineState} machineState
 * @returns {Piece[]}
 */
function numberPieces(numberText, value, { head }, machineState) {
  if (!(value <= 255)) return [numberText];
  const binary = value.toString(2).padStart(value > 15 ? 8 : 4, "0").replace(/(....)(....)/, "$1 $2");
  if (!head || head.text.toUpperCase() !== "FIM") return [`${numberText}, ${binary}`];
  return [say.valueSentBySrc(numberText, binary), ...selectionPieces(value, machineState)];
}

/**
 * Describes the current value of the word at an index in a line. Returns no pieces if the word has no value.
 * @param {string} text the line
 * @param {number} index the index of a character of the word
 * @param {MachineState} machineState
 * @param {WordLookup} lookup
 * @returns {Piece[]}
 */
export function valuePieces(text, index, machineState, { nameOf, describeInstruction }) {
  const word = wordAt(text, index);
  const parts = splitStatement(text);
  if (!word || word.from >= parts.comment) return [];
  const mnemonic = word.text.toUpperCase();
  const description = describeInstruction(mnemonic);
  if (description !== "") return instructionPieces(mnemonic, description, parts, machineState);
  if (REGISTER.test(word.text) || PAIR.test(word.text)) return registerPieces(word.text, parts, machineState);
  if (NUMBER.test(word.text)) {
    const value = parseNumber(word.text);
    return numberPieces(`${value} = 0x${hex(value, 1)}`, value, parts, machineState);
  }
  const name = nameOf(word.text);
  if (!name) return [];
  if (!name.isLabel) return numberPieces(name.description, name.value, parts, machineState);
  return [machineState.registers.counter === hex(name.value, 3) ? say.withNextInstructionNote(name.description) : name.description];
}
