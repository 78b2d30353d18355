// Computes the values of places from a snapshot, in the spelling of `trace` and `state`. With these values, the page evaluates expressions
// without a query to the bench.

import { parseItems } from "../bench/state_line.js";
import { hex, parseNumber, indices } from "../bench/numbers.js";

/**
 * @typedef {import("../bench/answers.js").Board} Board
 * @typedef {import("./machine_state.js").MachineState} MachineState
 */

/** @type {(bits: number, line: number) => string} returns a bit as "0" or "1" */
const formatBit = (bits, line) => String((bits >> line) & 1);

/**
 * Returns the line levels of a ROM port as a number. An output line has its latched level; an input line has the level that RDR reads.
 * @param {number} chip
 * @param {MachineState} machineState
 * @param {Board} board
 */
function romLevels(chip, machineState, { roms }) {
  const port = machineState.romPort(chip);
  const rom = roms.find((romChip) => Number(romChip.chip) === chip);
  if (!port || !rom) return 0;
  const inputMask = indices(4).reduce((sum, line) => sum + (rom.port[3 - line] === "i" ? 2 ** line : 0), 0);
  return (parseInt(port.out, 16) & ~inputMask) | (parseInt(port.in, 16) & inputMask);
}

/**
 * Returns the value of an index register, or of a place whose name has no number; undefined for any other place.
 * @param {string} place
 * @param {MachineState} machineState
 * @returns {string | undefined}
 */
function valueOfSimplePlace(place, machineState) {
  const { registers, parts, ports } = machineState;
  const registerMatch = /^r(\d+)$/.exec(place);
  if (registerMatch) return machineState.register(Number(registerMatch[1]));
  switch (place) {
    case "acc": return registers.accumulator;
    case "cy": return registers.carry;
    case "dcl": return registers.bank;
    case "pc": return registers.counter;
    case "test": return registers.test;
    case "owed": return registers.owed;
    case "keys": return ports.keys.join(",");
    case "lamps": return parseItems(parts.lamps).join("") || "-";
    case "src": return hex(machineState.romSrcByte, 2);
    case "ret": return registers.returns.join(",");
    default: return undefined;
  }
}

/**
 * Returns the value of a place. If the board does not have the place, returns "0", as `trace` does.
 * @param {string} place a place that `trace` or `state` reports
 * @param {MachineState} machineState
 * @param {Board} board
 */
export function readPlaceValue(place, machineState, board) {
  const simpleValue = valueOfSimplePlace(place, machineState);
  if (simpleValue !== undefined) return simpleValue;
  const [word, ...numberWords] = place.split(".");
  const numbers = numberWords.map(parseNumber);
  const romMatch = /^rom(\d+)$/.exec(word);
  const ramMatch = /^ram(\d)$/.exec(word);
  const chainMatch = /^chain(\d)$/.exec(word);
  if (romMatch) {
    const levels = romLevels(Number(romMatch[1]), machineState, board);
    return numbers.length === 0 ? hex(levels, 1) : formatBit(levels, numbers[0]);
  }
  if (ramMatch) {
    const output = machineState.ramPort(Number(ramMatch[1]), numbers[0]) || "0";
    return numbers.length === 1 ? output : formatBit(parseInt(output, 16), numbers[1]);
  }
  if (chainMatch) {
    const bits = machineState.ports.chains[Number(chainMatch[1])] || "";
    return numbers.length === 0 ? bits || "-" : bits[numbers[0]] || "0";
  }
  return (word === "ram" ? machineState.character(numbers[0], numbers[1]) : machineState.status(numbers[0], numbers[1], numbers[2])) || "0";
}
