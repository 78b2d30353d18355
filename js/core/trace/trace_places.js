// Lists the places (registers, RAM nibbles, ports and so on) whose changes a trace shows, in the order in which a trace line shows them.

import { hex, indices } from "../bench/numbers.js";
import { WRR } from "../engine/rom_codes.js";

/**
 * @typedef {import("../bench/answers.js").Board} Board
 *
 * A place in a `trace` query, such as a register or a port. `textOf` returns the text that shows a new value. If two values have the same
 * text, the trace shows no change.
 * @typedef {{ name: string, textOf: (value: string) => string }} TracePlace
 *
 * A function that returns whether a run executes an opcode.
 * @typedef {(code: number) => boolean} OpcodeTest
 */

const WRM = 0xE0;
const WMP = 0xE1;
/** The first of the four instructions WR0 to WR3, which write status characters. */
const WR0 = 0xE4;

/**
 * Creates a place. By default, the text of a value is the name of the place and the value.
 * @param {string} name
 * @param {(value: string) => string} [textOf]
 * @returns {TracePlace}
 */
function createPlace(name, textOf = (value) => ` ${name} ${value}`) {
  return { name, textOf };
}

/**
 * Returns the places of a RAM chip that the executed instructions can change.
 * @param {number} bank
 * @param {number} chip
 * @param {OpcodeTest} executes
 */
function listChipPlaces(bank, chip, executes) {
  const nibbles = executes(WRM) ? indices(64).map((index) => createPlace(`ram.${bank}.0x${hex(chip * 64 + index, 2)}`)) : [];
  const status = indices(4).filter((index) => executes(WR0 + index))
    .flatMap((kind) => indices(4).map((index) => createPlace(`st.${bank}.${chip * 4 + index}.${kind}`)));
  const port = executes(WMP) ? [createPlace(`ram${bank}.${chip}`, (value) => ` out ${bank}.${chip} ${value}`)] : [];
  return [...nibbles, ...status, ...port];
}

/**
 * Returns a place for each ROM port that has output lines. The text of a value omits the input lines, because the program does not
 * change them.
 * @param {Board} board
 */
function listRomPlaces({ roms }) {
  return roms.filter(({ port }) => port !== "iiii").map(({ chip, port }) => {
    const outputMask = indices(4).filter((index) => port[3 - index] !== "i").reduce((sum, index) => sum + 2 ** index, 0);
    return createPlace(`rom${chip}`, (value) => ` rom${chip} out ${hex(parseInt(value, 16) & outputMask, 1)}`);
  });
}

/**
 * Returns the places that the executed instructions can change, except those of the main query of TraceLines: the program counter, the
 * accumulator, the carry, and the registers below `firstRegister`.
 * @param {Board} board
 * @param {number} firstRegister the number of the first register that needs a place
 * @param {OpcodeTest} executes
 * @returns {TracePlace[]}
 */
export function listTracePlaces(board, firstRegister, executes) {
  return [
    ...indices(16).slice(firstRegister).map((index) => createPlace(`r${index}`)),
    createPlace("dcl"),
    createPlace("ret", (value) => ` ret ${value.replace(/,/g, " ")}`),
    ...board.banks.flatMap(({ bank, chips }) => indices(chips).flatMap((chip) => listChipPlaces(bank, chip, executes))),
    ...(executes(WRR) ? listRomPlaces(board) : []),
    // Any output port can drive the clock of a chain.
    ...(executes(WMP) || executes(WRR) ? board.chains.map((_, index) => createPlace(`chain${index}`)) : []),
    createPlace("lamps", (value) => ` lamps ${value.replace(/^-$/, "")}`),
  ];
}
