// Presents the machine state as scopes of variables: registers, pairs, RAM, ports, lamps, keys, names from the program.

import { readBoard, readItems } from "../bench/answers.js";
import { hex, indices } from "../bench/numbers.js";
import { boardKeys } from "../board/board_keys.js";
import { PressedKeys, formatKey } from "../board/key_place.js";
import { MachineState, describeCharacter } from "../debug/machine_state.js";
import { referenceNumberForPlace, formatReference, bankReference } from "./memory.js";
import { convertToBase, formatInBase } from "./number_format.js";
import { setPlace } from "./place_assignment.js";
import * as say from "../../words/adapter.js";
import { srcOfBank } from "../../words/debug.js";

/**
 * @typedef {import("../debug/debug_session.js").DebugSession} DebugSession
 * @typedef {import("../board/face.js").Face} Face
 *
 * A variable in the client's variables view:
 * - `evaluateName`: an expression with the same value;
 * - `place`: the place that an assignment to the variable sets, "" for a read-only variable;
 * - `variablesReference`: the number with which a client requests the child variables, 0 for none; `count`: the number of children;
 * - `memory`: the memory reference (memory.js) of the variable;
 * - `isDecimal`: true if the value is a decimal number;
 * - `watchPlace`: the place that a data breakpoint on the variable watches, if it differs from `place`.
 * @typedef {{ name: string, value: string, evaluateName?: string, place: string, variablesReference: number, count?: number,
 *   memory?: string, isDecimal?: boolean, watchPlace?: string }} Variable
 * @typedef {import("./number_format.js").Base} Base
 *
 * The objects from which the variables are read.
 * @typedef {{ machineState: MachineState, face: Face, session: DebugSession, board: import("../bench/answers.js").Board }} ShownState
 */

/** The variables references of the scopes. */
const [REGISTERS, PAIRS, RAM, PORTS, LAMPS, KEYS, NAMES] = [1, 2, 3, 4, 5, 6, 7];
/** Bank B has the variables reference BANK_BASE + B; RAM register R of bank B has the reference REGISTER_BASE + 16 * B + R. */
const [BANK_BASE, REGISTER_BASE] = [100, 200];

/** @type {(digits: string) => string} adds the prefix 0x to hexadecimal digits */
const withHexPrefix = (digits) => `0x${digits}`;

/**
 * Creates a variable without child variables.
 * @param {string} name
 * @param {string} value
 * @param {string} [place]
 * @returns {Variable}
 */
function createVariable(name, value, place = "") {
  return { name, value, place, variablesReference: 0, ...(place ? { evaluateName: place } : {}) };
}

/**
 * Creates a variable with a decimal value.
 * @param {string} name
 * @param {string} value
 * @param {string} [place]
 * @returns {Variable}
 */
const createDecimalVariable = (name, value, place) => ({ ...createVariable(name, value, place), isDecimal: true });

/**
 * Creates a variable that data breakpoints can watch, but that the user cannot set.
 * @param {string} name
 * @param {string} value
 * @param {string} place
 * @returns {Variable}
 */
const createReadOnlyVariable = (name, value, place) => ({ ...createVariable(name, value), evaluateName: place, watchPlace: place });

/** @param {ShownState} state */
function listRegisterVariables({ machineState: { registers: cpu } }) {
  const { accumulator, carry, counter, bank, test, owed } = cpu;
  return [
    createVariable("acc", withHexPrefix(accumulator), "acc"), createDecimalVariable("cy", carry, "cy"),
    { ...createVariable("pc", withHexPrefix(counter), "pc"), memory: withHexPrefix(counter) },
    createVariable("dcl", withHexPrefix(bank), "dcl"), createDecimalVariable("test", test, "test"), createDecimalVariable("owed", owed),
    ...cpu.registers.map((value, register) => createVariable(`R${register}`, withHexPrefix(value), `r${register}`)),
  ];
}

/** @param {ShownState} state */
function listPairVariables({ machineState }) {
  return indices(8).map((pair) => createVariable(`P${pair}`, withHexPrefix(machineState.pair(pair)), `p${pair}`));
}

/** @param {ShownState} state */
function listBankVariables({ machineState }) {
  return [...machineState.ram].map(([bank, { registers: bankRegisters }]) => (
    { ...createVariable(`bank ${bank}`, say.chipCountText(bankRegisters.size / 4, bank === machineState.bank)),
      variablesReference: BANK_BASE + bank, count: bankRegisters.size, memory: bankReference(bank) }));
}

/**
 * @param {ShownState} state
 * @param {number} bank
 */
function listRamRegisterVariables({ machineState }, bank) {
  const ram = machineState.ram.get(bank);
  return [...(ram ? ram.registers : [])].map(([name, { characters: digits, status }]) => {
    const [, chip, register] = name.split(".").map(Number);
    const registerIndex = 4 * chip + register;
    return {
      ...createVariable(say.chipRegister(chip, register), `${digits} ${status}`),
      variablesReference: REGISTER_BASE + 16 * bank + registerIndex, count: 20,
      memory: memoryReference(`ram.${bank}.${16 * registerIndex}`),
    };
  });
}

/** @type {(place: string) => string} returns the memory reference of a RAM character or a status character */
const memoryReference = (place) => formatReference(referenceNumberForPlace(place));

/**
 * Returns the nibbles and status characters of a RAM register; an empty list if the board does not have the register. The name of a nibble
 * includes the names of the program constants that equal its SRC byte.
 * @param {ShownState} state
 * @param {number} bank
 * @param {number} register
 */
function listCharacterVariables({ machineState, session }, bank, register) {
  const ramRegister = machineState.ramRegister(bank, register);
  if (!ramRegister) return [];
  const constants = [...session.map.names.values()].filter(({ isLabel }) => !isLabel);
  return [
    ...[...ramRegister.characters].map((value, index) => {
      const byte = register * 16 + index;
      const constantNames = constants.filter((constant) => constant.value === byte && byte > 15).map(({ name }) => name);
      const place = `ram.${bank}.0x${hex(byte, 2)}`;
      const name = `0x${hex(byte, 2)}${constantNames.length > 0 ? ` ${constantNames.join(" ")}` : ""}`;
      return { ...createVariable(name, withHexPrefix(value), place), memory: memoryReference(place) };
    }),
    ...[...ramRegister.status].map((value, index) => {
      const place = `st.${bank}.${register}.${index}`;
      return { ...createVariable(`status ${index}`, withHexPrefix(value), place), memory: memoryReference(place) };
    }),
  ];
}

/** @param {ShownState} state */
function listPortVariables({ machineState, face }) {
  /** @type {(port: string) => string} */
  const portName = (port) => (face.ports.has(port) ? `${port} ${(face.ports.get(port) || { text: "" }).text}` : port);
  const { roms, chains, srcBytes } = machineState.ports;
  const rams = [...machineState.ram].flatMap(([bank, ram]) => [...ram.ports].map(([name, out]) => ({ bank, name, out })));
  return [
    ...roms.map(({ chip, out, in: read }) => (
      createReadOnlyVariable(portName(`rom${chip}`), `out ${withHexPrefix(out)}, in ${withHexPrefix(read)}`, `rom${chip}`))),
    ...rams.map(({ name, out }) => createReadOnlyVariable(portName(`ram${name}`), `out ${withHexPrefix(out)}`, `ram${name}`)),
    ...chains.map((bits, chain) => createReadOnlyVariable(portName(`chain${chain}`), bits, `chain${chain}`)),
    ...srcBytes.map((latchedByte) => srcVariable(latchedByte)),
  ];
}

/** @param {string} latchedByte the SRC byte latched in the ROMs (`21`), or in a RAM bank (`0.21` for bank 0) */
function srcVariable(latchedByte) {
  const [bank, byte] = latchedByte.split(".");
  if (byte === undefined) return createVariable("SRC", say.selectsRom(withHexPrefix(latchedByte), parseInt(latchedByte[0], 16)));
  return createVariable(srcOfBank(bank), `${withHexPrefix(byte)}: ${describeCharacter(parseInt(byte, 16))}`);
}

/** @param {ShownState} state */
function listLampVariables({ session, face, board }) {
  const marks = readItems(session.debugger.session.ask("lamps\n")[0]).join("");
  return board.lamps.map((line, lamp) => {
    const name = (face.lamps.get(lamp) || { text: "" }).text.replace(/_/g, " ");
    return createReadOnlyVariable(name || `lamp ${lamp}`, say.lampState(marks[lamp] === "*"), `lamp ${lamp}`);
  });
}

/** @param {ShownState} state */
function listKeyVariables({ machineState, face, board }) {
  const keysDown = new PressedKeys(machineState.ports.keys);
  return boardKeys(board, face).filter(({ legend }) => legend !== "").map(({ key, legend }) => {
    const isDown = keysDown.has(key, machineState.registers.test);
    return { ...createVariable(legend, isDown ? say.DOWN : say.UP), place: `key ${formatKey(key)}` };
  });
}

/** @param {ShownState} state */
function listNameVariables({ session: { map } }) {
  return [...map.names.values()].map(({ name, value, isLabel }) => (
    { ...createVariable(name, isLabel ? `0x${hex(value, 3)}, line ${map.lineOf(value)}` : `0x${hex(value, 2)}, ${value}`),
      evaluateName: name, ...(isLabel ? { memory: `0x${hex(value, 3)}` } : {}) }));
}

/** @type {Record<number, { title: string, listVariables: (state: ShownState) => Variable[], hint?: string }>} the scopes, by reference */
const SCOPES = {
  [REGISTERS]: { title: say.REGISTERS, listVariables: listRegisterVariables, hint: "registers" },
  [PAIRS]: { title: say.PAIRS, listVariables: listPairVariables, hint: "registers" },
  [RAM]: { title: "RAM", listVariables: listBankVariables },
  [PORTS]: { title: say.PORTS, listVariables: listPortVariables },
  [LAMPS]: { title: say.LAMPS, listVariables: listLampVariables },
  [KEYS]: { title: say.KEYS, listVariables: listKeyVariables },
  [NAMES]: { title: say.NAMES, listVariables: listNameVariables },
};

export class Scopes {
  /**
   * @param {DebugSession} session
   * @param {Face} face
   */
  constructor(session, face) {
    this.session = session;
    this.face = face;
  }

  /** @returns {ShownState} */
  get state() {
    const { session, face } = this;
    const bench = session.debugger.session;
    return { machineState: new MachineState(bench.takeSnapshot()), face, session, board: readBoard(bench.statusQueries.board) };
  }

  /** Returns the scopes that are not empty, in the protocol's format. */
  list() {
    const { state } = this;
    return Object.entries(SCOPES).map(([reference, { title, listVariables, hint }]) => (
      { name: title, variablesReference: Number(reference), namedVariables: listVariables(state).length, expensive: false,
        ...(hint ? { presentationHint: hint } : {}) })).filter(({ namedVariables }) => namedVariables > 0);
  }

  /**
   * Returns the variables of a scope, bank or RAM register; null if the reference is unknown.
   * @param {number} reference the variables reference
   * @param {Base} [base] the number base of the values
   * @returns {Variable[] | null}
   */
  variables(reference, base = "default") {
    const variables = this.unformattedVariables(reference);
    return variables && variables.map((variable) => (
      { ...variable, value: variable.isDecimal ? formatInBase(Number(variable.value), base) : convertToBase(variable.value, base) }));
  }

  /**
   * Returns the variables of a scope, bank or RAM register, in the default number format; null if the reference is unknown.
   * @param {number} reference
   */
  unformattedVariables(reference) {
    const { state } = this;
    if (Object.prototype.hasOwnProperty.call(SCOPES, reference)) return SCOPES[reference].listVariables(state);
    if (reference >= BANK_BASE && reference < BANK_BASE + 8) return listRamRegisterVariables(state, reference - BANK_BASE);
    const registerIndex = reference - REGISTER_BASE;
    return registerIndex >= 0 && registerIndex < 128 ? listCharacterVariables(state, registerIndex >> 4, registerIndex & 15) : null;
  }

  /**
   * Sets a variable. Resolves to its new value as text. Throws an error if the variable is unknown or read-only.
   * @param {number} reference the variables reference of the parent
   * @param {string} name
   * @param {string} value the new value as an expression
   * @param {Base} base the number base of the result
   */
  async setVariable(reference, name, value, base) {
    const variable = (this.variables(reference) || []).find((candidate) => candidate.name === name);
    if (!variable) throw new Error(say.notFoundHereMessage(name));
    if (variable.place === "") throw new Error(say.readOnlyMessage(name));
    await setPlace(this.session, variable.place, value);
    const newVariable = (this.variables(reference, base) || []).find((candidate) => candidate.name === name);
    return newVariable ? newVariable.value : value;
  }
}
