// Compiles the values in a condition: numbers, places, sums, program names, watch names and front-panel names. A compiled value computes a
// number from the bench's answers about the places in the value.

import { listKeyInputs, createTestInput } from "../explore/search_inputs.js";
import { findSimilarWords } from "../text/similar_words.js";
import { isCondition, parseExpression } from "./parser.js";
import { placeByAlias, parsePlace } from "./places.js";
import { ConditionError, fail } from "./scanner.js";
import * as say from "../../words/conditions.js";

/**
 * @typedef {import("./condition_language.js").Names} Names
 * @typedef {import("./parser.js").ValueNode} ValueNode
 * @typedef {import("./parser.js").NameNode} NameNode
 * @typedef {import("./parser.js").SumNode} SumNode
 *
 * A compiled value. `name` is its displayed name. `maxValue` is its maximum, Infinity if unknown. `isConstant` is true if the value depends
 * on no place. `read` returns the value as a number, and `textOf` as displayed text.
 * @typedef {{ name: string, maxValue: number, isConstant: boolean, read: (values: string[]) => number, textOf?: (values: string[]) =>
 *   string }} Value
 *
 * A value that only a test can supply because the bench does not report it.
 * @typedef {"cycles" | "lampForecast" | "printed"} Need
 */

/** The places that `state` reports and `trace` does not: the TEST pin, a pending second cycle, and the pressed keys. */
export const STATE_PLACES = new Set(["test", "owed", "keys"]);
/** The maximum nesting depth of watch names: the expression of a watch name can contain other watch names. */
const MAX_NAME_DEPTH = 3;
/** The number of the last nibble in a RAM bank. The number of a nibble is the byte that SRC sends to select the nibble. */
const LAST_NIBBLE = 255;
/** The hints for words that other assemblers and emulators use instead of a place name, by word. */
const NAME_HINTS = new Map([["a", say.ACCUMULATOR_HINT], ["accu", say.ACCUMULATOR_HINT], ["accumulator", say.ACCUMULATOR_HINT],
  ["c", say.CARRY_HINT], ["carry", say.CARRY_HINT], ["ip", say.COUNTER_HINT], ["bank", say.BANK_HINT]]);
/** The factor that splits a number of up to 53 bits into two halves, because JavaScript's bitwise operators support only 32 bits. */
const HALF_FACTOR = 2 ** 26;

/** The dependencies of a condition: its places, without duplicates, and the values that the test must supply. */
export class Dependencies {
  /** @param {boolean} [isTest] true for a condition in a test */
  constructor(isTest = false) {
    this.isTest = isTest;
    /** The current nesting depth of watch names. */
    this.depth = 0;
    /** @type {string[]} */
    this.places = [];
    /** @type {Need[]} */
    this.needs = [];
  }

  /**
   * Adds a place, unless it is in the list already. Returns its index in the list.
   * @param {string} place
   */
  addPlace(place) {
    const knownIndex = this.places.indexOf(place);
    return knownIndex >= 0 ? knownIndex : this.places.push(place) - 1;
  }

  /**
   * Adds a value that a test must supply. Throws `ConditionError` if the condition is not in a test.
   * @param {Need} need
   * @param {string} message the error message
   */
  addNeed(need, message) {
    if (!this.isTest) fail(message);
    if (!this.needs.includes(need)) this.needs.push(need);
  }
}

/**
 * Creates a constant value.
 * @param {number} number
 * @returns {Value}
 */
function constantValue(number) {
  return { name: String(number), maxValue: Infinity, isConstant: true, read: () => number };
}

/**
 * Returns the bitwise AND of two numbers of up to 53 bits.
 * @param {number} left
 * @param {number} right
 */
function bitwiseAnd(left, right) {
  const highHalf = Math.floor(left / HALF_FACTOR) & Math.floor(right / HALF_FACTOR);
  return highHalf * HALF_FACTOR + ((left % HALF_FACTOR) & (right % HALF_FACTOR));
}

/** @type {Record<SumNode["sign"], (left: number, right: number) => number>} */
const OPERATIONS = { "+": (left, right) => left + right, "-": (left, right) => left - right, "&": bitwiseAnd };

/**
 * Creates a value that is either 0 or 1.
 * @param {string} name
 * @param {number} index the index of the value's answer in the list of answers
 * @param {(answer: string) => number} readBit
 * @returns {Value}
 */
function bitValue(name, index, readBit) {
  return { name, maxValue: 1, isConstant: false, read: (values) => readBit(values[index]) };
}

/**
 * Returns the lamp number for a lamp name or number; throws `ConditionError` if there is no such lamp.
 * @param {string} name
 * @param {Names} names
 */
export function findLampNumber(name, { face, board }) {
  const namedLamp = face.lampNumbers.get(name);
  if (namedLamp !== undefined) return namedLamp;
  if (/^\d+$/.test(name) && Number(name) < board.lamps.length) return Number(name);
  const knownNames = [...face.lampNumbers].sort((a, b) => a[1] - b[1]).map(([lampName]) => lampName);
  return fail(say.noLampMessage(name, knownNames.join(" ")));
}

/**
 * Returns the value of a lamp: 1 if the lamp is on. Throws `ConditionError` if there is no such lamp.
 * @param {string} name
 * @param {Names} names
 * @param {Dependencies} dependencies
 * @returns {Value}
 */
export function valueOfLamp(name, names, dependencies) {
  const lamp = findLampNumber(name, names);
  return bitValue(`lamp ${name}`, dependencies.addPlace("lamps"), (marks) => Number(marks[lamp] === "*"));
}

/**
 * Returns the value of a key: 1 if the key is pressed. Throws `ConditionError` if there is no such key.
 * @param {string} name
 * @param {Names} names
 * @param {Dependencies} dependencies
 * @returns {Value}
 */
export function valueOfKey(name, { face }, dependencies) {
  const key = [...listKeyInputs(face), ...(face.test ? [createTestInput(face)] : [])].find((input) => input.name === name);
  if (!key) {
    const knownNames = [...listKeyInputs(face), ...(face.test ? [createTestInput(face)] : [])].map((input) => input.name);
    return fail(say.noKeyOfPanelMessage(name, knownNames.join(" ")));
  }
  const [word, ...numbers] = key.downLine.split(" ");
  if (word === "test") return bitValue(`key ${name}`, dependencies.addPlace("test"), (answer) => Number(answer === numbers[0]));
  const rowAndColumn = numbers.join(".");
  return bitValue(`key ${name}`, dependencies.addPlace("keys"), (answer) => Number(answer.split(",").includes(rowAndColumn)));
}

/**
 * Looks up a program name. Prefers an exact match. Otherwise returns the only name that is equal apart from case; undefined if there is no
 * such name, or more than one.
 * @param {string} name
 * @param {Names["map"]} map
 */
function findProgramName(name, map) {
  if (!map) return undefined;
  const matches = [...map.names].filter(([programName]) => programName.toLowerCase() === name.toLowerCase());
  return map.names.get(name) || (matches.length === 1 ? matches[0][1] : undefined);
}

/**
 * Returns the address of a label; throws `ConditionError` if the label does not exist.
 * @param {string} name
 * @param {Names} names
 */
export function findLabelAddress(name, names) {
  const label = findProgramName(name, names.map);
  return label && label.isLabel ? label.value : fail(say.noLabelMessage(name));
}

/**
 * Returns the value of a place; throws `ConditionError` if the board does not have the place, or if its value is not a number.
 * @param {import("./places.js").Place | null} place
 * @param {Names} names
 * @param {Dependencies} dependencies
 * @returns {Value | null} null if `place` is null
 */
function valueOfPlace(place, { board }, dependencies) {
  if (!place) return null;
  const { name } = place;
  const probes = place.probesOn(board);
  if (probes.length === 0) fail(say.boardLacks(name));
  const maxValue = place.maxValueOn(board);
  if (maxValue < 0) fail(say.notOneNumberMessage(name));
  const answerIndexes = probes.map((probe) => dependencies.addPlace(probe));
  const selectAnswers = (/** @type {string[]} */ values) => answerIndexes.map((index) => values[index]);
  return { name, maxValue, isConstant: false, read: (values) => place.numberOf(selectAnswers(values)),
    textOf: (values) => place.textOf(selectAnswers(values)) };
}

/**
 * Returns the value of a port with a direction. `rom1 in` is the value that RDR reads. In this value, the bit of an output line is the
 * constant from the port mask in the board text. `rom1 out` and `ram0.1 out` are the value in the port latch, with 0 for input lines.
 * Throws `ConditionError` if the board lacks the port, or if `in` follows a RAM port.
 * @param {NameNode} node
 * @param {Names} names
 * @param {Dependencies} dependencies
 * @returns {Value}
 */
function valueOfPort({ text, direction }, { board }, dependencies) {
  const port = text.toLowerCase();
  const place = parsePlace(port);
  if (!place || place.probesOn(board).length === 0) return fail(say.boardLacks(port));
  if (port.startsWith("ram") && direction === "in") fail(say.portSyntax(port));
  const rom = board.roms.find(({ chip }) => `rom${Number(chip)}` === place.name);
  const mask = rom ? [...rom.port] : [];
  const sumBits = (/** @type {string} */ mark) => mask.reduce((sum, bitMark, index) => sum + (bitMark === mark ? 2 ** (3 - index) : 0), 0);
  const [inputMask, constantOnes] = [sumBits("i"), sumBits("1")];
  const valueIndex = dependencies.addPlace(place.name);
  const read = (/** @type {string[]} */ values) => {
    const levels = parseInt(values[valueIndex], 16);
    return direction === "in" ? (levels & inputMask) | constantOnes : levels & ~inputMask;
  };
  return { name: `${place.name} ${direction}`, maxValue: 15, isConstant: false, read };
}

/**
 * Returns a hint about the probable meaning of an unknown word; "" if there is none.
 * @param {string} text
 */
export function hintFor(text) {
  if (/^r\d+$/i.test(text)) return say.REGISTERS_HINT;
  if (/^(ram|st)\b/i.test(text)) return say.RAM_PLACES_HINT;
  return /^(ram|rom)\d/i.test(text) ? say.PORTS_HINT : NAME_HINTS.get(text.toLowerCase()) || "";
}

/**
 * Returns a hint about an unknown name: the probable meaning, or similar names.
 * @param {string} text
 * @param {Names} names
 */
function suggestionFor(text, { map, watched, face }) {
  const hint = hintFor(text);
  if (hint) return hint;
  const knownNames = [...(map ? map.names.keys() : []), ...(watched ? watched.keys() : []), ...face.lampNumbers.keys()];
  const similarNames = findSimilarWords(text, knownNames);
  return similarNames.length > 0 ? say.suggestNames(similarNames.join(" ")) : say.PLACES_HINT;
}

/**
 * Throws `ConditionError` with a hint about an unknown name.
 * @param {string} text
 * @param {Names} names
 * @returns {never}
 */
function failForUnknownName(text, names) {
  return fail(say.noSuchPlaceMessage(text, suggestionFor(text, names)));
}

/**
 * Returns the value of a watch name, whose expression can contain other watch names. Throws `ConditionError` if they are nested too deeply,
 * or if the expression is a condition.
 * @param {string} name
 * @param {string} text the expression of the watch name
 * @param {Names} names
 * @param {Dependencies} dependencies
 * @returns {Value}
 */
function valueOfWatchName(name, text, names, dependencies) {
  if (dependencies.depth >= MAX_NAME_DEPTH) return fail(say.namesTooDeep(name, MAX_NAME_DEPTH));
  const node = parseExpression(text, (lamp) => names.face.lampNumbers.has(lamp));
  if (isCondition(node)) return fail(say.nameIsConditionMessage(name, text));
  dependencies.depth += 1;
  try {
    return { ...compileValue(node, names, dependencies), name };
  } catch (error) {
    // The new error has no column, because the column of `error` is relative to the expression, not to the condition.
    throw error instanceof ConditionError ? new ConditionError(say.errorInName(name, error.message)) : error;
  } finally {
    dependencies.depth -= 1;
  }
}

/**
 * Returns the value of a name or place; throws `ConditionError` if it is unknown.
 * @param {NameNode} node
 * @param {Names} names
 * @param {Dependencies} dependencies
 * @returns {Value}
 */
function valueOfName(node, names, dependencies) {
  const { text, direction } = node;
  const word = text.toLowerCase();
  if (direction !== "") return valueOfPort(node, names, dependencies);
  if (text.startsWith("@")) {
    const programName = findProgramName(text.slice(1), names.map);
    return constantValue(programName ? programName.value : fail(say.noLabelMessage(text.slice(1))));
  }
  if (word === "test" || word === "owed") return bitValue(word, dependencies.addPlace(word), Number);
  const place = valueOfPlace(parsePlace(text), names, dependencies);
  if (place) return place;
  const watchExpression = names.watched && names.watched.get(text);
  if (watchExpression !== undefined) return valueOfWatchName(text, watchExpression, names, dependencies);
  const programName = findProgramName(text, names.map);
  if (programName) return constantValue(programName.value);
  if (names.face.lampNumbers.has(text)) return valueOfLamp(text, names, dependencies);
  return valueOfPlace(placeByAlias(text), names, dependencies) || failForUnknownName(text, names);
}

/**
 * Returns the values of consecutive RAM nibbles, starting at a place. Throws `ConditionError` if the place is not a RAM nibble, or if the
 * board does not have all of the nibbles.
 * @param {NameNode} node
 * @param {number} count
 * @param {Names} names
 * @param {Dependencies} dependencies
 * @returns {Value[]}
 */
export function valuesOfNibbles({ text, column }, count, names, dependencies) {
  return withErrorColumn(column, () => {
    const place = parsePlace(text);
    const placeName = place ? place.name : "";
    const [, bank, byte] = /^ram\.(\d)\.0x(\w+)$/.exec(placeName) || fail(say.placeHasOneValueMessage(placeName || text));
    return Array.from({ length: count }, (_, index) => {
      const nibbleAddress = parseInt(byte, 16) + index;
      const nibblePlace = nibbleAddress <= LAST_NIBBLE ? parsePlace(`ram.${bank}.${nibbleAddress}`) : null;
      if (index > 0 && (!nibblePlace || nibblePlace.probesOn(names.board).length === 0)) fail(say.NO_RAM_FOR_LAST_CHARACTER);
      return valueOfPlace(nibblePlace || place, names, dependencies) || failForUnknownName(text, names);
    });
  });
}

/**
 * Returns the value of a sum, a difference or a bitwise AND.
 * @param {SumNode} node
 * @param {Names} names
 * @param {Dependencies} dependencies
 * @returns {Value}
 */
function valueOfSum({ sign, left, right, text }, names, dependencies) {
  const [first, second] = [compileValue(left, names, dependencies), compileValue(right, names, dependencies)];
  const isConstant = first.isConstant && second.isConstant;
  return { name: text, maxValue: Infinity, isConstant, read: (values) => OPERATIONS[sign](first.read(values), second.read(values)) };
}

/**
 * Returns the number of a constant value; throws `ConditionError` if the value depends on the machine state or contains an unknown name.
 * @param {ValueNode} node
 * @param {Names["map"]} map
 * @returns {number}
 */
export function evaluateConstant(node, map) {
  if (node.kind === "number") return node.value;
  if (node.kind === "sum") return OPERATIONS[node.sign](evaluateConstant(node.left, map), evaluateConstant(node.right, map));
  const programName = node.kind === "name" && node.direction === "" ? findProgramName(node.text.replace(/^@/, ""), map) : undefined;
  return programName ? programName.value : fail(map ? say.notAConstantMessage(node.text) : say.namesUnknownMessage(node.text), node.column);
}

/**
 * Compiles a value; throws `ConditionError` if the value has an error.
 * @param {ValueNode} node
 * @param {Names} names
 * @param {Dependencies} dependencies
 * @returns {Value}
 */
export function compileValue(node, names, dependencies) {
  return withErrorColumn(node.column, () => {
    if (node.kind === "number") return constantValue(node.value);
    if (node.kind === "sum") return valueOfSum(node, names, dependencies);
    if (node.kind === "name") return valueOfName(node, names, dependencies);
    return node.kind === "key" ? valueOfKey(node.text, names, dependencies) : valueOfLamp(node.text, names, dependencies);
  });
}

/**
 * Returns the result of `compile`. If `compile` throws `ConditionError` without a column, sets the column of the error.
 * @template Result
 * @param {number} column
 * @param {() => Result} compile
 * @returns {Result}
 */
export function withErrorColumn(column, compile) {
  try {
    return compile();
  } catch (error) {
    if (error instanceof ConditionError && error.column < 0) error.column = column;
    throw error;
  }
}
