// Returns the help for words in programs and board texts. The help comes mainly from the manual's tables.

import { formatQuantity } from "../bench/numbers.js";
import { PAIR, REGISTER, findDefinedNames, splitStatement, wordAt } from "./assembly.js";
import { cellText, sectionRows } from "../help/manual.js";
import * as say from "../../words/text.js";

/**
 * @typedef {import("../help/manual.js").Instruction} Instruction
 * @typedef {import("../help/manual.js").ManualSection} ManualSection
 */

/**
 * Returns the help for an instruction: its form, its size in words and cycles, and its effect.
 * @param {Instruction} instruction
 */
export function describeInstruction(instruction) {
  const { form, byteCount, cycles } = instruction;
  const size = `${formatQuantity(Number(byteCount), "word")}, ${formatQuantity(Number(cycles), "cycle")}`;
  const effect = describeEffect(instruction);
  return `${form}: ${size}. ${effect[0].toUpperCase()}${effect.slice(1)}.`;
}

/**
 * Describes the effect of an instruction. If the manual's description does not mention the carry, adds that the carry does not change.
 * @param {Instruction} instruction
 */
export function describeEffect({ effect }) {
  return /\bCY\b|carry|borrow/.test(effect) ? effect : `${effect}${say.CARRY_UNCHANGED}`;
}

/**
 * Returns the help for a register or register pair.
 * @param {string} word
 */
export function describeRegister(word) {
  const number = Number(word.slice(1));
  if (PAIR.test(word)) return say.describePair(number, 2 * number, 2 * number + 1);
  return say.describeRegister(number, number % 2 === 0, Math.floor(number / 2));
}

/**
 * Returns the help for a directive; "" for any other word.
 * @param {string} word the word in upper case
 */
export function describeDirective(word) {
  if (word === "ORG") return say.ORG_HELP;
  return word === "DB" ? say.DB_HELP : "";
}

/**
 * Returns the help for the word at a position in a program; "" if there is none.
 * @param {string[]} lines
 * @param {number} line the line number from 0
 * @param {number} column
 * @param {Map<string, Instruction>} instructions
 * @param {(name: string) => string} meaningOf returns the description of a name; "" for none
 */
export function helpForProgram(lines, line, column, instructions, meaningOf) {
  const text = lines[line] || "";
  const word = wordAt(text, column);
  const { comment } = splitStatement(text);
  if (!word || word.from >= comment) return "";
  const upperCaseWord = word.text.toUpperCase();
  const instruction = instructions.get(upperCaseWord);
  if (instruction) return describeInstruction(instruction);
  if (describeDirective(upperCaseWord)) return describeDirective(upperCaseWord);
  if (REGISTER.test(word.text) || PAIR.test(word.text)) return describeRegister(word.text);
  const meaning = meaningOf(word.text);
  if (meaning) return meaning;
  const definitionLine = findDefinedNames(lines).get(word.text);
  return definitionLine ? say.definedInLine(word.text, definitionLine) : "";
}

/**
 * Returns the manual's descriptions of the values in board texts, by table and key.
 * @param {ManualSection[]} manual
 * @returns {Map<string, Map<string, string>>}
 */
export function readBoardTables(manual) {
  /** @type {Map<string, Map<string, string>>} */
  const tables = new Map();
  let keys = new Map();
  for (const [table, , names, values] of sectionRows(manual, say.TOML_KEYS_TITLE)) {
    if (table !== "") {
      keys = new Map();
      tables.set(cellText(table), keys);
    }
    for (const [, name] of names.matchAll(/`([^`]+)`/g)) keys.set(name, cellText(values));
  }
  return tables;
}

/**
 * Returns the name of the table that contains a line of a board text; "" before the first table. The opening bracket after `columns =`
 * starts an array and not a table.
 * @param {string[]} lines
 * @param {number} line the line number from 0
 */
export function tableAt(lines, line) {
  for (let lineIndex = line; lineIndex >= 0; lineIndex--) {
    const text = lines[lineIndex];
    const headerMatch = /^\s*\[+\s*([\w-]+)\s*\]+/.exec(text) || /^\s*(?!columns\b)([\w-]+)\s*=\s*(\[\s*$|\[?\s*\{)/.exec(text);
    if (headerMatch) return headerMatch[1];
  }
  return "";
}

/**
 * Returns the help for the word at a position in a board text; "" if there is none.
 * @param {string[]} lines
 * @param {number} line the line number from 0
 * @param {number} column
 * @param {Map<string, Map<string, string>>} tables the descriptions of the values, by table and key
 */
export function helpForBoard(lines, line, column, tables) {
  const word = wordAt(lines[line] || "", column);
  if (!word) return "";
  const table = tableAt(lines, line);
  const values = (tables.get(table) || new Map()).get(word.text);
  if (values) return say.describeKey(word.text, table, values);
  const keys = tables.get(word.text);
  return keys ? `${word.text}: ${[...keys.keys()].join(", ")}.` : "";
}
