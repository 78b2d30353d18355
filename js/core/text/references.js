// Finds the references to a name in a program: its definition and its uses. Also checks whether a definition can get a new name.

import { DIRECTIVES, MAX_NAME_LENGTH, NAME, PAIR, REGISTER, findDefinedNames, splitStatement, wordAt } from "./assembly.js";
import * as say from "../../words/text.js";

/**
 * A reference to a name: its line number (from 1) and its column range. `isDefinition` is true for the definition, false for a use.
 * @typedef {{ line: number, from: number, to: number, isDefinition: boolean }} Reference
 */

/**
 * Returns the references to a name in a line, ignoring the line's comment.
 * @param {string} text the text of the line
 * @param {number} line the line number from 1
 * @param {string} name
 * @returns {Reference[]}
 */
function findReferencesInLine(text, line, name) {
  const { label, operands } = splitStatement(text);
  const definitions = label && label.text === name ? [{ line, from: label.from, to: label.to, isDefinition: true }] : [];
  const uses = operands.filter((word) => word.text === name).map(({ from, to }) => ({ line, from, to, isDefinition: false }));
  return [...definitions, ...uses];
}

/**
 * Returns all references to a name, in text order.
 * @param {string[]} lines
 * @param {string} name
 * @returns {Reference[]}
 */
export function findReferences(lines, name) {
  return lines.flatMap((text, index) => findReferencesInLine(text, index + 1, name));
}

/**
 * Returns the name at a position; "" if there is no name that the program defines.
 * @param {string[]} lines
 * @param {number} line the line number from 0
 * @param {number} column
 */
export function nameAt(lines, line, column) {
  const text = lines[line] || "";
  const word = wordAt(text, column);
  const isProgramName = word !== null && findReferencesInLine(text, line + 1, word.text).some(({ from }) => from === word.from);
  return isProgramName && findDefinedNames(lines).has(word.text) ? word.text : "";
}

/**
 * Returns the definition of a name; null if the name is not defined.
 * @param {string[]} lines
 * @param {string} name
 */
export function findDefinition(lines, name) {
  return findReferences(lines, name).find(({ isDefinition }) => isDefinition) || null;
}

/**
 * Returns the reason why a definition cannot get a new name; "" if it can.
 * @param {string[]} lines
 * @param {string} name the current name
 * @param {string} newName
 * @param {(word: string) => boolean} isInstruction returns whether an upper-case word is an instruction
 */
export function findRenamingError(lines, name, newName, isInstruction) {
  const upperCaseName = newName.toUpperCase();
  if (!NAME.test(newName)) return say.NAME_RULE;
  if (newName.length > MAX_NAME_LENGTH) return say.newNameTooLongMessage(MAX_NAME_LENGTH, newName.length);
  const isReserved = isInstruction(upperCaseName) || upperCaseName === "WPM" || DIRECTIVES.includes(upperCaseName);
  if (isReserved) return say.nameIsInstructionMessage(newName);
  if (REGISTER.test(newName) || PAIR.test(newName)) return say.nameIsRegisterMessage(newName);
  const line = findDefinedNames(lines).get(newName);
  return newName !== name && line ? say.alreadyDefinedMessage(newName, line) : "";
}
