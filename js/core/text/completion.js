// Completes the word before the caret in a program.

import { DIRECTIVES, findDefinedNames, splitStatement } from "./assembly.js";
import { parseOperandKinds } from "./program_words.js";

/**
 * @typedef {import("../help/manual.js").Instruction} Instruction
 *
 * A completion: the word (`text`) and its description (`description`), "" for none.
 * @typedef {{ text: string, description: string }} CompletionItem
 *
 * A list of completions, and the range in the line that a chosen completion replaces.
 * @typedef {{ from: number, to: number, list: CompletionItem[] }} Completion
 */

/** The maximum number of completions in a list. */
const MAX_COMPLETIONS = 60;
/** The gap between the form of an instruction and its description. */
const GAP = "   ";
const REGISTERS = [...Array(16).keys()].map((number) => `R${number}`);
const PAIRS = [...Array(8).keys()].map((number) => `P${number}`);

/**
 * Converts words to completions without a description.
 * @param {string[]} words
 * @returns {CompletionItem[]}
 */
export function toCompletions(words) {
  return words.map((text) => ({ text, description: "" }));
}

/**
 * Returns the completions that start with the typed part of a word. Ignores case, and omits a completion that equals the typed part.
 * @param {string} line
 * @param {number} column the column of the caret
 * @param {CompletionItem[]} words the possible completions
 * @param {RegExp} typedPattern matches the typed part of the word at the end of the text before the caret
 * @returns {Completion}
 */
export function filterCompletions(line, column, words, typedPattern = /\w*$/) {
  const match = typedPattern.exec(line.slice(0, column));
  const typedText = match ? match[0] : "";
  const lowerCaseText = typedText.toLowerCase();
  const matchingWords = words.filter(({ text }) => text.toLowerCase().startsWith(lowerCaseText) && text !== typedText)
    .slice(0, MAX_COMPLETIONS);
  return { from: column - typedText.length, to: column, list: matchingWords };
}

/**
 * Returns the completions at a position in a program.
 * @param {string[]} lines
 * @param {number} line the line number from 0
 * @param {number} column
 * @param {Map<string, Instruction>} instructions
 * @returns {Completion}
 */
export function completeProgram(lines, line, column, instructions) {
  const text = lines[line];
  const textBefore = text.slice(0, column);
  const { head, comment } = splitStatement(textBefore);
  if (comment < textBefore.length) return { from: column, to: column, list: [] };
  // The line is cut at the caret. Otherwise, the name that the user is typing would complete itself.
  const names = findDefinedNames(lines.map((lineText, number) => (number === line ? textBefore : lineText)));
  if (!head || head.to === column) {
    const mnemonics = [...instructions].map(([name, { form, effect }]) => (
      { text: name, description: form.slice(name.length) + GAP + effect }));
    return filterCompletions(text, column, [...mnemonics, ...toCompletions(DIRECTIVES)]);
  }
  const instruction = instructions.get(head.text.toUpperCase());
  const kinds = instruction ? parseOperandKinds(instruction.form) : [];
  const kind = kinds[textBefore.slice(head.to).split(",").length - 1] || "";
  if (kind === "Pk") return filterCompletions(text, column, toCompletions(PAIRS));
  if (kind === "Rk") return filterCompletions(text, column, toCompletions(REGISTERS));
  if (kind === "" && head.text.toUpperCase() !== "DB") return { from: column, to: column, list: [] };
  return filterCompletions(text, column, toCompletions([...names.keys()]));
}
