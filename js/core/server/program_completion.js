// Completes words in a program: mnemonics, directives, registers, names and JCN conditions.

import { DIRECTIVES, findDefinedNames, splitStatement } from "../text/assembly.js";
import { completeProgram } from "../text/completion.js";
import { parseOperandKinds } from "../text/program_words.js";
import { describeDirective, describeInstruction, describeRegister } from "../text/text_help.js";

/**
 * @typedef {import("../help/manual.js").Instruction} Instruction
 * @typedef {import("./language.js").CompletedWord} CompletedWord
 * @typedef {import("./lsp_protocol.js").Position} Position
 *
 * The context of a completion: the manual's instructions and JCN conditions, and the meanings of program names.
 * @typedef {{ instructions: Map<string, Instruction>, conditions: Map<number, string>,
 *   meaningOf: (name: string) => string }} CompletionContext
 */

/**
 * The protocol's numbers for the completion kinds `Function` (labels), `Variable` (registers), `Keyword`, `Constant` and `Value` (JCN
 * conditions).
 */
const FUNCTION_COMPLETION = 3;
const VARIABLE_COMPLETION = 6;
const KEYWORD_COMPLETION = 14;
const CONSTANT_COMPLETION = 21;
const VALUE_COMPLETION = 12;

/**
 * Returns the condition numbers that complete the operand of a JCN; an empty list if the operand at the caret is not a condition.
 * @param {string} textBefore the line up to the caret
 * @param {CompletionContext} context
 * @returns {CompletedWord[]}
 */
function findConditions(textBefore, { instructions, conditions }) {
  const { head } = splitStatement(textBefore);
  const instruction = head && head.to < textBefore.length && instructions.get(head.text.toUpperCase());
  if (!instruction || parseOperandKinds(instruction.form)[0] !== "c" || textBefore.slice(head.to).includes(",")) return [];
  const typedText = textBefore.slice(head.to).trimStart();
  const allConditions = [...conditions].map(([number, description]) => ({ text: String(number), description, kind: VALUE_COMPLETION }));
  return allConditions.filter(({ text }) => text.startsWith(typedText));
}

/**
 * Returns whether the caret is in the operands of a statement. A typed blank triggers completion only in operands, so that the indentation
 * of a line does not trigger completion.
 * @param {string} textBefore the line up to the caret
 */
function isInOperands(textBefore) {
  const { head, comment } = splitStatement(textBefore);
  return head !== null && head.to < textBefore.length && comment === textBefore.length;
}

/**
 * Returns the completion at a position in a program.
 * @param {string[]} lines
 * @param {Position} position
 * @param {string} trigger the typed character that triggered the request, "" for none
 * @param {CompletionContext} context
 */
export function createProgramCompletion(lines, { line, character }, trigger, context) {
  const textBefore = lines[line].slice(0, character);
  if (trigger !== "" && !isInOperands(textBefore)) return { from: character, to: character, list: [] };
  const completion = completeProgram(lines, line, character, context.instructions);
  const names = findDefinedNames(lines);
  /** @type {(text: string) => CompletedWord} */
  const createCompletedWord = (text) => {
    const instruction = context.instructions.get(text);
    if (instruction) return { text, description: "", kind: KEYWORD_COMPLETION, documentation: describeInstruction(instruction) };
    if (DIRECTIVES.includes(text)) return { text, description: "", kind: KEYWORD_COMPLETION, documentation: describeDirective(text) };
    if (/^[PR]\d+$/.test(text)) return { text, description: describeRegister(text), kind: VARIABLE_COMPLETION };
    const isLabel = !splitStatement(lines[(names.get(text) || 1) - 1]).defines;
    return { text, description: context.meaningOf(text), kind: isLabel ? FUNCTION_COMPLETION : CONSTANT_COMPLETION };
  };
  const completions = completion.list.map(({ text, description }) => (
    { ...createCompletedWord(text), ...(description ? { description } : {}) }));
  return { ...completion, list: [...findConditions(textBefore, context), ...completions] };
}
