// Creates the signature help that an editor shows while the user types operands: the form of the statement, and the current operand.

import { splitStatement } from "../text/assembly.js";
import { parseOperandKinds, describeOperand } from "../text/program_words.js";
import { describeDirective, describeInstruction } from "../text/text_help.js";

/**
 * @typedef {import("../help/manual.js").Instruction} Instruction
 * @typedef {import("./language.js").Signature} Signature
 * @typedef {import("./language.js").SignatureHelp} SignatureHelp
 */

/**
 * Returns a signature with the column ranges of its operands.
 * @param {string} label the form of the statement
 * @param {string} documentation
 * @param {{ operand: string, description: string }[]} operands
 * @returns {Signature}
 */
function createSignature(label, documentation, operands) {
  let column = label.indexOf(" ");
  const parameters = operands.map(({ operand, description }) => {
    const from = label.indexOf(operand, column + 1);
    column = from + operand.length;
    return { label: /** @type {[number, number]} */ ([from, column]), documentation: description };
  });
  return { label, documentation, parameters };
}

/**
 * Returns the signature of a directive.
 * @param {string} description the description of the directive, which starts with its form and a colon
 * @param {string} kind the kind of operand, as the letter that instruction forms use
 */
function createDirectiveSignature(description, kind) {
  const form = description.split(":")[0];
  return createSignature(form, description, [{ operand: form.slice(form.indexOf(" ") + 1), description: describeOperand(kind) }]);
}

/**
 * Returns the signature of a statement; null if the statement is unknown or has no operands.
 * @param {string} head the upper-case mnemonic or directive
 * @param {Map<string, Instruction>} instructions
 */
function createStatementSignature(head, instructions) {
  if (describeDirective(head)) return createDirectiveSignature(describeDirective(head), head === "ORG" ? "t" : "b");
  const instruction = instructions.get(head);
  const operandKinds = instruction ? parseOperandKinds(instruction.form) : [];
  if (!instruction || operandKinds.length === 0) return null;
  const operands = operandKinds.map((operand) => ({ operand, description: describeOperand(operand) }));
  return createSignature(instruction.form, describeInstruction(instruction), operands);
}

/**
 * Returns the signature of the statement at a column, and the index of the operand at that column; null if there is none.
 * @param {string} line
 * @param {number} column the column of the caret
 * @param {Map<string, Instruction>} instructions
 * @returns {SignatureHelp | null}
 */
export function signatureAt(line, column, instructions) {
  const textBefore = line.slice(0, column);
  const { head, comment: commentStart } = splitStatement(textBefore);
  if (!head || head.to === column || commentStart < textBefore.length) return null;
  const signature = createStatementSignature(head.text.toUpperCase(), instructions);
  if (!signature) return null;
  const commaCount = textBefore.slice(head.to).split(",").length - 1;
  const hasOperandList = head.text.toUpperCase() === "DB";
  if (commaCount >= signature.parameters.length && !hasOperandList) return null;
  return { signatures: [signature], activeSignature: 0, activeParameter: hasOperandList ? 0 : commaCount };
}
