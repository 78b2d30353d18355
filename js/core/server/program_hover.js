// Creates the hover text for a word in a program. For an instruction, the text is the manual's description; for a name, the meaning of the
// name and its comment. The address of the line follows.

import { NUMBER, findDefinedNames, splitStatement, wordAt } from "../text/assembly.js";
import { parseOperandKinds } from "../text/program_words.js";
import { describeEffect, helpForProgram } from "../text/text_help.js";
import { formatBlock, formatCode, escapeMarkdown, formatTable } from "./markdown.js";
import { rangeInLine } from "./lsp_protocol.js";
import * as say from "../../words/server.js";

/**
 * @typedef {import("../help/manual.js").Instruction} Instruction
 * @typedef {import("../text/assembly.js").Word} Word
 * @typedef {import("./language.js").Hover} Hover
 * @typedef {import("./lsp_protocol.js").Position} Position
 *
 * The data for a hover. `instructions` and `conditions` are the manual's instructions and JCN conditions. `meaningOf` and `valueOf` return
 * the meaning and the value of a name. `describeLine` returns the address, bytes and cycles of a line as text, "" if the line has no
 * address.
 * @typedef {{ instructions: Map<string, Instruction>, conditions: Map<number, string>, meaningOf: (name: string) => string,
 *   valueOf: (name: string) => number | undefined, describeLine: (line: number) => string }} HoverContext
 */

/** The maximum number of comment lines that a hover shows for a name. */
const MAX_COMMENT_LINES = 12;

/**
 * Returns the comment that describes a name: the comment lines above a label, and the comment on the line of the definition. Returns an
 * empty list if the name is not defined.
 * @param {string[]} lines
 * @param {string} name
 * @returns {string[]}
 */
export function findNameComment(lines, name) {
  const line = findDefinedNames(lines).get(name);
  if (line === undefined) return [];
  const { comment, defines } = splitStatement(lines[line - 1]);
  let commentStart = line - 1;
  const isCommentLine = (/** @type {string} */ text) => text.trimStart().startsWith(";");
  while (!defines && commentStart > 0 && line - commentStart <= MAX_COMMENT_LINES && isCommentLine(lines[commentStart - 1])) {
    commentStart -= 1;
  }
  const commentLines = [...lines.slice(commentStart, line - 1), lines[line - 1].slice(comment)]
    .map((commentLine) => commentLine.trim().replace(/^;+ ?/, ""));
  return commentLines[commentLines.length - 1] === "" ? commentLines.slice(0, -1) : commentLines;
}

/**
 * Returns the meaning of a word that is a JCN condition; "" for any other word.
 * @param {string} text the text of the line
 * @param {Word} word
 * @param {HoverContext} context
 */
function describeCondition(text, word, { instructions, conditions, valueOf }) {
  const { head, operands } = splitStatement(text);
  const instruction = head && instructions.get(head.text.toUpperCase());
  const operandIndex = operands.findIndex(({ from }) => from === word.from);
  if (!instruction || parseOperandKinds(instruction.form)[operandIndex] !== "c") return "";
  const value = NUMBER.test(word.text) ? Number(word.text) : valueOf(word.text);
  const meaning = value === undefined ? undefined : conditions.get(value);
  return meaning && value !== undefined ? say.conditionIs(value, meaning) : "";
}

/**
 * Returns a Markdown table with the manual's description of an instruction.
 * @param {Instruction} instruction
 */
function formatInstructionTable(instruction) {
  const { form, code, byteCount, cycles } = instruction;
  const effect = escapeMarkdown(describeEffect(instruction));
  return formatTable(say.INSTRUCTION_HEADINGS, [[formatCode(form), formatCode(code), byteCount, cycles, effect]]);
}

/**
 * Returns the hover at a position in a program; null if there is none.
 * @param {string[]} lines
 * @param {Position} position
 * @param {HoverContext} context
 * @returns {Hover | null}
 */
export function createProgramHover(lines, { line, character }, context) {
  const text = lines[line];
  if (character > splitStatement(text).comment) return null;
  const helpText = helpForProgram(lines, line, character, context.instructions, context.meaningOf);
  const word = wordAt(text, character);
  const condition = word ? describeCondition(text, word, context) : "";
  const lineDescription = context.describeLine(line + 1);
  const instruction = word && context.instructions.get(word.text.toUpperCase());
  const comment = word && !instruction ? findNameComment(lines, word.text) : [];
  const markdown = [
    instruction ? formatInstructionTable(instruction) : escapeMarkdown(helpText), escapeMarkdown(condition),
    comment.length > 0 ? formatBlock(comment) : "", escapeMarkdown(lineDescription),
  ].filter((paragraph) => paragraph !== "").join("\n\n");
  const range = word && (helpText !== "" || condition !== "") ? { range: rangeInLine(line + 1, word.from, word.to) } : {};
  const plainTexts = [helpText, condition, comment.join("\n"), lineDescription].filter((plainText) => plainText !== "");
  return plainTexts.length === 0 ? null : { plainText: plainTexts.join("\n\n"), markdown, ...range };
}
