// Explains why the bench rejects a program line: finds the wrong word and describes the expected form.

import { findSimilarWords, formatSuggestion } from "./similar_words.js";
import { LAST_ADDRESS } from "../bench/numbers.js";
import { DIRECTIVES, MAX_NAME_LENGTH, NAME, NUMBER, PAIR, REGISTER, splitStatement } from "./assembly.js";
import * as say from "../../words/text.js";

/**
 * @typedef {import("./assembly.js").Parts} Parts
 * @typedef {import("./assembly.js").Word} Word
 * @typedef {import("../help/manual.js").Instruction} Instruction
 *
 * The known words: the instructions by mnemonic, and the line numbers of the definitions by name.
 * @typedef {{ instructions: Map<string, Instruction>, names: Map<string, number> }} KnownWords
 *
 * An error in a line: the wrong word (null if there is none), the message, and replacements for the word that fix the error.
 * @typedef {{ word: Word | null, message: string, quickFixTexts?: string[] }} WordError
 */

/**
 * The operand kinds, by the letters that the manual uses for them. `description` is the text for an operand of the kind. `maxValue` is the
 * maximum value of such an operand; it is 0 for registers.
 * @type {Record<string, { description: string, maxValue: number }>}
 */
const OPERAND_KINDS = {
  Pk: { description: say.PAIR_OPERAND, maxValue: 0 },
  Rk: { description: say.REGISTER_OPERAND, maxValue: 0 },
  c: { description: say.CONDITION_OPERAND, maxValue: 15 },
  d: { description: say.VALUE_OPERAND, maxValue: 15 },
  b: { description: say.BYTE_OPERAND, maxValue: 255 },
  t: { description: say.ADDRESS_OPERAND, maxValue: LAST_ADDRESS },
};

/**
 * Returns the description of an operand kind.
 * @param {string} kind the letters that the manual uses for the kind
 */
export function describeOperand(kind) {
  return OPERAND_KINDS[kind].description;
}

/**
 * Converts a number from the syntax of another assembler to the bench's syntax. Returns the number and a message that explains the
 * difference; null for any other text.
 * @param {string} text
 * @returns {{ number: string, explanation: string } | null}
 */
function convertForeignNumber(text) {
  const hexMatch = /^(?:\$|0X|&H?|#\$)([0-9A-Fa-f]+)$/.exec(text) || /^([0-9][0-9A-Fa-f]*)[Hh]$/.exec(text);
  const binaryMatch = /^(?:0b|%)([01]+)$/i.exec(text) || /^([01]+)[Bb]$/.exec(text);
  const letter = /^(['"])(.)\1?$/.exec(text);
  const mark = /^#(\w+)$/.exec(text);
  const number = (hexMatch && `0x${hexMatch[1].toUpperCase()}`) || (binaryMatch && `${parseInt(binaryMatch[1], 2)}`)
    || (letter && `0x${letter[2].charCodeAt(0).toString(16).toUpperCase()}`) || (mark && mark[1]);
  if (!number) return null;
  if (hexMatch) return { number, explanation: say.hexadecimalHint(number) };
  if (binaryMatch) return { number, explanation: say.binaryHint(number) };
  if (letter) return { number, explanation: say.characterCodeHint(letter[2], number) };
  return { number, explanation: say.numberSignHint(number) };
}

/**
 * Returns the message for an operand that is not a number in the bench's syntax, such as a number in the syntax of another assembler, or an
 * expression. If no message fits the operand, returns "".
 * @param {string} text
 */
function describeNumberError(text) {
  const conversion = convertForeignNumber(text);
  if (conversion) return conversion.explanation;
  if (/^-\d+$/.test(text)) return say.NO_NEGATIVES;
  if (/[-+*/()<>]/.test(text)) return say.NO_EXPRESSIONS;
  if (/\s/.test(text)) return say.OPERAND_COMMA_MISSING;
  if (/^\d/.test(text)) return say.NUMBER_SYNTAX;
  return "";
}

/**
 * Returns a list with the replacement for a number in the syntax of another assembler; an empty list for any other text.
 * @param {string} text
 */
function findNumberFixes(text) {
  const conversion = convertForeignNumber(text);
  return conversion ? [conversion.number] : [];
}

/**
 * Creates an error, with replacements if there are any.
 * @param {Word | null} word the wrong word
 * @param {string} message
 * @param {string[]} quickFixTexts the replacements
 * @returns {WordError}
 */
function createError(word, message, quickFixTexts) {
  return quickFixTexts.length > 0 ? { word, message, quickFixTexts } : { word, message };
}

/**
 * Returns the reason why a word cannot be a name; "" if it can be one.
 * @param {string} text
 * @param {KnownWords} knownWords
 */
function describeNameError(text, { instructions }) {
  const upperCaseWord = text.toUpperCase();
  if (text.length > MAX_NAME_LENGTH) return say.nameTooLong(MAX_NAME_LENGTH, text.length);
  if (!NAME.test(text)) return say.NAME_SYNTAX;
  if (instructions.has(upperCaseWord)) return say.instructionAsNameMessage(text);
  if (upperCaseWord === "WPM" || DIRECTIVES.includes(upperCaseWord)) return say.cannotBeNameMessage(text);
  return REGISTER.test(text) || PAIR.test(text) ? say.registerAsNameMessage(text) : "";
}

/**
 * Returns the error in an operand; null if the operand has no error.
 * @param {string} head the mnemonic or directive
 * @param {string} kind the letters that the manual uses for the operand kind
 * @param {Word} word the operand
 * @param {KnownWords} knownWords
 * @param {boolean} isFirst true for the first operand of the statement
 * @returns {WordError | null}
 */
function findOperandError(head, kind, word, knownWords, isFirst) {
  const { description } = OPERAND_KINDS[kind];
  const expectation = isFirst ? say.operandExpected(head, description) : say.operandExpectedAfterComma(head, description);
  const { text } = word;
  if (kind === "Pk" && PAIR.test(text)) return null;
  if (kind === "Rk" && REGISTER.test(text)) return null;
  if (kind === "Pk" || kind === "Rk") {
    return { word, message: /\s/.test(text) ? `${expectation}; ${describeNumberError(text)}` : expectation };
  }
  if (NUMBER.test(text)) return null;
  const reason = text === "" || REGISTER.test(text) || PAIR.test(text) ? ""
    : describeNumberError(text) || describeNameError(text, knownWords);
  if (reason) return createError(word, `${expectation}; ${reason}`, findNumberFixes(text));
  return NAME.test(text) && !describeNameError(text, knownWords) ? null : { word, message: expectation };
}

/**
 * Returns the operand kinds of an instruction.
 * @param {string} form the form of the instruction, such as `JCN c, t`
 * @returns {string[]}
 */
export function parseOperandKinds(form) {
  const operandText = form.split(" ").slice(1).join(" ");
  return operandText === "" ? [] : operandText.split(", ");
}

/**
 * Returns the error in a statement whose first word is not an instruction.
 * @param {Parts} parts
 * @param {Word} head the first word of the statement
 * @param {KnownWords} knownWords
 * @returns {WordError}
 */
function findFirstWordError({ label, operands }, head, { instructions }) {
  const upperCaseWord = head.text.toUpperCase();
  if (upperCaseWord === "WPM") return { word: head, message: say.NO_WPM };
  const definition = operands.length === 1 && NAME.test(head.text) && /^(?:EQU|SET)\s+(.*)$/i.exec(operands[0].text);
  if (definition) {
    return { word: operands[0], message: say.definitionSyntax(head.text, definition[1]), quickFixTexts: [`= ${definition[1]}`] };
  }
  const replacement = say.OTHER_ASSEMBLER_WORDS.get(upperCaseWord);
  const isName = !label && NAME.test(head.text);
  if (isName && operands.length > 0 && canStartStatement(operands[0].text.split(/\s/)[0], instructions)) {
    return createError(head, say.noInstructionMessage(head.text, say.labelSyntax(head.text)), [`${head.text}:`]);
  }
  const hasNoOperands = isName && operands.length === 0;
  const similarWords = replacement ? [] : findSimilarWords(upperCaseWord, [...instructions.keys(), ...DIRECTIVES]);
  const questionText = replacement ? `; ${replacement}?` : formatSuggestion(similarWords);
  const message = say.noInstructionMessage(head.text, questionText || (hasNoOperands ? say.labelSyntax(head.text) : ""));
  const quickFixTexts = hasNoOperands && !questionText ? [`${head.text}:`] : similarWords;
  if (!replacement) return createError(head, message, quickFixTexts);
  const instructionTexts = replacement.split(" or ").filter((alternative) => /^[A-Z]+( \d+,?)?$/.test(alternative));
  return createError(head, message, instructionTexts.map(formatReplacement));
}

/**
 * Returns whether a statement can start with a word: an instruction or a directive, in upper or lower case.
 * @param {string} word
 * @param {KnownWords["instructions"]} instructions
 */
function canStartStatement(word, instructions) {
  const upperCaseWord = word.toUpperCase();
  return instructions.has(upperCaseWord) || DIRECTIVES.includes(upperCaseWord);
}

/**
 * Returns the text that replaces an instruction of another assembler. A JCN condition gets a comma, because an address follows it.
 * @param {string} instructionText the instruction in the bench's syntax, without an address
 */
function formatReplacement(instructionText) {
  return instructionText.startsWith("JCN ") ? `${instructionText},` : instructionText;
}

/**
 * Returns the error in a directive; null if there is none.
 * @param {Word} head the directive
 * @param {Word[]} operands
 * @param {KnownWords} knownWords
 * @returns {WordError | null}
 */
function findDirectiveError(head, operands, knownWords) {
  if (head.text.toUpperCase() === "ORG") {
    const isNumber = operands.length === 1 && NUMBER.test(operands[0].text);
    if (isNumber) return null;
    const reason = operands[0] && !NAME.test(operands[0].text) ? describeNumberError(operands[0].text) : "";
    const message = say.orgSyntax(reason && `; ${reason}`);
    return createError(operands[0] || head, message, reason ? findNumberFixes(operands[0].text) : []);
  }
  if (operands.length === 0) return { word: head, message: say.DB_SYNTAX };
  return operands.map((word) => findOperandError("DB", "b", word, knownWords, true)).find((error) => error !== null) || null;
}

/**
 * Returns the error in a line that the assembler rejects because of its form (refusal 30).
 * @param {Parts} parts
 * @param {KnownWords} knownWords
 * @returns {WordError | null}
 */
function findFormError(parts, knownWords) {
  const { label, defines, head, operands } = parts;
  const nameError = label && describeNameError(label.text, knownWords);
  if (nameError) return { word: label, message: nameError };
  if (defines) {
    const reason = operands[0] ? describeNumberError(operands[0].text) : "";
    const message = say.equalsSyntax(reason && `; ${reason}`);
    return createError(operands[0] || label, message, reason ? findNumberFixes(operands[0].text) : []);
  }
  if (!head) return { word: label, message: say.LABEL_NAME_MISSING };
  const upperCaseWord = head.text.toUpperCase();
  if (DIRECTIVES.includes(upperCaseWord)) return findDirectiveError(head, operands, knownWords);
  const instruction = knownWords.instructions.get(upperCaseWord);
  if (!instruction) return findFirstWordError(parts, head, knownWords);
  const kinds = parseOperandKinds(instruction.form);
  if (kinds.length === 0) return { word: operands[0] || head, message: say.takesNoOperand(upperCaseWord) };
  for (let index = 0; index < Math.min(kinds.length, operands.length); index++) {
    const error = findOperandError(upperCaseWord, kinds[index], operands[index], knownWords, index === 0);
    if (error) return error;
  }
  const extraOperand = operands[kinds.length];
  const expectation = kinds.map((kind) => OPERAND_KINDS[kind].description).join(say.OPERAND_SEPARATOR);
  return { word: extraOperand || head, message: say.operandCountMessage(upperCaseWord, expectation, Boolean(extraOperand)) };
}

/**
 * Returns the error in a line with an out-of-range value (refusal 33); null if no word can be identified as the cause.
 * @param {Parts} parts
 * @param {KnownWords} knownWords
 * @returns {WordError | null}
 */
function findValueError({ head, operands, defines, label }, { instructions }) {
  if (defines) return { word: operands[0] || label, message: say.NAME_VALUE_RANGE };
  if (!head) return null;
  const upperCaseWord = head.text.toUpperCase();
  const instruction = instructions.get(upperCaseWord);
  const kinds = instruction ? parseOperandKinds(instruction.form) : operands.map(() => (upperCaseWord === "ORG" ? "t" : "b"));
  const valueOperands = operands.map((word, index) => ({ word, kind: OPERAND_KINDS[kinds[index] || "b"] }))
    .filter(({ kind }) => kind.maxValue > 0);
  const tooLargeOperand = valueOperands.find(({ word, kind }) => NUMBER.test(word.text) && Number(word.text) > kind.maxValue);
  const namedOperand = valueOperands.find(({ word }) => NAME.test(word.text));
  const wrongOperand = tooLargeOperand || namedOperand;
  if (!wrongOperand) return null;
  const description = upperCaseWord === "ORG" ? say.ORG_ADDRESS : wrongOperand.kind.description;
  const note = tooLargeOperand ? "" : say.valueTooLargeNote(wrongOperand.word.text);
  return { word: wrongOperand.word, message: say.wrongOperandMessage(upperCaseWord, description, note) };
}

/**
 * Returns the last operand that is a name. If no operand is a name, returns the last operand; null if there are no operands.
 * @param {Parts} parts
 */
function findLastName({ operands }) {
  return [...operands].reverse().find(({ text }) => NAME.test(text)) || operands[operands.length - 1] || null;
}

/**
 * Returns the error in a line with an undefined name (refusal 32); null if no operand is an undefined name.
 * @param {Parts} parts
 * @param {KnownWords} knownWords
 * @returns {WordError | null}
 */
function findUnknownName({ operands }, { names }) {
  const word = operands.find(({ text }) => NAME.test(text) && !REGISTER.test(text) && !PAIR.test(text) && !names.has(text));
  if (!word) return null;
  const similarWords = findSimilarWords(word.text, names.keys());
  const isHex = /^[0-9A-Fa-f]+$/.test(word.text) && similarWords.length === 0;
  const quickFixTexts = isHex ? [`0x${word.text.toUpperCase()}`] : similarWords;
  const suggestion = quickFixTexts.length > 0 ? formatSuggestion(quickFixTexts) : "";
  return createError(word, say.notDefinedMessage(word.text, suggestion), quickFixTexts);
}

/**
 * Returns the error in a program line that the bench rejects; null if only the general message of the refusal applies.
 * @param {string} line
 * @param {number} number the refusal number
 * @param {KnownWords} knownWords
 * @returns {WordError | null}
 */
export function explainProgramLine(line, number, knownWords) {
  const parts = splitStatement(line);
  if (number === 30) return findFormError(parts, knownWords);
  if (number === 31 && parts.label) {
    return { word: parts.label, message: say.alreadyDefinedOnLine(parts.label.text, knownWords.names.get(parts.label.text)) };
  }
  if (number === 32) return findUnknownName(parts, knownWords);
  if (number === 33) return findValueError(parts, knownWords);
  if (number === 34 && parts.head) {
    const word = findLastName(parts);
    const head = parts.head.text.toUpperCase();
    return { word, message: say.otherPageMessage(word ? word.text : say.IT, head) };
  }
  if (number === 35) return { word: parts.head, message: say.ADDRESS_ALREADY_FILLED };
  return null;
}
