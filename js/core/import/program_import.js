// Converts a program from the syntax of Intel's assembler or of the AS macro assembler to the bench's syntax, line by line. Several passes
// over the lines compute the values of the program's names. A last pass then converts the lines.

import { LAST_ADDRESS, hex } from "../bench/numbers.js";
import { MAX_NAME_LENGTH } from "../text/assembly.js";
import { evaluate, isAscii } from "./expressions.js";
import {
  BYTE_DIRECTIVES, MAX_CODE_LENGTH, INSTRUCTIONS_OF_4040, OPERAND_KINDS, PROGRAM_RAM_MNEMONIC, COMMENTED_DIRECTIVES, RESERVE_DIRECTIVES,
  UNSUPPORTED_DIRECTIVES, toAsciiUpperCase, splitList, extractQuotedCharacters, readSource, trimBlanks,
} from "./source_lines.js";
import * as say from "../../words/import.js";

/**
 * @typedef {import("./source_lines.js").SourceLine} SourceLine
 * @typedef {import("./source_lines.js").OperandKind} OperandKind
 *
 * An error in a line; `line` counts from 1.
 * @typedef {{ line: number, words: string }} ImportError
 *
 * The rules for the value of an operand. `from` and `to` are its lowest and highest value. Negative numbers down to -`modulus` / 2 are
 * allowed, and `modulus` is added to them. If `modulus` is 0, negative numbers are not allowed. `requiresNumber` is true if the output must
 * contain the value of a name instead of the name.
 * @typedef {{ from?: number, to: number, modulus?: number, requiresNumber?: boolean }} OperandRules
 */

/** The maximum number of passes that compute the values of names. */
const MAX_PASSES = 20;
/** The number of possible values of a nibble, and of a byte. */
const NIBBLE_VALUE_COUNT = 16;
const BYTE_VALUE_COUNT = 256;
/** The columns at which statements and comments start in the output, counted from 0. */
const COLUMNS = { statement: 8, comment: 24 };
/** Matches names that are reserved words in the bench's syntax. */
const RESERVED_WORD = /^(ORG|DB|WPM|R[0-9]|R1[0-5]|P[0-7])$/;
const NAME = /^[A-Za-z_.?@][A-Za-z0-9_.?@$]*$/;
/** Matches numbers whose original spelling needs no comment in the output. */
const PLAIN_NUMBER = /^([0-9]+|[0-9][0-9A-Fa-f]*[hH]|(0[xX]|[$%])[0-9A-Fa-f]+)$/;
/** @type {Map<string, number>} the JCN condition numbers, by condition name */
const CONDITIONS = new Map(Object.entries({ TZ: 1, T0: 1, TN: 9, T1: 9, CN: 2, C1: 2, CZ: 10, C0: 10, AZ: 4, AN: 12 }));
/** The bit of a JCN condition number that inverts the condition. */
const INVERTING_BIT = 8;
/** @type {Record<string, number>} the bits of a JCN condition number, by the letter for the condition */
const CONDITION_BITS = { Z: 4, C: 2, T: 1 };

/** The error that is thrown for a line that cannot be converted. */
class LineError extends Error {}

/**
 * Pads text with blanks to a column. If the text already reaches the column, appends one blank.
 * @param {string} text
 * @param {number} column
 */
function padToColumn(text, column) {
  return text.length < column ? text.padEnd(column) : `${text} `;
}

/** The conversion of one program. The methods for parts of a line throw LineError if a part cannot be converted. */
class ProgramImport {
  /** @param {string[]} texts the lines of the source */
  constructor(texts) {
    this.lines = readSource(texts);
    /** @type {ImportError[]} */
    this.errors = [];
    /** @type {Map<string, number>} the number of the line that defines each name, by upper-case name */
    this.definingLines = new Map();
    /** @type {Map<string, number>} the value of each name, by upper-case name */
    this.values = new Map();
    /** @type {Map<string, string>} the spelling of each name in the output, by upper-case name */
    this.names = new Map();
    /** True if the program has the directive CPU, as programs for the AS macro assembler do. */
    this.isForAsAssembler = this.lines.some(({ word }) => word === "CPU");
    /** The address of the line that the import currently converts. */
    this.address = 0;
    /** @type {string[]} the original expressions that the comment of the current line repeats */
    this.originalTexts = [];
    /** @type {import("./expressions.js").NameValues} */
    this.nameValues = { isDefined: (name) => this.definingLines.has(name), valueOf: (name) => this.values.get(name) };
  }

  /** Converts the program. Returns the output lines; an empty list if a name is defined twice or a line is too long. */
  convertLines() {
    this.lines.forEach((line, index) => this.recordDefinition(line, index + 1));
    if (this.errors.length > 0) return [];
    this.chooseSpellings();
    let passesLeft = MAX_PASSES;
    // The value of a name can depend on later lines, so the passes are repeated until no value changes, at most MAX_PASSES times.
    while (passesLeft > 0 && this.computeValues()) passesLeft -= 1;
    return this.lines.map((line, index) => this.attemptLine(index + 1, () => this.formatOutputLine(line), ""));
  }

  /**
   * Calls a function and returns its result. If the function throws a LineError, records the error and returns `fallback`.
   * @template Result
   * @param {number} line
   * @param {() => Result} convert
   * @param {Result} fallback
   */
  attemptLine(line, convert, fallback) {
    try {
      return convert();
    } catch (error) {
      if (!(error instanceof LineError)) throw error;
      this.errors.push({ line, words: error.message });
      return fallback;
    }
  }

  // --- names ---

  /**
   * If a line defines a name, records the number of the line.
   * @param {SourceLine} line
   * @param {number} number the line number
   */
  recordDefinition({ label, isLong }, number) {
    this.attemptLine(number, () => {
      if (isLong) throw new LineError(say.lineTooLongMessage(MAX_CODE_LENGTH));
      if (label === "") return;
      const name = toAsciiUpperCase(label);
      const definingLine = this.definingLines.get(name);
      if (definingLine !== undefined) throw new LineError(say.alsoDefinedOnLine(label, definingLine));
      this.definingLines.set(name, number);
    }, undefined);
  }

  /**
   * Chooses the spelling of each name in the output. This is the original spelling, unless the bench rejects that spelling or another name
   * uses it.
   */
  chooseSpellings() {
    const usedSpellings = new Set();
    /** @type {Map<string, number>} the next number to append to a spelling that is already in use, by spelling */
    const nextNumbers = new Map();
    for (const [name, line] of this.definingLines) {
      const plainLabel = this.lines[line - 1].label.replace(/[^A-Za-z0-9_]/g, "_").replace(/^(?=[0-9])/, "_");
      const isReserved = OPERAND_KINDS.has(toAsciiUpperCase(plainLabel)) || RESERVED_WORD.test(toAsciiUpperCase(plainLabel));
      const baseSpelling = (isReserved ? `${plainLabel}_` : plainLabel).slice(0, MAX_NAME_LENGTH);
      let spelling = baseSpelling;
      for (let number = nextNumbers.get(baseSpelling) || 2; usedSpellings.has(spelling); number++) {
        spelling = `${baseSpelling.slice(0, MAX_NAME_LENGTH - `_${number}`.length)}_${number}`;
        nextNumbers.set(baseSpelling, number + 1);
      }
      usedSpellings.add(spelling);
      this.names.set(name, spelling);
    }
  }

  // --- values ---

  /**
   * Evaluates an expression in the program.
   * @param {string} text
   * @param {number} address the address of the line
   */
  evaluateText(text, address) {
    return evaluate(text, address, this.nameValues);
  }

  /** Computes the values of the names in one pass over the lines. Returns whether any value has changed. */
  computeValues() {
    let [address, hasChanged] = [0, false];
    for (const line of this.lines) {
      const { value, isKnown } = line.word === "EQU" ? this.evaluateText(line.operand, address) : { value: address, isKnown: true };
      const name = toAsciiUpperCase(line.label);
      if (name !== "" && isKnown && this.values.get(name) !== value) {
        this.values.set(name, value);
        hasChanged = true;
      }
      address = this.findAddressAfter(line, address);
    }
    return hasChanged;
  }

  /**
   * Returns the address after a line.
   * @param {SourceLine} line
   * @param {number} address the address of the line
   */
  findAddressAfter({ word, operand }, address) {
    if (word === "ORG" || word === "ALIGN" || RESERVE_DIRECTIVES.has(word)) {
      const { value, isKnown } = this.evaluateText(operand, address);
      if (!isKnown) return address;
      if (word === "ORG") return value;
      if (word !== "ALIGN") return address + value;
      return value > 0 ? Math.trunc((address + value - 1) / value) * value : address;
    }
    if (BYTE_DIRECTIVES.has(word)) {
      return splitList(operand).reduce((sum, part) => sum + (extractQuotedCharacters(part) || " ").length, address);
    }
    const kinds = OPERAND_KINDS.get(word);
    return kinds ? address + (kinds.length > 1 || kinds.includes("target") ? 2 : 1) : address;
  }

  // --- lines ---

  /**
   * Returns the output line with its comment. Throws LineError if the line cannot be converted.
   * @param {SourceLine} line
   */
  formatOutputLine(line) {
    const { text, label, word, comment } = line;
    this.originalTexts = [];
    let output = "";
    try {
      output = this.formatStatementLine(line);
    } finally {
      this.address = this.findAddressAfter(line, this.address);
    }
    const originalTexts = this.originalTexts.join(", ");
    const note = originalTexts === "" ? comment : ` ${originalTexts}${comment && ` ;${comment}`}`;
    if (note === "") return word === "" && label === "" && /^[ \t]*[;*/]/.test(text) ? ";" : output;
    return `${output === "" ? "" : padToColumn(output, COLUMNS.comment)};${note}`;
  }

  /**
   * Returns the output line without its comment.
   * @param {SourceLine} line
   */
  formatStatementLine({ label, word, operand }) {
    const name = this.names.get(toAsciiUpperCase(label)) || "";
    if (word === "EQU") return `${name} = ${this.convertExpression(operand, { to: LAST_ADDRESS, requiresNumber: true })}`;
    const statement = this.convertStatement(word, operand);
    const labelText = name === "" ? "" : `${name}:`;
    return statement === "" ? labelText : padToColumn(labelText, COLUMNS.statement) + statement;
  }

  /**
   * Converts a statement. Returns "" for a directive that becomes a comment. Throws LineError if the statement cannot be converted.
   * @param {string} word the mnemonic or directive
   * @param {string} operand the text of all operands
   */
  convertStatement(word, operand) {
    if (word === "" || word === "END" || COMMENTED_DIRECTIVES.has(word)) {
      if (word !== "") this.originalTexts = [trimBlanks(`${word} ${operand}`)];
      return "";
    }
    if (INSTRUCTIONS_OF_4040.has(word)) throw new LineError(say.instructionOf4040(word));
    if (word === PROGRAM_RAM_MNEMONIC) throw new LineError(say.NO_PROGRAM_RAM);
    if (UNSUPPORTED_DIRECTIVES.has(word)) throw new LineError(say.notSupportedMessage(word));
    if (word === "ORG") return `ORG ${this.convertExpression(operand, { to: LAST_ADDRESS, requiresNumber: true })}`;
    if (word === "ALIGN" || RESERVE_DIRECTIVES.has(word)) return this.convertReservation(word, operand);
    if (BYTE_DIRECTIVES.has(word)) return `DB ${this.convertBytes(operand)}`;
    const kinds = OPERAND_KINDS.get(word);
    if (!kinds) throw new LineError(say.noInstructionMessage(word));
    return this.convertInstruction(word, operand, kinds);
  }

  /**
   * Returns the ORG statement that replaces a directive that reserves bytes or aligns the address.
   * @param {string} word
   * @param {string} operand
   */
  convertReservation(word, operand) {
    this.convertExpression(operand, { to: LAST_ADDRESS + 1, requiresNumber: true });
    this.originalTexts = [`${word} ${operand}`];
    const nextAddress = this.findAddressAfter({ text: "", label: "", word, operand, comment: "", isLong: false }, this.address);
    if (nextAddress > LAST_ADDRESS) throw new LineError(say.PAST_LAST_ADDRESS);
    return `ORG 0x${hex(nextAddress, 3)}`;
  }

  /**
   * Converts the operands of a directive that defines bytes.
   * @param {string} list
   */
  convertBytes(list) {
    const parts = splitList(list);
    if (parts.length === 0) throw new LineError(say.NO_VALUES);
    return parts.flatMap((part) => {
      const characters = extractQuotedCharacters(part);
      if (characters === null) return [this.convertExpression(part, { to: BYTE_VALUE_COUNT - 1, modulus: BYTE_VALUE_COUNT })];
      if (!isAscii(characters)) throw new LineError(say.notAsciiMessage(part));
      return [...characters].map((character) => `0x${hex(character.charCodeAt(0), 2)}`);
    }).join(", ");
  }

  /**
   * Returns an instruction with its operands in the bench's syntax.
   * @param {string} word the mnemonic
   * @param {string} operand the text of all operands
   * @param {OperandKind[]} kinds
   */
  convertInstruction(word, operand, kinds) {
    let parts = splitList(operand);
    // Two operands can be separated by blanks instead of a comma.
    const operandPair = kinds.length > 1 && parts.length === 1 ? /^([^ \t]+)[ \t]+(.+)$/.exec(operand) : null;
    if (operandPair) parts = [operandPair[1], operandPair[2]];
    if (word === "BBL" && parts.length === 0) parts = ["0"];
    if (parts.length !== kinds.length) throw new LineError(say.wrongOperandCountMessage(word, kinds.length));
    return [word, kinds.map((kind, index) => this.convertOperand(kind, parts[index])).join(", ")].filter(Boolean).join(" ");
  }

  /**
   * Converts one operand of an instruction.
   * @param {OperandKind} kind
   * @param {string} text
   */
  convertOperand(kind, text) {
    switch (kind) {
      case "register": return this.convertRegister(text);
      case "pair": return this.convertPair(text);
      case "condition": return this.convertCondition(text);
      case "digit": return this.convertExpression(text, { to: NIBBLE_VALUE_COUNT - 1, modulus: NIBBLE_VALUE_COUNT });
      case "byte": return this.convertExpression(text, { to: BYTE_VALUE_COUNT - 1, modulus: BYTE_VALUE_COUNT });
      default: return this.convertExpression(text, { to: LAST_ADDRESS });
    }
  }

  /**
   * Converts an operand that is a name, a number or an expression. A name remains a name, unless `requiresNumber` is true. An expression
   * becomes a number, and the comment of the line repeats the original expression.
   * @param {string} text
   * @param {OperandRules} rules
   */
  convertExpression(text, { from = 0, to, modulus = 0, requiresNumber = false }) {
    const { value, isKnown, error } = this.evaluateText(text, this.address);
    if (error) throw new LineError(error);
    if (!isKnown) throw new LineError(say.dependsOnItself(text));
    // A negative number becomes its two's complement.
    const number = modulus > 0 && value < 0 && value >= -modulus / 2 ? value + modulus : value;
    if (!(number >= from && number <= to)) throw new LineError(say.outOfRange(text, number, from, to));
    if (NAME.test(text) && !requiresNumber) return this.names.get(toAsciiUpperCase(text)) || "";
    if (!PLAIN_NUMBER.test(text)) this.originalTexts.push(text);
    if (/^[0-9]+$/.test(text) || to < NIBBLE_VALUE_COUNT || (requiresNumber && number < 10)) return String(number);
    return `0x${hex(number, number > BYTE_VALUE_COUNT - 1 || (to > BYTE_VALUE_COUNT - 1 && !requiresNumber) ? 3 : 2)}`;
  }

  /**
   * Converts a register operand.
   * @param {string} text
   */
  convertRegister(text) {
    const word = toAsciiUpperCase(text);
    if (/^R([0-9]|1[0-5])$/.test(word) && !this.definingLines.has(word)) return word;
    // The operand can be a name for the number of a register, as in `COUNT EQU 5`.
    return `R${this.convertExpression(text, { to: NIBBLE_VALUE_COUNT - 1, requiresNumber: true })}`;
  }

  /**
   * Converts a register pair, such as `2P`, `R4R5` or `4<`.
   * @param {string} text
   */
  convertPair(text) {
    const word = toAsciiUpperCase(text);
    const [, number] = /^([0-7])P$/.exec(word) || /^R?P([0-7])$/.exec(word) || [];
    if (number !== undefined) return `P${number}`;
    const [, first = "", mark = ""] = /^R([0-9]+)(?:R[0-9]+|P)$/.exec(word) || /^([0-9]+)(<)$/.exec(word) || [];
    const register = Number(first);
    if (first !== "" && register % 2 === 0 && register < NIBBLE_VALUE_COUNT) return `P${register / 2}`;
    if (mark === "<") throw new LineError(say.notEvenRegister(text, register));
    const { value, isKnown, error } = this.evaluateText(text, this.address);
    if (error === "" && isKnown && value === 0) return "P0";
    throw new LineError(say.noPairMessage(text));
  }

  /**
   * Converts the condition of a JCN to its number.
   * @param {string} text
   */
  convertCondition(text) {
    const word = toAsciiUpperCase(text);
    if (this.definingLines.has(word)) return this.convertExpression(text, { to: NIBBLE_VALUE_COUNT - 1 });
    const knownNumber = CONDITIONS.get(word);
    if (knownNumber !== undefined) return String(knownNumber);
    if (word === "NC" && !this.isForAsAssembler) throw new LineError(say.NC_IS_AMBIGUOUS);
    if (!/^N?[ZCT]+$/.test(word)) return this.convertExpression(text, { to: NIBBLE_VALUE_COUNT - 1 });
    const letters = new Set(word.replace(/^N/, ""));
    return String([...letters].reduce((sum, letter) => sum + CONDITION_BITS[letter], word.startsWith("N") ? INVERTING_BIT : 0));
  }
}

/**
 * Converts a program to the bench's syntax.
 * @param {string} source
 * @returns {{ text: string, errors: ImportError[] }} the converted text ("" if a line has an error), and the errors
 */
export function importProgram(source) {
  const texts = source.split("\n").map((line) => line.replace(/\r$/, ""));
  if (texts[texts.length - 1] === "") texts.pop();
  const program = new ProgramImport(texts);
  const lines = program.convertLines();
  return { text: program.errors.length > 0 ? "" : lines.map((line) => `${line}\n`).join(""), errors: program.errors };
}
