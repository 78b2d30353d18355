// Evaluates expressions in the syntax of Intel's assembler and of the AS macro assembler. Expressions contain names, numbers, parentheses
// and the operators + - * / and &. The prefixes < and > select the low and the high byte. As an operand, $ or * is the address of the line.

import { toAsciiUpperCase } from "./source_lines.js";
import * as say from "../../words/import.js";

/**
 * The value of an expression. `isKnown` is false if a name in the expression has no value yet. `error` is the message, "" if there is none.
 * @typedef {{ value: number, isKnown: boolean, error: string }} EvaluationResult
 *
 * The names in a program. `isDefined` returns whether a line defines a name. `valueOf` returns the value of a name, undefined if the value
 * is not known yet.
 * @typedef {{ isDefined: (name: string) => boolean, valueOf: (name: string) => number | undefined }} NameValues
 */

/** The maximum nesting depth of an expression. */
const MAX_DEPTH = 50;
/** The number of possible values of a byte. */
const BYTE_VALUE_COUNT = 256;
/** The value of the highest bit that the operator & evaluates. */
const HIGHEST_BIT = 4096;
const NAME = /[A-Za-z_.?@][A-Za-z0-9_.?@$]*/y;
const BYTE_FUNCTION = /(LOW|HIGH|LO|HI|low|high|lo|hi)[ \t]*\(/y;
const CHARACTER = /'[^']'|"[^"]"/y;
/** The patterns of numbers, each with its base, in the order in which the evaluator tries the patterns. */
const NUMBER_PATTERNS = [
  { pattern: /0[xX]([0-9A-Fa-f]+)/y, base: 16 },
  { pattern: /[$]([0-9A-Fa-f]+)/y, base: 16 },
  { pattern: /([0-9][0-9A-Fa-f]*)[hH]/y, base: 16 },
  { pattern: /%([01]+)/y, base: 2 },
  { pattern: /([0-7]+)[oOqQ]/y, base: 8 },
  { pattern: /([01]+)[bB]/y, base: 2 },
  { pattern: /([0-9]+)[dD]?/y, base: 10 },
];

/**
 * Returns the bitwise AND of two numbers.
 * @param {number} left
 * @param {number} right
 */
function bitwiseAnd(left, right) {
  const hasBit = (/** @type {number} */ number, /** @type {number} */ bit) => Math.trunc(number / bit) % 2 !== 0;
  let bits = 0;
  for (let bit = 1; bit <= HIGHEST_BIT; bit *= 2) if (hasBit(left, bit) && hasBit(right, bit)) bits += bit;
  return bits;
}

/**
 * Returns the value of digits in a number base.
 * @param {string} digits
 * @param {number} base
 */
function parseDigits(digits, base) {
  let value = 0;
  for (const digit of digits) value = value * base + parseInt(digit, 16);
  return value;
}

/** The evaluation of one expression, by recursive descent. `index` is the index of the next character. */
class Evaluation {
  /**
   * @param {string} text
   * @param {number} address the address of the line
   * @param {NameValues} names
   */
  constructor(text, address, names) {
    this.text = text;
    this.address = address;
    this.names = names;
    this.index = 0;
    this.depth = 0;
    this.isKnown = true;
    this.error = "";
  }

  /**
   * Records an error, unless an earlier error is recorded.
   * @param {string} message
   */
  fail(message) {
    if (this.error === "") this.error = message;
  }

  /** Skips blanks and tabs. */
  skipBlanks() {
    while (/[ \t]/.test(this.text[this.index] || "")) this.index += 1;
  }

  /** Returns the next non-blank character; "" at the end. */
  peek() {
    this.skipBlanks();
    return this.text[this.index] || "";
  }

  /**
   * Matches a sticky pattern at the current index; returns null if it does not match.
   * @param {RegExp} pattern
   */
  match(pattern) {
    pattern.lastIndex = this.index;
    return pattern.exec(this.text);
  }

  /** Parses terms with + and - between them, and returns the value. */
  parseSum() {
    let value = this.parseProduct();
    for (let sign = this.peek(); sign === "+" || sign === "-"; sign = this.peek()) {
      this.index += 1;
      const right = this.parseProduct();
      value = sign === "+" ? value + right : value - right;
    }
    return value;
  }

  /** Parses factors with *, / and & between them, and returns the value. */
  parseProduct() {
    let value = this.parseFactor();
    for (let sign = this.peek(); sign === "*" || sign === "/" || sign === "&"; sign = this.peek()) {
      this.index += 1;
      const right = this.parseFactor();
      if (sign === "*") value *= right;
      else if (sign === "&") value = bitwiseAnd(value, right);
      else if (right !== 0) value = Math.trunc(value / right);
      else if (this.isKnown) this.fail(say.DIVISION_BY_0);
    }
    return value;
  }

  /** @returns {number} the value of an operand; records an error if the expression is nested too deeply */
  parseFactor() {
    this.depth += 1;
    let value = 0;
    if (this.depth > MAX_DEPTH) {
      this.fail(say.tooDeepMessage(MAX_DEPTH));
      this.index = this.text.length;
    } else {
      value = this.parseOperand();
    }
    this.depth -= 1;
    return value;
  }

  /** Parses a number, a name, a character, or an expression with a prefix or in parentheses. Returns its value. */
  parseOperand() {
    const nextCharacter = this.peek();
    if (nextCharacter === "(") return this.parseBracketed();
    if (nextCharacter !== "" && "-+<>".includes(nextCharacter)) return this.parsePrefixed(nextCharacter);
    const byteFunction = this.match(BYTE_FUNCTION);
    if (byteFunction) {
      this.index += byteFunction[0].length - 1;
      const value = this.parseBracketed();
      return /^l/i.test(byteFunction[0]) ? value % BYTE_VALUE_COUNT : Math.trunc(value / BYTE_VALUE_COUNT);
    }
    const character = this.match(CHARACTER);
    if (character) return this.parseCharacter(character[0]);
    for (const { pattern, base } of NUMBER_PATTERNS) {
      const match = this.match(pattern);
      if (match) return this.parseNumber(match, base);
    }
    if (nextCharacter === "$" || nextCharacter === "*") {
      this.index += 1;
      return this.address;
    }
    const name = this.match(NAME);
    if (name) return this.parseName(name[0]);
    this.fail(nextCharacter === "" ? say.OPERAND_MISSING : say.notUnderstoodMessage(this.text.slice(this.index)));
    this.index += 1;
    return 0;
  }

  /**
   * Parses an expression with a prefix, and returns its value.
   * @param {string} sign the prefix; `-` and `+` apply to the next factor, `<` and `>` apply to the next sum
   */
  parsePrefixed(sign) {
    this.index += 1;
    if (sign === "-") return -this.parseFactor();
    if (sign === "+") return this.parseFactor();
    const value = this.parseSum();
    return sign === "<" ? ((value % BYTE_VALUE_COUNT) + BYTE_VALUE_COUNT) % BYTE_VALUE_COUNT : Math.trunc(value / BYTE_VALUE_COUNT);
  }

  /** Parses an expression in parentheses, and returns its value. */
  parseBracketed() {
    this.index += 1;
    const value = this.parseSum();
    if (this.peek() !== ")") this.fail(say.BRACKET_MISSING);
    this.index += 1;
    return value;
  }

  /**
   * Returns the code of a character.
   * @param {string} quoted the character with its quotes
   */
  parseCharacter(quoted) {
    this.index += quoted.length;
    if (!isAscii(quoted)) this.fail(say.notAsciiMessage(quoted));
    return quoted.charCodeAt(1);
  }

  /**
   * Returns the value of a number.
   * @param {RegExpExecArray} match the match of the number's pattern
   * @param {number} base
   */
  parseNumber([numeral, digits], base) {
    this.index += numeral.length;
    if (/\w/.test(this.text[this.index] || "")) this.error = say.notANumberMessage(this.text);
    return parseDigits(digits, base);
  }

  /**
   * Returns the value of a name; 0 if it is not known yet.
   * @param {string} spelling the name as in the source
   */
  parseName(spelling) {
    this.index += spelling.length;
    const name = toAsciiUpperCase(spelling);
    const value = this.names.valueOf(name);
    if (!this.names.isDefined(name)) this.fail(say.noNameMessage(spelling));
    else if (value === undefined) this.isKnown = false;
    return value === undefined ? 0 : value;
  }
}

/**
 * Returns whether all characters of a string are ASCII characters other than NUL.
 * @param {string} text
 */
export function isAscii(text) {
  return /^[\x01-\x7f]*$/.test(text); // eslint-disable-line no-control-regex
}

/**
 * Evaluates an expression.
 * @param {string} text
 * @param {number} address the address of the line
 * @param {NameValues} names
 * @returns {EvaluationResult}
 */
export function evaluate(text, address, names) {
  const evaluation = new Evaluation(text, address, names);
  const value = evaluation.parseSum();
  evaluation.skipBlanks();
  if (evaluation.index < text.length) evaluation.fail(say.notUnderstoodMessage(text.slice(evaluation.index)));
  const { error, isKnown } = evaluation;
  return { value, isKnown: isKnown && error === "", error };
}
