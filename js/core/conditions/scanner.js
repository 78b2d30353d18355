// Splits the text of a condition into tokens.

import * as say from "../../words/conditions.js";

/**
 * @typedef {"number" | "word" | "sign" | "text" | "end"} TokenKind
 * @typedef {{ kind: TokenKind, text: string, column: number, end: number }} Token a token; `column` is the column of its first character,
 *   counted from 0, and `end` is the column after its last character
 */

/** An error in a condition or a property line. `column` counts from 0; it is -1 until the column is known. */
export class ConditionError extends Error {
  /**
   * @param {string} message
   * @param {number} [column]
   */
  constructor(message, column = -1) {
    super(message);
    this.column = column;
  }
}

/**
 * Throws a `ConditionError` with the given message and column.
 * @param {string} message
 * @param {number} [column]
 * @returns {never}
 */
export function fail(message, column = -1) {
  throw new ConditionError(message, column);
}

const BLANKS = /\s*/y;
const SIGN = /\|\||&&|==|!=|<=|>=|[=<>!()+\-&]/y;
const QUOTED_TEXT = /"([^"]*)"/y;
const WORD = /[A-Za-z_@][\w.@]*/y;
const NUMBER = /\d\w*/y;
/** Matches a word of any characters except blanks. */
const RAW_WORD = /\S+/y;

/**
 * Parses a numeral such as `10`, `0xA` or `0b1010`; returns NaN for any other text.
 * @param {string} text
 */
export function parseNumeral(text) {
  return /^(\d{1,15}|0x[0-9a-f]{1,12}|0b[01]{1,48})$/i.test(text) ? Number(text) : NaN;
}

/** Splits text into tokens, one after the other. */
export class Scanner {
  /** @param {string} text */
  constructor(text) {
    this.text = text;
    this.index = 0;
    /** @type {Token | null} the next token, if `peek` has already scanned it */
    this.peekedToken = null;
  }

  /**
   * Consumes the text that matches a sticky regular expression; returns the match, or null.
   * @param {RegExp} pattern
   * @returns {RegExpExecArray | null}
   */
  match(pattern) {
    pattern.lastIndex = this.index;
    const match = pattern.exec(this.text);
    if (match) this.index = pattern.lastIndex;
    return match;
  }

  /** Returns the next token without consuming it. */
  peek() {
    if (!this.peekedToken) this.peekedToken = this.scan();
    return this.peekedToken;
  }

  /** Consumes the next token and returns it. */
  next() {
    const token = this.peek();
    this.peekedToken = null;
    return token;
  }

  /**
   * Scans a token; throws `ConditionError` if the characters do not start a token.
   * @returns {Token}
   */
  scan() {
    this.match(BLANKS);
    const column = this.index;
    /** @type {(kind: TokenKind, text: string) => Token} */
    const createToken = (kind, text) => ({ kind, text, column, end: this.index });
    if (column === this.text.length) return createToken("end", "");
    const sign = this.match(SIGN);
    if (sign) return createToken("sign", sign[0]);
    const text = this.match(QUOTED_TEXT);
    if (text) return createToken("text", text[1]);
    const word = this.match(WORD);
    if (word) return createToken("word", word[0]);
    const number = this.match(NUMBER);
    if (!number) {
      const [invalidText] = /** @type {RegExpExecArray} */ (this.match(RAW_WORD));
      return fail(invalidText.startsWith('"') ? say.CLOSING_QUOTE_MISSING : say.unknownSign(invalidText), column);
    }
    if (Number.isNaN(parseNumeral(number[0]))) fail(say.notANumeralMessage(number[0]), column);
    return createToken("number", number[0]);
  }

  /**
   * Consumes and returns the next word, up to a blank; returns null at the end. Front-panel names can contain any characters.
   * @param {boolean} isInside true inside parentheses; the returned word then excludes closing parentheses at its end
   * @returns {Token | null}
   */
  nextRawWord(isInside) {
    this.unpeek();
    this.match(BLANKS);
    const column = this.index;
    const match = this.match(RAW_WORD);
    if (!match) return null;
    const text = isInside && match[0].length > 1 ? match[0].replace(/(.)\)+$/, "$1") : match[0];
    this.index = column + text.length;
    return { kind: "word", text, column, end: this.index };
  }

  /** Moves back to the start of the token that `peek` has scanned. */
  unpeek() {
    if (this.peekedToken) this.index = this.peekedToken.column;
    this.peekedToken = null;
  }

  /**
   * The column after the consumed text, or the column of the peeked token. A later `goTo` can return to this column.
   * @returns {number}
   */
  get position() {
    return this.peekedToken ? this.peekedToken.column : this.index;
  }

  /**
   * Moves to a column.
   * @param {number} position
   */
  goTo(position) {
    this.index = position;
    this.peekedToken = null;
  }
}
