// Parses conditions (docs/MANUAL.md, "Conditions") into a syntax tree. Each node contains its text and column. The compiler resolves most
// names. The names of lamps and keys can contain any character, so the parser itself must recognise these names.
//
//     condition  = and { or and }      and = not { and not }      not = { "not" } ( lamps | .. | value [ sign value ] )
//     value      = operand { ("+" | "-" | "&") operand }          operand = number | name | place | "(" value ")"

import { Scanner, fail, parseNumeral } from "./scanner.js";
import * as say from "../../words/conditions.js";

/**
 * @typedef {import("./scanner.js").Token} Token
 * @typedef {"=" | "!=" | "<" | "<=" | ">" | ">="} Sign
 *
 * A value, by its `kind`. `name`: a named value or a place; `direction` is the direction that follows the name of a port. `lamp`, `key`: a
 * lamp or key with its name. `sum`: the sum, difference or bitwise AND of two values.
 * @typedef {{ kind: "number", value: number, text: string, column: number }} NumberNode
 * @typedef {{ kind: "name", text: string, direction: "" | "in" | "out", column: number }} NameNode
 * @typedef {{ kind: "lamp" | "key", text: string, column: number }} PanelNode
 * @typedef {{ kind: "sum", sign: "+" | "-" | "&", left: ValueNode, right: ValueNode, text: string, column: number }} SumNode
 * @typedef {NumberNode | NameNode | PanelNode | SumNode} ValueNode
 *
 * A condition, by its `kind`. `keyword`: a keyword (`lamps`, `display`, `printed`, `cycles` or a chain) with the words after it.
 * `values`: a place with its required values. `panel`: `lamp NAME on` or `key NAME down`. `at`: `at LABEL`.
 * @typedef {{ kind: "or" | "and", parts: ConditionNode[], text: string, column: number }} JoinedNode
 * @typedef {{ kind: "not", part: ConditionNode, text: string, column: number }} NotNode
 * @typedef {{ kind: "compare", sign: Sign, left: ValueNode, right: ValueNode, text: string, column: number }} CompareNode
 * @typedef {{ kind: "keyword", words: Token[], text: string, column: number }} KeywordNode
 * @typedef {{ kind: "values", place: NameNode, values: ValueNode[], text: string, column: number }} PlaceValuesNode
 * @typedef {{ kind: "panel", subject: "lamp" | "key", name: string, isOn: boolean, text: string, column: number }} PanelStateNode
 * @typedef {{ kind: "at", label: string, text: string, column: number }} AtNode
 * @typedef {JoinedNode | NotNode | CompareNode | KeywordNode | PlaceValuesNode | PanelStateNode | AtNode} ConditionNode
 * @typedef {ConditionNode | ValueNode} Node
 */

/** The keywords of conditions, for syntax colouring. */
export const KEYWORDS = new Set(["or", "and", "not", "lamps", "lamp", "key", "display", "printed", "cycles", "at", "most", "least", "on",
  "off", "down", "up", "none", "in", "out"]);

/** The maximum length of a condition in characters. */
export const MAX_CONDITION_LENGTH = 2000;
/** The maximum nesting depth of parentheses. */
export const MAX_PARENTHESIS_DEPTH = 30;

/** @type {Record<string, Sign>} the comparison operators, by spelling */
const OPERATORS = { "=": "=", "==": "=", "!=": "!=", "<": "<", "<=": "<=", ">": ">", ">=": ">=" };
/** The operators that join conditions, by spelling. */
const JOIN_OPERATORS = new Map([["or", "or"], ["||", "or"], ["and", "and"], ["&&", "and"]]);
/** Matches the name of a port. */
const PORT_NAME = /^(rom\d+|ram\d+\.\d+)$/i;
/** The node kinds that are conditions. */
const CONDITION_KINDS = new Set(["or", "and", "not", "compare", "keyword", "values", "panel", "at"]);
/** The first words of places that are written with blanks, such as `ram 0 0x12`, and how many numerals follow each word. */
const SPACED_NUMERALS = new Map([["ram", 2], ["st", 3]]);
/** The node kinds whose text needs no parentheses: single names and numbers. */
const SIMPLE_KINDS = new Set(["number", "name", "lamp", "key"]);
/** The error messages if a condition names a lamp or key, but not its state. */
const PANEL_SYNTAX_MESSAGES = { lamp: say.LAMP_SYNTAX, key: say.KEY_SYNTAX };
/** The words for the state of a lamp or key; true means on or pressed. */
const PANEL_STATES = new Map([["on", true], ["off", false], ["down", true], ["up", false]]);

/**
 * Returns whether a node is a condition. Any other node is a value.
 * @param {Node} node
 * @returns {node is ConditionNode}
 */
export function isCondition(node) {
  return CONDITION_KINDS.has(node.kind);
}

/** A recursive-descent parser. Its methods throw `ConditionError` at a syntax error. */
class Parser {
  /**
   * @param {string} text
   * @param {(name: string) => boolean} isLampName returns whether the name is a lamp name
   */
  constructor(text, isLampName) {
    this.text = text;
    this.isLampName = isLampName;
    this.scanner = new Scanner(text);
    this.depth = 0;
  }

  // --- tokens ---

  /**
   * Returns whether a token is `not` or `!`.
   * @param {Token} token
   */
  isNotOperator({ kind, text }) {
    return kind === "sign" ? text === "!" : kind === "word" && text.toLowerCase() === "not";
  }

  /**
   * Returns "or" or "and" if a token is one of these operators, otherwise "".
   * @param {Token} token
   */
  findOperator({ kind, text }) {
    const word = text.toLowerCase();
    return kind === "sign" || kind === "word" ? JOIN_OPERATORS.get(word) || "" : "";
  }

  /**
   * Returns the text from a column to the current position.
   * @param {number} column
   */
  textFrom(column) {
    return this.text.slice(column, this.scanner.position).trim();
  }

  // --- conditions ---

  /**
   * Parses the complete text as a value or a condition.
   * @returns {Node}
   */
  parseCompleteText() {
    const node = this.parseJoined("or");
    const token = this.scanner.peek();
    if (token.kind !== "end") fail(say.unexpectedWordMessage(this.tokenText(token)), token.column);
    return node;
  }

  /**
   * Returns a token as it appears in the text.
   * @param {Token} token
   */
  tokenText({ kind, text }) {
    return kind === "text" ? `"${text}"` : text;
  }

  /**
   * Parses operands joined by one operator, `or` or `and`.
   * @param {"or" | "and"} operator
   * @returns {Node}
   */
  parseJoined(operator) {
    const { column } = this.scanner.peek();
    const parsePart = () => (operator === "or" ? this.parseJoined("and") : this.parseNegated());
    const parts = [parsePart()];
    while (this.findOperator(this.scanner.peek()) === operator) {
      this.scanner.next();
      parts.push(parsePart());
    }
    if (parts.length === 1) return parts[0];
    return { kind: operator, parts: parts.map((part) => this.requireCondition(part)), text: this.textFrom(column), column };
  }

  /**
   * Parses any number of `not`, followed by a comparison.
   * @returns {Node}
   */
  parseNegated() {
    const { column } = this.scanner.peek();
    let count = 0;
    for (; this.isNotOperator(this.scanner.peek()); count++) this.scanner.next();
    const node = this.parseComparison();
    if (count === 0) return node;
    const part = this.requireCondition(node);
    return count % 2 === 0 ? part : { kind: "not", part, text: this.textFrom(column), column };
  }

  /**
   * Returns a node if it is a condition, and converts `@NAME` to `at NAME`. Throws `ConditionError` for any other value.
   * @param {Node} node
   * @returns {ConditionNode}
   */
  requireCondition(node) {
    if (isCondition(node)) return node;
    if (node.kind === "name" && node.text.startsWith("@")) {
      return { kind: "at", label: node.text.slice(1), text: node.text, column: node.column };
    }
    if (node.kind === "lamp" || node.kind === "key") return fail(PANEL_SYNTAX_MESSAGES[node.kind], node.column);
    return fail(say.noComparisonMessage(node.text), node.column);
  }

  /**
   * Returns a node if it is a value; throws `ConditionError` for a condition.
   * @param {Node} node
   * @returns {ValueNode}
   */
  requireValue(node) {
    return isCondition(node) ? fail(say.noValueMessage(node.text), node.column) : node;
  }

  /**
   * Parses a comparison, a place followed by values, or a single value.
   * @returns {Node}
   */
  parseComparison() {
    const left = this.parseSum();
    if (isCondition(left)) return left;
    const token = this.scanner.peek();
    if (token.kind === "sign" && token.text in OPERATORS) {
      this.scanner.next();
      return this.parseRightSide(left, OPERATORS[token.text]);
    }
    if (left.kind === "name" && PORT_NAME.test(left.text) && left.direction === "" && this.isValueNext()) {
      fail(say.portSyntax(left.text), left.column);
    }
    return left.kind === "name" && this.isValueNext() ? this.createPlaceValuesNode(left, this.parseValues()) : left;
  }

  /**
   * Parses the right side of a comparison.
   * @param {ValueNode} left
   * @param {Sign} sign
   * @returns {ConditionNode}
   */
  parseRightSide(left, sign) {
    const { column } = left;
    this.requireOperand(sign);
    const right = this.requireValue(this.parseSum());
    if (this.isValueNext() && (sign === "=" || sign === "!=") && left.kind === "name") {
      const node = this.createPlaceValuesNode(left, [right, ...this.parseValues()]);
      return sign === "=" ? node : { kind: "not", part: node, text: this.textFrom(column), column };
    }
    return { kind: "compare", sign, left, right, text: this.textFrom(column), column };
  }

  /**
   * Returns the node for a place followed by values.
   * @param {NameNode} place
   * @param {ValueNode[]} values
   * @returns {PlaceValuesNode}
   */
  createPlaceValuesNode(place, values) {
    return { kind: "values", place, values, text: this.textFrom(place.column), column: place.column };
  }

  /** Returns whether the next token starts a value. */
  isValueNext() {
    const token = this.scanner.peek();
    return token.kind === "number" || (token.kind === "word" && this.findOperator(token) === "" && !this.isNotOperator(token));
  }

  /** Parses consecutive values. */
  parseValues() {
    /** @type {ValueNode[]} */
    const values = [];
    while (this.isValueNext()) values.push(this.requireValue(this.parseOperand()));
    return values;
  }

  // --- values ---

  /**
   * Parses operands joined by `+`, `-` or `&`.
   * @returns {Node}
   */
  parseSum() {
    let left = this.parseOperand();
    for (;;) {
      const { kind, text } = this.scanner.peek();
      if (kind !== "sign" || (text !== "+" && text !== "-" && text !== "&")) return left;
      const { column } = left;
      this.scanner.next();
      this.requireOperand(text);
      const [leftValue, rightValue] = [this.requireValue(left), this.requireValue(this.parseOperand())];
      left = { kind: "sum", sign: text, left: leftValue, right: rightValue, text: this.textFrom(column), column };
    }
  }

  /**
   * Throws `ConditionError` if the text ends after an operator.
   * @param {string} sign the operator
   */
  requireOperand(sign) {
    if (this.scanner.peek().kind === "end") fail(say.missingAfter(sign), this.lastColumn);
  }

  /**
   * Parses a number, a name, a place, a keyword condition, or an expression in parentheses.
   * @returns {Node}
   */
  parseOperand() {
    const token = this.scanner.peek();
    const { kind, text, column } = token;
    if (kind === "sign" && text === "(") return this.parseParentheses();
    if (kind === "number") {
      this.scanner.next();
      return { kind: "number", value: parseNumeral(text), text, column };
    }
    if (kind !== "word" || this.findOperator(token) !== "" || this.isNotOperator(token)) {
      return fail(kind === "end" ? say.NO_CONDITION : say.missingBefore(this.tokenText(token)), Math.min(column, this.lastColumn));
    }
    return this.parseNamed(token);
  }

  /** The last column of the text, used for errors at the end of the text. */
  get lastColumn() {
    return Math.max(0, this.text.length - 1);
  }

  /**
   * Parses an expression in parentheses.
   * @returns {Node}
   */
  parseParentheses() {
    const { column } = this.scanner.next();
    this.depth += 1;
    if (this.depth > MAX_PARENTHESIS_DEPTH) fail(say.tooDeepMessage(MAX_PARENTHESIS_DEPTH), column);
    const node = this.parseJoined("or");
    const token = this.scanner.peek();
    if (token.text !== ")" || token.kind !== "sign") {
      const isEnd = token.kind === "end";
      fail(isEnd ? say.PARENTHESIS_NOT_CLOSED : say.unexpectedWordMessage(this.tokenText(token)), isEnd ? column : token.column);
    }
    this.depth -= 1;
    this.scanner.next();
    return SIMPLE_KINDS.has(node.kind) ? node : { ...node, text: this.textFrom(column), column };
  }

  /**
   * Parses a name, a place, or a keyword condition.
   * @param {Token} token
   * @returns {Node}
   */
  parseNamed(token) {
    const word = token.text.toLowerCase();
    if (word === "lamps") return this.parseLamps(token);
    if (word === "display") return this.parseDisplay(token);
    if (word === "printed" || word === "cycles") {
      this.scanner.goTo(token.end);
      return this.createKeywordNode(token, this.parseWords(word === "printed"));
    }
    const panel = word === "lamp" || word === "key" ? this.parsePanel(token, word) : null;
    if (panel) return panel;
    this.scanner.next();
    if (word === "at") return this.parseLabel(token.column);
    if (/^chain\d+$/.test(word)) return this.parseChain(token);
    const numeralCount = SPACED_NUMERALS.get(word) || 0;
    for (let count = 0; count < numeralCount; count++) {
      const { kind, column } = this.scanner.next();
      if (kind !== "number") fail(say.DOTTED_PLACE_SYNTAX, Math.min(column, this.lastColumn));
    }
    const text = numeralCount === 0 ? token.text : this.textFrom(token.column);
    return { kind: "name", text, direction: this.parseDirection(word), column: token.column };
  }

  /**
   * Parses an optional `in` or `out` after a port; returns "" if it is missing.
   * @param {string} word the name of the port
   * @returns {"" | "in" | "out"}
   */
  parseDirection(word) {
    const nextToken = this.scanner.peek();
    const direction = nextToken.text.toLowerCase();
    if (!PORT_NAME.test(word) || nextToken.kind !== "word" || (direction !== "in" && direction !== "out")) return "";
    this.scanner.next();
    return direction;
  }

  /**
   * Parses the label after `at`.
   * @param {number} column the column of `at`
   * @returns {AtNode}
   */
  parseLabel(column) {
    const nameToken = this.scanner.peek();
    if (nameToken.kind !== "word") fail(say.AT_SYNTAX, column);
    this.scanner.next();
    return { kind: "at", label: nameToken.text.replace(/^@/, ""), text: this.textFrom(column), column };
  }

  // --- keywords followed by names ---

  /**
   * Parses `lamp NAME on` or `key NAME down`. Without `on` or `down`, the result is a value. Returns null if an operator follows the word
   * `lamp` or `key`, which is then a name from the program.
   * @param {Token} token
   * @param {"lamp" | "key"} kind
   * @returns {Node | null}
   */
  parsePanel(token, kind) {
    const { scanner } = this;
    scanner.goTo(token.end);
    const name = scanner.nextRawWord(this.depth > 0);
    if (!name) return fail(PANEL_SYNTAX_MESSAGES[kind], token.column);
    const stateToken = this.peekName();
    const isOn = stateToken.kind === "word" ? PANEL_STATES.get(stateToken.text.toLowerCase()) : undefined;
    if (isOn !== undefined && (kind === "key") === /^(down|up)$/i.test(stateToken.text)) {
      scanner.next();
      return { kind: "panel", subject: kind, name: name.text, isOn, text: this.textFrom(token.column), column: token.column };
    }
    if (/^([=<>!+\-&|]\S*|or|and)$/i.test(name.text) && !this.isLampName(name.text)) {
      scanner.goTo(token.column);
      return null;
    }
    if (stateToken.kind === "word") return fail(PANEL_SYNTAX_MESSAGES[kind], token.column);
    return { kind, text: name.text, column: token.column };
  }

  /**
   * Parses `lamps` with lamp names or marks (`*`, `.`, `?`). Before an operator, `lamps` is a number with one bit per lamp.
   * @param {Token} token
   * @returns {Node}
   */
  parseLamps(token) {
    const { scanner } = this;
    scanner.goTo(token.end);
    const { kind, text } = this.peekName();
    if (kind === "sign" && (text in OPERATORS || /^[+\-&]$/.test(text))) {
      return { kind: "name", text: token.text, direction: "", column: token.column };
    }
    return this.createKeywordNode(token, this.parseWords(false, true));
  }

  /**
   * Parses `display TEXT`, with an optional `=` or `!=` before TEXT.
   * @param {Token} head
   * @returns {ConditionNode}
   */
  parseDisplay(head) {
    this.scanner.goTo(head.end);
    const isNot = this.skipEquality();
    const node = this.createKeywordNode(head, this.parseWords(true, true));
    return isNot ? { kind: "not", part: node, text: node.text, column: head.column } : node;
  }

  /** Skips an optional `=`, `==` or `!=`; returns true for `!=`. */
  skipEquality() {
    const { text } = this.peekName();
    if (text === "=" || text === "==" || text === "!=") this.scanner.next();
    return text === "!=";
  }

  /** Returns the next token without consuming it. Text up to the next blank counts as one word, unless it starts with an operator. */
  peekName() {
    const { scanner } = this;
    const { position } = scanner;
    const name = scanner.nextRawWord(false);
    scanner.goTo(position);
    const isWord = name && (this.isLampName(name.text) || !/^([=<>+\-&|)]|!=)/.test(name.text));
    if (name && isWord) return { kind: "word", text: name.text.replace(/\)+$/, "") };
    return scanner.peek();
  }

  /**
   * Consumes and returns the words before the next `and`, `or` or closing parenthesis.
   * @param {boolean} canBeQuoted true if the words can be quoted
   * @param {boolean} [canBeLamps] true if the words can be lamp names; even `or` can be a lamp name
   */
  parseWords(canBeQuoted, canBeLamps = false) {
    const { scanner } = this;
    scanner.unpeek();
    /** @type {Token[]} */
    const words = [];
    for (;;) {
      const { position } = scanner;
      const word = scanner.nextRawWord(this.depth > 0);
      if (!word) return words;
      if (canBeQuoted && words.length === 0 && word.text.startsWith('"')) {
        scanner.goTo(word.column);
        return this.parseQuoted();
      }
      const isEnd = this.findOperator(word) !== "" && !(canBeLamps && this.hasOnlyLampNamesFrom(word.column));
      if (isEnd || (this.depth > 0 && word.text === ")")) {
        scanner.goTo(position);
        return words;
      }
      words.push(word);
    }
  }

  /**
   * Returns whether all words from a column to the end of the text are lamp names.
   * @param {number} column
   */
  hasOnlyLampNamesFrom(column) {
    return this.text.slice(column).trim().split(/\s+/).every((word) => this.isLampName(word));
  }

  /** Parses text in quotes. Returns its words as tokens. */
  parseQuoted() {
    const token = this.scanner.next();
    return token.text.split(/\s+/).filter(Boolean).map((text) => ({ ...token, text }));
  }

  /**
   * Returns the node for a keyword and its words.
   * @param {Token} head the keyword
   * @param {Token[]} words
   * @returns {KeywordNode}
   */
  createKeywordNode(head, words) {
    const { column } = head;
    return { kind: "keyword", words: [{ ...head, text: head.text.toLowerCase() }, ...words], text: this.textFrom(column), column };
  }

  /**
   * Parses the bit pattern after a chain.
   * @param {Token} head the chain name
   * @returns {ConditionNode}
   */
  parseChain(head) {
    const { scanner } = this;
    const isNot = this.skipEquality();
    /** @type {Token[]} */
    const words = [];
    for (;;) {
      const { position } = scanner;
      const word = scanner.nextRawWord(this.depth > 0);
      if (!word || !/^[01?]+$/.test(word.text)) {
        scanner.goTo(position);
        break;
      }
      words.push(word);
    }
    const node = this.createKeywordNode(head, words);
    return isNot ? { kind: "not", part: node, text: node.text, column: head.column } : node;
  }
}

/**
 * Parses a value or a condition; throws `ConditionError` if the text is neither.
 * @param {string} text
 * @param {(name: string) => boolean} [isLampName] returns whether the name is a lamp name
 * @returns {Node}
 */
export function parseExpression(text, isLampName = () => false) {
  if (text.length > MAX_CONDITION_LENGTH) fail(say.tooLongMessage(MAX_CONDITION_LENGTH), MAX_CONDITION_LENGTH - 1);
  return new Parser(text, isLampName).parseCompleteText();
}

/**
 * Parses a condition; throws `ConditionError` if the text is not a condition.
 * @param {string} text
 * @param {(name: string) => boolean} [isLampName] returns whether the name is a lamp name
 * @returns {ConditionNode}
 */
export function parseCondition(text, isLampName = () => false) {
  if (text.length > MAX_CONDITION_LENGTH) fail(say.tooLongMessage(MAX_CONDITION_LENGTH), MAX_CONDITION_LENGTH - 1);
  const parser = new Parser(text, isLampName);
  return parser.requireCondition(parser.parseCompleteText());
}
