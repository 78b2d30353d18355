// Compiles the syntax tree of a condition, for a board and a program, into functions. These functions evaluate the condition from the
// bench's answers. The compiler also collects the places that the condition depends on.

import { compileChain, compileProgramCounter, compileCycles, compileDisplay, compileLamps, compilePrinted } from "./keyword_conditions.js";
import { fail } from "./scanner.js";
import { withErrorColumn, valuesOfNibbles, valueOfKey, findLabelAddress, valueOfLamp, compileValue } from "./values.js";
import * as say from "../../words/conditions.js";

/**
 * @typedef {import("./condition_language.js").Names} Names
 * @typedef {import("./condition_language.js").ExtraValues} ExtraValues
 * @typedef {import("./parser.js").ConditionNode} ConditionNode
 * @typedef {import("./parser.js").CompareNode} CompareNode
 * @typedef {import("./parser.js").KeywordNode} KeywordNode
 * @typedef {import("./parser.js").PlaceValuesNode} PlaceValuesNode
 * @typedef {import("./parser.js").PanelStateNode} PanelStateNode
 * @typedef {import("./parser.js").ValueNode} ValueNode
 * @typedef {import("./values.js").Dependencies} Dependencies
 * @typedef {import("./values.js").Value} Value
 *
 * A compiled condition. `matches` returns whether the condition is true. `explain` returns a message with the actual and the required
 * value. If `isNot` is true, the condition must be false, and the message contains the forbidden value instead of the required value.
 * `address` is the address in a condition `pc = ADDRESS`, otherwise -1.
 * @typedef {{ matches: (values: string[], extraValues: ExtraValues) => boolean,
 *   explain: (values: string[], extraValues: ExtraValues, isNot: boolean) => string, address: number }} CompiledCondition
 */

/** @type {Record<CompareNode["sign"], (actual: number, expected: number) => boolean>} */
const COMPARISONS = {
  "=": (actual, expected) => actual === expected, "!=": (actual, expected) => actual !== expected,
  "<": (actual, expected) => actual < expected, "<=": (actual, expected) => actual <= expected,
  ">": (actual, expected) => actual > expected, ">=": (actual, expected) => actual >= expected,
};

/**
 * @type {Record<string, (words: string[], names: Names, dependencies: Dependencies) => CompiledCondition>} the condition compilers, by
 *   keyword
 */
const KEYWORD_COMPILERS = { lamps: compileLamps, display: compileDisplay, printed: compilePrinted, cycles: compileCycles };

/**
 * Returns the condition that compares two compiled values.
 * @param {Value} value
 * @param {CompareNode["sign"]} sign
 * @param {Value} requiredValue
 * @returns {CompiledCondition}
 */
function createComparison(value, sign, requiredValue) {
  const compare = COMPARISONS[sign];
  return {
    address: -1,
    matches: (values) => compare(value.read(values), requiredValue.read(values)),
    explain: (values, _, isNot) => {
      const number = requiredValue.read(values);
      const requiredText = requiredValue.isConstant ? String(number) : say.valueIs(requiredValue.name, number);
      const requirement = sign === "=" ? requiredText : `${sign} ${requiredText}`;
      return say.mustBeMessage(value.name, String(value.read(values)), requirement, false, isNot);
    },
  };
}

/**
 * Throws `ConditionError` if `requiredValue` is a constant that exceeds the maximum of `value`.
 * @param {Value} value
 * @param {ValueNode} node the syntax node of the constant
 * @param {Value} requiredValue the constant
 */
function checkRange(value, node, requiredValue) {
  if (value.isConstant || !requiredValue.isConstant) return;
  const number = requiredValue.read([]);
  if (number <= value.maxValue) return;
  fail(say.valueRangeMessage(value.name, value.maxValue, node.kind === "number" ? node.text : say.valueIs(node.text, number)), node.column);
}

/**
 * Compiles a comparison.
 * @param {CompareNode} node
 * @param {Names} names
 * @param {Dependencies} dependencies
 * @returns {CompiledCondition}
 */
function compileComparison({ sign, left, right }, names, dependencies) {
  const value = compileValue(left, names, dependencies);
  const requiredValue = compileValue(right, names, dependencies);
  checkRange(value, right, requiredValue);
  checkRange(requiredValue, left, value);
  const isCounterEquality = value.name === "pc" && requiredValue.isConstant && (sign === "=" || sign === "!=");
  if (!isCounterEquality) return createComparison(value, sign, requiredValue);
  const address = requiredValue.read([]);
  const condition = compileProgramCounter(address, String(address), names, dependencies);
  return sign === "=" ? condition : negateCondition(condition, "");
}

/**
 * Compiles a place that is followed by its required value, such as `r0 5`. Several values after a RAM nibble apply to that nibble and the
 * nibbles after it.
 * @param {PlaceValuesNode} node
 * @param {Names} names
 * @param {Dependencies} dependencies
 * @returns {CompiledCondition}
 */
function compilePlaceValues({ place, values, text, column }, names, dependencies) {
  const [firstValue] = values;
  if (values.length === 1) {
    return compileComparison({ kind: "compare", sign: "=", left: place, right: firstValue, text, column }, names, dependencies);
  }
  const nibbles = valuesOfNibbles(place, values.length, names, dependencies);
  const requiredValues = values.map((value, index) => {
    const requiredValue = compileValue(value, names, dependencies);
    checkRange(nibbles[index], value, requiredValue);
    return requiredValue;
  });
  /** @type {(compiledValues: Value[], answers: string[]) => string} */
  const joinValues = (compiledValues, answers) => compiledValues.map((value) => value.read(answers)).join(" ");
  return {
    address: -1,
    matches: (answers) => nibbles.every((value, index) => value.read(answers) === requiredValues[index].read(answers)),
    explain: (answers, _, isNot) => (
      say.mustBeMessage(nibbles[0].name, joinValues(nibbles, answers), joinValues(requiredValues, answers), false, isNot)
    ),
  };
}

/**
 * Compiles a condition that starts with a keyword.
 * @param {KeywordNode} node
 * @param {Names} names
 * @param {Dependencies} dependencies
 */
function compileKeyword({ words: [head, ...operands] }, names, dependencies) {
  const words = operands.map(({ text }) => text);
  const compile = KEYWORD_COMPILERS[head.text];
  return compile ? compile(words, names, dependencies) : compileChain(head.text, words, names, dependencies);
}

/**
 * Compiles `lamp NAME on` or `key NAME down`.
 * @param {PanelStateNode} node
 * @param {Names} names
 * @param {Dependencies} dependencies
 * @returns {CompiledCondition}
 */
function compilePanelState({ subject, name, isOn }, names, dependencies) {
  const value = subject === "lamp" ? valueOfLamp(name, names, dependencies) : valueOfKey(name, names, dependencies);
  const stateNames = subject === "lamp" ? ["off", "on"] : ["up", "down"];
  return {
    address: -1,
    matches: (values) => value.read(values) === Number(isOn),
    explain: (values, _, isNot) => (
      say.mustBeMessage(`${subject} ${name}`, stateNames[value.read(values)], stateNames[Number(isOn)], false, isNot)),
  };
}

/**
 * Negates a compiled condition.
 * @param {CompiledCondition} condition
 * @param {string} text the text of the condition if it contains `and` or `or` at its top level, otherwise ""
 * @returns {CompiledCondition}
 */
function negateCondition(condition, text) {
  return {
    address: -1,
    matches: (values, extraValues) => !condition.matches(values, extraValues),
    explain: (values, extraValues, isNot) => (text === "" ? condition.explain(values, extraValues, !isNot)
      : isNot ? condition.explain(values, extraValues, false)
      : say.holdsButMustNot(text)),
  };
}

/**
 * Joins compiled conditions with `and` or `or`.
 * @param {"or" | "and"} operator
 * @param {CompiledCondition[]} parts
 * @param {string} text the text of the joined condition
 * @returns {CompiledCondition}
 */
function joinConditions(operator, parts, text) {
  const isAnd = operator === "and";
  return {
    address: -1,
    matches: (values, extraValues) => (
      isAnd ? parts.every((part) => part.matches(values, extraValues)) : parts.some((part) => part.matches(values, extraValues))
    ),
    explain: (values, extraValues, isNot) => {
      if (isNot) return say.holdsButMustNot(text);
      const failedParts = parts.filter(({ matches }) => !matches(values, extraValues));
      const messages = failedParts.map(({ explain }) => explain(values, extraValues, false));
      return isAnd ? messages[0] : messages.join("; ");
    },
  };
}

/**
 * Compiles a condition.
 * @param {ConditionNode} node
 * @param {Names} names
 * @param {Dependencies} dependencies collects the places that the condition depends on
 * @returns {CompiledCondition}
 */
export function compileConditionNode(node, names, dependencies) {
  return withErrorColumn(node.column, () => {
    if (node.kind === "not") {
      const isJoined = node.part.kind === "or" || node.part.kind === "and";
      return negateCondition(compileConditionNode(node.part, names, dependencies), isJoined ? node.part.text : "");
    }
    if (node.kind === "compare") return compileComparison(node, names, dependencies);
    if (node.kind === "values") return compilePlaceValues(node, names, dependencies);
    if (node.kind === "panel") return compilePanelState(node, names, dependencies);
    if (node.kind === "at") return compileProgramCounter(findLabelAddress(node.label, names), `@${node.label}`, names, dependencies);
    if (node.kind === "keyword") return compileKeyword(node, names, dependencies);
    return joinConditions(node.kind, node.parts.map((part) => compileConditionNode(part, names, dependencies)), node.text);
  });
}
