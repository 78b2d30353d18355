// Tests the import of programs in the syntax of Intel's assembler and of the assembler AS. (`checks/tools import` tests whole programs,
// whose bytes were assembled manually.)
import assert from "node:assert/strict";
import { test } from "node:test";
import { evaluate } from "../core/import/expressions.js";
import { importProgram } from "../core/import/program_import.js";

const names = { isDefined: (name) => name === "X" || name === "LATER", valueOf: (name) => (name === "X" ? 5 : undefined) };

test("expressions have the values that Intel's assembler gives them", () => {
  const values = {
    "20H": 32, "$2A": 42, "0x1F": 31, "101B": 5, "17Q": 15, "%11": 3, "12D": 12, "'A'": 65, "X+2*3": 11, "(X+2)*3": 21, "-X": -5,
    "<X+255": 4, ">100H+X": 1, "LOW(1FFH)": 255, "HIGH(1FFH)": 1, "0FF0H&0F0H": 240, "7/2": 3, "$+2": 18, "*-1": 15,
  };
  for (const [text, value] of Object.entries(values)) {
    assert.deepEqual(evaluate(text, 16, names), { value, isKnown: true, error: "" }, text);
  }
});

test("an invalid expression has an error, and the value of an undefined name is unknown", () => {
  const errors = { "1+": "an operand is missing", "(1": "a bracket is missing", "1/0": "division by 0", Y: "no line defines the name Y",
    "9Z": "`9Z` is not a number", "1 2": "`2` is not understood", "'\u00e4'": "'\u00e4' has a character that is not ASCII" };
  for (const [text, error] of Object.entries(errors)) assert.equal(evaluate(text, 0, names).error, error);
  assert.deepEqual(evaluate("LATER+1", 0, names), { value: 1, isKnown: false, error: "" });
  assert.match(evaluate("(".repeat(60), 0, names).error, /more than 50 nested brackets/);
});

test("long names with a common beginning stay distinct, and each line has at most one error", () => {
  const { text } = importProgram("ABCDEFGHIJKLMNOPQ EQU 1\nABCDEFGHIJKLMNOPR EQU 2\nABCDEFGHIJKLMN_2 EQU 3\n");
  assert.equal(text, "ABCDEFGHIJKLMNOP = 1\nABCDEFGHIJKLMN_2 = 2\nABCDEFGHIJKLMN_3 = 3\n");
  const { errors } = importProgram(" LDM nowhere+(\n FOO\n");
  assert.deepEqual(errors.map(({ line }) => line), [1, 2]);
});
