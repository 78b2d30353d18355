// Tests which lines can be folded.
import assert from "node:assert/strict";
import { readFileSync } from "node:fs";
import { test } from "node:test";
import { FOLD_PATTERNS, findFoldStart, findFoldEnd } from "../core/text/folding.js";

/** Returns the first and last line of each foldable range. Lines count from 1. */
function findFolds(text, parts) {
  const lines = text.split("\n");
  const lineAt = (line) => lines[line];
  return lines.map((_, line) => [line + 1, findFoldEnd(lineAt, line, parts) + 1]).filter(([line, last]) => last > line);
}

const PROGRAM = `; two lines
; of comment
limit = 7
        JUN start

; what it does
start:  LDM 0
loop:   IAC
        ; a word
        JUN loop

        NOP
; also a part of it
        NOP


; another one
; in two lines

put:    SRC P0
        BBL 0
last:   NOP
`;

test("subroutines with their loops, loops alone, and comment lines can be folded", () => {
  assert.deepEqual(findFolds(PROGRAM, FOLD_PATTERNS.program), [[1, 2], [7, 14], [8, 14], [17, 18], [20, 22]]);
});

test("a loop ends where another label or another part begins", () => {
  const program = "a: NOP\nb: NOP\n NOP\nc: NOP\n NOP\n\nd: NOP\n NOP\n";
  assert.deepEqual(findFolds(program, FOLD_PATTERNS.program), [[1, 5], [2, 3], [4, 5], [7, 8]]);
});

test("tables of a board and tests can be folded", () => {
  const board = "# face\n# more\n[[rom]]\nchip = 0\n\n[[ram]]\nbank = 0\nchips = 1\n\n# about keys\n[keys]\nfirst = 0\n";
  assert.deepEqual(findFolds(board, FOLD_PATTERNS.board), [[1, 2], [3, 4], [6, 8], [11, 12]]);
  assert.deepEqual(findFolds("# a\ntest one\n  run 1\ntest two\n  run 2\n  expect cycles 2\n", FOLD_PATTERNS.tests), [[2, 3], [4, 6]]);
  assert.deepEqual(findFolds("", FOLD_PATTERNS.program), []);
});

test("a line belongs to the innermost part that contains it", () => {
  const lines = PROGRAM.split("\n");
  const foldStartOf = (line) => findFoldStart((index) => lines[index], line - 1, FOLD_PATTERNS.program) + 1;
  assert.deepEqual([2, 3, 7, 9, 14, 16, 21].map(foldStartOf), [1, 0, 7, 8, 8, 0, 20]);
});

test("two parts are separate, or one contains the other", () => {
  const text = readFileSync(new URL("../../examples/calculator/calculator.asm", import.meta.url), "utf8");
  const folds = findFolds(text, FOLD_PATTERNS.program);
  assert.ok(folds.length > 50);
  for (const [first, last] of folds) {
    for (const [otherFirst, otherLast] of folds) {
      const isNested = (otherFirst >= first && otherLast <= last) || (otherFirst <= first && otherLast >= last);
      assert.ok(isNested || otherLast < first || otherFirst > last);
    }
  }
});
