// Tests the formatting of programs: the columns, the parts that stay unchanged, and that no line loses or changes a word.
import assert from "node:assert/strict";
import { test } from "node:test";
import { readFileSync, readdirSync } from "node:fs";
import { findLineChanges, findLengthError, formatProgramLines } from "../core/text/program_format.js";

const EXAMPLES = new URL("../../examples/", import.meta.url);
const isMnemonic = (word) => ["ORG", "DB", "LD", "LDM", "FIM", "JUN", "JMS", "JCN", "NOP", "SRC", "WRM", "BBL"].includes(word);
const BLANK_LAYOUT = { tabSize: 8, insertSpaces: true };
const format = (text, layout = BLANK_LAYOUT) => formatProgramLines(text.split("\n"), isMnemonic, layout).join("\n");

test("labels, instructions, operands and comments have columns", () => {
  assert.equal(format("start:LDM 5;five\n\tld r3 ;three\nb:  DB  1,2 ,3"), [
    "start:  LDM 5           ;five",
    "        ld  r3          ;three",
    "b:      DB  1, 2, 3"].join("\n"));
  assert.equal(format("a_long_label: JUN a_long_label ; to itself"), "a_long_label: JUN a_long_label  ; to itself");
  assert.equal(format(" only : "), "only:");
  assert.equal(format("NOP\n  \n\t\nNOP  "), "        NOP\n\n\n        NOP");
});

test("consecutive definitions have their equals signs in one column", () => {
  assert.equal(format("a=1\nlonger =0x2 ; two\n\nb=3"), "a      = 1\nlonger = 0x2            ; two\n\nb = 3");
});

test("a comment line is aligned with the margin, the statements or the comments", () => {
  assert.equal(format("; a\n   ; b\n                  ; c\n LDM 5 ; d\n\t\t\t; e"),
    ["; a", "        ; b", "                        ; c", "        LDM 5           ; d", "                        ; e"].join("\n"));
  assert.equal(format(" DB 1, 2, 3, 4, 5, 6 ; d\n                        ; e"),
    ["        DB  1, 2, 3, 4, 5, 6    ; d", "                                ; e"].join("\n"));
});

test("lines with errors stay unchanged", () => {
  const invalidLines = [" JMP  x", "a : b : NOP", "  LDM  5  5", "LDM 5,,6", "x == 3", "  NOP \u00e9", " 1x: NOP", "\u00a0 NOP",
    "a = b = 3", "R 3,"];
  for (const line of invalidLines) {
    assert.equal(format(line), line);
  }
  const longLine = ` DB ${Array(120).fill("1").join(",")} `;
  assert.equal(format(longLine), longLine, "a line that would be too long to be sent");
});

test("tabs are used if the layout requests them", () => {
  const layout = { tabSize: 8, insertSpaces: false };
  assert.equal(format("start: LDM 5 ; five\n  LD R3", layout), "start:\tLDM 5\t\t; five\n\tLD  R3");
  assert.equal(format("LDM 5", { tabSize: 4, insertSpaces: false }), "\t\tLDM 5");
});

test("formatting keeps the words of the examples, and a second formatting changes nothing", () => {
  const wordsOf = (line) => [line.replace(/;.*/, "").replace(/\s+/g, ""), line.replace(/^[^;]*/, "").trim()];
  for (const name of readdirSync(EXAMPLES)) {
    if (name.includes(".")) continue;
    const lines = readFileSync(new URL(`${name}/${name}.asm`, EXAMPLES), "utf8").split("\n");
    for (const layout of [BLANK_LAYOUT, { tabSize: 8, insertSpaces: false }, { tabSize: 3, insertSpaces: false }]) {
      const formattedLines = formatProgramLines(lines, () => true, layout);
      assert.deepEqual(formattedLines.map(wordsOf), lines.map(wordsOf), name);
      assert.deepEqual(formatProgramLines(formattedLines, () => true, layout), formattedLines, name);
    }
  }
});

test("an edit replaces only the different characters, and a text that would be too long is reported", () => {
  assert.deepEqual(findLineChanges(["a: NOP", "same", "LD R3"], ["a:      NOP", "same", "LD  R3"]), [
    { line: 0, from: 3, to: 3, text: "     " }, { line: 2, from: 3, to: 3, text: " " }]);
  assert.equal(findLengthError(["NOP"]), "");
  assert.match(findLengthError(Array(2000).fill("        a: NOP NOP NOP")), /would have 30,000 characters; at most 16,384/);
  assert.match(findLengthError(Array(2000).fill(`NOP ;${"x".repeat(40)}`)), /; at most 65,536/);
});

test("long lines of blanks are formatted in time proportional to their length", () => {
  const startUsage = process.cpuUsage();
  const blanks = " ".repeat(60000);
  for (const line of [`${blanks}\u00e9`, `a${blanks}b`, `a:${blanks}=`, `DB 1${" ,".repeat(30000)}`, "1".repeat(60000)]) format(line);
  // The limit is in microseconds of processor time.
  assert.ok(process.cpuUsage(startUsage).user < 2e6);
});
