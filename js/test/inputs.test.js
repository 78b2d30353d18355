import assert from "node:assert/strict";
import { test } from "node:test";
import { findInputEnd, joinLines, matchAnswers, readInputs } from "../core/bench/inputs.js";

const describeInputs = (lines) => readInputs(lines).map(({ kind, text }) => (text.length > 0 ? `${kind}+${text.length}` : kind));

test("lines are split into inputs: commands, texts, blank lines, carriage returns", () => {
  assert.deepEqual(describeInputs("run 5\n\n \t\nasm\nNOP\nwire\n.\nseq\r\n"), ["run", "asm+2", "seq"]);
  assert.deepEqual(describeInputs("map\r\nNOP\r\n.\r\nlamps"), ["map+1", "lamps"]);
});

test("a text begins after its command word alone, and a line that is too long is an input without a kind", () => {
  assert.deepEqual(describeInputs("wire now\nseq\n"), ["wire", "seq"]);
  assert.deepEqual(describeInputs(`${"x".repeat(256)}\n${" ".repeat(256)}\nseq\n`), ["", "", "seq"]);
  assert.deepEqual(describeInputs(`asm${" ".repeat(253)}\nseq\n`), ["", "seq"]);
});

test("lines are split between inputs, never within a text", () => {
  const lines = "run 1\nasm\nNOP\nNOP\n.\nseq\n";
  const pieces = [1, 6, 7, 20, 100].map((size) => lines.slice(0, findInputEnd(lines, 0, size)));
  assert.deepEqual(pieces, ["run 1\n", "run 1\n", "run 1\nasm\nNOP\nNOP\n.\n", "run 1\nasm\nNOP\nNOP\n.\n", lines]);
  assert.equal(findInputEnd("asm\nNOP\nNOP", 0, 1), 11);
  assert.equal(findInputEnd("seq", 0, 1), 3);
});

test("pieces of the lines have the same inputs as all lines together", () => {
  const lines = "seq\nwire\n[[rom]]\nchip = 0\n.\r\n\nlamps\nasm\n.\nregs\nmap\nNOP";
  for (let size = 1; size < lines.length; size++) {
    const inputs = [];
    for (let start = 0; start < lines.length;) {
      const end = findInputEnd(lines, start, size);
      inputs.push(...readInputs(lines.slice(start, end)));
      start = end;
    }
    assert.deepEqual(inputs, readInputs(lines));
  }
});

test("answers are matched to their inputs", () => {
  const inputs = readInputs(joinLines(["seq", "ram 0", "list 0 2", "list 0 1", "ram 9", "board", "run 5"]));
  const answers = [["seq 4"], ["ram 0 chips 1", "0.0.0 2000000000000000 0000", "0.0 out 1"], ["000 00    NOP", "001 00    NOP"],
    ["000 00    NOP"], ["no 11"], ["board", "[[rom]]", "chip = 0"], ["ok 5 ran 5 end"]];
  assert.deepEqual(matchAnswers(inputs, answers.flat()), answers);
  assert.deepEqual(matchAnswers(inputs, ["seq 4"]).slice(0, 2), [["seq 4"], []]);
});

test("the lines of a map's answer are matched to the map", () => {
  const inputs = readInputs("map\nNOP\n.\nmap\n.\nseq\n");
  const answers = [["map lines 1 names 1", "line 1 000 1", "name ON 00A"], ["map lines 0 names 0"], ["seq 1"]];
  assert.deepEqual(matchAnswers(inputs, answers.flat()), answers);
});

test("a listing ends after the last address, and the next listing can begin at a higher address", () => {
  const inputs = readInputs(joinLines(["list 4094 9", "list 4095 9", "list 0 1", "list 5 1"]));
  const answers = [["FFE 40 24 JUN 0x024"], ["FFF 00    NOP"], ["000 00    NOP"], ["005 00    NOP"]];
  assert.deepEqual(matchAnswers(inputs, answers.flat()), answers);
});

test("a map has as many rows as its first line says", () => {
  const inputs = readInputs("map\n.\nlist 0 1\n");
  assert.deepEqual(matchAnswers(inputs, ["map lines 2 names 1", "line 1 000 1", "line 2 001 0"])[0].length, 3);
  assert.deepEqual(matchAnswers(inputs, ["map lines 0 names 0", "line 1 000 1"]), [["map lines 0 names 0"], ["line 1 000 1"]]);
});
