// Tests the syntax forms of lines. They must reject a line with the same error number as the bench, and the message must name the wrong
// word.
import assert from "node:assert/strict";
import { test } from "node:test";
import { ANSWER_FORMATS } from "../core/bench/answer_table.js";
import { parseRefusal } from "../core/bench/answers.js";
import { findLineError } from "../core/bench/line_forms.js";
import { Engine } from "../core/engine/engine.js";
import { LINES_BY_GROUPS } from "../words/lines.js";
import { pageModule } from "./page_session.js";

const engine = new Engine(new globalThis.WebAssembly.Module(pageModule));
const LINE_REFUSALS = [10, 11, 12, 14];
const WORDS = [...ANSWER_FORMATS.keys(), ...`acc cy pc dcl r0 r15 r16 rx
  rom.0 rom.4096 rom.x ram.0.0 ram.7.255 ram.8.1 ram.0.256 ram.0 ram0.0 ram0.4
  ram7.3.3 ram8.0.0 st.0.0.0 st.7.15.3 st.0.16.0 st.0.0.4 rom0 rom16 rom15.3 rom0.4 chain0 chain4 chain3.79
  chain0.80 lamps ret src ret0 bogus 0 1 2 7 8 15 16 255 256 4095 4096 100000 100001 4294967295 4294967296 0x0F
  0X0F 0x -1 1.0 00012 0xfff 0x1000 99999999999999999999 r0x1 r01`.split(/\s+/)];

/** Returns a function that returns a pseudo-random number below its argument. The same seed gives the same numbers. */
function createRandom(seed) {
  let state = seed;
  return (limit) => {
    state = (Math.imul(state, 1103515245) + 12345) & 0x7fffffff;
    return (state >>> 8) % limit;
  };
}

/** Returns the error number with which the bench rejects the syntax of a line, or 0 if the bench accepts the syntax. */
function benchRefusalOf(line) {
  const refusal = parseRefusal(engine.ask(engine.begin(), `${line}\n`).answers[0] || "");
  return refusal && LINE_REFUSALS.includes(refusal.number) ? refusal.number : 0;
}

const pageRefusalOf = (line) => (findLineError(line) || { number: 0 }).number;

test("random lines are rejected with the same number as by the bench", () => {
  const randomBelow = createRandom(4004);
  const firstWords = [...ANSWER_FORMATS.keys(), "poke", "poke", "trace", "trace", "list", "watch"];
  for (let round = 0; round < 6000; round++) {
    const firstWord = randomBelow(8) === 0 ? WORDS[randomBelow(WORDS.length)] : firstWords[randomBelow(firstWords.length)];
    const argumentCount = randomBelow(10) === 0 ? randomBelow(20) : randomBelow(4);
    const words = [firstWord, ...Array.from({ length: argumentCount }, () => WORDS[randomBelow(WORDS.length)])];
    const line = words.join(randomBelow(5) === 0 ? "\t " : " ");
    // These commands open a text, so the bench does not answer them yet.
    if (/^(wire|asm|map|wiring|errors)$/.test(line)) continue;
    assert.equal(pageRefusalOf(line), benchRefusalOf(line), line);
  }
});

test("numbers at the limits of their ranges are accepted or rejected as by the bench", () => {
  const lines = [
    "list 0 0", "list 0 1", "list 4095 256", "list 0 257", "list 4096 1", "count 0", "count 1", "count 100000", "count 100001",
    "run 0", "run 4294967295", "run 4294967296", "test 1", "test 2", "break 4095", "break 4096", "ram 7", "ram 8", "watch 7 255",
    "watch 7 256", "watch 8 0", "press 255 255", "press 256 0", "press 0 256", "poke pc 4095", "poke pc 4096", "poke cy 2",
    "poke dcl 8", "poke rom.4095 255", "poke rom.0 256", "poke st.7.15.3 15", "poke st.7.15.3 16", "trace 1 chain3.79",
    "trace 1 chain3.80", "trace 0 acc",
  ];
  for (const line of lines) assert.equal(pageRefusalOf(line), benchRefusalOf(line), line);
});

test("lines that are too long or have invalid characters are rejected as by the bench", () => {
  const lines = ["", "  \t", " ".repeat(256), `seq${" ".repeat(252)}`, `seq${" ".repeat(253)}`, "seq\x01", "seq é", "seq ; \x7f", " seq "];
  for (const line of lines) {
    assert.equal(pageRefusalOf(line), benchRefusalOf(line), JSON.stringify(line));
  }
});

test("the message names the wrong word", () => {
  for (const [line, message] of [
    ["bogus", "bogus is not a command; help shows the commands"],
    ["pres 1 2", "pres is not a command; did you mean press?"],
    ["press 1", "press is written as: press r c"],
    ["asm x", "asm is written as: asm, then a text"],
    ["run 5 5", "run is written as: run n"],
    ["press 1 256", "256 is not a number from 0 to 255"],
    ["poke r16 1", "there is no place r16; help places shows which numbers are allowed in it"],
    ["poke rx 1", "rx is not a place; did you mean r0 or r1?"],
    ["poke foo 1", "foo is not a place; help places shows the places"],
    ["poke acc 16", "16 is not a number from 0 to 15"],
    ["count 0", "0 is not a number from 1 to 100,000"],
    ["test two", "two is not a number from 0 to 1"],
    [`trace 1 ${"acc ".repeat(17)}`, "trace has at most 16 places"],
    ["seq é", "a line can have only ASCII characters and tabs; this one has é"],
    ["seq \x01", "a line can have only ASCII characters and tabs; this one has the byte 01"],
    ["x".repeat(300), "the line has 300 characters; a line has at most 255"],
  ]) assert.equal(findLineError(line).message, message, line);
  assert.equal(findLineError("poke ram.0.0x3F 15"), null);
});

test("the help has each line of the bench once", () => {
  const forms = LINES_BY_GROUPS.flatMap(({ lines }) => lines.map(([form]) => form.split(/[ ,]/)[0]));
  assert.deepEqual([...forms].sort(), [...ANSWER_FORMATS.keys()].sort());
});
