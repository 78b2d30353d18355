// Tests the runner for program tests, on the page's WebAssembly module. checks/testing compares the results with those of `mcs4 test`,
// `cover` and `profile`.
import assert from "node:assert/strict";
import { readFileSync } from "node:fs";
import { before, test } from "node:test";
import { CancelledError } from "../core/bench/bench_errors.js";
import { formatCoverageSummary } from "../core/testing/coverage.js";
import { formatTenths } from "../core/bench/numbers.js";
import { createSampleTest } from "../core/testing/sample_test.js";
import { parseTestedTexts, runTests } from "../core/testing/test_suite.js";
import { Engine } from "../core/engine/engine.js";
import { pageModule } from "./page_session.js";

const readExample = (name) => readFileSync(new URL(`../../examples/${name}`, import.meta.url), "utf8");
const readThreeLamps = (name) => readExample(`three_lamps/${name}`);
const boardText = readThreeLamps("board.toml");
const programText = readThreeLamps("three_lamps.asm");
const textsOf = (name) => ({ boardText: readExample(`${name}/board.toml`), programText: readExample(`${name}/${name}.asm`) });
const createTexts = (testText, program = programText) => ({ boardText, programText: program, testText });
const alwaysContinue = async () => true;

/** @type {Engine} */
let engine;
before(async () => {
  engine = await Engine.load(pageModule);
});

test("tests pass, and their coverage and profile are counted", async () => {
  const { errors, outcomes, coverage, profile } = await runTests(engine, createTexts(readThreeLamps("three_lamps.test")), alwaysContinue);
  assert.deepEqual(errors, []);
  assert.deepEqual(outcomes.map(({ failure, cycles }) => [failure, cycles]), [[null, 1621], [null, 538]]);
  assert.equal(formatCoverageSummary(coverage), "20 of 20 instructions were run (100.0 %), 6 of 6 branch directions (100.0 %)");
  assert.deepEqual(coverage.lines.find(({ line }) => line === 18), { line: 18, count: 4, isJump: true, jumpCount: 1 });
  assert.equal(profile.total, 2159);
  assert.deepEqual(profile.rows.map(({ label, ownCycles }) => [label, ownCycles]),
    [["turn", 2084], ["next", 60], ["wait", 8], ["first", 4], ["", 3]]);
  assert.deepEqual(profile.rows[2].calls, { callCount: 4, cyclesWithCalls: 2092, longestCall: 523 });
});

test("a failing test reports its line and its trace, and provides the session at the failure", async () => {
  const fasterProgram = programText.replace("0x0C", "0x0D");
  const { outcomes } = await runTests(engine, createTexts(readThreeLamps("three_lamps.test"), fasterProgram), alwaysContinue);
  const { failure } = outcomes[1];
  const words = "536 cycles have passed, but the test expects 538";
  assert.deepEqual([failure.line, failure.text, failure.words], [14, "expect cycles 538", words]);
  assert.deepEqual([failure.cycles, failure.lamps], [536, ".*."]);
  assert.equal(failure.trace[0], "     522  01A C0    BBL 0            acc 0 cy 0  ret 000 000 01B");
  assert.equal(failure.trace[failure.trace.length - 1], "     536  007 50 14 JMS wait         comes next");
  assert.match(engine.ask(failure.file, "regs\n").answers[0], /^acc 2 cy 1 pc 007 owed 0 /);
});

test("a test whose start state was never saved is not run", async () => {
  const text = "test one\n expect acc 1\n save there\ntest two\n from there\n run 1\n";
  const { outcomes } = await runTests(engine, createTexts(text), alwaysContinue);
  assert.equal(outcomes[0].failure.words, "acc is 0, but must be 1");
  assert.equal(outcomes[1].failure.words, "the state there is missing, because the test `one` did not reach its `save`");
  assert.equal(outcomes[1].failure.file, null);
});

test("a comment can follow a line unless its mark is the name of a key", async () => {
  const text = "test a # 1 ; 2\n run 5   # a moment\n mark ;\n run 10 us ; # ;\n expect cycles 1 #\n expect lamps #none\n";
  const { errors } = parseTestedTexts(engine, createTexts(text));
  assert.deepEqual(errors.map(({ line, words }) => `${line}: ${words.slice(0, 26)}`), ["6: the board has no lamp #non"]);
  const { outcomes } = await runTests(engine, createTexts(text.replace("#none", "... ; dark")), alwaysContinue);
  assert.deepEqual(outcomes.map(({ name, failure }) => [name, failure]), [["a # 1 ; 2", null]]);
  const lockTexts = textsOf("lock");
  const testWithKeys = "test b\n press 1 # 2 ; keys\n release # ; the key #\n keys # ; #\n press x ; y\n";
  const [error, ...moreErrors] = parseTestedTexts(engine, { ...lockTexts, testText: testWithKeys }).errors;
  assert.deepEqual([error.line, moreErrors], [5, []]);
});

test("failures in `repeat` and shared steps have their iteration and the last passed label", async () => {
  const testLines = [
    "steps wait", " run 538",
    "test a", " run 7", " repeat 3", "  expect lamps right", "  repeat 3", "   do wait", "  end", " end",
    " mark", " repeat 2", "  repeat 5", "   do wait", "   expect cycles at most 2000", "  end", " end",
    "test b", " run 9", " until @first within 4",
  ];
  const { outcomes } = await runTests(engine, createTexts(testLines.join("\n")), alwaysContinue);
  assert.deepEqual([outcomes[0].cycles, outcomes[0].failure.line], [7 + 13 * 538, 15]);
  assert.equal(outcomes[0].failure.words,
    "2152 cycles have passed, but the test expects at most 2000; "
      + "in pass 4 of 5 of the repeat at line 13, in pass 1 of 2 of the repeat at line 12");
  assert.equal(outcomes[1].failure.words, "it did not become true within 4 cycles: pc is 016 (turn), but must be @first; "
    + "the last label passed is turn, 2 cycles ago; @first was last passed 10 cycles ago");
});

test("`until` reads `owed` at the end of an instruction, where it is 0", async () => {
  const text = "test a\n until owed = 1 within 100\ntest b\n run 1\n until owed = 0 within 1\n";
  const { outcomes } = await runTests(engine, createTexts(text), alwaysContinue);
  assert.match(outcomes[0].failure.words, /^it did not become true within 100 cycles: owed is 0, but must be 1;/);
  assert.deepEqual([outcomes[1].failure, outcomes[1].cycles], [null, 2]);
});

test("a test with many repetitions can be cancelled", async () => {
  const text = "test a\n repeat 100000\n  run 100000\n end\n";
  let callCount = 0;
  await assert.rejects(() => runTests(engine, createTexts(text), async () => ++callCount < 3), CancelledError);
  assert.equal(callCount, 3);
});

test("if the texts have errors, they are reported and no test is run", async () => {
  const testText = "test a\n  until lamps green within 10 ms\n  press x\n  run 10 years\n";
  const report = await runTests(engine, createTexts(testText), alwaysContinue);
  assert.deepEqual(report.errors.map(({ text, line, words }) => `${text}:${line}: ${words}`), [
    "tests:2: the board has no lamp green; it has: left middle right (column 9)",
    "tests:3: the board has no key x; its text names no keys (`# row 0: NAME ..`)",
    "tests:4: write `run TIME`, as in: run 500, run 20 ms, run 1.5 s",
  ]);
  assert.deepEqual([report.outcomes, report.coverage, report.profile], [[], null, null]);
  assert.deepEqual(parseTestedTexts(engine, createTexts("", " JUN nowhere\n")).errors,
    [{ text: "program", line: 1, number: 32, words: "" }]);
  assert.equal(parseTestedTexts(engine, { ...createTexts(""), boardText: "rom = 3\n" }).errors[0].text, "board");
  const [lampError] = parseTestedTexts(engine, { ...createTexts(""), boardText: `# lamp 7: x\n${boardText}` }).errors;
  assert.equal(lampError.words, "the lamp x is number 7, but the board has 3");
  assert.equal(parseTestedTexts(engine, createTexts("")).errors[0].words, "there is no line `test NAME`");
  assert.match(parseTestedTexts(engine, createTexts("test a\n run 1 \u00fc\n")).errors[0].words, /^a byte that is neither/);
});

test("long work is cancelled between pieces", async () => {
  let callCount = 0;
  const shouldContinue = async () => {
    callCount += 1;
    return callCount < 3;
  };
  await assert.rejects(runTests(engine, createTexts("test for ever\n until r15 9 within 10000 s\n"), shouldContinue), CancelledError);
  assert.equal(callCount, 3);
});

test("ROM bytes that a test sets are counted only in its own run", async () => {
  // The test replaces ISZ R3, which takes two cycles, with two NOPs. A NOP takes one cycle.
  const text = "test a\n set rom.0x016 0\n set rom.0x017 0\n run 20\n save s\ntest b\n from s\n run 20\ntest c\n run 20\n";
  const { outcomes, profile } = await runTests(engine, createTexts(text), alwaysContinue);
  assert.deepEqual(outcomes.map(({ failure }) => failure), [null, null, null]);
  assert.equal(profile.total, profile.rows.reduce((sum, { ownCycles }) => sum + ownCycles, 0) + profile.earlierInstructionCycles);
});

test("tenths are rounded half to even, as by printf", () => {
  const formattedNumbers = [0, 6.25, 93.75, 0.05, 33.3333, 99.96, 0.75, 20.25].map(formatTenths);
  assert.deepEqual(formattedNumbers, ["0.0", "6.2", "93.8", "0.1", "33.3", "100.0", "0.8", "20.2"]);
});

test("the sample test presses the first key and expects what the bench shows then, so it passes", async () => {
  const sampleOf = async (sampleTexts) => {
    const testText = await createSampleTest(engine, sampleTexts);
    const { errors, outcomes } = await runTests(engine, { ...sampleTexts, testText }, alwaysContinue);
    assert.deepEqual([errors, outcomes.map(({ failure }) => failure)], [[], [null]]);
    return testText.split("\n").slice(2, -1).map((line) => line.trim());
  };
  assert.deepEqual(await sampleOf(textsOf("calculator")), ["test 50 ms after the key 7", "press 7", "run 50 ms", "expect display 7"]);
  assert.deepEqual(await sampleOf(textsOf("clock")), ["test 50 ms after the key SET", "press SET", "run 50 ms", "expect display 1200"]);
  assert.deepEqual(await sampleOf(textsOf("lock")), ["test 50 ms after the key 1", "press 1", "run 50 ms", "expect lamp locked on"]);
  assert.deepEqual(await sampleOf(textsOf("stacker")),
    ["test 50 ms after the key DROP", "press DROP", "run 50 ms", "expect not lamps none"]);
  assert.deepEqual(await sampleOf(textsOf("three_lamps")), ["test 50 ms after power-on", "run 50 ms", "expect lamp left on"]);
  assert.deepEqual(await sampleOf({ boardText: "", programText: "" }), ["test 50 ms after power-on", "run 50 ms", "expect lamps none"]);
});

test("the sample test for texts with errors, or for a program that stops, expects only its cycles", async () => {
  for (const program of [" what", " DB 0x01"]) {
    const [, , ...lines] = (await createSampleTest(engine, { boardText, programText: program })).trimEnd().split("\n");
    assert.deepEqual(lines, ["test it has run for 100 cycles", "  run 100", "  expect cycles 100"]);
  }
});
