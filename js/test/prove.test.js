// Tests the questions to the prover and its answers. Conditions become comparisons with the same meaning in every state. The values that
// the prover reports become key presses and a test.
import assert from "node:assert/strict";
import { test } from "node:test";
import { matrixKey } from "../core/board/key_place.js";
import { compileTracedCondition } from "../core/conditions/condition_language.js";
import { Engine } from "../core/engine/engine.js";
import { readCampaign } from "../core/explore/campaign.js";
import { createSubject } from "../core/explore/subject.js";
import { createRandom } from "../core/explore/walks.js";
import { replayCounterexample } from "../core/prove/counterexample.js";
import { listComparisons } from "../core/prove/condition_comparisons.js";
import { listMistakes, countCyclesToMistake } from "../core/prove/mistakes.js";
import {
  MAX_STOPWATCH_CYCLES, MAX_PRESSES, createQuestion, createMistakeQuestion, createNeverQuestion, formatQuestion, readAnswer,
} from "../core/prove/question.js";
import { findExitStatus, formatTapHeader, formatJudgedTap } from "../core/prove/verdicts.js";
import { runTests } from "../core/testing/test_suite.js";
import { NullRecorder } from "../core/testing/recorders.js";
import { pageModule } from "./page_session.js";
import { DRIVE_ROW_0 } from "./drive_row.js";

const engine = new Engine(new globalThis.WebAssembly.Module(pageModule));

// If key A is down at 16 successive reads, the program switches the lamp named `on` on. The program counts these reads in R5 and writes the
// count to the port of the second RAM chip.
const BOARD = `# row 0: A B C
# lamp 0: on
# test: button WALK
lamp = [{ line = "ram0.0.0" }, { line = "rom0.3" }, { line = "chain0.2" }]
rom = [{ chip = 0, port = "0000" }, { chip = 1, port = "iii1" }]
ram = [{ bank = 0, chips = 2 }]
[[chain]]
clock = "rom0.0"
data = "rom0.1"
chips = 1
[keys]
chain = 0
first = 0
rows = 1
columns = ["rom1.1", "rom1.2", "rom1.3"]
`;
const PROGRAM = `${DRIVE_ROW_0}look:   SRC P2
        RDR
        XCH R6
        SRC P1
        INC R8
        LD R6
        RAR
        RAR
        JCN 10, look    ; A is up
        ISZ R7, look
        LDM 1
lit:    WMP
        JUN lit
`;
const subject = createSubject(engine, BOARD, PROGRAM);
const { board } = subject.names;

/** For each kind of cell in a question, a function that returns a list with the name of the cell's place. */
const PLACE_BY_CELL = {
  register: (index) => [`r${index}`],
  character: (index) => [`ram.${Math.floor(index / 256)}.${index % 256}`],
  status: (index) => [`st.${Math.floor(index / 64)}.${Math.floor(index / 4) % 16}.${index % 4}`],
  ramport: (index) => [`ram${Math.floor(index / 4)}.${index % 4}`],
  chain0: (index) => [`chain0.${index}`],
  romport: (index) => [`rom${index}`],
  counter: (index) => [["acc", "cy", "dcl", "owed", "pc", "pc", "", "", "", "", "", "", "src"][index]],
};

/** @type {(state: Uint8Array, comparison: string) => boolean} */
function isMet(state, comparison) {
  const [relation, list, index, part, low, high] = comparison.split(" ");
  const [place] = PLACE_BY_CELL[list](Number(index));
  let value;
  if (place === "owed") value = Number(engine.ask(state, "regs\n").answers[0].split(" ")[7]);
  else value = parseInt(engine.ask(state, `trace 1 ${place}\n`).answers[0].split(" ").pop(), 16);
  if (place === "pc") value = index === "4" ? value >> 8 : value & 255;
  // Lines 1 to 3 of ROM 1 are inputs, so their bits in the port's latch are 0.
  if (place === "rom1") value &= 1;
  if (part !== "whole") value = (value >> Number(part.slice(4))) & 1;
  return (Number(low) <= value && value <= Number(high)) === (relation === "in");
}

/**
 * Yields session files in which the places that conditions read have random values: registers, RAM nibbles, status characters and others.
 */
function* generateRandomStates() {
  const random = createRandom(5);
  const randomUpTo = (maximum) => Math.floor(random() * (maximum + 1));
  for (let round = 0; round < 25; round++) {
    const file = subject.file.slice();
    const lines = [...[5, 6, 7, 8].map((register) => `poke r${register} ${randomUpTo(15)}`), `poke acc ${randomUpTo(15)}`,
      `poke cy ${randomUpTo(1)}`,
      `poke ram.0.${randomUpTo(3)} ${randomUpTo(15)}`, "press 0 0", `run ${1 + randomUpTo(120)}`, `poke st.0.1.2 ${randomUpTo(15)}`,
        `poke r5 ${randomUpTo(2)}`,
      `poke dcl ${randomUpTo(7)}`];
    engine.serve(file, lines.map((line) => `${line}\n`).join(""), file);
    yield file;
  }
}

const CONDITIONS = [
  "r5 = 1", "r5 > 3 and not r6 = 2", "r5 + r7 > 9", "p3 = 0x31", "acc = 3 or cy = 1", "lamp on on", "lamps *..", "lamps none",
  "not lamps ?*?", "lamp 2 on or lamp 1 off", "lamps = 5", "ram.0.1 2", "ram.0.0 0 0 0", "st.0.1.2 > 7", "pc > 0x010 and pc < 0x018",
  "@look", "dcl = 2 or src = 0x10", "chain0 1?????????", "chain0.2 = 0", "rom0 out 3", "ram0.0 out 1", "ram0.1 = 0", "rom1 out 1",
  "r5 - r7 = 0", "r5 & 3 = 1", "r5 >= 0",
];

const questionOf = (text, usedSubject = subject) => (
  createQuestion(readCampaign(`press A\n${text}`, usedSubject).campaign.properties[0], { from: null }, usedSubject));

test("comparisons have the same meaning as their condition", () => {
  const states = [...generateRandomStates()];
  for (const text of CONDITIONS) {
    const { condition, error } = compileTracedCondition(text, subject.names);
    assert.ok(condition, `${text}: ${error}`);
    for (const expected of [true, false]) {
      const lists = listComparisons(condition, expected, board);
      for (const state of states) {
        const values = condition.places.map((place) => engine.ask(state, `trace 1 ${place}\n`).answers[0].split(" ").slice(6).join(" "));
        const owed = engine.ask(state, "regs\n").answers[0].split(" ")[7];
        const holds = condition.holds(values, { test: "", owed, keys: "", cycles: 0, lampForecast: [], printed: [] });
        const isBroken = lists.some((comparisons) => comparisons.every((comparison) => isMet(state, comparison)));
        assert.equal(isBroken, holds === expected, `${text}, ${expected}: ${JSON.stringify(lists)} ${values}`);
      }
    }
  }
});

test("conditions become few comparisons", () => {
  const listsOf = (text, expected = true) => listComparisons(compileTracedCondition(text, subject.names).condition, expected, board);
  assert.deepEqual(listsOf("r5 > 3"), [["in register 5 whole 4 15"]]);
  assert.deepEqual(listsOf("lamp on on and r5 = 2"), [["in ramport 0 line0 1 1", "in register 5 whole 2 2"]]);
  assert.deepEqual(listsOf("lamp on on and r5 = 2", false).length, 3);
  assert.deepEqual(listsOf("r5 >= 0"), [[]]);
  assert.deepEqual(listsOf("r5 >= 0", false), []);
  assert.deepEqual(listsOf("@look"), [["in counter 3 whole 0 0", "in counter 4 whole 0 0", "in counter 5 whole 9 9"]]);
});

test("a condition about a display becomes comparisons of its lamps", () => {
  const lamps = [3, 2, 1, 0].map((line) => `{ line = "ram0.0.${line}" }`);
  const text = `# display 0: 1 digit\nlamp = [${lamps}]\nrom = [{ chip = 0, port = "0000" }]\nram = [{ bank = 0, chips = 1 }]\n`;
  const { names } = createSubject(engine, text, "loop:   JUN loop\n");
  const listsOf = (words) => listComparisons(compileTracedCondition(words, names).condition, true, names.board);
  assert.deepEqual(listsOf("display 3"),
    [["in ramport 0 line3 0 0", "in ramport 0 line2 0 0", "in ramport 0 line1 1 1", "in ramport 0 line0 1 1"]]);
  assert.deepEqual(listsOf("display 12"), []);
});

test("conditions that use inputs, or too many places, are rejected with a reason", () => {
  assert.deepEqual(questionOf("never rom1 in 3"), { question: null, reason: "its condition uses rom1, an input" });
  assert.deepEqual(questionOf("never rom1.1 = 1 for 1 ms"), { question: null, reason: "its condition uses rom1.1, an input" });
  assert.match(questionOf("never r0 + r1 + r2 + r3 + r4 = 9").reason, /uses too many places/);
  assert.match(questionOf("after press A within 1 ms lamp on on").reason, /of the form "after press" cannot be proved yet/);
  assert.match(questionOf("@look at most once for each press").reason, /of the form "once" cannot be proved yet/);
  assert.equal(questionOf("while r0 = 2, never r1 = 1").question.forbidden.length, 1);
});

/** The conditions that the machine is at address 0, at the label look, and at the label lit. */
const AT_ADDRESS_0 = ["in counter 3 whole 0 0", "in counter 4 whole 0 0", "in counter 5 whole 0 0"];
const AT_LOOK = [...AT_ADDRESS_0.slice(0, 2), "in counter 5 whole 9 9"];
const AT_LIT = [...AT_ADDRESS_0.slice(0, 2), "in counter 5 whole 22 22"];

test("a property with a time becomes a question about a stopwatch with the same limit in cycles", () => {
  const stopwatchOf = (text) => questionOf(text).question.stopwatch;
  const [lampOn, lampOff] = [[["in ramport 0 line0 1 1"]], [["in ramport 0 line0 0 0"]]];
  assert.deepEqual(stopwatchOf("never lamp on on for 93"), { startCondition: lampOn, endCondition: lampOff, maxCycles: 93 });
  assert.deepEqual(stopwatchOf("never lamp on on for 1 ms"), { startCondition: lampOn, endCondition: lampOff, maxCycles: 93 });
  assert.deepEqual(stopwatchOf("every 20 @look"), { startCondition: [AT_ADDRESS_0, AT_LOOK], endCondition: [AT_LOOK], maxCycles: 20 });
  assert.deepEqual(stopwatchOf("@look to @lit within 7"), { startCondition: [AT_LOOK], endCondition: [AT_LIT], maxCycles: 7 });
  assert.deepEqual(stopwatchOf("@look to @look within 7"), { startCondition: [AT_LOOK], endCondition: [AT_LOOK], maxCycles: 7 });
  // A `while` guard becomes part of the condition.
  const { startCondition, endCondition } = stopwatchOf("while r5 = 2, never lamp on on for 93");
  assert.deepEqual(startCondition, [["in register 5 whole 2 2", "in ramport 0 line0 1 1"]]);
  assert.equal(endCondition.length, 3);
  assert.equal(stopwatchOf("never lamp on on"), null);
});

test("a condition with a time is also evaluated between the two cycles of an instruction", () => {
  const { startCondition, endCondition } = questionOf("never @look for 9").question.stopwatch;
  assert.deepEqual(startCondition, [AT_LOOK.slice(1)]);
  assert.ok(endCondition.flat().every((comparison) => !comparison.startsWith("in counter 3 ")));
});

test("a condition that is always or never true also has both lists of comparisons", () => {
  const { stopwatch: alwaysTrue } = questionOf("never r5 >= 0 for 9").question;
  assert.deepEqual(alwaysTrue, { startCondition: [[]], endCondition: [["in register 0 whole 1 0"]], maxCycles: 9 });
  const { stopwatch: neverTrue } = questionOf("never r5 > 15 for 9").question;
  assert.deepEqual(neverTrue, { startCondition: [["in register 0 whole 1 0"]], endCondition: [[]], maxCycles: 9 });
});

test("key presses become a question about the rows and columns of the key matrix", () => {
  const pressesOf = (text) => questionOf(text).question.presses;
  const on = [["in ramport 0 line0 1 1"]];
  const [a, c] = [{ kind: "matrix", row: 0, column: 0 }, { kind: "matrix", row: 0, column: 2 }];
  assert.deepEqual(pressesOf("lamp on on only after press A, press C, press A"), { openCondition: on, keys: [a, c, a] });
  assert.deepEqual(pressesOf("@lit only after press C"), { openCondition: [AT_LIT], keys: [c] });
  // A condition is evaluated between the two cycles of an instruction as well as after them. A label is reached only when an instruction
  // begins.
  assert.deepEqual(pressesOf("@lit or @look only after press C").openCondition, [AT_LOOK.slice(1), AT_LIT.slice(1)]);
  assert.deepEqual(pressesOf("r5 > 15 only after press C").openCondition, [["in register 0 whole 1 0"]]);
  assert.equal(pressesOf("never lamp on on"), null);
});

test("key presses that the prover cannot count are rejected with a reason", () => {
  const refusalOf = (text, usedSubject) => questionOf(text, usedSubject).reason;
  assert.match(refusalOf("lamp on on only after press A, press WALK"), /^WALK is at the TEST pin/);
  assert.match(refusalOf("rom1 in 3 only after press A"), /^its condition uses rom1, an input/);
  const questionWithPresses = (count) => questionOf(`lamp on on only after ${Array(count).fill("press A").join(", ")}`);
  assert.equal(questionWithPresses(MAX_PRESSES).question.presses.keys.length, 100);
  assert.match(questionWithPresses(MAX_PRESSES + 1).reason, /^it names more than 100 presses/);
  // JIN and BBL can jump from `same` to `same` in one cycle. The prover would not detect that the label is reached again.
  for (const [code, isAllowed] of [["JIN P0", false], ["BBL 0", false], ["FIN P0", true], ["JUN same", true]]) {
    const jumpSubject = createSubject(engine, BOARD, `        FIM P0, 2\nsame:   ${code}\n        NOP\n`);
    assert.equal(questionOf("@same only after press A", jumpSubject).question !== null, isAllowed, code);
    assert.notEqual(questionOf("@same or r5 = 1 only after press A", jumpSubject).question, null, code);
  }
});

test("a time that is too long for the stopwatch is rejected with a reason", () => {
  assert.equal(questionOf(`every ${MAX_STOPWATCH_CYCLES} @look`).question.stopwatch.maxCycles, MAX_STOPWATCH_CYCLES);
  assert.deepEqual(questionOf(`every ${MAX_STOPWATCH_CYCLES + 1} @look`),
    { question: null, reason: "its time is longer than 16,777,214 cycles" });
});

test("the lines of a stopwatch follow the texts", () => {
  const stopwatch = { startCondition: [["in register 1 whole 0 3"], []], endCondition: [["out counter 1 whole 0 0"]], maxCycles: 5 };
  const question = { ...createNeverQuestion([]), stopwatch };
  const lines = formatQuestion({ board: "rom = []\n", program: "NOP" }, question, { maxStates: 77 }).split("\n");
  assert.deepEqual(lines.slice(8),
    ["within 5", "begin", "in register 1 whole 0 3", "begin", "end", "out counter 1 whole 0 0", "prove", ""]);
});

test("the lines of key presses follow the conditions that they enable", () => {
  const presses = { openCondition: [["in register 1 whole 0 3"], []], keys: [matrixKey(0, 2), matrixKey(1, 0)] };
  const question = { ...createNeverQuestion([]), presses };
  const lines = formatQuestion({ board: "rom = []\n", program: "NOP" }, question, { maxStates: 77 }).split("\n");
  assert.deepEqual(lines.slice(8), ["open", "in register 1 whole 0 3", "open", "up 0 2", "down 0 2", "up 1 0", "down 1 0", "prove", ""]);
});

test("a question contains its limits, both texts and the forbidden conditions", () => {
  const nevers = [["in register 1 whole 0 3", "out counter 1 whole 0 0"], []];
  const question = formatQuestion({ board: "rom = []\n", program: "NOP" }, createNeverQuestion(nevers), { maxStates: 77 });
  assert.deepEqual(question.split("\n"), ["most 77", "pause 1000000", "wire", "rom = []", ".", "asm", "NOP", ".", "never",
    "in register 1 whole 0 3", "out counter 1 whole 0 0", "never", "prove", ""]);
});

test("a question can have a limit of memory, and of sets", () => {
  const questionLines = (limits) => formatQuestion({ board: "rom = []\n", program: "NOP" }, createNeverQuestion([[]]), limits).split("\n");
  assert.deepEqual(questionLines({ maxStates: 77, memory: 5 }).slice(0, 4), ["most 77", "memory 5", "pause 1000000", "wire"]);
  assert.deepEqual(questionLines({ maxStates: 0, sets: 9 }).slice(0, 4), ["most 0", "sets 9", "pause 1000000", "wire"]);
});

test("mistakes are another forbidden condition", () => {
  const question = { ...createMistakeQuestion(["code", "ram"]), forbidden: [["in register 1 whole 0 3"]] };
  const lines = formatQuestion({ board: "rom = []\n", program: "NOP" }, question, { maxStates: 77 }).split("\n");
  assert.deepEqual(lines.slice(8), ["never", "in register 1 whole 0 3", "never", "mistake code ram", "prove", ""]);
  assert.deepEqual(listMistakes().map(({ word, property: { form } }) => `${word} ${form}`),
    ["code code", "call calls", "return returns", "ram mistake", "rom mistake", "rdr mistake", "wrr mistake"]);
});

test("the prover's answers are parsed", () => {
  assert.deepEqual(readAnswer("holds 12\n"), { kind: "holds", states: 12 });
  assert.deepEqual(readAnswer("may fail\n"), { kind: "fails", reads: { values: [] } });
  assert.deepEqual(readAnswer("may fail 0 15 1\n"), { kind: "fails", reads: { values: [0, 15, 1] } });
  assert.deepEqual(readAnswer("too many\n"), { kind: "more" });
  assert.deepEqual(readAnswer("gave up\n"), { kind: "lost" });
  assert.deepEqual(readAnswer("no 90\n"), { kind: "full", states: 0 });
  assert.deepEqual(readAnswer("no room 12\n"), { kind: "full", states: 12 });
  const invalidAnswers = ["", "no 25\n", "no 30 12\n", "wrong line 3\n", "no question\n", "holds\n", "may fail x\n"];
  for (const answer of invalidAnswers) assert.equal(readAnswer(answer), null);
});

/** The values that the program reads until the lamp is on: first 0, then 16 times the value for key A down. */
const LAMP_ON_VALUES = [0, ...Array(16).fill(3)];

async function findCounterexample(properties, values, index = 0) {
  const { campaign } = readCampaign(properties, subject);
  return { campaign, found: await replayCounterexample(subject, campaign, index, { values }, async () => {}) };
}

test("the values of a run become key presses and a failing test", async () => {
  const { found } = await findCounterexample("press A\nnever lamp on on", LAMP_ON_VALUES);
  assert.equal(found.isTest, true);
  assert.equal(found.isAllowed, true);
  assert.match(found.text, /^test never lamp on on\n {2}run \d+\n {2}press A\n {2}run \d+\n {2}expect not lamp on on\n$/);
  const texts = { boardText: BOARD, programText: PROGRAM, sources: [{ name: "found", text: found.text }] };
  const { outcomes } = await runTests(engine, texts, async () => true, { RecorderClass: NullRecorder });
  assert.equal(outcomes[0].failure.line, 5);
});

test("a run that the bench does not confirm is not a counterexample", async () => {
  assert.equal((await findCounterexample("press A\nnever lamp on on", LAMP_ON_VALUES.slice(0, 9))).found, null);
  assert.equal((await findCounterexample("press A\nnever r8 = 99 or r5 = 9", [0, 0, 0])).found, null);
});

test("inputs that the properties exclude are marked", async () => {
  assert.equal((await findCounterexample("press B\nnever lamp on on", LAMP_ON_VALUES)).found.isAllowed, false);
  assert.equal((await findCounterexample("press A\nheld at most 20\nnever lamp on on", LAMP_ON_VALUES)).found.isAllowed, false);
  assert.equal((await findCounterexample("press A\nbegin after 1 s\nnever lamp on on", LAMP_ON_VALUES)).found.isAllowed, false);
});

/** Resolves to true if the test of a counterexample fails. */
async function doesTestFail({ text }, programText = PROGRAM) {
  const { outcomes } = await runTests(engine, { boardText: BOARD, programText, sources: [{ name: "found", text }] }, async () => true,
    { RecorderClass: NullRecorder });
  return outcomes[0].failure !== null;
}

test("an exceeded time becomes a failing test, and a kept time does not", async () => {
  // While A is up, the program takes 10 cycles from one arrival at `look` to the next.
  const valuesWithKeysUp = [0, ...Array(30).fill(1)];
  const cases = [["never lamp on on for 1 ms", LAMP_ON_VALUES, /press A\n {2}run \d+\n {2}until not lamp on on within 93\n$/],
    ["every 9 @look", valuesWithKeysUp, /\n {2}run 9\n {2}until @look within 9\n$/],
      ["@look to @look within 9", valuesWithKeysUp, /\n {2}until @look within 9\n$/],
    ["@look to @lit within 250", valuesWithKeysUp, /\n {2}run 9\n {2}until @lit within 250\n$/],
    ["every 300 @look", LAMP_ON_VALUES, /press A\n {2}run \d+\n {2}until @look within 300\n$/]];
  for (const [text, values, pattern] of cases) {
    const { found } = await findCounterexample(`press A\nwait 1 to 1000\n${text}`, values);
    assert.ok(found, text);
    assert.match(found.text, pattern);
    assert.ok(found.isAllowed && await doesTestFail(found), text);
  }
  for (const text of ["every 10 @look", "@look to @look within 10", "never lamp on on for 93", "@lit to @look within 9"]) {
    assert.equal((await findCounterexample(`press A\n${text}`, valuesWithKeysUp)).found, null, text);
  }
});

// Each row has a condition, the instruction that makes it true, and the instruction that makes it false. The number is the number of cycles
// for which the condition is true if two NOPs are between these instructions.
const TRUE_CYCLES = [["r5 > 0", "FIM P2, 0x05", "FIM P2, 0", 4], ["r5 > 0", "INC R5", "FIM P2, 0", 3],
  ["r5 > 0", "FIM P2, 0x0F", "INC R5", 4],
  ["cy = 1", "STC", "CLB", 3]];

test("a condition can be true for exactly its time, whichever instruction changes it", async () => {
  for (const [condition, first, end, cycleCount] of TRUE_CYCLES) {
    const program = `loop:   ${first}\n        NOP\n        NOP\n        ${end}\n        JUN loop\n`;
    const loopSubject = createSubject(engine, BOARD, program);
    const campaignFor = (cycles) => readCampaign(`test\nnever ${condition} for ${cycles}`, loopSubject).campaign;
    const findCounterexampleFor = (cycles) => replayCounterexample(loopSubject, campaignFor(cycles), 0, { values: [0] }, async () => {});
    const found = await findCounterexampleFor(cycleCount - 1);
    assert.ok(found && await doesTestFail(found, program), `${first}, ${end}`);
    assert.equal(await findCounterexampleFor(cycleCount), null, `${first}, ${end}`);
  }
});

test("a press that is too late, or missing, becomes a failing test", async () => {
  const { found } = await findCounterexample("press A B\nlamp on on only after press B", LAMP_ON_VALUES);
  assert.ok(found.isAllowed && await doesTestFail(found));
  assert.match(found.text, /^test lamp on on only after press B\n {2}run \d+\n {2}press A\n {2}run \d+\n {2}expect not lamp on on\n$/);
  // Key B is pressed before key A.
  const valuesWithKeyB = [0, 5, ...LAMP_ON_VALUES.slice(1)];
  const keys = "press A B C\ntogether 3\n";
  assert.ok(await doesTestFail((await findCounterexample(`${keys}lamp on on only after press A, press B`, valuesWithKeyB)).found));
  assert.equal((await findCounterexample(`${keys}lamp on on only after press B, press A`, valuesWithKeyB)).found, null);
  assert.ok((await findCounterexample(`${keys}@lit only after press A, press B`, valuesWithKeyB)).found);
  // Two keys can be pressed at the same moment.
  const valuesWithTwoKeys = [0, 13, ...LAMP_ON_VALUES.slice(1)];
  assert.equal((await findCounterexample(`${keys}lamp on on only after press B, press C, press A`, valuesWithTwoKeys)).found, null);
  assert.ok((await findCounterexample(`${keys}lamp on on only after press C, press A, press B`, valuesWithTwoKeys)).found);
});

test("simultaneous key changes can be part of a counterexample with a time", async () => {
  const { found } = await findCounterexample("press A B C\nnever lamp on on for 20", [0, 13, ...LAMP_ON_VALUES.slice(1)]);
  assert.ok(found && await doesTestFail(found));
});

// Programs for the board above. `mistakes` has the common mistakes of each program: the number of cycles before the mistake, by the
// mistake's name. The numbers of cycles follow from the instruction table.
const PROGRAMS_WITH_MISTAKES = [
  { program: "FIM P1, 0x80\nSRC P1\nWR2", mistakes: { ram: 3 } }, { program: "LDM 1\nDCL\nRDM", mistakes: { ram: 2 } },
  { program: "LDM 1\nDCL\nFIM P1, 0x40\nSRC P1\nLDM 0\nDCL\nRDM", mistakes: {} },
  { program: "FIM P1, 0x40\nSRC P1\nWMP\nFIM P1, 0xC0\nSRC P1\nSBM", mistakes: { ram: 7 } },
  { program: "JUN 0x2FF", mistakes: { rom: 2 } }, { program: "FIM P0, 0x20\nJUN 0x1FF\nORG 0x1FF\nFIN P2", mistakes: { rom: 4 } },
  { program: "JUN 0x1FF\nORG 0x1FF\nDB 0x40", mistakes: { rom: 2 } }, { program: "JUN 0x1FF\nORG 0x1FF\nCLB", mistakes: { rom: 3 } },
  { program: "RDR", mistakes: { rdr: 0 } }, { program: "FIM P1, 0x20\nSRC P1\nWRR\nRDR", mistakes: { wrr: 3, rdr: 4 } },
  { program: "FIM P1, 0x10\nSRC P1\nWRR\nRDR", mistakes: {} },
];

test("mistakes are detected before the instruction that makes them", () => {
  for (const { program, mistakes } of PROGRAMS_WITH_MISTAKES) {
    const mistakeSubject = createSubject(engine, BOARD, `${program}\n${program.includes("ORG") ? "" : "end: JUN end\n"}`);
    for (const word of ["ram", "rom", "rdr", "wrr"]) {
      assert.equal(countCyclesToMistake(mistakeSubject, mistakeSubject.file, word, 20), mistakes[word] === undefined ? -1 : mistakes[word],
        `${program}: ${word}`);
      if (!(mistakes[word] > 0)) continue;
      const cycleCount = countCyclesToMistake(mistakeSubject, mistakeSubject.file, word, mistakes[word] - 1);
      assert.equal(cycleCount, -1, `${program}: ${word}, too late`);
    }
  }
});

test("verdicts are printed as TAP, and determine the exit status", () => {
  const property = { text: "never # on", isGoal: false, line: 3 };
  const goal = { ...property, text: "reach it", isGoal: true };
  const provedVerdict = { kind: "proved", states: 96937, bySets: false, limits: [], leftOut: "" };
  const setVerdict = { kind: "proved", states: 23, bySets: true, limits: [], leftOut: '"once" and "after press"' };
  const openVerdict = { kind: "open", reason: "why" };
  const foundVerdict = { kind: "found",
    counterexample: { steps: 1, cycles: 1200, isAllowed: true, isTest: true, text: "test x\n  run 1\n" } };
  const verdicts = [{ property, verdict: provedVerdict }, { property, verdict: openVerdict }, { property: goal, verdict: foundVerdict },
    { property: goal, verdict: provedVerdict }, { property, verdict: setVerdict }, { property: goal, verdict: setVerdict }];
  assert.equal(formatTapHeader(verdicts.length) + verdicts.map((propertyVerdict, at) => formatJudgedTap(propertyVerdict, at, "p")).join(""),
    `TAP version 13
1..6
ok 1 - never \\# on # proved for all inputs (96,937 states)
not ok 2 - never \\# on # TODO not decided: why
ok 3 - reach it # reached, 1 step
  ---
  message: "reached by 1 step, 1,200 cycles"
  at: "p:3"
  test: |
    test x
      run 1
  ...
not ok 4 - reach it # never reached, for all inputs (96,937 states)
ok 5 - never \\# on # proved for all inputs (23 sets of states), even without "once" and "after press"
not ok 6 - reach it # never reached, for all inputs (23 sets of states), even without "once" and "after press"
`);
  assert.equal(findExitStatus([{ property, verdict: provedVerdict }, { property: goal, verdict: foundVerdict }]), 0);
  assert.equal(findExitStatus([{ property, verdict: provedVerdict }, { property, verdict: openVerdict }]), 3);
  assert.equal(findExitStatus([{ property, verdict: foundVerdict }, { property, verdict: openVerdict }]), 1);
  assert.equal(findExitStatus([{ property: goal, verdict: provedVerdict }]), 1);
});
