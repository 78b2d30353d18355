// Guards of properties: `while C, ..`, `once C, ..`, `after press K [within TIME], ..`. This file implements their meaning a second time,
// cycle by cycle, as the manual describes it. The tests also check that properties with guards find the bugs in a program.
import assert from "node:assert/strict";
import { test } from "node:test";
import { CampaignRun } from "../core/explore/campaign_run.js";
import { readCampaign } from "../core/explore/campaign.js";
import { createSubject } from "../core/explore/subject.js";
import { createRandom } from "../core/explore/walks.js";
import { Engine } from "../core/engine/engine.js";
import { runTests } from "../core/testing/test_suite.js";
import { pageModule } from "./page_session.js";

const engine = new Engine(new globalThis.WebAssembly.Module(pageModule));

// A reaction timer. After START, it waits and then switches the lamp `go` on. PRESS, a key at TEST, stops it. A press of PRESS during the
// wait is a foul.
const BOARD = `# row 0: START
# lamp 0: waiting go foul
# test: button PRESS
lamp = [{ line = "ram0.0.0" }, { line = "ram0.0.1" }, { line = "ram0.0.2" }]
rom = [{ chip = 0, port = "0000" }, { chip = 1, port = "i000" }]
ram = [{ bank = 0, chips = 1 }]
chain = [{ clock = "rom0.0", data = "rom0.1", chips = 1 }]
keys = { chain = 0, first = 0, rows = 1, columns = ["rom1.3"] }
`;
const PROGRAM = `pressed = 1             ; the condition of JCN: TEST is 0
        FIM P0, 0
        FIM P1, 0x10
        SRC P0
        LDM 2
        WRR
        IAC
        WRR             ; the row of the keys is driven
idle:   SRC P1
        RDR
        JCN 4, idle     ; START is up
        SRC P0
        LDM 1
        WMP
        FIM P2, 0x0D
wait:   JCN pressed, foul
        ISZ R4, wait
        ISZ R5, wait
        LDM 2
        WMP
go:     JCN pressed, stop
        JUN go
stop:   LDM 0
        WMP
        JUN idle
foul:   LDM 4
        WMP
end:    JUN end
`;
/** A faulty program that reads PRESS only once in sixteen iterations, so that it misses a short press. */
const LATE_PROGRAM = PROGRAM.replace("wait:   JCN pressed, foul\n        ISZ R4, wait", "wait:   ISZ R4, wait\n        JCN pressed, foul");
const INPUTS = "press START PRESS\nwait 20 to 200\nnote lamps\nheld at most 30\n";

const campaignOf = (text, program = PROGRAM) => readCampaign(INPUTS + text, createSubject(engine, BOARD, program));
const errorsOf = (text) => campaignOf(text).errors.map(({ words }) => words).join();

/** Searches for at most `seconds` seconds. Resolves to the counterexample of the first property, or to null if the search finds none. */
async function findCounterexample(text, program, seconds) {
  const subject = createSubject(engine, BOARD, program);
  const { campaign, errors } = readCampaign(INPUTS + text, subject);
  assert.deepEqual(errors, []);
  const run = new CampaignRun(subject, campaign, 1, () => true, 5e6);
  const deadline = performance.now() + 1000 * seconds;
  while (performance.now() < deadline && run.counterexamples[0] === null) await run.runFor(20);
  return run.counterexamples[0];
}

/** Resolves to true if a test fails when it runs a program. */
async function doesTestFail(text, program) {
  const { errors, outcomes } = await runTests(engine, { boardText: BOARD, programText: program, testText: text }, async () => true);
  assert.deepEqual(errors, []);
  return outcomes[0].failure !== null;
}

test("a press of PRESS during the wait must light the foul lamp: a counterexample is found for the late program only", async () => {
  // If PRESS is pressed in the last cycles of the wait, the program may read it only after `go`.
  const text = "while lamp waiting on, after press PRESS within 20 lamp foul on or lamp go on\n";
  const counterexample = await findCounterexample(text, LATE_PROGRAM, 30);
  assert.ok(counterexample);
  assert.match(counterexample.test, /^test while lamp waiting on, after press PRESS within 20 lamp foul on or lamp go on\n/);
  assert.match(counterexample.test, /\n {2}until lamp foul on or lamp go on within 20\n$/);
  assert.deepEqual([await doesTestFail(counterexample.test, LATE_PROGRAM), await doesTestFail(counterexample.test, PROGRAM)],
    [true, false]);
  assert.equal(await findCounterexample(text, PROGRAM, 1), null);
  // Without the guard, the property is violated, because PRESS after the wait is not a foul.
  assert.ok(await findCounterexample("after press PRESS within 20 lamp foul on\n", PROGRAM, 30));
});

test("a counterexample is found for each guard, with a test that fails", async () => {
  for (const text of [
    "while lamp waiting on, never pc = foul", "once lamp waiting on, always lamp foul off", "after press PRESS, never lamp foul on",
    "while lamp waiting on, always r4 < 15", "after press START within 300, never lamp foul on",
    "while lamp waiting on, never lamp 0 on for 100",
    "while lamp waiting on, at @foul lamp go on", "once lamp foul on, reach lamp foul on", "while lamp go on, reach @stop",
    "once lamp waiting on, while lamp go on, after press START within 300, never lamps go",
  ]) {
    const counterexample = await findCounterexample(`${text}\n`, PROGRAM, 30);
    assert.ok(counterexample, text);
    assert.equal(await doesTestFail(counterexample.test, PROGRAM), !text.includes("reach"), `${text}\n${counterexample.test}`);
  }
});

test("invalid guards are reported", () => {
  assert.match(errorsOf("while lamp waiting on never lamp foul on"), /^a guard is written as `while CONDITION,`/);
  assert.match(errorsOf("while lamp waiting on,"), /^a guard is written as/);
  assert.match(errorsOf("while lamp purple on, never lamp foul on"), /^the board has no lamp purple/);
  assert.match(errorsOf("while r4 = 1, never lamp purple on"), /^the board has no lamp purple/);
  assert.match(errorsOf("after press X, never lamp foul on"), /^the board has no key X/);
  assert.match(errorsOf("after press PRESS within 5 years, never lamp foul on"), /^a guard is written as/);
  assert.match(errorsOf("while r4 = 1, @go at most once for each press"), /^a guard is written as/);
  assert.match(errorsOf("while r4 = 1, press START"), /^a guard is written as/);
  assert.match(errorsOf(`${"while r4 = 1, ".repeat(5)}never r5 = 2`), /^a property has at most 4 guards/);
  assert.match(errorsOf("once test = 0, never r5 = 2"), /^no run changes test/);
  assert.equal(errorsOf("after press PRESS within 20 lamp foul on"), "");
});

// --- the second implementation: random runs in which the conditions C and G change, and the keys K and J are pressed ---

const RUN_CYCLES = 90;
const randomBelow = (random, limit) => Math.floor(random() * limit);

/**
 * Returns the values of the conditions C and G in each cycle of a random run (`c`, `g`), and its key presses and power cycles (`events`).
 */
function createRandomRun(random) {
  const changeRate = [0, 0.02, 0.12][randomBelow(random, 3)];
  const createSignal = () => {
    let level = random() < 0.5;
    return Array.from({ length: RUN_CYCLES + 1 }, () => {
      if (random() < changeRate) level = !level;
      return level;
    });
  };
  const events = [];
  for (let time = randomBelow(random, 12); time < RUN_CYCLES; time += randomBelow(random, 20)) {
    events.push({ time, kind: ["K", "K", "J", "reset", "none"][randomBelow(random, 5)] });
  }
  return { c: createSignal(), g: createSignal(), events: events.filter(({ kind }) => kind !== "reset" || random() < 0.3) };
}

/**
 * Reports the events of a random run to a property in order. Returns the time at which the property is violated, or -1 if it is not
 * violated.
 */
function findViolationTime(property, { c, g, events }) {
  const memory = property.createMemory(0, []);
  const areGuardsOpenAt = (time) => property.guards.map(({ condition }) => condition !== null && g[time]);
  let violationTime = -1;
  const notify = (event, time, input = "") => {
    const isValuesEvent = event === "values";
    const guardValues = isValuesEvent || event === "down" ? areGuardsOpenAt(time) : [];
    const moment = { time, changeTime: time, address: -1, holds: isValuesEvent && c[time], guardValues, input, downCount: 0, key: -1 };
    const newViolationTime = property.update(memory, event, moment);
    if (newViolationTime >= 0 && (violationTime < 0 || newViolationTime < violationTime)) violationTime = newViolationTime;
  };
  let startTime = 0;
  for (const { time, kind } of [...events, { time: RUN_CYCLES, kind: "none" }]) {
    notify("values", startTime);
    for (let cycle = startTime + 1; cycle <= time && violationTime < 0; cycle++) {
      if (c[cycle] !== c[cycle - 1] || g[cycle] !== g[cycle - 1]) notify("values", cycle);
    }
    if (violationTime < 0) notify("end", time);
    if (violationTime >= 0) return violationTime;
    if (kind === "K" || kind === "J") notify("down", time, kind === "K" ? "START" : "PRESS");
    if (kind === "reset") notify("reset", time);
    startTime = time;
  }
  return violationTime;
}

/**
 * Returns the instants of a run: each cycle, and whether all guards are open in it. A cycle with a key press or a power cycle gives two
 * instants: one before the press or power cycle, and one after it.
 */
function instantsOf({ c, g, events }, guards) {
  const instants = [];
  let wasConditionMet = false;
  let lastPress = -1;
  const addInstant = (time, isDown) => {
    wasConditionMet = wasConditionMet || g[time];
    const isOpen = guards.every(({ kind, limit }) => (kind === "while" ? g[time] : kind === "once" ? wasConditionMet
      : lastPress >= 0 && (limit === 0 || time - lastPress <= limit)));
    instants.push({ time, c: c[time], isOpen, isDown, isReset: false });
  };
  for (let time = 0; time <= RUN_CYCLES; time++) {
    addInstant(time, false);
    for (const { kind: eventKind } of events.filter((event) => event.time === time)) {
      if (eventKind === "K") lastPress = time;
      if (eventKind === "reset") {
        [wasConditionMet, lastPress] = [false, -1];
        instants.push({ time, c: false, isOpen: false, isDown: false, isReset: true });
      }
      addInstant(time, eventKind === "J");
    }
  }
  return instants;
}

/** For each form of property, a function that returns the first time at which the property is violated according to the manual, or -1. */
const VIOLATION_FINDERS = {
  never: (instants) => (instants.find(({ c, isOpen }) => isOpen && c) || { time: -1 }).time,
  always: (instants) => (instants.find(({ c, isOpen, isReset }) => isOpen && !isReset && !c) || { time: -1 }).time,
  "never for": (instants, limit) => {
    let start = -1;
    for (const { time, c, isOpen } of instants) {
      if (!(c && isOpen)) start = -1;
      else if (start < 0) start = time;
      if (start >= 0 && time - start >= limit) return start + limit;
    }
    return -1;
  },
  "after press": (instants, limit) => {
    let start = -1;
    for (const { time, c, isOpen, isDown, isReset } of instants) {
      if (start >= 0 && time > start + limit) return start + limit;
      if (isReset || c) start = -1;
      if (isDown && isOpen && !c && start < 0) start = time;
    }
    return -1;
  },
};

test("guards have the meaning that the manual defines, in each cycle", () => {
  const random = createRandom(11);
  const { campaign } = campaignOf(`never lamp go on
always lamp go on
never lamp go on for 7
after press PRESS within 9 lamp go on
once r4 = 1, never lamp go on
once r4 = 1, always lamp go on
once r4 = 1, never lamp go on for 7
once r4 = 1, after press PRESS within 9 lamp go on
after press START, never lamp go on
after press START, always lamp go on
after press START within 13, never lamp go on
after press START within 13, always lamp go on
after press START within 13, never lamp go on for 7
after press START within 13, after press PRESS within 9 lamp go on
while r4 = 1, after press PRESS within 9 lamp go on
once r4 = 1, after press START within 13, never lamp go on for 7
while r4 = 1, after press START within 13, after press PRESS within 9 lamp go on
`);
  const properties = campaign.properties.filter(({ line }) => line > 0);
  assert.equal(properties.length, 17);
  const resultsByText = new Map();
  for (let round = 0; round < 1500; round++) {
    const run = createRandomRun(random);
    for (const property of properties) {
      const actual = findViolationTime(property, run);
      const expected = VIOLATION_FINDERS[property.form](instantsOf(run, property.guards), property.limit);
      assert.equal(actual, expected, `${property.text}: ${JSON.stringify(run)}`);
      resultsByText.set(property.text, (resultsByText.get(property.text) || new Set()).add(expected >= 0));
    }
  }
  for (const [text, results] of resultsByText) assert.equal(results.size, 2, text);
});
