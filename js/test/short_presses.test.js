// Tests the property that no press below a time reaches a label: its errors, its meaning on a run, and the search for a counterexample.
// Also tests the limits of its proof, and how a counterexample with levels becomes short presses.
import assert from "node:assert/strict";
import { test } from "node:test";
import { Engine } from "../core/engine/engine.js";
import { readCampaign } from "../core/explore/campaign.js";
import { CampaignRun } from "../core/explore/campaign_run.js";
import { InitialProof } from "../core/explore/initial_proof.js";
import { createSubject } from "../core/explore/subject.js";
import { Watcher } from "../core/explore/walk_watcher.js";
import { findLatestMoments } from "../core/prove/change_moments.js";
import { replayCounterexample } from "../core/prove/counterexample.js";
import { listInputLimits, listPropertyLimits } from "../core/prove/input_limits.js";
import { isStillValid } from "../core/prove/verdict_validity.js";
import { AnsweringEngine, judgeFirst } from "./answering_engine.js";
import { pageModule } from "./page_session.js";
import { DRIVE_ROW_0 } from "./drive_row.js";

const MODULE = new globalThis.WebAssembly.Module(pageModule);
// The keys A and B are in row 0. TEST has a button.
const BOARD = `# row 0: A B
# test: button WALK
rom = [{ chip = 0, port = "0000" }, { chip = 1, port = "0iii" }]
chain = [{ clock = "rom0.0", data = "rom0.1", chips = 1 }]
keys = { chain = 0, first = 0, rows = 1, columns = ["rom1.0", "rom1.1"] }
`;
// The program reads the keys every 7 cycles, first in cycle 12. It reaches `open` 20 cycles after the first of three successive reads with
// A down. A press that lasts for 15 cycles is enough.
const PROGRAM = `${DRIVE_ROW_0}again:  LDM 13
        XCH R8
look:   SRC P2
        RDR
        RAR
        JCN 10, again   ; A is up
        ISZ R8, look
open:   JUN open
`;

const moduleEngine = new Engine(MODULE);
const subject = createSubject(moduleEngine, BOARD, PROGRAM);
const campaignOf = (text, lineSubject = subject) => readCampaign(text, lineSubject, false).campaign;
const errorOf = (text, lineSubject = subject) => readCampaign(text, lineSubject, false).errors.map(({ words }) => words).join();

test("wrong lines are reported", () => {
  for (const line of ["no press", "no @open", "no press below reaches @open", "no press below 5 reaches", "no press below x reaches @open",
    "no press below 1 reaches @open", "no press below 100001 reaches @open", "no press below 2 s reaches @open"]) {
    assert.match(errorOf(line), /^write `no press below TIME reaches @LABEL`, from 2 cycles to 100,000/, line);
  }
  assert.equal(errorOf("no press below 2 reaches @shut"), "the program has no label shut");
  assert.equal(errorOf("no press below 2 reaches open"), "a label is written as @LABEL, not open");
  for (const guard of ["once r1 = 1", "while r1 = 1", "after press A"]) {
    assert.match(errorOf(`${guard}, no press below 5 ms reaches @open`), /^a guard is written as/);
  }
  for (const time of ["2", " 100000 cycles", "5ms"]) assert.equal(errorOf(`no press below ${time} reaches @open`), "");
  const [property] = campaignOf("no press below 5 ms reaches @open").properties;
  assert.deepEqual([property.limit, property.address, property.isGoal], [463, 0x12, false]);
  const unnamedSubject = createSubject(moduleEngine, BOARD.replace(/^#.*\n/gm, ""), PROGRAM);
  assert.match(errorOf("test\nno press below 9 reaches @open", unnamedSubject), /names no keys .* so nothing can be pressed$/);
});

/** Returns the time at which a walk first breaks the only property of a text; -1 if the walk does not break it. */
function findViolationTime(text, moves, lineSubject = subject) {
  const campaign = campaignOf(text, lineSubject);
  const [property] = campaign.properties;
  const watcher = new Watcher(lineSubject, { ...campaign, properties: [property] }, null);
  const steps = moves.map(([wait, kind, name]) => ({ wait, kind, input: campaign.inputs.findIndex((input) => input.name === name) }));
  const start = { file: lineSubject.file, time: 0, downInputs: [], memories: [property.createMemory(0, campaign.inputs)] };
  const { violation } = watcher.watch(start, [...steps, { wait: 60, kind: "none", input: -1 }], [0]);
  return violation ? violation.time : -1;
}
const breaks = (time, moves, inputs = "") => findViolationTime(`${inputs}no press below ${time} reaches @open`, moves) >= 0;

test("a property is broken if each press so far is shorter than its time", () => {
  const pressA = (wait) => [wait, "down", "A"];
  assert.equal(findViolationTime("no press below 21 reaches @open", [pressA(12)]), 32);
  assert.deepEqual([20, 21].map((time) => breaks(time, [pressA(12)])), [false, true]);
  assert.deepEqual([24, 25].map((time) => breaks(time, [pressA(8)])), [false, true]);
  assert.deepEqual([15, 16].map((time) => breaks(time, [pressA(12), [15, "up", "A"]])), [false, true]);
  // A run does not break the property if any key is down too long at any time before the label.
  assert.equal(breaks(21, [[2, "down", "B"], [20, "up", "B"], pressA(18)]), true);
  assert.equal(breaks(21, [[2, "down", "B"], [21, "up", "B"], pressA(17)]), false);
  assert.equal(breaks(21, [[2, "down", "WALK"], [21, "up", "WALK"], pressA(17)]), false);
  assert.deepEqual([21, 22].map((time) => breaks(time, [[11, "down", "B"], pressA(1)])), [false, true]);
  // If a key goes up and down again between two reads, its second press counts as a new, shorter one.
  assert.deepEqual([13, 14].map((time) => breaks(time, [pressA(12), [1, "up", "A"], pressA(6)])), [false, true]);
  // A press that ends before a power cycle does not count. The time of a key that stays down starts again at the power cycle.
  assert.equal(breaks(21, [[2, "down", "B"], [30, "up", "B"], pressA(8)]), false);
  assert.equal(breaks(21, [[2, "down", "B"], [30, "up", "B"], [1, "reset", ""], pressA(12)]), true);
  assert.deepEqual([32, 33].map((time) => breaks(time, [pressA(2), [5, "reset", ""]])), [false, true]);
});

test("TEST is a key only if the board's text names its button or switch", () => {
  const walk = [[1, "down", "WALK"], [11, "down", "A"]];
  assert.equal(breaks(21, walk), false);
  const otherSubject = createSubject(moduleEngine, BOARD.replace("# test: button WALK\n", ""), PROGRAM);
  const text = "press A\ntest\nno press below 21 reaches @open";
  assert.equal(findViolationTime(text, [[1, "down", "test"], [11, "down", "A"]], otherSubject), 32);
  // A switch that is closed at power-on is down from then on.
  const closedSubject = createSubject(moduleEngine, BOARD.replace("button WALK", "switch WALK to 1"), PROGRAM);
  const [walkInput] = campaignOf("press WALK", closedSubject).inputs;
  assert.deepEqual([walkInput.isDown, walkInput.canBePressed], [true, true]);
  assert.equal(findViolationTime("no press below 21 reaches @open", [[12, "down", "A"]], closedSubject), -1);
  assert.equal(findViolationTime("no press below 21 reaches @open", [[5, "up", "WALK"], [7, "down", "A"]], closedSubject), 32);
});

test("a search finds a press that is too short, and minimises it", async () => {
  const explore = async (text, isEnd) => {
    const run = new CampaignRun(subject, campaignOf(text), 1, () => true, 5e6);
    while (!isEnd(run)) await run.runFor(20);
    return run.counterexamples[0];
  };
  const { test: found } = await explore("wait 7 to 60\nno press below 25 reaches @open", (run) => run.counterexamples[0]);
  assert.match(found, /^test no press below 25 reaches @open\n {2}run \d+\n {2}press A\n {2}run 2\d\n {2}expect not @open\n$/);
  const { test: shortest } = await explore("press A\nwait 7 to 60\nno press below 16 reaches @open", (run) => run.counterexamples[0]);
  assert.match(shortest, /\n {2}press A\n {2}run 15\n {2}release A\n {2}run 5\n {2}expect not @open\n$/);
  const inputs = "press A\nwait 7 to 60\nno press below";
  assert.equal(await explore(`${inputs} 15 reaches @open`, ({ search }) => search.walks > 200), null);
});

const limitsFor = (text, lineSubject = subject) => {
  const { board } = lineSubject.names;
  const campaign = campaignOf(text, lineSubject);
  return listPropertyLimits(campaign.properties[0], campaign, listInputLimits(campaign, board), board)
    .map(({ minWait, maxPressTime, words }) => [minWait, maxPressTime, words.join(" ")]);
};

test("the last proof limits presses so that each run of the text can continue", () => {
  // If only one key can be down at a time, a press can last for the shortest wait.
  assert.deepEqual(limitsFor("press A\nwait 7 to 60\nno press below 21 reaches @open"),
    [[1, null, "press"], [7, null, "press wait"], [7, 20, "press wait"]]);
  assert.deepEqual(limitsFor("press A\nwait 30 to 60\nno press below 21 reaches @open").slice(-1), [[30, 30, "press wait"]]);
  assert.deepEqual(limitsFor("press A B\ntogether 1\nwait 7 to 60\nno press below 21 reaches @open").slice(-1),
    [[7, 20, "together 1 wait"]]);
  // If another input can change immediately before the label, the release follows that change only after the shortest wait.
  assert.deepEqual(limitsFor("press A B\nwait 7 to 60\nno press below 21 reaches @open").slice(-1), [[7, 26, "wait"]]);
  assert.deepEqual(limitsFor("together 1\nwait 7 to 60\nno press below 21 reaches @open").slice(-1), [[7, 26, "together 1 wait"]]);
  assert.deepEqual(limitsFor("press A\ntest\nwait 7 to 60\nno press below 21 reaches @open").slice(-1), [[7, 26, "press test wait"]]);
  // There are no limits without `wait`, and other properties have no limit on presses.
  assert.deepEqual(limitsFor("press A\nno press below 21 reaches @open"), [[1, null, "press"]]);
  assert.deepEqual(limitsFor("press A\nwait 1 to 60\nno press below 21 reaches @open"), [[1, null, "press"]]);
  assert.deepEqual(limitsFor("press WALK\nwait 7 to 60\nno press below 21 reaches @open").slice(-1), [[7, null, "press wait"]]);
  assert.deepEqual(limitsFor("press A B\nwait 60000 to 60000\nno press below 50000 reaches @open"), [[60000, null, "wait"]]);
  assert.deepEqual(limitsFor("wait 7 to 60\nnever @open"), [[7, null, "wait"]]);
});

test("a proof uses `held` if no release comes closer than the shortest wait", () => {
  assert.deepEqual(limitsFor("press A\nwait 7 to 60\nheld at most 20\nnever @open"),
    [[1, null, "press"], [7, null, "press wait"], [7, 20, "press wait held"]]);
  assert.deepEqual(limitsFor("press A B\ntogether 1\nwait 7 to 60\nheld at most 7\nnever @open").slice(-1),
    [[7, 7, "together 1 wait held"]]);
  for (const inputs of ["press A B", "press A\ntest", "press A WALK\ntogether 1", "together 1"]) {
    assert.ok(limitsFor(`${inputs}\nwait 7 to 60\nheld at most 20\nnever @open`).every(([minWait]) => minWait === 1), inputs);
  }
  assert.deepEqual(limitsFor("press A\nwait 7 to 60\nheld at most 6\nnever @open"), [[1, null, "press"]]);
  assert.deepEqual(limitsFor("press A\nwait 7 to 60\nheld at most 2 s\nnever @open").slice(-1), [[7, null, "press wait"]]);
  // The limit on presses is the shorter time: that of `held` or that of the property.
  assert.deepEqual(limitsFor("press A\nwait 7 to 60\nheld at most 20\nno press below 30 reaches @open").slice(1),
    [[7, null, "press wait"], [7, 20, "press wait held"]]);
  assert.deepEqual(limitsFor("press A\nwait 7 to 60\nheld at most 40\nno press below 30 reaches @open").slice(2),
    [[7, 40, "press wait held"], [7, 29, "press wait"]]);
});

const judge = (propertiesText, answer, boardText = BOARD) => (
  judgeFirst(new AnsweringEngine(answer), { boardText, programText: PROGRAM, propertiesText }));

/** The prover's answer to the question about all inputs: A is down at three reads. */
const LONG_PRESS = "may fail 0 1 1 1\n";
const PROPERTY = "no press below 20 reaches @open";

test("a property is asked for all inputs, then with the limits of the text, and last with short presses", async () => {
  const text = `press A\nwait 7 to 60\n${PROPERTY}\n`;
  const proved = await judge(text, (limits) => (limits.includes("held") ? "holds 5\n" : LONG_PRESS));
  assert.deepEqual(proved.verdict, { kind: "proved", states: 5, bySets: false, limits: ["press", "wait"], leftOut: "" });
  assert.deepEqual(proved.asked,
    ["all", "only; press 0 0; test", "wait 7; only; press 0 0; test", "wait 7; held 19; only; press 0 0; test"]);
  const neverReached = await judge(text, () => "holds 7\n");
  assert.deepEqual([neverReached.verdict.limits, neverReached.asked], [[], ["all"]]);
  // The other property is decided by a question of its own.
  const { asked } = await judge(`${text}never r8 = 1\n`, () => "too many\n");
  assert.equal(asked.length, 4);
  const engine = new AnsweringEngine((limits) => (limits.includes("held") ? "holds 5\n" : LONG_PRESS));
  const proofSubject = createSubject(engine, BOARD, PROGRAM);
  const proof = new InitialProof(proofSubject, readCampaign(text, proofSubject).campaign, 30000);
  while (proof.canContinue) proof.askNextQuestion();
  assert.deepEqual([proof.states[0], proof.limits[0]], [5, ["press", "wait"]]);
});

test("an undecided property says what is missing", async () => {
  const reasonOf = async (inputs, answer = LONG_PRESS, property = PROPERTY, board = BOARD) => (
    (await judge(`${inputs}\n${property}\n`, () => answer, board)).verdict.reason);
  assert.match(await reasonOf("press A"), /unseen between two reads; write a line `wait TIME to TIME`, from 2 cycles$/);
  assert.match(await reasonOf("press A\nwait 1 to 9"), /unseen between two reads/);
  assert.match(await reasonOf("press A B\nwait 7 to 9\nheld at most 9"), /^a proof cannot use `wait` if the text has a line `held`/);
  assert.match(await reasonOf("press WALK\nwait 7 to 9"), /^a proof limits only how long keys of the matrix are down$/);
  assert.match(await reasonOf("press A B\nwait 99995 to 99995"), /are together longer than 100000 cycles$/);
  assert.match(await reasonOf("press A B\nwait 7 to 60"), /^the bench does not confirm .* allows presses of up to 25 cycles$/);
  assert.match(await reasonOf("press A\nwait 7 to 60"), /^the bench does not confirm .* further apart than the shortest wait$/);
  assert.match(await reasonOf("press A\nwait 7 to 60", "too many\n"), /^more than 10,000 states/);
});

/** The levels of A, B and TEST at a step: TEST is 1, as at power-on. */
const levels = (a, b = 0, pin = 1) => [a, b, pin, 0];
const replay = (text, reads) => replayCounterexample(subject, campaignOf(text), 0, { levels: reads }, async () => {});

test("a counterexample with levels becomes presses that are as short as possible", async () => {
  const reads = [levels(0), levels(1), levels(1), levels(1)];
  const inputs = "press A\nwait 7 to 1000\n";
  const found = await replay(`${inputs}no press below 21 reaches @open`, reads);
  assert.deepEqual([found.isAllowed, found.steps, found.cycles], [true, 1, 32]);
  assert.match(found.text, /\n {2}run 12\n {2}press A\n {2}run 20\n {2}expect not @open\n$/);
  // The key is released after the last read, before its press becomes too long.
  const { text } = await replay(`${inputs}no press below 16 reaches @open`, reads);
  assert.match(text, /\n {2}run 12\n {2}press A\n {2}run 15\n {2}release A\n {2}run 5\n {2}expect not @open\n$/);
  assert.equal(await replay(`${inputs}no press below 15 reaches @open`, reads), null);
  // A line `held` limits presses, too.
  const isAllowed = async (time) => (await replay(`${inputs}held at most ${time}\nnever @open`, reads)).isAllowed;
  assert.deepEqual([await isAllowed(14), await isAllowed(15)], [false, true]);
  // The first press is short because its release is not immediately before the read that detects it.
  const twoPresses = [levels(0), levels(1), levels(0), levels(0), ...reads.slice(1)];
  const foundTwice = await replay(`press A\nwait 2 to 1000\nno press below 16 reaches @open`, twoPresses);
  assert.deepEqual([foundTwice.isAllowed, foundTwice.steps], [true, 2]);
});

test("moments keep the shortest wait and the longest press, if there are such moments", () => {
  const inputs = [{ canBePressed: true }, { canBePressed: true }, { canBePressed: false }];
  const change = (first, last, pressed, released = []) => ({ first, last, pressed, released });
  const find = (changes, minWait, maxPressTime) => findLatestMoments(changes, inputs, minWait, maxPressTime);
  assert.deepEqual(find([], 5, 9), []);
  const press = [change(1, 10, [0]), change(11, 40, [], [0])];
  assert.deepEqual(find(press, 5, Infinity), [10, 40]);
  assert.deepEqual(find(press, 5, 20), [10, 30]);
  assert.deepEqual(find(press, 35, Infinity), [5, 40]);
  assert.equal(find(press, 40, Infinity), null);
  assert.equal(find([change(1, 10, [0]), change(21, 40, [], [0])], 5, 10), null);
  // At least `minWait` must pass between the release of A and the press of B, so A is pressed early.
  assert.deepEqual(find([change(1, 30, [0]), change(31, 50, [], [0]), change(40, 45, [1])], 20, 30), null);
  assert.deepEqual(find([change(1, 30, [0]), change(20, 50, [], [0]), change(40, 45, [1])], 20, 30), [5, 25, 45]);
  // B must be released soon after its press. Therefore, A must be released and pressed earlier, too.
  assert.deepEqual(find([change(1, 30, [0]), change(2, 35, [1]), change(3, 50, [], [0]), change(4, 90, [], [1])], 10, 25),
    [25, 35, 50, 60]);
  // The first case has a key that is down at power-on. In the second, the input is not a key, so `maxPressTime` does not limit it.
  assert.deepEqual(find([change(1, 30, [], [0])], 5, 9), [9]);
  assert.deepEqual(find([change(1, 30, [2]), change(31, 90, [], [2])], 5, 9), [30, 90]);
});

test("the moments are the latest ones that keep all limits", () => {
  const inputs = [{ canBePressed: true }, { canBePressed: true }];
  let seed = 1;
  const random = (limit) => {
    seed = (seed * 48271) % 2147483647;
    return seed % limit;
  };
  let feasibleCount = 0;
  for (let round = 0; round < 300; round++) {
    const [minWait, maxPressTime] = [1 + random(4), 1 + random(7)];
    let time = 0;
    const down = [false, false];
    const changes = [0, 1, 2].map(() => {
      const first = 1 + Math.max(0, time - random(3));
      time = first + random(6);
      const key = random(2);
      down[key] = !down[key];
      return { first, last: time, pressed: down[key] ? [key] : [], released: down[key] ? [] : [key] };
    });
    const moments = findLatestMoments(changes, inputs, minWait, maxPressTime);
    // All combinations of moments are tried.
    const solutions = [];
    const [as, bs, cs] = changes.map(({ first, last }) => Array.from({ length: last - first + 1 }, (_, index) => first + index));
    for (const times of as.flatMap((a) => bs.flatMap((b) => cs.map((c) => [a, b, c])))) {
      const pressTimes = [0, 0];
      const isKept = changes.every(({ pressed, released }, at) => {
        for (const key of pressed) pressTimes[key] = times[at];
        return (at === 0 || times[at] - times[at - 1] >= minWait) && released.every((key) => times[at] - pressTimes[key] <= maxPressTime);
      });
      if (isKept) solutions.push(times);
    }
    feasibleCount += Number(solutions.length > 0);
    assert.deepEqual(moments, solutions.length === 0 ? null : [0, 1, 2].map((at) => Math.max(...solutions.map((times) => times[at]))));
  }
  assert.ok(feasibleCount > 50 && feasibleCount < 290, String(feasibleCount));
});

test("a proof with short presses is valid until its limits change", () => {
  const texts = { boardText: "", programText: "", propertiesText: `press A\nwait 5 to 9\n${PROPERTY}\n` };
  const verdict = { kind: "proved", states: 2, bySets: false, limits: ["press", "wait"], leftOut: "" };
  const isValidAfter = (from, to) => isStillValid({ text: PROPERTY, line: 3, isGoal: false, verdict }, texts,
    { ...texts, propertiesText: texts.propertiesText.replace(from, to) });
  assert.ok(isValidAfter("press A", "note r1\npress A"));
  for (const [from, to] of [["20", "21"], ["5 to", "4 to"], ["wait", "held at most 9\nwait"]]) assert.ok(!isValidAfter(from, to), to);
});
