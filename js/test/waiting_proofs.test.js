// Tests proofs for inputs whose changes have a minimum distance in time: when such a proof is tried, and how a counterexample with levels
// of all inputs becomes steps.
import assert from "node:assert/strict";
import { test } from "node:test";
import { Engine } from "../core/engine/engine.js";
import { readCampaign } from "../core/explore/campaign.js";
import { InitialProof } from "../core/explore/initial_proof.js";
import { createSubject } from "../core/explore/subject.js";
import { replayCounterexample } from "../core/prove/counterexample.js";
import { formatInputLimits, listInputLimits } from "../core/prove/input_limits.js";
import { readAnswer } from "../core/prove/question.js";
import { isStillValid } from "../core/prove/verdict_validity.js";
import { AnsweringEngine, judgeFirst } from "./answering_engine.js";
import { pageModule } from "./page_session.js";
import { DRIVE_ROW_0 } from "./drive_row.js";

const MODULE = new globalThis.WebAssembly.Module(pageModule);
// The keys A and B are in row 0. TEST has a button.
const BOARD = `# row 0: A B
# lamp 0: on
# test: button WALK
lamp = [{ line = "ram0.0.0" }]
rom = [{ chip = 0, port = "0000" }, { chip = 1, port = "0iii" }]
ram = [{ bank = 0, chips = 1 }]
chain = [{ clock = "rom0.0", data = "rom0.1", chips = 1 }]
keys = { chain = 0, first = 0, rows = 1, columns = ["rom1.0", "rom1.1"] }
`;
/** Returns lines that wait until A is down, or until A is up. */
const waitForA = (label, isDown) => `${label}:   SRC P2\n        RDR\n        RAR\n        JCN ${isDown ? 10 : 2}, ${label}\n`;
const SWITCH_LAMP_ON = "        SRC P1\n        LDM 1\n        WMP\nend:    JUN end\n";
// The program switches the lamp on after A was down, up and down again.
const PROGRAM = `${DRIVE_ROW_0}${waitForA("one", true)}${waitForA("two", false)}${waitForA("six", true)}${SWITCH_LAMP_ON}`;
const NEVER_ON = "never lamp on on\n";

const moduleEngine = new Engine(MODULE);
const subject = createSubject(moduleEngine, BOARD, PROGRAM);
const campaignOf = (text, board = subject) => readCampaign(text, board, false).campaign;
const limitsOf = (text, boardSubject = subject) => listInputLimits(campaignOf(text, boardSubject), boardSubject.names.board);

test("a proof uses the shortest wait of a text last", () => {
  const a = [{ kind: "matrix", row: 0, column: 0 }];
  assert.deepEqual(limitsOf("wait 2 to 9"), [{ keys: null, maxKeysDown: null, minWait: 2, maxPressTime: null, words: ["wait"] }]);
  assert.deepEqual(limitsOf("press A\nwait 1 ms to 5 ms\ntogether 1"), [
    { keys: a, maxKeysDown: null, minWait: 1, maxPressTime: null, words: ["press"] },
    { keys: a, maxKeysDown: null, minWait: 93, maxPressTime: null, words: ["press", "wait"] },
  ]);
  assert.deepEqual(limitsOf("wait 5 to 9\ntogether 1").map(({ maxKeysDown, words }) => [maxKeysDown, words]),
    [[1, ["together 1"]], [1, ["together 1", "wait"]]]);
  // A proof cannot use the default of `wait`, which is only for searches, nor a `wait` of one cycle, which allows all inputs. It cannot use
  // any `wait` if a `held` shortens the waits, or if the runs begin in a saved state, before which other inputs came.
  for (const text of ["", "wait 1 to 9", "wait 2 to 9\nheld at most 1 s", "wait 2 to 9\nfrom saved"]) assert.deepEqual(limitsOf(text), []);
});

test("a proof with waits needs few combinations of input levels", () => {
  const boardOf = (keyCount) => createSubject(moduleEngine, BOARD.replace("rows = 1", `rows = ${Math.ceil(keyCount / 2)}`)
    .replace("chips = 1 }]\nkeys", "chips = 2 }]\nkeys"), PROGRAM);
  // With at most two keys down, 14 keys have 106 combinations, and 16 keys have 137. TEST doubles them.
  assert.equal(limitsOf("wait 2 to 9", boardOf(14)).length, 1);
  assert.equal(limitsOf("wait 2 to 9", boardOf(16)).length, 0);
  assert.equal(limitsOf("wait 2 to 9\ntogether 1", boardOf(16)).length, 2);
});

test("the shortest wait is a line of a question, and the answer has levels", () => {
  const format = (keys, maxKeysDown, minWait, maxPressTime) => formatInputLimits({ keys, maxKeysDown, minWait, maxPressTime, words: [] });
  assert.deepEqual(format(null, 2, 93, null), ["together 2", "wait 93"]);
  assert.deepEqual(format([], null, 2, null), ["wait 2", "only", "test"]);
  assert.deepEqual(format([], 1, 2, 9), ["together 1", "wait 2", "held 9", "only", "test"]);
  assert.deepEqual(readAnswer("may fail with 4 b\n"), { kind: "fails", reads: { levels: [[0, 0, 1, 0], [1, 1, 0, 1]] } });
  assert.deepEqual(readAnswer("may fail with 10 05\n").reads.levels[1], [0, 0, 0, 0, 1, 0, 1, 0]);
  assert.equal(readAnswer("may fail with\n"), null);
  assert.equal(readAnswer("may fail with 4 g\n"), null);
});

/** The levels of A, B and TEST at a step: TEST is 1, as at power-on. */
const levels = (a, b = 0, pin = 1) => [a, b, pin, 0];
const replay = (text, reads, lineSubject = subject) => (
  replayCounterexample(lineSubject, campaignOf(text, lineSubject), 0, { levels: reads }, async () => {}));

test("changes of levels keep the shortest wait if they can", async () => {
  // A reading loop takes 7 cycles. The first step, the cycle before the first read, reads nothing.
  const reads = [levels(1), levels(1), levels(0), levels(1)];
  for (const [wait, isAllowed] of [[2, true], [4, true], [60, false]]) {
    const found = await replay(`wait ${wait} to 1000\n${NEVER_ON}`, reads);
    assert.deepEqual([found.isAllowed, found.steps], [isAllowed, 3], `wait ${wait}`);
  }
  // A stays down for many reads, so that its release comes late enough. The minimised counterexample keeps the shortest wait.
  const slowReads = [levels(1), ...Array(30).fill(levels(1)), levels(0)];
  const down = await replay(`wait 60 to 1000\n${NEVER_ON}`, [...slowReads, ...Array(30).fill(levels(0)), levels(1)]);
  assert.ok(down.isAllowed);
  assert.match(down.text,
    /\n {2}run \d+\n {2}press A\n {2}run 60\n {2}release A\n {2}run 60\n {2}press A\n {2}run \d+\n {2}expect not lamp on on\n$/);
});

test("two inputs that change in the same cycle break the shortest wait, unless one of them can change earlier", async () => {
  const readBoth = (wantsA, wantsB, label) => (
    `        RDR\n        RAR\n        JCN ${wantsA ? 10 : 2}, ${label}\n        RAR\n        JCN ${wantsB ? 10 : 2}, ${label}\n`);
  const programOf = (reads) => `${DRIVE_ROW_0}one:    SRC P2\n${reads}${SWITCH_LAMP_ON}`;
  const isAllowed = async (reads, text, levelList) => (
    (await replay(`${text}${NEVER_ON}`, levelList, createSubject(moduleEngine, BOARD, programOf(reads)))).isAllowed);
  // The program waits until A is down and B is up; 7 cycles later it waits until B is down and A is up. `exchanged` has the levels at
  // power-on, at a read that does not find A down, and at the two last reads.
  const exchanged = [levels(0), levels(0), levels(1), levels(0, 1)];
  const readExchanged = `${readBoth(true, false, "one")}${readBoth(false, true, "one")}`;
  assert.equal(await isAllowed(readExchanged, "", exchanged), true);
  assert.equal(await isAllowed(readExchanged, "wait 10 to 1000\n", exchanged), false);
  // The program reads A and B together.
  const together = [levels(0), ...Array(30).fill(levels(0)), levels(1, 1)];
  assert.equal(await isAllowed(readBoth(true, true, "one"), "wait 60 to 1000\n", together), true);
});

test("TEST does not change if the program does not read it", async () => {
  const reads = [levels(0, 0, 0), ...Array(31).fill(levels(1, 0, 0)), ...Array(31).fill(levels(0, 0, 0)), levels(1, 0, 0)];
  const found = await replay(`wait 60 to 1000\n${NEVER_ON}`, reads);
  assert.deepEqual([found.isAllowed, found.steps], [true, 3]);
  assert.doesNotMatch(found.text, /WALK/);
});

test("a counterexample with values must keep the shortest wait, too", async () => {
  const found = (text) => replayCounterexample(subject, campaignOf(text), 0, { values: [0, 1, 0, 1] }, async () => {});
  assert.equal((await found(NEVER_ON)).isAllowed, true);
  assert.equal((await found(`wait 2 to 9\n${NEVER_ON}`)).isAllowed, true);
  assert.equal((await found(`wait 60 to 90\n${NEVER_ON}`)).isAllowed, false);
});

/** The prover's answer to each question about several properties: they are not all proved. */
const JOINT_ANSWER = "may fail 0 1 0 1\n";
const judge = (propertiesText, answer) => (
  judgeFirst(new AnsweringEngine(answer, JOINT_ANSWER), { boardText: BOARD, programText: PROGRAM, propertiesText }));

test("a property is asked with the shortest wait after all other limits", async () => {
  const text = `press A\nwait 60 to 90\n${NEVER_ON}`;
  const provedLast = await judge(text, (limits) => (limits.startsWith("wait") ? "holds 5\n" : "may fail 0 1 0 1\n"));
  assert.deepEqual(provedLast.verdict, { kind: "proved", states: 5, bySets: false, limits: ["press", "wait"], leftOut: "" });
  assert.deepEqual(provedLast.asked, ["all", "only; press 0 0; test", "wait 60; only; press 0 0; test"]);
  const provedBefore = await judge(text, (limits) => (limits === "all" ? "too many\n" : "holds 6\n"));
  assert.deepEqual(provedBefore.verdict.limits, ["press"]);
  const open = await judge(text, (limits) => (limits.startsWith("wait") ? "too many\n" : "may fail 0 1 0 1\n"));
  assert.match(open.verdict.reason, /^more than 10,000 states/);
  const found = await judge(`wait 4 to 90\n${NEVER_ON}`, (limits) => (
    limits.startsWith("wait") ? "may fail with 5 5 4 5\n" : "too many\n"));
  assert.deepEqual([found.verdict.kind, found.verdict.counterexample.isAllowed], ["found", true]);
});

test("a search asks with all limits in turn, too", () => {
  const engine = new AnsweringEngine((limits) => (limits.startsWith("wait") ? "holds 5\n" : "may fail 0 1 0 1\n"), JOINT_ANSWER);
  const proofSubject = createSubject(engine, BOARD, PROGRAM);
  const { campaign } = readCampaign(`press A\nwait 60 to 90\n${NEVER_ON}`, proofSubject);
  const proof = new InitialProof(proofSubject, campaign, 30000);
  while (proof.canContinue) proof.askNextQuestion();
  assert.deepEqual([proof.states[0], proof.limits[0]], [5, ["press", "wait"]]);
});

test("a proof with waits is valid until they change", () => {
  const texts = { boardText: "", programText: "", propertiesText: `press A\nwait 5 to 9\n${NEVER_ON}` };
  const isValidAfter = (limits, from, to) => isStillValid(
    { text: NEVER_ON.trim(), line: 3, isGoal: false, verdict: { kind: "proved", states: 2, bySets: false, limits, leftOut: "" } },
    texts, { ...texts, propertiesText: texts.propertiesText.replace(from, to) });
  for (const [from, to] of [["5", "4"], ["wait", "held at most 3\nwait"]]) {
    assert.ok(!isValidAfter(["press", "wait"], from, to), to);
    assert.ok(isValidAfter(["press"], from, to), to);
  }
});
