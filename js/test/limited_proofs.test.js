// Tests proofs that are limited to the inputs that a properties text allows: the limits in a question, and when the prover is asked again
// with these limits. Also tests counterexamples that stay within the limits, and the messages about such proofs.
import assert from "node:assert/strict";
import { test } from "node:test";
import { Engine } from "../core/engine/engine.js";
import { readCampaign } from "../core/explore/campaign.js";
import { CampaignRun } from "../core/explore/campaign_run.js";
import { formatTap, joinReports } from "../core/explore/report.js";
import { createSubject } from "../core/explore/subject.js";
import { beginProving, createPropertyVerdict } from "../core/prove/bounded_proof.js";
import { replayCounterexample } from "../core/prove/counterexample.js";
import { listInputLimits } from "../core/prove/input_limits.js";
import { createNeverQuestion, formatQuestion } from "../core/prove/question.js";
import { isStillValid } from "../core/prove/verdict_validity.js";
import { findExitStatus, formatJudgedTap } from "../core/prove/verdicts.js";
import { describeVerdict } from "../words/prove_results.js";
import { pageModule } from "./page_session.js";
import { DRIVE_ROW_0 } from "./drive_row.js";

// The keys A, B and E are in row 0, C, D and F in row 1. TEST has a button.
const BOARD = `# row 0: A B E
# row 1: C D F
# lamp 0: on
# test: button WALK
lamp = [{ line = "ram0.0.0" }]
rom = [{ chip = 0, port = "0000" }, { chip = 1, port = "0iii" }]
ram = [{ bank = 0, chips = 1 }]
chain = [{ clock = "rom0.0", data = "rom0.1", chips = 1 }]
keys = { chain = 0, first = 0, rows = 2, columns = ["rom1.0", "rom1.1", "rom1.2"] }
`;
const SWITCH_LAMP_ON = "        SRC P1\n        LDM 1\nlit:    WMP\nend:    JUN end\n";
/** Returns lines that wait until a key in the first column of a driven row is down. */
const waitForKey = (label) => `${label}:   SRC P2\n        RDR\n        RAR\n        JCN 10, ${label}\n`;
// The program switches the lamp on when A is down.
const PROGRAM = `${DRIVE_ROW_0}${waitForKey("look")}${SWITCH_LAMP_ON}`;
/** The prover's answers for runs in which A or B is down at the first read. The value 0 is for the first cycle, which reads nothing. */
const ANSWERS_BY_KEYS = { A: "may fail 0 1\n", B: "may fail 0 2\n" };

const moduleEngine = new Engine(new globalThis.WebAssembly.Module(pageModule));
const subjectOf = (boardText = BOARD, programText = PROGRAM) => createSubject(moduleEngine, boardText, programText);
const allLimitsOf = (text, subject = subjectOf()) => (
  listInputLimits(readCampaign(text, subject, false).campaign, subject.names.board));
/** Returns the limits of `press`, `test` and `together` in a text; null for none. */
const limitsOf = (text, subject) => {
  const [limits = null] = allLimitsOf(text, subject).filter(({ minWait }) => minWait === 1);
  return limits && { keys: limits.keys, maxKeysDown: limits.maxKeysDown, words: limits.words };
};
const keysOf = (...places) => places.map(([row, column]) => ({ kind: "matrix", row, column }));

test("a proof can use the limits of a text that exclude keys, or that one read can exceed", () => {
  const [a, b, c] = keysOf([0, 0], [0, 1], [1, 0]);
  assert.deepEqual(limitsOf("press A"), { keys: [a], maxKeysDown: null, words: ["press"] });
  assert.deepEqual(limitsOf("press A B\npress C\ntest\ntogether 1"),
    { keys: [a, b, c], maxKeysDown: 1, words: ["press", "test", "together 1"] });
  assert.deepEqual(limitsOf("test\npress C"), { keys: [c], maxKeysDown: null, words: ["press", "test"] });
  // The button at TEST is not a key of the matrix.
  assert.deepEqual(limitsOf("press WALK"), { keys: [], maxKeysDown: null, words: ["press"] });
  assert.deepEqual(limitsOf("test"), { keys: [], maxKeysDown: null, words: ["test"] });
  // Without a line `together`, at most two keys are down. Three columns are at the same port, so one read could see three keys down.
  assert.deepEqual(limitsOf(""), { keys: null, maxKeysDown: 2, words: ["together 2"] });
  assert.deepEqual(limitsOf("press A B C D E F\nreset\nheld at most 1 s\nwait 1 to 9"),
    { keys: null, maxKeysDown: 2, words: ["together 2"] });
  assert.equal(limitsOf("together 3"), null);
  // Keys of the same column pull the same line.
  assert.deepEqual(limitsOf("press A C\ntogether 1"), { keys: [a, c], maxKeysDown: null, words: ["press"] });
  // Tests that lead to a saved state can use any inputs.
  assert.equal(limitsOf("press A\nfrom saved"), null);
  assert.deepEqual(limitsOf("\uFEFFpress A").keys, [a]);
});

test("limits on the inputs fit the board", () => {
  const limitsOn = (change, text) => limitsOf(text, subjectOf(change(BOARD), PROGRAM));
  // The front panel names keys that the matrix lacks.
  const withMoreNames = (board) => board.replace("A B E", "A B E G").replace("# lamp", "# row 2: H\n# lamp");
  assert.deepEqual(limitsOn(withMoreNames, "press A G H"), { keys: keysOf([0, 0]), maxKeysDown: null, words: ["press"] });
  assert.deepEqual(limitsOn(withMoreNames, "press A B C D E F G H\ntogether 5"), null);
  // Without `press` and `test`, keys without a name can be pressed in a proof, although a search does not press them.
  assert.deepEqual(limitsOn((board) => board.replace(/# row.*\n/g, ""), "together 3"), null);
  // A read gets only the columns at one port.
  const withTwoPorts = (board) => board.replace("0iii", "00ii").replace('{ chip = 1', '{ chip = 2, port = "i000" }, { chip = 1')
    .replace('"rom1.2"', '"rom2.3"');
  assert.equal(limitsOn(withTwoPorts, "together 2"), null);
  assert.deepEqual(limitsOn(withTwoPorts, "together 1"), { keys: null, maxKeysDown: 1, words: ["together 1"] });
  const withoutKeys = (board) => board.replace(/# row.*\n|keys = .*\n/g, "");
  assert.equal(limitsOn(withoutKeys, "test"), null);
  assert.equal(limitsOn(withoutKeys, "together 1"), null);
});

test("the limits on the inputs are lines of a question", () => {
  const linesOf = (inputLimits, limits = { maxStates: 77 }) => (
    formatQuestion({ board: "rom = []\n", program: "NOP" }, { ...createNeverQuestion([[]]), inputLimits }, limits).split("\n"));
  assert.deepEqual(linesOf(null).slice(0, 3), ["most 77", "pause 1000000", "wire"]);
  assert.deepEqual(linesOf({ keys: null, maxKeysDown: 2, minWait: 1, maxPressTime: null, words: [] }).slice(1, 4),
    ["pause 1000000", "together 2", "wire"]);
  // TEST is 1 at power-on. A proof without the line `test` would be valid only for TEST 0.
  assert.deepEqual(linesOf({ keys: keysOf([1, 0], [0, 10]), maxKeysDown: null, minWait: 1, maxPressTime: null, words: [] }).slice(1, 7),
    ["pause 1000000", "only", "press 1 0", "press 0 10", "test", "wire"]);
  assert.deepEqual(linesOf({ keys: [], maxKeysDown: 1, minWait: 1, maxPressTime: null, words: [] }).slice(1, 6),
    ["pause 1000000", "together 1", "only", "test", "wire"]);
});

/** The bench's module with a stand-in for the prover. It records a summary of each question, and whether the question has limits. */
class AnsweringEngine extends Engine {
  /** @param {(question: { kind: string, isLimited: boolean, count: number }) => string} answer */
  constructor(answer) {
    super(new globalThis.WebAssembly.Module(pageModule));
    this.answer = answer;
    /** @type {string[]} */
    this.questions = [];
  }

  prove(question) {
    if (/^sets /m.test(question)) {
      assert.doesNotMatch(question, /^(only|together \d+)$/m);
      return "gave up\n";
    }
    const [, limits] = /^pause \d+\n([^]*?)wire$/m.exec(question);
    const [kind] = ["mistake", "within", "open", "never"].filter((word) => new RegExp(`^${word}\\b`, "m").test(question));
    const count = question.split("\nnever\n").length - 1;
    this.questions.push(`${kind} ${count} ${limits.trimEnd().replace(/\n/g, "; ") || "all"}`);
    return this.answer({ kind, isLimited: limits !== "", count });
  }
}

/** Resolves to the verdicts on the properties in `propertiesText` and on common mistakes, and to the questions about both. */
async function prove(propertiesText, answer, { programText = PROGRAM, answerMistakes = () => "holds 9\n" } = {}) {
  const engine = new AnsweringEngine((question) => (question.kind === "mistake" ? answerMistakes : answer)(question));
  const texts = { boardText: BOARD, programText, testText: "", propertiesText };
  const { judge, errors } = beginProving(engine, texts, 10000, { reportStates: async () => {}, yieldToMessages: async () => {} });
  assert.deepEqual(errors, []);
  const judgedProperties = await judge.judgeAll();
  const propertyVerdicts = judgedProperties.map((judged) => createPropertyVerdict(judged));
  const verdictsWhere = (isIncluded) => propertyVerdicts.filter(isIncluded).map(({ verdict }) => verdict);
  const isAboutMistakes = (text) => text.startsWith("mistake");
  return {
    verdicts: verdictsWhere(({ line }) => line > 0),
    mistakes: verdictsWhere(({ line }) => line === 0),
    questions: engine.questions.filter((text) => !isAboutMistakes(text)), mistakeQuestions: engine.questions.filter(isAboutMistakes),
    status: findExitStatus(judgedProperties),
  };
}

const NEVER_ON = "never lamp on on\n";
const createProvedVerdict = (states, ...limits) => ({ kind: "proved", states, bySets: false, limits, leftOut: "" });

test("a property that only excluded inputs break is asked again with the limits of the text", async () => {
  const { verdicts, questions } =
    await prove(`press B D\ntest\n${NEVER_ON}`, ({ isLimited }) => (isLimited ? "holds 5\n" : ANSWERS_BY_KEYS.A));
  assert.deepEqual(verdicts, [createProvedVerdict(5, "press", "test")]);
  assert.deepEqual(questions, ["never 1 all", "never 1 only; press 0 1; press 1 1; test"]);
  // Each key switches the lamp on.
  const programText = PROGRAM.replace("        RAR\n        JCN 10, look", "        JCN 4, look");
  const [{ kind, counterexample }] = (await prove(`press B\n${NEVER_ON}`,
    ({ isLimited }) => (isLimited ? ANSWERS_BY_KEYS.B : ANSWERS_BY_KEYS.A), { programText })).verdicts;
  assert.equal(kind, "found");
  assert.match(counterexample.text, /\n {2}press B\n {2}run \d+\n {2}expect not lamp on on\n$/);
});

test("too many states, full memory and a search that gave up are also a reason to ask again", async () => {
  for (const noAnswer of ["too many\n", "no room 12\n", "no 90\n", "gave up\n"]) {
    const { verdicts, questions } = await prove(`together 1\n${NEVER_ON}`, ({ isLimited }) => (isLimited ? "holds 5\n" : noAnswer));
    assert.deepEqual(verdicts, [createProvedVerdict(5, "together 1")]);
    assert.deepEqual(questions, ["never 1 all", "never 1 together 1"]);
  }
  const { verdicts: [verdict] } = await prove(`press B\n${NEVER_ON}`, ({ isLimited }) => (isLimited ? "too many\n" : ANSWERS_BY_KEYS.A));
  assert.deepEqual([verdict.kind, verdict.reason.slice(0, 23)], ["open", "more than 10,000 states"]);
});

test("a question is not repeated without need", async () => {
  const findQuestions = async (text, answer) => (await prove(text, () => answer)).questions;
  assert.deepEqual(await findQuestions(`press A\n${NEVER_ON}`, "holds 5\n"), ["never 1 all"]);
  assert.deepEqual(await findQuestions(`press A\n${NEVER_ON}`, ANSWERS_BY_KEYS.A), ["never 1 all"]);
  // The limits in these texts do not restrict what one read can see.
  assert.deepEqual(await findQuestions(`together 3\nheld at most 1\n${NEVER_ON}`, ANSWERS_BY_KEYS.A), ["never 1 all"]);
  assert.deepEqual(await findQuestions(`together 9\n${NEVER_ON}`, "too many\n"), ["never 1 all"]);
});

test("a property that only inputs outside other limits break remains undecided", async () => {
  const { verdicts, questions } = await prove(`press A\nheld at most 1\n${NEVER_ON}`, () => ANSWERS_BY_KEYS.A);
  assert.deepEqual(verdicts, [{ kind: "open", reason: "so far, only inputs that the text excludes break it (1 step)" }]);
  assert.deepEqual(questions, ["never 1 all", "never 1 only; press 0 0; test"]);
});

test("several properties are asked together again only if all of them are undecided", async () => {
  const properties = `press B\n${NEVER_ON}never r15 = 1\nnever r14 = 1\n`;
  const tooManyResult = await prove(properties, ({ isLimited }) => (isLimited ? "holds 5\n" : "too many\n"));
  assert.deepEqual(tooManyResult.verdicts, Array.from({ length: 3 }, () => createProvedVerdict(5, "press")));
  assert.deepEqual(tooManyResult.questions, ["never 3 all", "never 3 only; press 0 1; test"]);
  // The first property fails, so the prover is asked about each property alone, and again, with limits, about the undecided one.
  let singleQuestionCount = 0;
  const failResult = await prove(properties, ({ isLimited, count }) => {
    if (isLimited) return "holds 5\n";
    singleQuestionCount += Number(count === 1);
    return count > 1 || singleQuestionCount === 1 ? ANSWERS_BY_KEYS.A : "holds 8\n";
  });
  assert.deepEqual(failResult.verdicts, [createProvedVerdict(5, "press"), createProvedVerdict(8), createProvedVerdict(8)]);
  assert.deepEqual(failResult.questions, ["never 3 all", "never 1 all", "never 1 only; press 0 1; test", "never 1 all", "never 1 all"]);
  // The combined question with limits fails, so the prover is asked about each property alone.
  const failedCombinationResult = await prove(properties,
    ({ isLimited, count }) => (!isLimited ? "no 90\n" : count === 1 ? "holds 5\n" : ANSWERS_BY_KEYS.B));
  assert.deepEqual(failedCombinationResult.verdicts, Array.from({ length: 3 }, () => createProvedVerdict(5, "press")));
  assert.deepEqual(failedCombinationResult.questions.map((text) => text.slice(0, 11)),
    ["never 3 all", "never 3 onl", "never 1 onl", "never 1 onl", "never 1 onl"]);
});

test("goals, times and presses are also asked again", async () => {
  const answerLimited = (unlimitedAnswer, limitedAnswer) => ({ isLimited }) => (isLimited ? limitedAnswer : unlimitedAnswer);
  const goalResult = await prove("press B\nreach lamp on on\n", answerLimited(ANSWERS_BY_KEYS.A, "holds 5\n"));
  assert.deepEqual(goalResult.verdicts, [createProvedVerdict(5, "press")]);
  assert.equal(goalResult.status, 1);
  const undecidedResult = await prove("press B\nreach lamp on on\n", answerLimited(ANSWERS_BY_KEYS.A, "too many\n"));
  assert.deepEqual(undecidedResult.verdicts.map(({ kind }) => kind), ["found"]);
  const timeResult = await prove("press B\nnever lamp on on for 9\n", answerLimited("too many\n", "holds 6\n"));
  assert.deepEqual(timeResult.verdicts, [createProvedVerdict(6, "press")]);
  assert.deepEqual(timeResult.questions, ["within 0 all", "within 0 only; press 0 1; test"]);
  const pressResult = await prove("lamp on on only after press B\n", answerLimited("gave up\n", "holds 7\n"));
  assert.deepEqual(pressResult.verdicts, [createProvedVerdict(7, "together 2")]);
  assert.deepEqual(pressResult.questions, ["open 0 all", "open 0 together 2"]);
});

test("common mistakes are also asked again, together if all are undecided", async () => {
  const manyResult = await prove("press B\n", () => "", { answerMistakes: ({ isLimited }) => (isLimited ? "holds 5\n" : "too many\n") });
  assert.deepEqual(manyResult.mistakes, Array.from({ length: 7 }, () => createProvedVerdict(5, "press")));
  assert.deepEqual(manyResult.mistakeQuestions, ["mistake 1 all", "mistake 1 only; press 0 1; test"]);
  // If A is down, the program jumps to ROM that the board lacks.
  const programText = PROGRAM.replace("end:    JUN end", "end:    JUN 0x200");
  let questionCount = 0;
  const answerMistakes = ({ isLimited }) => {
    questionCount += Number(!isLimited);
    return isLimited ? "holds 5\n" : questionCount === 1 || questionCount === 6 ? ANSWERS_BY_KEYS.A : "holds 8\n";
  };
  const oneLimitedResult = await prove("press B\n", () => "", { programText, answerMistakes });
  assert.deepEqual(oneLimitedResult.mistakes.map(({ limits }) => limits), [[], [], [], [], ["press"], [], []]);
  const allowedResult = await prove("press A\n", () => "", { programText, answerMistakes: () => ANSWERS_BY_KEYS.A });
  assert.deepEqual(allowedResult.mistakes.map(({ kind }) => kind), ["open", "open", "open", "open", "found", "open", "open"]);
});

async function findCounterexample(text, values, programText) {
  const subject = subjectOf(BOARD, programText);
  const { campaign } = readCampaign(text, subject);
  return replayCounterexample(subject, campaign, 0, { values }, async () => {});
}

test("a counterexample uses allowed keys if they give the same values", async () => {
  // Both rows are driven, so a read gives the same value for C as for A.
  const program = PROGRAM.replace("look:", "        LDM 2\n        WRR\n        IAC\n        WRR\nlook:");
  const found = await findCounterexample(`press C\n${NEVER_ON}`, [0, 1], program);
  assert.ok(found.isAllowed);
  assert.match(found.text, /\n {2}press C\n/);
  assert.equal((await findCounterexample(`press D\n${NEVER_ON}`, [0, 1], program)).isAllowed, false);
});

test("a counterexample releases keys that are not read, and stays within the limits when it is minimised", async () => {
  // The program reads row 0 until A is down. Then it reads row 1 until C is down.
  const program = `${DRIVE_ROW_0}${waitForKey("look")}        SRC P1\n        LDM 0\n        WRR\n        IAC\n        WRR\n`
    + `${waitForKey("next")}${SWITCH_LAMP_ON}`;
  const found = await findCounterexample(`together 1\n${NEVER_ON}`, [0, 4, 1, 0, 0, 1], program);
  assert.deepEqual([found.isAllowed, found.steps], [true, 3]);
  assert.match(found.text, /\n {2}press A\n {2}run \d+\n {2}release A\n {2}(run \d+\n {2})?press C\n {2}run \d+\n {2}expect/);
  // Two keys may be down, so A stays down.
  const longerCounterexample = await findCounterexample(`together 2\n${NEVER_ON}`, [0, 1, 0, 0, 1], program);
  assert.ok(longerCounterexample.isAllowed);
  assert.doesNotMatch(longerCounterexample.text, /release/);
  // Nothing is checked in the first 300 cycles, so minimising must not shorten the waits to less than that.
  const lateCounterexample = await findCounterexample(`begin after 300\n${NEVER_ON}`, [0, ...Array(100).fill(0), 1], PROGRAM);
  assert.ok(lateCounterexample.isAllowed && lateCounterexample.cycles > 300);
});

test("a counterexample releases a key before it presses another one", async () => {
  // The program waits until B is down, and then until A is down and B is up.
  const readPort = (label) => `${label}:   SRC P2\n        RDR\n        RAR\n`;
  const program = `${DRIVE_ROW_0}${readPort("look")}        RAR\n        JCN 10, look\n${readPort("next")}        JCN 10, next\n`
    + `        RAR\n        JCN 2, next\n${SWITCH_LAMP_ON}`;
  const found = await findCounterexample(`press A B\ntogether 1\n${NEVER_ON}`, [0, 2, 1], program);
  assert.ok(found.isAllowed);
});

test("the limits of a proof are printed", async () => {
  const property = { text: "never it", isGoal: false, line: 3, guards: [] };
  const tapOf = (verdict, isGoal = false) => formatJudgedTap({ property: { ...property, isGoal }, verdict }, 0, "p");
  assert.equal(tapOf(createProvedVerdict(1)), "ok 1 - never it # proved for all inputs (1 state)\n");
  assert.equal(tapOf(createProvedVerdict(1, "press")), 'ok 1 - never it # proved for the inputs of "press" (1 state)\n');
  assert.equal(tapOf({ ...createProvedVerdict(1200, "press", "together 2"), leftOut: '"once"' }),
    'ok 1 - never it # proved for the inputs of "press" and "together 2" (1,200 states), even without "once"\n');
  assert.equal(tapOf(createProvedVerdict(2, "press", "test", "together 1"), true),
    'not ok 1 - never it # never reached, for the inputs of "press", "test" and "together 1" (2 states)\n');
  const verdict = createProvedVerdict(2, "press", "test");
  assert.equal(describeVerdict({ ...property, verdict }), 'for the inputs of "press" and "test": 2 states');
  assert.equal(findExitStatus([{ property, verdict: createProvedVerdict(2, "press") }]), 0);
});

test("a proof with limits is valid until they change", () => {
  const texts = { boardText: "", programText: "", propertiesText: `press A\ntogether 1\nheld at most 9\n${NEVER_ON}` };
  const createJudgedProperty = (verdict) => ({ text: NEVER_ON.trim(), line: 4, isGoal: false, verdict });
  const isValidAfter = (verdict, from, to) => (
    isStillValid(createJudgedProperty(verdict), texts, { ...texts, propertiesText: texts.propertiesText.replace(from, to) }));
  for (const [from, to] of [["A", "A B"], ["together 1", "together 2"], ["press A", "press A\ntest"]]) {
    assert.ok(!isValidAfter(createProvedVerdict(2, "press"), from, to), to);
    assert.ok(isValidAfter(createProvedVerdict(2), from, to), to);
  }
  assert.ok(isValidAfter(createProvedVerdict(2, "press"), "held at most 9\n", ""));
  assert.ok(!isValidAfter({ kind: "open", reason: "why" }, "held at most 9\n", ""));
});

test("a search is not needed for a property that is proved for its inputs", async () => {
  const engine = new AnsweringEngine(({ isLimited, kind, count }) => (
    isLimited ? "holds 5\n" : kind === "mistake" && count === 1 ? "holds 9\n" : ANSWERS_BY_KEYS.A));
  const subject = createSubject(engine, BOARD, PROGRAM);
  const { campaign } = readCampaign(`press B\n${NEVER_ON}reach lamp on on\n`, subject);
  const run = new CampaignRun(subject, campaign, 1, () => true, 1, null, undefined, 30000);
  while (run.proof.canContinue) await run.runFor(1);
  const report = run.createReport({ names: { board: "b", program: "p", properties: "r" }, sums: "", seconds: 1, isStopped: false });
  assert.deepEqual(report.properties.map(({ states, limits }) => [states, limits]),
    [[5, ["press"]], [5, ["press"]], [9, []], [9, []], [9, []]]);
  assert.match(formatTap(report), /^ok 1 - never lamp on on # proved for the inputs of "press" \(5 states\)$/m);
  assert.match(formatTap(report), /^not ok 2 - reach lamp on on # never reached, for the inputs of "press" \(5 states\)$/m);
  assert.ok(run.search.openProperties.length === 0);
  // Another search has proved the first property for all inputs. The report of an older version has no limits.
  const [first, ...others] = report.properties;
  const oldGoal = { ...others[0], states: 3 };
  delete oldGoal.limits;
  const joinedReport = joinReports([report, { ...report, properties: [{ ...first, states: 8, limits: [] }, oldGoal, ...others.slice(1)] }]);
  assert.deepEqual(joinedReport.properties.slice(0, 2).map(({ states, limits }) => [states, limits]), [[8, []], [3, []]]);
});

test("the prover of the page applies the limits", async () => {
  const judge = async (propertiesText, programText = PROGRAM) => {
    const texts = { boardText: BOARD, programText, testText: "", propertiesText };
    const calls = { reportStates: async () => {}, yieldToMessages: async () => {} };
    const { judge: propertyJudge } = beginProving(moduleEngine, texts, 10000, calls);
    const { verdict } = await propertyJudge.judgeNext();
    return verdict.kind === "proved" ? verdict.limits : verdict.kind;
  };
  assert.deepEqual(await judge(`press B C\n${NEVER_ON}`), ["press"]);
  assert.equal(await judge(`press A B\n${NEVER_ON}`), "found");
  assert.deepEqual(await judge("never lamp on on and lamp on off\n"), []);
  // The lamp is switched on when A and B are down at one read.
  const twoKeyProgram = `${DRIVE_ROW_0}${waitForKey("look")}        RAR\n        JCN 10, look\n${SWITCH_LAMP_ON}`;
  assert.deepEqual(await judge(`press A B\ntogether 1\n${NEVER_ON}`, twoKeyProgram), ["press", "together 1"]);
  assert.equal(await judge(`press A B\ntogether 2\n${NEVER_ON}`, twoKeyProgram), "found");
});
