// Tests guards in proofs. The prover ignores guards that depend on the past, so a counterexample must also violate the property with them.
// Also tests properties that name key presses: how the bench uses a run that the prover has found.
import assert from "node:assert/strict";
import { test } from "node:test";
import { Engine } from "../core/engine/engine.js";
import { readCampaign } from "../core/explore/campaign.js";
import { InitialProof } from "../core/explore/initial_proof.js";
import { createSubject } from "../core/explore/subject.js";
import { beginProving } from "../core/prove/bounded_proof.js";
import { createQuestion, describeOmittedGuards } from "../core/prove/question.js";
import { pageModule } from "./page_session.js";

// A reaction timer. After START, it waits and then switches the lamp `go` on. PRESS, a key at TEST, stops it. A press of PRESS during the
// wait is a foul.
const BOARD = `# row 0: START
# lamp 0: waiting go foul
# test: button PRESS
lamp = [{ line = "ram0.0.0" }, { line = "ram0.0.1" }, { line = "ram0.0.2" }]
rom = [{ chip = 0, port = "0000" }, { chip = 1, port = "i000" }]
ram = [{ bank = 0, chips = 1 }]
chain = [{ clock = "rom0.0", data = "rom0.1", chips = 1 }]
keys = { chain = 0, first = 0, rows = 1, columns = ["rom1.3"] }
`;
const PROGRAM = `pressed = 1             ; the condition of JCN: TEST is 0
        FIM P0, 0
        FIM P1, 0x10
        SRC P0
        LDM 2
        WRR
        IAC
        WRR             ; the row of the keys is driven
idle:   SRC P1
        RDR
        JCN 4, idle     ; START is up
        SRC P0
        LDM 1
        WMP
        FIM P2, 0x0F
wait:   JCN pressed, foul
        ISZ R4, wait
        ISZ R5, wait
        LDM 2
        WMP
go:     JCN pressed, stop
        JUN go
stop:   LDM 0
        WMP
        JUN idle
foul:   LDM 4
        WMP
end:    JUN end
`;
const engine = new Engine(new globalThis.WebAssembly.Module(pageModule));

/** The bench's module, except that the prover always gives the same answer to questions about key presses. */
class FixedAnswerEngine extends Engine {
  /** @param {string} answer */
  constructor(answer) {
    super(new globalThis.WebAssembly.Module(pageModule));
    this.answer = answer;
  }

  prove(question) {
    return /^open$/m.test(question) ? this.answer : super.prove(question);
  }
}

/** Resolves to the verdicts on the properties in `propertiesText`. */
async function findVerdicts(propertiesText, usedEngine = engine, programText = PROGRAM) {
  const texts = { boardText: BOARD, programText, testText: "", propertiesText };
  const { judge, errors } = beginProving(usedEngine, texts, 100000, { reportStates: async () => {}, yieldToMessages: async () => {} });
  assert.deepEqual(errors, []);
  return (await judge.judgeAll()).filter(({ property: { line } }) => line > 0).map(({ verdict }) => verdict);
}

const WITHOUT_ONCE = 'without "once", which a proof leaves out';
const WITHOUT_PRESS = 'without "after press", which a proof leaves out';
// Each form of property with guards, and its verdict. The prover examines the property without its guards. `proved`: the property holds
// without the guards, so it also holds with them; for a goal, no run reaches it. `found`: a run violates the property (or reaches the goal)
// while the guards are open. Any other text is the reason why the verdict is open: the guard is closed in that run.
const GUARDED_PROPERTIES = [
  ["once lamp go on, never lamp waiting on and lamp go on", "proved"],
  ["once lamp go on, never lamp foul on", `it can fail ${WITHOUT_ONCE}`],
  ["after press START, never lamp foul on", "found"],
  ["once lamp waiting on, never @foul", "found"],
  ["after press PRESS, always lamps *.. or lamps .*. or lamps ..* or lamps none", "proved"],
  ["once lamp go on, always lamp foul off", `it can fail ${WITHOUT_ONCE}`],
  ["after press PRESS within 10, always lamp foul off", "found"],
  ["once lamp waiting on, at @foul lamp go off", "proved"],
  ["once lamp foul on, at @foul lamp waiting off", `it can fail ${WITHOUT_ONCE}`],
  ["after press PRESS, at @foul lamp waiting off", "found"],
  ["once lamp go on, never lamp waiting on for 500", "proved"],
  ["after press START within 20, never lamp waiting on for 20", `it can fail ${WITHOUT_PRESS}`],
  ["after press START within 50, never lamp waiting on for 20", "found"],
  ["once lamp go on, reach lamp waiting on and lamp go on", "proved"],
  ["once lamp foul on, reach lamp go on", `it can be reached ${WITHOUT_ONCE}`],
  ["after press START, reach lamp go on", "found"],
  ["after press PRESS, reach @go", `it can be reached ${WITHOUT_PRESS}`],
  ["after press START, reach @go", "found"],
  ["after press PRESS, after press START within 20 lamp waiting on", 'a property of the form "after press" cannot be proved yet'],
  ["while lamp waiting on, after press PRESS within 20 lamp foul on", 'a property of the form "after press" cannot be proved yet'],
  // A `while` guard becomes part of the condition.
  ["while lamp go on, once lamp foul on, never r15 = 1", "proved"],
  ["once lamp go on, after press PRESS, while lamp waiting on, never lamp foul off",
    'it can fail without "once" and "after press", which a proof leaves out'],
];

test("the question about a property omits guards that depend on the past", () => {
  const subject = createSubject(engine, BOARD, PROGRAM);
  const propertyOf = (text) => readCampaign(text, subject).campaign.properties[0];
  const questionOf = (text) => createQuestion(propertyOf(text), { from: null }, subject);
  for (const [text] of GUARDED_PROPERTIES) {
    const textWithoutGuards = text.replace(/(once|after press) [^,]*, /g, "");
    assert.deepEqual(questionOf(text), questionOf(textWithoutGuards), text);
  }
  const guardedProperty = propertyOf("once r0 = 1, after press START within 9, once r0 = 2, never r1 = 1");
  assert.equal(describeOmittedGuards(guardedProperty), '"once" and "after press"');
  assert.equal(describeOmittedGuards(propertyOf("while r0 = 1, never r1 = 1")), "");
  // The cells that a guard reads do not matter, because the prover ignores the guard.
  assert.notEqual(questionOf("once rom1 in 8, never r1 = 1").question, null);
  assert.equal(questionOf("while rom1 in 8, never r1 = 1").question, null);
});

test("a proof without a guard is also a proof with it; a counterexample must respect the guard", async () => {
  const verdicts = await findVerdicts(GUARDED_PROPERTIES.map(([text]) => `${text}\n`).join(""));
  GUARDED_PROPERTIES.forEach(([text, expected], at) => {
    const verdict = verdicts[at];
    assert.equal(verdict.kind === "open" ? verdict.reason : verdict.kind, expected, text);
    if (verdict.kind === "proved") assert.match(verdict.leftOut, text.includes("once") ? /^"once"$/ : /^"after press"$/);
  });
});

test("a property with such a guard has its own question, also before a search", () => {
  const subject = createSubject(engine, BOARD, PROGRAM);
  const text = "never r15 = 1\nonce lamp go on, never lamp foul on\nnever r14 = 1\n@go only after press START\n";
  const { campaign } = readCampaign(text, subject);
  const [jointQuestion, ...singleQuestions] = new InitialProof(subject, campaign, 1000).questions.map(({ properties }) => properties);
  assert.deepEqual([jointQuestion.includes(0), jointQuestion.includes(1), jointQuestion.includes(2), jointQuestion.includes(3)],
    [true, false, true, false]);
  assert.ok([0, 1, 2, 3].every((at) => singleQuestions.some((question) => question.length === 1 && question[0] === at)));
});

test("presses that no read detects are not a counterexample", async () => {
  // The first read already finds START down. The key was pressed before that read, so no read sees it go down.
  const text = "lamp waiting on only after press START\n";
  const [openVerdict] = await findVerdicts(text, new FixedAnswerEngine("may fail 0 8\n"));
  assert.deepEqual(openVerdict, { kind: "open", reason: "it can become true before the program has read each key up and then down" });
  const [provedVerdict] = await findVerdicts(text, new FixedAnswerEngine("holds 12\n"));
  assert.deepEqual(provedVerdict, { kind: "proved", states: 12, bySets: false, limits: [], leftOut: "" });
  const [foundVerdict] = await findVerdicts("lamp go on only after press START, press START\n",
    new FixedAnswerEngine(`may fail 0 8${" 1".repeat(16)}\n`));
  assert.equal(foundVerdict.kind, "found");
  assert.match(foundVerdict.counterexample.text, /\n {2}press START\n {2}run \d+\n {2}expect not lamp go on\n$/);
  const [pinVerdict] = await findVerdicts("lamp foul on only after press PRESS\n");
  assert.match(pinVerdict.reason, /^PRESS is at the TEST pin/);
});
