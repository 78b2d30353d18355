// Tests proofs on the page: the increasing bound, combined questions, verdicts that remain valid, the worker, and the messages about
// proofs.
import assert from "node:assert/strict";
import { test } from "node:test";
import { Bench } from "../core/bench/bench_client.js";
import { BenchCalls } from "../core/engine/bench_calls.js";
import { Engine } from "../core/engine/engine.js";
import { Prover } from "../core/prove/prover.js";
import { beginProving, createPropertyVerdict } from "../core/prove/bounded_proof.js";
import { listBounds } from "../core/prove/question.js";
import { findPropertyLine, isStillValid } from "../core/prove/verdict_validity.js";
import { markOf, proofsTabMark, finalSummary, describeVerdict, progressSummary } from "../words/prove_results.js";
import { pageModule } from "./page_session.js";

// The lamp is on while TEST is 0. R1 counts how often the program has read 0.
const texts = {
  boardText: '# lamp 0: lit\n# test: button WALK\nlamp = [{ line = "ram0.0.0" }, { line = "ram0.0.1" }]\n'
    + 'rom = [{ chip = 0, port = "0000" }]\nram = [{ bank = 0, chips = 1 }]\n',
  programText: "look:   JCN 1, on\n        LDM 0\n        JUN put\non:     LDM 1\nput:    WMP\n        INC R1\n        JUN look\n",
  testText: "",
  propertiesText: "test\nnever lamp 1 on\nreach lamp lit on\nnever lamp lit on\n",
};
/** The prover's answer for a run that turns the lamp on. The 0 is the value of TEST at the only read. */
const LAMP_ON_ANSWER = "may fail 0\n";

/** The prover's answer to a question about common mistakes, unless a test gives another answer. */
const NO_MISTAKE_ANSWER = "holds 9\n";

/**
 * The bench's module with a stand-in for the prover, which records its questions. `propertyQuestions`: the bound and the number of
 * conditions of each question about properties. `timeLimits`: the limit of each question about a stopwatch, in cycles.
 * `mistakeQuestions`: the words of each question about common mistakes. `setQuestions`: the questions that use sets of states.
 */
class RecordingEngine extends Engine {
  /**
   * @param {(bound: number, nevers: string[]) => string} answer
   * @param {(words: string[]) => string} answerMistakes
   * @param {(question: string) => string} answerSets
   * @param {(within: number) => string} answerTimes
   */
  constructor(answer, answerMistakes = () => NO_MISTAKE_ANSWER, answerSets = () => "gave up\n", answerTimes = () => "holds 7\n") {
    super(new globalThis.WebAssembly.Module(pageModule));
    this.answer = answer;
    this.answerMistakes = answerMistakes;
    this.answerSets = answerSets;
    this.answerTimes = answerTimes;
    this.propertyQuestions = [];
    this.timeLimits = [];
    this.mistakeQuestions = [];
    this.setQuestions = [];
  }

  prove(question) {
    const bound = Number(/^most (\d+)$/m.exec(question)[1]);
    const neverParts = question.split("\nnever\n").slice(1);
    const [, words] = /^mistake (.*)$/m.exec(question) || [];
    const [, within] = /^within (\d+)$/m.exec(question) || [];
    if (within) {
      this.timeLimits.push(Number(within));
      assert.ok(neverParts.length === 0 && !/^sets /m.test(question));
      return this.answerTimes(Number(within));
    }
    if (/^sets \d+$/m.test(question)) {
      this.setQuestions.push(words || neverParts.join());
      return this.answerSets(this.setQuestions[this.setQuestions.length - 1]);
    }
    if (words) {
      this.mistakeQuestions.push(words);
      return this.answerMistakes(words.split(" "));
    }
    this.propertyQuestions.push([bound, neverParts.length]);
    return this.answer(bound, neverParts);
  }
}

/**
 * Proves the properties of `texts` with a stand-in for the prover. `changedTexts` replace those of `texts`. Resolves to the verdicts, the
 * errors in the texts, and the numbers of states that were reported.
 */
async function runProofs(answer, { maxStates = 50000, answerMistakes, answerSets, answerTimes, ...changedTexts } = {}) {
  const engine = new RecordingEngine(answer, answerMistakes, answerSets, answerTimes);
  const stateCounts = [];
  const { judge, errors } = beginProving(engine, { ...texts, ...changedTexts }, maxStates, {
    reportStates: async (states) => {
      stateCounts.push(states);
    },
    yieldToMessages: async () => {},
  });
  const verdicts = judge ? (await judge.judgeAll()).map(createPropertyVerdict) : [];
  const propertyVerdicts = verdicts.filter(({ line }) => line > 0);
  return { errors, engine, stateCounts, propertyVerdicts, mistakeVerdicts: verdicts.filter(({ line }) => line === 0) };
}

const kindsOf = (verdicts) => verdicts.map(({ verdict: { kind } }) => kind);

test("the bound on the number of states doubles up to the requested maximum", () => {
  assert.deepEqual(listBounds(77), [77]);
  assert.deepEqual(listBounds(10000), [10000]);
  assert.deepEqual(listBounds(50000), [10000, 20000, 40000, 50000]);
});

test("a question is repeated with a larger bound while there are more states, and reports its progress", async () => {
  const { propertyVerdicts, engine, stateCounts } = await runProofs((bound) => (bound < 40000 ? "too many\n" : "holds 23456\n"),
    { propertiesText: "test\nnever lamp 1 on\n" });
  assert.deepEqual(engine.propertyQuestions, [[10000, 1], [20000, 1], [40000, 1]]);
  // The question that uses sets of states comes first, the questions about mistakes last.
  assert.deepEqual(stateCounts, [0, 10000, 20000, 0, 0]);
  const verdict = { kind: "proved", states: 23456, bySets: false, limits: [], leftOut: "" };
  assert.deepEqual(propertyVerdicts, [{ text: "never lamp 1 on", line: 2, isGoal: false, verdict }]);
});

test("properties are proved together first, and separately only if necessary", async () => {
  const togetherResult = await runProofs((_, nevers) => (nevers.length === 2 ? "holds 3\n" : LAMP_ON_ANSWER));
  assert.deepEqual(togetherResult.engine.propertyQuestions, [[10000, 2], [10000, 1]]);
  assert.deepEqual(kindsOf(togetherResult.propertyVerdicts), ["proved", "found", "proved"]);
  const aloneResult = await runProofs((_, nevers) => (nevers.length === 1 && nevers[0].includes("line1") ? "holds 3\n" : LAMP_ON_ANSWER));
  assert.deepEqual(kindsOf(aloneResult.propertyVerdicts), ["proved", "found", "found"]);
  const openResult = await runProofs((bound) => (bound < 50000 ? "too many\n" : "no 90\n"));
  assert.deepEqual(kindsOf(openResult.propertyVerdicts), ["open", "open", "open"]);
  assert.deepEqual(openResult.engine.propertyQuestions.map(([, nevers]) => nevers), [2, 2, 2, 2, 1, 1, 1, 1]);
  assert.match(openResult.propertyVerdicts[0].verdict.reason, /memory has room for only 40,000 states/);
  const singleResult = await runProofs(() => LAMP_ON_ANSWER, { propertiesText: "test\nnever lamp lit on\n" });
  assert.deepEqual(singleResult.engine.propertyQuestions, [[10000, 1]]);
});

test("seven mistakes are checked for each program: together first, and separately if one is possible", async () => {
  const noProperties = { propertiesText: "" };
  const { mistakeVerdicts, engine } = await runProofs(() => "", noProperties);
  assert.deepEqual(engine.mistakeQuestions, ["code call return ram rom rdr wrr"]);
  assert.deepEqual(kindsOf(mistakeVerdicts), Array.from({ length: 7 }, () => "proved"));
  const verdict = { kind: "proved", states: 9, bySets: false, limits: [], leftOut: "" };
  assert.deepEqual(mistakeVerdicts[0], { text: "no code outside the instruction table", line: 0, isGoal: false, verdict });
  // The program jumps into ROM that the board lacks.
  const programWithMistake = { ...noProperties, programText: "        JUN 256\n" };
  const mistakeResult = await runProofs(() => "",
    { ...programWithMistake, answerMistakes: (words) => (words.includes("rom") ? "may fail 0\n" : NO_MISTAKE_ANSWER) });
  assert.deepEqual(mistakeResult.engine.mistakeQuestions.slice(1), ["code", "call", "return", "ram", "rom", "rdr", "wrr"]);
  assert.deepEqual(kindsOf(mistakeResult.mistakeVerdicts), ["proved", "proved", "proved", "proved", "found", "proved", "proved"]);
  // A report of the prover that the bench does not confirm is not a counterexample.
  const answerMistakes = (words) => (words.includes("wrr") ? "may fail 0\n" : NO_MISTAKE_ANSWER);
  const unconfirmedResult = await runProofs(() => "", { ...noProperties, answerMistakes });
  assert.equal(unconfirmedResult.mistakeVerdicts[6].verdict.reason, "the bench does not confirm the counterexample that was found");
});

test("sets of states prove the absence of mistakes, and properties that the search does not decide", async () => {
  const words = "code call return ram rom rdr wrr";
  const provedVerdict = { kind: "proved", states: 5, bySets: true, limits: [], leftOut: "" };
  const allResult = await runProofs(() => "too many\n", { answerSets: () => "holds 5\n" });
  assert.deepEqual(allResult.engine.mistakeQuestions, []);
  assert.deepEqual(allResult.mistakeVerdicts.map(({ verdict }) => verdict), Array.from({ length: 7 }, () => provedVerdict));
  assert.deepEqual(allResult.propertyVerdicts.map(({ verdict }) => verdict), Array.from({ length: 3 }, () => provedVerdict));
  // The combined question is not decided, but one of the single questions is.
  const someResult = await runProofs(() => "", { propertiesText: "", answerMistakes: () => "too many\n",
    answerSets: (question) => (question === "call" ? "holds 5\n" : "gave up\n") });
  assert.deepEqual(someResult.engine.setQuestions, [words, ...words.split(" ")]);
  assert.deepEqual(someResult.engine.mistakeQuestions, [words, words, words, words]);
  assert.deepEqual(kindsOf(someResult.mistakeVerdicts), ["open", "proved", "open", "open", "open", "open", "open"]);
  assert.match(someResult.mistakeVerdicts[0].verdict.reason, /more than/);
});

test("each property with a stopwatch is proved separately, and never with sets of states", async () => {
  const propertiesText = "test\nnever lamp 1 on\nnever lamp lit on for 9\nevery 1 ms @look\n@look to @put within 5\n";
  const { propertyVerdicts, engine } = await runProofs(() => "holds 3\n", { propertiesText, maxStates: 20000, answerSets: () => "holds 5\n",
    answerTimes: (within) => ({ 9: "may fail 0 0 0\n", 93: "holds 7\n", 5: "too many\n" })[within] });
  assert.deepEqual(engine.timeLimits, [9, 93, 5, 5]);
  assert.deepEqual(engine.propertyQuestions, [[10000, 1]]);
  assert.deepEqual(kindsOf(propertyVerdicts), ["proved", "found", "proved", "open"]);
  assert.deepEqual(propertyVerdicts[2].verdict, { kind: "proved", states: 7, bySets: false, limits: [], leftOut: "" });
  const { text } = propertyVerdicts[1].verdict.counterexample;
  assert.match(text, /^test never lamp lit on for 9\n {2}press WALK\n {2}run \d+\n {2}until not lamp lit on within 9\n$/);
});

test("a counterexample contains the lines after which one step violates the property", async () => {
  const { propertyVerdicts: [{ verdict }], engine } =
    await runProofs(() => LAMP_ON_ANSWER, { propertiesText: "test\nnever lamp lit on\n" });
  const { counterexample } = verdict;
  assert.ok(counterexample.isTest && counterexample.isAllowed);
  const file = engine.begin();
  const lampsAfter = (lines) => engine.ask(file, `${lines}lamps\n`).answers.slice(-1)[0];
  engine.serve(file, `wire\n${texts.boardText}.\nasm\n${texts.programText}.\n`, file);
  assert.match(lampsAfter(counterexample.linesBefore), /^lamps \.\.$/);
  assert.match(lampsAfter(`${counterexample.linesBefore}step\n`), /^lamps \*\.$/);
});

test("an unconfirmed counterexample leaves a property undecided, and an unexpected answer is an error", async () => {
  const wrongResult = await runProofs(() => "may fail 1\n", { propertiesText: "test\nnever lamp 1 on\n" });
  const reason = "the bench does not confirm the counterexample that was found";
  assert.deepEqual(wrongResult.propertyVerdicts[0].verdict, { kind: "open", reason });
  await assert.rejects(runProofs(() => "no 25\n"), /ended without an answer: no 25/);
  const { errors } = await runProofs(() => "holds 1\n", { propertiesText: "never lamp purple on\n" });
  assert.deepEqual(errors.map(({ line }) => line), [1]);
});

test("a verdict remains valid while its property, the program and the board are unchanged", () => {
  const proved = { text: "never lamp 1 on", line: 2, isGoal: false,
    verdict: { kind: "proved", states: 3, bySets: false, limits: [], leftOut: "" } };
  const open = { ...proved, verdict: { kind: "open", reason: "why" } };
  const changeTexts = (change) => ({ ...texts, ...change });
  const changeProperties = (text) => changeTexts({ propertiesText: text });
  assert.ok(isStillValid(proved, texts, texts));
  assert.ok(!isStillValid(proved, texts, changeTexts({ programText: `${texts.programText};` })));
  assert.ok(!isStillValid(proved, texts, changeTexts({ boardText: `${texts.boardText}#` })));
  assert.ok(!isStillValid(proved, texts, changeProperties(texts.propertiesText.replace("lamp 1 on", "lamp 1 off"))));
  assert.ok(isStillValid(proved, texts, changeProperties(`# more\n\n  never  lamp 1 on\nnever lamp lit off\ntest`)));
  // A proof covers all inputs from power-on, whatever inputs the text lists. The reason why a verdict is open can depend on the listed
  // inputs.
  assert.ok(isStillValid(proved, texts, changeProperties("never lamp 1 on")));
  assert.ok(!isStillValid(open, texts, changeProperties("never lamp 1 on")));
  assert.ok(!isStillValid(proved, texts, changeProperties(`from dark\n${texts.propertiesText}`)));
  const mistake = { ...proved, text: "no fourth nested call", line: 0 };
  assert.ok(isStillValid(mistake, texts, changeProperties("never lamp lit off")));
  assert.ok(!isStillValid(mistake, texts, changeTexts({ boardText: `${texts.boardText}#` })));
  assert.equal(findPropertyLine("never lamp 1 on", "# a\n\n never   lamp 1 on\n"), 3);
  assert.equal(findPropertyLine("never lamp 1 on", "never lamp 1 off\n"), 0);
});

/** Returns a stand-in for a worker. It works in this thread and can be terminated. */
function createFakeWorker(engine) {
  const listeners = [];
  const addEventListener = (kind, listen) => kind === "message" && listeners.push(listen);
  const worker = { isEnded: false, postMessage: () => {}, terminate: () => {}, addEventListener };
  const post = (data) => !worker.isEnded && listeners.forEach((listen) => listen({ data }));
  const calls = new BenchCalls(async (done, total) => {
    post({ kind: "progress", number: worker.number, done, total });
    return true;
  });
  calls.load = async () => {
    calls.bench.loadedModule = engine;
    return engine.size;
  };
  worker.terminate = () => {
    worker.isEnded = true;
  };
  worker.postMessage = async ({ kind, number, call, parameters }) => {
    if (kind !== "request") return;
    worker.number = number;
    post({ kind: "reply", number, result: globalThis.structuredClone(await calls[call](...parameters)) });
  };
  return worker;
}

/**
 * Returns a prover that uses a stand-in for its worker. The timer with which the bench checks the worker must not keep the test process
 * alive.
 */
function createProver(engine) {
  const { setInterval } = globalThis;
  globalThis.setInterval = () => 0;
  const prover = new Prover(() => new Bench(() => createFakeWorker(engine), new ArrayBuffer(0), []));
  void prover.bench;
  globalThis.setInterval = setInterval;
  return prover;
}

test("the page receives each verdict and the number of states so far", async () => {
  const engine = new RecordingEngine((bound,
    nevers) => (nevers.length === 1 ? LAMP_ON_ANSWER : bound < 20000 ? "too many\n" : "holds 12345\n"));
  const reports = [];
  const { errors, isStopped } = await createProver(engine).prove(texts, 50000, new AbortController().signal,
    ({ verdicts, count, states }) => reports.push([verdicts.length, count, states]));
  assert.deepEqual([errors, isStopped], [[], false]);
  assert.deepEqual(reports[0], [0, 10, 0]);
  assert.ok(reports.some(([, , states]) => states === 10000));
  assert.deepEqual(reports[reports.length - 1], [10, 10, 0]);
});

test("cancelling ends the worker at once; a silent worker is not ended", async () => {
  const engine = new RecordingEngine(() => "holds 3\n");
  const prover = createProver(engine);
  const controller = new AbortController();
  const result = await prover.prove(texts, 50000, controller.signal, () => controller.abort());
  assert.deepEqual(result, { errors: [], isStopped: true });
  const { bench } = prover;
  bench.worker = createFakeWorker(engine);
  bench.pendingRequests.set(1, { resolve: () => {}, reject: () => {}, progress: () => {} });
  for (let round = 0; round < 50; round++) bench.pingWorker();
  assert.notEqual(bench.worker, null);
});

test("verdicts are described", () => {
  const counterexample = { steps: 2, cycles: 1204, isAllowed: true, isTest: true, text: "", linesBefore: "" };
  const proved = { kind: "proved", states: 96937, bySets: false, limits: [], leftOut: '"once"' };
  const verdicts = [{ ...proved, states: 1, bySets: true, limits: [], leftOut: "" }, proved, { kind: "found", counterexample },
    { kind: "open", reason: "why" }];
  const propertyVerdicts = verdicts.map((verdict, index) => ({ text: `p${index}`, line: index + 1, isGoal: false, verdict }));
  const goals = propertyVerdicts.map((propertyVerdict) => ({ ...propertyVerdict, isGoal: true }));
  assert.deepEqual(propertyVerdicts.map(markOf), ["proved", "proved", "can fail", "not decided"]);
  assert.deepEqual(goals.map(markOf), ["never reached", "never reached", "reached", "not decided"]);
  assert.deepEqual(propertyVerdicts.map(describeVerdict), [
    "for all inputs: 1 set of states", 'for all inputs: 96,937 states, even without "once"', "broken by 2 steps, 1,204 cycles", "why"]);
  assert.equal(finalSummary(propertyVerdicts, false), "2 proved, 1 can fail, 1 not decided.");
  assert.equal(finalSummary(goals, true), "Cancelled: 1 reached, 2 never reached, 1 not decided.");
  assert.equal(progressSummary({ verdicts: propertyVerdicts.slice(1), count: 4, states: 0 }), "Property 4 of 4");
  assert.equal(progressSummary({ verdicts: [], count: 4, states: 20000 }), "Property 1 of 4: more than 20,000 states so far");
  assert.equal(proofsTabMark(propertyVerdicts), "1 can fail");
  assert.equal(proofsTabMark(propertyVerdicts.slice(0, 2)), "2 proved");
  assert.equal(proofsTabMark([]), "");
});
