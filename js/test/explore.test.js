// Tests the search for key presses that violate properties, on the page's WebAssembly module.
import assert from "node:assert/strict";
import { test } from "node:test";
import { isDeepStrictEqual } from "node:util";
import { WorkerDiedError } from "../core/bench/bench_errors.js";
import { CampaignRun } from "../core/explore/campaign_run.js";
import { readCampaign } from "../core/explore/campaign.js";
import { countWalk, isCountingSufficient } from "../core/explore/walk_counter.js";
import { Coverage } from "../core/explore/search_coverage.js";
import { markOf, finalSummary, searchStatistics, describePropertyResult } from "../words/explore_results.js";
import { Explorer } from "../core/explore/explorer.js";
import { SlicedSearch, prepareSearch } from "../core/explore/sliced_search.js";
import { DeltaFiles } from "../core/explore/delta_files.js";
import { PlaceReader } from "../core/explore/place_reader.js";
import { PlaceQueries, PlaceAnswers } from "../core/explore/place_queries.js";
import { hasExpectedResult, joinReports, formatTap, formatReportTests } from "../core/explore/report.js";
import { Search } from "../core/explore/search.js";
import { createSubject } from "../core/explore/subject.js";
import {
  chooseStep, updateDownInputs, initialDownInputs, areStepsAllowed, createRandom, updateAges, createInitialAges,
} from "../core/explore/walks.js";
import { Watcher } from "../core/explore/walk_watcher.js";
import { Engine } from "../core/engine/engine.js";
import { pageModule } from "./page_session.js";
import { DRIVE_ROW_0 } from "./drive_row.js";

const engine = new Engine(new globalThis.WebAssembly.Module(pageModule));

// If key A is down for 20 cycles, the program switches the lamp named `on` on. Key B makes it switch the lamp off. Key C makes it
// execute a fourth nested call, and key D a BBL without a call.
const BOARD = `# row 0: A B C D
# lamp 0: on
# test: button WALK
lamp = [{ line = "ram0.0.0" }, { line = "ram0.0.1" }]
rom = [{ chip = 0, port = "0000" }, { chip = 1, port = "iiii" }]
ram = [{ bank = 0, chips = 1 }]
[[chain]]
clock = "rom0.0"
data = "rom0.1"
chips = 1
[keys]
chain = 0
first = 0
rows = 1
columns = ["rom1.0", "rom1.1", "rom1.2", "rom1.3"]
`;
const PROGRAM = `${DRIVE_ROW_0}look:   SRC P2
        RDR
        XCH R6
        SRC P1
        LD R6
        RAR
        JCN 10, other   ; A is up
        ISZ R7, look    ; it is counted
        LDM 1
        WMP
        JUN look
other:  RAR
        JCN 10, third
dark:   LDM 0
        WMP
third:  RAR
        JCN 10, fourth
        JMS one
fourth: RAR
        JCN 10, look
        BBL 0
one:    JMS two
        BBL 0
two:    JMS three
        BBL 0
three:  JMS four
        BBL 0
four:   BBL 0
`;
const subject = createSubject(engine, BOARD, PROGRAM);
const campaignOf = (text) => readCampaign(text, subject);
const errorsOf = (text) => campaignOf(text).errors.map(({ line, words }) => `${line}: ${words}`);

/** The maximum number of cycles to simulate while a counterexample is minimised. */
const MAX_MINIMISING_CYCLES = 5e6;

/** Searches for at most `seconds` seconds, or until each property has a counterexample. Resolves to the campaign run. */
async function explore(text, seconds = 20, confirm = () => true, seed = 1) {
  const { campaign, errors } = campaignOf(text);
  assert.deepEqual(errors, []);
  const run = new CampaignRun(subject, campaign, seed, confirm, MAX_MINIMISING_CYCLES);
  const propertyCount = campaign.properties.filter(({ line }) => line > 0).length;
  const deadline = performance.now() + 1000 * seconds;
  while (performance.now() < deadline && run.counterexamples.slice(0, propertyCount).includes(null)) await run.runFor(20);
  return run;
}

const findTest = async (text, seconds) => (await explore(text, seconds)).counterexamples[0].test;

test("errors in a text of properties are reported with the valid names", () => {
  assert.deepEqual(errorsOf("press A E\n"), ["1: the board has no key E; it has: A B C D WALK"]);
  assert.deepEqual(errorsOf("# a comment\n\nnever lamp purple on\n"), ["3: the board has no lamp purple; it has: on (column 7)"]);
  assert.deepEqual(errorsOf("every 20 ms @there"), ["1: the program has no label there"]);
  assert.match(errorsOf("wait 0 to 5")[0], /^1: write `wait TIME to TIME`/);
  assert.match(errorsOf("wait 1 to 2 s")[0], /^1: write `wait TIME to TIME`/);
  assert.match(errorsOf("wait 10 ms to 1 ms")[0], /^1: write `wait TIME to TIME`/);
  assert.match(errorsOf("sometimes lamp on on")[0], /^1: a line cannot begin with `sometimes`; it can begin with press, test/);
  assert.match(errorsOf("reach line 1000")[0], /^1: line 1000 of the program has no instruction/);
  assert.match(errorsOf("model ./sum")[0], /names no display/);
  assert.match(errorsOf("lamp on on only after A")[0], /only after press KEY, press KEY/);
  assert.match(errorsOf("after press A lamp on on")[0], /after press KEY within TIME CONDITION/);
  assert.match(errorsOf("@look to @dark within time")[0], /^1: write `@LABEL to @LABEL within TIME`/);
  assert.deepEqual(errorsOf("@look to @there within 1 ms"), ["1: the program has no label there"]);
  assert.match(errorsOf("@look to dark within 1 ms")[0], /^1: a line cannot begin with `@look`/);
  assert.equal(errorsOf("note pc")[0].slice(0, 5), "1: pc");
  assert.deepEqual(errorsOf("note lamps r7 ram.0.0x12 rom1 chain0 ram0.0 src\nnever acc 3 for 5 ms\nalways cy < 1\nat @look r7 0"), []);
});

test("a text without inputs is an error, unless the front panel has keys or TEST", () => {
  const subjectWithoutPanel = createSubject(engine, BOARD.replace(/^#.*\n/gm, ""), PROGRAM);
  assert.match(readCampaign("never lamp 0 on\n", subjectWithoutPanel).errors[0].words, /^no input may change/);
  assert.deepEqual(readCampaign("test\n", subjectWithoutPanel).campaign.inputs.map(({ downTestLine }) => downTestLine), ["set test 0"]);
  assert.deepEqual(campaignOf("").campaign.inputs.map(({ name }) => name), ["A", "B", "C", "D", "WALK"]);
  assert.deepEqual(campaignOf("press B\nreset\n").campaign.inputs.map(({ name }) => name), ["B"]);
});

test("each form of property is found broken, or reached, with a test that shows it", async () => {
  const inputLines = "press A B\nwait 20 to 300\n";
  const litTest = /^test never lamp on on\n {2}run \d+\n {2}press A\n {2}run \d+\n {2}expect not lamp on on\n$/;
  assert.match(await findTest(`${inputLines}never lamp on on`), litTest);
  assert.match(await findTest(`${inputLines}always lamp on off`), /expect lamp on off\n$/);
  assert.match(await findTest(`${inputLines}never lamp on on for 200`), /run \d+\n {2}until not lamp on on within \d+\n$/);
  assert.match(await findTest(`${inputLines}at @dark lamp on off`), /press B\n {2}run \d+\n {2}expect lamp on off\n$/);
  assert.match(await findTest(`${inputLines}lamp on on only after press B, press A`), /expect not lamp on on\n$/);
  assert.match(await findTest(`${inputLines}after press A within 50 lamp on on`), /press A\n {2}until lamp on on within 50\n$/);
  assert.match(await findTest(`${inputLines}after press A within 50 @dark`), /press A\n {2}until @dark within 50\n$/);
  assert.match(await findTest(`${inputLines}@dark at most once for each press`), /press B\n {2}run \d+\n {2}expect not @dark\n$/);
  assert.match(await findTest(`${inputLines}every 100 @dark`), /^test every 100 @dark\n {2}until @dark within 100\n$/);
  assert.match(await findTest(`${inputLines}@dark to @third within 1`), /press B\n {2}run \d+\n {2}until @third within 1\n$/);
  assert.match(await findTest(`${inputLines}@look to @dark within 400`),
    /^test @look to @dark within 400\n(.*\n)* {2}until @dark within \d+\n$/);
  assert.match(await findTest(`${inputLines}reach lamp on on and r7 = 0`), /\n {2}expect lamp on on and r7 = 0\n$/);
  assert.match(await findTest(`${inputLines}reach @dark`), /press B\n {2}run \d+\n {2}expect @dark\n$/);
  assert.match(await findTest(`${inputLines}reach line 22`), /press B\n {2}run \d+\n {2}expect pc 0x01B\n$/);
});

test("a fourth nested call and a BBL without a call are found without a property", async () => {
  const { counterexamples: [firstCounterexample], campaign } = await explore("press C D\nwait 20 to 300\nreach @four");
  const run = new CampaignRun(subject, campaign, 1, () => true, MAX_MINIMISING_CYCLES);
  const counterexampleOf = (form) => run.counterexamples[campaign.properties.findIndex((property) => property.form === form)];
  const deadline = performance.now() + 60000;
  while (performance.now() < deadline && !(counterexampleOf("calls") && counterexampleOf("returns"))) await run.runFor(20);
  assert.ok(firstCounterexample);
  assert.match(counterexampleOf("calls").test, /press C\n {2}run \d+\n {2}expect not @four\n$/);
  assert.match(counterexampleOf("returns").test, /press [CD]\n {2}run \d+\n {2}expect not pc 0x000\n$/);
});

test("properties that hold for all inputs are proved first, and not searched", async () => {
  const board = 'lamp = [{ line = "ram0.0.0" }, { line = "ram0.0.1" }]\n[[rom]]\nchip = 0\nport = "0000"\n[[ram]]\nbank = 0\nchips = 1\n';
  const smallSubject = createSubject(engine, board, "look: JCN 1, lit\n LDM 0\n JUN put\nlit: LDM 1\nput: WMP\n JUN look\n");
  const text = "test\nwait 1 to 20\nnever lamp 1 on\nnever lamp 0 on\nreach lamp 1 on\nreach lamp 0 on\nnever lamp 0 on for 1 s\n";
  const { campaign } = readCampaign(text, smallSubject);
  const run = new CampaignRun(smallSubject, campaign, 1, () => true, MAX_MINIMISING_CYCLES, null, undefined, 30000);
  const summarizeProperties = () =>
    run.createReport({ names: { board: "", program: "", properties: "" }, sums: "", seconds: 1, isStopped: false })
    .properties.map(({ states, found }) => `${states} ${found !== null}`);
  // The proofs find two states: whenever TEST is read, the accumulator and the lamp are both 0 or both 1.
  const expected = ["2 false", "0 true", "2 false", "0 true", "0 false", "2 false", "2 false", "2 false"];
  const deadline = performance.now() + 60000;
  do await run.runFor(20); while (performance.now() < deadline && !isDeepStrictEqual(summarizeProperties(), expected));
  assert.deepEqual(summarizeProperties(), expected);
});

test("a program that runs for a long time without a read does not delay the search", async () => {
  const board = 'rom = [{ chip = 0, port = "0000" }]\n';
  const loopCode = ["R1", "R2", "R3", "R4", "R5"].map((register) => ` ISZ ${register}, more\n`).join("");
  const slowSubject = createSubject(engine, board, `all: INC R0\nmore: NOP\n${loopCode} JUN all\n`);
  const { campaign } = readCampaign("test\nnever r6 = 1\n", slowSubject);
  const run = new CampaignRun(slowSubject, campaign, 1, () => true, MAX_MINIMISING_CYCLES, null, undefined, 100);
  const startUsage = process.cpuUsage();
  await run.runFor(20);
  // The limit is in microseconds. A thousand runs of a million cycles would take minutes.
  assert.ok(process.cpuUsage(startUsage).user < 10000000);
});

test("a model determines what the display must show, and its errors are reported", async () => {
  const board = BOARD.replace("# lamp 0: on", "# display 0: 1 digit")
    .replace("lamp = [", 'lamp = [{ line = "ram0.0.3" }, { line = "ram0.0.2" }, ')
    .replace('{ line = "ram0.0.0" }, { line = "ram0.0.1" }', '{ line = "ram0.0.1" }, { line = "ram0.0.0" }');
  const displaySubject = createSubject(engine, board, PROGRAM);
  const { campaign, errors } = readCampaign("press A B\npace 300 200\nmodel ./says\n", displaySubject);
  assert.deepEqual(errors, []);
  const modelInputs = [];
  // The lamp stays on until the user presses B. This deliberately faulty model ignores B.
  const answerModel = (chains) => {
    modelInputs.push(...chains);
    return { expectedTexts: chains.map((keys) => (keys.includes("A") ? "1" : "0")), error: "" };
  };
  const run = new CampaignRun(displaySubject, campaign, 1, () => true, MAX_MINIMISING_CYCLES, answerModel);
  while (!run.counterexamples[0]) await run.runFor(20);
  assert.equal(run.counterexamples[0].test, "test model ./says\n  pace 300 200\n  keys A B\n  expect display 1\n");
  assert.match(modelInputs[0], /^[AB]( [AB])*$/);
  const failingRun = new CampaignRun(displaySubject, campaign, 1, () => true, MAX_MINIMISING_CYCLES,
    () => ({ expectedTexts: [], error: "it died" }));
  await failingRun.runFor(20);
  assert.equal(failingRun.error, "it died");
});

test("a model whose command is not allowed is reported as not run, which is not the expected result", () => {
  const createProperty = (text, isSkipped) => (
    { text, line: 2, isGoal: false, isSkipped, applied: true, states: 0, limits: [], leftOut: "", chains: 0, found: null });
  const createReport = (isSkipped) => ({
    form: "explore 1", names: { properties: "x.props" }, sums: "",
    properties: [createProperty("model ./says", isSkipped), createProperty("never lamp 1 on", false)],
    seeds: [1], steps: 3, states: 2, seconds: 0, covered: "", instructions: [], isStopped: false,
  });
  const [plan, ...lines] = formatTap(createReport(true)).split("\n").slice(1);
  assert.equal(plan, "1..1");
  assert.deepEqual(lines.filter((line) => /ok|run:/.test(line)), ["ok 1 - never lamp 1 on # 3 steps, 2 states",
    "# not run: model ./says (x.props:2): it runs a command of your shell; --allow-model allows it"]);
  assert.deepEqual(createReport(true).properties.map(hasExpectedResult), [false, true]);
  assert.deepEqual([[true, true], [true, false]].map((flags) => joinReports(flags.map(createReport)).properties[0].isSkipped),
    [true, false]);
});

test("the same seed gives the same walks", () => {
  const { campaign } = campaignOf("press A B\nwait 20 to 300\nnote r7 lamps\nnever lamp 1 on\n");
  const results = [1, 1, 2].map((seed) => {
    const search = new Search(subject, campaign, seed);
    for (let walk = 0; walk < 200; walk++) search.walk();
    return [search.steps, search.states.length, search.coverage.text].join(" ");
  });
  assert.equal(results[0], results[1]);
  assert.notEqual(results[0], results[2]);
});

test("a counterexample that no test confirms is discarded", async () => {
  const run = await explore("press A\nwait 20 to 300\nnever lamp on on", 5, () => false);
  assert.equal(run.counterexamples[0], null);
  assert.equal(run.unconfirmedTests.length, 3);
});

test("walks respect the limits on the number, duration and distance of key presses", () => {
  const { campaign } = campaignOf("press A B C D\ntogether 3\nwait 1 to 60\nheld at most 90\napart at least 40\n");
  const random = createRandom(7);
  const steps = [];
  let [downInputs, ages] = [initialDownInputs(campaign), createInitialAges(campaign)];
  for (let count = 0; count < 5000; count++) {
    const step = chooseStep(campaign, downInputs, ages, random);
    assert.ok(step.wait >= 1 && step.wait <= 60);
    [downInputs, ages] = [updateDownInputs(downInputs, step), updateAges(ages, step)];
    steps.push(step);
  }
  assert.ok(areStepsAllowed(campaign, steps));
  assert.ok(steps.some((_, index) => steps.slice(0, index).reduce(updateDownInputs, []).length === 3 && index < 200));
  assert.ok(!areStepsAllowed(campaign, [{ wait: 10, kind: "down", input: 0 }, { wait: 91, kind: "up", input: 0 }]));
  assert.ok(!areStepsAllowed(campaign, [{ wait: 10, kind: "up", input: 0 }]));
});

test("keys that are down at the start are released in time, one after the other", () => {
  const { campaign: parsedCampaign } = campaignOf("press A B C\ntogether 3\nwait 10 to 60\nheld at most 20\n");
  const campaign = { ...parsedCampaign, inputs: parsedCampaign.inputs.map((input) => ({ ...input, isDown: true })) };
  const random = createRandom(3);
  const steps = [];
  let [downInputs, ages] = [initialDownInputs(campaign), createInitialAges(campaign)];
  while (downInputs.length > 0) {
    const step = chooseStep(campaign, downInputs, ages, random);
    [downInputs, ages] = [updateDownInputs(downInputs, step), updateAges(ages, step)];
    steps.push(step);
  }
  assert.ok(areStepsAllowed(campaign, steps));
  assert.ok(steps.every(({ wait }) => wait >= 1));
});

// After a press of A, the program counts for 99,940 cycles. After that, a press of B makes it switch the lamp named `on` on.
const LATE_PROGRAM = `${DRIVE_ROW_0}first:  SRC P2
        RDR
        RAR
        JCN 10, first
        FIM P4, 0
        FIM P5, 0x05
one:    ISZ R8, one
        ISZ R9, one
        ISZ R10, one
        ISZ R11, one
        FIM P5, 0x09
two:    ISZ R8, two
        ISZ R9, two
        ISZ R11, two
second: SRC P2
        RDR
        RAR
        RAR
        JCN 10, second
        SRC P1
        LDM 1
        WMP
stay:   JUN stay
`;

test("a counterexample is minimised to short presses, and long waits are single runs", async () => {
  const lateSubject = createSubject(engine, BOARD, LATE_PROGRAM);
  const { campaign } = readCampaign("press A B\ntogether 1\nheld at most 1000\nwait 100 to 100000\nnever lamp on on\n", lateSubject);
  const run = new CampaignRun(lateSubject, campaign, 3, () => true, 4 * MAX_MINIMISING_CYCLES);
  while (run.counterexamples[0] === null) await run.runFor(20);
  assert.deepEqual(run.counterexamples[0].test.split("\n").slice(1, 6),
    ["  run 100", "  press A", "  run 100", "  release A", "  run 100000"]);
});

test("the values of places are those that `trace` reports", () => {
  const names = ["lamps", "acc", "cy", "pc", "dcl", "r0", "r7", "r15", "ram.0.0x1F", "ram.5.64", "ram.5.200", "st.0.3.2", "st.5.4.1",
    "ram0.0", "ram5.1", "ram5.2", "ram3.0", "rom1", "chain0", "src", "ret"];
  const twoBankSubject = createSubject(engine, BOARD.replace("chips = 1 }]", "chips = 1 }, { bank = 5, chips = 2 }]"), PROGRAM);
  const reader = new PlaceReader(names, twoBankSubject.names.board);
  const queries = new PlaceQueries(reader.names);
  assert.deepEqual([...reader.names].sort(), [...names].sort());
  // Only `trace` reports cells of chips and banks that the board lacks, and lines that are inputs.
  assert.deepEqual(reader.remainingPlaces.names, ["ram.5.200", "ram5.2", "ram3.0", "rom1", "chain0", "src", "ret"]);
  const random = createRandom(3);
  const file = twoBankSubject.file.slice();
  for (let round = 0; round < 40; round++) {
    const poke = ["acc", "r0", "r7", "r15", "ram.0.0x1F", "ram.5.64", "st.0.3.2", "st.5.4.1", "ram0.0", "ram5.1"]
      .map((name) => `poke ${name} ${Math.floor(16 * random())}\n`).join("");
    engine.serve(file, `${poke}poke cy ${round % 2}\npress 0 ${round % 4}\nrun ${1 + Math.floor(90 * random())}\n`, file);
    const { answers } = engine.ask(file, `${reader.lines}${queries.formatLines(1)}seq\n`);
    const placeAnswers = new PlaceAnswers(answers);
    const row = reader.takeRow(placeAnswers);
    assert.equal(row, placeAnswers.takeRow(queries));
    assert.match(placeAnswers.take(), /^seq /);
  }
});

test("a rejected count has no results", () => {
  const placeAnswers = new PlaceAnswers(["no 11", "count ran 2 end lines 1", "00F 2", "seq 4"]);
  assert.deepEqual([placeAnswers.takeCountsIfAny(), placeAnswers.takeCountsIfAny()], [[], [{ address: 15, startCount: 2, jumpCount: -1 }]]);
  assert.equal(placeAnswers.take(), "seq 4");
});

test("a counted walk ends in the same state as a watched walk", () => {
  const threeCallSubject = createSubject(engine, BOARD, PROGRAM.replace("JMS four", "NOP"));
  const { campaign } = readCampaign("press A B C\nreset\nwait 1 to 90\nnever lamp on on for 1 s\n", threeCallSubject);
  const { properties } = campaign;
  const propertyIndexes = [...properties.keys()];
  const watcher = new Watcher(threeCallSubject, campaign, new Coverage());
  const random = createRandom(5);
  const depths = new Set();
  let litCount = 0;
  for (let round = 0; round < 80; round++) {
    let [down, ages] = [initialDownInputs(campaign), createInitialAges(campaign)];
    const steps = [...Array(12)].map(() => {
      const step = chooseStep(campaign, down, ages, random);
      [down, ages] = [updateDownInputs(down, step), updateAges(ages, step)];
      return step;
    });
    const memories = properties.map(({ createMemory }) => createMemory(7, []));
    const start = { file: threeCallSubject.file, time: 7, downInputs: initialDownInputs(campaign),
      memories };
    const { violation, stepStates: watchedStates } = watcher.watch(start, steps, propertyIndexes);
    assert.equal(violation, null);
    const countedStates = countWalk({ subject: threeCallSubject, campaign, coverage: new Coverage() }, start, steps);
    countedStates.forEach(({ time, downInputs, memories: countedMemories }, index) => {
      assert.deepEqual({ time, downInputs }, { time: watchedStates[index].time, downInputs: watchedStates[index].downInputs });
      // The search must store how long the lamp has been on, because the state of the machine does not contain it.
      const isLit = watchedStates[index].memories[0][0] !== -1;
      litCount += Number(isLit);
      assert.deepEqual(countedMemories.slice(Number(isLit)), watchedStates[index].memories.slice(Number(isLit)));
      depths.add(countedMemories[properties.findIndex(({ form }) => form === "calls")][0]);
    });
  }
  assert.deepEqual([...depths].sort(), [0, 1, 2, 3]);
  assert.ok(litCount > 10);
  assert.equal(isCountingSufficient(properties, propertyIndexes, [properties.map(() => false)]), true);
  assert.equal(isCountingSufficient(properties, propertyIndexes, [properties.map((_, index) => index === 0)]), false);
  assert.equal(isCountingSufficient(campaignOf("@look at most once for each press").campaign.properties, [0], [[false]]), false);
});

test("encoded files are decoded unchanged", () => {
  const files = new DeltaFiles(subject.file);
  const otherFile = subject.file.slice();
  engine.serve(otherFile, "press 0 1\nrun 500\n", otherFile);
  const encodedFile = files.encode(otherFile);
  assert.ok(encodedFile.indexes.length < 500);
  assert.deepEqual(files.decode(files.encode(subject.file)), subject.file);
  assert.deepEqual(files.decode(encodedFile), otherFile);
});

test("joined reports have the shortest counterexamples and the combined coverage", async () => {
  const createReportInput = (seed) => (
    { names: { board: "b", program: "p", properties: "x.props" }, sums: "1", seconds: 1, isStopped: false, seed });
  const text = "press A B\nwait 20 to 300\nnever lamp on on\nreach lamp 1 on\n";
  const [firstReport, secondReport] =
    await Promise.all([1, 2].map(async (seed) => (await explore(text, 1, () => true, seed)).createReport(createReportInput(seed))));
  secondReport.properties[0].found = { ...firstReport.properties[0].found, steps: 0, test: "test shorter\n" };
  const joinedReport = joinReports([firstReport, secondReport]);
  assert.equal(joinedReport.properties[0].found.test, "test shorter\n");
  assert.equal(joinedReport.steps, firstReport.steps + secondReport.steps);
  assert.deepEqual(joinedReport.seeds, [1, 2]);
  assert.equal(joinReports([firstReport, { ...secondReport, sums: "2" }]), null);
  const tap = formatTap(joinedReport);
  assert.match(tap, /^TAP version 13\n1\.\.5\nnot ok 1 - never lamp on on # broken, 0 steps\n/);
  assert.match(tap, /\nnot ok 2 - reach lamp 1 on # [\d,]+ steps, \d+ states\n/);
  assert.match(tap, /\n# seeds 1 2: /);
  assert.match(formatReportTests(joinedReport), /^# Found by mcs4 explore: .*\n\n# x.props:3\ntest shorter\n$/);
});

test("coverage is reported with the lines that were not run", () => {
  const coverage = new Coverage();
  assert.ok(coverage.add([{ address: 0, startCount: 3, jumpCount: -1 }, { address: 2, startCount: 2, jumpCount: 2 }]));
  assert.ok(!coverage.add([{ address: 2, startCount: 1, jumpCount: 1 }]));
  assert.ok(coverage.add([{ address: 2, startCount: 1, jumpCount: 0 }]));
  assert.equal(new Coverage(coverage.text).text, "107");
  const createInstruction = (line, address, isBranch) => ({ line, address, isBranch });
  assert.deepEqual(coverage.summarise([createInstruction(1, 0, false), createInstruction(2, 2, true), createInstruction(3, 4, true)]),
    { executed: 2, total: 3, directions: 2, allDirections: 4, unexecutedLines: [3], oneDirectionLines: [] });
});

const SAVING_TESTS = "test it is lit\n  press A\n  run 400\n  save lit\n\n"
  + "test it is dark again # by B\n  from lit\n  press B\n  run 200\n  save both\n";
const texts = { boardText: BOARD, programText: PROGRAM, testText: SAVING_TESTS };
const pause = async () => {};

test("a search can begin from a state that a test saves, and each counterexample starts with the test's lines", async () => {
  const propertiesText = "from both\npress A B\nwait 20 to 300\nnever lamp on on\n";
  const { searchSetup, errors } = await prepareSearch(engine, { ...texts, propertiesText });
  assert.deepEqual(errors, []);
  assert.deepEqual(initialDownInputs(searchSetup.campaign), [0, 1]);
  const search = new SlicedSearch(engine, texts, searchSetup, { seed: 1, seconds: 5 }, pause);
  let progress = await search.runFor(1000);
  while (progress.found.length === 0) progress = await search.runFor(1000);
  const [property] = progress.report.properties;
  assert.match(property.found.test, /^test never lamp on on\n {2}press A\n {2}run 400\n {2}press B\n {2}run 200\n/);
  assert.match(property.found.test, /\n {2}expect not lamp on on\n$/);
  // The session file contains the run that the counterexample describes.
  assert.deepEqual(engine.ask(progress.found[0].file, "lamps\n").answers, ["lamps *."]);
});

test("errors of the start state are reported", async () => {
  const errorOf = async (line, testText = SAVING_TESTS) => {
    const { errors } = await prepareSearch(engine, { ...texts, testText, propertiesText: `${line}\n` });
    return errors.map(({ line: errorLine, words }) => `${errorLine}: ${words}`).join();
  };
  assert.equal(await errorOf("from there"), "1: no test saves a state there; saved states: lit both");
  assert.equal(await errorOf("from lit", ""), "1: there are no tests, so none saves the state lit");
  assert.match(await errorOf("from lit of"), /^1: write `from STATE` or `from STATE of FILE.test`/);
  assert.match(await errorOf("from lit\nfrom both"), /^2: an earlier line already has a state to begin from/);
  const error = await errorOf("from lit", SAVING_TESTS.replace("run 400", "rune 400"));
  assert.match(error, /^1: its tests have an error on line 3: a line of a test cannot begin/);
  const failingTests = SAVING_TESTS.replace("run 400", "expect lamp on on");
  assert.match(await errorOf("from lit", failingTests), /^1: line 3 of its tests fails: expect lamp on on: /);
});

test("the same seed gives the same counterexample for each slice length", async () => {
  const { searchSetup } = await prepareSearch(engine, { ...texts, propertiesText: "press A B\nwait 20 to 300\nnever lamp on on\n" });
  const counterexamples = [];
  for (const slice of [1, 500]) {
    const search = new SlicedSearch(engine, texts, searchSetup, { seed: 3, seconds: 5 }, pause);
    while (!search.campaignRun.counterexamples[0]) await search.runFor(slice);
    counterexamples.push(search.campaignRun.counterexamples[0]);
  }
  assert.deepEqual(counterexamples[0], counterexamples[1]);
});

test("the results of a search are described", () => {
  const property = { text: "never lamp 0 on", line: 1, isGoal: false, applied: true, states: 0, limits: [], leftOut: "", chains: 0,
    found: null };
  const counterexample = { test: "", steps: 2, cycles: 1200, seed: 1 };
  const createReport = (...properties) => ({ properties, steps: 2000, states: 3, seconds: 0.5, seeds: [7] });
  const goal = { ...property, isGoal: true };
  assert.equal(searchStatistics(createReport()), "2,000 steps, 4,000 a second; 3 different states; seed 7.");
  assert.equal(finalSummary(createReport(property, goal), false), "Nothing was found that breaks a property. 1 goal was not reached.");
  const reportWithBoth = createReport({ ...property, found: counterexample }, { ...goal, found: counterexample });
  assert.equal(finalSummary(reportWithBoth, true), "Stopped. 1 property is broken.");
  assert.equal(describePropertyResult({ ...property, found: counterexample }, createReport()), "broken by 2 steps, 1,200 cycles");
  assert.equal(describePropertyResult(property, createReport()), "");
  assert.equal(describePropertyResult({ ...property, applied: false }, createReport()), "never checked");
  assert.equal(describePropertyResult({ ...property, states: 12 }, createReport()), "proved for all inputs (12 states)");
  assert.equal(describePropertyResult({ ...property, states: 12, leftOut: '"once"' }, createReport()),
    'proved for all inputs (12 states), even without "once"');
  const skippedProperty = { ...property, text: "model ./says", isSkipped: true };
  assert.match(describePropertyResult(skippedProperty, createReport()), /^a page cannot run a command; mcs4 explore --allow-model can$/);
  const marks = [markOf(goal, true), markOf(goal, false), markOf(property, true), markOf(skippedProperty, true)];
  assert.deepEqual(marks, ["open", "not ok", "ok", "not run"]);
  assert.equal(markOf({ ...property, applied: false }, true), "open");
});

test("a search ends when its time is up, it is stopped, or its worker dies; errors in texts are reported", async () => {
  /** Returns an explorer whose bench gives the answers in `answers`. */
  const createExplorer = (answers, endEvents = []) => new Explorer(() => ({
    start: async () => {},
    call: async (name) => answers[name](),
    end: () => endEvents.push("ended"),
  }));
  const reports = [];
  const run = (explorer, { signal } = new AbortController()) => (
    explorer.explore({}, { seconds: 0.05, seed: 1 }, signal, (report) => reports.push(report)));
  const endingAnswers = { explore: () => [], continueSearch: () => ({ isDone: reports.length === 2 }) };
  const endEvents = [];
  assert.deepEqual(await run(createExplorer(endingAnswers, endEvents)), { errors: [], isStopped: false });
  assert.deepEqual([reports.length, endEvents], [3, ["ended"]]);
  assert.deepEqual(await run(createExplorer({ ...endingAnswers, explore: () => ["a fault"] })), { errors: ["a fault"], isStopped: false });
  const dyingAnswers = { ...endingAnswers, continueSearch: () => Promise.reject(new WorkerDiedError()) };
  assert.deepEqual(await run(createExplorer(dyingAnswers)), { errors: [], isStopped: true });
  const controller = new AbortController();
  controller.signal.addEventListener("abort", () => reports.push("stopped"));
  const stoppedExplorer =
    createExplorer({ ...endingAnswers, continueSearch: () => (controller.abort(), Promise.reject(new WorkerDiedError())) }, endEvents);
  assert.deepEqual(await run(stoppedExplorer, controller), { errors: [], isStopped: true });
  assert.equal(endEvents.length, 3);
});

test("the lines before a counterexample contain shared steps instead of `do`, and repeated lines", async () => {
  const testText = "steps on\n  press A\n  reset\ntest it is lit\n  repeat 2\n    run 5\n    do on\n  end\n  save lit\n";
  const propertiesText = "from lit\npress A B\nnever lamp on on\n";
  const { searchSetup, errors } = await prepareSearch(engine, { ...texts, testText, propertiesText });
  assert.deepEqual(errors, []);
  assert.deepEqual(searchSetup.campaign.leadingLines, ["  repeat 2", "  run 5", "  press A", "  reset", "  end"]);
  // After a power cycle, the number of open calls is unknown.
  assert.equal(searchSetup.campaign.calls.min, 0);
  assert.ok(searchSetup.campaign.calls.max > 0);
});
