import assert from "node:assert/strict";
import { test } from "node:test";
import { testsTabMark, coverageMessage, textErrorsMessage, testsSummary, testDuration } from "../words/test_results.js";
import { formatCount, describeCount } from "../page/text/count_marks.js";
import { completeProperty, createInitialProperties, helpForProperty, readPropertyForms } from "../core/text/property_words.js";
import { completeTest, helpForTest, readTestForms } from "../core/text/test_words.js";

const names = { keys: ["1", "2", "ENTER"], lamps: ["red", "green"], labels: ["start", "stop"] };
const table = (...rows) => ({ caption: "", head: ["", ""], rows });
/** Sample tables in the form in which the page stores the manual's tables. */
const manual = [{ title: "The lines of a test", tables: [
  table(["`test NAME ..`", "begins a test"], ["`press KEY ..`, `release KEY ..`", "keys go down, or up"], ["`reset`", "a power cycle"],
    ["`run TIME`", "runs for that long"], ["`expect CONDITION`", "fails if it does not hold"]),
] }, { title: "Conditions", tables: [
  table(["`lamps NAME ..`, `lamps none`", "these lamps are lit"], ["`@LABEL`", "the counter is there"], ["`acc V`", "a register"],
    ["`ram.B.S V ..`", "the RAM character: `ram.0.0x00 2 4`"]),
] }, { title: "Inputs", tables: [table(["`press KEY ..`", "these keys may go down"])],
}, { title: "Properties", tables: [table(["`never C`", "the condition never holds"], ["`at @LABEL C`", "it holds there"],
  ["`no press below TIME reaches @LABEL`", "short presses do not count"])] }];
const forms = readTestForms(manual);
const completeLine = (line) => completeTest([line], 0, line.length, names, forms).list.map(({ text }) => text);
const helpAt = (line, at) => helpForTest([line], 0, at, forms);

test("shared steps that are defined before a line are completed", () => {
  const lines = ["steps unlock", "  keys 1", " steps  lock", "test a", "  do ", "steps later"];
  const complete = (line) => completeTest(lines, line, lines[line].length, names, forms).list.map(({ text }) => text);
  assert.deepEqual([complete(4), completeLine("do ")], [["unlock", "lock"], []]);
});

test("words of tests are completed with the names of board and program", () => {
  assert.deepEqual(completeLine("  e"), ["expect"]);
  assert.deepEqual(completeLine("re"), ["release", "reset"]);
  assert.deepEqual(completeLine("press "), ["1", "2", "ENTER"]);
  assert.deepEqual(completeLine("keys 1 E"), ["ENTER"]);
  assert.deepEqual(completeLine("until @st"), ["@start", "@stop"]);
  assert.deepEqual(completeLine("expect not lamp r"), ["red"]);
  assert.deepEqual(completeLine("expect lamp red o"), ["on", "off", "or"]);
  assert.deepEqual(completeLine("expect acc 3 and (lamp gr"), ["green"]);
  assert.deepEqual(completeLine("until not key E"), ["ENTER"]);
  assert.deepEqual(completeLine("until lamps gr"), ["green"]);
  assert.ok(completeLine("expect ").includes("acc") && completeLine("expect ").includes("@stop"));
  assert.deepEqual([completeLine("# e"), completeLine("run 1"), completeLine("test e")], [[], [], []]);
});

test("words have the help of the manual", () => {
  assert.equal(helpAt("  run 20 ms", 3), "run TIME: runs for that long");
  assert.equal(helpAt("release 3", 3), "release KEY ..: keys go down, or up");
  assert.equal(helpAt("expect lamps red", 9), "lamps NAME ..: these lamps are lit");
  assert.equal(helpAt("until not ram.1.0x20 3 within 5", 12), "ram.B.S V ..: the RAM character: ram.0.0x00 2 4");
  assert.equal(helpAt("until @stop within 5", 8), "@LABEL: the counter is there");
  assert.deepEqual([helpAt("# run", 3), helpAt("", 0), helpAt("keys run", 6)], ["", "", ""]);
});

test("test results are described", () => {
  const outcome = (failure) => ({ name: "one", line: 1, cycles: 92593, failure });
  assert.equal(testsSummary([outcome(null)]), "The test passed.");
  assert.equal(testsSummary([outcome(null), outcome(null)]), "All 2 tests passed.");
  assert.equal(testsSummary([outcome(null), outcome({})]), "1 of 2 tests failed.");
  assert.deepEqual([testsTabMark([outcome({})]), testsTabMark([outcome(null)])], ["1 failed", "passed"]);
  assert.equal(testDuration(outcome(null)), "92,593 cycles, 1.00 s");
  assert.equal(testDuration({ cycles: 1 }), "1 cycle, 0.0 ms");
  const error = { text: "tests", line: 3, number: 0, words: "a condition is missing" };
  assert.equal(textErrorsMessage([error, error], () => ""), "Nothing was run: Tests, line 3: a condition is missing, and 1 more.");
  const refusal = { text: "board", line: 0, number: 25, words: "" };
  assert.equal(textErrorsMessage([refusal], (number) => `refusal ${number}`), "Nothing was run: Board: no 25: refusal 25.");
  const jump = { line: 2, count: 3, isJump: true, jumpCount: 3 };
  const coverage = { lines: [jump], instructions: 2, instructionsRun: 1, directions: 2, directionsRun: 1, unexecutedRanges: [] };
  assert.equal(coverageMessage({ coverage }), "1 of 2 instructions were run (50.0 %), 1 of 2 branch directions (50.0 %). "
    + "1 jump always went one way. Counts are in the margin.");
  assert.equal(coverageMessage({ coverage: null }), "");
});

test("line counts are formatted", () => {
  const line = (count, isJump = false, jumpCount = 0) => ({ line: 1, count, isJump, jumpCount });
  assert.deepEqual([line(0), line(4), line(976, true, 912)].map(formatCount), ["never", "4", "976 912/64"]);
  assert.deepEqual([line(0), line(1), line(976, true, 912), line(1200, true, 1200)].map(describeCount), ["no test runs it", "run once",
    "run 976 times; it jumped 912 times and continued 64 times", "run 1,200 times; it jumped 1,200 times and continued never"]);
});

test("words of properties are completed, and have the help of the manual", () => {
  const listedForms = readPropertyForms(manual);
  const listCompletions = (line) => completeProperty([line], 0, line.length, names, listedForms).list.map(({ text }) => text);
  assert.deepEqual(listCompletions("ne"), ["never"]);
  assert.deepEqual(["n", "no ", "no press ", "no press below ", "no press below 5 ", "no press below 5 ms r"].map(listCompletions),
    [["never", "no"], ["press below"], ["below"], [], ["reaches"], ["reaches"]]);
  assert.deepEqual([listCompletions("no press below 5 reaches "), listCompletions("no press below 5 ms reaches @sto")],
    [["@start", "@stop"], ["@stop"]]);
  assert.deepEqual(listCompletions("press "), ["1", "2", "ENTER"]);
  assert.deepEqual(listCompletions("lamp red on only after press "), ["1", "2", "ENTER"]);
  assert.deepEqual(listCompletions("never lamp "), ["red", "green"]);
  assert.deepEqual(listCompletions("always lamp red on and lamp g"), ["green"]);
  assert.deepEqual(listCompletions("at @sto"), ["@stop"]);
  assert.deepEqual(listCompletions("@stop "), ["to", "at most once for each press", "only after"]);
  assert.deepEqual(listCompletions("@stop to @sto"), ["@stop"]);
  assert.deepEqual(listCompletions("@stop to @stop "), ["within"]);
  assert.deepEqual(listCompletions("@stop only after press "), ["1", "2", "ENTER"]);
  assert.deepEqual(listCompletions("# ne"), []);
  assert.equal(helpForProperty(["never lamp red on"], 0, 2, listedForms), "never C: the condition never holds");
  assert.equal(helpForProperty(["no press below 5 ms reaches @stop"], 0, 1, listedForms),
    "no press below TIME reaches @LABEL: short presses do not count");
  assert.equal(helpForProperty(["never lamps none"], 0, 8, listedForms), "lamps NAME ..: these lamps are lit");
  assert.match(createInitialProperties(names), /\nnote lamps\n\nreach lamp red on\n/);
  assert.match(createInitialProperties({ ...names, keys: [] }), /\ntest\nwait /);
});
