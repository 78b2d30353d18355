// Tests the parsing and the evaluation of conditions, on the page's WebAssembly module. The bench reports the values with `trace`.
import assert from "node:assert/strict";
import { before, test } from "node:test";
import { readBoard } from "../core/bench/answers.js";
import { Face } from "../core/board/face.js";
import { MAX_PLACES } from "../core/bench/inputs.js";
import { compileCondition, compileTestCondition } from "../core/conditions/condition_language.js";
import { parseDuration, parseExactDuration } from "../core/conditions/durations.js";
import { SourceMap } from "../core/machine/source_map.js";
import { ForecastAnswers, rowValues } from "../core/engine/forecast_answers.js";
import { openExample } from "./page_session.js";

const BOARD_TABLES = [
  '[[rom]]\nchip = 0\nport = "0000"', '[[rom]]\nchip = 1\nport = "1i0i"', "[[ram]]\nbank = 0\nchips = 2",
  '[[chain]]\nclock = "rom0.0"\ndata = "rom0.1"\nchips = 1',
  ...[0, 1, 2, 3].map((line) => `[[lamp]]\nline = "ram0.0.${line}"`), '[[lamp]]\nline = "ram0.1.0"',
].join("\n\n");
const BOARD_TEXT = `# lamp 0: _ _ locked open alarm\n# display 0: 1 digit\n${BOARD_TABLES}\n`;
const PROGRAM = "limit = 5\nstart: FIM P0, 0\nSRC P0\nLDM 4\nWMP\nWRM\nFIM P1, 0x40\nSRC P1\nLDM 1\nWMP\nend: JUN end\n";

/** Resolves to a session with the board BOARD_TEXT and the program PROGRAM after some session lines, and the names that both define. */
async function openBench(lines = "") {
  const calls = await openExample("empty bench", `wire\n${BOARD_TEXT}.\nasm\n${PROGRAM}.\n${lines}`);
  const board = readBoard(calls.ask("board\n"));
  return { calls, names: { face: new Face(BOARD_TEXT), board, map: new SourceMap(calls.ask(`map\n${PROGRAM}.\n`), PROGRAM) } };
}

/** @type {import("../core/conditions/condition_language.js").Names} */
let names;
before(async () => {
  ({ names } = await openBench());
});

/** Returns the current values of the places that a condition reads. */
function readValues(calls, { places }) {
  return places.length === 0 ? [] : rowValues(new ForecastAnswers(calls.ask(`trace 1 ${places.join(" ")}\n`)).takeTrace().row);
}

const compile = (text) => {
  const { condition, error } = compileCondition(text, names);
  assert.equal(error, "", text);
  return condition;
};
test("conditions are evaluated with the values that the bench reports", async () => {
  const { calls } = await openBench("run 19\n");
  const trueConditions = ["acc 1", "acc = 1", "acc=1", "r2 4", "r2 > 3", "r2>=4", "r2 != 5", "r3 0", "cy 0", "dcl 0", "@end", "at end",
    "pc = 11", "pc > 10",
    "not at start", "not not @end", "lamps locked alarm", "lamps ..* .*", "lamps ???.?", "lamp locked on", "lamp 3 off",
    "not lamp open on",
    "display 2 locked alarm", "display 2", 'display "2"', "display = 2", "display != 3", "not display 2 locked",
    "ram.0.0 4", "ram.0.0x00 4 0 0", "ram.0.0x00 = 4 0", "st.0.0.0 0", "ram0.0 out 4",
    "ram0.0.2 1",
    "ram0.1 out 1", "ram0.1 out = 1", "rom0 out 0", "rom1 in 8", "rom1 out 0", "rom1.0 0", "rom0 in 0", "chain0 0000000000",
    "chain0 00???? ????",
    "chain0 ?????00000", "chain0 = 0?????????", "not chain0 != 0000000000", "chain0.5 0", "acc 1 and r2 4 and lamp alarm on", "pc @end"];
  for (const text of trueConditions) {
    const condition = compile(text);
    const values = readValues(calls, condition);
    assert.equal(condition.holds(values), true, `${text}: ${condition.places} ${values}`);
    assert.equal(condition.explain(values), "", text);
  }
  for (const text of ["acc 2", "r2 < 4", "r2 <= 3", "@start", "lamps locked", "lamps none", "display 2 locked", "display != 2",
    "ram.0.0 4 1",
    "acc 1 and r2 5", "not pc 11"]) {
    assert.equal(compile(text).holds(readValues(calls, compile(text))), false, text);
  }
});

test("a condition that is false is explained as by mcs4 test", async () => {
  const { calls } = await openBench("run 19\n");
  const explain = (text) => compile(text).explain(readValues(calls, compile(text)));
  assert.equal(explain("acc 2"), "acc is 1, but must be 2");
  assert.equal(explain("not acc 1"), "acc is 1, but must not be 1");
  assert.equal(explain("@start"), "pc is 00B (end), but must be @start");
  assert.equal(explain("acc 1 and lamp alarm off"), "lamp alarm is on, but must be off");
  assert.equal(explain("lamps none"), "lamps are ..*.*, but must be ??...; lit: locked alarm");
  assert.equal(explain("ram.0.0 4 1"), "ram.0.0x00 is 4 0, but must be 4 1");
  assert.equal(explain("r2 < 4"), "r2 is 4, but must be < 4");
});

test("each place is requested once, and the limit of a query is not exceeded", () => {
  assert.deepEqual(compile("acc 1 and not acc 2 and r9 3").places, ["acc", "r9"]);
  assert.deepEqual(compile("lamp 3 on and lamps none").places, ["lamps"]);
  assert.deepEqual(compile("@end").address, 11);
  assert.deepEqual([compile("not @end").address, compile("pc > 3").address, compile("@end and acc 1").address], [-1, -1, -1]);
  const longCondition = Array.from({ length: MAX_PLACES }, (_, register) => `r${register} 0`).join(" and ");
  assert.equal(compile(longCondition).places.length, MAX_PLACES);
  assert.equal(compileCondition(`${longCondition} and acc 1`, names).error, "it reads 17 places; at most 16 are allowed");
});

test("syntax errors are reported with the names that the board has", () => {
  const cases = [
    ["", "a condition is missing"], ["not", "a condition is missing"], ["acc 1 and", "a condition is missing"],
    ["lamp purple on", "the board has no lamp purple; it has: locked open alarm"],
    ["lamp 5 on", "the board has no lamp 5; it has: locked open alarm"],
    ["lamp 3", "write `lamp NAME on` or `lamp NAME off`"], ["lamps *.", "a pattern of 2 lamps; the board has 5"],
    ["lamps locked purple", "the board has no lamp purple; it has: locked open alarm"],
    ["r16 3", "r16: no such place; the registers are r0 to r15"],
    ["r9 16", "r9 holds 0 to 15, not 16"], ["cy = 2", "cy holds 0 to 1, not 2"],
    ["r9", "r9: a comparison is missing, as in: r9 = 4"], ["r9 =", "a value is missing after ="],
    ["r9 1 2", "r9 holds one value; only RAM characters can be compared with several"],
    ["r9 x", "x: no such place; places are acc, "], ["cy @end", "cy holds 0 to 1, not @end (11)"],
    ["@away", "the program has no label away"], ["at limit", "the program has no label limit"], ["at", "write `at LABEL`"],
    ["display", "write `display TEXT`, as in: display -18"],
    ["lamps > x", "x: no such place; "], ["lamps = 32", "lamps holds 0 to 31, not 32"],
    ["rom2 in 3", "the board has no ROM 2"], ["rom1 at 3", "write `rom1 in VALUE` or `rom1 out VALUE`, 0 to 15"],
    ["rom1.4 1", "rom1.4: no such place; ports are rom1 and ram0.1, their lines rom1.0 to rom1.3"],
    ["ram0.2 out 1", "the board has no RAM chip 0.2"],
    ["ram0.0.1 2", "ram0.0.1 holds 0 to 1, not 2"], ["chain1.0 1", "the board has no chain1.0"], ["chain1 01", "the board has no chain 1"],
    ["chain0 01", "chain 0 has 10 bits, each 0, 1, or ? for any"], ["ram.1.0 1", "the board has no RAM chip for ram.1.0"],
    ["ram.0.127 1 2", "the board has no RAM chip for the last of these characters"],
    ["ram.8.0 1", "ram.8.0: no such place; a place of RAM is ram.BANK.SRC or st.BANK.REGISTER.NUMBER"],
    ["display < 5", "write `display TEXT`"], ["display != ", "write `display TEXT`"],
    ["foo 1", "foo: no such place; places are acc, cy, pc, dcl, test, r0 to r15, p0 to p7, ram.B.S, st.B.H.K"],
    ["cycles at most 3", "no run changes cycles, and no trace shows it: it is only for the lines of a test"],
    ["r2 < 4 5", "5: the condition ends before this; join two conditions with and, or"],
    ["ram.0.0 4 < 5", "<: the condition ends before this; join two conditions with and, or"], ["= 3", "a value is missing before ="],
  ];
  for (const [text, expected] of cases) {
    const actual = compileCondition(text, names).error;
    assert.ok(actual.startsWith(expected), `${text}: ${actual}`);
  }
  const namesWithoutFace = { ...names, face: new Face(BOARD_TABLES) };
  assert.equal(compileCondition("lamp red on", namesWithoutFace).error,
    "the board has no lamp red; its text names no lamps (`# lamp 0: NAME ..`)");
  assert.equal(compileCondition("display 3", namesWithoutFace).error, "the board's text names no display (`# display 0: 4 digits`)");
  assert.match(compileCondition("printed 3", namesWithoutFace).error, /^the board's text names no printer /);
  const namesWithPrinter = { ...names, face: new Face(`${BOARD_TABLES}\n# printer rom0.0: ram0.0 0 1 feed\n`) };
  assert.match(compileCondition("printed 3", namesWithPrinter).error, /^printed text arrives line by line/);
});

test("conditions in tests can use values that no trace shows", () => {
  const compileForTest = (text) => compileTestCondition(text, names);
  const { condition } = compileForTest("test 1");
  assert.deepEqual([condition.places, condition.needs], [[], ["test"]]);
  const extraValues = { test: "1", owed: "1", keys: "", cycles: 538, lampForecast: [], printed: [] };
  const mixedCondition = compileForTest("r9 = 3 and (test = 1 or cycles at most 5)").condition;
  assert.deepEqual([mixedCondition.places, mixedCondition.needs], [["r9"], ["cycles", "test"]]);
  const results = [mixedCondition.holds(["3"], extraValues), mixedCondition.holds(["3"], { ...extraValues, test: "0" }),
    mixedCondition.holds(["4"], extraValues)];
  assert.deepEqual(results, [true, false, false]);
  assert.equal(condition.holds([], extraValues), true);
  assert.equal(compileForTest("cycles at most 6 ms").condition.holds([], extraValues), true);
  assert.equal(compileForTest("cycles 537").condition.explain([], extraValues), "538 cycles have passed, but the test expects 537");
  assert.equal(compileForTest("@end").condition.explain(["00B"], extraValues), "pc is 00B (end), within an instruction, but must be @end");
  assert.equal(compileForTest("cycles").error, "write `cycles TIME`, `cycles at most TIME` or `cycles at least TIME`");
});

test("durations are parsed", () => {
  const cases = [["538", 538], ["538 cycles", 538], ["1 cycle", 1], ["20 ms", 1852], ["20ms", 1852], ["1.5 s", 138889], ["0", 0],
    ["1.5", 0], ["ms", 0], ["", 0],
    ["3 x", 0], ["1000000001", 0], ["-3", 0], ["1.5.2 ms", 0]];
  for (const [text, cycles] of cases) assert.equal(parseExactDuration(text.split(" ")), cycles, text);
  assert.deepEqual(parseDuration(["pace", "43", "ms", "1", "s"], 1), { cycles: 3981, wordCount: 2 });
});
