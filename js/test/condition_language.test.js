// Tests the language of conditions. A condition has the same meaning in every place that allows conditions. Old conditions keep their
// meaning. The parser neither throws an error nor hangs, whatever the text.
import assert from "node:assert/strict";
import { readFileSync, readdirSync } from "node:fs";
import { before, test } from "node:test";
import { evaluateExpression } from "../core/adapter/expression_values.js";
import { Console } from "../core/adapter/console.js";
import { replaceNames } from "../core/bench/name_substitution.js";
import {
  compileCondition, compileExpression, compileTestCondition, compileTracedCondition,
} from "../core/conditions/condition_language.js";
import { MAX_PARENTHESIS_DEPTH, MAX_CONDITION_LENGTH } from "../core/conditions/parser.js";
import { compileSetting } from "../core/conditions/set_command.js";
import { DebugSession } from "../core/debug/debug_session.js";
import { parseGoal } from "../core/debug/condition_search.js";
import { compileNote, compileBreakpoint } from "../core/debug/soft_breakpoints.js";
import { MachineState } from "../core/debug/machine_state.js";
import { joinPieces } from "../core/debug/word_values.js";
import { collectWatchNames, parseWatch } from "../core/debug/watch_expressions.js";
import { readCampaign } from "../core/explore/campaign.js";
import { createRandom } from "../core/explore/walks.js";
import { Engine } from "../core/engine/engine.js";
import { Prompt } from "../core/prompt/debugger_prompt.js";
import { ExecutionRecorder } from "../core/testing/recorders.js";
import { TestSession } from "../core/testing/test_session.js";
import { readTests } from "../core/testing/test_text.js";
import { createBoardLines } from "../core/waves/wave_lines.js";
import { parseTrigger } from "../core/waves/trigger.js";
import { readPageData } from "../node/page_parts.mjs";
import { pageModule } from "./page_session.js";

const engine = new Engine(new globalThis.WebAssembly.Module(pageModule));
const BOARD = `# lamp 0: 1 2 4 8
# lamp 4: or
# row 0: A = no #
# test: button WALK
rom = [{ chip = 0, port = "0000" }, { chip = 1, port = "iiii" }]
ram = [{ bank = 0, chips = 2 }]
lamp = [{ line = "ram0.0.0" }, { line = "ram0.0.1" }, { line = "ram0.0.2" }, { line = "ram0.0.3" }, { line = "ram0.1.0" }]
[[chain]]
clock = "rom0.0"
data = "rom0.1"
chips = 1
[keys]
chain = 0
first = 0
rows = 1
columns = ["rom1.0", "rom1.1", "rom1.2", "rom1.3"]
`;
const PROGRAM = `limit = 9
start:  FIM P0, 0
        SRC P0
turn:   LD R5
        WMP
        INC R5
        JUN turn
`;
/** A program in which most of the conditions become true at some time. */
const SEARCH_PROGRAM = `limit = 9
start:  FIM P0, 0x12
        SRC P0
turn:   LD R5
        WMP
        WRM
        CMA
        XCH R4
        LD R5
        CLC
        RAR
        INC R5
        FIM P0, 0x12
        SRC P0
        JUN turn
`;
const WATCHED = ["count = R5", "digit = ram 0 0x12", "P2"];
/** The registers and memory cells that the test sets to random values, each with the number of its values. */
const RANDOM_CELLS = [["acc", 16], ["cy", 2], ["r5", 16], ["r4", 16], ["ram.0.0x12", 16], ["pc", 12]];

/**
 * Conditions that a user of the debugger can type. Each has a function that computes the expected result from the bench's answers to
 * `regs`, `lamps`, `state` and `ram 0`.
 * @typedef {{ acc: number, cy: number, pc: number, r: number[], lamps: string, keys: string[], test: string, digit: number }} MachineState
 * @type {[string, (state: MachineState) => boolean][]}
 */
const CONDITIONS = [
  ["R5 == 10", ({ r }) => r[5] === 10], ["R5=10", ({ r }) => r[5] === 10], ["r5 == 0xA", ({ r }) => r[5] === 10],
  ["acc == 10", ({ acc }) => acc === 10], ["r5 >= 8 && cy == 1", ({ r, cy }) => r[5] >= 8 && cy === 1],
  ["r5 > 8 or cy = 1", ({ r, cy }) => r[5] > 8 || cy === 1], ["count > 9", ({ r }) => r[5] > 9],
  ["lamps = 9", ({ lamps }) => lamps === "*..*."], ["r5 = 10", ({ r }) => r[5] === 10], ["lamp 8 on", ({ lamps }) => lamps[3] === "*"],
  ["pc = 0x008", ({ pc }) => pc === 8], ["A = 10", ({ acc }) => acc === 10],
  ["not (r5 < 8 || cy != 1)", ({ r, cy }) => r[5] >= 8 && cy === 1], ["!cy 1 AND R5 <= 0b111", ({ r, cy }) => cy === 0 && r[5] <= 7],
  ["r5 = r4", ({ r }) => r[5] === r[4]], ["P2 >= 0x80", ({ r }) => r[4] >= 8], ["(r5 + r4) & 3 = 1", ({ r }) => ((r[5] + r[4]) & 3) === 1],
  ["r5 - 1 > limit", ({ r }) => r[5] - 1 > 9], ["limit < count and digit >= 8", ({ r, digit }) => r[5] > 9 && digit >= 8],
  ["ram 0 0x12 = 7 or ram.0.18 > 12", ({ digit }) => digit === 7 || digit > 12], ["pc = turn", ({ pc }) => pc === 3],
  ["at turn or at START", ({ pc }) => pc === 3 || pc === 0],
  ["lamp or = 1 and lamp 1 off", ({ lamps }) => lamps[4] === "*" && lamps[0] === "."],
  ["lamps & 6 = 4", ({ lamps }) => lamps[1] === "." && lamps[2] === "*"],
];
/** Conditions about keys and the TEST pin, which no run changes. They are allowed only for breakpoints and while time is paused. */
const INPUT_CONDITIONS = [
  ["key = down", ({ keys }) => keys.includes("0.1")],
  ["key # up and key A down", ({ keys }) => !keys.includes("0.3") && keys.includes("0.0")],
  ["(key no down)", ({ keys }) => keys.includes("0.2")], ["test = 0", (state) => state.test === "0"],
    ["key WALK down", (state) => state.test === "0"],
];

/** @type {DebugSession} */
let session;
/** @type {import("../core/conditions/condition_language.js").Names} */
let names;
before(() => {
  session = new DebugSession(engine, { board: BOARD, program: PROGRAM });
  assert.deepEqual(session.rejectedTexts, []);
  names = { ...session.names, watched: collectWatchNames(WATCHED) };
});

const randomBelow = (random, limit) => Math.floor(random() * limit);

/** Sets the machine to a random state. Resolves to the values that the bench then reports. */
async function setRandomState(random) {
  const pokes = RANDOM_CELLS.map(([place, limit]) => `poke ${place} ${randomBelow(random, limit)}\n`).join("");
  const ports = `asm\n FIM P0, 0\n SRC P0\n LDM ${randomBelow(random, 16)}\n WMP\n`
    + ` FIM P0, 0x40\n SRC P0\n LDM ${randomBelow(random, 2)}\n WMP\n.\n`;
  const keys = [0, 1, 2, 3].map((column) => `${randomBelow(random, 2) ? "press" : "release"} 0 ${column}\n`).join("");
  await session.debugger.session.serve(`${ports}poke pc 0\nrun 10\n${pokes}${keys}test ${randomBelow(random, 2)}\n`, async () => true);
  const [regs, lamps, state, ...ram] = session.debugger.session.ask("regs\nlamps\nstate\nram 0\n");
  const [, acc, cy, pc, testPin, registers] = /^acc (.) cy (.) pc (...) owed . dcl . test (.) r (\w{16})/.exec(regs);
  return {
    acc: parseInt(acc, 16), cy: Number(cy), pc: parseInt(pc, 16), r: [...registers].map((digit) => parseInt(digit, 16)), test: testPin,
    lamps: lamps.slice("lamps ".length), keys: / keys (\S+)/.exec(state)[1].split(","), digit: parseInt(ram[2].split(" ")[1][2], 16),
  };
}

/** Returns the context in which the debug adapter evaluates conditions: the session with all names, including those in the watch list. */
function createConditionContext() {
  Object.defineProperty(session, "names", { configurable: true, value: names });
  return { session, face: names.face, instructions: new Map(), frontPanelText: () => "" };
}

/** Resolves to the result of a call, or to the message of its error. */
async function resultOrError(call) {
  try {
    return await call();
  } catch (error) {
    return error.message;
  }
}

const readValues = ({ places }) => session.debugger.readPlaces(places);

/** The prompt of `mcs4 debug` for the session, and the prompt's last output. */
let prompt;
let lastOutput = "";
before(() => {
  const launchResult = { session, kept: null, program: "p.asm", board: "b.toml", stopsOnEntry: true, isDebugged: true,
    nameOf: (name) => name };
  const capture = (text) => {
    lastOutput = text;
  };
  const calls = { print: capture, printError: capture, pause: async () => {}, source: () => null, isInteractive: false, view: null };
  prompt = new Prompt(launchResult, readPageData(), calls);
});

/**
 * For each use of conditions, a function that evaluates a condition in the machine's current state. Each function returns true or false, or
 * an error message if this use does not accept the condition.
 */
const USES = {
  test: (text) => {
    const { tests: [{ steps: [{ action }] }], errors } = readTests(`test t\n expect ${text}\n`, names);
    if (errors.length > 0) return errors[0].words;
    const { file } = session.debugger.session;
    return new TestSession(engine, file, new ExecutionRecorder(new Uint8Array(4096)), async () => {}).check(action.condition).holds;
  },
  Watch: (text) => {
    const { watch: parsedWatch, error } = parseWatch(text, names);
    const snapshot = ["state\n", "ram 0\n"].map((line) => session.debugger.session.ask(line).join("\n"));
    return error || joinPieces(parsedWatch.readPieces(new MachineState(snapshot), names)) === "true";
  },
  "mcs4 debug": async (text) => {
    createConditionContext();
    await prompt.enterLine(`print ${text}`);
    return /^(true|false)$/.test(lastOutput) ? lastOutput === "true" : lastOutput;
  },
  breakpoint: (text) => {
    const breakpoint = { id: 1, address: 0, condition: text, from: 1, note: "", hits: 0 };
    const { softBreakpoint: soft, error } = compileBreakpoint(breakpoint, names);
    return error || soft.holds(readValues(soft));
  },
  "log message": (text) => {
    const { note, error } = compileNote(`{${text}}`, names);
    return error || note.textOf(readValues(note)) === "true";
  },
  evaluate: (text) => resultOrError(() => evaluateExpression(text, createConditionContext()) === "true"),
  console: (text) => resultOrError(async () => (
    (await new Console({ isMoving: false }, createConditionContext(), null, {}).serveLine(text)).text === "true")),
  trigger: (text) => {
    const { trigger, error } = parseTrigger(text, createBoardLines(names.board, BOARD, true, []), names);
    return error || trigger.holds(readValues(trigger));
  },
  property: (text) => {
    const { campaign, errors } = readCampaign(`press A\nalways ${text}\n`, { names, instructions: [] });
    return errors.length > 0 ? errors[0].words : campaign.properties[0].condition.holds(readValues(campaign.properties[0].condition));
  },
};

for (const [use, evaluate] of Object.entries(USES)) {
  test(`${use}: conditions have their intended meaning`, async () => {
    const random = createRandom(83);
    const resultsByText = new Map();
    const allowsInputConditions = use !== "trigger" && use !== "property";
    for (let round = 0; round < 60; round++) {
      const state = await setRandomState(random);
      for (const [text, compute] of allowsInputConditions ? [...CONDITIONS, ...INPUT_CONDITIONS] : CONDITIONS) {
        const result = await evaluate(text);
        assert.equal(result, compute(state), `${text}: ${JSON.stringify(state)}`);
        resultsByText.set(text, (resultsByText.get(text) || new Set()).add(result));
      }
    }
    // Each condition must have been true in some state and false in another, except one that is rarely true.
    for (const [text, results] of resultsByText) if (text !== "lamps = 9") assert.equal(results.size, 2, text);
  });
}

test("A names the accumulator unless the user has defined A", () => {
  for (const text of ["A = 10", "a == 0xA"]) assert.deepEqual(compileCondition(text, names).condition.places, ["acc"], text);
  const namesWithWatch = { ...names, watched: collectWatchNames(["A = r3"]) };
  assert.deepEqual(compileCondition("A = 10", namesWithWatch).condition.places, ["r3"]);
  const namesWithLabel = { ...names, map: { ...names.map, names: new Map([["A", { value: 10, isLabel: true }]]) } };
  assert.deepEqual(compileCondition("A = 10", namesWithLabel).condition.places, []);
});

test("an invalid condition has the same error wherever it is used; a breakpoint with this condition stops every time", async () => {
  for (const [use, evaluate] of Object.entries(USES)) {
    assert.match(String(await evaluate("accu = 10")), /accu: no such place; the accumulator is acc/, use);
  }
  const breakpoint = { id: 1, address: 0, condition: "accu = 10", from: 1, note: "", hits: 0 };
  const { softBreakpoint: soft, error } = compileBreakpoint(breakpoint, names);
  assert.equal(error, "accu: no such place; the accumulator is acc (column 1)");
  assert.equal(soft.holds([]), true);
});

/** Returns the state of the machine in the form that the functions in CONDITIONS take. */
function readMachineState() {
  const [regs, lamps, ...ram] = session.debugger.session.ask("regs\nlamps\nram 0\n");
  const [, acc, cy, pc, owed, testPin, registers] = /^acc (.) cy (.) pc (...) owed (.) dcl . test (.) r (\w{16})/.exec(regs);
  return {
    acc: parseInt(acc, 16), cy: Number(cy), pc: parseInt(pc, 16), r: [...registers].map((digit) => parseInt(digit, 16)),
    test: testPin, owed, lamps: lamps.slice("lamps ".length), keys: [], digit: parseInt(ram[2].split(" ")[1][2], 16),
  };
}

test("searches back and forward find the instructions at which a condition became true", async () => {
  const searchSession = new DebugSession(engine, { board: BOARD, program: SEARCH_PROGRAM });
  Object.defineProperty(searchSession, "names",
    { configurable: true, value: { ...searchSession.names, watched: collectWatchNames(WATCHED) } });
  const originalSession = session;
  session = searchSession;
  try {
    const bench = searchSession.debugger.session;
    const history = [{ state: readMachineState(), total: bench.count.total }];
    for (let step = 0; step < 260; step++) {
      await searchSession.stepInto();
      history.push({ state: readMachineState(), total: bench.count.total });
    }
    const lastIndex = history.length - 1;
    let comparedCount = 0;
    for (const [text, compute] of CONDITIONS) {
      const riseIndexes = history
        .flatMap(({ state }, index) => (index > 0 && compute(state) && !compute(history[index - 1].state) ? [index] : []));
      const travel = await searchSession.goBack({ kind: "when", condition: text });
      // If the condition became true, the session is now at the instruction that last made it true.
      const expected = riseIndexes.length === 0 ? history[lastIndex] : history[riseIndexes[riseIndexes.length - 1] - 1];
      assert.deepEqual([travel.isDone, bench.count.total], [riseIndexes.length > 0, expected.total], `back ${text}: ${travel.message}`);
      if (riseIndexes.length > 0) assert.match(travel.message, /: this instruction makes .* true\.$/);
      else assert.match(travel.message, /has not become true in the remembered past\.$/);
      if (travel.isDone) searchSession.goForward();
      assert.equal(bench.count.total, history[lastIndex].total);
      comparedCount += riseIndexes.length > 0 ? 1 : 0;
    }
    assert.ok(comparedCount > 12, String(comparedCount));
    // Run forward from power-on.
    const forwardSession = new DebugSession(engine, { board: BOARD, program: SEARCH_PROGRAM });
    Object.defineProperty(forwardSession, "names",
      { configurable: true, value: { ...forwardSession.names, watched: collectWatchNames(WATCHED) } });
    for (const [text, compute] of CONDITIONS) {
      const [firstTotal] = history
        .flatMap(({ state, total }, index) => (index > 0 && compute(state) && !compute(history[index - 1].state) ? [total] : []));
      if (firstTotal === undefined) continue;
      const stop = await forwardSession.runToGoal({ kind: "when", condition: text });
      assert.equal(stop.reason, "goal", `${text}: ${stop.message}`);
      // If the condition becomes true in a two-cycle instruction, the machine stops after the first cycle.
      const { total } = forwardSession.debugger.session.count;
      assert.ok(total === firstTotal || total === firstTotal - 1, `${text}: ${total}, ${firstTotal}`);
      await forwardSession.goBack({ kind: "stop" });
    }
  } finally {
    session = originalSession;
  }
});

test("conditions about keys and the TEST pin are rejected where the values come from a trace", () => {
  for (const [text] of INPUT_CONDITIONS) {
    assert.match(compileTracedCondition(text, names).error, /^no run changes .*: ask for it at a breakpoint$/);
  }
});

test("errors have a column and a suggestion", () => {
  for (const [text, column, error] of [
    ["accu = 10", 0, "accu: no such place; the accumulator is acc"], ["cy = 1 and carry = 1", 11, "carry: no such place; the carry is cy"],
    ["r5 = 10 or (r4 = 3", 11, "this parenthesis is not closed"], ["r5 = 12x", 5, "12x is not a number; numbers are 10, 0xA or 0b1010"],
    ["r5 = 10)", 7, "): the condition ends before this; join two conditions with and, or"],
    ["r5 = limits", 5, "limits: no such place; perhaps limit"],
    ["r5 ? 3", 3, "? has no meaning in a condition"], ["r5 =", 3, "a value is missing after ="], ["cy = 2", 5, "cy holds 0 to 1, not 2"],
    ["count > 16", 8, "count holds 0 to 15, not 16"], ["lamp 9 on or r5 = 1", 0, "the board has no lamp 9; it has: 1 2 4 8 or"],
    ["key B down", 0, "the board has no key B; it has: A = no # WALK"], ["rom3 = 1", 0, "the board has no ROM 3"],
    ["(r5 = 1) = 3", 9, "=: the condition ends before this; join two conditions with and, or"],
    ["r5 = (cy = 1)", 5, "(cy = 1): this is a condition, but a value is needed"],
    ['display "3', 8, "the closing quotation mark is missing"], ["ret = 3", 0, "ret is not one number"],
    [`${"(".repeat(MAX_PARENTHESIS_DEPTH + 1)}r5 = 1`, MAX_PARENTHESIS_DEPTH, "parentheses can be nested at most 30 deep"],
    ["x".repeat(MAX_CONDITION_LENGTH + 1), MAX_CONDITION_LENGTH - 1, "a condition has at most 2000 characters"],
  ]) {
    const result = compileCondition(text, names);
    assert.deepEqual([result.error, result.column], [error, column], text);
  }
});

test("random texts are parsed in limited time, and errors have a column in the text", () => {
  const pieces = [
    "r5", "R5", "acc", "cy", "ram.0.0x12", "ram", "st", "lamps", "lamp", "key", "display", "printed", "chain0", "rom1", "in", "out",
    "at", "@turn", "count", "limit", "foo", "on", "off", "down", "up", "not", "!", "and", "&&", "or", "||", "(", ")", "=", "==", "!=",
    "<", "<=", ">", ">=", "+", "-", "&", "10", "0xA", "0b1", "99999999999999999999", "1x", '"', '"a b"', "?", "*.", "none", "cycles",
    "é", "\u0000", "", "😀", "__proto__", "constructor", "toString", "\t", "ret", "test", "owed", "P2", "="];
  const random = createRandom(1971);
  const startUsage = process.cpuUsage();
  let acceptedCount = 0;
  for (let round = 0; round < 10000; round++) {
    const count = randomBelow(random, round % 100 === 0 ? 1500 : 14);
    const separator = randomBelow(random, 4) === 0 ? "" : " ";
    const text = Array.from({ length: count }, () => pieces[randomBelow(random, pieces.length)]).join(separator);
    const parseSetting = (assignment) => compileSetting(assignment, names.map, names.board);
    const parsers = [compileCondition, compileExpression, compileTestCondition, compileTracedCondition, parseSetting];
    for (const parse of parsers) {
      const { error, column } = parse(text, names);
      if (error === "") acceptedCount += 1;
      else assert.ok(column >= 0 && (column < text.length || (column === 0 && text === "")), `${JSON.stringify(text)}: ${error} ${column}`);
    }
  }
  assert.ok(acceptedCount > 200, String(acceptedCount));
  // Tests, properties, watch expressions and log messages use the same parser. The columns in their error messages are within the text.
  for (let round = 0; round < 1500; round++) {
    const text = Array.from({ length: randomBelow(random, 12) }, () => pieces[randomBelow(random, pieces.length)]).join(" ");
    const prefixes = ["while ", "once ", "after press A, ", "after press A within 5 ms, ", "never ", "always ", ""];
    const line = prefixes[randomBelow(random, prefixes.length)] + text.replace("+", ",") + [", never cy 1", "",
      " for 5 ms"][randomBelow(random, 3)];
    readCampaign(line, { names, instructions: [] });
    readTests(`test t\nexpect ${text}\nuntil ${text} within 5\nset ${text}\n`, names);
    for (const error of [parseWatch(text, names).error, parseWatch(`x = ${text}`, names).error, parseGoal(text, names).error,
      compileNote(`a {${text}} b`, names).error, replaceNames(`set ${text}`, session.map).message]) {
      const column = / \(column (\d+)\)\.?$/.exec(error);
      assert.ok(error === "" || column === null || Number(column[1]) <= text.length + 8, `${text}: ${error}`);
    }
  }
  // The limit is in microseconds of processor time.
  assert.ok(process.cpuUsage(startUsage).user < 60e6);
});

test("`set PLACE = VALUE` in a console is replaced by session lines", () => {
  const replaceIn = (line) => replaceNames(line, session.map);
  assert.deepEqual(replaceIn("set r4 = 0b111\n"), { lines: "poke r4 7\n", message: "", line: 0 });
  assert.deepEqual(replaceIn("set RAM 0 0x12 = limit\nlamps"), { lines: "poke ram.0.0x12 9\nlamps", message: "", line: 0 });
  assert.deepEqual(replaceIn("set P2=0x1F"), { lines: "poke r4 1\npoke r5 15", message: "", line: 0 });
  assert.deepEqual([replaceIn("set test = 0").lines, replaceIn("set pc = @turn").lines], ["test 0", "poke pc 3"]);
  assert.match(replaceIn("set A = 1").message, /^A: no such place; the accumulator is acc \(column 5\)\.$/);
  assert.equal(replaceIn("set cy = 2").message, "cy holds 0 to 1, not 2 (column 10).");
  assert.equal(replaceIn("asm\nset r4 = 1\n.\n").lines, "asm\nset r4 = 1\n.\n");
});

/** Returns the conditions in the tests of all examples, with the boards and programs of the examples. */
function conditionsOfExamples() {
  const folder = new URL("../../examples/", import.meta.url);
  return readdirSync(folder, { withFileTypes: true }).filter((entry) => entry.isDirectory()).flatMap(({ name }) => {
    const read = (file) => readFileSync(new URL(`${name}/${file}`, folder), "utf8");
    const files = readdirSync(new URL(`${name}/`, folder));
    const source = files.find((file) => file.endsWith(".asm"));
    const texts = files.filter((file) => file.endsWith(".test")).map(read).join("\n");
    const conditions = [...texts.matchAll(/^\s*(?:expect\s+(.*?)|until\s+(.*?)\s+within\s.*)\s*$/gm)].map((match) => match[1] || match[2]);
    return source && conditions.length > 0
      ? [{ board: read("board.toml"), program: read(source), conditions: [...new Set(conditions)] }] : [];
  });
}

test("the conditions in the examples' tests have the same meaning elsewhere", () => {
  const random = createRandom(7);
  let comparedCount = 0;
  for (const { board, program, conditions } of conditionsOfExamples()) {
    const { names: exampleNames } = new DebugSession(engine, { board, program });
    for (const text of conditions) {
      const [testResult, generalResult] = [compileTestCondition(text, exampleNames), compileCondition(text, exampleNames)];
      assert.equal(testResult.error, "", text);
      // Forms that are valid only in tests are rejected elsewhere.
      if (testResult.condition.needs.some((need) => need !== "test")) {
        assert.match(generalResult.error, /^(the digits are multiplexed|printed text|no run changes)/, text);
        continue;
      }
      if (testResult.condition.needs.length > 0) continue;
      assert.deepEqual([generalResult.error, generalResult.condition?.places], ["", testResult.condition.places], text);
      for (let round = 0; round < 20; round++) {
        const values = testResult.condition.places
          .map((place) => (place === "lamps" ? exampleNames.board.lamps.map(() => ".*"[randomBelow(random, 2)]).join("")
          : randomBelow(random, place === "pc" ? 4096 : 16).toString(16).toUpperCase().padStart(place === "pc" ? 3 : 1, "0")));
        assert.equal(generalResult.condition.holds(values), testResult.condition.holds(values), `${text}: ${values}`);
        assert.equal(generalResult.condition.explain(values), testResult.condition.explain(values), `${text}: ${values}`);
      }
      comparedCount += 1;
    }
  }
  assert.ok(comparedCount > 60, String(comparedCount));
});
