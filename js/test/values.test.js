// Tests the current values of the words in a program, on the page's WebAssembly module.
import assert from "node:assert/strict";
import { before, test } from "node:test";
import { readBoard } from "../core/bench/answers.js";
import { Face } from "../core/board/face.js";
import { DebugSession } from "../core/debug/debug_session.js";
import { LineChanges } from "../core/debug/line_changes.js";
import { MachineState } from "../core/debug/machine_state.js";
import { joinPieces, valuePieces } from "../core/debug/word_values.js";
import { readPlaceValue } from "../core/debug/snapshot_values.js";
import { collectWatchNames, parseWatches, parseWatch } from "../core/debug/watch_expressions.js";
import { Engine } from "../core/engine/engine.js";
import { ForecastAnswers, rowValues } from "../core/engine/forecast_answers.js";
import { createRandom } from "../core/explore/walks.js";
import { pageModule } from "./page_session.js";

const BOARD = `rom = [{ chip = 0, port = "0000" }, { chip = 1, port = "ii00" }]
ram = [{ bank = 0, chips = 1 }, { bank = 2, chips = 2 }]
`;
const POKES = "poke r4 6\npoke r5 0\npoke ram.0.0x12 7\npoke st.0.1.2 9\npoke acc 5\npoke cy 1\n";
// FIM and SRC select RAM chip 0, register 1, nibble 2, and ROM 1. WRR and WMP write 5 to the ports.
const PROGRAM = "k = 0x12\n        FIM P0, k\n        SRC P0\n        WRR\n        WMP\nend:    JUN end\n";
const EFFECTS = new Map([["SRC", "sends"], ["WRM", "writes ACC"], ["RDM", "ACC"], ["WMP", "ACC"], ["RDR", "ACC"],
  ["RD2", "ACC"], ["FIM", "puts"], ["JUN", "goes"], ["ADD", "ACC and CY"]]);

/** @type {Engine} */
let engine;
before(async () => {
  engine = await Engine.load(pageModule);
});

/** Resolves to a session after the program's first four instructions and some lines, and to the source map. */
async function openSession(lines = POKES) {
  const debugSession = new DebugSession(engine, { board: BOARD, program: PROGRAM });
  assert.deepEqual(debugSession.rejectedTexts, []);
  const { session } = debugSession.debugger;
  for (let step = 0; step < 4; step++) await debugSession.stepInto();
  await session.serve(lines, async () => true);
  return { session, map: debugSession.map };
}

function readMachineState(session, banks = [0, 2]) {
  return new MachineState(["state", ...banks.map((bank) => `ram ${bank}`)].map((line) => session.ask(`${line}\n`).join("\n")));
}

/** Returns the names that expressions can use. */
function collectNames(session, map) {
  const watched = collectWatchNames(["count = R4", "digit = ram 0 0x12", "total = count + digit", "loop = loop + 1"]);
  return { face: new Face(BOARD), board: readBoard(session.ask("board\n")), map, watched };
}

/** Returns the displayed values of a word in a line. */
function piecesOf(line, word, { session, map }) {
  const nameOf = (name) => {
    const entry = map.names.get(name);
    return entry && { ...entry, description: `${name} ${entry.value}` };
  };
  const describeInstruction = (mnemonic) => EFFECTS.get(mnemonic) || "";
  return valuePieces(line, line.indexOf(word), readMachineState(session), { nameOf, describeInstruction });
}

test("values of a register and a pair, with what SRC would select", async () => {
  const openedSession = await openSession();
  assert.deepEqual(piecesOf("  LD R4", "R4", openedSession), ["R4 = ", { place: "r4", name: "R4", value: "6" }]);
  assert.equal(joinPieces(piecesOf("  INC r5 ; R4", "r5", openedSession)), "R5 = 0");
  assert.equal(joinPieces(piecesOf("  FIN P2", "P2", openedSession)), "P2 = 60: R4 6, R5 0");
  assert.equal(joinPieces(piecesOf("  SRC P2", "P2", openedSession)),
    "P2 = 60: R4 6, R5 0; selects bank 0, chip 1, register 2, character 0, which the board lacks");
  const expectedText = "P0 = 12: R0 1, R1 2; selects ROM 1; bank 0, chip 0, register 1, character 2 = 7";
  for (const word of ["SRC", "P0"]) assert.equal(joinPieces(piecesOf("x: SRC P0", word, openedSession)), expectedText);
  assert.deepEqual(piecesOf("x: SRC P0", "P0", openedSession).filter((piece) => typeof piece !== "string").map(({ place }) => place),
    ["r0", "r1", "ram.0.0x12"]);
  assert.deepEqual(piecesOf("  INC r5 ; R4", "R4", openedSession), []);
});

test("values that an instruction reads or writes through SRC", async () => {
  const openedSession = await openSession();
  const location = "bank 0, chip 0, register 1";
  assert.equal(joinPieces(piecesOf("  WRM", "WRM", openedSession)), `${location}, character 2 = 7; acc 5, cy 1`);
  assert.equal(joinPieces(piecesOf("  rd2", "rd2", openedSession)), `${location}, status character 2 = 9; acc 5, cy 1`);
  assert.equal(joinPieces(piecesOf("  WMP", "WMP", openedSession)), "bank 0, chip 0: its port outputs 0; acc 5, cy 1");
  assert.match(joinPieces(piecesOf("  RDR", "RDR", openedSession)), /^ROM 1: outputs \d, RDR reads [\dA-F]; acc 5, cy 1$/);
  assert.equal(joinPieces(piecesOf("  ADD R4", "ADD", openedSession)), "acc 5, cy 1");
  assert.deepEqual(piecesOf("  JUN end", "JUN", openedSession), []);
  const bank2Session = await openSession("poke dcl 2\npoke ram.2.0x00 3\n");
  assert.equal(joinPieces(piecesOf("  RDM", "RDM", bank2Session)), "bank 2, chip 0, register 0, character 0 = 3; acc 0, cy 0");
  const bank1Session = await openSession("poke dcl 1\n");
  assert.equal(joinPieces(piecesOf("  RDM", "RDM", bank1Session)), "bank 1, where the board has no RAM; acc 0, cy 0");
});

test("values of numbers and names", async () => {
  const openedSession = await openSession();
  assert.equal(joinPieces(piecesOf("  LDM 6", "6", openedSession)), "6 = 0x6, 0110");
  assert.equal(joinPieces(piecesOf("  FIM P0, k", "k", openedSession)),
    "k 18, 0001 0010; sent by SRC, it selects ROM 1; bank 0, chip 0, register 1, character 2 = 7");
  assert.equal(joinPieces(piecesOf("  JUN end", "end", openedSession)), "end 5; the next instruction is there");
  assert.deepEqual(piecesOf("  JUN other", "other", openedSession), []);
});

test("values are read from the right bank, even if it is not the first", async () => {
  const { session } = await openSession("poke ram.2.0x41 4\npoke st.2.4.3 6\n");
  const machineState = readMachineState(session);
  assert.deepEqual([machineState.character(2, 0x41), machineState.status(2, 4, 3), machineState.ramPort(2, 1)], ["4", "6", "0"]);
  assert.equal(machineState.character(0, 0x41), "");
});

test("the changes by a line are known after a step and a step over, but not after other runs", async () => {
  const program = "        LDM 9\n        IAC\n        JMS put\nend:    JUN end\nput:    FIM P1, 0x34\n        SRC P1\n"
    + "        WRM\n        BBL 2\n";
  const debugSession = new DebugSession(engine, { board: BOARD, program });
  const { session } = debugSession.debugger;
  const changes = new LineChanges();
  const recordPause = () => changes.recordPause(readMachineState(session), session.count.total, debugSession.map);
  recordPause();
  assert.deepEqual([...changes.lines], []);
  await debugSession.stepInto();
  recordPause();
  assert.deepEqual([...changes.lines], [[1, "acc 9"]]);
  recordPause();
  await debugSession.stepInto();
  await session.serve("poke r9 4\n", async () => true);
  recordPause();
  assert.deepEqual([...changes.lines], [[1, "acc 9"], [2, "acc A R9 4"]]);
  await debugSession.runToGoal({ kind: "over" });
  recordPause();
  assert.equal(changes.lines.get(3), "acc 2 R2 3 R3 4 SRC 34 SRC of bank 0 34 ram.0.0x34 A");
  await debugSession.goBack({ kind: "instruction" });
  recordPause();
  assert.deepEqual([...changes.lines], []);
  await debugSession.stepInto();
  recordPause();
  assert.deepEqual([...changes.lines], [[8, "acc 2"]]);
  await session.serve("run 3\n", async () => true);
  recordPause();
  assert.deepEqual([...changes.lines], []);
});

test("values from a snapshot are those in the answers of `trace`", async () => {
  const random = createRandom(4);
  const randomBelow = (limit) => Math.floor(random() * limit);
  const boardText = `rom = [{ chip = 0, port = "0000" }, { chip = 1, port = "1i0i" }, { chip = 3, port = "i100" }]
ram = [{ bank = 0, chips = 2 }, { bank = 5, chips = 1 }]
lamp = [{ line = "ram0.1.2" }, { line = "chain0.3" }, { line = "rom3.1" }]
chain = [{ clock = "rom0.0", data = "rom0.1", chips = 2 }]
keys = { chain = 0, first = 0, rows = 2, columns = ["rom1.0", "rom1.2"] }
`;
  const places = ["acc", "cy", "dcl", "pc", "r0", "r15", "src", "ret", "lamps", "rom0", "rom1", "rom3", "rom1.0", "rom1.1",
    "rom1.2", "rom1.3", "rom3.3", "rom3.2", "ram0.0", "ram0.1", "ram5.0", "ram0.1.2", "ram0.1.3", "chain0", "chain0.0", "chain0.3",
    "chain0.19", "ram.0.0x12", "ram.0.0x7F", "ram.5.0x00", "st.0.1.2", "st.5.3.0", "ram.7.0x00", "rom9", "rom9.1"];
  const { debugger: { session } } = new DebugSession(engine, { board: boardText, program: "" });
  const board = readBoard(session.ask("board\n"));
  for (let round = 0; round < 60; round++) {
    const instructionHeads = [" FIM P0, ", " SRC P0", " LDM ", " WRR", " WMP", " WRM", " WR2", " DCL", " JMS x"];
    const instructions = Array.from({ length: 12 }, () => instructionHeads[randomBelow(instructionHeads.length)]);
    const code = instructions.map((row) => (/ $/.test(row) ? row + randomBelow(row.includes("FIM") ? 256 : 16) : row)).join("\n");
    const keyLines = [0, 1].map((row) => `${randomBelow(2) ? "press" : "release"} ${row} ${randomBelow(2)}\n`).join("");
    const lines = `${keyLines}asm\n${code}\nx: NOP\n.\npoke pc 0\npoke acc ${randomBelow(16)}\nrun ${1 + randomBelow(30)}\n`;
    await session.serve(lines, async () => true);
    const machineState = readMachineState(session, [0, 5]);
    for (let from = 0; from < places.length; from += 16) {
      const queriedPlaces = places.slice(from, from + 16);
      const values = rowValues(new ForecastAnswers(session.ask(`trace 1 ${queriedPlaces.join(" ")}\n`)).takeTrace().row);
      const answers = queriedPlaces.map((place) => `${place} ${readPlaceValue(place, machineState, board)}`);
      assert.deepEqual(answers, queriedPlaces.map((place, index) => `${place} ${values[index]}`));
    }
  }
});

test("watched expressions can have names, and invalid expressions are reported", async () => {
  const { session, map } = await openSession();
  const machineState = readMachineState(session);
  const names = collectNames(session, map);
  for (const [text, name, expected] of [
    ["count = R4", "count", "6"], ["digit= ram 0 0x12", "digit", "7"], ["st.0.1.2", "st.0.1.2", "9"], ["P2", "P2", "60"],
    ["x = acc", "x", "5"],
    ["far = ram 1 0", "far", "the board lacks it"], ["ram0.0", "ram0.0", "out 0"], ["keys = rom7", "keys", "the board lacks it"],
    ["ROM0", "ROM0", "out 0, in 0"], ["pc", "pc", machineState.registers.counter],
    ["R4 = 6", "R4 = 6", "true"], ["r4 == 0x7", "r4 == 0x7", "false"], ["next = R4 + 1", "next", "7"],
    ["P2 + acc", "P2 + acc", "101 (0x65)"],
    ["count > 5 and digit = 7", "count > 5 and digit = 7", "true"], ["count + digit", "count + digit", "13 (0xD)"],
    ["total + 1", "total + 1", "14 (0xE)"], ["0b101", "0b101", "5"], ["acc - P2", "acc - P2", "-91"], ["test = 1", "test = 1", "true"]]) {
    const { watch: watched, error } = parseWatch(text, names);
    assert.deepEqual([error, watched?.name, joinPieces(watched?.readPieces(machineState, names) || [])], ["", name, expected], text);
    assert.equal(parseWatch(watched.text, names).watch.name, name);
  }
  assert.deepEqual(parseWatch("a = P2").watch.readPieces(machineState, names).map(({ place }) => place), ["r4", "r5"]);
  for (const [text, error] of [
    ["", "An expression is missing, as in: "], ["a =", "An expression is missing, as in: "],
    ["loop", "in loop: in loop: in loop: loop uses names that use other names"],
    ["r16", "r16: no such place; the registers are r0 to r15 (column 1)"],
    ["a = accu + 1", "accu: no such place; the accumulator is acc (column 5)"],
    ["ram 8 0", "ram 8 0: no such place; a place of RAM is ram.BANK.SRC or st.BANK.REGISTER.NUMBER (column 1)"],
    ["x = st 0 1 4", "st 0 1 4: no such place; "], ["p8", "p8: no such place; "], ["ram0.4", "ram0.4: no such place; ports are "],
    ["coumt + 1", "coumt: no such place; perhaps count (column 1)"], ["R4 + (1", "this parenthesis is not closed (column 6)"],
  ]) {
    const parsedWatch = parseWatch(text, names);
    assert.ok(parsedWatch.error.startsWith(error), `${text}: ${parsedWatch.error}`);
  }
  // An expression with names is checked only when the names are known.
  assert.equal(parseWatch("r16").error, "");
  assert.equal(joinPieces(parseWatch("r16").watch.readPieces(machineState, names)), "r16: no such place; the registers are r0 to r15");
  assert.match(parseWatch("1a = R5").error, /^A name has letters/);
  assert.match(parseWatch(`a = ${"x".repeat(200)}`).error, /^It has more than 200/);
  const { watches, error } = parseWatches(["a = R1", "r5 +", 5, null, "R2"]);
  assert.deepEqual(watches.map(({ text }) => text), ["a = R1", "R2"]);
  assert.match(error, /^a value is missing after \+ \(column 4\)/);
  assert.deepEqual(parseWatches({ a: 1 }), { watches: [], error: "" });
});
