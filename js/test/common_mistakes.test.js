// Tests the detection of common mistakes, on the page's WebAssembly module.
import assert from "node:assert/strict";
import { before, test } from "node:test";
import { matrixKey, pinKey } from "../core/board/key_place.js";
import { DebugSession } from "../core/debug/debug_session.js";
import { MISTAKE_KINDS } from "../words/debug.js";
import { SourceMap } from "../core/machine/source_map.js";
import { sentText } from "../core/text/sendable_text.js";
import { assembleText } from "../core/engine/program_check.js";
import { Engine } from "../core/engine/engine.js";
import { pageModule } from "./page_session.js";

const BOARD = `rom = [{ chip = 0, port = "0000" }, { chip = 1, port = "iiii" }]
ram = [{ bank = 0, chips = 1 }]
lamp = [{ line = "rom0.0" }]
`;

/** @type {Engine} */
let engine;
before(async () => {
  engine = await Engine.load(pageModule);
});

/** Returns a debug session with a program and its source map. */
function openDebugger(program) {
  const session = new DebugSession(engine, { board: BOARD, program });
  assert.deepEqual(session.rejectedTexts, []);
  const text = sentText(program, ";");
  const benchDebugger = session.debugger;
  benchDebugger.commonMistakes.map = new SourceMap(assembleText(engine, text).map, text);
  benchDebugger.beginMove();
  return benchDebugger;
}

/** Returns the mistakes that are reported while a program runs for `frames` frames, each with its source line. */
function findMistakes(program, frames = 3, benchDebugger = openDebugger(program)) {
  const mistakes = Array.from({ length: frames }, () => benchDebugger.advance(1543).tally.mistakes).flat();
  return mistakes.map(({ address, message }) => `${benchDebugger.commonMistakes.map.lineOf(address)}: ${message}`);
}

test("each mistake is reported once, with its line", () => {
  const nestedCalls = "a: JMS b\nend: JUN end\nb: JMS c\nBBL 0\nc: JMS d\nBBL 0\nd: JMS e\nBBL 0\ne: JMS f\nf: BBL 0\n";
  assert.deepEqual(findMistakes(nestedCalls), ["7: 4th nested JMS: return address 002 was overwritten",
    "6: a BBL without a call: it goes to 010, which does not follow a JMS", "0: execution left the program"]);
  assert.deepEqual(findMistakes("a: NOP\nBBL 0\n"), ["2: a BBL without a call: it goes to 000, which does not follow a JMS",
    "0: execution left the program"]);
  const portProgram = (rom, instruction) => `FIM P0, ${rom}\nSRC P0\n${instruction}\nend: JUN end\n`;
  assert.deepEqual(findMistakes(portProgram(0x10, "WRR")),
    ["3: WRR writes to ROM 1, whose port has no output line; the last SRC is at 002"]);
  assert.deepEqual(findMistakes(portProgram(0x00, "RDR")), ["3: RDR reads ROM 0, whose port has no input line; the last SRC is at 002"]);
  assert.deepEqual(findMistakes(portProgram(0x20, "WRR")), ["3: WRR writes to ROM 2, which the board lacks; the last SRC is at 002"]);
  assert.deepEqual(findMistakes(portProgram(0x40, "WRM")), ["3: WRM writes to chip 1 of bank 0, which has 1; the last SRC is at 002"]);
  const expected = "6: WR2 writes to bank 3, where the board has no RAM; the last SRC is at 005";
  assert.deepEqual(findMistakes(portProgram(0x00, "LDM 3\nDCL\nSRC P0\nWR2")), [expected]);
  assert.deepEqual(findMistakes("LDM 1\nXCH R4\n"), ["0: execution left the program"]);
});

test("an outdated SRC is reported if it was for RAM and the same WRR used another ROM before", () => {
  const board = BOARD.replace("}]", '}, { chip = 2, port = "0000" }]');
  const program = "again: FIM P0, 0\nSRC P0\nFIM P1, 0x20\nturn: WRR\nSRC P1\nWRM\nJUN turn\n";
  const session = new DebugSession(engine, { board, program });
  const mistakes = session.debugger.advance(1543).tally.mistakes;
  assert.deepEqual(mistakes.map(({ kind }) => kind), ["source"]);
  assert.equal(mistakes[0].message,
    "this WRR writes to ROM 2, but the last time it used ROM 0: the last SRC, at 006, was for RAM; is an SRC missing?");
});

test("an SRC for RDR that a WRR then uses is reported", () => {
  const board = BOARD.replace("iiii", "ii00");
  const program = "again: FIM P0, 0\nSRC P0\nFIM P1, 0x10\nturn: WRR\nSRC P1\nRDR\nJUN turn\n";
  const mistakes = new DebugSession(engine, { board, program }).debugger.advance(1543).tally.mistakes;
  assert.deepEqual(mistakes.map(({ message }) => message),
    ["this WRR writes to ROM 1, but the last time it used ROM 0: the last SRC, at 006, was for an RDR; is an SRC missing?"]);
});

test("a correct program has no reports", () => {
  const program = "turn: FIM P0, 0x00\nSRC P0\nWRR\nWRM\nFIM P0, 0x10\nSRC P0\nRDR\nJMS a\nJUN turn\n"
    + "a: JMS b\nBBL 0\nb: JMS c\nBBL 0\nc: BBL 0\n";
  assert.deepEqual(findMistakes(program, 20), []);
});

test("the machine pauses before a selected mistake, and then continues", () => {
  const benchDebugger = openDebugger("LDM 1\nFIM P0, 0x10\nSRC P0\nWRR\nLDM 2\nend: JUN end\n");
  benchDebugger.commonMistakes.stoppingKinds.add("lines");
  const frame = benchDebugger.advance(1543);
  assert.deepEqual([frame.cycles, frame.stop.reason, frame.tally.mistakes.length, benchDebugger.counter], [4, "mistake", 1, 4]);
  benchDebugger.beginMove();
  const nextFrame = benchDebugger.advance(1543);
  assert.deepEqual([nextFrame.cycles, nextFrame.stop, nextFrame.tally.mistakes], [1543, null, []]);
  assert.deepEqual(Object.keys(MISTAKE_KINDS).length, 6);
});

test("a mistake is reported once in each run", () => {
  const program = "turn: FIM P0, 0x10\nSRC P0\nWRR\nJUN turn\n";
  const benchDebugger = openDebugger(program);
  assert.equal(findMistakes(program, 5, benchDebugger).length, 1);
  benchDebugger.beginMove();
  assert.equal(findMistakes(program, 5, benchDebugger).length, 1);
});

test("after a while, only samples of the cycles are checked; after a key press, all cycles are checked again", () => {
  const benchDebugger = openDebugger("turn: JUN turn\n");
  const countChecks = () => {
    let count = 0;
    for (let frame = 0; frame < 32; frame++) {
      count += Number(benchDebugger.commonMistakes.cyclesToCheck([{ line: "run 1543", change: null }]) > 0);
    }
    return count;
  };
  assert.equal(countChecks(), 32);
  assert.equal(benchDebugger.commonMistakes.cyclesToCheck([{ line: "run 8000000", change: null }]), 50000 - 32 * 1543);
  benchDebugger.beginMove();
  assert.equal(benchDebugger.commonMistakes.cyclesToCheck([{ line: "run 8000000", change: null }]), 10000);
  benchDebugger.commonMistakes.remainingCycles = 0;
  assert.equal(countChecks(), 2);
  benchDebugger.commonMistakes.cyclesToCheck([
    { line: "press 0 0", change: { key: matrixKey(0, 0), word: "press" } }, { line: "run 5", change: null }]);
  assert.equal(countChecks(), 32);
});

test("during a key press, mistakes are checked after the lamps are reported, and reported with the next frame", () => {
  const program = "JMS a\nend: JUN end\na: FIM P0, 0x10\nSRC P0\nWRR\nBBL 0\n";
  const [immediateDebugger, deferredDebugger] = [openDebugger(program), openDebugger(program)];
  for (const benchDebugger of [immediateDebugger, deferredDebugger]) benchDebugger.session.queue.press(pinKey(1));
  const expectedMistakes = immediateDebugger.advance(1543).tally.mistakes;
  assert.equal(expectedMistakes.length, 1);
  const frame = deferredDebugger.advance(1543, true);
  assert.deepEqual([frame.tally.mistakes, deferredDebugger.lateMistakes], [[], []], "nothing is checked before the report");
  deferredDebugger.checkLastLines();
  deferredDebugger.checkLastLines();
  assert.deepEqual(deferredDebugger.advance(1543, true).tally.mistakes, expectedMistakes);
  deferredDebugger.checkLastLines();
  assert.deepEqual(deferredDebugger.advance(1543).tally.mistakes, [], "it is reported once");
  immediateDebugger.advance(1543);
  immediateDebugger.advance(1543);
  assert.deepEqual(deferredDebugger.session.ask("state\n"), immediateDebugger.session.ask("state\n"), "both sessions have the same state");
});

test("during a key press, mistakes are checked at once if the frame has a stop, or if mistakes cause stops", () => {
  const program = "FIM P0, 0x10\nSRC P0\nWRR\nJUN on\non: NOP\nend: JUN end\n";
  const debuggerWithBreakpoint = openDebugger(program);
  debuggerWithBreakpoint.session.changeBreakpoints("break 7\n");
  const frame = debuggerWithBreakpoint.advance(1543, true);
  assert.deepEqual([frame.stop.reason, frame.tally.mistakes.length], ["break", 1]);
  const debuggerWithStoppingMistakes = openDebugger(program);
  debuggerWithStoppingMistakes.commonMistakes.stoppingKinds.add("lines");
  const stopFrame = debuggerWithStoppingMistakes.advance(1543, true);
  assert.deepEqual([stopFrame.stop.reason, stopFrame.cycles, stopFrame.tally.mistakes.length], ["mistake", 3, 1]);
});
