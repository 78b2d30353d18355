// Tests the page's WebAssembly module through the calls that the page makes.
import assert from "node:assert/strict";
import { test } from "node:test";
import { matrixKey } from "../core/board/key_place.js";
import { BenchCalls } from "../core/engine/bench_calls.js";
import { Engine } from "../core/engine/engine.js";
import { examplesOfPage, pageModule } from "./page_session.js";

const [module, examples] = [pageModule, examplesOfPage];
const calculator = examples.find(({ name }) => name === "calculator");

async function openExample(example) {
  const calls = new BenchCalls(async () => true);
  const size = await calls.load(module, examples);
  calls.open(calls.createFile(example));
  return { calls, size };
}

test("lines are served in a file, and `ask` leaves the file unchanged", async () => {
  const engine = await Engine.load(module);
  assert.equal(engine.size, 163856);
  const file = engine.begin();
  const bytesBefore = Buffer.from(file);
  assert.deepEqual(engine.ask(file, "poke r5 9\nseq\n"), { status: 0, openingAnswer: "session 0", answers: ["ok 1", "seq 1"] });
  assert.equal(Buffer.compare(bytesBefore, file), 0);
  assert.deepEqual(engine.serve(file, "poke r5 9\n", file).answers, ["ok 1"]);
  assert.deepEqual(engine.ask(file, "seq\n"), { status: 0, openingAnswer: "session 1", answers: ["seq 1"] });
});

test("the buffer for answers grows if necessary", async () => {
  const engine = await Engine.load(module);
  const { answers } = engine.ask(engine.begin(), "list 0 256\n".repeat(400));
  assert.equal(answers.length, 400 * 256);
});

test("lines with non-ASCII characters are answered, and so are more lines than the initial buffer can hold", async () => {
  const engine = await Engine.load(module);
  const file = engine.begin();
  assert.deepEqual(engine.ask(file, "caf\u00e9\n").answers, ["no 14"]);
  assert.equal(engine.ask(file, `${"x".repeat(200)}\n`.repeat(4000)).answers.length, 4000);
});

test("bytes that are not a session are rejected, and the session stays", async () => {
  const { calls } = await openExample(calculator);
  for (const [byteCount, number] of [[0, 50], [9, 50], [163857, 50], [163856, 50]]) {
    assert.throws(() => calls.open(new Uint8Array(byteCount)), { number });
    assert.throws(() => calls.settleFile(new Uint8Array(byteCount)), { number });
  }
  assert.equal(calls.ask("board\n")[0], "board");
});

test("frames press keys, run cycles, and reuse returned buffers", async () => {
  const { calls } = await openExample(calculator);
  for (const key of [matrixKey(2, 1), matrixKey(3, 2)]) {
    calls.press(key);
    calls.release(key);
  }
  const frame = calls.advance(20000);
  assert.equal(frame.cycles, 20000);
  const changes = frame.runEntries.filter(({ runs }) => runs === 0).map(({ line }) => line);
  assert.deepEqual(changes, ["press 2 1", "release 2 1", "press 3 2", "release 3 2"]);
  assert.equal(frame.file.byteLength, 163856);
  const nextFrame = calls.advance(1000);
  assert.notEqual(nextFrame.file, frame.file);
  calls.bench.spareBuffers.push(frame.file);
  assert.equal(calls.advance(1000).file, frame.file);
});

test("a key goes down at the start of its cycles, or when the keys before it are done", async () => {
  const { calls } = await openExample(calculator);
  const lampsOf = ({ snapshot }) => / lamps (\S+)/.exec(snapshot[0])[1];
  const linesOf = ({ runEntries }) => runEntries.map(({ line }) => line);
  const frameBefore = calls.advance(100000);
  const frame = calls.advance(2000, matrixKey(2, 1));
  assert.deepEqual(linesOf(frame), ["press 2 1", "run 2000"]);
  assert.notEqual(lampsOf(frame), lampsOf(frameBefore));
  calls.release(matrixKey(2, 1));
  assert.deepEqual(linesOf(calls.advance(3000, matrixKey(2, 2))), ["run 2000", "release 2 1", "run 1000"]);
  assert.deepEqual(linesOf(calls.advance(3000)), ["run 1000", "press 2 2", "run 2000"]);
});

test("a breakpoint ends a frame early", async () => {
  const { calls } = await openExample(calculator);
  await calls.serve("break 0x024\n");
  const frame = calls.advance(5000);
  assert.match(frame.end, / break$/);
  assert.ok(frame.cycles < 100);
});

test("a session with an example's board and program has the example's texts; another session has texts from the bench", async () => {
  const { calls } = await openExample(calculator);
  const texts = calls.recoverTexts(calls.createFile(calculator));
  const { board, program, tests = "", properties = "" } = calculator;
  assert.deepEqual(texts, { boardText: board, programText: program, testText: tests, propertiesText: properties });
  const file = calls.createFile({ ...calculator, board: '[[rom]]\nchip = 0\nport = "0000"\n', program: "\tLDM 5\n\tJUN 0\n" });
  assert.deepEqual(calls.recoverTexts(file), {
    boardText: '[[rom]]\nchip = 0\nport = "0000"\n', programText: "\tLDM 5\n\tJUN 0x000\n", testText: "", propertiesText: "",
  });
});

test("the wrong part of a board and the wrong lines of a program are reported", async () => {
  const { calls } = await openExample(calculator);
  const board = '[[rom]]\nchip = 0\nport = "0000"\n\n[[lamp]]\nline = "ram0.0.0"\n';
  const { firstAnswer } = await calls.serve(`wire\n${board}.\n`);
  assert.equal(firstAnswer, "no 25");
  assert.deepEqual(calls.findBoardError(board), { number: 25, line: 5, section: "lamp", index: 1, key: "line" });
  assert.equal(calls.findBoardError(board.slice(0, board.indexOf("[[lamp"))), null);
  assert.deepEqual(calls.findLineErrors("a: NOP\na: NOP\nFOO\n"), [{ line: 2, number: 31 }, { line: 3, number: 30 }]);
});

test("many lines are all executed", async () => {
  const { calls } = await openExample(calculator);
  const result = await calls.serve("step\n".repeat(5000));
  assert.equal(result.entries.length, 400);
  assert.equal(calls.ask("seq\n")[0], "seq 5002");
});
