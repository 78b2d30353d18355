import assert from "node:assert/strict";
import { test } from "node:test";
import { BenchRefusal, BenchTrap, CancelledError, WorkerDiedError, packError, unpackError } from "../core/bench/bench_errors.js";
import { hex, parseNumber, indices } from "../core/bench/numbers.js";
import { RunLog, formatLogEntry } from "../core/bench/run_log.js";
import { ErrorMessages } from "../core/bench/error_messages.js";

test("numbers are parsed and formatted", () => {
  assert.deepEqual(["12", "0x1E", "0XFF", "1E", "", "-1", "1.5"].map(parseNumber), [12, 30, 255, NaN, NaN, NaN, NaN]);
  assert.equal(hex(30, 3), "01E");
  assert.deepEqual(indices(3), [0, 1, 2]);
});

test("errors keep their class on the way from the worker to the page", () => {
  const sendToPage = (error) => unpackError(JSON.parse(JSON.stringify(packError(error))));
  assert.equal(sendToPage(new BenchRefusal(90)).number, 90);
  assert.ok(sendToPage(new BenchTrap("unreachable")) instanceof BenchTrap);
  assert.ok(sendToPage(new CancelledError()) instanceof CancelledError);
  assert.equal(sendToPage(new TypeError("x is not y")).message, "x is not y");
  assert.equal(sendToPage("a word").message, "a word");
});

test("errors have messages", () => {
  const errorMessages = new ErrorMessages({ 90: "out of memory" });
  const noMemory = errorMessages.failureMessage(new BenchRefusal(90));
  assert.equal(noMemory, "It was not done: no 90: out of memory. The session is as it was before.");
  const trap = errorMessages.failureMessage(new BenchTrap("unreachable"));
  assert.match(trap, /the module stopped during a call \(unreachable\) and was restarted/);
  assert.match(errorMessages.failureMessage(new WorkerDiedError()), /The session is as it was before/);
  assert.equal(errorMessages.failureMessage(new CancelledError()), "It was cancelled. The session is as it was before.");
  assert.equal(errorMessages.failureMessage(new Error("odd")), "The page failed: odd. What was answered ok is kept.");
  assert.match(errorMessages.refusalMeaning(99), /the manual lists them/);
});

test("the run log joins consecutive runs, but not keys", () => {
  const runLog = new RunLog();
  const run = (cycles) => ({ line: `run ${cycles}`, answer: `ok ran ${cycles}`, runs: 1, cycles });
  runLog.add([run(1543), run(1544)]);
  runLog.add([run(1000), { line: "press 0 1", answer: "ok 4", runs: 0, cycles: 0 }, run(5)]);
  const entries = runLog.take();
  assert.deepEqual(entries.map(formatLogEntry), ["run .. (3 lines, 4,087 cycles); the last one was answered", "press 0 1", "run 5"]);
  assert.equal(entries[0].answer, "ok ran 1000");
  assert.deepEqual(runLog.take(), []);
});
