// Tests typed lines, whose runs stop at breakpoints with conditions, on the page's WebAssembly module.
import assert from "node:assert/strict";
import { test } from "node:test";
import { CancelledError } from "../core/bench/bench_errors.js";
import { openExample } from "./page_session.js";

const BOARD = "[[rom]]\nchip = 0\nport = \"0000\"\n";
const PROGRAM = "loop:   INC R9\n        NOP\n        JUN loop\n";
// An iteration takes 4 cycles. The program reaches the NOP at 001 after 1, 5, 9, .. cycles, with 1, 2, 3, .. in R9.
const NOP_ADDRESS = 1;

/**
 * Resolves to a session that is ready to run this program, with a breakpoint at NOP_ADDRESS.
 * @param {object} properties the breakpoint's properties that differ from the defaults
 */
async function createSession(properties) {
  const calls = await openExample("three lamps");
  await calls.serve(`wire\n${BOARD}.\nasm\n${PROGRAM}.\nreset\n`);
  const breakpoint = { id: 7, address: NOP_ADDRESS, condition: "", from: 1, note: "", hits: 0, ...properties };
  await calls.setBreakpoints([breakpoint], { board: BOARD, program: PROGRAM });
  return calls;
}

/** Resolves to the lines that the bench served, with their first answers, and to the effects of breakpoints. */
async function serveTypedLines(calls, lines) {
  const { entries, typedResult: { id, cutLine, cycles, tally } } = await calls.serveTypedLines(lines);
  const servedLines = entries.map(({ line, answers }) => `${line}: ${answers[0].replace(/^ok \d+ ?/, "")}`);
  return { lines: servedLines, id, cutLine, cycles, hits: tally.hits, notes: tally.notes };
}

test("a run ends when the condition holds", async () => {
  const calls = await createSession({ condition: "r9 = 3" });
  const { lines, id, cutLine, cycles, hits } = await serveTypedLines(calls, "run 1000\n");
  assert.deepEqual([lines, id, cutLine, cycles, hits], [["run 9: ran 9 end"], 7, "run 1000", 9, [[7, 1]]]);
  assert.match(calls.ask("regs\n")[0], /pc 001 owed 0 .* r 0000000003/);
  const secondResult = await serveTypedLines(calls, "run 1000\n");
  assert.deepEqual([secondResult.lines, secondResult.cutLine], [["run 64: ran 64 end"], "run 1000"]);
});

test("each run ends when the condition holds, and later lines are still served", async () => {
  const calls = await createSession({ condition: "r9 = 3" });
  const { lines, id, cutLine, cycles, hits } = await serveTypedLines(calls, "poke r9 1\n\n  run 0x20 \npoke r9 0\nrun 5\nseq\n");
  assert.deepEqual(lines.slice(0, 4), ["poke r9 1: ", "run 5: ran 5 end", "poke r9 0: ", "run 5: ran 5 end"]);
  assert.match(lines[4], /^seq: seq \d+$/);
  assert.deepEqual([id, cutLine, cycles, hits], [0, "", 10, [[7, 1]]]);
});

test("hits are counted across lines, and log messages are reported", async () => {
  const countingSession = await createSession({ from: 3 });
  assert.deepEqual((await serveTypedLines(countingSession, "run 4\nrun 4\n")).lines, ["run 4: ran 4 end", "run 4: ran 4 end"]);
  assert.deepEqual((await serveTypedLines(countingSession, "run 9\n")).lines, ["run 1: ran 1 end"]);
  const loggingSession = await createSession({ note: "R9 is {r9}" });
  const { lines, notes, id } = await serveTypedLines(loggingSession, "run 6\nrun 4\n");
  assert.deepEqual([lines, id], [["run 6: ran 6 end", "run 4: ran 4 end"], 0]);
  assert.deepEqual(notes.map(({ cycles, text }) => [cycles, text]), [[1, "R9 is 1"], [5, "R9 is 2"], [9, "R9 is 3"]]);
});

test("rejected lines, steps and texts are served unchanged; an unconditional breakpoint ends a run", async () => {
  const calls = await createSession({ condition: "r9 = 3" });
  const { lines } = await serveTypedLines(calls, "run 0\nrun x\nrun 5 5\nstep\nbreak 2\nasm\nrun 5\n.\nrun 5\n");
  const expected = ["run 0: no 44", "run x: no 11", "run 5 5: no 10", "step: ran 1 end", "break 2: ", "asm: no 30 line 1"];
  assert.deepEqual(lines, [...expected, "run 5: ran 1 break"]);
});

test("cancelled lines change nothing, and no hits are counted", async () => {
  const calls = await createSession({ from: 2 });
  const answersBefore = calls.ask("seq\nstate\n");
  let callCount = 0;
  calls.bench.shouldContinue = async () => {
    callCount += 1;
    return callCount < 2;
  };
  await assert.rejects(calls.serveTypedLines("run 4\nrun 4\nrun 4\n"), CancelledError);
  assert.deepEqual(calls.ask("seq\nstate\n"), answersBefore);
  calls.bench.shouldContinue = async () => true;
  assert.deepEqual((await serveTypedLines(calls, "run 1000\n")).lines, ["run 5: ran 5 end"]);
});
