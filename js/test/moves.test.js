// Tests runs to goals, on the page's WebAssembly module. The expected values come from `mcs4 trace` and `mcs4 cycles`, as docs/MANUAL.md
// shows.
import assert from "node:assert/strict";
import { test } from "node:test";
import { openExample, readCounter } from "./page_session.js";
import { matrixKey } from "../core/board/key_place.js";

/** Runs to a goal, for at most `maximum` cycles. Resolves to the cycles, whether the goal was reached, and why the run ended. */
async function runToGoal(calls, goal, maximum) {
  const { cycles, isReached, end } = (await calls.runToGoal(goal, maximum)).searchResult;
  return { cycles, isReached, end };
}

test("a step over a JMS takes as many cycles as a run to a breakpoint after it, and leaves no breakpoint", async () => {
  // Run up to the JMS at 007. FIM, SRC, LDM, XCH, LD and WMP take 7 cycles.
  const calls = await openExample("three lamps", "run 7\n");
  assert.equal(readCounter(calls), "007");
  const result = await calls.runToGoal({ kind: "over" });
  assert.deepEqual([result.searchResult.isReached, result.searchResult.cycles, readCounter(calls)], [true, result.total - 7, "009"]);
  const sentLines = result.entries.map(({ line, answers }) => [line, answers[0].slice(5)]);
  assert.deepEqual(sentLines, [[`run ${result.searchResult.cycles}`, `ran ${result.searchResult.cycles} end`]]);
  assert.deepEqual(calls.ask("breaks\nwatches\n"), ["breaks -", "watches -"]);
  const otherCalls = await openExample("three lamps", "run 7\nbreak 0x009\n");
  const [answer] = (await otherCalls.serve("run 100000\n")).entries[0].answers;
  assert.equal(answer.split(" ")[3], String(result.searchResult.cycles));
});

test("a step over any other instruction is one instruction, and a step out ends after the JMS", async () => {
  const calls = await openExample("three lamps");
  assert.deepEqual(await runToGoal(calls, { kind: "over" }), { cycles: 2, isReached: true, end: "" });
  await calls.serve("run 7\n");
  assert.equal(readCounter(calls), "014");
  assert.equal((await calls.runToGoal({ kind: "out" })).searchResult.isReached, true);
  assert.equal(readCounter(calls), "009");
});

test("a step out without an open call does nothing, even if a stale return address is left", async () => {
  const calls = await openExample("three lamps");
  for (const lines of ["", "run 7\n"]) {
    await calls.serve(lines);
    if (lines) await calls.runToGoal({ kind: "over" });
    const answersBefore = calls.ask("regs\nseq\n");
    assert.deepEqual(await runToGoal(calls, { kind: "out" }), { cycles: 0, isReached: false, end: "outside" });
    assert.deepEqual(calls.ask("regs\nseq\n"), answersBefore);
  }
});

test("a run ends at an address, after a number of instructions, or at a change", async () => {
  const calls = await openExample("three lamps");
  await calls.runToGoal({ kind: "here", address: 0x14 });
  assert.equal(readCounter(calls), "014");
  assert.deepEqual(await runToGoal(calls, { kind: "count", count: 3 }), { cycles: 6, isReached: true, end: "" });
  const lampsBefore = calls.ask("lamps\n")[0];
  const result = await calls.runToGoal({ kind: "change", place: "lamps" });
  assert.equal(result.searchResult.isReached, true);
  assert.notEqual(calls.ask("lamps\n")[0], lampsBefore);
  const newCalls = await openExample("three lamps");
  assert.equal((await newCalls.runToGoal({ kind: "change", place: "r4" })).searchResult.cycles, 5);
});

test("a run reaches a distant address, even if all breakpoints are in use", async () => {
  const loops = "far: ISZ R0, far\nISZ R1, far\nISZ R2, far\nISZ R3, far\nend: JUN end\n";
  const setup = `wire\n[[rom]]\nchip = 0\nport = "0000"\n.\nasm\n${loops}.\n`;
  const calls = await openExample("empty bench", setup);
  const { searchResult } = await calls.runToGoal({ kind: "here", address: 8 }, 1000000);
  assert.deepEqual([searchResult.isReached, readCounter(calls)], [true, "008"]);
  const callsWithBreakpoints =
    await openExample("empty bench", `${setup}${Array.from({ length: 32 }, (_, index) => `break ${index + 16}\n`).join("")}`);
  const expected = await runToGoal(callsWithBreakpoints, { kind: "here", address: 4 }, 1000000);
  await calls.goBack({ kind: "stop" });
  assert.deepEqual(expected, await runToGoal(calls, { kind: "here", address: 4 }, 1000000));
});

/** Resolves to a bench with one ROM and a program. */
function createBench(program) {
  return openExample("empty bench", `wire\n[[rom]]\nchip = 0\nport = "0000"\n.\nasm\n${program}.\n`);
}

/**
 * Returns the source of nested delay loops (`lines`), and the number of cycles that they take. An ISZ takes two cycles, and each loop has
 * 16 iterations.
 */
function createDelayLoops(loopCount) {
  const registers = [0, 1, 2, 3, 4].slice(0, loopCount);
  const lines = `FIM P0, 0\nFIM P1, 0\nFIM P2, 0\nloop: ${registers.map((register) => `ISZ R${register}, loop\n`).join("")}`;
  return { lines, cycles: 6 + registers.reduce((cycles) => 16 * (cycles + 2), 0) };
}

/** Runs frames of `frameCycles` cycles until a stop. Returns the last frame. */
function runUntilStop(calls, frameCycles) {
  for (;;) {
    const result = calls.advance(frameCycles);
    if (result.stop) return result;
  }
}

test("a step over a delay of 24 seconds, and out of it, in frames and at full speed", async () => {
  const { lines, cycles } = createDelayLoops(5);
  const calls = await createBench(`JMS wait\nend: JUN end\nwait: ${lines}BBL 0\n`);
  const fileBefore = Buffer.from(calls.bench.session.file);
  const result = await calls.runToGoal({ kind: "over" });
  assert.deepEqual([result.searchResult.end, result.entries.length, Buffer.compare(fileBefore, calls.bench.session.file)], ["bound", 0, 0]);
  const frame = runUntilStop(calls, 1543);
  assert.deepEqual([frame.stop, readCounter(calls)], [{ reason: "goal", id: 0, cycles: cycles + 3, endsAtReturn: true }, "002"]);
  assert.ok(frame.runEntries.every(({ line }) => /^run \d+$/.test(line)));
  assert.deepEqual(calls.ask("breaks\nwatches\n"), ["breaks -", "watches -"]);
  // After the goal has been reached, a later run has no goal.
  assert.equal(calls.advance(1543).stop, null);
  await calls.goBack({ kind: "stop" });
  await calls.serve("reset\nrun 1000\n");
  const outResult = await calls.runToGoal({ kind: "out" }, 100000000);
  assert.deepEqual([outResult.searchResult.isReached, outResult.searchResult.cycles, readCounter(calls)], [true, cycles + 3 - 1000, "002"]);
});

test("a step over a subroutine that waits for a key, which is pressed during the run", async () => {
  const calls = await createBench("main: JMS getkey\nJUN main\ngetkey: JCN 1, getkey\nBBL 0\n");
  await calls.serve("test 0\n");
  assert.equal((await calls.runToGoal({ kind: "over" })).searchResult.end, "bound");
  for (let frame = 0; frame < 40; frame++) assert.equal(calls.advance(1543).stop, null);
  await calls.serve("test 1\n");
  const { stop } = runUntilStop(calls, 1543);
  assert.deepEqual([stop.reason, stop.endsAtReturn, readCounter(calls)], ["goal", true, "002"]);
  assert.ok(stop.cycles > 40 * 1543 && stop.cycles < 41 * 1543);
});

test("runs of many instructions, also from the middle of an instruction", async () => {
  const calls = await createBench("end: JUN end\n");
  assert.equal((await calls.runToGoal({ kind: "count", count: 1000000 })).searchResult.cycles, 2000000);
  await calls.serve("run 1\n");
  assert.equal((await calls.runToGoal({ kind: "count", count: 3 })).searchResult.cycles, 5);
  const loopCalls = await createBench("go: NOP\nNOP\nJUN go\n");
  assert.equal((await loopCalls.runToGoal({ kind: "count", count: 300000 })).searchResult.cycles, 400000);
});

test("runs to a distant change of a register, a port, a lamp and a RAM character", async () => {
  const runToChange = async (program, place, lines = "") => {
    const calls = await openExample("three lamps", `asm\n${program}.\nreset\n${lines}`);
    return await runToGoal(calls, { kind: "change", place });
  };
  const { lines: delayLines, cycles } = createDelayLoops(4);
  const writingProgram = `${delayLines}SRC P0\nLDM 7\nWMP\nWRM\nend: JUN end\n`;
  for (const [place, cyclesAfter] of [["acc", 2], ["ram0.0", 3], ["ram0.0.2", 3], ["lamp 2", 3], ["lamps", 3], ["ram.0.0", 4]]) {
    assert.deepEqual(await runToChange(writingProgram, place), { cycles: cycles + cyclesAfter, isReached: true, end: "" }, place);
  }
  assert.deepEqual(await runToChange(writingProgram, "acc", "break 8\n"), { cycles: 38, isReached: false, end: "break" });
});

test("the user's breakpoints stop a move first; a goal that is never reached has no effect", async () => {
  const calls = await openExample("three lamps", "run 7\nbreak 0x016\n");
  assert.deepEqual(await runToGoal(calls, { kind: "over" }), { cycles: 4, isReached: false, end: "break" });
  assert.equal(readCounter(calls), "016");
  assert.deepEqual(await runToGoal(calls, { kind: "change", place: "chain0.1" }), { cycles: 0, isReached: false, end: "lacks" });
  const emptyBench = await openExample("empty bench", "wire\n[[rom]]\nchip = 0\nport = \"0000\"\n.\nasm\nx: JUN x\n.\n");
  const fileBefore = Buffer.from(emptyBench.bench.session.file);
  const result = await emptyBench.runToGoal({ kind: "change", place: "r4" }, 5000);
  const difference = Buffer.compare(fileBefore, emptyBench.bench.session.file);
  assert.deepEqual([result.searchResult.end, result.entries.length, difference], ["bound", 0, 0]);
});

test("with key presses, a goal stops the run at the cycle in which it is reached", async () => {
  const calls = await openExample("calculator");
  calls.advance(100000);
  const lampsBefore = calls.ask("lamps\n")[0];
  assert.equal((await calls.runToGoal({ kind: "change", place: "lamps" }, 100000)).searchResult.end, "bound");
  const startTotal = calls.bench.session.count.total;
  let frameResult = calls.advance(5000, matrixKey(2, 1));
  for (let frame = 0; !frameResult.stop && frame < 100; frame++) frameResult = calls.advance(1543);
  assert.deepEqual([frameResult.stop.reason, frameResult.stop.cycles], ["goal", calls.bench.session.count.total - startTotal]);
  assert.notEqual(calls.ask("lamps\n")[0], lampsBefore);
  // One cycle before the change, the lamps are still unchanged.
  const secondCalls = await openExample("calculator");
  secondCalls.advance(100000);
  secondCalls.press(matrixKey(2, 1));
  secondCalls.advance(frameResult.stop.cycles - 1);
  assert.equal(secondCalls.ask("lamps\n")[0], lampsBefore);
  secondCalls.advance(1);
  assert.deepEqual(secondCalls.ask("state\n")[0].replace(/seq \d+/, ""), calls.ask("state\n")[0].replace(/seq \d+/, ""));
});

test("a reset ends a move, and the machine can continue", async () => {
  const calls = await createBench("end: JUN end\n");
  assert.equal((await calls.runToGoal({ kind: "change", place: "r4" })).searchResult.end, "bound");
  assert.equal(calls.bench.debugger.isMoving, true);
  calls.advance(1543);
  await calls.serve("reset\n");
  assert.equal(calls.bench.debugger.isMoving, false);
});
