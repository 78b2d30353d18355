import assert from "node:assert/strict";
import { test } from "node:test";
import { matrixKey } from "../core/board/key_place.js";
import { Debugger } from "../core/debug/debugger.js";
import { WorkerSession, MAX_ENTRIES } from "../core/engine/worker_session.js";
import { FullSpeed } from "../core/engine/full_speed.js";
import { FakeEngine } from "./fake_engine.js";

const shouldContinue = async () => true;

function startWorkerSession() {
  const engine = new FakeEngine();
  return { engine, session: new WorkerSession(engine, engine.begin()) };
}

test("`advance` runs the cycles and reads a snapshot in one call", () => {
  const { engine, session } = startWorkerSession();
  session.queue.press(matrixKey(0, 1));
  const frame = session.advance(5000);
  assert.equal(engine.calls, 1);
  assert.deepEqual(frame.runEntries.map(({ line }) => line), ["press 0 1", "run 5000"]);
  assert.deepEqual([frame.cycles, frame.end, frame.changesKeys], [5000, "", true]);
  assert.match(frame.snapshot[0], / lamps \. breaks /);
  assert.equal(session.file[0], 2);
});

test("after a run that stops early, the later steps are not executed", () => {
  const { engine, session } = startWorkerSession();
  engine.stopAt = 2;
  const frame = session.advance(300000);
  assert.deepEqual(frame.runEntries.map(({ answer }) => answer), ["ok 1 ran 100000 end", "ok 2 ran 1 break"]);
  assert.deepEqual([frame.cycles, frame.end], [100001, "ok 2 ran 1 break"]);
  assert.equal(session.file[0], 2);
});

test("a failed call changes nothing, and the keys stay queued", () => {
  const { engine, session } = startWorkerSession();
  session.queue.press(matrixKey(0, 1));
  engine.callLimit = 0;
  assert.throws(() => session.advance(10), /no 90/);
  assert.equal(session.file[0], 0);
  engine.callLimit = Infinity;
  assert.equal(session.advance(10).runEntries[0].line, "press 0 1");
});

test("lines in pieces have the same result as lines at once", async () => {
  const { session } = startWorkerSession();
  const result = await session.serve("step\n".repeat(3000), shouldContinue);
  assert.equal(session.file[0], 3000 % 256);
  assert.equal(result.firstAnswer, "ok 1");
  assert.equal(result.entries.length, MAX_ENTRIES);
  assert.match(result.entries[MAX_ENTRIES - 1].answers[0], /^ok /);
  assert.equal(result.snapshot.length, 2);
});

test("if a piece of long work fails or is cancelled, nothing is changed", async () => {
  const { engine, session } = startWorkerSession();
  await assert.rejects(session.serve(`${"step\n".repeat(3000)}trap\n`, shouldContinue), /unreachable/);
  assert.equal(session.file[0], 0);
  engine.callLimit = 2;
  await assert.rejects(session.serve("step\n".repeat(9000), shouldContinue), /no 90/);
  assert.equal(session.file[0], 0);
  engine.callLimit = Infinity;
  let pieceCount = 0;
  await assert.rejects(session.serve("step\n".repeat(9000), async () => ++pieceCount < 2), /cancelled/);
  assert.equal(session.file[0], 0);
  await session.serve("step\n", shouldContinue);
  assert.equal(session.file[0], 1);
});

test("the effects of lines are reported", async () => {
  const { session } = startWorkerSession();
  const effectsOf = async (lines) => {
    const { hasChangedRom, hasChangedBoard } = await session.serve(lines, shouldContinue);
    return [hasChangedRom, hasChangedBoard];
  };
  assert.deepEqual(await effectsOf("step\nseq\n"), [false, false]);
  assert.deepEqual(await effectsOf("poke r5 9\n"), [true, false]);
  session.queue.press(matrixKey(0, 1));
  assert.deepEqual(await effectsOf("wire\n.\n"), [true, true]);
  assert.deepEqual(session.queue.plan(1).map(({ line }) => line), ["run 1"]);
});

test("at full speed, batches are reported together once the page has accepted the last report", () => {
  const { engine, session } = startWorkerSession();
  const machine = new Debugger(session);
  const fullSpeed = new FullSpeed();
  fullSpeed.start(false);
  fullSpeed.runBatch(machine);
  assert.equal(fullSpeed.isReportDue(false), false);
  fullSpeed.runBatch(machine);
  assert.equal(fullSpeed.isReportDue(true), true);
  const result = fullSpeed.takeReport();
  assert.equal(result.runEntries.length, 1);
  assert.equal(result.runEntries[0].cycles, result.cycles);
  assert.equal(fullSpeed.takeReport().cycles, 0);
  engine.stopAt = session.file[0] + 1;
  fullSpeed.runBatch(machine);
  assert.equal(fullSpeed.isOn, false);
  assert.equal(fullSpeed.isReportDue(false), true);
  assert.match(fullSpeed.takeReport().end, /break$/);
});

test("a hidden page receives a report once a second, and after key presses at once", () => {
  const { session } = startWorkerSession();
  const machine = new Debugger(session);
  const fullSpeed = new FullSpeed();
  fullSpeed.start(true);
  fullSpeed.runBatch(machine);
  assert.equal(fullSpeed.isReportDue(true), false);
  session.queue.press(matrixKey(0, 1));
  fullSpeed.runBatch(machine);
  assert.equal(fullSpeed.isReportDue(true), true);
});
