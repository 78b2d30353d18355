// Tests the clock, with stand-ins for the animation frames and for the bench. The test controls both.
import assert from "node:assert/strict";
import { mock, test } from "node:test";
import { Clock } from "../page/time/clock.js";
import { matrixKey } from "../core/board/key_place.js";
import { CYCLES_PER_SECOND } from "../core/time/mcs4_time.js";
import { SPEEDS, findSpeed } from "../core/time/speeds.js";

/**
 * Returns a running clock at time 0, the calls with which it runs the machine (`calls`), and a stand-in for the bench (`bench`). The
 * stand-in has the clock's reports, and its `advance` returns `pendingCall` unless that is null. `setTime` sets the time. `advanceTo` also
 * delivers an animation frame.
 */
function startClock(speed = "real") {
  let now = 0;
  let frameCallback = null;
  mock.method(performance, "now", () => now);
  mock.method(Date, "now", () => now);
  globalThis.document = { hidden: false };
  globalThis.requestAnimationFrame = (callback) => { frameCallback = callback; };
  globalThis.cancelAnimationFrame = () => { frameCallback = null; };
  const calls = [];
  const bench = { failures: [], standstillCount: 0, pendingCall: null };
  const clock = new Clock({
    advance: (cycles, key) => {
      calls.push(key ? [cycles, key] : [cycles]);
      return bench.pendingCall || Promise.resolve();
    },
    runInstruction: async () => { calls.push(["instruction"]); },
    runAtFullSpeed: async () => { calls.push(["full"]); },
    reportStandstill: () => { bench.standstillCount += 1; },
    reportFailure: (error) => bench.failures.push(error),
  });
  clock.setSpeed(findSpeed(speed));
  clock.start();
  const setTime = (time) => { now = time; };
  const advanceTo = async (time) => {
    now = time;
    if (frameCallback) frameCallback(time);
    await flushPromises();
  };
  return { clock, bench, calls, setTime, advanceTo };
}

const flushPromises = () => new Promise((resolve) => setImmediate(resolve));
const sumOf = (calls) => calls.reduce((sum, [cycles]) => sum + cycles, 0);

test.afterEach(() => mock.restoreAll());

test("a key press is simulated with the due cycles and those of a frame, and the next frame simulates none", async () => {
  const { clock, calls, setTime, advanceTo } = startClock();
  await advanceTo(10);
  setTime(15);
  assert.equal(clock.simulateKeyPress(matrixKey(0, 1)), true);
  assert.deepEqual(calls, [[925], [464 + 1543, matrixKey(0, 1)]]);
  await flushPromises();
  await advanceTo(30);
  assert.equal(calls.length, 2);
  await advanceTo(100);
  assert.equal(sumOf(calls), Math.floor(CYCLES_PER_SECOND / 10));
  assert.equal(clock.simulatedTime, 100);
});

test("the clock is ahead while cycles have been simulated early", async () => {
  const { clock, setTime } = startClock();
  setTime(10);
  clock.simulateKeyPress(matrixKey(0, 1));
  assert.ok(Math.abs(clock.simulatedTime - 10 - 1000 / 60) < 0.01, `${clock.simulatedTime}`);
});

test("a key press during a call is left to the caller, and the due cycles are simulated when the call ends", async () => {
  const { clock, bench, calls, setTime, advanceTo } = startClock();
  let endCall = () => {};
  bench.pendingCall = new Promise((resolve) => { endCall = resolve; });
  await advanceTo(10);
  bench.pendingCall = null;
  setTime(12);
  assert.equal(clock.simulateKeyPress(matrixKey(0, 1)), false);
  assert.deepEqual(calls, [[925]]);
  endCall();
  await flushPromises();
  assert.deepEqual(calls, [[925], [186 + 1543]]);
  await advanceTo(60);
  assert.equal(sumOf(calls), Math.floor(60 * CYCLES_PER_SECOND / 1000));
});

test("if the clock stops during a call, no cycles follow, and none are due after a restart", async () => {
  const { clock, bench, calls, setTime, advanceTo } = startClock();
  setTime(5);
  clock.simulateKeyPress(matrixKey(0, 1));
  await flushPromises();
  setTime(6);
  let endCall = () => {};
  bench.pendingCall = new Promise((resolve) => { endCall = resolve; });
  await advanceTo(40);
  bench.pendingCall = null;
  assert.equal(clock.simulateKeyPress(matrixKey(0, 2)), false);
  clock.stop();
  endCall();
  await flushPromises();
  const callCount = calls.length;
  setTime(50);
  assert.equal(clock.simulateKeyPress(matrixKey(0, 3)), false);
  clock.start();
  await advanceTo(60);
  assert.deepEqual(calls.slice(callCount), [[925]]);
});

test("no cycles are simulated early while time is paused, at full speed or in slow motion", async () => {
  for (const { id } of SPEEDS.filter((speed) => speed.id !== "real")) {
    const { clock, calls, setTime } = startClock(id);
    calls.length = 0;
    setTime(500);
    const isSent = clock.simulateKeyPress(matrixKey(0, 1));
    const slowCalls = { tenth: [[4629, matrixKey(0, 1)]], hundredth: [[462, matrixKey(0, 1)]], thousandth: [[46, matrixKey(0, 1)]] };
    assert.deepEqual(calls, slowCalls[id] || [], id);
    assert.equal(isSent, id in slowCalls, id);
    await flushPromises();
    clock.stop();
    setTime(900);
    assert.equal(clock.simulateKeyPress(matrixKey(0, 1)), false);
    mock.restoreAll();
  }
  const { clock, calls } = startClock();
  clock.stop();
  assert.equal(clock.simulateKeyPress(matrixKey(0, 1)), false);
  assert.deepEqual(calls, []);
});

test("a hidden page simulates no key press, and skips the time for which it was hidden", async () => {
  const { clock, calls, bench, setTime, advanceTo } = startClock();
  clock.simulateKeyPress(matrixKey(0, 1));
  await flushPromises();
  globalThis.document.hidden = true;
  clock.handlePageHidden();
  setTime(5000);
  assert.equal(clock.simulateKeyPress(matrixKey(0, 2)), false);
  globalThis.document.hidden = false;
  await advanceTo(9000);
  assert.equal(bench.standstillCount, 1);
  await advanceTo(9010);
  assert.deepEqual(calls, [[1543, matrixKey(0, 1)], [925]]);
});

test("a failed call is reported, and the next frame continues", async () => {
  const { calls, bench, advanceTo } = startClock();
  bench.pendingCall = Promise.reject(new Error("trap"));
  await advanceTo(10);
  bench.pendingCall = null;
  assert.deepEqual(bench.failures.map(({ message }) => message), ["trap"]);
  await advanceTo(20);
  assert.deepEqual(calls, [[925], [926]]);
});
