import assert from "node:assert/strict";
import { test } from "node:test";
import { Rate } from "../core/time/rate.js";
import {
  CYCLES_PER_SECOND, CYCLE_US, EYE_PERSISTENCE_CYCLES, FRAME_CYCLES, FRAME_MS, cyclesFromMilliseconds
} from "../core/time/mcs4_time.js";
import { MAX_EARLY_MS, MAX_CYCLES_PER_FRAME, RealTime } from "../core/time/real_time.js";
import { formatDuration } from "../core/bench/error_messages.js";
import { PLACES_HINT } from "../words/conditions.js";
import { cannotSearchForMessage } from "../words/time.js";

test("a cycle of the 4004 takes eight periods of a clock of 740,740.7 Hz", () => {
  const countCycles = (seconds) => (seconds * (5185185.185 / 7)) / 8;
  assert.ok(Math.abs(CYCLE_US * countCycles(1) - 1e6) < 0.001);
  const roundedCycles = [1, 0.03, 0.001, 0.02].map((time) => Math.round(countCycles(time)));
  assert.deepEqual([CYCLES_PER_SECOND, EYE_PERSISTENCE_CYCLES, cyclesFromMilliseconds(1), cyclesFromMilliseconds(20)], roundedCycles);
  assert.equal(FRAME_CYCLES, Math.floor(countCycles(FRAME_MS / 1000)));
});

test("the frames of a second have 92,593 cycles, whatever the length of a frame", () => {
  for (const frameMs of [1000 / 60, 1000 / 144, 7, 100]) {
    const realTime = new RealTime(0, 0);
    let totalCycles = 0;
    let now = 0;
    for (; now < 10000; now += frameMs) totalCycles += realTime.takeDueCycles(now);
    assert.ok(Math.abs(totalCycles - ((now - frameMs) / 1000) * CYCLES_PER_SECOND) < 1, `${frameMs}: ${totalCycles}`);
  }
});

test("the cycles of a slow frame are limited, and no cycles are due if the clock goes back", () => {
  const realTime = new RealTime(0, 0);
  assert.equal(realTime.takeDueCycles(900), MAX_CYCLES_PER_FRAME);
  assert.equal(realTime.takeDueCycles(900), 0);
  assert.equal(realTime.takeDueCycles(890), 0);
  assert.equal(realTime.takeDueCycles(910), 925);
});

test("after an hour in the background no cycles are due, and the gap is reported", () => {
  const realTime = new RealTime(0, 0);
  realTime.hide();
  assert.deepEqual(realTime.skipGap(3600000, 3600000), { gap: 3600000, wasHidden: true });
  assert.equal(realTime.takeDueCycles(3600000), 0);
  assert.equal(realTime.skipGap(3600010, 3600010), null);
  assert.equal(realTime.takeDueCycles(3600010), 925);
});

test("a gap is also detected if only the wall clock has advanced", () => {
  const realTime = new RealTime(0, 0);
  assert.equal(realTime.skipGap(999, 999), null);
  assert.deepEqual(realTime.skipGap(1000, 8000), { gap: 7001, wasHidden: false });
  assert.equal(realTime.takeDueCycles(1000), 0);
});

/**
 * Returns the number of cycles that run in one second of frames, with key presses at the times in `pressTimes`. At each key press, some
 * cycles are simulated early.
 */
function countSimulatedCycles(frameMs, pressTimes) {
  const realTime = new RealTime(0, 0);
  const events = pressTimes.map((now) => ({ now, earlyMs: MAX_EARLY_MS }));
  for (let now = 0; now <= 1000; now += frameMs) events.push({ now, earlyMs: 0 });
  events.push({ now: 1000.5, earlyMs: 0 });
  let totalCycles = 0;
  for (const { now, earlyMs } of events.sort((a, b) => a.now - b.now)) {
    const dueCycles = realTime.takeDueCycles(now, earlyMs);
    assert.ok(dueCycles >= 0, `${dueCycles} at ${now}`);
    totalCycles += dueCycles;
    assert.ok(totalCycles <= ((now + MAX_EARLY_MS) / 1000) * CYCLES_PER_SECOND, `ahead of its time at ${now}`);
    const expectedTime = (totalCycles + Math.max(0, realTime.dueCycles)) * (1000 / CYCLES_PER_SECOND);
    assert.ok(Math.abs(realTime.simulatedUntil - expectedTime) < 0.001, `reached at ${now}`);
  }
  return totalCycles;
}

test("key presses do not change the number of cycles in a second, and time is at most a frame ahead", () => {
  for (const frameMs of [1000 / 60, 1000 / 144, 7, 100]) {
    const totalCycles = countSimulatedCycles(frameMs, []);
    for (const pressTimes of [[3], [3, 4, 5], [100, 130, 160.5, 700], Array.from({ length: 500 }, (_, index) => 1.7 * index)]) {
      assert.equal(countSimulatedCycles(frameMs, pressTimes), totalCycles);
    }
  }
});

test("a key press simulates cycles early, and later frames simulate fewer", () => {
  const realTime = new RealTime(0, 0);
  assert.equal(realTime.takeDueCycles(10), 925);
  assert.equal(realTime.takeDueCycles(15, MAX_EARLY_MS), 464 + 1543);
  assert.equal(realTime.takeDueCycles(20), 0);
  assert.equal(realTime.takeDueCycles(25), 0);
  assert.equal(realTime.takeDueCycles(31.6), 0);
  assert.equal(realTime.takeDueCycles(40), Math.floor(40 * CYCLES_PER_SECOND / 1000) - 925 - 464 - 1543);
});

test("cycles that were simulated early are forgotten after a pause or a gap", () => {
  const realTime = new RealTime(0, 0);
  assert.equal(realTime.takeDueCycles(0, MAX_EARLY_MS), 1543);
  realTime.hide();
  realTime.skipGap(1000, 1000);
  assert.equal(realTime.simulatedUntil, 1000);
  assert.equal(realTime.takeDueCycles(1010), 925);
  assert.equal(realTime.takeDueCycles(1010, MAX_EARLY_MS), 1544);
  realTime.restart(1011, 1011);
  assert.equal(realTime.takeDueCycles(1021), 925);
});

test("the rate is reported every half second", () => {
  const rate = new Rate(0);
  rate.add(1000, 400);
  assert.equal(rate.perSecond, 0);
  rate.add(1000, 500);
  assert.equal(rate.perSecond, 4000);
  rate.add(500, 1000);
  assert.equal(rate.perSecond, 1000);
});

test("durations are formatted", () => {
  assert.deepEqual([1000, 2400, 62000, 3600000, 3723000, 7200000].map(formatDuration),
    ["1 second", "2 seconds", "1 minute 2 seconds", "1 hour", "1 hour 2 minutes", "2 hours"]);
});

test("the status bar answers an unknown place with some examples", () => {
  assert.equal(cannotSearchForMessage(`nonsense: no such place; ${PLACES_HINT} (column 1)`),
    "Nothing was done: nonsense: no such place; enter something such as r5, lamp 3 or rom0.2 (column 1).");
});
