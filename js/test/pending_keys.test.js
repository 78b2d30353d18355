// Tests a second press of a key before the worker has reported the release after the first press. The second press must press the key, not
// release it.

import assert from "node:assert/strict";
import test from "node:test";
import { PendingKeys } from "../core/board/pending_keys.js";
import { matrixKey } from "../core/board/key_place.js";
import { KeyPresser } from "../page/board/key_presser.js";
import { openExample } from "./page_session.js";

const KEY = { key: matrixKey(0, 0), isSwitch: false };

/**
 * Resolves to a KeyPresser for a key while the machine is running. `deliverRequests` delivers the requests to the worker, and
 * `deliverReport` delivers the worker's report to the page.
 */
async function createPresser() {
  const calls = await openExample("calculator");
  const pendingKeys = new PendingKeys();
  const sentWords = [];
  let [isDown, changesInTransit] = [false, []];
  const send = (word) => {
    sentWords.push(word);
    changesInTransit.push([word, pendingKeys.addInTransit({ word, key: KEY.key })]);
  };
  const presser = new KeyPresser({
    queuesKeyChanges: () => true,
    isDown: (key) => pendingKeys.willBeDown(key, isDown),
    press: () => send("press"),
    release: () => send("release"),
    change: () => {},
    keyForEvent: () => undefined,
  });
  const deliverRequests = () => {
    for (const [word, confirm] of changesInTransit) {
      pendingKeys.waitingChanges = structuredClone(calls[word](KEY.key));
      confirm();
    }
    changesInTransit = [];
  };
  /** Runs `cycles` cycles, then delivers the current state to the page. */
  const deliverReport = (cycles) => {
    deliverRequests();
    const frame = structuredClone(calls.advance(cycles));
    isDown = / keys [^ ]*\b0\.0\b/.test(frame.snapshot.join("\n"));
    pendingKeys.waitingChanges = frame.waitingChanges;
    return isDown;
  };
  return { presser, sentWords, deliverRequests, deliverReport };
}

test("a key can be pressed again while its release is delayed", async () => {
  const { presser, sentWords, deliverReport } = await createPresser();
  presser.pressOrRelease(KEY, false);
  assert.equal(deliverReport(1500), true);
  presser.endPress(KEY.key);
  assert.equal(deliverReport(1500), true);
  presser.pressOrRelease(KEY, false);
  presser.endPress(KEY.key);
  assert.deepEqual(sentWords, ["press", "release", "press", "release"]);
  assert.deepEqual([deliverReport(1001), deliverReport(2000), deliverReport(4000)], [false, true, false]);
});

test("a key can be pressed again while its release is in transit", async () => {
  const { presser, sentWords, deliverReport } = await createPresser();
  presser.pressOrRelease(KEY, false);
  assert.equal(deliverReport(6000), true);
  presser.endPress(KEY.key);
  presser.pressOrRelease(KEY, false);
  assert.deepEqual(sentWords, ["press", "release", "press"]);
});

test("pressing a held key releases it, even while its first press is pending", async () => {
  const { presser, sentWords, deliverReport } = await createPresser();
  presser.pressOrRelease(KEY, true);
  presser.endPress(KEY.key);
  presser.pressOrRelease(KEY, false);
  presser.endPress(KEY.key);
  assert.deepEqual(sentWords, ["press", "release"]);
  assert.equal(deliverReport(1), true);
  assert.equal(deliverReport(4000), false);
  presser.pressOrRelease(KEY, true);
  presser.endPress(KEY.key);
  assert.equal(deliverReport(8000), true);
  presser.pressOrRelease(KEY, false);
  assert.deepEqual(sentWords, ["press", "release", "press", "release"]);
});

test("after its changes are forgotten, a key has the state that the bench reports", () => {
  const pendingKeys = new PendingKeys();
  const confirm = pendingKeys.addInTransit({ word: "press", key: matrixKey(0, 0) });
  assert.deepEqual([pendingKeys.willBeDown(matrixKey(0, 0), false), pendingKeys.willBeDown(matrixKey(0, 1), false)], [true, false]);
  pendingKeys.addInTransit({ word: "forget", key: matrixKey(0, 0) });
  assert.deepEqual([pendingKeys.willBeDown(matrixKey(0, 0), false), pendingKeys.willBeDown(matrixKey(0, 0), true)], [false, true]);
  confirm();
  assert.equal(pendingKeys.changesInTransit.length, 1);
});
