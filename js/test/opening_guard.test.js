// Tests the detection of sessions whose last opening did not end.
import assert from "node:assert/strict";
import { test } from "node:test";
import { OpeningGuard } from "../page/session/opening_guard.js";

/** Returns stand-ins for the browser's local storage, clock and timers. The timers fire when the test requests it. */
function createFakeBrowser() {
  const entries = new Map();
  const timers = [];
  const store = {
    getItem: (key) => (entries.has(key) ? entries.get(key) : null),
    setItem: (key, value) => entries.set(key, value),
    removeItem: (key) => entries.delete(key),
  };
  let time = 1e12;
  const createGuard = () => new OpeningGuard(store, (callback) => timers.push(callback), () => time);
  const wait = (milliseconds) => { time += milliseconds; };
  return { createGuard, entries, wait, fireTimers: () => timers.splice(0).forEach((act) => act()) };
}

test("a finished opening leaves no record, even if it failed", async () => {
  const { createGuard, entries, wait, fireTimers } = createFakeBrowser();
  const guard = createGuard();
  await guard.runOpening("one", async () => {
    wait(3000);
    assert.equal(createGuard().hasUnfinishedOpening("one"), true);
  });
  assert.equal(createGuard().hasUnfinishedOpening("one"), true);
  await assert.rejects(guard.runOpening("two", async () => { throw new Error("no 51"); }), /no 51/);
  fireTimers();
  assert.deepEqual([entries.size, createGuard().hasUnfinishedOpening("one"), createGuard().hasUnfinishedOpening("two")], [0, false, false]);
});

test("an unfinished opening is detected at the next start, and forgotten after a successful one", async () => {
  const { createGuard, entries, wait, fireTimers } = createFakeBrowser();
  createGuard().runOpening("one", () => new Promise(() => {}));
  await createGuard().runOpening("two", async () => {});
  fireTimers();
  wait(3000);
  assert.deepEqual([createGuard().hasUnfinishedOpening("one"), createGuard().hasUnfinishedOpening("two")], [true, false]);
  await createGuard().runOpening("one", async () => {});
  fireTimers();
  assert.equal(entries.size, 0);
});

test("leaving the page soon is not a sign of a hang; leaving it later can be", () => {
  const { createGuard, wait } = createFakeBrowser();
  const guard = createGuard();
  guard.runOpening("one", () => new Promise(() => {}));
  guard.handleLeave();
  wait(3000);
  assert.equal(createGuard().hasUnfinishedOpening("one"), false);
  guard.runOpening("two", () => new Promise(() => {}));
  wait(3000);
  guard.handleLeave();
  assert.equal(createGuard().hasUnfinishedOpening("two"), true);
});

test("leaving the page after a finished opening is not a sign of a hang, even after a long opening", async () => {
  const { createGuard, wait } = createFakeBrowser();
  const guard = createGuard();
  await guard.runOpening("one", async () => wait(3000));
  guard.handleLeave();
  assert.equal(createGuard().hasUnfinishedOpening("one"), false);
});

test("each of two events reports that the page is left, because a browser can omit one", async () => {
  for (const name of ["beforeunload", "pagehide"]) {
    const { createGuard, wait } = createFakeBrowser();
    const guard = createGuard();
    const target = new EventTarget();
    guard.listen(target);
    assert.equal(guard.pendingOpenings.size, 0);
    await guard.runOpening("one", async () => {});
    target.dispatchEvent(new Event(name));
    wait(3000);
    assert.equal(createGuard().hasUnfinishedOpening("one"), false, name);
  }
});

test("a recent opening can be in progress in another tab", () => {
  const { createGuard, wait } = createFakeBrowser();
  createGuard().runOpening("one", () => new Promise(() => {}));
  wait(1999);
  assert.equal(createGuard().hasUnfinishedOpening("one"), false);
  wait(1);
  assert.equal(createGuard().hasUnfinishedOpening("one"), true);
});

test("if a session is opened twice, only its last opening counts", async () => {
  const { createGuard, wait, fireTimers } = createFakeBrowser();
  const guard = createGuard();
  await guard.runOpening("one", async () => {});
  guard.pendingOpenings.set("one", { time: 0, isEnded: false });
  fireTimers();
  wait(3000);
  assert.equal(createGuard().hasUnfinishedOpening("one"), true);
});

test("sessions can be opened in a browser without storage", async () => {
  const throwSecurityError = () => { throw new DOMException("", "SecurityError"); };
  for (const store of [null, { getItem: throwSecurityError, setItem: throwSecurityError, removeItem: throwSecurityError }]) {
    const guard = new OpeningGuard(store, (act) => act());
    let isOpen = false;
    await guard.runOpening("one", async () => { isOpen = true; });
    assert.deepEqual([isOpen, guard.hasUnfinishedOpening("one")], [true, false]);
  }
});
