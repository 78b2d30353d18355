// Tests the transfer of the history from before a page reload to a new worker, on the page's WebAssembly module.
import assert from "node:assert/strict";
import { test } from "node:test";
import { StoredHistory } from "../page/session/stored_history.js";
import { openExample } from "./page_session.js";

const ALL_QUERIES = "state\nram 0\nlist 0 256\n";

/** Returns a stand-in for the browser's session storage that holds at most `maximum` characters. */
function createStore(maximum = 5000000) {
  const items = new Map();
  return {
    items,
    getItem: (key) => (items.has(key) ? items.get(key) : null),
    setItem: (key, value) => {
      if (value.length > maximum) throw new Error("no room");
      items.set(key, value);
    },
    removeItem: (key) => items.delete(key),
  };
}

/** Adds the report of a call to the history, as the page does. */
function addReport(history, calls, report = calls.bench.takePageState([], false)) {
  history.addReport(report.past, { file: calls.bench.session.file.slice(), total: report.total, reset: report.reset });
}

/** Executes lines on a page, which the user then leaves. Resolves to the page's calls, with the state after each line. */
async function leavePage(store, lines) {
  const calls = await openExample("three lamps");
  const history = new StoredHistory(store);
  history.handleSessionOpening("one");
  addReport(history, calls);
  const states = [calls.ask(ALL_QUERIES)];
  for (const sessionLines of lines) {
    addReport(history, calls, await calls.serve(sessionLines));
    states.push(calls.ask(ALL_QUERIES));
  }
  history.saveOnLeave();
  return { calls, states };
}

/** Resolves to the calls of another page that has reopened the session. */
async function reopenPage(store, { bench: { session: { file, count } } }, name = "one") {
  const calls = await openExample("three lamps");
  const history = new StoredHistory(store);
  history.handleSessionOpening(name);
  addReport(history, calls, calls.open(file.slice(), count.total, count.reset));
  return { calls, history, storedSegments: history.takeStoredSegments() };
}

/** Sends a copy of the history to the worker, as postMessage does. */
function sendHistory(calls, storedSegments) {
  return calls.restorePast(structuredClone(storedSegments));
}

const LINES = ["run 1000\n", "poke r5 9\npoke r6 3\n", "break 0x010\nrun 50000\n", "press 0 0\nrun 7\n", "step\n"];

test("going back reaches each stop from before a reload", async () => {
  const store = createStore();
  const { calls: callsBefore, states } = await leavePage(store, LINES);
  const { calls, history, storedSegments } = await reopenPage(store, callsBefore);
  assert.equal(storedSegments.length, 1);
  assert.ok(sendHistory(calls, storedSegments) >= 0);
  history.continueFrom(storedSegments, storedSegments[0].entries.length);
  addReport(history, calls, await calls.serve("run 20\n"));
  for (const state of states.slice().reverse()) {
    assert.equal((await calls.goBack({ kind: "stop" })).isDone, true);
    assert.deepEqual(calls.ask(ALL_QUERIES), state);
  }
  assert.equal((await calls.goBack({ kind: "stop" })).reason, "short");
  assert.equal(calls.bench.session.count.total, 0);
});

test("going back works across two reloads, also by instructions and to changes", async () => {
  const store = createStore();
  const { calls: callsBefore, states } = await leavePage(store, LINES);
  const secondPage = await reopenPage(store, callsBefore);
  sendHistory(secondPage.calls, secondPage.storedSegments);
  secondPage.history.continueFrom(secondPage.storedSegments, secondPage.storedSegments[0].entries.length);
  addReport(secondPage.history, secondPage.calls, await secondPage.calls.serve("run 3\n"));
  secondPage.history.saveOnLeave();
  const thirdPage = await reopenPage(store, secondPage.calls);
  assert.ok(sendHistory(thirdPage.calls, thirdPage.storedSegments) >= 0);
  assert.equal((await thirdPage.calls.findLastChange("r5")).isFound, true);
  assert.equal((await thirdPage.calls.goBack({ kind: "stop" })).isDone, true);
  assert.deepEqual(thirdPage.calls.ask(ALL_QUERIES), states[states.length - 1]);
  assert.equal((await thirdPage.calls.goBack({ kind: "instruction" })).isDone, true);
});

test("after going back, only the remaining past is stored", async () => {
  const store = createStore();
  const { calls } = await leavePage(store, LINES);
  const history = new StoredHistory(store);
  history.handleSessionOpening("one");
  addReport(history, calls, await calls.goBack({ kind: "stop" }));
  addReport(history, calls, await calls.serve("run 5\n"));
  history.saveOnLeave();
  const { calls: callsAfter, storedSegments } = await reopenPage(store, calls);
  assert.deepEqual(storedSegments.map(({ entries }) => entries.map(({ line }) => line)), [["run 5"]]);
  assert.ok(sendHistory(callsAfter, storedSegments) >= 0);
});

test("a history of another session or moment, a damaged one, or one that is too large is not used", async () => {
  const store = createStore();
  const { calls: callsBefore } = await leavePage(store, LINES);
  const storedText = store.items.get("fethsaim.past");
  assert.deepEqual((await reopenPage(store, callsBefore, "two")).storedSegments, []);
  store.setItem("fethsaim.past", storedText);
  const { storedSegments, calls } = await reopenPage(store, callsBefore);
  assert.equal(store.items.size, 0);
  await callsBefore.serve("poke r1 7\n");
  const laterPage = await reopenPage(createStore(), callsBefore);
  assert.equal(sendHistory(laterPage.calls, storedSegments), -1);
  assert.equal(sendHistory(calls, [{ ...storedSegments[0], file: storedSegments[0].file.map((byte) => byte ^ 1) }]), -1);
  assert.equal(sendHistory(calls, []), -1);
  const damagedTexts = [storedText.replace(/"entries":/, '"entry":'), storedText.replace(/"cycles":\d+/, '"cycles":"9"')];
  for (const damagedText of [storedText.slice(0, 500), "{}", "null", ...damagedTexts]) {
    store.setItem("fethsaim.past", damagedText);
    assert.deepEqual((await reopenPage(store, callsBefore)).storedSegments, []);
  }
  const smallStore = createStore(1000);
  await leavePage(smallStore, LINES);
  assert.equal(smallStore.items.size, 0);
  new StoredHistory(null).saveOnLeave();
});

test("if the saved session is older than the history, the later entries are ignored", async () => {
  const store = createStore();
  const { calls: callsBefore, states } = await leavePage(store, LINES.slice(0, 3));
  const { calls, storedSegments } = await reopenPage(store, callsBefore);
  const pokeEntry = { line: "poke r1 7", cycles: 0, resets: false, isStop: true };
  const missingEntries = [{ ...pokeEntry, line: "run 50", cycles: 50 }, pokeEntry];
  const entryCount = storedSegments[0].entries.length;
  storedSegments[0].entries.push({ ...pokeEntry, line: "poke r2 9" }, ...missingEntries);
  assert.equal(sendHistory(calls, storedSegments), entryCount);
  for (const state of states.slice(0, -1).reverse()) {
    assert.equal((await calls.goBack({ kind: "stop" })).isDone, true);
    assert.deepEqual(calls.ask(ALL_QUERIES), state);
  }
});

test("the last two files of a long history are stored", async () => {
  const calls = await openExample("three lamps");
  const history = new StoredHistory(createStore());
  history.handleSessionOpening("one");
  addReport(history, calls);
  for (let round = 0; round < 25; round++) addReport(history, calls, await calls.serve("run 100000\n".repeat(5)));
  assert.equal(history.segments.length, 2);
  const cycles = history.segments.map(({ entries }) => entries.reduce((sum, entry) => sum + entry.cycles, 0));
  assert.deepEqual([history.segments[0].total, cycles], [8000000, [4000000, 500000]]);
  const nextCalls = await openExample("three lamps");
  nextCalls.open(calls.bench.session.file.slice(), calls.bench.session.count.total, 0);
  assert.ok(sendHistory(nextCalls, history.segments) >= 0);
  assert.equal((await nextCalls.goBack({ kind: "stop" })).cycles, 500000);
});
