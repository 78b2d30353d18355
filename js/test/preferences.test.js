// Tests the user's preferences with a working store and with stores that fail.

import assert from "node:assert/strict";
import test from "node:test";
import { Preferences } from "../page/ui/preferences.js";

/** Returns a stand-in for the browser's local storage, in memory. */
function createFakeStore(text = null) {
  const store = { text, getItem: () => store.text, setItem: (key, value) => { store.text = value; } };
  return store;
}

test("a preference is stored for the next visit", () => {
  const store = createFakeStore();
  new Preferences(store).set("fold.memory", "folded");
  const reloadedPreferences = new Preferences(store);
  assert.equal(reloadedPreferences.get("fold.memory"), "folded");
  assert.equal(reloadedPreferences.get("fold.ports"), "");
});

test("two tabs keep each other's preferences", () => {
  const store = createFakeStore();
  const [firstPreferences, secondPreferences] = [new Preferences(store), new Preferences(store)];
  firstPreferences.set("text", "board");
  secondPreferences.set("fold.talk", "folded");
  const reloadedPreferences = new Preferences(store);
  assert.deepEqual([reloadedPreferences.get("text"), reloadedPreferences.get("fold.talk")], ["board", "folded"]);
});

test("preferences work without a store if it is missing, blocked or damaged", () => {
  const blockedStore = { getItem: () => { throw new Error("SecurityError"); }, setItem: () => { throw new Error("SecurityError"); } };
  for (const store of [null, blockedStore, createFakeStore("{broken"), createFakeStore("null"), createFakeStore("[1]"),
    createFakeStore('{"text":7}')]) {
    const preferences = new Preferences(store);
    assert.equal(preferences.get("text"), "");
    preferences.set("text", "board");
    assert.equal(preferences.get("text"), "board");
  }
});

test("names of JavaScript object members have no value", () => {
  assert.equal(new Preferences(null).get("toString"), "");
});
