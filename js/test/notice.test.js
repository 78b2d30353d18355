// Tests which notices are removed when a new one appears.
import assert from "node:assert/strict";
import { test } from "node:test";
import { findNoticesToRemove } from "../page/ui/notice.js";

/** Returns the kinds of the notices that are removed from a list. `kinds` has the kinds of all notices in the list, newest first. */
const findKindsToRemove = (...kinds) => findNoticesToRemove(kinds.map((kind) => ({ kind }))).map(({ kind }) => kind);

test("the newest three notices are shown", () => {
  assert.deepEqual(findKindsToRemove(), []);
  assert.deepEqual(findKindsToRemove("undo", "undo", "file"), []);
  assert.deepEqual(findKindsToRemove("undo", "undo", "left", "file"), ["file"]);
});

test("notices of success are removed before notices of failure", () => {
  assert.deepEqual(findKindsToRemove("session", "undo", "refusal", "saveError"), ["undo"]);
  assert.deepEqual(findKindsToRemove("undo", "refusal", "session", "saveError"), ["saveError"]);
});

test("the newest notice stays, whatever its kind", () => {
  assert.deepEqual(findKindsToRemove("undo", "unopened", "unopened", "unopened"), ["unopened"]);
});
