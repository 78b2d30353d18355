import assert from "node:assert/strict";
import { test } from "node:test";
import { findDefinition, findRenamingError, nameAt, findReferences } from "../core/text/references.js";
import { toggleComments } from "../core/text/sendable_text.js";

const LINES = ["count = 5", "loop:\tFIM P0, loop ; loop", "\tJUN loop", "\tLDM count", "\tLDM 5 ; count"];
const isInstruction = (/** @type {string} */ word) => ["JUN", "LDM", "FIM"].includes(word);

test("the references and the definition of a name are found", () => {
  assert.deepEqual(findReferences(LINES, "loop"), [
    { line: 2, from: 0, to: 4, isDefinition: true }, { line: 2, from: 14, to: 18, isDefinition: false },
    { line: 3, from: 5, to: 9, isDefinition: false },
  ]);
  assert.deepEqual(findDefinition(LINES, "count"), { line: 1, from: 0, to: 5, isDefinition: true });
  assert.equal(findDefinition(LINES, "none"), null);
});

test("the name at a position is found", () => {
  assert.equal(nameAt(LINES, 2, 7), "loop");
  assert.equal(nameAt(LINES, 3, 7), "count");
  assert.equal(nameAt(LINES, 3, 2), "");
  assert.equal(nameAt(LINES, 4, 11), "");
  assert.equal(nameAt(["\tJUN away"], 0, 6), "");
  assert.equal(nameAt([], 0, 0), "");
});

test("a new name must be valid", () => {
  const renamingErrorOf = (/** @type {string} */ newName) => findRenamingError(LINES, "loop", newName, isInstruction);
  assert.equal(renamingErrorOf("again"), "");
  assert.equal(renamingErrorOf("loop"), "");
  assert.match(renamingErrorOf("9"), /does not begin with a digit/);
  assert.match(renamingErrorOf("a_name_of_17_long"), /at most 16 characters; this has 17/);
  assert.equal(renamingErrorOf("jun"), "jun is an instruction.");
  assert.equal(renamingErrorOf("WPM"), "WPM is an instruction.");
  assert.equal(renamingErrorOf("db"), "db is an instruction.");
  assert.equal(renamingErrorOf("R5"), "R5 is a register.");
  assert.equal(renamingErrorOf("count"), "count is already defined on line 1.");
});

test("lines can be commented and uncommented", () => {
  const lines = ["\tLDM 1", "", "x: NOP"];
  const comments = ["; \tLDM 1", "", "; x: NOP"];
  assert.deepEqual(toggleComments(lines, ";"), comments);
  assert.deepEqual(toggleComments(comments, ";"), lines);
  assert.deepEqual(toggleComments(["\t;NOP"], ";"), ["\tNOP"]);
  assert.deepEqual(toggleComments([""], "#"), [""]);
});
