import assert from "node:assert/strict";
import { execFileSync } from "node:child_process";
import { test } from "node:test";
import {
  readCellDescriptions, findMatchingLines, readInstructions, readLineForms, splitCell, cellText, searchManual, describeCell,
} from "../core/help/manual.js";

const SCRIPT = "import json; from manual_tables import manual_tables; print(json.dumps(manual_tables()))";
const PAGE = new URL("../../page/", import.meta.url);
const MANUAL = JSON.parse(execFileSync("python3", ["-B", "-c", SCRIPT], { cwd: PAGE, encoding: "utf8" }));

test("a cell is split into text and code", () => {
  assert.deepEqual(splitCell("`wire`, then a text"), [{ text: "wire", isCode: true }, { text: ", then a text", isCode: false }]);
  assert.equal(cellText("`ram b` and `lamps`"), "ram b and lamps");
});

test("all 45 instructions are read, each with its cycles", () => {
  const instructions = readInstructions(MANUAL);
  assert.equal(instructions.size, 45);
  assert.deepEqual([...instructions.values()].filter(({ cycles }) => cycles === "2").map(({ form }) => form.split(" ")[0]),
    ["JCN", "FIM", "FIN", "JUN", "JMS", "ISZ"]);
  assert.equal(instructions.get("RD3").code, "EC to EF");
});

test("a session line is found by its beginning", () => {
  const lines = readLineForms(MANUAL);
  const formsOf = (text) => findMatchingLines(lines, text).map(({ form }) => form);
  assert.deepEqual(formsOf("r"), ["release r c", "run n", "reset", "regs", "ram b"]);
  assert.deepEqual(formsOf("run 100"), ["run n"]);
  assert.deepEqual(formsOf(""), []);
  assert.deepEqual(formsOf("runs 3"), []);
});

test("a search finds rows, and whole sections by their titles", () => {
  const sections = searchManual(MANUAL, "decimal adjust");
  assert.deepEqual(sections.map(({ title }) => title), ["The 45 instructions"]);
  assert.equal(sections[0].tables.length, 1);
  assert.equal(sections[0].tables[0].rows.length, 1);
  assert.deepEqual(searchManual(MANUAL, "zzz"), []);
  assert.equal(searchManual(MANUAL, "PLACES").find(({ title }) => title === "Places").tables[0].rows.length, 8);
  assert.equal(searchManual(MANUAL, "").length, MANUAL.length);
});

test("cells of the page have descriptions", () => {
  const words = readCellDescriptions(MANUAL);
  for (const name of ["acc", "owed", "dcl", "ret 3", "R", "latch", "SRC, ROMs"]) assert.ok(words.has(name), name);
  assert.equal(describeCell(words, "R15"), words.get("R"));
  assert.equal(describeCell(words, "bank 3"), words.get("bank"));
  assert.equal(describeCell(words, "lines 3 to 0"), "");
});
