// Tests the parsing of answers to `map`, as docs/MANUAL.md describes them.
import assert from "node:assert/strict";
import { test } from "node:test";
import { SourceMap } from "../core/machine/source_map.js";

const TEXT = `; a comment
time = 0x0C
go:     JMS wait        ; three bytes are below
        DB 1, 2, 3
last : NOP`;
const ANSWERS = ["map lines 5 names 3", "line 1 000 0", "line 2 000 0", "line 3 000 2", "line 4 002 3", "line 5 005 1", "name time 00C",
  "name go 000", "name last 005"];

test("a line has an address if it puts bytes into ROM", () => {
  const map = new SourceMap(ANSWERS, TEXT);
  assert.equal(map.lineCount, 5);
  assert.deepEqual([1, 2, 3, 4, 5, 6].map((line) => map.addressOf(line)), [undefined, undefined, 0, 2, 5, undefined]);
});

test("an address belongs to the line that puts its byte into ROM", () => {
  const map = new SourceMap(ANSWERS, TEXT);
  assert.deepEqual([0, 1, 2, 3, 4, 5, 6, 4095].map((address) => map.lineOf(address)), [3, 3, 4, 4, 4, 5, 0, 0]);
  assert.deepEqual([0, 1, 2, 5].map((address) => map.beginsInstruction(address)), [true, false, false, true]);
});

test("names have their values, and the labels are distinguished", () => {
  const map = new SourceMap(ANSWERS, TEXT);
  assert.deepEqual([...map.names.values()], [{ name: "time", value: 12, isLabel: false }, { name: "go", value: 0, isLabel: true },
    { name: "last", value: 5, isLabel: true }]);
  assert.deepEqual(["time", "go", "gone"].map((name) => map.findValue(name)), [12, 0, undefined]);
});

test("an address is named by its label, or by the nearest one below it", () => {
  const map = new SourceMap(ANSWERS, TEXT);
  assert.deepEqual([0, 2, 5, 6, 4095].map((address) => map.nameOf(address)), ["go", "go + 2", "last", "", ""]);
  assert.deepEqual([0, 2].map((address) => map.labelsAt(address)), [["go"], []]);
});

test("bytes without a label have no name from an earlier block of bytes", () => {
  const text = "one: NOP\ntwo:\nmore: NOP\n ORG 0x10\n NOP\n ORG 0xFFF\n NOP\nend:\n";
  const map = new SourceMap(["map lines 8 names 4", "line 1 000 1", "line 2 001 0", "line 3 001 1", "line 4 002 0", "line 5 010 1",
    "line 6 011 0", "line 7 FFF 1", "line 8 1000 0", "name one 000", "name two 001", "name more 001", "name far 010"], text);
  assert.deepEqual([0, 1, 2, 16, 4095, 4096].map((address) => map.nameOf(address)), ["one", "two", "", "", "", ""]);
  assert.deepEqual(map.labelsAt(1), ["two", "more"]);
  assert.equal(map.addressOf(8), undefined);
});

test("an empty program has no lines", () => {
  const map = new SourceMap(["map lines 0 names 0"], "");
  assert.equal(map.lineCount, 0);
  assert.equal(map.lineOf(0), 0);
  assert.equal(map.nameOf(0), "");
});
