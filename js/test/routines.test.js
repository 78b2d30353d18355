// Tests the analysis of a program's routines: the lines that each one reaches, the routines that it calls, and its callers.
import assert from "node:assert/strict";
import { test } from "node:test";
import { Routines } from "../core/text/routines.js";

const TEXT = `
        ORG 0
        JUN main
table:  DB 1, 2
main:   JMS show
        JMS read
        JCN 4, main
        JUN main
show:   SRC P0
        BBL 0
other:  JMS read
        JIN P0
read:   LDM 1
loop:   ISZ R0, loop
        JMS show
        BBL 1
unused: NOP
four = 4
        LDM four
`.split("\n");
const routines = new Routines(TEXT);
const describeCalls = (calls) => calls.map(({ routine, places }) => `${routine.name} ${places.map(({ line }) => line).join(",")}`);

test("routines begin at the start of the program and at called labels", () => {
  assert.deepEqual(routines.routines.map(({ name, line, last }) => [name, line, last]), [["", 2, 2], ["show", 8, 9], ["read", 12, 15]]);
});

test("the called routines and the callers of a routine are found", () => {
  assert.deepEqual(describeCalls(routines.findCalledRoutines(routines.routines[0])), ["show 4", "read 5"]);
  assert.deepEqual(describeCalls(routines.findCalledRoutines(routines.getByName("read"))), ["show 14"]);
  assert.deepEqual(describeCalls(routines.findCallers(routines.getByName("show"))), [" 4", "read 14"]);
  assert.deepEqual(describeCalls(routines.findCallers(routines.getByName("read"))), [" 5", "other 10"],
    "an unreachable call belongs to the label before it");
  assert.deepEqual(describeCalls(routines.findCallers(routines.getByName("unused"))), []);
});

test("the routine at a line is found, and references to labels are counted", () => {
  assert.equal(routines.routineAt(13).name, "read");
  assert.equal(routines.routineAt(4).name, "");
  assert.equal(routines.routineAt(10), null);
  assert.equal(routines.getByName("four"), null);
  assert.equal(routines.getByName("none"), null);
  const useCounts = routines.countUses();
  assert.deepEqual([useCounts.get("show"), useCounts.get("loop"), useCounts.get("unused"), useCounts.has("four")],
    [{ calls: 2, otherUses: 0 }, { calls: 0, otherUses: 1 }, { calls: 0, otherUses: 0 }, false]);
});

test("a text without statements has no routine, and a single instruction is a routine", () => {
  assert.deepEqual(new Routines([""]).routines, []);
  assert.deepEqual(new Routines(["a: JMS a"]).routines.map(({ name }) => name), ["a"]);
  assert.deepEqual(describeCalls(new Routines(["a: JMS a"]).findCallers(new Routines(["a: JMS a"]).routines[0])), ["a 0"]);
});
