import assert from "node:assert/strict";
import { test } from "node:test";
import { SourceSync } from "../core/machine/source_sync.js";

const TEXT = "on = 12\ngo: JMS put\n\nput: BBL 0\n";
const MAP = ["map lines 4 names 3", "line 1 000 0", "line 2 000 2", "line 3 002 0", "line 4 002 1", "name on 00C", "name go 000",
  "name put 002"];
const MATCHING_CHECK = { map: MAP, refusal: null, difference: null };

/** Returns a `SourceSync` with stand-ins for the editor and the bench. The test sets the text and the result of the check in `current`. */
function createSync(text, checkResult) {
  const log = { nextLines: [], addresses: [], revealedLines: [], changes: [], checkCount: 0 };
  const current = { text, checkResult };
  const sync = new SourceSync({
    text: () => current.text,
    check: async () => {
      log.checkCount += 1;
      return current.checkResult;
    },
    onChange: (map, reason) => log.changes.push([map !== null, reason]),
    describeRefusal: (number) => `words of ${number}`,
  });
  sync.editor = {
    showNextInstruction: (line) => log.nextLines.push(line),
    showAddresses: (addresses) => log.addresses.push(addresses),
    reveal: (line) => log.revealedLines.push(line),
  };
  return { sync, log, current };
}

test("if ROM matches the source, the next line is shown while time is paused", async () => {
  const { sync, log } = createSync(TEXT, MATCHING_CHECK);
  await sync.check();
  assert.deepEqual(log.changes, [[true, ""]]);
  assert.deepEqual(log.addresses, [["", "000", "", "002"]]);
  for (const [counter, isRunning] of [[0, false], [0, false], [2, false], [2, true], [0, true], [1, false], [9, false]]) {
    sync.showNextInstruction(counter, isRunning);
  }
  assert.deepEqual(log.nextLines, [2, 4, 0, 2, 0]);
});

test("the line of an address is scrolled into view", async () => {
  const { sync, log } = createSync(TEXT, MATCHING_CHECK);
  sync.reveal(2);
  await sync.check();
  for (const address of [2, 9, 0]) sync.reveal(address);
  assert.deepEqual(log.revealedLines, [4, 2]);
});

test("after a text was put into the editor, the marks are shown again, even if it is the same text", async () => {
  const { sync, log } = createSync(TEXT, MATCHING_CHECK);
  await sync.check();
  sync.showNextInstruction(0, false);
  sync.forget();
  await sync.check();
  sync.showNextInstruction(0, false);
  assert.deepEqual(log.changes, [[true, ""], [false, ""], [true, ""]]);
  assert.deepEqual([log.addresses.length, log.nextLines], [2, [2, 2]]);
});

test("an unchanged result is not shown again", async () => {
  const { sync, log } = createSync(TEXT, MATCHING_CHECK);
  await sync.check();
  await sync.check();
  assert.equal(log.changes.length, 1);
});

test("the first difference between the source and ROM is reported", async () => {
  const { sync, log } = createSync(TEXT, { map: MAP, refusal: null, difference: { address: 2, hasRom: true } });
  await sync.check();
  const message = "Source and ROM differ from line 4 (0x002). Assemble to update.";
  assert.deepEqual(log.changes, [[false, message]]);
  sync.showNextInstruction(0, false);
  assert.deepEqual(log.nextLines, []);
});

test("a source with errors, or without a ROM for its bytes, is reported", async () => {
  const { sync, log, current } = createSync("NOP x\n", { map: [], refusal: { number: 30, line: 1 }, difference: null });
  await sync.check();
  current.checkResult = { map: [], refusal: { number: 13, line: 0 }, difference: null };
  await sync.check();
  current.text = ".\n";
  current.checkResult = { map: [], refusal: { number: 0, line: 1 }, difference: null };
  await sync.check();
  current.checkResult = { map: MAP, refusal: null, difference: { address: 2, hasRom: false } };
  await sync.check();
  assert.deepEqual(log.changes.map(([, reason]) => reason), ["The source has an error on line 1: no 30: words of 30.",
    "The source has an error: no 13: words of 13.", "The source has an error on line 1: a line with only a dot ends the text.",
    "The board has no ROM at 0x002, where line 4 of the source goes."]);
});

test("an edited source is checked again on request", async () => {
  const { sync, log, current } = createSync(TEXT, MATCHING_CHECK);
  await sync.waitForCheck();
  await sync.waitForCheck();
  current.text = `\n${TEXT}`;
  current.checkResult = { ...MATCHING_CHECK,
    map: ["map lines 5 names 0", "line 1 000 0", "line 2 000 0", "line 3 000 2", "line 4 002 0", "line 5 002 1"] };
  await sync.waitForCheck();
  assert.deepEqual([log.checkCount, sync.map.addressOf(5)], [2, 2]);
});

test("an empty source is not a program", async () => {
  const { sync, log } = createSync("", { map: ["map lines 0 names 0"], refusal: null, difference: null });
  await sync.check();
  assert.deepEqual(log.changes, [[false, ""]]);
});

test("names have a description", async () => {
  const { sync } = createSync(TEXT, MATCHING_CHECK);
  assert.equal(sync.meaningOf("on"), "");
  await sync.check();
  assert.deepEqual(["on", "put", "JMS", "constructor"].map((word) => sync.meaningOf(word)), ["on = 0x0C, 12", "put: address 0x002, line 4",
    "", ""]);
});
