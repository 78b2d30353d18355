import assert from "node:assert/strict";
import { test } from "node:test";
import { findLiveReturns, addressOfCall, describeProgramCounter, describeReturn } from "../core/machine/return_addresses.js";
import { SourceMap } from "../core/machine/source_map.js";

// docs/MANUAL.md: JMS stores the address after its two bytes as the newest return address. After BBL, the oldest return address is the
// address that follows BBL.
const TEXT = "go: JMS one\n\tJUN go\none: FIM P0, 0x50\n\tBBL 0\n\tNOP\n";
const MAP = new SourceMap(["map lines 5 names 2", "line 1 000 2", "line 2 002 2", "line 3 004 2", "line 4 006 1", "line 5 007 1",
  "name go 000", "name one 004"], TEXT);

test("a return address without a call is stale, and so are all older ones", () => {
  assert.deepEqual(findLiveReturns([2, 2, 0], ["50", "50", "00"], null), [true, true, false]);
  assert.deepEqual(findLiveReturns([6, 2, 0], ["20", "50", "00"], null), [false, false, false]);
  assert.deepEqual(findLiveReturns([2, 2, 2], ["50", "50", "50"], null), [true, true, true]);
});

test("a byte that looks like a JMS does not count if the program has none there", () => {
  // The address after the BBL at 006 is 007. The byte at 005 is the second byte of FIM, 50.
  assert.deepEqual(findLiveReturns([7, 0, 0], ["50", "00", "00"], null), [true, false, false]);
  assert.deepEqual(findLiveReturns([7, 0, 0], ["50", "00", "00"], MAP), [false, false, false]);
  assert.deepEqual(findLiveReturns([2, 0, 0], ["50", "00", "00"], MAP), [true, false, false]);
  // A return address outside the program is live if the ROM byte of its call looks like a JMS.
  assert.deepEqual(findLiveReturns([0x102, 0, 0], ["5F", "00", "00"], MAP), [true, false, false]);
});

test("the address of the call is two bytes before the return address, also across the end of ROM", () => {
  assert.deepEqual([2, 1, 0].map(addressOfCall), [0, 0xFFF, 0xFFE]);
});

test("the counter and return addresses are described", () => {
  assert.deepEqual(describeProgramCounter(5, MAP), { isLive: true, description: "one + 1, line 3", title: "one: FIM P0, 0x50" });
  assert.equal(describeProgramCounter(9, MAP).description, "");
  assert.equal(describeProgramCounter(5, null).description, "");
  assert.deepEqual(describeReturn(2, true, MAP), { isLive: true, description: "go + 2, call on line 1", title: "go: JMS one" });
  assert.equal(describeReturn(2, true, null).description, "");
  assert.equal(describeReturn(2, false, MAP).description, "stale");
});
