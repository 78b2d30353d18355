// Tests which part of the disassembly is shown. Its instruction boundaries must be consistent over all 4,096 bytes, up to the last one.

import assert from "node:assert/strict";
import test from "node:test";
import { ListingReader } from "../core/machine/listing_reader.js";
import { isInsideLine, visibleLines } from "../core/machine/listing_range.js";

/** Returns a function that returns a pseudo-random number below its argument. The same seed gives the same numbers. */
function createRandom(seed) {
  let state = seed;
  return (limit) => {
    state = (Math.imul(state, 1103515245) + 12345) & 0x7fffffff;
    return (state >> 8) % limit;
  };
}

/** Returns true if an opcode begins a two-byte instruction: JCN, FIM, JUN, JMS or ISZ. */
const hasTwoBytes = (code) => [1, 4, 5, 7].includes(code >> 4) || ((code >> 4) === 2 && code % 2 === 0);

const hex = (number, digits) => number.toString(16).toUpperCase().padStart(digits, "0");

/** Returns a stand-in for the bench that answers `list A N` from some bytes and counts the requests and the lines. */
function createFakeBench(bytes) {
  const requestCounts = { lists: 0, lines: 0 };
  const ask = async (lines) => {
    const [, start, count] = /^list (\d+) (\d+)\n$/.exec(lines).map(Number);
    assert.ok(count >= 1 && count <= 256 && start <= 4095, lines);
    const answers = [];
    for (let address = start; address < 4096 && answers.length < count;) {
      const size = hasTwoBytes(bytes[address]) && address < 4095 ? 2 : 1;
      const hexBytes = [...bytes.slice(address, address + size)].map((byte) => hex(byte, 2)).join(" ");
      answers.push(`${hex(address, 3)} ${hexBytes.padEnd(5)} NOP`);
      address += size;
    }
    requestCounts.lists += 1;
    requestCounts.lines += answers.length;
    return answers;
  };
  return { ask, requestCounts };
}

function createPrograms() {
  const random = createRandom(4004);
  const programs = [new Uint8Array(4096), new Uint8Array(4096).fill(0x40)];
  for (let count = 0; count < 8; count++) programs.push(Uint8Array.from({ length: 4096 }, () => random(256)));
  return programs;
}

/** Returns the addresses of the instructions of a program that begins at 000. */
function findInstructionAddresses(bytes) {
  const addresses = [];
  for (let address = 0; address < 4096; address += hasTwoBytes(bytes[address]) && address < 4095 ? 2 : 1) addresses.push(address);
  return addresses;
}

async function readLines(reader, from, anchor, rowCount) {
  return visibleLines(await reader.read({ from, anchor }, rowCount), from, rowCount);
}

test("a line begins at each anchor, and all rows have a line", async () => {
  const random = createRandom(1);
  for (const bytes of createPrograms()) {
    const reader = new ListingReader(createFakeBench(bytes).ask);
    const starts = findInstructionAddresses(bytes);
    for (let round = 0; round < 60; round++) {
      const rowCount = 5 + random(45);
      const counter = starts[random(starts.length)];
      const lines = await readLines(reader, Math.max(0, counter - Math.floor(rowCount / 2)), counter, rowCount);
      assert.equal(lines.length, rowCount);
      assert.ok(lines.some((line) => line.address === counter));
      assert.equal(isInsideLine(lines, counter), false);
    }
  }
});

test("scrolling page by page shows each instruction", async () => {
  for (const bytes of createPrograms()) {
    const rowCount = 21;
    const reader = new ListingReader(createFakeBench(bytes).ask);
    let lines = await readLines(reader, 0, 0, rowCount);
    const shownAddresses = new Set();
    for (let page = 0; page < 400; page++) {
      for (const { address } of lines) shownAddresses.add(address);
      const nextAddress = lines[lines.length - 1].address;
      if (lines[0].address === nextAddress || nextAddress + 1 + Number(hasTwoBytes(bytes[nextAddress])) > 4095) break;
      lines = await readLines(reader, nextAddress, nextAddress, rowCount);
    }
    assert.deepEqual([...shownAddresses].filter((address) => address === 0 || address >= 4094).length > 1, true);
    assert.deepEqual(findInstructionAddresses(bytes).slice(0, -rowCount).filter((address) => !shownAddresses.has(address)), []);
    const lastLine = lines[lines.length - 1];
    assert.ok(lastLine.address + Number(hasTwoBytes(bytes[lastLine.address])) >= 4095);
  }
});

test("at the end of ROM, the last lines fill the rows", async () => {
  for (const bytes of createPrograms()) {
    const reader = new ListingReader(createFakeBench(bytes).ask);
    for (const rowCount of [1, 7, 40]) {
      const lines = await readLines(reader, 4095, null, rowCount);
      assert.equal(lines.length, rowCount);
      const { address } = lines[rowCount - 1];
      assert.ok(address + (hasTwoBytes(bytes[address]) && address < 4095 ? 2 : 1) === 4096);
    }
  }
});

test("the bench is asked for only a few more lines than are shown", async () => {
  const random = createRandom(2);
  for (const bytes of createPrograms()) {
    const { ask, requestCounts } = createFakeBench(bytes);
    const reader = new ListingReader(ask);
    for (let round = 0; round < 50; round++) await readLines(reader, random(4096), null, 20);
    assert.deepEqual([requestCounts.lists, requestCounts.lines <= 50 * 60], [50, true]);
  }
});

test("an address inside a line is detected", () => {
  const lines = [{ address: 4, line: "" }, { address: 6, line: "" }, { address: 7, line: "" }];
  assert.deepEqual([3, 4, 5, 6, 7, 8].map((address) => isInsideLine(lines, address)), [false, false, true, false, false, false]);
  assert.equal(isInsideLine([], 0), false);
});
