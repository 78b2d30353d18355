// Tests the search for values and edges in a recording. The expected results were calculated manually or come from the bench's reports.
import assert from "node:assert/strict";
import { test } from "node:test";
import { Waves } from "../core/waves/wave_recording.js";
import { findMatch, parseSearch } from "../core/waves/wave_search.js";
import { findLineByName } from "../core/waves/trigger.js";
import { openExample, examplesOfPage } from "./page_session.js";

const createLine = (name, kind, changes = {}) => (
  { name, title: "", group: "", kind, places: [], members: [], width: 1, columns: 0, ...changes });
const LINES = [
  createLine("rom0.0", "level"), createLine("rom0.1", "level"), createLine("lamp.minus", "level", { group: "lamps" }),
  createLine("lamp1", "level", { group: "lamps", title: "over.flow" }), createLine("key.7", "key", { group: "keys" }),
  createLine("rom0[1:0]", "port", { members: [0, 1], width: 2, title: "to the chain" }), createLine("r5", "value", { width: 4 }),
  createLine("pc", "pc", { width: 12 }), createLine("label", "label", { width: 16 }),
];
const createBitTrack = (moments) => ({ first: 0, moments: Uint32Array.from(moments), values: null });
const EMPTY_TRACK = { first: 0, moments: new Uint32Array(0), values: new Uint16Array(0) };

function createWaves() {
  const r5 = { first: 9, moments: Uint32Array.of(10, 20, 30), values: Uint16Array.of(3, 9, 12) };
  return new Waves({
    from: 0, cycles: 50, isStuck: false, isOwed: false, lines: LINES,
    tracks: [...[[5, 25], [15], [7], [], [8]].map(createBitTrack), EMPTY_TRACK, r5, EMPTY_TRACK, EMPTY_TRACK],
    moments: Uint32Array.of(0, 20, 40), counters: Uint16Array.of(0, 0x10, 0x12), listing: [],
    program: { text: "", lines: new Uint16Array(4096), labels: [{ address: 0, name: "begin" }, { address: 0x10, name: "next" }] },
  });
}

test("lines are found by their common names", () => {
  const findName = (text) => LINES[findLineByName(text, LINES)]?.name;
  assert.deepEqual(["rom0.1", "ROM0 1", "rom0", "to the chain"].map(findName), ["rom0.1", "rom0.1", "rom0[1:0]", "rom0[1:0]"]);
  assert.deepEqual(["lamp 0", "minus", "lamp minus"].map(findName), Array(3).fill("lamp.minus"));
  assert.deepEqual(["lamp 1", "over.flow"].map(findName), ["lamp1", "lamp1"]);
  assert.deepEqual(["7", "key 7", "r5"].map(findName), ["key.7", "key.7", "r5"]);
  assert.deepEqual(["lamp 2", "rom1", "", "r"].map(findName), [undefined, undefined, undefined, undefined]);
});

test("values and edges are found in both directions", () => {
  const waves = createWaves();
  const markedLine = 6;
  const findAll = (text, isForward = true) => {
    const { search, error } = parseSearch(text, waves, markedLine);
    assert.equal(error, "", text);
    const moments = [];
    const findNext = (/** @type {number} */ from) => findMatch(waves, search, from, isForward);
    for (let moment = findNext(isForward ? 0 : 50); moment >= 0; moment = findNext(moment)) {
      moments.push(moment);
    }
    return moments;
  };
  assert.deepEqual([findAll("9"), findAll("9", false), findAll("0x9"), findAll("0b1001")], [[20], [20, 0], [20], [20]]);
  assert.deepEqual(["r5 = 3", "r5=3", "r5 != 3", "r5 > 8"].map((text) => findAll(text)), [[10], [10], [20], [20]]);
  assert.deepEqual(findAll("r5 > 8", false), [20, 0]);
  assert.deepEqual([findAll("changes"), findAll("r5 changes", false)], [[10, 20, 30], [30, 20, 10]]);
  assert.deepEqual(["rom0.0 rises", "rom0.0 falls", "minus rises", "rom0.0 = 1"].map((text) => findAll(text)), [[5], [25], [7], [5]]);
  assert.deepEqual([findAll("rom0 = 3"), findAll("rom0 changes"), findAll("rom0 = 1")], [[15], [5, 15, 25], [5]]);
  assert.deepEqual([findAll("@next"), findAll("pc = next"), findAll("pc = 0x12"), findAll("label = next")], [[20], [20], [40], [20]]);
  assert.deepEqual(findAll("@begin", false), [0]);
});

test("invalid searches are rejected with a reason", () => {
  const waves = createWaves();
  const errorOf = (text, markedLine = 6) => parseSearch(text, waves, markedLine).error;
  assert.match(errorOf(""), /^Enter a search: a value of the selected row/);
  assert.match(errorOf("A"), /^A is not a number such as 10, 0x0A or 0b1010/);
  assert.equal(errorOf("16"), "r5 has 4 bits: its value is at most 15.");
  assert.equal(errorOf("2", 0), "rom0.0 has 1 bit: its value is at most 1.");
  assert.equal(errorOf("r9 = 3"), "Nothing that was recorded is called r9: select it and record again.");
  assert.equal(errorOf("r5 rises"), "r5 is a number: search for a change, or for a value such as = 5.");
  assert.equal(errorOf("@nowhere"), "The program of this recording has no label nowhere.");
  assert.equal(errorOf("3", -1), "No row is selected: click one first.");
});

test("an edge found in two million cycles is the one that the bench reports", async () => {
  const { board, program } = examplesOfPage.find((example) => example.name === "stopwatch");
  const calls = await openExample("stopwatch", "test 0\n");
  const waves = new Waves(await calls.record(2000000, false, { board, program, values: ["r4"] }));
  const findMoment = (text, moment, isForward) => findMatch(waves, parseSearch(text, waves, -1).search, moment, isForward);
  const firstEdge = findMoment("lamp15 rises", 0, true);
  assert.ok(findMoment("lamp15 rises", 2000000, false) > 1990000);
  assert.equal(findMoment("pc = 0xFFF", 0, true), -1);
  const [answer] = calls.ask(`trace ${firstEdge} lamps\n`).slice(-1);
  assert.equal(Number(answer.split(" ")[0]) + 1, firstEdge);
});
