// Tests the visible part of a recording, and the messages about it.
import assert from "node:assert/strict";
import { test } from "node:test";
import { findFlagLeft } from "../page/waves/wave_canvas.js";
import { WaveWindow, chooseTickMoments } from "../core/waves/wave_window.js";
import {
  describeDistance, describeCursor, cyclesText, instructionText, parseCycleCount, describeRecording, describeForScreenReader, valueText,
} from "../core/waves/wave_words.js";
import { Waves } from "../core/waves/wave_recording.js";

/** Returns a recording of one line that changes at the given moments. */
function createWaves(changes, cycles) {
  return new Waves({
    from: 0, cycles, isStuck: false,
    lines: [{ name: "test", title: "", group: "test", kind: "test", places: [], members: [], width: 1 }],
    tracks: [{ first: 1, moments: Uint32Array.from(changes), values: null }],
    moments: Uint32Array.of(0, 1, 3), counters: Uint16Array.of(0, 1, 2), isOwed: false,
    listing: [[0, "000 D5    LDM 5"], [1, "001 40 00 JUN 0x000"], [2, "002 00    NOP"]], program: null,
  });
}

function createWindow(cycles, width) {
  const view = new WaveWindow(cycles);
  view.width = width;
  return view;
}

test("the whole recording is visible at first, and positions correspond to moments", () => {
  const view = createWindow(1000, 500);
  assert.deepEqual([view.xAt(0), view.xAt(1000), view.timeAt(250)], [0, 500, 500]);
});

test("the moment at the zoom position stays there", () => {
  const view = createWindow(1000, 500);
  view.zoom(4, 600);
  assert.deepEqual([view.span, view.xAt(600)], [250, 300]);
  view.zoom(1 / 16, 600);
  assert.deepEqual([view.from, view.span], [0, 1000]);
});

test("at least ten cycles are visible, and at most the whole recording", () => {
  const view = createWindow(1000, 500);
  view.zoom(1e9, 995);
  assert.equal(view.span, 10);
  assert.ok(view.from >= 0 && view.to <= 1000);
  view.scrollTo(5000);
  assert.equal(view.to, 1000);
  view.scrollTo(-5000);
  assert.equal(view.from, 0);
  view.showAll();
  assert.deepEqual([view.from, view.span], [0, 1000]);
});

test("a cursor stays within the recording, and is scrolled into view", () => {
  const view = createWindow(1000, 500);
  view.zoom(10, 0);
  view.move(700);
  assert.ok(view.from <= 700 && view.to >= 700);
  view.move(4000);
  view.activeCursor = 1;
  view.move(-3);
  assert.deepEqual([view.cursors, view.cursorDistance], [[1000, 0], 1000]);
});

test("a click selects a near edge, or else the cycle at its position", () => {
  const waves = createWaves([100, 400], 1000);
  const view = createWindow(1000, 500);
  assert.deepEqual([47, 53, 60, 197, 204, 300].map((x) => view.momentAt(x, waves, 0)), [100, 100, 120, 400, 400, 600]);
  assert.deepEqual([view.momentAt(53, waves, -1), view.momentAt(-9, waves, 0), view.momentAt(900, waves, 0)], [106, 0, 1000]);
  view.zoom(100, 0);
  assert.deepEqual([0, 49, 50, 499].map((x) => view.momentAt(x, waves, -1)), [0, 0, 1, 9]);
});

test("a window follows the end of a recording if the end was visible", () => {
  const view = createWindow(1000, 500);
  view.zoom(4, 1000);
  view.extendRange(500, 2000);
  assert.deepEqual([view.from, view.to, view.cursors], [1750, 2000, [500, 500]]);
  view.scrollTo(600);
  view.extendRange(700, 2500);
  assert.deepEqual([view.from, view.span], [700, 250]);
});

test("a growing recording is visible as a whole while it is short, and then its last part", () => {
  const view = createWindow(0, 500);
  view.extendRange(0, 3000);
  assert.deepEqual([view.from, view.to, view.cursors], [0, 3000, [3000, 3000]]);
  view.move(100);
  view.extendRange(0, 50000);
  assert.deepEqual([view.from, view.to, view.cursors], [30000, 50000, [100, 50000]]);
  view.showAll();
  view.extendRange(10000, 90000);
  assert.deepEqual([view.from, view.to, view.cursors], [40000, 90000, [10000, 90000]]);
  view.showAround(20000);
  assert.deepEqual([view.from, view.to, view.cursors[0]], [10000, 30000, 20000]);
});

test("an empty recording also has a window", () => {
  const view = createWindow(0, 500);
  view.zoom(2, 0);
  view.move(3);
  assert.deepEqual([view.from, view.moment, chooseTickMoments(view, 90)], [0, 0, [0, 1]]);
});

test("the tick labels do not overlap", () => {
  assert.deepEqual(chooseTickMoments(createWindow(1000, 500), 90), [0, 200, 400, 600, 800, 1000]);
  const view = createWindow(100000, 500);
  view.zoom(10000, 50000);
  const ticks = chooseTickMoments(view, 90);
  assert.ok(ticks.length >= 4 && ticks.every((tick) => Number.isInteger(tick)));
});

test("cycles and times are formatted; a cycle takes 10.8 microseconds", () => {
  assert.deepEqual([cyclesText(1), cyclesText(92593)], ["1 cycle", "92,593 cycles"]);
  assert.equal(describeDistance(926), "A to B: 926 cycles, 10.001 ms");
});

test("the instruction and value at a cursor are described", () => {
  const waves = createWaves([2], 3);
  assert.equal(describeCursor("A", 0, waves), "A: cycle 0, 0.000 ms: 000 D5 LDM 5");
  assert.equal(describeCursor("B", 3, waves), "B: cycle 3, 0.032 ms: next: 002 00 NOP");
  assert.equal(describeForScreenReader(2, waves, 0), "test is 0, cycle 2, 001 40 00 JUN 0x000");
  assert.equal(describeForScreenReader(1, waves, -1), "cycle 1, 001 40 00 JUN 0x000");
  const row = { address: 1, listingLine: "001 40 00 JUN 0x000", line: 3, source: "JUN wait", isSecond: false, isEnd: false };
  assert.equal(instructionText(row), "001 40 00 JUN 0x000; line 3 of the source: JUN wait");
  assert.equal(instructionText({ ...row, isSecond: true }), "the second cycle of an instruction");
});

test("a recording is described", () => {
  const waves = createWaves([2], 3);
  assert.equal(describeRecording(waves, 3, false), "3 cycles recorded, 0.032 ms.");
  assert.equal(describeRecording(waves, 9, true), "3 cycles recorded, 0.032 ms. The remembered past reaches no further back.");
  waves.isStuck = true;
  assert.match(describeRecording(waves, 9, false), /A code that is not an instruction follows\.$/);
  assert.match(describeRecording(createWaves([], 0), 9, true), /^Nothing was recorded/);
});

test("values are formatted in three bases", () => {
  assert.deepEqual(["hex", "decimal", "binary"].map((base) => valueText(10, 4, base)), ["A", "10", "1010"]);
  assert.deepEqual(["hex", "decimal", "binary"].map((base) => valueText(1, 1, base)), ["1", "1", "1"]);
  assert.equal(valueText(3, 10, "hex"), "003");
});

test("the typed number of cycles is parsed", () => {
  assert.deepEqual(["1", " 10,000 ", "10,000,000"].map(parseCycleCount), [1, 10000, 10000000]);
  assert.deepEqual(["0", "10000001", "", "x", "1.5", "-1", "999999999"].map(parseCycleCount), [0, 0, 0, 0, 0, 0, 0]);
});

test("a finished recording is shown as a whole unless the user has zoomed", () => {
  const view = createWindow(0, 500);
  view.extendRange(0, 154363);
  assert.equal(view.from > 0, true);
  view.showAllIfUnzoomed();
  assert.deepEqual([view.from, view.span], [0, 154363]);
  view.zoom(100, 154363);
  view.showAllIfUnzoomed();
  assert.equal(view.span, 1543.63);
  view.zoom(1 / 20, 154363);
  view.scrollTo(1000);
  view.showAllIfUnzoomed();
  assert.equal(view.from, 1000);
});

test("the flag of a cursor stays within the picture", () => {
  assert.deepEqual([findFlagLeft(300.5, 500), findFlagLeft(500.5, 500), findFlagLeft(498.5, 500)], [293.5, 486, 486]);
});

test("cursors that the user has not moved are placed at edges when a recording ends", () => {
  const view = createWindow(0, 500);
  view.extendRange(0, 1000);
  assert.deepEqual(view.cursors, [1000, 1000]);
  view.placeCursors(100, 400);
  assert.deepEqual(view.cursors, [100, 400]);
  view.placeCursors(5, 6);
  assert.deepEqual(view.cursors, [100, 400]);
});
