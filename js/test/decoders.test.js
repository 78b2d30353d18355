// Tests the decoders of the logic analyser, with manually written traces and with the bench's recording of a calculator.
import assert from "node:assert/strict";
import { test } from "node:test";
import { readBoard } from "../core/bench/answers.js";
import { createBoardLines } from "../core/waves/wave_lines.js";
import { chooseInitialLines } from "../core/waves/wave_catalog.js";
import { findMatch, parseSearch } from "../core/waves/wave_search.js";
import { parseTrigger } from "../core/waves/trigger.js";
import { vcdParts } from "../core/waves/vcd.js";
import { Waves } from "../core/waves/wave_recording.js";
import { openExample, examplesOfPage } from "./page_session.js";

const BOARD = readBoard([
  "board", "[[rom]]", "chip = 0", 'port = "0000"', "[[rom]]", "chip = 1", 'port = "iiii"',
  "[[chain]]", 'clock = "rom0.0"', 'data = "rom0.1"', "chips = 1",
  "[keys]", "chain = 0", "first = 1", "rows = 2", 'columns = ["rom1.2", "rom1.0"]',
]);
const LINES = createBoardLines(BOARD, "# row 0: 7 CE\n", false);
const lineIndexOf = (waves, name) => waves.lines.findIndex((line) => line.name === name);

/** Returns a recording. `changes` has the cycles in which each line changes, by line name. Each line begins at level 0. */
function createRecording(changes, cycles) {
  const tracks = LINES.map(({ name, width }) => (
    { first: 0, moments: Uint32Array.from(changes[name] || []), values: width > 1 ? new Float64Array(0) : null }));
  return new Waves({ from: 0, cycles, isStuck: false, isOwed: false, lines: LINES, tracks,
    moments: Uint32Array.of(0), counters: Uint16Array.of(0), listing: [], program: null });
}

/** Returns the values of a row, each with the cycle in which it begins. */
function valuesOfRow(waves, name) {
  const line = lineIndexOf(waves, name);
  return [waves.from, ...waves.changesOf(line)].map((moment) => `${moment} ${waves.valueAt(line, moment)}`);
}

// The program shifts in 1, 0 and 0, and then pauses. It shifts in 1, another 1 after 16 cycles, and 0 after 17 more cycles.
const TRACE = {
  "rom0.0": [10, 15, 20, 25, 30, 35, 100, 105, 116, 117, 133, 140],
  "rom0.1": [8, 18, 90, 120],
  "chain0.0": [10, 20, 100, 133],
  "chain0.1": [20, 30, 116],
  "chain0.2": [30, 100, 133],
  "chain0.3": [100, 116],
  "chain0.4": [116, 133],
  "chain0.5": [133],
};
const SHIFTED_BITS = ["0 = 000", "10 1", "20 0", "30 0", "46 = 004", "100 1", "116 1", "132 = 013", "133 0", "149 = 026"];

test("a shift register's row has each shifted bit, and the value between shifts", () => {
  assert.deepEqual(valuesOfRow(createRecording(TRACE, 200), "shift.chain0"), SHIFTED_BITS);
});

test("a value between shifts appears once the recording is long enough", () => {
  assert.deepEqual(valuesOfRow(createRecording(TRACE, 148), "shift.chain0"), SHIFTED_BITS.slice(0, -1));
  assert.deepEqual(valuesOfRow(createRecording(TRACE, 149), "shift.chain0"), SHIFTED_BITS);
  assert.deepEqual(valuesOfRow(createRecording({}, 50), "shift.chain0"), ["0 = 000"]);
});

test("the value has the recording's number base", () => {
  const waves = createRecording(TRACE, 200);
  waves.base = "binary";
  assert.equal(valuesOfRow(waves, "shift.chain0")[7], "132 = 0000010011");
  waves.base = "decimal";
  assert.equal(valuesOfRow(waves, "shift.chain0")[7], "132 = 19");
});

// Row 0 is bit 1 of the chain, and column 0 is line 2 of ROM 1. In row 0, the user presses a key, then a second key, and releases both. A
// key is also pressed while the program drives two rows, and then a key of row 1.
const SCAN = {
  "chain0.1": [10, 60], "chain0.2": [50, 90],
  "rom1.2": [20, 40, 70, 80], "rom1.0": [30, 45, 55, 65],
};

test("a key scan has the driven rows and the detected keys", () => {
  assert.deepEqual(valuesOfRow(createRecording(SCAN, 100), "scan.keys"), [
    "0 -", "10 row 0", "20 row 0: 7", "30 row 0: 7 CE", "40 row 0: CE", "45 row 0", "50 rows 0+1", "55 rows 0+1: column 1", "60 row 1: 1.1",
    "65 row 1", "70 row 1: 1.0", "80 row 1", "90 -",
  ]);
});

test("a recording in pieces has the same rows as a whole recording", () => {
  const changes = { ...SCAN, ...TRACE, "chain0.1": SCAN["chain0.1"], "chain0.2": SCAN["chain0.2"] };
  for (const name of ["shift.chain0", "scan.keys"]) {
    const wholeRecording = createRecording(changes, 200);
    const expected = [...wholeRecording.changesOf(lineIndexOf(wholeRecording, name))]
      .map((moment) => `${moment} ${wholeRecording.valueAt(lineIndexOf(wholeRecording, name), moment)}`);
    for (const pieceSize of [1, 7, 16, 50]) {
      const recording = createRecording({}, 0);
      const actual = [];
      recording.changesOf(lineIndexOf(recording, name));
      for (let from = 0; from < 200; from += pieceSize) {
        const to = Math.min(200, from + pieceSize);
        recording.beginAt(from);
        const tracks = recording.lines.map(({ name: lineName }) => (
          { first: 0, moments: Uint32Array.from((changes[lineName] || []).filter((cycle) => cycle > from && cycle <= to)), values: null }));
        recording.append({ from, cycles: to, isStuck: false, isOwed: false, tracks: tracks.map((track, line) => (
          { ...track, values: recording.lines[line].width > 1 ? new Float64Array(0) : null })), moments: new Uint32Array(0),
        counters: new Uint16Array(0), listing: [] });
        actual.push(...valuesOfRow(recording, name).slice(1));
      }
      assert.deepEqual(actual, expected, `${name} by ${pieceSize}`);
    }
  }
});

test("a decoder can be searched for changes, and a key scan for keys; a decoder cannot be a trigger", () => {
  const waves = createRecording(SCAN, 100);
  const findMoments = (text) => {
    const { search, error } = parseSearch(text, waves, -1);
    return search ? [findMatch(waves, search, 0, true), findMatch(waves, search, 100, false)] : error;
  };
  assert.deepEqual([findMoments("key scan = CE"), findMoments("scan.keys = 1.0"), findMoments("scan.keys changes")],
    [[30, 30], [70, 70], [10, 90]]);
  assert.match(findMoments("scan.keys = 3"), /^scan\.keys is decoded/);
  assert.match(findMoments("4003 shift-in 0 rises"), /^shift\.chain0 is decoded/);
  assert.match(parseTrigger("shift.chain0 changes", LINES, /** @type {any} */ ({})).error, /^shift\.chain0 is decoded from other lines/);
});

test("a VCD file has decoders as strings without blanks, and decoders that change are shown by default", () => {
  const waves = createRecording(SCAN, 100);
  const file = [...vcdParts(waves, [lineIndexOf(waves, "scan.keys")])].join("");
  assert.match(file, /\$var string 1 A scan\.keys \$end/);
  assert.match(file, /#2160\nsrow_0:_7 A\n/);
  const names = chooseInitialLines(waves).map((line) => waves.lines[line].name);
  assert.deepEqual(names.slice(-2), ["scan.keys", "pc"]);
});

test("in a calculator, each shifted bit is that of the first stage, and values between shifts are those of the chain", async () => {
  const { board, program } = examplesOfPage.find(({ name }) => name === "calculator");
  const calls = await openExample("calculator", "run 30000\npress 2 0\n");
  const waves = new Waves(await calls.record(20000, false, { board, program, values: [] }));
  for (const chain of [0, 1]) {
    const names = [`shift.chain${chain}`, `chain${chain}.0`, `chain${chain}[${chain === 0 ? 9 : 39}:0]`, chain === 0 ? "rom0.0" : "rom0.2"];
    const [line, firstStage, port, clock] = names.map((name) => lineIndexOf(waves, name));
    const moments = [...waves.changesOf(line)];
    const clockEdges = [...waves.changesOf(clock)].filter((moment) => waves.numberAt(clock, moment) === 1);
    assert.ok(clockEdges.length > 20);
    assert.deepEqual(moments.filter((moment) => !waves.valueAt(line, moment).startsWith("=")), clockEdges);
    for (const moment of moments) {
      const value = waves.valueAt(line, moment);
      assert.equal(value, value.startsWith("=") ? `= ${waves.valueAt(port, moment)}` : waves.valueAt(firstStage, moment));
    }
  }
  const scanLine = lineIndexOf(waves, "scan.keys");
  const values = new Set([...waves.changesOf(scanLine)].map((moment) => waves.valueAt(scanLine, moment)));
  // Key 2.0 is the key "1".
  assert.deepEqual([...values].sort(), ["row 0", "row 1", "row 2: 1", "row 3", "row 4"]);
});
