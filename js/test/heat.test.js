// Tests the heat map: how often and how recently RAM nibbles changed, on the page's WebAssembly module.
import assert from "node:assert/strict";
import { test } from "node:test";
import { CancelledError } from "../core/bench/bench_errors.js";
import { pinKey } from "../core/board/key_place.js";
import {
  RecentHeat, heatLevels, describeHeat, describeChanges, describeHeatStatus, describeChangesWhileRunning,
} from "../core/machine/heat_levels.js";
import { namedSrcBytes, nibbleNames } from "../core/machine/ram_names.js";
import { SourceMap } from "../core/machine/source_map.js";
import { parseWatch } from "../core/debug/watch_expressions.js";
import { openExample } from "./page_session.js";

const BOARD = `[[rom]]
chip = 0
port = "0000"
[[ram]]
bank = 0
chips = 1
[[ram]]
bank = 2
chips = 2
`;
const PROGRAM = `digit = 0x12
other = 0x41
limit = 7
        FIM P0, digit
        FIM P1, other
        FIM P3, limit
        LDM 0
turn:   SRC P0
        IAC
        WRM
        WRM
        src p1
        WR2
        JUN turn
`;
// The expected values are calculated from the program's timing. 7 cycles precede the first SRC, and an iteration takes 8 cycles. In each
// iteration, the first WRM, at 009, changes ram.0.0x12. The second WRM writes the same value. WR2 writes to a chip that the board lacks.
const SETUP_CYCLES = 7;
const LOOP_CYCLES = 8;
const ALL_QUERIES = "seq\nstate\nram 0\nram 2\n";

/** Resolves to a session in which the program has run for `cycles` cycles, 30 at a time. */
async function openSessionAfter(cycles) {
  const calls = await openExample("three lamps");
  await calls.serve(`wire\n${BOARD}.\nasm\n${PROGRAM}.\nreset\n`);
  for (let servedCycles = 0; servedCycles < cycles; servedCycles += 30) await calls.serve(`run ${Math.min(30, cycles - servedCycles)}\n`);
  return calls;
}

const FRAME_CYCLES = 1543;

test("while the machine is running, frames report the same changes as a search of the past", async () => {
  const calls = await openExample("three lamps");
  await calls.serve(`wire\n${BOARD.split("[[ram]]\nbank = 2")[0]}.\nasm\n${PROGRAM}.\nreset\n`);
  assert.equal(calls.advance(SETUP_CYCLES).chipHeat, null);
  calls.watchRam(true);
  const recentHeat = new RecentHeat();
  for (let frame = 0; frame < 20; frame++) {
    if (frame === 5) calls.press(pinKey(1));
    const { chipHeat, cycles } = calls.advance(FRAME_CYCLES);
    assert.deepEqual([chipHeat.cycles, chipHeat.chipCount], [cycles, 1]);
    recentHeat.add(chipHeat, cycles, 20 * FRAME_CYCLES);
  }
  assert.deepEqual(recentHeat.heat, await calls.measureHeat(20 * FRAME_CYCLES));
  const emptyHeat = { cycles: FRAME_CYCLES, cells: [], chipCount: 1 };
  for (let frame = 0; frame < 20; frame++) recentHeat.add(emptyHeat, FRAME_CYCLES, 20 * FRAME_CYCLES);
  assert.deepEqual(recentHeat.heat, { cycles: 20 * FRAME_CYCLES, cells: [] }, "old changes are forgotten");
  calls.watchRam(false);
  assert.equal(calls.advance(FRAME_CYCLES).chipHeat, null);
});

test("each frame reports one of several chips, and full speed reports samples", async () => {
  const calls = await openSessionAfter(SETUP_CYCLES);
  calls.watchRam(true);
  const reports = Array.from({ length: 6 }, () => calls.advance(80).chipHeat);
  assert.deepEqual(reports.map(({ cells }) => cells.map(({ place, count }) => `${place} ${count}`)), [
    ["ram.0.0x12 10"], [], [], ["ram.0.0x12 10"], [], []]);
  assert.equal(calls.advance(50000).chipHeat, null);
  const { chipHeat } = calls.bench.session.forecastMeters();
  assert.deepEqual([chipHeat.chipCount, chipHeat.cycles, chipHeat.cells.length], [3, 2778, 1]);
  assert.equal(describeHeatStatus(chipHeat, false), "Counted while running, in one of 3 chips at a time; sampled at full speed.");
  assert.equal(describeHeatStatus({ chipCount: 1 }, true), "Counted while running.");
});

test("past changes are counted exactly, and the session stays unchanged", async () => {
  const calls = await openSessionAfter(SETUP_CYCLES + 20 * LOOP_CYCLES);
  const answersBefore = calls.ask(ALL_QUERIES);
  const { cycles, cells } = await calls.measureHeat(SETUP_CYCLES + 20 * LOOP_CYCLES);
  assert.equal(cycles, SETUP_CYCLES + 20 * LOOP_CYCLES);
  assert.deepEqual(cells, [
    { place: "ram.0.0x12", count: 20, cyclesAgo: 6, address: 0x009, line: "" },
  ]);
  assert.deepEqual(calls.ask(ALL_QUERIES), answersBefore);
});

test("only changes in the requested period are counted, at most as far back as the past is recorded", async () => {
  const calls = await openSessionAfter(SETUP_CYCLES + 20 * LOOP_CYCLES);
  for (const [requestedCycles, reportedCycles, count] of [
    [LOOP_CYCLES, LOOP_CYCLES, 1], [5, 5, 0], [3 * LOOP_CYCLES + 3, 3 * LOOP_CYCLES + 3, 3], [1e7, SETUP_CYCLES + 20 * LOOP_CYCLES, 20],
  ]) {
    const { cycles, cells } = await calls.measureHeat(requestedCycles);
    assert.deepEqual([cycles, cells.reduce((sum, cell) => sum + cell.count, 0)], [reportedCycles, count]);
  }
});

test("`poke` lines are reported, also in a bank that no SRC has selected", async () => {
  const calls = await openSessionAfter(SETUP_CYCLES);
  await calls.serve("poke st.2.5.3 9\npoke ram.2.0x7F 1\npoke ram.2.0x7F 1\nrun 2\n");
  const { cells } = await calls.measureHeat(100);
  assert.deepEqual(cells.filter(({ line }) => line), [
    { place: "ram.2.0x7F", count: 1, cyclesAgo: 2, address: -1, line: "poke ram.2.0x7F 1" },
    { place: "st.2.5.3", count: 1, cyclesAgo: 2, address: -1, line: "poke st.2.5.3 9" },
  ]);
});

test("long runs are searched in parts, with the same result", async () => {
  const callsAfterLongRun = await openExample("three lamps");
  await callsAfterLongRun.serve(`wire\n${BOARD}.\nasm\n${PROGRAM}.\nreset\nrun 100000\nrun 63\n`);
  const { cycles, cells } = await callsAfterLongRun.measureHeat(1e7);
  const iterations = Math.floor((100063 - SETUP_CYCLES) / LOOP_CYCLES);
  assert.deepEqual([cycles, cells[0].place], [100063, "ram.0.0x12"]);
  assert.ok(cells[0].count === iterations || cells[0].count === iterations + 1, `${cells[0].count} of ${iterations}`);
});

test("the count can be cancelled, and a board without RAM has no changes", async () => {
  const calls = await openSessionAfter(SETUP_CYCLES + 20 * LOOP_CYCLES);
  calls.bench.shouldContinue = async () => false;
  await assert.rejects(calls.measureHeat(1000), CancelledError);
  const callsWithoutRam = await openExample("three lamps");
  await callsWithoutRam.serve("wire\n[[rom]]\nchip = 0\nport = \"0000\"\n.\nrun 20\n");
  assert.deepEqual(await callsWithoutRam.measureHeat(1000), { cycles: 0, cells: [] });
});

const HEAT = {
  cycles: 1000,
  cells: [
    { place: "a", count: 1, cyclesAgo: 1000, address: 0, line: "" }, { place: "b", count: 100, cyclesAgo: 1, address: 9, line: "" },
    { place: "c", count: 10, cyclesAgo: 30, address: -1, line: "poke c 1" },
  ],
};

test("cells have one of five heat levels, and their changes are described", () => {
  assert.deepEqual([...heatLevels(HEAT, "often").values()], [1, 5, 3]);
  assert.deepEqual([...heatLevels(HEAT, "lately").values()], [1, 5, 3]);
  assert.deepEqual([...heatLevels({ cycles: 5, cells: [{ ...HEAT.cells[0], cyclesAgo: 0 }] }, "often").values()], [5]);
  assert.equal(describeChanges(HEAT.cells[1], null), "100 times, last by 009, 1 cycle, 0.011 ms ago");
  assert.equal(describeChanges({ ...HEAT.cells[2], count: 1, cyclesAgo: 0 }, null), "once by the line poke c 1");
  assert.equal(describeChangesWhileRunning(HEAT.cells[1], null), "at least 100 times while running, most recently by 009");
  assert.equal(describeChangesWhileRunning({ ...HEAT.cells[2], count: 1 }, null),
    "at least once while running, most recently by the line poke c 1");
  assert.equal(describeHeat(HEAT, 2000, (place) => place.toUpperCase(), null), "In the last 1,000 cycles, 10.800 ms (no more is "
    + "remembered), 3 characters have changed: most often B, 100 times; last B, by 009, 1 cycle, 0.011 ms ago.");
  assert.equal(describeHeat({ cycles: 9, cells: [] }, 9, String, null), "In the last 9 cycles, 0.097 ms, no character of RAM has changed.");
  assert.equal(describeHeat({ cycles: 100, cells: [HEAT.cells[0]] }, 100, String, null), "In the last 100 cycles, 1.080 ms, one character "
    + "has changed: a, once by 000, 1,000 cycles, 10.800 ms ago.");
  assert.match(describeHeat({ cycles: 0, cells: [] }, 9, String, null), /^No earlier cycle/);
});

test("names of nibbles come from watches and from constants that FIM loads for SRC", async () => {
  const calls = await openExample("three lamps");
  await calls.serve(`wire\n${BOARD}.\n`);
  const map = new SourceMap(calls.checkProgram(PROGRAM).map, PROGRAM);
  assert.deepEqual(namedSrcBytes(map), [{ name: "digit", byte: 0x12 }, { name: "other", byte: 0x41 }]);
  const texts = ["count = R5", "sum = ram 2 0x41", "ram 0 0x13", "mode = st 0 1 2", "digit = ram 0 0x12"];
  const watched = texts.map((text) => parseWatch(text).watch);
  const board = { banks: [{ bank: 0, chips: 1 }, { bank: 2, chips: 2 }] };
  assert.deepEqual([...nibbleNames(board, watched, map)], [
    ["ram.2.0x41", ["sum", "other"]], ["st.0.1.2", ["mode"]], ["ram.0.0x12", ["digit"]], ["ram.2.0x12", ["digit"]]]);
  assert.deepEqual([...nibbleNames(board, [], null)], []);
});
