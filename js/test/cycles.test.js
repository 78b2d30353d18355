import assert from "node:assert/strict";
import { test } from "node:test";
import { CycleCount, findAcceptedCommands } from "../core/engine/accepted_commands.js";
import { Cycles, formatCycles } from "../core/time/cycles.js";
import { readBoard } from "../core/bench/answers.js";
import { readInputs } from "../core/bench/inputs.js";
import { parsePlace } from "../core/conditions/places.js";
import { SourceMap } from "../core/machine/source_map.js";
import { describeUserPause, runningToGoal, addressWithName, pauseMessage } from "../words/stops.js";

test("a number of cycles is formatted with its time, 10.8 microseconds for each cycle", () => {
  assert.deepEqual([1, 926, 92593, 1000000].map(formatCycles),
    ["1 cycle, 0.011 ms", "926 cycles, 10.001 ms", "92,593 cycles, 1.000 s", "1,000,000 cycles, 10.800 s"]);
});

test("accepted commands are found with their cycles, and a reset restarts the count since the last reset", () => {
  const inputs = readInputs("run 5\nfoo\nregs\nwire\n[[rom]]\n.\nreset\nstep\n");
  const acceptedCommands = findAcceptedCommands(inputs,
    [["ok 1 ran 5 end"], ["no 10"], ["acc 0"], ["no 22"], ["ok 2"], ["ok 3 ran 2 end"]]);
  assert.deepEqual(acceptedCommands.map(({ line, cycles }) => [line, cycles]), [["run 5", 5], ["reset", 0], ["step", 2]]);
  const cycleCount = new CycleCount(100, 10);
  cycleCount.add(acceptedCommands);
  assert.deepEqual([cycleCount.total, cycleCount.reset], [107, 105]);
  assert.equal(findAcceptedCommands(readInputs("asm\nNOP\n.\n"), [["ok 1 bytes 1"]])[0].line, "asm\nNOP\n.");
});

test("at a stop, the count since the last stop is that of the last run", () => {
  const cycles = new Cycles();
  cycles.update({ total: 500, reset: 0 });
  cycles.update({ total: 900, reset: 0 });
  assert.equal(cycles.counts.sinceStop, 900);
  cycles.recordPause();
  cycles.update({ total: 900, reset: 0 });
  assert.equal(cycles.counts.sinceStop, 900);
  cycles.update({ total: 902, reset: 0 });
  assert.deepEqual([cycles.counts.sinceStop, cycles.counts.sinceReset], [2, 902]);
  assert.deepEqual(new Cycles(cycles.storedCounts).counts, cycles.counts);
});

test("cycles are counted since the first marker, then between two markers, then since a new marker", () => {
  const cycles = new Cycles({ total: 10, reset: 0, from: 0, marks: [] });
  assert.equal(cycles.counts.marked, null);
  cycles.addMark();
  cycles.update({ total: 936, reset: 0 });
  assert.equal(cycles.counts.marked, 926);
  cycles.addMark();
  cycles.update({ total: 2000, reset: 0 });
  assert.equal(cycles.counts.marked, 926);
  cycles.addMark();
  assert.equal(cycles.counts.marked, 0);
});

test("places are parsed, and read from trace values", () => {
  const board = readBoard(["board", "[[rom]]", "chip = 1", 'port = "iiii"', "[[ram]]", "bank = 0", "chips = 1", "[[chain]]",
    'clock = "ram0.0.0"', 'data = "ram0.0.1"', "chips = 2", "[[lamp]]", 'line = "ram0.0.3"', "[[lamp]]", 'line = "chain0.5"']);
  /** Returns a place's name, the places that `trace` must report for it on this board, and its value, computed from the reported values. */
  const readPlace = (name, ...values) => {
    const place = parsePlace(name);
    return [place.name, place.probesOn(board).join(" "), place.textOf(values)];
  };
  assert.deepEqual([
    readPlace("acc", "6"), readPlace("R15", "9"), readPlace("ram.0.63", "C"), readPlace("st.0.1.2", "2"), readPlace("ram0.0.3", "1"),
    readPlace("rom1.2", "0"),
    readPlace("rom1", "D"), readPlace("ram0.0", "2"), readPlace("chain0.19", "1"), readPlace("lamp1", "1"), readPlace("lamps", ".*"),
  ], [
    ["acc", "acc", "6"], ["r15", "r15", "9"], ["ram.0.0x3F", "ram.0.0x3F", "C"], ["st.0.1.2", "st.0.1.2", "2"],
    ["ram0.0.3", "ram0.0.3", "1"], ["rom1.2", "rom1.2", "0"], ["rom1", "rom1", "D"],
    ["ram0.0", "ram0.0", "2"], ["chain0.19", "chain0.19", "1"], ["lamp 1", "chain0.5", "*"],
    ["lamps", "lamps", ".*"],
  ]);
  const absentPlaces = ["ram.1.0", "ram.0.0x40", "st.0.4.0", "rom3.1", "rom0", "ram0.1", "ram1.0.0", "chain0.20", "chain1.0", "lamp 2"];
  assert.deepEqual(absentPlaces.map((name) => parsePlace(name).probesOn(board)), absentPlaces.map(() => []));
  assert.deepEqual(parsePlace("lamps").probesOn(readBoard(["board"])), []);
  const invalidPlaces = ["", "r16", "pc 4", "ram.8.0", "ram.0.256", "st.0.1.4", "rom16.0", "chain4.0", "key 3"];
  assert.deepEqual(invalidPlaces.map(parsePlace), invalidPlaces.map(() => null));
});

test("messages about pauses report the address, the reason and the cycles", () => {
  const goalStop = { cycles: 538, reason: "goal", endsAtReturn: false };
  assert.equal(pauseMessage({ kind: "over" }, { ...goalStop, endsAtReturn: true }, "009"), "Returned to 009, after 538 cycles, 5.810 ms.");
  assert.equal(pauseMessage({ kind: "over" }, { ...goalStop, cycles: 1 }, "00D"), "At 00D, after 1 cycle, 0.011 ms.");
  assert.equal(pauseMessage({ kind: "here", address: 20 }, goalStop, "014"), "Paused at 014, as requested, after 538 cycles, 5.810 ms.");
  assert.equal(pauseMessage({ kind: "out" }, { cycles: 4, reason: "break", endsAtReturn: true }, "016"),
    "Paused at 016, at a breakpoint, after 4 cycles, 0.043 ms; the return from the subroutine was not reached.");
  assert.equal(pauseMessage(null, { cycles: 4, reason: "break", endsAtReturn: false }, "016"), "Paused at 016, at a breakpoint.");
  assert.equal(pauseMessage({ kind: "change", place: "rom3" }, { cycles: 0, reason: "lacks", endsAtReturn: false }, "000"),
    "Nothing was done: this board has no rom3.");
  assert.equal(runningToGoal({ kind: "change", place: "r4" }), "Running to a change of r4.");
  assert.equal(describeUserPause({ kind: "out" }, 4, "016"),
    "Paused at 016, after 4 cycles, 0.043 ms; the return from the subroutine was not reached.");
  assert.equal(describeUserPause(null, 4, "016"), "Paused at 016.");
  const map = new SourceMap(["map lines 2 names 1", "line 1 000 2", "line 2 002 1", "name go 000"], "go: JUN go\nNOP\n");
  assert.deepEqual(["000", "002", "003"].map((address) => addressWithName(address, map)),
    ["000 (go, line 1)", "002 (go + 2, line 2)", "003"]);
});
