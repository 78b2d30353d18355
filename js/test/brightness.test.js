// Tests the duty cycles and the perceived brightness of lamps. The expected values come from the bench's `trace` and from snapshots after
// each cycle.
import assert from "node:assert/strict";
import { readFileSync } from "node:fs";
import { test } from "node:test";
import { Brightness, perceivedBrightness } from "../core/board/brightness.js";
import { matrixKey } from "../core/board/key_place.js";
import { EYE_PERSISTENCE_MS } from "../core/time/mcs4_time.js";
import { displayedNumber } from "../core/board/digit_patterns.js";
import { DisplayText } from "../core/board/display_text.js";
import { Face } from "../core/board/face.js";
import { SampleBuffer, soundSamples } from "../core/board/sound_samples.js";
import { BenchCalls } from "../core/engine/bench_calls.js";
import { PerceivedText } from "../core/engine/perceived_text.js";
import { examplesOfPage, pageModule } from "./page_session.js";

/** The length of a frame at 60 frames per second, in cycles and in milliseconds. */
const FRAME_CYCLES = 1543;
const FRAME_MS = 1000 / 60;

/** In each iteration of the loop, lamp 0 is on for 3 cycles and lamp 1 for the other cycles. Lamp 2 is always on, lamp 3 never. */
const PULSE_EXAMPLE = {
  board: `[[rom]]\nchip = 0\nport = "0000"\n${[0, 1, 2, 3].map((line) => `[[lamp]]\nline = "rom0.${line}"\n`).join("")}`,
  program: "FIM P0, 0\nSRC P0\nloop: LDM 5\nWRR\nNOP\nLDM 6\nWRR\nFIM P1, 0\nwait: ISZ R2, wait\nJUN loop\n",
};

/**
 * Two rows of three lamps. In each iteration of the loop, columns 0 and 2 of row 0 are on for 5 cycles, then column 1 of row 1 for 10
 * cycles. Then all lamps are off.
 */
const SCANNED_EXAMPLE = {
  board: `# matrix 0: 2 rows of 3 scanned by 4\n[[rom]]\nchip = 0\nport = "0000"\n[[ram]]\nbank = 0\nchips = 2\n${
    ["ram0.0.0", "ram0.0.1", "ram0.0.2", "ram0.0.3", "ram0.1.0", "ram0.1.1"].map((line) => `[[lamp]]\nline = "${line}"\n`).join("")}`,
  program: `FIM P0, 0\nFIM P1, 0x40
loop:   LDM 5\nSRC P0\nWMP\nLDM 1\nSRC P1\nWMP
        NOP\nNOP\nNOP\nLDM 0\nWMP
        LDM 2\nSRC P0\nWMP\nSRC P1\nWMP
        NOP\nNOP\nNOP\nNOP\nNOP\nNOP\nNOP\nNOP\nLDM 0\nWMP
        JUN loop\n`,
};

const readText = (name) => readFileSync(new URL(name, import.meta.url), "utf8");

/** A display of two digits. In each iteration of its main loop, the program rewrites the display lamp by lamp. */
const REFRESHED_EXAMPLE = { board: readText("two_digits.toml"), program: readText("two_digits.asm") };

async function openSession({ board, program }) {
  const calls = new BenchCalls(async () => true);
  await calls.load(pageModule, []);
  calls.open(calls.createFile({ name: "own", title: "", board, program, tests: "", properties: "", lines: "", project: "" }));
  calls.watchLamps(board, 7);
  return calls;
}

/** Returns the bench's answers to `lamps` before each cycle and after the last cycle. */
function queryLamps(calls, cycles) {
  const answers = calls.ask(`lamps\n${"run 1\nlamps\n".repeat(cycles)}`).filter((line) => line.startsWith("lamps"));
  return answers.map((line) => line.slice("lamps ".length));
}

/** Returns the number of cycles for which each lamp is on, counted from the answers to `lamps`. */
function countLitCycles(calls, cycles) {
  const marks = queryLamps(calls, cycles).slice(0, cycles);
  return [...marks[0]].map((_, lamp) => marks.filter((row) => row[lamp] === "*").length);
}

/**
 * Returns when each lamp changes, computed from the answers to `lamps`: the cycle of the first change, the longest time between two
 * changes, and the cycles after the last change. Returns null for a lamp that does not change.
 */
function findLampChanges(calls, cycles) {
  const marks = queryLamps(calls, cycles);
  return [...marks[0]].map((_, lamp) => {
    const changeCycles = marks.flatMap((row, index) => (index > 0 && row[lamp] !== marks[index - 1][lamp] ? [index] : []));
    if (changeCycles.length === 0) return null;
    const longest = Math.max(0, ...changeCycles.slice(1).map((cycle, index) => cycle - changeCycles[index]));
    return { first: changeCycles[0], longest, afterLast: cycles - changeCycles[changeCycles.length - 1] };
  });
}

test("the number of cycles for which each lamp is on, and the changes of lamps, are reported exactly", async () => {
  const calls = await openSession(PULSE_EXAMPLE);
  for (const cycles of [1, 7, FRAME_CYCLES, 2000, 11]) {
    const [expected, expectedChanges] = [countLitCycles(calls, cycles), findLampChanges(calls, cycles)];
    const [lastMarks] = queryLamps(calls, cycles).slice(-1);
    const { litShares } = calls.advance(cycles);
    assert.deepEqual([litShares.face, litShares.cycles, litShares.lamps, litShares.changeSummaries, litShares.marks],
      [7, cycles, expected, expectedChanges, lastMarks]);
  }
});

test("the perceived duty cycle of a lamp is its duty cycle in the trace, within 2 %", async () => {
  const calls = await openSession(PULSE_EXAMPLE);
  const expectedShares = countLitCycles(calls, 3800).map((litCycles) => litCycles / 3800);
  const brightness = new Brightness(new Face(PULSE_EXAMPLE.board), 4);
  for (let frame = 0; frame < 30; frame++) {
    brightness.add(calls.advance(FRAME_CYCLES).litShares, FRAME_MS);
    if (frame <= 9) continue;
    brightness.lampDuties.forEach((share, lamp) => (
      assert.ok(Math.abs(share - expectedShares[lamp]) < 0.02, `${brightness.lampDuties} of ${expectedShares}`)));
  }
});

test("a scanned lamp is on in exactly those cycles in which both of its lines are 1", async () => {
  const calls = await openSession(SCANNED_EXAMPLE);
  calls.advance(100);
  for (const cycles of [1, 26, FRAME_CYCLES, 333]) {
    const marks = calls.ask(`lamps\n${"run 1\nlamps\n".repeat(cycles)}`).filter((line) => line.startsWith("lamps")).slice(0, cycles);
    const expected = [4, 5].flatMap((row) => [0, 1, 2].map((column) => (
      marks.filter((line) => line["lamps ".length + row] === "*" && line["lamps ".length + column] === "*").length)));
    assert.deepEqual(calls.advance(cycles).litShares.scanned, [expected]);
  }
  const brightness = new Brightness(new Face(SCANNED_EXAMPLE.board), 6);
  for (let frame = 0; frame < 20; frame++) brightness.add(calls.advance(FRAME_CYCLES).litShares, FRAME_MS);
  const loopCycles = 28;
  const [group] = brightness.scannedGroups;
  group.forEach((share, index) => assert.ok(Math.abs(share - [5, 0, 5, 0, 10, 0][index] / loopCycles) < 0.02, String(group)));
});

test("each multiplexed digit shows the pattern that it has longest while it is on", () => {
  const face = new Face("# display 0: 3 digits of 7 segments with points scanned by 8\n# lamp 11: minus\n");
  const text = new DisplayText(face.groups, [{ lamp: 11, text: "minus" }]);
  const formatMarks = (segments, digits, minus) => segments.padEnd(8, ".") + digits + minus;
  const formatTrace = (...rows) => [`trace ran ${rows.length * 100} end lines ${rows.length - 1} ${rows[0]}`,
    ...rows.slice(1).map((row, index) => `${index * 100 + 99} 000 ${row}`)];
  const readPerceivedText = (...rows) => {
    const { number, names } = new PerceivedText(face, 12).read(formatTrace(...rows));
    return [number, names];
  };
  // The first digit is a 4 with faint segments of the previous digit. The second is a 2 with its decimal point. The third is never on.
  const four = formatMarks(".**..**", "*..", "*");
  const two = formatMarks("**.**.**", ".*.", ".");
  const ghost = formatMarks(".**..**", ".*.", "*");
  assert.deepEqual(readPerceivedText(four, ghost, two, two), ["-42. ", ""]);
  assert.deepEqual(readPerceivedText(formatMarks("***....", "***", ".")), ["777", ""]);
  assert.equal(text.read(two).number, "2. ");
});

test("the edges of a line are reported exactly, and its sound samples have the right pitch", async () => {
  const calls = await openSession(PULSE_EXAMPLE);
  calls.watchBuzzer("rom0.0");
  let previousLevel = -1;
  for (const cycles of [3, 40, FRAME_CYCLES, 1]) {
    const lampLines = calls.ask(`lamps\n${"run 1\nlamps\n".repeat(cycles)}`).filter((line) => line.startsWith("lamps")).slice(0, cycles);
    const expected = lampLines.map((line) => (line["lamps ".length] === "*" ? 1 : -1));
    assert.deepEqual([...soundSamples(calls.advance(cycles).buzzerLevels)], expected);
  }
  const buffer = new SampleBuffer(4200);
  let [riseCount, sampleCount] = [0, 0];
  for (let frame = 0; frame < 60; frame++) {
    for (const sample of buffer.add(calls.advance(FRAME_CYCLES).buzzerLevels) || []) {
      riseCount += Number(sample > previousLevel && previousLevel === -1 && sampleCount > 0);
      previousLevel = sample;
      sampleCount += 1;
    }
  }
  // An iteration of the program's loop takes 41 cycles.
  assert.ok(Math.abs(riseCount / sampleCount - 1 / 41) < 0.01 / 41, `${riseCount} in ${sampleCount}`);
  calls.watchBuzzer("");
  assert.equal(calls.advance(100).buzzerLevels, null);
});

/**
 * Returns the perceived brightness of a board with one lamp, and the function `simulate`, which simulates `time` milliseconds. The lamp is
 * on for the fraction `litShare` of this time.
 */
function createLamp() {
  const brightness = new Brightness(new Face(""), 1);
  const simulate = (litShare, time, changeSummary = null, marks = litShare > 0 ? "*" : ".") => {
    const changeSummaries = [changeSummary];
    brightness.add({ face: 0, cycles: 100, marks, lamps: [litShare * 100], changeSummaries, displays: [], scanned: [] }, time);
  };
  return { brightness, simulate };
}

test("the brightness of a flickering lamp rises, and falls, by 63 % within the persistence time", () => {
  const { brightness, simulate } = createLamp();
  for (let part = 0; part < 10; part++) simulate(0.8, EYE_PERSISTENCE_MS / 10, { first: 1, longest: 8, afterLast: 7 });
  assert.ok(Math.abs(brightness.lampDuties[0] - 0.8 * (1 - Math.exp(-1))) < 1e-9);
  simulate(1, Infinity);
  assert.equal(brightness.lampDuties[0], 1);
  simulate(0, EYE_PERSISTENCE_MS);
  assert.ok(Math.abs(brightness.lampDuties[0] - Math.exp(-1)) < 1e-9);
  brightness.begin("*");
  assert.equal(brightness.lampDuties[0], 1);
  assert.deepEqual([0, 0.25, 1, 2].map(perceivedBrightness), [0, 0.53, 1, 1]);
});

test("a steady lamp has full brightness at once, and fades when it goes out; a lamp that only flashes is visible, but not on", () => {
  const { brightness, simulate } = createLamp();
  simulate(0.3, FRAME_MS, { first: 70, longest: 0, afterLast: 30 });
  assert.deepEqual([brightness.lampDuties, brightness.isOn], [[1], [true]]);
  simulate(0.4, FRAME_MS, { first: 40, longest: 0, afterLast: 60 }, ".");
  assert.deepEqual(brightness.isOn, [true]);
  simulate(0, FRAME_MS);
  assert.deepEqual(brightness.isOn, [false]);
  assert.ok(brightness.lampDuties[0] > 0.3 && brightness.lampDuties[0] < 0.5, String(brightness.lampDuties[0]));
  for (let frame = 0; frame < 30; frame++) simulate(0, FRAME_MS);
  assert.deepEqual(brightness.lampDuties, [0]);
  simulate(0.06, FRAME_MS, { first: 10, longest: 6, afterLast: 84 }, ".");
  assert.ok(brightness.lampDuties[0] > 0.02 && brightness.lampDuties[0] < 0.03, String(brightness.lampDuties[0]));
  assert.deepEqual(brightness.isOn, [false]);
});

test("a lamp that is steady within a frame is steady once it stays unchanged for twice as long", () => {
  const { brightness, simulate } = createLamp();
  // In 20 ms, the lamp stays unchanged for 2 ms, then 8 ms, then 10 ms.
  simulate(0.5, 20, { first: 10, longest: 40, afterLast: 50 });
  assert.ok(Math.abs(brightness.lampDuties[0] - 0.5 * (1 - Math.exp(-20 / EYE_PERSISTENCE_MS))) < 1e-9, String(brightness.lampDuties[0]));
  simulate(1, 5);
  assert.ok(brightness.lampDuties[0] < 0.5, String(brightness.lampDuties[0]));
  simulate(1, 5);
  assert.deepEqual(brightness.lampDuties, [1]);
});

test("a lamp that changes faster than the eye can follow is never steady", () => {
  const { brightness, simulate } = createLamp();
  // The lamp is off for 12 ms and on for 8 ms. It is sampled every 4 ms.
  for (let period = 0; period < 50; period++) {
    simulate(0, 4, { first: 0, longest: 0, afterLast: 100 });
    simulate(0, 4);
    simulate(0, 4);
    simulate(1, 4, { first: 0, longest: 0, afterLast: 100 });
    simulate(1, 4);
    if (period > 10) assert.ok(brightness.lampDuties[0] > 0.4 && brightness.lampDuties[0] < 0.6, String(brightness.lampDuties[0]));
  }
});

test("digits that are shifted in appear at once when they are complete, and nothing else appears before", async () => {
  const example = examplesOfPage.find(({ name }) => name === "calculator");
  const calls = await openSession(example);
  const brightness = new Brightness(new Face(example.board), 43);
  const simulate = (cycles, key = null) => {
    brightness.add(calls.advance(cycles, key).litShares, (FRAME_MS * cycles) / FRAME_CYCLES);
    return brightness.patterns.map(displayedNumber).join(" ");
  };
  for (let frame = 0; frame < 60; frame++) simulate(FRAME_CYCLES);
  let immediateCount = 0;
  [[2, 0, "1"], [2, 1, "12"], [2, 2, "123"], [1, 0, "1234"], [1, 1, "12345"], [1, 2, "123456"]].forEach(([row, column, number], index) => {
    const key = matrixKey(row, column);
    const numberBefore = simulate(FRAME_CYCLES + 137 * index);
    // At the key press, some cycles are simulated early, as on the page. The loop below simulates whole frames.
    immediateCount += Number(simulate(2 * FRAME_CYCLES - 100 * index, key) === number);
    calls.release(key);
    const numbers = new Set();
    for (let frame = 0; frame < 6; frame++) numbers.add(simulate(FRAME_CYCLES));
    numbers.delete(numberBefore);
    assert.deepEqual([...numbers], [number]);
  });
  assert.equal(immediateCount, 6);
});

test("a display that the main loop refreshes shows its number in each frame, but rarely at a single instant", async () => {
  const calls = await openSession(REFRESHED_EXAMPLE);
  calls.advance(10000);
  const face = new Face(REFRESHED_EXAMPLE.board);
  const brightness = new Brightness(face, 14);
  const instantText = new DisplayText(face.groups, []);
  const numbers = new Set();
  let matchCount = 0;
  for (let frame = 0; frame < 150; frame++) {
    const { litShares, snapshot } = calls.advance(FRAME_CYCLES);
    brightness.add(litShares, FRAME_MS);
    numbers.add(brightness.patterns.map(displayedNumber).join(" "));
    matchCount += Number(instantText.read(/ lamps (\S+) /.exec(snapshot[0])[1]).number === "42");
  }
  assert.deepEqual([...numbers], ["42"]);
  assert.ok(matchCount > 5 && matchCount < 60, String(matchCount));
});
