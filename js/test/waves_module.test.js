// Tests recordings on the page's WebAssembly module.
import assert from "node:assert/strict";
import { test } from "node:test";
import { BenchCalls } from "../core/engine/bench_calls.js";
import { linesWithMembers, recordPieces } from "../core/engine/wave_stream.js";
import { VcdText, vcdParts } from "../core/waves/vcd.js";
import { Waves } from "../core/waves/wave_recording.js";
import { examplesOfPage, pageModule } from "./page_session.js";

const [module, examples] = [pageModule, examplesOfPage];

async function openSession(name, shouldContinue = async () => true) {
  const calls = new BenchCalls(shouldContinue);
  await calls.load(module, examples);
  const example = examples.find((candidate) => candidate.name === name);
  calls.open(calls.createFile(example));
  return { calls, texts: { board: example.board, program: example.program } };
}

function lineIndexOf(waves, name) {
  return waves.lines.findIndex((line) => line.name === name);
}

function wholeText(waves) {
  return [...vcdParts(waves, waves.lines.map((_, line) => line))].join("");
}

test("the stopwatch counts every 926 cycles, and recording leaves its session unchanged", async () => {
  const { calls, texts } = await openSession("stopwatch");
  await calls.serve("test 0\n");
  const fileBefore = calls.bench.session.file.slice();
  const waves = new Waves(await calls.record(20000, false, texts));
  const lampChanges = waves.changesOf(lineIndexOf(waves, "lamp15"));
  assert.ok(lampChanges.length > 15);
  assert.deepEqual(new Set([...lampChanges].slice(2).map((moment, at) => moment - lampChanges[at + 1])), new Set([926]));
  assert.deepEqual(calls.bench.session.file, fileBefore);
  assert.equal(waves.labelAt(0), "wait");
  assert.match(waves.instructionAt(lampChanges[3] - 1).source, /^WMP/);
});

test("recordings of the past and of the future are equal", async () => {
  const { calls, texts } = await openSession("stopwatch");
  await calls.serve("test 0\nrun 1001\n");
  const futureWaves = new Waves(await calls.record(4000, false, texts));
  await calls.serve("run 1500\n");
  calls.advance(2000);
  await calls.serve("break 0x00C\nrun 500\nunbreak 0x00C\nstep\n");
  const fileBefore = calls.bench.session.file.slice();
  const wholeWaves = new Waves(await calls.record(100000, true, texts));
  const cycles = wholeWaves.cycles - 1001;
  assert.ok(cycles > 3500 && cycles < 4000);
  assert.equal(calls.ask("seq\n").length, 1);
  const pastWaves = new Waves(await calls.record(cycles, true, texts));
  assert.equal(pastWaves.cycles, cycles);
  const pastText = wholeText(pastWaves).split("\n").slice(0, -2).join("\n");
  assert.ok(wholeText(futureWaves).startsWith(pastText));
  assert.deepEqual(calls.bench.session.file, fileBefore);
});

test("a recording of the past contains key presses, and ends in the current state", async () => {
  const { calls, texts } = await openSession("calculator");
  await calls.serve("run 30000\npress 2 0\nrun 4000\nrelease 2 0\nstep\nstep\n");
  const waves = new Waves(await calls.record(5000, true, texts));
  const key = lineIndexOf(waves, "key.1");
  const [downMoment, upMoment, ...otherMoments] = waves.changesOf(key);
  assert.deepEqual([upMoment - downMoment, waves.numberAt(key, downMoment), otherMoments], [4000, 1, []]);
  assert.equal(waves.counterAt(5000), parseInt(/ pc (...)/.exec(calls.ask("regs\n")[0])[1], 16));
  const lamps = calls.ask("lamps\n")[0].slice("lamps ".length);
  const shownLamps = waves.lines.map((line, at) => [line, at]).filter(([line]) => line.group === "lamps")
    .map(([, at]) => (waves.numberAt(at, 5000) ? "*" : ".")).join("");
  assert.equal(shownLamps, lamps);
});

test("the recorded past begins with the board, and is empty for a new session", async () => {
  const { calls, texts } = await openSession("three lamps");
  assert.equal((await calls.record(100, true, texts)).cycles, 0);
  await calls.serve("run 500\nwire\n[[rom]]\nchip = 0\nport = \"0000\"\n.\nrun 30\n");
  const recording = await calls.record(100, true, texts);
  const names = ["rom0.0", "rom0.1", "rom0.2", "rom0.3", "test", "rom0[3:0]", "pc", "label"];
  assert.deepEqual([recording.cycles, recording.lines.map(({ name }) => name)], [30, names]);
});

test("a code that is not an instruction ends a recording, and is reported", async () => {
  const { calls, texts } = await openSession("three lamps");
  await calls.serve("poke rom.0x018 0xFF\npoke rom.0x014 0xFF\n");
  const recording = await calls.record(100, false, texts);
  assert.deepEqual([recording.isStuck, recording.program], [true, null]);
  assert.ok(recording.cycles < 100);
});

test("a recording ignores breakpoints and watches, which stay", async () => {
  const { calls, texts } = await openSession("three lamps");
  const wavesWithoutStops = new Waves(await calls.record(3000, false, texts));
  await calls.serve("break 0x016\nbreak 0\nwatch 0 0\n");
  const waves = new Waves(await calls.record(3000, false, texts));
  assert.deepEqual([waves.cycles, wholeText(waves)], [3000, wholeText(wavesWithoutStops)]);
  assert.deepEqual(calls.ask("breaks\nwatches\n"), ["breaks 000 016", "watches 0.00"]);
});

test("a long recording in both directions has the same edges", async () => {
  const { calls, texts } = await openSession("stopwatch");
  await calls.serve("test 0\n");
  const futureWaves = new Waves(await calls.record(300000, false, texts));
  await calls.serve("run 100000\n".repeat(3));
  const pastWaves = new Waves(await calls.record(300000, true, texts));
  assert.equal(wholeText(futureWaves), wholeText(pastWaves));
  const lampChanges = futureWaves.changesOf(lineIndexOf(futureWaves, "lamp15"));
  assert.deepEqual(new Set([...lampChanges].slice(2).map((moment, at) => moment - lampChanges[at + 1])), new Set([926]));
});

test("a recording can be cancelled", async () => {
  const { calls, texts } = await openSession("calculator", async () => false);
  await assert.rejects(calls.record(100000, false, texts), /cancelled/);
});

test("recorded registers, pairs, characters and ports are those that the bench reports", async () => {
  const { calls, texts } = await openSession("calculator");
  await calls.serve("run 30000\npress 2 0\n");
  const values = ["acc", "cy", "r5", "p2", "src", "dcl", "ram.0.0x12", "st.0.1.2"];
  const waves = new Waves(await calls.record(700, false, { ...texts, values }));
  const valueAt = (name, moment) => waves.valueAt(lineIndexOf(waves, name), moment);
  let state = "";
  for (let moment = 0; moment <= 700; moment += 7) {
    [state] = moment === 0 ? calls.ask("state\n") : calls.ask(`run ${moment}\nstate\n`).slice(-1);
    const readField = (key) => new RegExp(` ${key} (\\S+)`).exec(state)[1];
    const registers = readField("r");
    assert.deepEqual(["acc", "cy", "r5", "p2", "src", "dcl"].map((name) => valueAt(name, moment)),
      [readField("acc"), readField("cy"), registers[5], registers.slice(4, 6), readField("src"), readField("dcl")], `cycle ${moment}`);
    const roms = readField("roms").split(",").map((each) => each.split("."));
    for (const [chip, out] of roms) if (chip === "0") assert.equal(valueAt("rom0[3:0]", moment), out, `cycle ${moment}`);
  }
  assert.equal(valueAt("ram.0.0x12", 700), calls.ask("run 700\nram 0\n")[3].split(" ")[1][2]);
});

test("a recording in pieces gives the same VCD file, also for some lines, ports and values", async () => {
  const settings = [["stopwatch", "test 0\nrun 1001\n", ["acc", "p2"]], ["calculator", "press 0 1\nrun 7\nstep\n", ["r5"]]];
  for (const [name, lines, values] of settings) {
    const { calls, texts } = await openSession(name);
    await calls.serve(lines);
    const wholeWaves = new Waves(await calls.record(50001, false, { ...texts, values }));
    const lineIndices = wholeWaves.lines.map((_, line) => line);
    const portIndices = lineIndices.filter((line) => wholeWaves.lines[line].kind === "port");
    for (const selectedLines of [lineIndices, lineIndices.filter((line) => line % 7 === 3), portIndices]) {
      const { lines: recordedLines, chosenIndices } = linesWithMembers(wholeWaves.lines, selectedLines);
      let [vcdText, parts] = [null, []];
      const state = calls.bench.session.file.slice();
      const { program } = wholeWaves;
      for await (const waves of recordPieces(calls.bench.engine, state, { lines: recordedLines, program, cycles: 50001 }, async () => {})) {
        if (!vcdText) {
          vcdText = new VcdText(waves, chosenIndices);
          parts.push(vcdText.formatHeader());
        }
        parts = [...parts, ...vcdText.formatChanges()];
        assert.ok(waves.length <= 20000);
      }
      assert.equal([...parts, vcdText.formatEnd()].join(""), [...vcdParts(wholeWaves, selectedLines)].join(""));
    }
  }
});
