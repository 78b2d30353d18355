// Tests recordings that grow while the machine is running, on the page's WebAssembly module. They must equal a recording made in one call.
import assert from "node:assert/strict";
import { test } from "node:test";
import { matrixKey } from "../core/board/key_place.js";
import { LiveWaves } from "../core/waves/live_waves.js";
import { vcdParts } from "../core/waves/vcd.js";
import { Waves } from "../core/waves/wave_recording.js";
import { openExample, examplesOfPage } from "./page_session.js";

async function openSession(name, lines = "") {
  const { board, program } = examplesOfPage.find((example) => example.name === name);
  return { calls: await openExample(name, lines), texts: { board, program, values: [] } };
}

const lineIndexOf = (waves, name) => waves.lines.findIndex((line) => line.name === name);
const wholeText = (waves) => [...vcdParts(waves, waves.lines.map((_, line) => line))].join("");

/** Starts a recording, and returns it. Its function `addPart` takes the answer to a call, which contains a part of the recording. */
function startRecording(calls, texts, { maxCycles = 1000000, cyclesAfterTrigger = 0, trigger = "", pausesAtEnd = false } = {}) {
  const { recording, error } = calls.recordLive(texts, { trigger, cyclesAfterTrigger, stopsMachine: pausesAtEnd });
  assert.equal(error, "");
  const liveWaves = new LiveWaves(recording, { maxCycles, cyclesAfterTrigger, trigger, pausesAtEnd });
  return { liveWaves, addPart: (answer) => liveWaves.append(answer.waves) };
}

test("a live recording of frames, keys, lines and steps equals a recording of the past", async () => {
  const { calls, texts } = await openSession("calculator", "run 30000\n");
  texts.values = ["r5", "p2", "ram.0.0x12"];
  const { liveWaves, addPart } = startRecording(calls, texts);
  for (let frame = 0; frame < 4; frame++) addPart(calls.advance(1543));
  addPart(calls.advance(1543, matrixKey(2, 0)));
  addPart(calls.advance(3000));
  calls.release(matrixKey(2, 0));
  addPart(calls.advance(4000));
  addPart(await calls.serve("step\nrun 777\npress 0 0\nrun 50\nrelease 0 0\npoke r5 3\nstep\nreset\nstep\nrun 100\n"));
  addPart(await calls.runToGoal({ kind: "over" }));
  addPart(calls.advance(500));
  const wholeWaves = new Waves(await calls.record(liveWaves.waves.cycles, true, texts));
  assert.equal(liveWaves.waves.cycles, wholeWaves.cycles);
  assert.equal(wholeText(liveWaves.waves), wholeText(wholeWaves));
  assert.deepEqual([...liveWaves.waves.listing].sort(), [...wholeWaves.listing].sort());
  assert.ok(liveWaves.waves.changesOf(lineIndexOf(liveWaves.waves, "key.1")).length === 2);
  liveWaves.append(calls.endRecording());
  assert.match(liveWaves.statusText, /^Recorded .* You stopped it\.$/);
  assert.equal(calls.advance(100).waves, null);
});

test("the session is the same with and without a recording", async () => {
  const [plainSession, recordingSession] = [await openSession("stopwatch", "test 0\n"), await openSession("stopwatch", "test 0\n")];
  startRecording(recordingSession.calls, recordingSession.texts, { trigger: "lamp 15 on", cyclesAfterTrigger: 100 });
  for (const { calls } of [plainSession, recordingSession]) {
    for (let frame = 0; frame < 20; frame++) calls.advance(1543);
    await calls.serve("break 0x00C\n");
    calls.advance(5000);
  }
  assert.deepEqual(plainSession.calls.ask("state\n"), recordingSession.calls.ask("state\n"));
  assert.deepEqual(plainSession.calls.bench.session.file, recordingSession.calls.bench.session.file);
});

test("only the last cycles are kept, and they equal a recording of the past", async () => {
  const { calls, texts } = await openSession("stopwatch", "test 0\n");
  const { liveWaves, addPart } = startRecording(calls, texts, { maxCycles: 5000 });
  liveWaves.waves.changesOf(lineIndexOf(liveWaves.waves, "rom0[3:0]"));
  for (let frame = 0; frame < 30; frame++) addPart(calls.advance(1543));
  assert.deepEqual([liveWaves.waves.length, liveWaves.waves.cycles], [5000, 30 * 1543]);
  const wholeWaves = new Waves(await calls.record(5000, true, texts));
  assert.equal(wholeText(liveWaves.waves), wholeText(wholeWaves));
});

test("a breakpoint stops the machine and the recording", async () => {
  const { calls, texts } = await openSession("three lamps", "break 0x00C\n");
  const { liveWaves, addPart } = startRecording(calls, texts);
  const frame = calls.advance(100000);
  addPart(frame);
  assert.equal(frame.stop.reason, "break");
  assert.equal(liveWaves.waves.cycles, frame.cycles);
  assert.equal(liveWaves.waves.counterAt(liveWaves.waves.cycles), 0x00c);
});

/** Returns the values of a line one cycle before a moment and at this moment. */
const valuesAround = (waves, name, moment) => [moment - 1, moment].map((time) => waves.valueAt(lineIndexOf(waves, name), time));

/** Triggers, each with a function that reads the recording around the trigger moment, and its expected result. */
const TRIGGERS = [
  ["lamp15 rises", (waves, moment) => valuesAround(waves, "lamp15", moment), ["0", "1"]],
  ["lamp 15 falls", (waves, moment) => valuesAround(waves, "lamp15", moment), ["1", "0"]],
  ["r3 = 9", (waves, moment) => valuesAround(waves, "r3", moment).map((value) => value === "9"), [false, true]],
  ["@wait", (waves, moment) => [waves.labelAt(moment), waves.counterAt(moment) === waves.counterAt(moment - 1)], ["wait", false]],
];

for (const [trigger, readAround, expected] of TRIGGERS) {
  test(`a trigger, ${trigger}, with cycles before and after it`, async () => {
    const { calls, texts } = await openSession("stopwatch", "test 0\nrun 20000\n");
    texts.values = ["r3"];
    const { liveWaves, addPart } = startRecording(calls, texts, { maxCycles: 3000, cyclesAfterTrigger: 1000, trigger });
    for (let frame = 0; frame < 200 && liveWaves.isRecording; frame++) {
      const answer = calls.advance(1543);
      assert.equal(answer.stop, null);
      addPart(answer);
    }
    assert.equal(liveWaves.endReason, "trigger");
    const { waves, triggerMoment } = liveWaves;
    assert.deepEqual(readAround(waves, triggerMoment), expected);
    assert.equal(waves.cycles, triggerMoment + 1000);
    assert.equal(waves.from, Math.max(0, triggerMoment - 2000));
    assert.match(liveWaves.statusText, /The trigger was at cycle/);
  });
}

test("the machine stops at an instruction once the cycles after a trigger are recorded", async () => {
  const { calls, texts } = await openSession("stopwatch", "test 0\nrun 20000\n");
  const options = { maxCycles: 3000, cyclesAfterTrigger: 10, trigger: "lamp15 changes", pausesAtEnd: true };
  const { liveWaves, addPart } = startRecording(calls, texts, options);
  let frame = calls.advance(1);
  for (let count = 0; count < 50 && !frame.stop; count++) {
    addPart(frame);
    frame = calls.advance(1543);
  }
  addPart(frame);
  assert.equal(frame.stop.reason, "recorded");
  assert.deepEqual([liveWaves.endReason, liveWaves.waves.cycles], ["trigger", liveWaves.triggerMoment + 10]);
  assert.match(calls.ask("regs\n")[0], / owed 0 /);
  const laterFrame = calls.advance(1543);
  assert.deepEqual([laterFrame.stop, laterFrame.cycles, laterFrame.waves], [null, 1543, null]);
});

test("a key press can be a trigger", async () => {
  const { calls, texts } = await openSession("calculator", "run 30000\n");
  const { liveWaves, addPart } = startRecording(calls, texts, { maxCycles: 9000, cyclesAfterTrigger: 3000, trigger: "key 1 rises" });
  addPart(calls.advance(1543));
  addPart(calls.advance(1543, matrixKey(2, 0)));
  addPart(calls.advance(4000));
  assert.equal(liveWaves.waves.valueAt(lineIndexOf(liveWaves.waves, "key.1"), liveWaves.triggerMoment), "1");
  assert.deepEqual([liveWaves.triggerMoment, liveWaves.endReason], [1543, "trigger"]);
});

test("the reason for the end of a recording is reported", async () => {
  const statusAfter = async (action) => {
    const { calls, texts } = await openSession("three lamps", "run 500\n");
    const { liveWaves, addPart } = startRecording(calls, texts);
    addPart(calls.advance(100));
    addPart(await action(calls));
    assert.equal((await calls.serve("step\n")).waves, null);
    return liveWaves.statusText.replace(/^Recorded [^.]*\.\d+ m?s\. /, "");
  };
  assert.equal(await statusAfter((calls) => calls.goBack({ kind: "instruction" })), "It ended when the session went back or forward.");
  const board = "wire\n[[rom]]\nchip = 0\nport = \"0000\"\n.\n";
  assert.equal(await statusAfter((calls) => calls.serve(board)), "It ended when the board was wired again.");
  assert.equal(await statusAfter((calls) => calls.serve("asm\nNOP\n.\n")), "It ended when other bytes were put into ROM.");
  assert.equal(await statusAfter((calls) => calls.serve("run 100000\n".repeat(30))), "It ended at lines that did more than it can follow.");
});

test("an invalid trigger is reported, and nothing is recorded", async () => {
  const { calls, texts } = await openSession("calculator");
  const recordWith = (trigger) => calls.recordLive(texts, { trigger, cyclesAfterTrigger: 0, stopsMachine: false });
  const errors = {
    "r99 rises": 'nothing here is called r99; the Rows menu lists the names',
    "rom0 rises": "rom0 is a number: write rom0 changes, or as rom0 = 5",
    "pc changes": "write a place of the program as @LABEL",
    "r9 = 16": /15/,
    "@nowhere": /nowhere/,
    rubbish: /./,
  };
  for (const [trigger, message] of Object.entries(errors)) {
    const { recording, error } = recordWith(trigger);
    assert.equal(recording, null, trigger);
    if (typeof message === "string") assert.equal(error, message);
    else assert.match(error, message);
  }
  assert.equal(calls.advance(100).waves, null);
});
