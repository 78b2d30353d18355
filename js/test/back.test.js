// Tests going back and forward in time, on the page's WebAssembly module.
import assert from "node:assert/strict";
import { test } from "node:test";
import { matrixKey } from "../core/board/key_place.js";
import { CycleCount } from "../core/engine/accepted_commands.js";
import { MAX_FORWARD_MOVES, Timeline } from "../core/engine/timeline.js";
import { FakeEngine } from "./fake_engine.js";
import { openExample, readCounter } from "./page_session.js";

const ALL_QUERIES = "seq\nboard\nstate\nram 0\nlist 0 256\n";

test("going back by one stop undoes the last lines, and going forward restores the same bytes", async () => {
  const calls = await openExample("three lamps");
  const snapshots = [calls.ask(ALL_QUERIES)];
  for (const lines of ["run 1000\n", "poke r5 9\npoke r6 3\n", "step\n", "reset\n", "wire\n[[rom]]\nchip = 0\nport = \"0000\"\n.\n"]) {
    await calls.serve(lines);
    snapshots.push(calls.ask(ALL_QUERIES));
  }
  const finalFile = Buffer.from(calls.bench.session.file);
  const { total, reset } = calls.bench.session.count;
  for (const snapshot of snapshots.slice(0, -1).reverse()) {
    assert.equal((await calls.goBack({ kind: "stop" })).isDone, true);
    assert.deepEqual(calls.ask(ALL_QUERIES), snapshot);
  }
  assert.equal((await calls.goBack({ kind: "stop" })).reason, "short");
  assert.equal(calls.bench.session.count.total, 0);
  for (const snapshot of snapshots.slice(1)) {
    assert.equal(calls.goForward().isDone, true);
    assert.deepEqual(calls.ask(ALL_QUERIES), snapshot);
  }
  assert.equal(calls.goForward().isDone, false);
  assert.equal(Buffer.compare(finalFile, calls.bench.session.file), 0);
  assert.deepEqual([calls.bench.session.count.total, calls.bench.session.count.reset], [total, reset]);
});

test("the last change of a place is reported without going back, and is the change that going back finds", async () => {
  const calls = await openExample("three lamps");
  await calls.serve("run 5000\npoke r9 3\nrun 100\n");
  const snapshot = calls.ask(ALL_QUERIES);
  const { line, cycles, address } = await calls.findLastChange("r9");
  assert.deepEqual([line, cycles, address], ["poke r9 3", 100, -1]);
  const lampChange = await calls.findLastChange("lamps");
  assert.equal((await calls.findLastChange("r15")).isFound, false);
  assert.equal((await calls.findLastChange("ram.7.0")).reason, "lacks");
  assert.deepEqual(calls.ask(ALL_QUERIES), snapshot);
  const travel = await calls.goBack({ kind: "change", place: "lamps" });
  assert.deepEqual([lampChange.from, lampChange.to, lampChange.cycles], [travel.from, travel.to, travel.cycles]);
  assert.equal(lampChange.address, parseInt(readCounter(calls), 16));
});

test("keys that were pressed while the machine ran are pressed again", async () => {
  const calls = await openExample("calculator");
  calls.advance(20000);
  calls.press(matrixKey(3, 0));
  calls.release(matrixKey(3, 0));
  for (let frame = 0; frame < 20; frame++) calls.advance(1543);
  calls.halt();
  const snapshot = calls.ask(ALL_QUERIES);
  await calls.serve("step\n");
  await calls.goBack({ kind: "stop" });
  assert.deepEqual(calls.ask(ALL_QUERIES), snapshot);
});

test("going back by an instruction follows the trace, across stops and frames", async () => {
  const calls = await openExample("three lamps");
  const counters = [];
  for (let step = 0; step < 40; step++) {
    counters.push(readCounter(calls));
    await calls.serve("step\n");
  }
  const otherCalls = await openExample("three lamps");
  // Some frames end between the two cycles of an instruction.
  while (otherCalls.bench.session.count.total < calls.bench.session.count.total) {
    otherCalls.advance(Math.min(7, calls.bench.session.count.total - otherCalls.bench.session.count.total));
  }
  for (const counter of counters.reverse()) {
    assert.equal((await otherCalls.goBack({ kind: "instruction" })).isDone, true);
    assert.equal(readCounter(otherCalls), counter);
  }
  assert.equal((await otherCalls.goBack({ kind: "instruction" })).reason, "short");
});

test("going back to the last change ends before the instruction or the command that made it", async () => {
  const calls = await openExample("three lamps", "run 4000\npoke r9 5\nrun 3000\n");
  const pokeChange = await calls.goBack({ kind: "change", place: "r9" });
  assert.deepEqual([pokeChange.isDone, pokeChange.from, pokeChange.to, pokeChange.line, pokeChange.cycles],
    [true, "0", "5", "poke r9 5", 3000]);
  const lampChange = await calls.goBack({ kind: "change", place: "lamps" });
  assert.equal(readCounter(calls), "006");
  assert.deepEqual(calls.ask("lamps\n"), [`lamps ${lampChange.from}`]);
  await calls.serve("step\n");
  assert.deepEqual(calls.ask("lamps\n"), [`lamps ${lampChange.to}`]);
  assert.equal((await calls.goBack({ kind: "change", place: "r9" })).reason, "short");
  assert.equal((await calls.goBack({ kind: "change", place: "ram.7.0" })).reason, "lacks");
});

test("going back to a distant change, made by a command or by an instruction", async () => {
  const calls = await openExample("three lamps", `run 4000\npoke r9 5\n${"run 100000\n".repeat(30)}step\nrun 7\n`);
  const { cycles } = await calls.goBack({ kind: "change", place: "r9" });
  assert.ok(cycles > 3000007 && cycles < 3000010);
  const [registers, pokeAnswer] = [calls.ask("regs\n")[0], (await calls.serve("poke r9 5\n")).firstAnswer];
  assert.match(registers, / r .{9}0/);
  assert.match(pokeAnswer, /^ok/);
  assert.equal((await calls.goBack({ kind: "change", place: "r9" })).line, "poke r9 5");
  const callsWithReset = await openExample("three lamps", "run 4000\nreset\nrun 3\n");
  const result = await callsWithReset.goBack({ kind: "change", place: "ram0.0" });
  assert.deepEqual([result.line, result.cycles, result.to], ["reset", 3, "0"]);
});

test("a command makes going forward impossible; a query does not", async () => {
  const calls = await openExample("three lamps", "run 100\n");
  assert.equal((await calls.goBack({ kind: "stop" })).futureCount, 1);
  calls.ask("regs\n");
  assert.equal((await calls.serve("regs\nfoo\n")).futureCount, 1);
  assert.equal((await calls.serve("poke r5 1\n")).futureCount, 0);
});

test("a timeline keeps the stops of a long past, and limits its segments and forward moves", async () => {
  const engine = new FakeEngine();
  const current = { file: engine.begin(), count: new CycleCount() };
  const timeline = new Timeline(current);
  const run = (cycles) => timeline.record([{ line: `run ${cycles}`, cycles, resets: false }], current);
  run(100);
  for (let piece = 0; piece < 100; piece++) run(5000000);
  assert.ok(timeline.segments.length <= 48);
  assert.deepEqual(timeline.lastStop(), { segment: 0, entry: 0, cycles: 0 });
  assert.deepEqual(timeline.momentBefore(5000001), { segment: timeline.segments.length - 3, entry: 0, cycles: 4999999 });
  assert.equal(timeline.momentBefore(400000000), null);
  for (let move = 0; move < 100; move++) timeline.goBack(timeline.momentBefore(1), current);
  assert.equal(timeline.future.length, MAX_FORWARD_MOVES);
});
