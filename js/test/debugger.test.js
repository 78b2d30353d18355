// Tests the debugger on the page's WebAssembly module: breakpoints with conditions, hit counts and log messages, steps, and going back in
// time.
import assert from "node:assert/strict";
import { before, test } from "node:test";
import { Face } from "../core/board/face.js";
import { readBoard } from "../core/bench/answers.js";
import { BreakpointList } from "../core/debug/breakpoints.js";
import { DebugSession } from "../core/debug/debug_session.js";
import { compileNote } from "../core/debug/soft_breakpoints.js";
import { Engine } from "../core/engine/engine.js";
import { pageModule } from "./page_session.js";

const BOARD = `# lamp 0: one two
[[rom]]
chip = 0
port = "0000"

[[ram]]
bank = 0
chips = 1

[[lamp]]
line = "ram0.0.0"

[[lamp]]
line = "ram0.0.1"
`;
// R4 counts up from 0. Each iteration of the loop calls `show`, which writes R4 to the lamps and waits 34 cycles.
const PROGRAM = `; counts
start:  FIM P0, 0
        SRC P0
turn:   JMS show

        INC R4
        JUN turn
show:   LD R4
        WMP
        FIM P3, 0
wait:   ISZ R6, wait
        BBL 0
`;
const LINE = { turn: 4, blank: 5, increment: 6, show: 8, write: 9, wait: 11, back: 12 };

/** @type {Engine} */
let engine;
before(async () => {
  engine = await Engine.load(pageModule);
});

const openSession = (program = PROGRAM) => new DebugSession(engine, { board: BOARD, program });

test("a session in memory: breakpoints at lines, steps, values, and going back and forward", async () => {
  const session = openSession();
  assert.deepEqual(session.rejectedTexts, []);
  session.breakpoints.add({ line: LINE.blank });
  const { messages, errors } = await session.applyBreakpoints();
  assert.deepEqual([messages, errors], [["Line 5 puts no bytes into ROM: its breakpoint is at the next instruction, line 6."], []]);
  const stop = await session.runToGoal();
  assert.deepEqual([stop.reason, stop.id, session.line], ["break", 1, LINE.increment]);
  assert.equal(stop.message, "Paused at 005 (turn + 2, line 6), at a breakpoint.");
  assert.equal((await session.stepInto()).message, "At 006 (turn + 3, line 7), after 1 cycle, 0.011 ms.");
  assert.deepEqual(session.values(["r4", "lamps", "acc", "nothing"]), ["1", "..", "0", ""]);
  assert.equal((await session.runToGoal({ kind: "over" })).message, "At 003 (turn, line 4), after 2 cycles, 0.022 ms.");
  await session.stepInto();
  assert.deepEqual([session.line, session.returns[0]], [LINE.show, 5]);
  const stopAfterReturn = await session.runToGoal({ kind: "out" });
  assert.deepEqual([stopAfterReturn.reason, stopAfterReturn.endsAtReturn, session.line], ["goal", true, LINE.increment]);
  assert.match(stopAfterReturn.message, /^Returned to 005 \(turn \+ 2, line 6\), after 37 cycles/);
  assert.deepEqual(session.values(["lamp 0"]), ["*"]);
  const back = await session.goBack({ kind: "instruction" });
  assert.deepEqual([back.isDone, session.line], [true, LINE.back]);
  assert.equal(session.goForward().isDone, true);
  assert.equal(session.line, LINE.increment);
});

/** Runs to the next stop, `count` times. Resolves to the value of a register or memory cell at each stop. */
async function collectValuesAtStops(session, count, place) {
  const values = [];
  for (let stop = 0; stop < count; stop++) {
    await session.runToGoal();
    values.push(session.values([place])[0]);
  }
  return values;
}

test("conditions, hit counts and log messages, which the session file does not contain", async () => {
  const session = openSession();
  const conditionalBreakpoint = session.breakpoints.add({ line: LINE.write, condition: "r4 > 9 and lamp two off" });
  await session.applyBreakpoints();
  assert.deepEqual(await collectValuesAtStops(session, 4, "r4"), [..."ADEA"]);
  assert.equal(session.breakpoints.get(conditionalBreakpoint.id).hits, 4);
  const countedSession = openSession();
  const { id } = countedSession.breakpoints.add({ line: LINE.show, from: 5 });
  countedSession.breakpoints.add({ line: LINE.increment, note: "R4 is {r4}, lamps {lamps}, two {two}" });
  await countedSession.applyBreakpoints();
  const stop = await countedSession.runToGoal();
  assert.deepEqual([stop.reason, stop.id, countedSession.values(["r4"])[0]], ["break", id, "4"]);
  assert.deepEqual(stop.tally.notes.map(({ text: words }) => words),
    ["R4 is 0, lamps .., two .", "R4 is 1, lamps *., two .", "R4 is 2, lamps .*, two *", "R4 is 3, lamps **, two *"]);
  assert.deepEqual(countedSession.breakpoints.all.map(({ hits }) => hits), [4, 5]);
  assert.deepEqual(countedSession.debugger.session.ask("breaks\n"), ["breaks -"]);
});

test("conditional breakpoints stop at the same cycles as plain ones, for each frame length", async () => {
  const plainSession = openSession();
  plainSession.breakpoints.add({ line: LINE.show });
  await plainSession.applyBreakpoints();
  const expected = [];
  for (let stop = 0; stop < 40; stop++) {
    await plainSession.runToGoal();
    if (plainSession.values(["r4"])[0] === "7") expected.push(plainSession.debugger.session.count.total);
  }
  for (const frameLength of [1, 7, 1543, 100000]) {
    const softSession = openSession();
    softSession.breakpoints.add({ line: LINE.show, condition: "r4 = 7" });
    softSession.breakpoints.add({ line: LINE.wait, note: "waits" });
    await softSession.applyBreakpoints();
    const actual = [];
    while (actual.length < expected.length) {
      if (softSession.debugger.advance(frameLength).stop) actual.push(softSession.debugger.session.count.total);
    }
    assert.deepEqual(actual, expected, String(frameLength));
  }
});

test("a breakpoint stops a step; an invalid one reports its error, and stops every time until it is corrected", async () => {
  const session = openSession();
  session.breakpoints.add({ line: LINE.write, condition: "r4 = 0" });
  const invalidBreakpoint = session.breakpoints.add({ line: LINE.increment, condition: "r44 = 0" });
  const portBreakpoint = session.breakpoints.add({ line: LINE.wait, note: "{rom3}" });
  const { errors } = await session.applyBreakpoints();
  assert.deepEqual(errors, [[invalidBreakpoint.id, "r44: no such place; the registers are r0 to r15 (column 1)"],
    [portBreakpoint.id, "the note asks for {rom3}: the board has no ROM 3 (column 2)"]]);
  await session.runToGoal({ kind: "here", address: 3 });
  const stop = await session.runToGoal({ kind: "over" });
  assert.deepEqual([stop.reason, session.line], ["break", LINE.write]);
  const stops = [];
  for (let round = 0; round < 4; round++) stops.push([(await session.runToGoal()).id, session.line]);
  assert.deepEqual(stops, Array(4).fill([portBreakpoint.id, LINE.wait]));
  session.breakpoints.change(portBreakpoint.id, { note: "{rom0}" });
  session.breakpoints.change(invalidBreakpoint.id, { condition: "accu = 1" });
  await session.applyBreakpoints();
  const errorStop = await session.runToGoal();
  assert.deepEqual([errorStop.id, session.line], [invalidBreakpoint.id, LINE.increment]);
  assert.equal(errorStop.message, "Paused at 005 (turn + 2, line 6), at a breakpoint that has an error, "
    + "accu: no such place; the accumulator is acc (column 1).");
  assert.equal((await session.runToGoal()).id, invalidBreakpoint.id);
  session.breakpoints.change(invalidBreakpoint.id, { condition: "R4 == 0b11 || r4 >= 0xF" });
  await session.applyBreakpoints();
  const stopsAfterFix = [];
  for (let round = 0; round < 3; round++) stopsAfterFix.push([(await session.runToGoal()).id, session.values(["r4"])[0]]);
  assert.deepEqual(stopsAfterFix, [[invalidBreakpoint.id, "3"], [invalidBreakpoint.id, "F"], [1, "0"]]);
  assert.match(stop.message, /^Paused at 009 \(show \+ 1, line 9\), at a breakpoint, when r4 = 0, after 3 cycles, .*; the return .* not/);
});

test("going back keeps the current breakpoints, and running again repeats the same states", async () => {
  const session = openSession();
  const { session: bench } = session.debugger;
  await session.runToGoal({ kind: "count", count: 20 });
  const firstBreakpoint = session.breakpoints.add({ line: LINE.write });
  await session.applyBreakpoints();
  await session.runToGoal();
  const stateBefore = [bench.count.total, session.values(["r4", "pc"])];
  await session.runToGoal();
  session.breakpoints.remove(firstBreakpoint.id);
  session.breakpoints.add({ line: LINE.increment });
  await session.applyBreakpoints();
  await session.goBack({ kind: "stop" });
  await session.goBack({ kind: "stop" });
  assert.deepEqual([bench.count.total, session.values(["r4", "pc"])], stateBefore);
  assert.deepEqual(bench.ask("breaks\n"), ["breaks 005"]);
  await session.runToGoal();
  assert.equal(session.line, LINE.increment);
  for (let round = 0; round < 3; round++) await session.runToGoal();
  const finalState = [bench.count.total, session.values(["r4", "pc"])];
  await session.goBack({ kind: "instruction" });
  await session.stepInto();
  assert.deepEqual([bench.count.total, session.values(["r4", "pc"])], finalState);
});

/** Runs to the next breakpoint, `count` times. Resolves to the total cycle count and the value of r4 at each stop. */
async function collectStatesAtBreakpoints(session, count) {
  const states = [];
  for (let stop = 0; stop < count; stop++) {
    await session.runToGoal();
    states.push([session.debugger.session.count.total, session.values(["r4"])[0]]);
  }
  return states;
}

const goBackToArrival = (session, place = "") => session.goBack({ kind: "arrival", place });

test("going back to breakpoints passes the same stops in reverse order", async () => {
  const session = openSession();
  const { session: bench } = session.debugger;
  session.breakpoints.add({ line: LINE.write });
  await session.applyBreakpoints();
  const states = await collectStatesAtBreakpoints(session, 30);
  session.breakpoints.add({ line: LINE.increment, isOn: false });
  session.breakpoints.add({ line: LINE.back, note: "no stop" });
  await session.applyBreakpoints();
  await session.debugger.session.serve("poke r9 3\nrun 5\ntest 0\nrun 7\n", async () => true);
  const { total: finalTotal } = bench.count;
  for (const [index, [cycles, r4]] of [...states].reverse().entries()) {
    const totalBefore = bench.count.total;
    const travel = await goBackToArrival(session);
    assert.deepEqual([bench.count.total, session.values(["r4"])[0], session.line], [cycles, r4, LINE.write]);
    assert.deepEqual([travel.isDone, travel.end, travel.id, travel.cycles], [true, "break", 1, totalBefore - cycles]);
    assert.match(travel.message,
      index === 0 ? /^Back at 009 \(show \+ 1, line 9\), 12 cycles, 0.130 ms earlier, at a/ : /at a breakpoint\.$/);
  }
  const travelToStart = await goBackToArrival(session);
  assert.deepEqual([travelToStart.isDone, travelToStart.end, bench.count.total], [true, "beginning", 0]);
  assert.match(travelToStart.message,
    /^Back at 000 \(start, line 2\), .* earlier, at the beginning of the remembered past: no breakpoint was/);
  const failedTravel = await goBackToArrival(session);
  assert.deepEqual([failedTravel.isDone, failedTravel.message], [false, "Nothing was done: the remembered past reaches no further back."]);
  for (let move = 0; move < states.length + 1; move++) session.goForward();
  assert.equal(bench.count.total, finalTotal);
});

test("going back to breakpoints checks conditions, ignores hit counts, and uses the current breakpoints", async () => {
  const session = openSession();
  const { session: bench } = session.debugger;
  const firstBreakpoint = session.breakpoints.add({ line: LINE.show });
  await session.applyBreakpoints();
  const states = await collectStatesAtBreakpoints(session, 40);
  session.breakpoints.remove(firstBreakpoint.id);
  const { id } = session.breakpoints.add({ line: LINE.show, condition: "r4 = 3", from: 100 });
  await session.applyBreakpoints();
  for (const [cycles] of states.filter(([, r4]) => r4 === "3").reverse()) {
    const travel = await goBackToArrival(session);
    assert.deepEqual([bench.count.total, travel.id], [cycles, id]);
    assert.match(travel.message, /, at a breakpoint, when r4 = 3\.$/);
  }
  assert.equal((await goBackToArrival(session)).end, "beginning");
  assert.deepEqual(bench.ask("breaks\n"), ["breaks -"]);
});

test("going back also stops before changes of watched places", async () => {
  const session = openSession(PROGRAM.replace("BBL 0", "WRM\n BBL 0"));
  const { session: bench } = session.debugger;
  session.breakpoints.add({ line: LINE.show, condition: "r4 = 2" });
  await session.applyBreakpoints();
  await bench.serve("watch 0 0\nrun 100000\n", async () => true);
  await bench.serve("unwatch 0 0\nrun 300\nwatch 0 0\n", async () => true);
  const travel = await goBackToArrival(session);
  assert.deepEqual([travel.end, travel.place, travel.line], ["change", "ram.0.0x00", ""]);
  assert.match(travel.message, /: this instruction changes ram\.0\.0x00 from \w to \w\.$/);
  const oldValue = session.values(["ram.0.0x00"])[0];
  await session.stepInto();
  assert.notEqual(session.values(["ram.0.0x00"])[0], oldValue);
  await bench.serve("unwatch 0 0\n", async () => true);
  const travelToRegister = await goBackToArrival(session, "r4");
  assert.equal(travelToRegister.place, "r4");
  assert.equal((await goBackToArrival(session, "ram.7.0")).reason, "lacks");
  assert.match((await goBackToArrival(session, "ram1.0")).message, /^Nothing was done: this board has no ram1\.0\.$/);
});

test("going back to a breakpoint in a long run is fast", async () => {
  // R0 to R3 count the iterations. The program reaches `hit` once in 16 ** 4 iterations.
  const loopCode = [0, 1, 2, 3].map((register) => ` ISZ R${register}, turn\n`).join("");
  const session = openSession(`start: FIM P0, 0\n FIM P1, 0\nturn: NOP\n${loopCode}hit: NOP\n JUN turn\n`);
  const { session: bench } = session.debugger;
  const hitAddress = session.map.findValue("hit");
  session.breakpoints.add({ line: session.map.lineOf(hitAddress) });
  await session.applyBreakpoints();
  const states = await collectStatesAtBreakpoints(session, 3);
  for (let frame = 0; bench.count.total < 10000000; frame++) {
    if (session.debugger.advance(400000).stop) states.push([bench.count.total, ""]);
  }
  for (const [cycles] of states.reverse()) {
    if (cycles === bench.count.total) continue;
    assert.deepEqual([(await goBackToArrival(session)).end, bench.count.total, session.address], ["break", cycles, hitAddress]);
  }
});

test("breakpoints move with their lines when a program is assembled again", async () => {
  const session = openSession();
  session.breakpoints.add({ line: LINE.increment });
  session.breakpoints.add({ line: LINE.back, isOn: false });
  await session.applyBreakpoints();
  const lines = PROGRAM.split("\n");
  session.breakpoints.applyEdit({ from: { line: 1, ch: 0 }, to: { line: 1, ch: 0 }, text: ["        NOP", ""], removed: [""] });
  assert.equal(await session.setProgram([lines[0], "        NOP", ...lines.slice(1)].join("\n")), null);
  assert.deepEqual(session.breakpoints.all.map(({ line, address }) => [line, address]), [[7, 6], [13, 15]]);
  assert.deepEqual(session.debugger.session.ask("breaks\n"), ["breaks 006"]);
  assert.deepEqual(await session.setProgram("LDM 99\n"), { number: 33, line: 1 });
  await session.debugger.session.serve("reset\n", async () => true);
  await session.runToGoal();
  assert.equal(session.line, LINE.increment + 1);
});

test("a pause ends a run that has no stop", async () => {
  const session = openSession("JMS x\nx: JUN x\n");
  await session.runToGoal({ kind: "count", count: 1 });
  const stop = await session.runToGoal({ kind: "out" }, async (done) => done < 1000000);
  assert.equal(stop.reason, "pause");
  assert.match(stop.message, /^Paused at 002 \(x, line 2\), after .*; the return from the subroutine was not reached\.$/);
});

test("log messages show lamps by their names and ports as digits", () => {
  const face = new Face(BOARD);
  const lamps = [0, 1].flatMap((line) => ["[[lamp]]", `line = "ram0.0.${line}"`]);
  const board = readBoard(["board", "[[rom]]", "chip = 0", 'port = "0000"', ...lamps]);
  const { note, error } = compileNote("{one}{two} rom {rom0} {", { board, face, map: null });
  assert.deepEqual([error, note.places.length], ["", 3]);
  assert.equal(note.textOf(["1", "0", "9"]), "*. rom 9 {");
});

const linesAfterEdit = (lines, edit) => {
  const list = new BreakpointList(lines.map((line) => ({ line })));
  list.applyEdit(edit);
  return list.all.map(({ line }) => line);
};
const position = (line, ch = 0) => ({ line, ch });

test("breakpoints move with the lines of the text", () => {
  const edit = { from: position(3, 5), to: position(3, 5), text: ["x"], removed: [""] };
  assert.deepEqual(linesAfterEdit([2, 4, 6], edit), [2, 4, 6]);
  // Insert a line break in line 3, at the beginning of line 4, and in line 4.
  assert.deepEqual(linesAfterEdit([3, 4, 5], { from: position(2, 9), to: position(2, 9), text: ["", ""], removed: [""] }), [3, 5, 6]);
  assert.deepEqual(linesAfterEdit([3, 4, 5], { from: position(3), to: position(3), text: ["", ""], removed: [""] }), [3, 5, 6]);
  assert.deepEqual(linesAfterEdit([3, 4, 5], { from: position(3, 4), to: position(3, 4), text: ["", ""], removed: [""] }), [3, 4, 6]);
  // The first edit deletes lines 3 and 4 with their line breaks. The second edit, of another text, joins line 4 to line 3.
  assert.deepEqual(linesAfterEdit([2, 3, 4, 5], { from: position(2), to: position(4), text: ["", ""].slice(1), removed: ["a", "b", ""] }),
    [2, 3]);
  assert.deepEqual(linesAfterEdit([3, 4, 5], { from: position(2, 3), to: position(3, 0), text: [""], removed: ["", ""] }), [3, 4]);
  // Replace the whole text. The new text has one more line, before or after the first line.
  const removed = ["a", "b", "c", "d"];
  assert.deepEqual(linesAfterEdit([2, 4], { from: position(0), to: position(3, 1), text: ["new", ...removed], removed }), [3, 5]);
  assert.deepEqual(linesAfterEdit([2, 4], { from: position(0), to: position(3, 1), text: ["a", "new", "b", "c", "d"], removed }), [3, 5]);
});

test("a deleted line removes its breakpoint, and undoing the deletion restores it", () => {
  const list = new BreakpointList([{ line: 2 }, { line: 4, condition: "r4 = 7" }, { line: 6 }]);
  list.applyEdit({ from: position(2), to: position(4), text: [""], removed: ["a", "b", ""], origin: "cut" });
  assert.deepEqual(list.all.map(({ line }) => line), [2, 4]);
  assert.equal(list.applyEdit({ from: position(2), to: position(2), text: ["a", "b", ""], removed: [""], origin: "undo" }), true);
  assert.deepEqual(list.all.map(({ line, condition }) => [line, condition]), [[2, ""], [4, "r4 = 7"], [6, ""]]);
});

test("if the whole text is replaced, breakpoints keep their addresses", () => {
  const [removed, text] = [["a", "b", "c", "d"], ["new", "lines", "here", "x"]];
  // In the first case, neither the old nor the new text ends with a line feed. In the second, both do. In the third, lines below the edit
  // stay, so the edit does not replace the whole text.
  const cases = [[[], true, [[3, -1], [0, 4]]], [[""], true, [[3, -1], [0, 4]]], [[], false, [[2, 4], [3, -1]]]];
  for (const [end, replacesAll, lines] of cases) {
    const list = new BreakpointList([{ line: 2, address: 4 }, { line: 3 }]);
    const range = { from: position(0), to: position(3 + end.length) };
    list.applyEdit({ ...range, text: [...text, ...end], removed: [...removed, ...end], replacesAll });
    assert.deepEqual(list.all.map(({ line, address }) => [line, address]), lines);
  }
});

test("the message about a stop contains the breakpoint's condition and hit count", async () => {
  const session = openSession();
  session.breakpoints.add({ line: LINE.write, condition: "r4 = 2", from: 2 });
  await session.applyBreakpoints();
  assert.match((await session.runToGoal()).message, /^Paused at 009 \(show \+ 1, line 9\), at a breakpoint, when r4 = 2, at hit 2\.$/);
});
