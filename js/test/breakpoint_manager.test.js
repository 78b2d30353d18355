// Tests the breakpoint manager with a stand-in for the bench: setting and moving breakpoints, and adopting breakpoints that the bench
// reports.
import assert from "node:assert/strict";
import { test } from "node:test";
import { BreakpointManager } from "../core/debug/breakpoint_manager.js";
import { isSoft } from "../core/debug/soft_breakpoints.js";
import { describeDetails, breakpointMarks } from "../core/machine/breakpoint_marks.js";
import { SourceMap } from "../core/machine/source_map.js";
import { hex } from "../core/bench/numbers.js";

const TEXT = "on = 12\ngo: JMS put\n\nput: BBL 0\n";
const MAP = new SourceMap(["map lines 4 names 3", "line 1 000 0", "line 2 000 2", "line 3 002 0", "line 4 002 1", "name on 00C",
  "name go 000", "name put 002"], TEXT);

/** Returns a breakpoint manager and a stand-in for the bench, which accepts every call and then reports its breakpoints. */
function createManager(savedBreakpoints, breaks = []) {
  const log = { messages: [], editCount: 0, setCalls: [], failures: [] };
  const bench = { breaks };
  const manager = new BreakpointManager({
    setBreakpoints: async (breakpoints) => {
      log.setCalls.push(breakpoints.map(({ line, address }) => [line, address]));
      bench.breaks = breakpoints.filter((breakpoint) => !isSoft(breakpoint)).map(({ address }) => hex(address, 3));
      manager.updateFromBench(bench.breaks);
      return breakpoints.filter(({ condition }) => condition === "no").map(({ id }) => [id, "it is none"]);
    },
    handleChange: () => {},
    handleNewHits: () => {},
    saveList: () => {
      log.editCount += 1;
    },
    showMessage: (message) => log.messages.push(message),
    reportFailure: (error) => log.failures.push(error),
  });
  manager.switchToSession("one", savedBreakpoints);
  manager.updateFromBench(bench.breaks);
  return { manager, log, bench };
}
/** Returns a list that contains the edit from `oldText` to `newText`. */
function createReplacementEdits(oldText, newText) {
  const removed = oldText.split("\n");
  const to = { line: removed.length - 1, ch: removed[removed.length - 1].length };
  return [{ from: { line: 0, ch: 0 }, to, text: newText.split("\n"), removed, replacesAll: true }];
}
const linesAndAddressesOf = ({ list }) => list.all.map(({ line, address }) => [line, address]);

test("opening a session without breakpoints sends no request to the bench", async () => {
  const { manager, log } = createManager(undefined);
  manager.setSourceMap(MAP, "");
  await manager.requestsDone;
  assert.deepEqual([log.setCalls, log.editCount, log.failures], [[], 0, []]);
});

test("breakpoints that the bench reports are adopted, and are assigned to lines once the source is known", async () => {
  const { manager, log } = createManager(undefined, ["000", "7FF"]);
  assert.deepEqual(linesAndAddressesOf(manager), [[0, 0], [0, 0x7FF]]);
  manager.setSourceMap(MAP, "");
  await manager.requestsDone;
  assert.deepEqual([linesAndAddressesOf(manager), log.setCalls.length, log.editCount], [[[2, 0], [0, 0x7FF]], 1, 0]);
});

test("a breakpoint at a line without bytes moves to the next instruction, with a message; a second click removes it", async () => {
  const { manager, log, bench } = createManager([]);
  manager.setSourceMap(MAP, "");
  manager.toggleLine(3);
  await manager.requestsDone;
  assert.deepEqual([linesAndAddressesOf(manager), bench.breaks], [[[4, 2]], ["002"]]);
  assert.deepEqual(log.messages, ["Line 3 puts no bytes into ROM: its breakpoint is at the next instruction, line 4."]);
  manager.toggleLine(3);
  assert.equal(manager.list.all.length, 1);
  manager.toggleLine(4);
  await manager.requestsDone;
  assert.deepEqual([linesAndAddressesOf(manager), bench.breaks, log.editCount], [[], [], 2]);
});

test("a breakpoint inside an instruction moves to the next instruction, with a message", async () => {
  const { manager, log, bench } = createManager([]);
  manager.setSourceMap(MAP, "");
  manager.updateFromBench(["001"]);
  await manager.requestsDone;
  assert.deepEqual([linesAndAddressesOf(manager), bench.breaks], [[[4, 2]], ["002"]]);
  assert.deepEqual(log.messages, ["001 is inside the instruction of line 2: its breakpoint is at the next one, line 4."]);
});

test("typed `break` and `unbreak` lines change the list", async () => {
  const { manager, bench } = createManager([]);
  manager.setSourceMap(MAP, "");
  manager.updateFromBench(["000"]);
  await manager.requestsDone;
  assert.deepEqual(linesAndAddressesOf(manager), [[2, 0]]);
  manager.change(manager.list.all[0].id, { isOn: false });
  await manager.requestsDone;
  assert.deepEqual(bench.breaks, []);
  manager.updateFromBench(["000"]);
  await manager.requestsDone;
  assert.deepEqual(manager.list.all.map(({ isOn }) => isOn), [true]);
  manager.updateFromBench([]);
  await manager.requestsDone;
  assert.deepEqual(linesAndAddressesOf(manager), []);
});

test("a `break` line that is typed during a request also changes the list", async () => {
  const { manager, bench } = createManager([]);
  manager.setSourceMap(MAP, "");
  // The bench serves the typed line after it has received the request, and reports the new breakpoint before the request has ended.
  const { callbacks: calls } = manager;
  const { setBreakpoints: originalSetBreakpoints } = calls;
  calls.setBreakpoints = async (breakpoints) => {
    const errors = await originalSetBreakpoints(breakpoints);
    bench.breaks = [...bench.breaks, "000"];
    manager.updateFromBench(bench.breaks);
    return errors;
  };
  manager.toggleAddress(0x700);
  calls.setBreakpoints = originalSetBreakpoints;
  await manager.requestsDone;
  await manager.requestsDone;
  assert.deepEqual([linesAndAddressesOf(manager), bench.breaks], [[[2, 0], [0, 0x700]], ["000", "700"]]);
});

test("a change is sent before the previous one is answered, and the last change determines the error", async () => {
  const { manager } = createManager([{ line: 2, address: 0 }]);
  manager.setSourceMap(MAP, "");
  await manager.requestsDone;
  const [{ id }] = manager.list.all;
  /** The requests that were sent to the bench, each with a function that answers it. */
  const requests = [];
  manager.callbacks.setBreakpoints = ([{ condition }]) => new Promise((resolve) => {
    requests.push({ condition, answer: () => resolve([[id, condition]]) });
  });
  manager.change(id, { condition: "r4 = 7" });
  manager.change(id, { condition: "r4 = 8" });
  assert.deepEqual(requests.map(({ condition }) => condition), ["r4 = 7", "r4 = 8"]);
  for (const { answer } of requests.reverse()) answer();
  await manager.requestsDone;
  assert.deepEqual([...manager.errors], [[id, "r4 = 8"]]);
  assert.equal(manager.hasPendingRequest, false);
});

test("a condition is stored while the user types it, and is sent to the bench once the user enters it", async () => {
  const { manager, log } = createManager([{ line: 2, address: 0, isOn: true, condition: "", from: 1, note: "" }, { line: 4, address: 2 }]);
  manager.setSourceMap(MAP, "");
  await manager.requestsDone;
  const [{ id }] = manager.list.all;
  const setCallCount = log.setCalls.length;
  manager.saveTypedEdit(id, { condition: "r4 = " });
  assert.deepEqual(manager.savedBreakpoints.map(({ condition }) => condition), ["r4 = ", ""]);
  assert.deepEqual([log.setCalls.length, log.editCount, manager.list.all[0].condition], [setCallCount, 1, ""]);
  manager.saveTypedEdit(id, { condition: "r4 = 7" });
  manager.change(id, { condition: "r4 = 7" });
  manager.change(id, { condition: "r4 = 8" });
  await manager.requestsDone;
  assert.deepEqual([manager.savedBreakpoints[0].condition, manager.list.all[0].condition], ["r4 = 8", "r4 = 8"]);
  manager.saveTypedEdit(id, { note: "R4 is {r4}" });
  manager.switchToSession("two", undefined);
  assert.deepEqual(manager.savedBreakpoints, []);
});

test("a failure of the bench is reported once, and the next list is sent", async () => {
  const { manager, log, bench } = createManager([]);
  manager.setSourceMap(MAP, "");
  const { setBreakpoints: originalSetBreakpoints } = manager.callbacks;
  manager.callbacks.setBreakpoints = async () => { throw new Error("it died"); };
  manager.toggleAddress(0x700);
  manager.callbacks.setBreakpoints = originalSetBreakpoints;
  manager.toggleAddress(0x701);
  await manager.requestsDone;
  const messages = log.failures.map(({ message }) => message);
  assert.deepEqual([messages, bench.breaks, manager.hasPendingRequest], [["it died"], ["700", "701"], false]);
});

test("breakpoints can be set in a source that differs from ROM, and stop once it is assembled", async () => {
  const { manager, log, bench } = createManager([]);
  manager.setSourceMap(null, "Source and ROM differ from line 4 (0x002). Assemble to update.");
  manager.toggleLine(4);
  await manager.requestsDone;
  assert.deepEqual([linesAndAddressesOf(manager), bench.breaks], [[[4, -1]], []]);
  assert.match(log.messages[0], /Assemble to update\. Until then this breakpoint stops nothing\.$/);
  assert.deepEqual([...breakpointMarks(manager.list.all, manager.errors).lines.values()],
    [{ mark: "\u25CB", description: "breakpoint: it stops once the source is assembled" }]);
  manager.setSourceMap(MAP, "");
  await manager.requestsDone;
  assert.deepEqual(bench.breaks, ["002"]);
});

test("after a program is assembled again, its breakpoints follow their lines, in one request", async () => {
  const { manager, log, bench } = createManager([{ line: 2, address: 0 }, { line: 4, address: 2 }], ["000", "002"]);
  manager.setSourceMap(MAP, "");
  await manager.requestsDone;
  manager.applyTextEdits([{ from: { line: 0, ch: 7 }, to: { line: 0, ch: 7 }, text: ["", "NOP"], removed: [""] }]);
  manager.setSourceMap(null, "assemble it");
  await manager.requestsDone;
  assert.deepEqual([linesAndAddressesOf(manager), bench.breaks], [[[3, 0], [5, 2]], ["000", "002"]]);
  const mapAnswer = ["map lines 5 names 0", "line 1 000 0", "line 2 000 1", "line 3 001 2", "line 4 003 0", "line 5 003 1"];
  manager.setSourceMap(new SourceMap(mapAnswer, TEXT.replace("\n", "\nNOP\n")), "");
  await manager.requestsDone;
  assert.deepEqual([bench.breaks, log.setCalls.length], [["001", "003"], 2]);
});

test("an invalid condition is reported; a disabled breakpoint is kept; hits are counted", async () => {
  const { manager, bench } = createManager([{ line: 2, address: 0, condition: "no" }, { line: 4, address: 2, isOn: false }]);
  manager.setSourceMap(MAP, "");
  await manager.requestsDone;
  const [invalidBreakpoint, disabledBreakpoint] = manager.list.all;
  assert.deepEqual([[...manager.errors], bench.breaks], [[[invalidBreakpoint.id, "it is none"]], []]);
  manager.countHits({ hits: [[disabledBreakpoint.id, 2], [disabledBreakpoint.id, 1]], notes: [], noteCount: 0 });
  assert.equal(disabledBreakpoint.hits, 3);
  assert.deepEqual([...breakpointMarks(manager.list.all, manager.errors).lines.values()].map(({ mark, description }) => (
    `${mark} ${description}`)),
    ["\u25CF breakpoint if no: it stops every time, because of an error: it is none", "\u25CB breakpoint: it is off"]);
  assert.deepEqual(manager.list.savedBreakpoints[1], { line: 4, address: 2, isOn: false, condition: "", from: 1, note: "" });
});

test("a breakpoint beyond the bench's maximum is kept, but disabled", async () => {
  const { manager, log } = createManager([]);
  for (let address = 0x100; address < 0x121; address++) manager.toggleAddress(address);
  await manager.requestsDone;
  assert.deepEqual([manager.list.enabledCount, manager.list.all.length, log.messages.length], [32, 33, 1]);
  const disabledBreakpoint = manager.list.all.find(({ isOn }) => !isOn);
  manager.change(disabledBreakpoint.id, { isOn: true });
  assert.deepEqual([manager.list.enabledCount, log.messages.length], [32, 2]);
  manager.remove(manager.list.all[0].id);
  manager.change(disabledBreakpoint.id, { isOn: true });
  await manager.requestsDone;
  assert.deepEqual([manager.list.enabledCount, log.setCalls.pop().length], [32, 32]);
});

const STORED_BREAKPOINTS = [{ line: 2, address: 0, isOn: true, condition: "r5 = 13", from: 3, note: "" },
  { line: 4, address: 2, isOn: false, condition: "", from: 1, note: "acc is {acc}" }];
const OTHER_PROGRAMS = { short: "; a\n NOP", long: "; a\n; b\n NOP\n NOP\n; c" };

for (const [length, otherText] of Object.entries(OTHER_PROGRAMS)) {
  test(`breakpoints are restored when a text is replaced by a ${length} one and then put back`, async () => {
    const { manager } = createManager(STORED_BREAKPOINTS, ["000"]);
    manager.setSourceMap(MAP, "");
    manager.applyTextEdits(createReplacementEdits(TEXT, otherText));
    manager.setSourceMap(null, "assemble it");
    // Load the other program into ROM. Its instructions are on other lines.
    manager.setSourceMap(new SourceMap(["map lines 2 names 0", "line 1 000 0", "line 2 000 1"], OTHER_PROGRAMS.short), "");
    await manager.requestsDone;
    manager.applyTextEdits(createReplacementEdits(otherText, TEXT));
    assert.deepEqual(manager.list.savedBreakpoints, STORED_BREAKPOINTS);
    // A breakpoint must also be restored if both texts end with a line feed.
    manager.removeAll();
    manager.toggleLine(1);
    manager.applyTextEdits(createReplacementEdits(TEXT, `${otherText}\n`));
    manager.applyTextEdits(createReplacementEdits(`${otherText}\n`, TEXT));
    assert.deepEqual(linesAndAddressesOf(manager).map(([line]) => line), [2]);
  });
}

test("the breakpoints of a restored text are sent to the bench, even before the source is checked", async () => {
  const { manager, bench } = createManager([{ line: 4, address: 2 }], ["002"]);
  manager.setSourceMap(MAP, "");
  manager.applyTextEdits(createReplacementEdits(TEXT, OTHER_PROGRAMS.short));
  await manager.requestsDone;
  assert.deepEqual(bench.breaks, []);
  manager.applyTextEdits(createReplacementEdits(OTHER_PROGRAMS.short, TEXT));
  await manager.requestsDone;
  assert.deepEqual([bench.breaks, linesAndAddressesOf(manager)], [["002"], [[4, 2]]]);
});

test("changes of breakpoints in the other text stay when the text is restored", () => {
  const { manager } = createManager(STORED_BREAKPOINTS);
  manager.applyTextEdits(createReplacementEdits(TEXT, OTHER_PROGRAMS.long));
  manager.change(manager.list.findByAddress(0).id, { condition: "r5 = 14" });
  manager.toggleAddress(0x700);
  assert.deepEqual(linesAndAddressesOf(manager), [[0, 0], [0, 2], [0, 0x700]]);
  manager.applyTextEdits(createReplacementEdits(OTHER_PROGRAMS.long, TEXT));
  assert.deepEqual(linesAndAddressesOf(manager), [[2, 0], [4, 2], [0, 0x700]]);
  assert.deepEqual(manager.list.all.map(({ condition }) => condition), ["r5 = 14", "", ""]);
});

test("breakpoints are also restored after another session was open", () => {
  const { manager } = createManager(STORED_BREAKPOINTS);
  manager.applyTextEdits(createReplacementEdits(TEXT, OTHER_PROGRAMS.short));
  const savedBreakpoints = structuredClone(manager.list.savedBreakpoints);
  manager.switchToSession("two", undefined);
  manager.switchToSession("one", savedBreakpoints);
  manager.applyTextEdits(createReplacementEdits(OTHER_PROGRAMS.short, TEXT));
  assert.deepEqual(manager.list.savedBreakpoints, STORED_BREAKPOINTS);
});

test("no more breakpoints are restored than can be enabled", () => {
  const { manager } = createManager(Array.from({ length: 32 }, (_, at) => ({ line: at + 1, address: at })));
  const manyLines = Array.from({ length: 32 }, (_, index) => `line ${index}`).join("\n");
  manager.applyTextEdits(createReplacementEdits(manyLines, ""));
  for (let address = 0x100; address < 0x110; address++) manager.toggleAddress(address);
  manager.applyTextEdits(createReplacementEdits("", manyLines));
  assert.deepEqual([manager.list.enabledCount, manager.list.all.length, manager.list.all[31].isOn], [32, 48, true]);
});

test("an unchanged edit sends nothing, but discards the typed text", async () => {
  const { manager, log } = createManager([{ line: 2, condition: "r5 = 1" }]);
  const [{ id }] = manager.list.all;
  const unchangedTexts = { condition: "r5 = 1", from: 1, note: "" };
  manager.change(id, unchangedTexts);
  assert.equal(log.editCount, 0);
  manager.saveTypedEdit(id, { ...unchangedTexts, condition: "r5 =" });
  assert.deepEqual([manager.savedBreakpoints[0].condition, log.editCount], ["r5 =", 1]);
  manager.change(id, unchangedTexts);
  assert.deepEqual([manager.savedBreakpoints[0].condition, log.editCount], ["r5 = 1", 2]);
});

test("a breakpoint's details are described; a plain breakpoint has no description", () => {
  const plainBreakpoint = { condition: "", from: 1, note: " " };
  assert.equal(describeDetails(plainBreakpoint), "");
  assert.equal(describeDetails({ ...plainBreakpoint, condition: " r9 = 9 ", from: 2 }), "if r9 = 9 from hit 2 on");
  assert.equal(describeDetails({ ...plainBreakpoint, note: "R9 is {r9}" }), 'logs "R9 is {r9}" and continues');
  assert.equal(describeDetails({ ...plainBreakpoint, from: 3, note: "x" }), 'from hit 3 on: logs "x" and continues');
});
