// Tests the debug adapter's requests except those about stops: attaching, cancelled requests, progress, number formats, memory, completion,
// stack frames and targets.
import assert from "node:assert/strict";
import { test } from "node:test";
import { frameMessage } from "../core/server/framing.js";
import { FILES, FakeFile, LOCK, engine, startAdapter } from "./adapter_client.js";

const SHOW_ADDRESS = 0x71;

/** Returns the session file of the example "lock" after the bench has executed some session lines. */
function createLockSession(lines = "") {
  const file = new FakeFile(engine.begin());
  const program = FILES["/lock/lock.asm"].replace(/[ \t]*;.*/g, "");
  engine.serve(file.currentBytes, `wire\n${FILES["/lock/board.toml"].replace(/^#.*$/gm, "")}.\nasm\n${program}.\n${lines}`,
    file.currentBytes);
  file.bytes = file.currentBytes.slice();
  return file;
}

test("attach debugs the state in a session file, and leaves the file unchanged", async () => {
  const file = createLockSession("run 100\npress 1 1\n");
  const bytesBefore = file.currentBytes.slice();
  const { startSession, request, moveAndWait, evaluate, exitStatuses, getResponse } = startAdapter(FILES, { "/s.mcs": file });
  await startSession({ command: "attach", session: "/s.mcs" });
  assert.equal(await evaluate("state", "repl"), engine.ask(bytesBefore, "state\n").answers[0]);
  await moveAndWait("stepIn");
  await request("setExpression", { expression: "r4", value: "7" });
  assert.equal(await evaluate("r4"), "0x7");
  assert.equal((await getResponse("attach", { session: "/s.mcs" })).message, "launch can be sent only once");
  await moveAndWait("restart", {});
  assert.equal(await evaluate("state", "repl"), engine.ask(bytesBefore, "state\n").answers[0], "restart reads the file again");
  await request("disconnect", {});
  assert.deepEqual([exitStatuses, file.servedLines, file.replacementCount, Buffer.compare(file.currentBytes, bytesBefore)],
    [[0], [], 0, 0]);
});

test("attach writes a session file only if the user asks for it", async () => {
  const file = createLockSession("run 100\n");
  const { startSession, request, moveAndWait, evaluate } = startAdapter(FILES, { "/s.mcs": file });
  await startSession({ command: "attach", session: "/s.mcs", write: true, program: "/lock/lock.asm" });
  await moveAndWait("stepIn");
  await evaluate("poke r4 7", "repl");
  assert.equal(engine.ask(file.currentBytes, "state\n").answers[0], await evaluate("state", "repl"));
  await request("disconnect", {});
  assert.equal(file.hasEnded, true);
});

test("a failed attach has an error message", async () => {
  const fileInUse = Object.assign(createLockSession(), { isInUse: true });
  const invalidFile = new FakeFile(new Uint8Array(5000));
  const sessions = { "/s.mcs": createLockSession(), "/used.mcs": fileInUse, "/none.mcs": invalidFile };
  const { request, getResponse } = startAdapter({ ...FILES, "/lock/other.asm": "LDM 1\n" }, sessions);
  await request("initialize", {});
  const getAttachError = async (args) => (await getResponse("attach", args)).message;
  assert.equal(await getAttachError({ program: "/lock/lock.asm" }), "attach needs \"session\", a session file; launch starts a program");
  assert.equal(await getAttachError({ session: "/nowhere.mcs" }), "there is no session file /nowhere.mcs");
  assert.equal(await getAttachError({ session: "/used.mcs" }), "/used.mcs is in use by mcs4 open (process 7)");
  assert.match(await getAttachError({ session: "/none.mcs" }), /^none\.mcs: .* \(no 50\)$/);
  assert.match(await getAttachError({ session: "/s.mcs", program: "/lock/other.asm" }), /^other.asm differs from the ROM of s.mcs/);
  assert.equal(await getAttachError({ session: "/s.mcs", write: "yes" }), "write must be true or false");
  await request("attach", { session: "/s.mcs" });
});

test("a waiting request is cancelled at once; a cancelled console line has no effect", async () => {
  const { startSession, request, sendRequest, waitForResponse, getResponse, evaluate } = startAdapter();
  await startSession();
  const longRequest = sendRequest("evaluate", { expression: `poke r4 7\n${"run 100000\n".repeat(900)}`, context: "repl" });
  const waitingRequest = sendRequest("completions", { text: "r", column: 2 });
  await request("cancel", { requestId: waitingRequest });
  const response = await waitForResponse(waitingRequest);
  assert.deepEqual([response.success, response.message, response.command], [false, "cancelled", "completions"]);
  await request("cancel", { requestId: longRequest });
  assert.equal((await waitForResponse(longRequest)).message, "cancelled");
  assert.deepEqual([await evaluate("r4"), await evaluate("seq", "repl")], ["0x0", "seq 2"]);
  assert.equal((await getResponse("cancel", { requestId: 99999 })).success, true);
  assert.match((await getResponse("cancel", { requestId: "1" })).message, /requestId must be a whole number/);
  assert.match((await getResponse("cancel", { progressId: "x" })).message, /no work in progress/);
});

test("the progress of a long run and of a search of the past is reported, and cancel stops the run", async () => {
  for (const supportsProgressReporting of [true, false]) {
    const { adapter, startSession, request, messages, waitFor, getStops, evaluate } = startAdapter();
    await startSession({ ...LOCK, client: { supportsProgressReporting } });
    adapter.progress.firstReportDelay = 0;
    const getProgressEvents = () => messages.filter(({ event = "" }) => event.startsWith("progress"));
    await request("continue", { threadId: 1 });
    if (!supportsProgressReporting) {
      for (let turn = 0; turn < 20; turn++) await new Promise(setImmediate);
      await request("pause", { threadId: 1 });
      await waitFor(() => getStops().length === 2);
      assert.deepEqual(getProgressEvents(), []);
      continue;
    }
    const { body } = await waitFor(({ event }) => event === "progressStart");
    assert.deepEqual([body.title, body.cancellable, /^[\d,]+ cycles?, /.test(body.message)], ["Running", true, true]);
    await waitFor(({ event }) => event === "progressUpdate");
    await request("cancel", { progressId: body.progressId });
    await waitFor(() => getStops().length === 2);
    assert.equal(getStops()[1].reason, "pause");
    const lastEvent = getProgressEvents().pop();
    assert.deepEqual([lastEvent.event, lastEvent.body], ["progressEnd", { progressId: body.progressId }]);
    const eventCount = getProgressEvents().length;
    // The search covers the whole recorded history, because the program never changes r14.
    await evaluate("back r14", "repl");
    await waitFor(() => getStops().length === 3);
    const [startEvent, ...laterEvents] = getProgressEvents().slice(eventCount);
    assert.deepEqual([startEvent.event, startEvent.body.title, laterEvents[laterEvents.length - 1].event],
      ["progressStart", "Searching the past", "progressEnd"]);
    const isSearchUpdate = ({ event, body: { progressId } }) => event === "progressUpdate" && progressId === startEvent.body.progressId;
    assert.ok(laterEvents.slice(0, -1).every(isSearchUpdate));
  }
});

test("numbers have the base that the client requests", async () => {
  const { startSession, request, getResponse, moveAndWait } = startAdapter();
  await startSession();
  for (const expression of ["acc", "P2"]) await request("setExpression", { expression, value: "11" });
  const getValues = async (scope, format) => {
    const { variables } = await request("variables", { variablesReference: scope, format });
    return Object.fromEntries(variables.map(({ name, value }) => [name, value]));
  };
  const pickValues = ({ acc, cy, pc, test: pin, R5 }) => [acc, cy, pc, pin, R5];
  assert.deepEqual(pickValues(await getValues(1)), ["0xB", "0", "0x000", "1", "0xB"]);
  assert.deepEqual(pickValues(await getValues(1, { hex: true })), ["0xB", "0x0", "0x000", "0x1", "0xB"]);
  assert.deepEqual(pickValues(await getValues(1, { hex: false })), ["11", "0", "0", "1", "11"]);
  const nameValues = await Promise.all([undefined, { hex: true }, { hex: false }].map((format) => getValues(7, format)));
  assert.deepEqual(nameValues.map(({ hash, show }) => [hash, show]),
    [["0x0B, 11", "0x071, line 80"], ["0x0B", "0x071, line 80"], ["11", "113, line 80"]]);
  const portValues = Object.values(await getValues(4, { hex: false }));
  assert.ok(portValues.includes("0000000000") && portValues.includes("out 0, in 0"), "bits are not a number");
  const evaluateWithFormat = async (expression, format) => (await request("evaluate", { expression, format, context: "watch" })).result;
  const sums = await Promise.all([undefined, { hex: true }, { hex: false }].map((format) => evaluateWithFormat("acc + 1", format)));
  assert.deepEqual(sums, ["12", "0xC", "12"]);
  const otherResults = [["acc - 12", { hex: true }], ["rom1.2", { hex: true }], ["acc", { hex: false }]]
    .map((args) => evaluateWithFormat(...args));
  assert.deepEqual(await Promise.all(otherResults), ["-0x1", "0x0", "11"]);
  assert.deepEqual([await evaluateWithFormat("hash", { hex: true }), await evaluateWithFormat("acc = 11", { hex: true })],
    ["0x0B", "true"]);
  assert.equal((await request("setVariable", { variablesReference: 1, name: "acc", value: "12", format: { hex: false } })).value, "12");
  assert.equal((await request("setExpression", { expression: "acc", value: "9", format: { hex: false } })).value, "9");
  for (const command of ["stepIn", "next", "next", "next", "stepIn", "next"]) await moveAndWait(command);
  const getFrameNames = async (format) => (await request("stackTrace", { threadId: 1, format })).stackFrames.map(({ name }) => name);
  assert.deepEqual(await getFrameNames(), ["show + 2", "ready + 1"]);
  assert.deepEqual(await getFrameNames({ hex: true, line: true }), ["show + 0x2, line 81", "ready + 0x1, line 29"]);
  assert.ok((await request("scopes", { frameId: 1, format: { hex: true } })).scopes.length > 0);
  for (const format of [3, { hex: "yes" }, []]) {
    for (const [command, args] of [["variables", { variablesReference: 1 }], ["evaluate", { expression: "acc" }],
      ["stackTrace", { threadId: 1 }], ["scopes", { frameId: 1 }]]) {
      assert.match((await getResponse(command, { ...args, format })).message, /^(format must be an object|hex must be true or false)/);
    }
  }
});

test("memory references are numbers, so a client can add offsets to them", async () => {
  const { startSession, request, getResponse, evaluate, messages } =
    startAdapter({ ...FILES, "/lock/two.toml": FILES["/lock/board.toml"] });
  await startSession({ ...LOCK, client: { supportsMemoryEvent: true } });
  const [bank] = (await request("variables", { variablesReference: 3 })).variables;
  assert.equal(bank.memoryReference, "0x10000");
  const [register] = (await request("variables", { variablesReference: bank.variablesReference })).variables;
  const places = (await request("variables", { variablesReference: register.variablesReference })).variables;
  assert.deepEqual([places[3].memoryReference, places[17].memoryReference], ["0x10003", "0x20001"]);
  assert.equal((await request("evaluate", { expression: "ram.0.0x12", context: "watch" })).memoryReference, "0x10012");
  const references = (await request("variables", { variablesReference: 1 })).variables
    .flatMap(({ memoryReference }) => memoryReference || []);
  for (const reference of [...references, bank.memoryReference]) assert.equal(typeof globalThis.BigInt(reference), "bigint");
  await evaluate("poke ram.0.0x12 7\npoke st.0.1.2 5", "repl");
  const readMemory = async (memoryReference, offset, count) => {
    const { address, data = "", unreadableBytes } = await request("readMemory", { memoryReference, offset, count });
    return [address, [...Buffer.from(data, "base64")], unreadableBytes];
  };
  assert.deepEqual(await readMemory("0x10000", 0x10, 4), ["0x10010", [0, 0, 7, 0], undefined]);
  assert.deepEqual(await readMemory("0x10012", 0, 1), ["0x10012", [7], undefined]);
  assert.deepEqual(await readMemory("65554", 0, 1), ["0x10012", [7], undefined]);
  assert.deepEqual(await readMemory("ram.0", 0x12, 1), await readMemory("ram.0.0x12", 0, 1));
  assert.deepEqual(await readMemory("0x20006", 0, 1), ["0x20006", [5], undefined]);
  assert.deepEqual(await readMemory("show", 0, 2), ["0x071", [0x20, 0x00], undefined]);
  assert.deepEqual((await readMemory("0x1003E", 0, 4)).slice(1), [[0, 0], 2], "the board has one chip there");
  assert.deepEqual(await readMemory("0xFFE", 4, 3), ["0x1002", [], 3]);
  assert.deepEqual(await readMemory("0x000", -3, 3), ["-0x003", [], 3]);
  const encodeBytes = (...values) => Buffer.from(values).toString("base64");
  assert.deepEqual(await request("writeMemory", { memoryReference: "0x10010", offset: 1, data: encodeBytes(4, 5) }),
    { offset: 0, bytesWritten: 2 });
  const memoryEvents = messages.filter(({ event }) => event === "memory").map(({ body }) => body);
  assert.deepEqual(memoryEvents, [{ memoryReference: "0x10010", offset: 1, count: 2 }]);
  assert.deepEqual(await readMemory("0x10010", 0, 4), ["0x10010", [0, 4, 5, 0], undefined]);
  const pastEnd = { memoryReference: "0x1003F", data: encodeBytes(6, 6) };
  assert.match((await getResponse("writeMemory", pastEnd)).message, /outside/);
  assert.deepEqual(await request("writeMemory", { ...pastEnd, allowPartial: true }), { offset: 0, bytesWritten: 1 });
  const beforeStart = { memoryReference: "0x10000", offset: -1, data: encodeBytes(6, 3), allowPartial: true };
  assert.deepEqual([await request("writeMemory", beforeStart), await evaluate("ram.0.0")], [{ offset: 1, bytesWritten: 1 }, "0x3"]);
  for (const memoryReference of ["0x10800", "0x5000", "0x30000", "nowhere", "ram.5", "", "0x", "-1"]) {
    assert.equal((await getResponse("readMemory", { memoryReference: memoryReference, count: 1 })).success, false, memoryReference);
  }
});

test("names of keys, lamps and labels are completed where they are allowed", async () => {
  const { startSession, request, getResponse } = startAdapter();
  await startSession();
  const getCompletions =
    async (text, options = {}) => (await request("completions", { text, column: text.length + 1, ...options })).targets;
  const getLabels = async (text, options) => (await getCompletions(text, options)).map(({ label }) => label);
  assert.deepEqual(await getLabels("press "), ["1", "2", "3", "4", "5", "6", "7", "8", "9", "*", "0", "#"]);
  assert.deepEqual(await getCompletions("press #"), [{ label: "#", start: 7, length: 1 }]);
  assert.deepEqual([await getLabels("release 1 4"), await getLabels("  press 9"), await getLabels("r4 = 1 and key 5")],
    [["4"], ["9"], ["5"]]);
  assert.deepEqual(await getLabels("lamp "), ["locked", "open", "alarm"]);
  assert.deepEqual(await getLabels("poke r4 7\npress 7", { line: 2, column: 8 }), ["7"]);
  assert.deepEqual((await getCompletions("poke r4 7\npress 7", { line: 2, column: 8 }))[0].start, 17);
  assert.match((await getResponse("completions", { text: "r", column: 2, line: 4 })).message, /no such line/);
  const zeroBasedClient = startAdapter();
  await zeroBasedClient.startSession({ ...LOCK, client: { columnsStartAt1: false } });
  assert.deepEqual((await zeroBasedClient.request("completions", { text: "press #", column: 7 })).targets,
    [{ label: "#", start: 6, length: 1 }]);
});

test("a step enters the chosen call", async () => {
  const { startSession, request, getResponse, moveAndWait, getFrameLines } = startAdapter();
  await startSession();
  await moveAndWait("stepIn");
  const { targets } = await request("stepInTargets", { frameId: 1 });
  assert.deepEqual(targets.map(({ label, line }) => [label, line]), [["show, line 29", 29], ["key, line 31", 31]]);
  assert.equal((await moveAndWait("stepIn", { threadId: 1, targetId: targets[1].id })).reason, "step");
  assert.deepEqual((await getFrameLines()).slice(1), [31]);
  assert.deepEqual(await request("stepInTargets", { frameId: 2 }), { targets: [] });
  assert.match((await getResponse("stepInTargets", { frameId: 9 })).message, /no such frame/);
  for (const targetId of [SHOW_ADDRESS, 4096, 1e9]) {
    assert.match((await getResponse("stepIn", { threadId: 1, targetId })).message, /no such target/);
  }
});

test("a breakpoint on the way to the chosen call stops the step", async () => {
  const { startSession, request, moveAndWait, getFrameLines } = startAdapter();
  await startSession();
  await moveAndWait("stepIn");
  const { targets } = await request("stepInTargets", { frameId: 1 });
  await request("setFunctionBreakpoints", { breakpoints: [{ name: "show" }] });
  assert.equal((await moveAndWait("stepIn", { threadId: 1, targetId: targets[1].id })).reason, "function breakpoint");
  assert.deepEqual(await getFrameLines(), [80, 29]);
});

test("restarting a frame restores the state of the machine at the call", async () => {
  const { startSession, request, getResponse, moveAndWait, getFrameLines, evaluate } = startAdapter();
  await startSession();
  await request("setFunctionBreakpoints", { breakpoints: [{ name: "scan" }] });
  await moveAndWait("continue");
  await request("setFunctionBreakpoints", { breakpoints: [] });
  const { stackFrames } = await request("stackTrace", { threadId: 1 });
  assert.deepEqual(stackFrames.map(({ canRestart }) => canRestart), [...stackFrames.slice(1).map(() => true), false]);
  for (let step = 0; step < 7; step++) await moveAndWait("next");
  const restarts = [];
  for (const { id, canRestart } of stackFrames.filter((frame) => frame.canRestart)) {
    const stop = await moveAndWait("restartFrame", { frameId: id });
    restarts.push([canRestart, stop.reason, /the subroutine begins here\.$/.test(stop.description), (await getFrameLines())[0]]);
    const name = (await request("stackTrace", { threadId: 1 })).stackFrames[0].name;
    assert.match(name, /^[a-z_]+$/, "at a label");
    await evaluate("forward", "repl");
  }
  assert.ok(restarts.length > 0 && restarts.every(([, reason, isDescribed]) => reason === "restart" && isDescribed));
  const response = await getResponse("restartFrame", { frameId: stackFrames.length });
  assert.deepEqual([response.success, response.body.error.showUser], [false, true]);
  assert.match((await getResponse("restartFrame", { frameId: 0 })).message, /no such frame/);
});

test("after an error in the work that follows a response, later requests are still served", async () => {
  const { connection, startSession, request, waitFor } = startAdapter();
  await startSession();
  connection.runFollowUp({ followUp: () => { throw new Error("too late"); } });
  await waitFor(({ body }) => body && body.output === "too late\n");
  assert.deepEqual((await request("threads")).threads.length, 1);
});

test("a request that arrives while the session file is written is answered", async () => {
  const file = createLockSession();
  const { startSession, request, sendRequest, waitForResponse } = startAdapter(FILES, { "/s.mcs": file });
  await startSession({ session: "/s.mcs" });
  const serveLines = file.ask.bind(file);
  let requestNumber = 0;
  file.ask = async (lines) => {
    // Send the request while the adapter is writing the stop event.
    requestNumber = requestNumber || sendRequest("setExceptionBreakpoints", { filters: ["calls"] });
    for (let turn = 0; turn < 20; turn++) await new Promise(setImmediate);
    return serveLines(lines);
  };
  await request("stepIn", { threadId: 1 });
  for (let turn = 0; turn < 50 && requestNumber === 0; turn++) await new Promise(setImmediate);
  assert.ok((await waitForResponse(requestNumber)).success);
});

test("an incomplete message is reported to the client", () => {
  const { connection, messages } = startAdapter();
  connection.receive(frameMessage({ seq: 1, type: "request", command: "initialize", arguments: {} }).subarray(0, 60));
  assert.match(connection.reportIncomplete(), /^only \d+ of the \d+ bytes that Content-Length announces have arrived$/);
  assert.equal(messages[0].message, connection.reader.incompleteMessage);
  const otherClient = startAdapter();
  otherClient.connection.receive(new TextEncoder().encode("Content-Len"));
  assert.equal(otherClient.connection.reportIncomplete(), "only a part of the header of a message has arrived");
});
