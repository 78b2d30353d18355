// Tests the debug adapter's messages and its answers. The adapter runs in this process, on the page's WebAssembly module.
import assert from "node:assert/strict";
import { test } from "node:test";
import { readFileSync } from "node:fs";
import { MAX_MESSAGE_BYTES, frameMessage } from "../core/server/framing.js";
import { EYE_PERSISTENCE_CYCLES } from "../core/time/mcs4_time.js";
import { FILES, FakeFile, LOCK, SOURCE, engine, startAdapter } from "./adapter_client.js";

test("responses have the order of the requests and consecutive numbers; an invalid message is reported", async () => {
  const { connection, messages, getResponse, request, waitFor } = startAdapter();
  assert.deepEqual((await getResponse("threads")).message, "send initialize first");
  await request("initialize", {});
  assert.equal((await getResponse("initialize", {})).message, "initialize can be sent only once");
  assert.equal((await getResponse("nothing")).message, "unsupported request: nothing");
  assert.equal((await getResponse("toString")).message, "unsupported request: toString");
  assert.equal((await getResponse("stackTrace", { threadId: 1 })).message, "nothing is launched yet: send launch or attach first");
  connection.receive(frameMessage({ seq: 70, type: "request" }));
  connection.receive(frameMessage([]));
  connection.receive(new TextEncoder().encode("Content-Length: 3\r\n\r\n{x}"));
  connection.receive(new TextEncoder().encode(`Content-Length: ${MAX_MESSAGE_BYTES + 1}\r\n\r\n`));
  connection.receive(new Uint8Array(MAX_MESSAGE_BYTES + 1));
  await waitFor(({ message }) => (message || "").includes("was not read"));
  const errors = messages.filter(({ success }) => success === false).slice(-4)
    .map(({ request_seq, message }) => `${request_seq} ${message}`);
  const syntaxError = "a message has a number seq, the type \"request\" and a command";
  const lengthError = `0 a message of ${MAX_MESSAGE_BYTES + 1} bytes was not read`;
  assert.deepEqual(errors, [`70 ${syntaxError}`, `0 ${syntaxError}`, "0 a message is not JSON", lengthError]);
  assert.deepEqual(messages.map(({ seq }) => seq), messages.map((_, index) => index + 1));
});

test("a failed launch has an error message, and another launch can follow", async () => {
  const invalidFiles = { "/a.asm": "go: JMP go\n", "/board.toml": FILES["/lock/board.toml"], "/b/b.asm": "NOP\n",
    "/c/mcs4.toml": "board = \"b.toml\"\nprogram = \"/x.asm\"\n" };
  const { getResponse, request } = startAdapter({ ...FILES, ...invalidFiles });
  await request("initialize", {});
  const getLaunchError = async (args) => (await getResponse("launch", args)).message;
  assert.match(await getLaunchError(undefined), /^launch needs "project"/);
  assert.match(await getLaunchError({ program: 3 }), /program must be a text/);
  assert.match(await getLaunchError({ program: "/none.asm" }), /cannot read \/none.asm/);
  assert.match(await getLaunchError({ program: "/a.asm" }), /^a.asm, line 1: the assembler cannot read the line \(no 30\)$/);
  assert.match(await getLaunchError({ program: "/b/b.asm" }), /^there is no board.toml next to \/b\/b.asm/);
  assert.match(await getLaunchError({ session: "/none.mcs" }), /^\/none.mcs does not exist/);
  assert.match(await getLaunchError({ project: "/b" }), /^there is no \/b\/mcs4.toml/);
  assert.match(await getLaunchError({ project: "/c/mcs4.toml" }),
    /^\/c\/mcs4.toml, line 2: \/x.asm is not a path from the project's folder/);
  assert.match((await getResponse("attach", {})).message, /^attach needs "session"/);
  await request("launch", { cwd: "/lock", project: "/lock" });
  assert.equal((await getResponse("launch", LOCK)).message, "launch can be sent only once");
  assert.equal((await getResponse("next", { threadId: 1 })).message, "send configurationDone first");
});

test("breakpoints at lines, labels and addresses, with conditions, hit counts and log messages", async () => {
  const { startSession, request, moveAndWait, getOutput, evaluate, getFrameLines } = startAdapter();
  await startSession();
  const setBreakpoints = async (breakpoints, source = SOURCE) => (await request("setBreakpoints", { source, breakpoints })).breakpoints;
  const [plainBreakpoint, movedBreakpoint, breakpointBelowProgram, invalidBreakpoint, breakpointWithBadHitCount] = await setBreakpoints([
    { line: 31 }, { line: 25 }, { line: 500 }, { line: 33, condition: "foo = 1" }, { line: 34, hitCondition: "often" }]);
  assert.deepEqual([plainBreakpoint.verified, plainBreakpoint.line, plainBreakpoint.instructionReference], [true, 31, "0x033"]);
  assert.deepEqual([movedBreakpoint.verified, movedBreakpoint.line], [true, 26]);
  assert.match(breakpointBelowProgram.message, /No instruction follows line 500/);
  assert.match(invalidBreakpoint.message, /^It stops every time, because of an error: foo: no such place; places are .* \(column 1\)\.$/);
  assert.match(breakpointWithBadHitCount.message, /a hit count is a number/);
  const [boardBreakpoint] = await setBreakpoints([{ line: 31 }], { path: "/lock/board.toml" });
  assert.match(boardBreakpoint.message, /not in \/lock\/lock.asm, the program being debugged/);
  const stop = await moveAndWait("continue");
  assert.deepEqual([stop.reason, stop.allThreadsStopped], ["breakpoint", true]);
  assert.deepEqual(await getFrameLines(), [26]);
  await setBreakpoints([{ line: 80, logMessage: "acc {acc}" }, { line: 83, hitCondition: "2", condition: "acc = 1" }]);
  const { breakpoints: [labelBreakpoint, unknownBreakpoint] } =
    await request("setFunctionBreakpoints", { breakpoints: [{ name: "wait" }, { name: "nowhere" }] });
  assert.deepEqual([labelBreakpoint.verified, labelBreakpoint.line, unknownBreakpoint.message],
    [true, 86, "the program has no label nowhere"]);
  const requestedBreakpoints = [{ instructionReference: "0x02F", offset: 2 }];
  const { breakpoints: [addressBreakpoint] } = await request("setInstructionBreakpoints", { breakpoints: requestedBreakpoints });
  const nextStop = await moveAndWait("continue");
  assert.deepEqual([nextStop.reason, nextStop.hitBreakpointIds], ["instruction breakpoint", [addressBreakpoint.id]]);
  assert.match(getOutput(), /acc 1\n/);
  await request("setInstructionBreakpoints", { breakpoints: [] });
  // The lock's program reads a key only after all keys have been released.
  assert.match(await evaluate("run 5000", "repl"), /^ok \d+ ran 5000 end$/);
  assert.equal(await evaluate("keys #", "repl"), "1 key waits until the machine runs (continue)");
  const lastStop = await moveAndWait("continue");
  assert.deepEqual([lastStop.reason, await getFrameLines()], ["breakpoint", [83, 29]]);
});

test("steps over, into, out and back; reverse continue; goto; setting values", async () => {
  const { startSession, request, getResponse, moveAndWait, evaluate, getFrameLines } = startAdapter();
  await startSession();
  for (const [command, line] of [["stepIn", 26], ["next", 27], ["next", 28], ["next", 29], ["stepIn", 80]]) {
    await moveAndWait(command);
    assert.equal((await getFrameLines())[0], line);
  }
  assert.deepEqual(await getFrameLines(), [80, 29]);
  await moveAndWait("stepOut");
  assert.deepEqual(await getFrameLines(), [30]);
  const backStop = await moveAndWait("stepBack");
  assert.deepEqual([backStop.reason, await getFrameLines()], ["step", [83, 29]]);
  await request("setFunctionBreakpoints", { breakpoints: [{ name: "show" }] });
  const arrival = await moveAndWait("reverseContinue");
  assert.deepEqual([arrival.reason, arrival.hitBreakpointIds.length, await getFrameLines()], ["function breakpoint", 1, [80, 29]]);
  const entryStop = await moveAndWait("reverseContinue");
  assert.deepEqual([entryStop.reason, await getFrameLines()], ["entry", [16]]);
  assert.match(entryStop.description, /^Back at 000 .*, at the beginning of the remembered past: no breakpoint was passed since then\.$/);
  assert.match((await moveAndWait("reverseContinue")).description, /^Nothing was done: the remembered past reaches no further back\.$/);
  await request("setFunctionBreakpoints", { breakpoints: [] });
  for (const command of ["stepIn", "next", "next", "next", "stepIn"]) await moveAndWait(command);
  assert.deepEqual(await getFrameLines(), [80, 29]);
  const { targets: [target] } = await request("gotoTargets", { source: SOURCE, line: 57 });
  assert.equal((await moveAndWait("goto", { threadId: 1, targetId: target.id })).reason, "goto");
  assert.equal((await getFrameLines())[0], 57);
  assert.match((await getResponse("next", { threadId: 2 })).message, /one thread/);
  assert.equal((await request("setExpression", { expression: "P2", value: "0x1F" })).value, "0x1F");
  assert.deepEqual([await evaluate("r4"), await evaluate("R5"), await evaluate("r5 = 15 and not cy 1")], ["0x1", "0xF", "true"]);
  assert.match((await getResponse("setExpression", { expression: "r4", value: "16" })).message, /r4 holds 0 to 15/);
  assert.match((await getResponse("setExpression", { expression: "r4", value: "x y" })).message, /^x: no such place/);
  assert.match((await getResponse("setExpression", { expression: "r4", value: "r4 = 1" })).message, /is neither a number/);
  assert.equal((await request("setExpression", { expression: "r4", value: "R5 - 0b1110" })).value, "0x1");
  const getCompletionLabels = async (text) => (await request("completions", { text, column: text.length + 1 })).targets
    .map(({ label }) => label);
  assert.deepEqual((await getCompletionLabels("press ")).slice(0, 3), ["1", "2", "3"]);
  assert.deepEqual([await getCompletionLabels("r5 > 8 an"), await getCompletionLabels("lamp ope"), await getCompletionLabels("until r1")],
    [["anew", "and"], ["open"], ["r1", "r10", "r11", "r12", "r13", "r14", "r15"]]);
  assert.ok((await getCompletionLabels("back")).includes("back") && (await getCompletionLabels("di")).includes("display"));
  assert.equal((await request("setExpression", { expression: "RAM 0 0x12", value: "r4 + 1" })).value, "0x2");
  assert.equal((await request("setExpression", { expression: "key 5", value: "Down" })).value, "down");
  assert.equal(await evaluate("key 5 down"), "true");
  assert.equal((await request("setExpression", { expression: "key 5", value: "up" })).value, "up");
  const response = await getResponse("setExpression", { expression: "lamps", value: "1" });
  assert.match(response.message, /^lamps cannot be set; places to set are acc, /);
  assert.match(await evaluate("set R4 = r5 - 0xE", "repl"), /^ok \d+$/);
  assert.equal(await evaluate("P2", "hover"), "P2 = 1F: R4 1, R5 F");
  assert.equal(await evaluate("enter"), "0x053, line 57");
  assert.deepEqual([await evaluate("open"), await evaluate("lamp open"), await evaluate("alarm")], ["0x02, 2", "off", "0x05, 5"]);
  assert.match(await evaluate("NOP", "hover"), /./);
  assert.match((await getResponse("evaluate", { expression: "quit", context: "repl" })).message, /help shows what a line can be$/);
  assert.match(await evaluate("asm\nORG 0x0F0\nNOP\n.", "repl"), /^ok \d+ bytes 1$/);
  const reason = (await moveAndWait("evaluate", { expression: "until @show", context: "repl" })).reason;
  assert.deepEqual([reason, await getFrameLines()], ["step", [80, 29, 29]]);
});

test("scopes, variables, memory and disassembly", async () => {
  const { startSession, request, getResponse, evaluate } = startAdapter();
  await startSession();
  const { scopes } = await request("scopes", { frameId: 1 });
  assert.deepEqual(scopes.map(({ name }) => name), ["Registers", "Pairs", "RAM", "Ports", "Lamps", "Keys", "Names"]);
  const getVariables = async (variablesReference) => (await request("variables", { variablesReference })).variables;
  const referenceOf = (name) => scopes.find((scope) => scope.name === name).variablesReference;
  const keys = await getVariables(referenceOf("Keys"));
  assert.deepEqual(keys.map(({ name }) => name), ["1", "2", "3", "4", "5", "6", "7", "8", "9", "*", "0", "#"]);
  await request("setVariable", { variablesReference: referenceOf("Keys"), name: "5", value: "down" });
  assert.match(await evaluate("state", "repl"), /keys 1.1/);
  const [bank] = await getVariables(referenceOf("RAM"));
  const [register] = await getVariables(bank.variablesReference);
  assert.equal((await getVariables(register.variablesReference)).length, 20);
  await request("setVariable", { variablesReference: register.variablesReference, name: "0x03", value: "9" });
  assert.deepEqual([await evaluate("ram.0.3"), await evaluate("ram 0 0x03")], ["0x9", "0x9"]);
  const { dataId } = await request("dataBreakpointInfo", { variablesReference: register.variablesReference, name: "0x03" });
  assert.equal((await request("setDataBreakpoints", { breakpoints: [{ dataId }] })).breakpoints[0].verified, true);
  assert.equal(await evaluate("watches", "repl"), "watches 0.03");
  const { data } = await request("readMemory", { memoryReference: bank.memoryReference, count: 4 });
  assert.deepEqual([...Buffer.from(data, "base64")], [0, 0, 0, 9]);
  await request("writeMemory", { memoryReference: "0x0FE", data: "QUI=" });
  assert.match((await getResponse("writeMemory", { memoryReference: "0xFFF", data: "QUI=" })).message, /outside/);
  const range = { memoryReference: "0x02C", instructionOffset: -1, instructionCount: 3 };
  const { instructions } = await request("disassemble", range);
  const rows = instructions.map((row) => [row.address, row.instruction, row.instructionBytes, row.line]);
  assert.deepEqual(rows, [["0x02B", "DB 0x0B", "0B", 24], ["0x02C", "LDM 13", "DD", 26], ["0x02D", "XCH R12", "BC", 27]]);
  assert.match((await getResponse("disassemble", { memoryReference: "0x1000", instructionCount: 4 })).message, /addresses are/);
});

test("each row of a disassembly has a unique address, which a client can parse", async () => {
  const { startSession, request } = startAdapter();
  await startSession();
  const disassemble = async (memoryReference, instructionOffset, instructionCount) => (
    (await request("disassemble", { memoryReference, instructionOffset, instructionCount })).instructions);
  const startRows = await disassemble("0x000", -3, 4);
  assert.deepEqual(startRows.map(({ address, instruction }) => `${address} ${instruction}`), ["0x000 JUN 0x02C"]);
  const endRows = await disassemble("0xFFE", 0, 5);
  assert.deepEqual(endRows.map(({ address }) => address), ["0xFFE", "0xFFF", "0x1000", "0x1001", "0x1002"]);
  assert.deepEqual(endRows.map(({ presentationHint }) => presentationHint), [undefined, undefined, "invalid", "invalid", "invalid"]);
  for (const [reference, offset, count] of [["0x000", -50, 100], ["0x02C", -200, 400], ["0xFF0", -5, 60], ["0x0FE", -20, 40]]) {
    const addresses = (await disassemble(reference, offset, count)).map(({ address }) => Number(globalThis.BigInt(address)));
    assert.deepEqual(addresses, [...new Set(addresses)].sort((a, b) => a - b));
    assert.ok(addresses[0] >= 0 && addresses.includes(Number(reference)));
  }
});

test("memory is written completely or not at all, and an invalid reference does not affect other breakpoints", async () => {
  const { startSession, request, getResponse, evaluate } = startAdapter();
  await startSession();
  const data = Buffer.from([9, 8, 255]).toString("base64");
  assert.match((await getResponse("writeMemory", { memoryReference: "ram.0", data })).message,
    /^poke ram.0.2 255: the bench answered no 11$/);
  assert.match(await evaluate("ram 0", "repl"), /^0\.0\.0 0000/m);
  await request("writeMemory", { memoryReference: "ram.0", data: Buffer.from([9, 8]).toString("base64") });
  assert.match(await evaluate("ram 0", "repl"), /^0\.0\.0 9800/m);
  const { breakpoints } = await request("setInstructionBreakpoints", { breakpoints: [{ instructionReference: "0x02C" },
    { instructionReference: "nowhere" }, { instructionReference: "0xFFF", offset: 9 }, { instructionReference: "0x02D" }] });
  assert.deepEqual(breakpoints.map(({ verified }) => verified), [true, false, false, true]);
  assert.match(breakpoints[1].message, /^nowhere is neither a label of the program/);
});

test("a step out without an open call fails with a message for the user", async () => {
  const { startSession, getResponse, request, moveAndWait, getStops, waitFor } = startAdapter();
  await startSession();
  const response = await getResponse("stepOut", { threadId: 1 });
  assert.deepEqual([response.success, response.message, response.body.error.showUser], [false, "no call is open here", true]);
  await request("continue", { threadId: 1 });
  assert.equal((await getResponse("stepOut", { threadId: 1 })).success, false);
  const stopCount = getStops().length;
  await request("pause", { threadId: 1 });
  await waitFor(() => getStops().length > stopCount);
  assert.equal((await moveAndWait("stepIn")).reason, "step");
});

test("after a console line that changes the machine, the client receives the new location", async () => {
  for (const supportsInvalidatedEvent of [false, true]) {
    const { startSession, request, getStops, messages } = startAdapter();
    await startSession({ ...LOCK, supportsInvalidatedEvent });
    assert.equal(getStops()[0].description, "Paused at 000 (line 16).");
    const lines = [["poke pc 0x02C", /^Paused at 02C \(.*line 26\)\.$/], ["step", /^Paused at 02D \(/], ["reset", /^Paused at 000 /]];
    for (const [line, expected] of lines) {
      const messageCount = messages.length;
      await request("evaluate", { expression: line, context: "repl" });
      const { description } = await request("exceptionInfo", { threadId: 1 });
      assert.match(description, expected);
      const events = messages.slice(messageCount).filter(({ event }) => event === "stopped" || event === "invalidated");
      const expectedEvent = supportsInvalidatedEvent ? "invalidated" : description;
      assert.deepEqual(events.map(({ event, body }) => body.description || event), [expectedEvent]);
    }
  }
});

test("a running machine can be paused, and requests are served between two slices of the run", async () => {
  const { startSession, request, getResponse, waitFor, messages, getStops, evaluate } = startAdapter();
  await startSession({ ...LOCK, stopOnEntry: false });
  assert.equal((await getResponse("stackTrace", { threadId: 1 })).message, "notStopped");
  assert.equal((await getResponse("next", { threadId: 1 })).message, "notStopped");
  await request("setBreakpoints", { source: SOURCE, breakpoints: [{ line: 60 }] });
  assert.match((await getResponse("evaluate", { expression: "run 5", context: "repl" })).message, /the machine is running/);
  assert.equal(await evaluate("press #", "repl"), "");
  await waitFor(({ event }) => event === "stopped");
  assert.equal(getStops()[0].reason, "breakpoint");
  await request("continue", { threadId: 1 });
  await request("pause", { threadId: 1 });
  await waitFor(() => getStops().length === 2);
  assert.equal(getStops()[1].reason, "pause");
  assert.ok(messages.some(({ body }) => body && body.category === "stdout" && body.output === "lamps *.. locked\n"));
  await request("disconnect", {});
});

test("a client that draws the board receives the board once and then its changes, and presses keys by row and column", async () => {
  const { startSession, request, getResponse, moveAndWait, evaluate, messages, waitFor } = startAdapter();
  assert.equal((await getResponse("watchBoard")).message, "send initialize first");
  await startSession();
  const { board, boardText, ...initialState } = await request("watchBoard");
  assert.deepEqual([board[0], boardText], ["board", FILES["/lock/board.toml"]]);
  assert.deepEqual(initialState, { lamps: "...", keys: [], test: "1", isRunning: false });
  const getBoardChanges = () => messages.filter(({ event }) => event === "boardShown").map(({ body }) => body);
  await request("changeKey", { place: "1 1", isDown: true });
  assert.deepEqual(getBoardChanges(), [{ keys: ["1.1"] }]);
  assert.match(await evaluate("state", "repl"), / keys 1\.1 /);
  await request("changeKey", { place: "1 1", isDown: false });
  await request("changeKey", { place: "test 0", isDown: true });
  assert.deepEqual(getBoardChanges().slice(1), [{ keys: [] }, { test: "0" }]);
  for (const place of ["1", "1 1\nreset", "", "test 2"]) {
    assert.match((await getResponse("changeKey", { place, isDown: true })).message, /place/);
  }
  assert.match((await getResponse("changeKey", { place: "9 9", isDown: true })).message, /^no 41: /);
  await request("setFunctionBreakpoints", { breakpoints: [{ name: "digit" }] });
  await moveAndWait("continue");
  await waitFor(({ event, body }) => event === "boardShown" && body.isRunning === false && getBoardChanges().length > 4);
  assert.ok(getBoardChanges().some(({ lamps }) => lamps === "*.."));
  const litChanges = getBoardChanges().filter(({ litShares }) => litShares);
  const period = EYE_PERSISTENCE_CYCLES;
  assert.ok(litChanges.some(({ litShares: { cycles, lamps } }) => cycles === period && lamps[0] === period));
  assert.equal(getBoardChanges().pop().litShares, undefined);
  assert.equal(getBoardChanges().filter((change) => change.board).length, 0);
  await request("restart", {});
  await waitFor(({ event, body }) => event === "boardShown" && body.board);
});

test("a breakpoint below the last instruction is verified once the program has an instruction there", async () => {
  const files = { ...FILES };
  const { startSession, request, moveAndWait, waitFor } = startAdapter(files);
  await startSession();
  const { breakpoints: [pendingBreakpoint] } = await request("setBreakpoints", { source: SOURCE, breakpoints: [{ line: 500 }] });
  assert.equal(pendingBreakpoint.verified, false);
  files["/lock/lock.asm"] = `${FILES["/lock/lock.asm"]}${"\n".repeat(500)} NOP\n`;
  await moveAndWait("restart", {});
  await waitFor(({ event, body }) => event === "breakpoint" && body.breakpoint.id === pendingBreakpoint.id && body.breakpoint.verified);
});

test("at real-time speed, a cycle takes as long as on a real board", async () => {
  const { adapter, startSession, request, waitFor, getStops } = startAdapter();
  await startSession({ ...LOCK, realTime: true });
  const stopCount = getStops().length;
  const startTime = performance.now();
  await request("continue", { threadId: 1 });
  await new Promise((resolve) => {
    setTimeout(resolve, 300);
  });
  await request("pause", { threadId: 1 });
  await waitFor(() => getStops().length > stopCount);
  const elapsed = performance.now() - startTime;
  const { total } = adapter.currentSession.launchResult.session.debugger.session.count;
  // The first 1/60 s of machine time is simulated at once, without waiting.
  assert.ok(total > 1000 && total * 0.0108 < elapsed + 17, `${total} cycles in ${elapsed} ms`);
});

test("a session file is up to date at each stop, and its breakpoints stay unchanged", async () => {
  const file = new FakeFile(engine.begin());
  const program = FILES["/lock/lock.asm"].replace(/[ \t]*;.*/g, "");
  engine.serve(file.bytes, `wire\n${FILES["/lock/board.toml"].replace(/^#.*$/gm, "")}.\nasm\n${program}.\nbreak 0x02E\n`, file.bytes);
  file.currentBytes = file.bytes.slice();
  const { startSession, request, moveAndWait, evaluate, getResponse } = startAdapter(FILES, { "/s.mcs": file });
  await startSession({ ...LOCK, session: "/s.mcs" });
  const assertFileMatches = async () => assert.equal(engine.ask(file.currentBytes, "state\n").answers[0], await evaluate("state", "repl"));
  await request("setBreakpoints", { source: SOURCE, breakpoints: [{ line: 83 }] });
  assert.equal((await moveAndWait("continue")).description, "Paused at 02E (ready, line 28), at a breakpoint.");
  await assertFileMatches();
  await moveAndWait("continue");
  await assertFileMatches();
  await moveAndWait("stepBack");
  await assertFileMatches();
  assert.equal(file.replacementCount, 1);
  await moveAndWait("stepIn");
  await request("setExpression", { expression: "r7", value: "3" });
  await evaluate("press 5", "repl");
  await assertFileMatches();
  assert.equal(file.replacementCount, 1);
  await moveAndWait("reverseContinue");
  await assertFileMatches();
  assert.match((await getResponse("evaluate", { expression: "press 55", context: "repl" })).message, /no key 55; it has: 1 2 3/);
  await request("disconnect", {});
  assert.deepEqual([engine.ask(file.currentBytes, "breaks\n").answers[0], file.hasEnded], ["breaks 02E", true]);
});

test("a session file is created, or opened without a program; a different program is rejected", async () => {
  const sessions = {};
  const files = { ...FILES, "/lock/other.asm": "LDM 1\n" };
  const creatingClient = startAdapter(files, sessions);
  await creatingClient.startSession({ ...LOCK, session: "/new.mcs" });
  await creatingClient.request("disconnect", {});
  assert.deepEqual(creatingClient.exitStatuses, [0]);
  sessions["/new.mcs"] = new FakeFile(sessions["/new.mcs"].currentBytes);
  const otherClient = startAdapter(files, sessions);
  await otherClient.request("initialize", {});
  const response = await otherClient.getResponse("launch", { program: "/lock/other.asm", session: "/new.mcs" });
  assert.match(response.message, /other.asm differs from the ROM of new.mcs: ROM has another byte at 0x000. "load": true puts the program/);
  sessions["/new.mcs"] = new FakeFile(sessions["/new.mcs"].currentBytes);
  const clientWithoutProgram = startAdapter(files, sessions);
  await clientWithoutProgram.startSession({ session: "/new.mcs" });
  const { stackFrames: [{ source, line }] } = await clientWithoutProgram.request("stackTrace", { threadId: 1 });
  assert.equal(source.sourceReference, 1);
  const { content } = await clientWithoutProgram.request("source", { source, sourceReference: 1 });
  assert.match(content.split("\n")[line - 1], /JUN 0x02C/);
});

const THREE_TESTS = "test it shows 12\n  run 10\n  save shown\n\n"
  + "test it goes on\n  from shown\n  press 1\n  run 200000\n  release 1\n  run 7\n\n"
  + "test it fails\n  from shown\n  run 20\n  expect acc 9\n  run 5\n";

test("a debugged test stops where it fails, or at its end, and can step back", async () => {
  const project = FILES["/lock/mcs4.toml"].replace(/^tests.*$/m, 'tests = ["a b.test"]');
  const files = { ...FILES, "/lock/mcs4.toml": project, "/lock/a b.test": THREE_TESTS };
  const { request, startSession, moveAndWait, messages } = startAdapter(files);
  await startSession({ test: "it fails", tests: "/lock/a b.test" });
  const getOutput = () => messages.filter(({ event }) => event === "output").map(({ body }) => body.output).join("");
  assert.match(getOutput(), /^\/lock\/a b\.test:15: it fails: acc is \d+, but must be 9\n/);
  const getProgramCounter = async () => (await request("stackTrace", { threadId: 1 })).stackFrames[0].instructionPointerReference;
  const failureAddress = await getProgramCounter();
  await moveAndWait("stepBack");
  assert.notEqual(await getProgramCounter(), failureAddress);
  await request("restart", {});
  assert.equal(await getProgramCounter(), failureAddress);
  const passingClient = startAdapter(files);
  await passingClient.startSession({ test: "it goes on", tests: "/lock/a b.test" });
  const passingOutput = passingClient.messages.filter(({ event }) => event === "output").map(({ body }) => body.output).join("");
  assert.match(passingOutput, /The test it goes on passed\./);
  const getLaunchError = async (launchArguments) => {
    const failingClient = startAdapter(files);
    await failingClient.request("initialize", { adapterID: "mcs4" });
    return (await failingClient.getResponse("launch", launchArguments)).message;
  };
  assert.match(await getLaunchError({ test: "none", tests: "/lock/a b.test" }), /\/lock\/a b\.test has no test none/);
  assert.match(await getLaunchError({ test: "it fails" }), /^`test` needs `tests`/);
});

test("a client that draws the board receives the printout, and can clear it", async () => {
  const readExample = (name) => readFileSync(new URL(`../../examples/printing_calculator/${name}`, import.meta.url), "utf8");
  const files = { "/p/board.toml": readExample("board.toml"), "/p/p.asm": readExample("printing_calculator.asm") };
  const { startSession, request, getResponse, messages } = startAdapter(files);
  await startSession({ program: "/p/p.asm" });
  assert.deepEqual((await request("watchBoard")).printed.codes, []);
  const serveLines = async (text) => {
    for (const line of text.split("; ")) assert.ok((await getResponse("evaluate", { expression: line, context: "repl" })).success, line);
  };
  await serveLines("run 20000; press 7; run 4000; release 7; run 16000; press +; run 4000; release +; run 60000");
  const getPrintedLengths = () => messages.filter(({ event, body }) => event === "boardShown" && body.printed)
    .map(({ body }) => body.printed.codes.length);
  assert.ok(Math.max(...getPrintedLengths()) > 1, `printed lengths: ${getPrintedLengths()}`);
  await request("clearPrintout");
  await serveLines("run 10");
  assert.equal(getPrintedLengths().pop(), 0);
});

test("with Windows paths, the board and the tests beside the program are found", async () => {
  const folder = "C:/Users/me/my boards";
  const files = Object.fromEntries(Object.entries(FILES).map(([name, text]) => [name.replace("/lock", folder), text]));
  const { startSession, request } =
    startAdapter({ ...files, [`${folder}/other/lock.asm`]: files[`${folder}/lock.asm`], [`${folder}/lock.test`]: THREE_TESTS });
  await startSession({ program: `${folder}/lock.asm` });
  const { stackFrames: [{ source }] } = await request("stackTrace", { threadId: 1 });
  assert.equal(source.path, `${folder}/lock.asm`);
  const testClient = startAdapter({ ...files, [`${folder}/lock.test`]: THREE_TESTS });
  await testClient.startSession({ test: "it shows 12", tests: `${folder}/lock.test` });
});
