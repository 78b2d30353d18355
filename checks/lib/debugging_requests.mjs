// Tests of checks/debugging with the sequence of requests that Visual Studio Code sends. Prints `ok TEXT` or `failed: TEXT` for each check. The
// adapter's answers are compared with the answers of the program mcs4 on a separate session file.
import { execFileSync, spawn } from "node:child_process";
import { chmodSync, copyFileSync, readFileSync, writeFileSync } from "node:fs";
import { Client } from "./dap_client.mjs";

const TOP = new URL("../..", import.meta.url).pathname;
const ADAPTER = `${TOP}mcs4`;
const [folder] = process.argv.slice(2);
const BOARD = `${TOP}examples/lock/board.toml`;
const PROGRAM = `${TOP}examples/lock/lock.asm`;
const VSCODE = {
  clientID: "vscode", clientName: "Visual Studio Code", adapterID: "mcs4", pathFormat: "path", linesStartAt1: true, columnsStartAt1: true,
  supportsVariableType: true, supportsVariablePaging: true, supportsRunInTerminalRequest: true, locale: "en", supportsProgressReporting: true,
  supportsInvalidatedEvent: true, supportsMemoryEvent: true, supportsArgsCanBeInterpretedByShell: true, supportsStartDebuggingRequest: true,
  supportsANSIStyling: true,
};

function verdict(actual, expected, description) {
  const [actualText, expectedText] = [JSON.stringify(actual), JSON.stringify(expected)];
  console.log(actualText === expectedText ? `ok ${description}` : `failed: ${description}: ${actualText}, not ${expectedText}`);
}

const matches = (text, pattern, description) => console.log(pattern.test(text) ? `ok ${description}` : `failed: ${description}: ${text}`);

/** Returns the native program's answers to lines in a copy of a session file. */
function answersOf(file, input) {
  copyFileSync(file, `${folder}/copy.mcs`);
  chmodSync(`${folder}/copy.mcs`, 0o600);
  return execFileSync(process.env.MCS4, ["open", `${folder}/copy.mcs`], { input, encoding: "utf8" }).split("\n").slice(1, -1);
}

/**
 * Creates a session file for the lock with the native program, without the debug adapter, and executes session lines in it. Returns its
 * path.
 */
function sessionFile(name, lines) {
  const file = `${folder}/${name}.mcs`;
  const withoutComments = (text, mark) => text.split("\n").map((line) => line.replace(new RegExp(`${mark}.*`), "").trimEnd()).join("\n");
  const board = withoutComments(readFileSync(BOARD, "utf8"), "#");
  const program = withoutComments(readFileSync(PROGRAM, "utf8"), ";");
  execFileSync(process.env.MCS4, ["new", file], { input: `wire\n${board}.\nasm\n${program}.\n${lines}` });
  return file;
}

/**
 * Sends the requests that Visual Studio Code sends up to the first stop. Resolves to the capabilities, the results of two requests that set
 * breakpoints, and the body of the event `stopped`.
 */
async function startDebugging(client, command, args, { watches = [], filterOptions = [], functions = [] } = {}) {
  const capabilities = await client.request("initialize", VSCODE);
  const launchResponse = client.fetchResponse(command, { name: "MCS-4", type: "mcs4", request: command, __sessionId: "1", ...args });
  await client.waitForEvent("initialized");
  await client.request("setBreakpoints", { source: { name: "lock.asm", path: PROGRAM }, lines: [], breakpoints: [], sourceModified: false });
  await client.request("setFunctionBreakpoints", { breakpoints: functions });
  const data = watches.length > 0 ? await client.request("setDataBreakpoints", { breakpoints: watches }) : null;
  const filters = await client.request("setExceptionBreakpoints", { filters: [], filterOptions });
  await client.request("configurationDone");
  verdict((await launchResponse).success, true, `${command} is answered`);
  return { capabilities, data, filters, stopped: (await client.waitForEvent("stopped")).body };
}

/** Sends the requests that Visual Studio Code sends at each stop. Resolves to their results. */
async function readStop(client) {
  await client.request("threads");
  const firstPart = await client.request("stackTrace", { threadId: 1, startFrame: 0, levels: 1 });
  const secondPart = await client.request("stackTrace", { threadId: 1, startFrame: 1, levels: 19 });
  const frames = [...firstPart.stackFrames, ...secondPart.stackFrames];
  verdict(frames.length, firstPart.totalFrames, "the frames arrive in two parts");
  const { scopes } = await client.request("scopes", { frameId: frames[0].id });
  return { frames, scopes };
}

/** Checks that attaching to a session file does not change any of its bytes, and works even if the file is read-only. */
async function tryAttach() {
  const file = sessionFile("attached", "run 5000\npress 1 1\nbreak 0x031\n");
  chmodSync(file, 0o444);
  const before = readFileSync(file);
  const [state] = answersOf(file, "state\n");
  const client = new Client(ADAPTER);
  const { stopped } = await startDebugging(client, "attach", { session: file });
  verdict([stopped.reason, (await client.request("evaluate", { expression: "state", context: "repl" })).result], ["entry", state], "the state after attach is that of the file");
  await readStop(client);
  const stateAfterSteps = answersOf(file, "step\nstep\nstep\nstate\n").pop();
  for (let step = 0; step < 3; step++) await client.runUntilStop("stepIn", { granularity: "statement" });
  verdict((await client.request("evaluate", { expression: "state", context: "repl" })).result, stateAfterSteps, "three steps after attach");
  verdict(Buffer.compare(before, readFileSync(file)), 0, "the file is unchanged");
  verdict(answersOf(file, "state\n")[0], state, "`mcs4 open` opens the file while the adapter is attached to it");
  await client.runUntilStop("restart", {});
  verdict((await client.request("evaluate", { expression: "state", context: "repl" })).result, state, "restart reads the file again");
  await client.request("disconnect", { restart: false, terminateDebuggee: false });
  verdict([await client.ended, Buffer.compare(before, readFileSync(file)), client.violations], [0, 0, []], "the adapter's status, and the file is unchanged");
  chmodSync(file, 0o600);
  const writer = new Client(ADAPTER);
  await startDebugging(writer, "attach", { session: file, write: true, program: PROGRAM, board: BOARD });
  await writer.runUntilStop("stepIn");
  const { result } = await writer.request("evaluate", { expression: "state", context: "repl" });
  verdict(answersOf(file, "state\n")[0], result, "with `write`, the file has the new state");
  const other = new Client(ADAPTER);
  await other.request("initialize", VSCODE);
  for (const args of [{ session: file }, { session: file, write: true }]) {
    matches((await other.fetchResponse("attach", args)).message, /in use.*mcs4 open attached\.mcs \(process \d+\)/s, "the message names the program that uses the file");
  }
  await writer.endSession();
  await other.request("attach", { session: file });
  await other.endSession();
}

/**
 * Checks that the adapter rejects a session file in use, and names the program that uses it. Also checks that it rejects files that are not sessions.
 */
async function tryRejectedFiles() {
  const file = sessionFile("held", "");
  const sessionHolder = spawn(process.env.MCS4, ["open", file], { stdio: ["pipe", "pipe", "ignore"] });
  await new Promise((resume) => sessionHolder.stdout.once("data", resume));
  const client = new Client(ADAPTER);
  await client.request("initialize", VSCODE);
  for (const command of ["attach", "launch"]) {
    const { message } = await client.fetchResponse(command, { session: file });
    matches(message, new RegExp(`in use.*mcs4 open held\\.mcs \\(process ${sessionHolder.pid}\\)`, "s"), `${command}: a session in use is rejected, and its user is named`);
  }
  sessionHolder.stdin.end();
  await new Promise((resume) => sessionHolder.on("close", resume));
  writeFileSync(`${folder}/binary`, Buffer.from(Array.from({ length: 70000 }, (_, index) => (index * 7919) % 256)));
  writeFileSync(`${folder}/text`, "x".repeat(65536));
  writeFileSync(`${folder}/program.asm`, " NOP\n".repeat(13107));
  execFileSync("sh", ["-c", "cd \"$0\"; ln -s /dev/zero zero; ln -s /dev/stdin stdin; mkfifo fifo; ln -s loop loop; mkdir folder", folder]);
  for (const name of ["binary", "text", "zero", "stdin", "fifo", "loop", "folder", "nothing", "zero/x", "\u0000", "x".repeat(5000)]) {
    for (const [command, key] of [["attach", "session"], ["launch", "session"], ["launch", "program"], ["launch", "board"], ["launch", "project"]]) {
      const { success, message = "" } = await client.fetchResponse(command, { ...(key === "board" ? { program: PROGRAM } : {}), cwd: folder, [key]: name });
      verdict([success, message.length > 5], [false, true], `${command}, ${key} ${JSON.stringify(name.slice(0, 20))}`);
    }
  }
  matches((await client.fetchResponse("launch", { cwd: folder, program: "program.asm", board: BOARD })).message, /program\.asm/, "a program of 64 KB");
  await client.request("attach", { session: file });
  await client.endSession();
}

/** Checks that a data breakpoint stops at each change that the native program's `trace` shows. */
async function tryDataBreakpoints() {
  const file = sessionFile("watched", "run 400\n");
  for (const [dataId, probe] of [["r0", "r0"], ["acc", "acc"], ["chain0", "chain0"], ["rom0", "rom0"], ["cy", "cy"]]) {
    const client = new Client(ADAPTER);
    const { data } = await startDebugging(client, "attach", { session: file }, { watches: [{ dataId, accessType: "write" }] });
    verdict(data.breakpoints.map(({ verified }) => verified), [true], `${dataId} can be watched`);
    const lines = answersOf(file, `trace 20000 ${probe} pc\n`);
    let before = lines[0].split(" ").slice(-2)[0];
    const expected = lines.slice(1, -1).flatMap((line, index) => {
      const after = line.split(" ")[2];
      const isChange = after !== before;
      before = after;
      return isChange ? [`0x${lines[index + 2].split(" ")[1]}`] : [];
    }).slice(0, 12);
    const stops = [];
    for (let stop = 0; stop < expected.length; stop++) {
      const { reason, hitBreakpointIds } = await client.runUntilStop("continue");
      const { stackFrames: [frame] } = await client.request("stackTrace", { threadId: 1, startFrame: 0, levels: 1 });
      stops.push(reason === "data breakpoint" && hitBreakpointIds[0] === data.breakpoints[0].id ? frame.instructionPointerReference : reason);
    }
    verdict(stops, expected, `stops at changes of ${dataId}`);
    await client.endSession();
  }
}

/**
 * Checks the adapter's answers about step targets, restarted frames, number formats, memory and completions. Code and memory must agree
 * with the answers of the native program.
 */
async function tryRequests() {
  const file = sessionFile("lock", "");
  const client = new Client(ADAPTER);
  const { capabilities, filters } = await startDebugging(client, "launch", { program: PROGRAM, board: BOARD },
    { functions: [{ name: "scan" }], filterOptions: [{ filterId: "calls" }, { filterId: "chip", condition: "r0 = 3" }] });
  const usedCapabilities = ["supportsStepInTargetsRequest", "supportsRestartFrame", "supportsCancelRequest", "supportsValueFormattingOptions",
    "supportsExceptionFilterOptions", "supportsDataBreakpoints", "supportsCompletionsRequest", "supportsReadMemoryRequest", "supportsWriteMemoryRequest"];
  verdict(usedCapabilities.filter((name) => capabilities[name] !== true), [], "the adapter announces all capabilities that are used");
  verdict(filters.breakpoints.map(({ verified }) => verified), [true, true], "exception filters with options are verified");
  const initialStop = await readStop(client);
  const { targets } = await client.request("stepInTargets", { frameId: initialStop.frames[0].id });
  verdict(targets, [], "stepInTargets: a jump is not a call");
  await client.runUntilStop("stepIn");
  const targetsAhead = await client.request("stepInTargets", { frameId: 1 });
  verdict(targetsAhead.targets.map(({ line }) => line), [29, 31], "the step targets are the two next calls");
  await client.runUntilStop("stepIn", { targetId: targetsAhead.targets[0].id });
  const { frames } = await readStop(client);
  verdict([frames[0].name, frames.length], ["show", 2], "stepIn with a target enters the chosen call");
  await client.runUntilStop("continue");
  const stopInScan = await readStop(client);
  const [depth] = [stopInScan.frames.length];
  await client.request("setFunctionBreakpoints", { breakpoints: [] });
  for (let step = 0; step < 5; step++) await client.runUntilStop("next");
  const { reason } = await client.runUntilStop("restartFrame", { frameId: 2 });
  const stopAfterRestart = await readStop(client);
  verdict([reason, stopAfterRestart.frames.length, stopAfterRestart.frames[0].canRestart], ["restart", depth - 1, true], "restartFrame ends the calls above the frame");
  const address = Number(stopAfterRestart.frames[0].instructionPointerReference);
  const callAddress = Number(stopAfterRestart.frames[1].instructionPointerReference);
  const [listingRow] = answersOf(file, `list ${callAddress} 1\n`);
  matches(listingRow, new RegExp(`JMS 0x${stopAfterRestart.frames[0].instructionPointerReference.slice(2)}$`), `the restarted frame begins at ${address}, the target of its JMS`);
  const registers = stopAfterRestart.scopes.find(({ name }) => name === "Registers").variablesReference;
  const values = async (format) => (await client.request("variables", { variablesReference: registers, format })).variables.map(({ value }) => value);
  const [hexValues, decimalValues] = [await values({ hex: true }), await values({ hex: false })];
  verdict(hexValues.map(Number), decimalValues.map(Number), "registers in hexadecimal and in decimal have equal values");
  verdict([hexValues.every((value) => /^0x[0-9A-F]+$/.test(value)), decimalValues.every((value) => /^\d+$/.test(value))], [true, true], "registers: each value is in the requested base");
  const rom = Buffer.from((await client.request("readMemory", { memoryReference: "0x000", offset: 0, count: 4096 })).data, "base64");
  const bytes = Array.from({ length: 16 }, (_, page) => answersOf(file, `list ${256 * page} 256\n`)).flat();
  const differingRows = bytes.filter((line) => {
    const [at, ...rest] = line.slice(0, 9).trim().split(/ +/);
    return rest.some((byte, offset) => rom[parseInt(at, 16) + offset] !== parseInt(byte, 16));
  });
  verdict([bytes.length > 1000, differingRows], [true, []], "readMemory of the ROM has the bytes of `list`");
  await client.request("writeMemory", { memoryReference: "0x10000", offset: 18, data: Buffer.from([1, 2, 3]).toString("base64") });
  await client.waitForEvent("memory");
  const { result } = await client.request("evaluate", { expression: "ram 0", context: "repl" });
  const expectedLines = answersOf(file, "poke ram.0.18 1\npoke ram.0.19 2\npoke ram.0.20 3\nram 0\n").slice(3);
  const valuesOfRegister = (lines) => lines.find((line) => line.startsWith("0.0.1 ")).split(" ")[1];
  verdict(valuesOfRegister(result.split("\n")).slice(2, 5), valuesOfRegister(expectedLines).slice(2, 5), "writeMemory writes characters of the RAM");
  const keys = await client.request("completions", { frameId: 1, text: "press ", column: 7, line: 1 });
  verdict(keys.targets.map(({ label }) => label).join(" "), "1 2 3 4 5 6 7 8 9 * 0 #", "completions after `press` are the keys of the board");
  verdict(client.violations, [], "each message of the adapter follows the protocol");
  verdict(await client.endSession(), 0, "the adapter ends with status 0");
}

/** Checks that the adapter reports the progress of a long request, and ends the request when the client cancels it. */
async function tryLongRequest() {
  const program = `${folder}/long.asm`;
  writeFileSync(program, " FIM P0, 0\nturn: ISZ R0, turn\n ISZ R1, turn\n JUN turn\n");
  const client = new Client(ADAPTER);
  await startDebugging(client, "launch", { program, board: BOARD });
  await client.request("continue", { threadId: 1 });
  const { body: { progressId } } = await client.waitForEvent("progressStart");
  await client.waitForEvent("progressUpdate");
  await client.request("cancel", { progressId });
  await client.waitForEvent("progressEnd");
  verdict((await client.waitForEvent("stopped")).body.reason, "pause", "progress of a long run is reported, and the run pauses when it is cancelled");
  const { result: before } = await client.request("evaluate", { expression: "seq", context: "repl" });
  // Search the whole past for an event that never happened.
  await client.request("evaluate", { expression: "back r9 = 9", context: "repl" });
  verdict((await client.waitForEvent("stopped")).body.reason !== "", true, "a search in the past ends");
  const lines = `poke r4 7\n${"run 100000\n".repeat(990)}`;
  client.requestCount += 1;
  const seq = client.requestCount;
  client.send({ seq, type: "request", command: "evaluate", arguments: { expression: lines, context: "repl" } });
  const isAnswer = (message) => message.type === "response" && message.request_seq === seq;
  // The first progress report shows that the request has begun. A fast machine can finish the request before it reports progress.
  const firstMessage = await client.waitForMessage((message) => isAnswer(message) || (message.type === "event" && message.event === "progressStart"));
  const isDone = isAnswer(firstMessage);
  if (!isDone) await client.request("cancel", { requestId: seq });
  const answer = isDone ? firstMessage : await client.waitForMessage(isAnswer);
  const { result: after } = await client.request("evaluate", { expression: "seq", context: "repl" });
  verdict([answer.message || "done", after === before], answer.success ? ["done", false] : ["cancelled", true], "a cancelled line changes nothing");
  await client.request("continue", { threadId: 1 });
  await client.request("disconnect", { terminateDebuggee: true });
  verdict(await client.ended, 0, "the adapter ends with status 0 while time runs");
}

await tryAttach();
await tryRejectedFiles();
await tryDataBreakpoints();
await tryRequests();
await tryLongRequest();
