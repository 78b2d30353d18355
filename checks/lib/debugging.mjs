// The main tests of checks/debugging. The client in dap_client.mjs acts as the editor. Prints `ok TEXT` or `failed: TEXT` for each check, and `speed:
// TEXT` for a measurement.
import { execFileSync, spawn } from "node:child_process";
import { copyFileSync, readFileSync, readdirSync, writeFileSync } from "node:fs";
import { Client } from "./dap_client.mjs";

const TOP = new URL("../..", import.meta.url).pathname;
const MCS4 = `${TOP}mcs4`;
const [folder] = process.argv.slice(2);
const STEP_COUNT = 200;
/** The number of cycles up to the breakpoint in the program of the speed measurement. */
const CYCLES_TO_BREAKPOINT = [1, 2, 3, 4, 5].reduce((sum, register) => sum + 2 * 12 * 16 ** (5 - register), 3 * 12 * 16 ** 5);

function verdict(actual, expected, description) {
  const [actualText, expectedText] = [JSON.stringify(actual), JSON.stringify(expected)];
  console.log(actualText === expectedText ? `ok ${description}` : `failed: ${description}: ${actualText}, not ${expectedText}`);
}

const matches = (text, pattern, description) => console.log(pattern.test(text) ? `ok ${description}` : `failed: ${description}: ${text}`);

/** Runs the native program, which MCS4 names, on a session file with these input lines. Returns its answers without the first line. */
const runProgram = (verb, file, input) => execFileSync(process.env.MCS4, [verb, file], { input, encoding: "utf8" }).split("\n").slice(1, -1);

/** Returns the state in a session file. Reads a copy, because a file in use cannot be opened. */
function stateIn(file) {
  copyFileSync(file, `${folder}/copy.mcs`);
  return runProgram("open", `${folder}/copy.mcs`, "state\n")[0];
}

/** Returns the keys and values in an answer to `state`. */
function valuesOf(state) {
  const words = state.split(" ").slice(1);
  return Object.fromEntries(words.flatMap((word, index) => (index % 2 === 0 ? [[word, words[index + 1]]] : [])));
}

/** Returns `text` without its comments, which begin with `mark`. */
const withoutComments = (text, mark) => text.split("\n").map((line) => line.replace(new RegExp(`${mark}.*`), "").trim()).join("\n");
/** Returns the files of an example. */
const example = (name) => ({
  board: `${TOP}examples/${name}/board.toml`, program: `${TOP}examples/${name}/${name}.asm`, project: `${TOP}examples/${name}`,
});

/**
 * Creates a session file for an example with the native program, without the debug adapter. Returns its path, the source line at each
 * address, and the values of the names.
 */
function createSession(name, lines = "") {
  const file = `${folder}/${name}.mcs`;
  execFileSync("rm", ["-f", file]);
  const { board, program } = example(name);
  const text = `${withoutComments(readFileSync(program, "utf8"), ";")}\n`.replace(/\n\n$/, "\n");
  const answers = runProgram("new", file, `wire\n${readFileSync(board, "utf8").replace(/^#.*$/gm, "")}.\nasm\n${text}.\nmap\n${text}.\n${lines}`);
  const map = answers.filter((line) => /^(line|name) /.test(line)).map((line) => line.split(" "));
  const lineAt = new Map(map.filter(([kind, , , size]) => kind === "line" && size > 0).map(([, line, address]) => [parseInt(address, 16), Number(line)]));
  const names = new Map(map.filter(([kind]) => kind === "name").map(([, label, value]) => [label, parseInt(value, 16)]));
  return { file, lineAt, names };
}

/** Resolves to the machine's state as the client sees it, with the keys of `state`. */
async function machineState(client) {
  const { values } = await client.fetchScope("Registers");
  const digits = (name) => values[name].replace(/^0x/, "");
  const r = Array.from({ length: 16 }, (_, n) => digits(`R${n}`)).join("");
  return { acc: digits("acc"), cy: values.cy, pc: digits("pc"), dcl: digits("dcl"), test: values.test, r };
}

/** From the values in an answer to `state`, returns only those that `machineState` returns, too. */
const comparableState = ({ acc, cy, pc, dcl, test, r }) => ({ acc, cy, pc, dcl, test, r });

/** Compares steps of the adapter in an example, forward and back, with the steps of the native program. */
async function trySteps(name) {
  const { lineAt, file } = createSession(name);
  const expected = runProgram("open", file, "state\nstep\n".repeat(STEP_COUNT)).filter((line) => line.startsWith("state ")).map(valuesOf);
  const client = new Client(MCS4);
  await client.beginSession({ project: example(name).project });
  const events = [await client.waitForEvent("stopped")];
  const states = [];
  const lines = [];
  for (let step = 0; step < STEP_COUNT; step++) {
    states.push(await machineState(client));
    lines.push((await client.fetchFrames())[0].line);
    events.push(await client.runUntilStop("stepIn"));
  }
  verdict(states, expected.map(comparableState), `${name}: ${STEP_COUNT} steps`);
  verdict(lines, expected.map(({ pc }) => lineAt.get(parseInt(pc, 16)) || 0), `${name}: the lines of the steps`);
  const backwardStates = [];
  for (let step = 0; step < 40; step++) {
    await client.runUntilStop("stepBack");
    backwardStates.unshift(await machineState(client));
  }
  verdict(backwardStates, states.slice(-40), `${name}: 40 steps back`);
  verdict(client.violations, [], `${name}: each message follows the protocol`);
  verdict(await client.endSession(), 0, `${name}: the adapter's status`);
}

/** Compares breakpoints at an example's labels with `break` and `run` in the native program. */
async function tryBreakpoints(name) {
  const { file, lineAt, names } = createSession(name);
  const text = readFileSync(example(name).program, "utf8");
  const labels = [...names].filter(([label, value]) => lineAt.has(value) && new RegExp(`^${label}:`, "m").test(text)).slice(0, 8);
  const client = new Client(MCS4);
  await client.beginSession(example(name));
  await client.waitForEvent("stopped");
  const initialState = await client.request("evaluate", { expression: "state", context: "repl" });
  for (const [label, address] of labels) {
    copyFileSync(file, `${folder}/run.mcs`);
    const answers = runProgram("open", `${folder}/run.mcs`, `break ${address}\nrun 50000\nunbreak ${address}\nstate\n`);
    if (!/ break$/.test(answers[1])) continue;
    await client.request("restart", {});
    await client.waitForEvent("stopped");
    await client.request("setFunctionBreakpoints", { breakpoints: [{ name: label }] });
    const stop = await client.runUntilStop("continue");
    verdict([stop.reason, await machineState(client)], ["function breakpoint", comparableState(valuesOf(answers[3]))], `${name}: a breakpoint at ${label}`);
    await client.request("setFunctionBreakpoints", { breakpoints: [] });
  }
  matches(initialState.result, /^state seq 2 acc 0 cy 0 pc 000/, `${name}: the state after launch`);
  await client.endSession();
}

/**
 * Goes back from each arrival at a label to the previous one, and compares these stops with those of the native program, which runs
 * forward. Does the same with a condition on a register, given by its number. With the condition, the adapter must stop only at the arrivals at which
 * it is true.
 */
async function tryArrivals(name, label, register) {
  const { file, names } = createSession(name);
  const runLines = "run 20000\nstate\n".repeat(40);
  const expected = runProgram("open", file, `state\nbreak ${names.get(label)}\n${runLines}`).filter((line) => line.startsWith("state ")).map(valuesOf);
  const client = new Client(MCS4);
  await client.beginSession(example(name));
  await client.waitForEvent("stopped");
  const { breakpoints: [{ id }] } = await client.request("setFunctionBreakpoints", { breakpoints: [{ name: label }] });
  for (let stop = 0; stop < 40; stop++) await client.runUntilStop("continue");
  const backwardStops = [];
  const ids = [];
  for (let stop = 0; stop < 20; stop++) {
    const { reason, hitBreakpointIds } = await client.runUntilStop("reverseContinue");
    backwardStops.push(await machineState(client));
    ids.push([reason, ...(hitBreakpointIds || [])]);
  }
  verdict(backwardStops, expected.slice(20, 40).reverse().map(comparableState), `${name}: back to 20 arrivals at ${label}`);
  verdict(ids.filter(([reason, hit]) => reason !== "function breakpoint" || hit !== id), [], `${name}: each stop is by that breakpoint`);
  const value = expected[10].r[register];
  const matching = expected.slice(1, 20).filter(({ r }) => r[register] === value).reverse();
  await client.request("setFunctionBreakpoints", { breakpoints: [{ name: label, condition: `r${register} = ${parseInt(value, 16)}`, hitCondition: "90" }] });
  const conditionalStops = [];
  for (let stop = 0; stop < matching.length; stop++) {
    await client.runUntilStop("reverseContinue");
    conditionalStops.push(await machineState(client));
  }
  verdict(conditionalStops, matching.map(comparableState), `${name}: back to ${matching.length} arrivals at which a condition is true`);
  const { reason } = await client.runUntilStop("reverseContinue");
  verdict([reason, await machineState(client)], ["entry", comparableState(expected[0])], `${name}: back to the beginning`);
  await client.request("setFunctionBreakpoints", { breakpoints: [{ name: label, condition: `r${register} = ${parseInt(value, 16)}` }] });
  await client.request("evaluate", { expression: "run 100000", context: "repl" });
  verdict(await machineState(client), comparableState(matching[matching.length - 1]), `${name}: a run in the console stops when a condition is true`);
  await client.endSession();
}

/** Compares the effects of setting values and pressing keys with those of `poke`, `press` and `test`. */
async function trySetting() {
  const { file } = createSession("lock");
  const expected = valuesOf(runProgram("open", file, "poke r4 7\npoke acc 9\npoke pc 0x2E\npoke ram.0.0x13 5\npress 1 1\ntest 0\nstate\n").pop());
  const client = new Client(MCS4);
  await client.beginSession(example("lock"));
  await client.waitForEvent("stopped");
  const { variablesReference } = await client.fetchScope("Registers");
  for (const [name, value] of [["R4", "7"], ["acc", "0x9"], ["pc", "ready"], ["test", "0"]]) {
    await client.request("setVariable", { variablesReference, name, value });
  }
  await client.request("setExpression", { expression: "ram.0.0x13", value: "0b101" });
  await client.request("pressKey", { key: "5" });
  const { result } = await client.request("evaluate", { expression: "state", context: "repl" });
  const actual = valuesOf(result);
  verdict([comparableState(actual), actual.keys], [comparableState(expected), expected.keys], "values that are set, and a pressed key");
  verdict((await client.request("evaluate", { expression: "ram.0.0x13", context: "watch" })).result, "0x5", "a nibble of RAM that is set");
  await client.endSession();
}

/** Checks that a session file contains the reported state at each stop, and that its breakpoints are unchanged. */
async function trySession() {
  const { file } = createSession("lock", "break 0x031\n");
  const client = new Client(MCS4);
  await client.beginSession({ ...example("lock"), session: file });
  await client.waitForEvent("stopped");
  const differingMoves = [];
  const compare = async (move) => {
    const { result } = await client.request("evaluate", { expression: "state", context: "repl" });
    if (stateIn(file) !== result) differingMoves.push(move);
  };
  await client.request("setFunctionBreakpoints", { breakpoints: [{ name: "show" }] });
  for (const move of ["stepIn", "next", "continue", "stepOut", "stepBack", "stepIn", "stepIn", "reverseContinue", "stepIn", "stepBack"]) {
    await client.runUntilStop(move);
    await compare(move);
  }
  await client.request("setFunctionBreakpoints", { breakpoints: [] });
  await client.request("evaluate", { expression: "press 5", context: "repl" });
  await compare("press 5");
  verdict(differingMoves, [], "the session file has the reported state at each stop");
  const secondClient = new Client(MCS4);
  await secondClient.request("initialize", {});
  matches((await secondClient.fetchResponse("launch", { session: file })).message, /was rejected.*in use/s, "a session in use is rejected");
  await secondClient.endSession();
  client.child.kill("SIGKILL");
  await client.ended;
  const stateAfterKill = stateIn(file);
  const thirdClient = new Client(MCS4);
  await thirdClient.beginSession({ session: file, stopOnEntry: false });
  await thirdClient.request("setFunctionBreakpoints", { breakpoints: [] });
  matches(stateAfterKill, / keys 1.1 /, "the reported state after the adapter was killed");
  thirdClient.child.stdin.end();
  verdict(await thirdClient.ended, 1, "the adapter ends when the client ends");
  verdict(runProgram("open", file, "breaks\n"), ["breaks 031"], "the breakpoints of a session are unchanged");
  verdict(readdirSync(folder).filter((name) => name.startsWith("lock.mcs.") || name.startsWith(".")), [], "no other files are left");
}

/** Checks that the adapter rejects files that are not sessions, and does not change them. */
async function tryFiles() {
  const { file } = createSession("lock");
  const damagedBytes = readFileSync(file);
  damagedBytes.fill(0x55, 16, 40000);
  writeFileSync(`${folder}/damaged.mcs`, damagedBytes);
  writeFileSync(`${folder}/none.mcs`, "no session\n");
  const client = new Client(MCS4);
  await client.request("initialize", {});
  for (const [name, pattern] of [["damaged.mcs", /no 5[01]|damaged/], ["none.mcs", /no 50/], ["nothing/x.mcs", /does not exist/]]) {
    matches((await client.fetchResponse("launch", { session: `${folder}/${name}` })).message, pattern, `${name} is rejected`);
  }
  const rejectedLaunch = await client.fetchResponse("launch", { ...example("lock"), session: `${folder}/nothing/x.mcs` });
  matches(rejectedLaunch.message, /was rejected/, "a session in a missing folder is rejected");
  verdict(readFileSync(`${folder}/none.mcs`, "utf8"), "no session\n", "a file that is not a session is unchanged");
  verdict(Buffer.compare(readFileSync(`${folder}/damaged.mcs`), damagedBytes), 0, "a damaged session is unchanged");
  await client.request("launch", example("lock"));
  const answer = await client.request("setBreakpoints", { source: { path: "/etc/passwd" }, breakpoints: [{ line: 1 }] });
  verdict(answer.breakpoints[0].verified, false, "a file outside of the program has no breakpoints");
  await client.endSession();
}

/** Checks that the adapter answers invalid or untimely messages with the correct error. */
async function tryMessages() {
  const client = new Client(MCS4);
  matches((await client.fetchResponse("threads")).message, /send initialize first/, "a request before initialize");
  await client.request("initialize", {});
  matches((await client.fetchResponse("next", { threadId: 1 })).message, /send configurationDone first|nothing is launched/, "a step before launch");
  matches((await client.fetchResponse("frobnicate")).message, /unsupported request: frobnicate/, "an unknown request");
  client.sendBytes("Content-Length: 4\r\n\r\n{no}");
  matches((await client.waitForMessage(({ request_seq }) => request_seq === 0)).message, /not JSON/, "invalid JSON");
  client.sendBytes(`Content-Length: ${16777217}\r\n\r\n`);
  client.sendBytes(Buffer.alloc(16777217, 32));
  matches((await client.waitForMessage(({ request_seq }) => request_seq === 0)).message, /16777217 bytes was not read/, "a message that is too long");
  await client.request("launch", example("lock"));
  const longInputAnswer = await client.fetchResponse("evaluate", { expression: "x".repeat(16000000), context: "repl" });
  matches(longInputAnswer.message, /65536 characters/, "a console input of 16 MB");
  verdict(client.violations, [], "each message follows the protocol");
  verdict(await client.endSession(), 0, "the adapter's status after errors");
  const httpClient = new Client(MCS4);
  httpClient.sendBytes("GET / HTTP/1.1\r\n\r\n");
  verdict([await httpClient.ended, httpClient.stderr.split(",")[0]], [1, "dap: a message begins with the line Content-Length: N"], "another protocol");
  const largeClient = new Client(MCS4);
  largeClient.sendBytes("Content-Length: 99999999999\r\n\r\n");
  const { message } = await largeClient.waitForMessage(({ request_seq }) => request_seq === 0);
  verdict([await largeClient.ended, largeClient.stderr], [1, `dap: ${message}\n`], "a length that no message can have");
  matches(message, /99999999999 is more than a message can have/, "the error about a length that no message can have");
  const stdioClient = new Client(MCS4, TOP, ["--stdio"]);
  await stdioClient.request("initialize", {});
  verdict(await stdioClient.endSession(), 0, "the option --stdio");
  const child = spawn(MCS4, ["dap", "--port", "1"], { stdio: "ignore" });
  verdict(await new Promise((resume) => child.on("close", resume)), 2, "wrong arguments");
}

const median = (list) => [...list].sort((a, b) => a - b)[Math.floor(list.length / 2)];
const describeTimes = (list) => `${median(list).toFixed(1)} ms (median), ${Math.max(...list).toFixed(1)} ms at most`;

/** Resolves to the times of several calls of a function, in milliseconds. */
async function measureTimes(count, act) {
  const times = [];
  for (let turn = 0; turn < count; turn++) {
    const start = performance.now();
    await act();
    times.push(performance.now() - start);
  }
  return times;
}

/** Measures the time of a step, the time of a step back after ten million cycles, and the speed of a run to a breakpoint far ahead. */
async function trySpeed() {
  const program = `${folder}/far.asm`;
  // R0 is incremented 12 * 16 ** 5 times; each time takes 3 cycles (NOP and ISZ). Each of R1 to R5 is incremented once in 16 increments of the
  // register before it; each time takes 2 cycles (ISZ).
  const count = [0, 1, 2, 3, 4, 5].map((register) => `count${register}: ISZ R${register}, turn\n`).join("");
  writeFileSync(program, `        FIM P0, 0\n        FIM P1, 0\n        FIM P2, 0x04\nturn:   NOP\n${count}far:    JUN far\n`);
  const client = new Client(MCS4);
  await client.beginSession({ program, board: example("three_lamps").board });
  await client.waitForEvent("stopped");
  console.log(`speed: a step is reported in ${describeTimes(await measureTimes(200, () => client.runUntilStop("stepIn")))}`);
  await client.request("setFunctionBreakpoints", { breakpoints: [{ name: "far" }] });
  const start = performance.now();
  const stop = await client.runUntilStop("continue");
  const seconds = (performance.now() - start) / 1000;
  const stepBackTimes = await measureTimes(20, () => client.runUntilStop("stepBack"));
  console.log(`speed: a step back after millions of cycles is reported in ${describeTimes(stepBackTimes)}`);
  for (const breakpoint of [{ name: "count3" }, { name: "turn", condition: "r1 = 0 and r0 = 0" }]) {
    await client.request("setFunctionBreakpoints", { breakpoints: [breakpoint] });
    const arrivalTimes = await measureTimes(20, () => client.runUntilStop("reverseContinue"));
    const target = breakpoint.condition ? "a condition that is evaluated 256 times" : "a breakpoint 12,000 cycles ago";
    console.log(`speed: back to ${target} is reported in ${describeTimes(arrivalTimes)}`);
  }
  const { result } = await client.request("evaluate", { expression: "count 1", context: "repl" });
  verdict([stop.reason, /^count/.test(result)], ["function breakpoint", true], "a distant breakpoint");
  console.log(`speed: ${(CYCLES_TO_BREAKPOINT / 1e6).toFixed(1)} million cycles to a breakpoint in ${seconds.toFixed(2)} s`);
  await client.endSession();
}

for (const name of ["lock", "calculator", "stacker", "three_lamps"]) {
  await trySteps(name);
  await tryBreakpoints(name);
}
await tryArrivals("lock", "scan", 5);
await tryArrivals("stacker", "pause", 2);
await trySetting();
await trySession();
await tryFiles();
await tryMessages();
await trySpeed();
