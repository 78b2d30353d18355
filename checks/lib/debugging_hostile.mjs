// Tests of checks/debugging with invalid messages: messages with wrong lengths, requests in the wrong order, unknown requests, and some 2,000
// requests with wrong arguments. The adapter must answer each request once and continue, or print an error and end. Prints `ok TEXT` or `failed:
// TEXT` for each check.
import { Client } from "./dap_client.mjs";

const TOP = new URL("../..", import.meta.url).pathname;
const ADAPTER = `${TOP}mcs4`;
const LOCK = { program: `${TOP}examples/lock/lock.asm`, board: `${TOP}examples/lock/board.toml` };
const REQUEST_COUNT = 2000;
const BATCH_SIZE = 50;

function verdict(actual, expected, description) {
  const [actualText, expectedText] = [JSON.stringify(actual), JSON.stringify(expected)];
  console.log(actualText === expectedText ? `ok ${description}` : `failed: ${description}: ${actualText}, not ${expectedText}`);
}

const matches = (text, pattern, description) => console.log(pattern.test(text) ? `ok ${description}` : `failed: ${description}: ${text}`);

// --- messages with their header

const frameMessage = (text, size = Buffer.byteLength(text)) => `Content-Length: ${size}\r\n\r\n${text}`;
const request = (seq, command, args) => JSON.stringify({ seq, type: "request", command, arguments: args });
const INITIALIZE = frameMessage(request(1, "initialize", {}));

/** Byte sequences after which the adapter cannot find the next message, with the expected error. If `isOpen` is true, the stream stays open. */
const FATAL_INPUTS = [
  { name: "the rest of a message never arrives", bytes: frameMessage("{\"seq\":", 50), pattern: /^only 7 of the 50 bytes/, isOpen: true },
  { name: "the rest of a header never arrives", bytes: "Content-Le", pattern: /^only a part of the head/, isOpen: true },
  { name: "a Content-Length that is too large", bytes: `${INITIALIZE}${frameMessage("{}", 9)}`, pattern: /^only 2 of the 9 bytes/ },
  { name: "a Content-Length that is too small", bytes: `${frameMessage(request(1, "threads"), 20)}${INITIALIZE}`, pattern: /^a message begins with/ },
  { name: "a Content-Length that is not a number", bytes: "Content-Length: many\r\n\r\n{}", pattern: /^a message begins with/ },
  { name: "a Content-Length below 0", bytes: "Content-Length: -2\r\n\r\n{}", pattern: /^a message begins with/ },
  { name: "two Content-Lengths", bytes: "Content-Length: 2\r\nContent-Length: 3\r\n\r\n{}", pattern: /^a message begins with/ },
  { name: "a header that does not end", bytes: "x".repeat(5000), pattern: /^the header of a message has more than/ },
  { name: "binary bytes", bytes: Buffer.from(Array.from({ length: 6000 }, (_, index) => (index * 7919) % 256)), pattern: /^the head|^a message begins/ },
];

/** Checks that the adapter sends and prints the error, and exits with status 1. */
async function tryFatalInput({ name, bytes, pattern, isOpen = false }) {
  const client = new Client(ADAPTER);
  client.sendBytes(bytes);
  if (!isOpen) client.child.stdin.end();
  const status = await client.ended;
  const last = client.received.filter(({ type, success }) => type === "response" && !success).pop() || { message: "nothing was sent" };
  verdict([status, client.stderr], [1, `dap: ${last.message}\n`], name);
  matches(last.message, pattern, `${name}: the message`);
}

// --- requests

let randomState = 20261128;
/** Returns a random integer from 0 to `count` - 1. */
function random(count) {
  randomState = (Math.imul(randomState, 1664525) + 1013904223) >>> 0;
  return Math.floor((randomState / 2 ** 32) * count);
}
const oneOf = (list) => list[random(list.length)];

const COMMANDS = ["initialize", "launch", "attach", "configurationDone", "setBreakpoints", "setFunctionBreakpoints", "setInstructionBreakpoints",
  "setDataBreakpoints", "dataBreakpointInfo", "setExceptionBreakpoints", "breakpointLocations", "continue", "next", "stepIn", "stepInTargets",
  "stepOut", "stepBack", "reverseContinue", "restartFrame", "gotoTargets", "goto", "pause", "threads", "stackTrace", "scopes", "variables",
  "setVariable", "setExpression", "evaluate", "completions", "disassemble", "readMemory", "writeMemory", "loadedSources", "source", "exceptionInfo",
  "cancel", "restart", "pressKey", "releaseKey", "watchBoard", "changeKey", "modules", "terminateThreads", "toString", "__proto__", "", "a b", "\u0000"];
const ARGUMENT_NAMES = ["threadId", "frameId", "variablesReference", "name", "value", "expression", "context", "format", "memoryReference", "offset", "count",
  "data", "instructionOffset", "instructionCount", "source", "sourceReference", "line", "endLine", "column", "text", "targetId", "breakpoints", "lines",
  "filters", "filterOptions", "requestId", "progressId", "start", "startFrame", "levels", "program", "board", "project", "session", "write", "load",
  "cwd", "key", "place", "isDown", "arguments", "allowPartial", "granularity", "pathFormat"];
const ARGUMENT_TEXTS = ["", "r4", "acc = 9", "r4 +", "((((", "ram.0.0x12", "ram 0", "0x000", "0x10000", "0x20000", "-1", "99999999999999999999", "show", "nowhere",
  "press 5", "keys 12#", "run 100", "step", "back r4", "until show", "change lamps", "poke r4 7", "set r4 = ", "asm\n NOP\n.", "reset", "help", "repl",
  "hover", "watch", "AAAA", "A", "=", "%%%", "lamp open on", "key 5 down", "display 4", "/dev/zero", "/dev/stdin", "/", ".", LOCK.program, LOCK.board,
  ADAPTER, "\u0000\u0001\u001b[2J", "\ud800", "é".repeat(20), "{{}}", "x".repeat(65536), "(".repeat(3000), "r4 and ".repeat(2000), "calls", "chip"];

/** Returns a random value. */
function randomValue(depth) {
  const kinds = [() => oneOf(ARGUMENT_TEXTS), () => oneOf([0, 1, 2, 3, 100, 200, -1, 0.5, 1e9, 2 ** 53, -(2 ** 60), 4095, 4096, 65536]), () => oneOf([true, false, null]),
    () => (depth > 2 ? [] : Array.from({ length: random(4) }, () => randomValue(depth + 1))), () => (depth > 2 ? {} : randomArguments(depth + 1))];
  return oneOf(kinds)();
}

/** Returns random arguments. */
function randomArguments(depth = 0) {
  return Object.fromEntries(Array.from({ length: random(7) }, () => [oneOf(ARGUMENT_NAMES), randomValue(depth)]));
}

/** Returns mostly valid arguments, so that the adapter's later checks of the arguments are also tested. */
function mostlyValidArguments(command) {
  const valid = { threadId: 1, frameId: 1, variablesReference: 1 + random(7), name: oneOf(["acc", "R4", "lamp 0"]), value: oneOf(ARGUMENT_TEXTS), expression: oneOf(ARGUMENT_TEXTS),
    context: oneOf(["repl", "watch", "hover", "clipboard"]), memoryReference: oneOf(["0x000", "0x10000", "ram.0"]), offset: random(300) - 20, count: random(5000),
    data: oneOf(["AAAA", "////", "AQID"]), instructionCount: random(300), instructionOffset: random(100) - 50, source: { path: LOCK.program }, line: random(120),
    column: random(20), text: oneOf(ARGUMENT_TEXTS), targetId: random(4200), filters: ["calls"], filterOptions: [{ filterId: "chip", condition: oneOf(ARGUMENT_TEXTS) }],
    breakpoints: [{ line: random(120), name: oneOf(ARGUMENT_TEXTS), dataId: oneOf(["r4", "acc", oneOf(ARGUMENT_TEXTS)]), instructionReference: oneOf(["0x02C", "show"]),
      condition: oneOf(["", "r4 = 7", oneOf(ARGUMENT_TEXTS)]), hitCondition: oneOf(["", "3", oneOf(ARGUMENT_TEXTS)]) }], key: oneOf(["5", "#", "no"]), place: oneOf(["1 1", "9 9", "x"]) };
  const allArguments = Object.entries(valid).map(([name, validValue]) => [name, random(9) === 0 ? randomValue(0) : validValue]);
  return command === "cancel" ? { requestId: random(2000) } : Object.fromEntries(allArguments);
}

/** Returns arguments of any kind for a request. */
function argumentsFor(command) {
  return oneOf([() => undefined, () => null, () => randomValue(0), () => randomArguments(), () => mostlyValidArguments(command), () => mostlyValidArguments(command)])();
}

/**
 * Sends requests in batches, without waiting within a batch. Resolves to the requests that were answered more than once: the number of
 * each, and how often it was answered. Throws an error if a request is not answered in time.
 */
async function sendAll(client, count) {
  const answerCounts = new Map();
  for (let done = 0; done < count; done += BATCH_SIZE) {
    const batch = [];
    for (let n = 0; n < BATCH_SIZE; n++) {
      const command = oneOf(COMMANDS);
      client.requestCount += 1;
      batch.push(client.requestCount);
      client.send({ seq: client.requestCount, type: "request", command, arguments: argumentsFor(command) });
    }
    // Pause a running machine, so that the next batch begins in a paused session.
    await client.fetchResponse("pause", { threadId: 1 });
    for (const seq of batch) {
      await client.waitForMessage((message) => message.type === "response" && message.request_seq === seq);
      answerCounts.set(seq, 1);
    }
    const extraResponses = client.received.filter(({ type, request_seq: seq }) => type === "response" && answerCounts.has(seq));
    for (const { request_seq: seq } of extraResponses) answerCounts.set(seq, answerCounts.get(seq) + 1);
    client.received = [];
  }
  return [...answerCounts].filter(([, times]) => times !== 1);
}

async function tryRequests() {
  const client = new Client(ADAPTER);
  verdict(await (async () => {
    const answers = new Set();
    for (const command of COMMANDS.filter((name) => name !== "initialize")) answers.add((await client.fetchResponse(command, randomArguments())).message);
    return [...answers];
  })(), ["send initialize first"], "all requests before initialize");
  for (const message of [[], 7, "text", null, {}, { type: "request" }, { seq: "1", type: "request", command: "threads" },
    { seq: 5, type: "request", command: 3 }, { seq: 1.5, type: "request", command: "threads" }]) {
    client.send(message);
    matches((await client.waitForMessage(({ type, success }) => type === "response" && !success)).message, /^a message has a number seq/, JSON.stringify(message));
  }
  client.send({ seq: 1, type: "response", request_seq: 1, success: true, command: "runInTerminal" });
  client.send({ seq: 1, type: "event", event: "nothing" });
  await client.request("initialize", { adapterID: "mcs4", supportsProgressReporting: true, supportsMemoryEvent: true });
  verdict(await sendAll(client, REQUEST_COUNT / 4), [], "requests before launch are answered once");
  client.received = [];
  const { success } = await client.fetchResponse("launch", LOCK);
  if (success) await client.request("configurationDone");
  verdict(await sendAll(client, REQUEST_COUNT), [], `${REQUEST_COUNT} requests with wrong arguments are answered once`);
  verdict(client.violations, [], "each message follows the protocol");
  verdict((await client.request("threads")).threads.length, 1, "the adapter continues");
  verdict([await client.endSession(), client.stderr], [0, ""], "the adapter's status");
}

await Promise.all(FATAL_INPUTS.slice(0, 3).map(tryFatalInput));
for (const input of FATAL_INPUTS.slice(3)) await tryFatalInput(input);
await tryRequests();
