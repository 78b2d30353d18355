// The main tests of checks/editors. The client in lsp_client.mjs acts as the editor. Prints `ok TEXT` or `failed: TEXT` for each check, and `speed:
// TEXT` for a measurement.
import { execFileSync } from "node:child_process";
import { readFileSync, readdirSync } from "node:fs";
import { Client } from "./lsp_client.mjs";

const TOP = new URL("../..", import.meta.url).pathname;
const MCS4 = `${TOP}mcs4`;
const [folder] = process.argv.slice(2);
const read = (name) => readFileSync(`${TOP}${name}`, "utf8");
const at = (uri, line, character) => ({ textDocument: { uri }, position: { line, character } });

function verdict(actual, expected, description) {
  const [actualText, expectedText] = [JSON.stringify(actual), JSON.stringify(expected)];
  console.log(actualText === expectedText ? `ok ${description}` : `failed: ${description}: ${actualText}, not ${expectedText}`);
}

/** Returns the address and size of each line of a source text, and its names with their values, as the native program reports them (`map`). */
function reportOf(board, program) {
  const file = `${folder}/session.mcs`;
  const input = `wire\n${board}.\nasm\n${program}.\nmap\n${program}.\n`;
  const answers = execFileSync(process.env.MCS4, ["new", file], { input, encoding: "utf8" }).split("\n");
  execFileSync("rm", ["-f", file]);
  const lines = new Map();
  const names = new Map();
  for (const [kind, first, second, third] of answers.map((line) => line.split(" "))) {
    if (kind === "line" && Number(third) > 0) lines.set(Number(first), { address: second, size: Number(third) });
    if (kind === "name") names.set(first, parseInt(second, 16));
  }
  return { lines, names };
}

/** Returns the names of the examples that are folders with a board and a program. */
function examples() {
  return readdirSync(`${TOP}examples`, { withFileTypes: true }).filter((entry) => entry.isDirectory()).map(({ name }) => name);
}

/** Compares the addresses and sizes in an example's hovers, and the values in its symbols, with the report of the native program. */
async function compare(client, name) {
  const uri = `file://${TOP}examples/${name}/${name}.asm`;
  const [text, board] = [read(`examples/${name}/${name}.asm`), read(`examples/${name}/board.toml`)];
  verdict(await client.openDocument(uri, text), [], `${name} has no errors`);
  const codeOnly = text.split("\n").map((line) => line.replace(/;.*/, "").trim()).join("\n");
  const { lines, names } = reportOf(board.replace(/^#.*$/gm, ""), codeOnly.endsWith("\n") ? codeOnly : `${codeOnly}\n`);
  const wrongLines = [];
  for (const [line, { address, size }] of lines) {
    const column = text.split("\n")[line - 1].search(/\S/);
    const hover = await client.request("textDocument/hover", at(uri, line - 1, column));
    const match = new RegExp(`line ${line}: address 0x([0-9A-F]+), ([0-9A-F ]+)`).exec(hover ? hover.contents.value : "");
    if (!match || parseInt(match[1], 16) !== parseInt(address, 16) || match[2].trim().split(" ").length !== size) wrongLines.push(line);
  }
  verdict(wrongLines, [], `${name}: addresses and sizes of ${lines.size} lines`);
  const symbols = await client.request("textDocument/documentSymbol", { textDocument: { uri } });
  verdict(symbols.map((symbol) => symbol.name).sort(), [...names.keys()].sort(), `${name}: the names`);
  const values = symbols.map((symbol) => parseInt(/0x([0-9A-F]+)/.exec(symbol.detail)[1], 16));
  verdict(values, symbols.map((symbol) => names.get(symbol.name)), `${name}: values of names`);
  const { data } = await client.request("textDocument/semanticTokens/full", { textDocument: { uri } });
  const actual = data.filter((_, index) => index % 5 === 3).filter((type) => type === 4).length;
  const expected = [...lines.keys()].filter((line) => !/^(\w+:)?\s*DB\b/.test(text.split("\n")[line - 1])).length;
  verdict(actual, expected, `${name}: the number of words that are coloured as instructions`);
}

const median = (list) => [...list].sort((a, b) => a - b)[Math.floor(list.length / 2)];
const describeTimes = (list) => `median ${median(list).toFixed(1)} ms, ${Math.max(...list).toFixed(1)}`;

/** Measures the time until diagnostics and hovers arrive for a program of maximum length. Each edit adds an error. */
async function trySpeed(client) {
  const uri = "file:///long.asm";
  const text = `start:\n${"LDM 5\n".repeat(2728)}NOP`;
  await client.openDocument(uri, text);
  const hovers = [];
  for (let turn = 0; turn < 50; turn++) {
    const start = performance.now();
    await client.request("textDocument/hover", at(uri, 10 + turn, 1));
    hovers.push(performance.now() - start);
  }
  const times = [];
  for (let turn = 1; turn <= 15; turn++) {
    const start = performance.now();
    const range = { start: { line: turn, character: 4 }, end: { line: turn, character: 5 } };
    client.notify("textDocument/didChange", { textDocument: { uri, version: turn + 1 }, contentChanges: [{ range, text: "x" }] });
    verdict((await client.waitForErrors(uri)).length, turn, `${turn} errors`);
    times.push(performance.now() - start);
  }
  console.log(`speed: a hover in a text of ${text.length} bytes: ${describeTimes(hovers)}`);
  console.log(`speed: 1 to 15 errors in it, after an edit: ${describeTimes(times)}`);
}

/** Checks that the server rejects invalid messages with the correct error, and still answers the next request. */
async function tryWrongMessages() {
  const client = new Client(MCS4);
  verdict((await client.fetchResponse("textDocument/hover", {})).error.code, -32002, "a request before initialize");
  client.notify("textDocument/didOpen", { textDocument: {} });
  await client.beginSession();
  verdict((await client.fetchResponse("initialize", {})).error.code, -32600, "initialize twice");
  verdict((await client.fetchResponse("workspace/none", {})).error.code, -32601, "an unknown method");
  verdict((await client.fetchResponse("textDocument/hover", at("file:///none.asm", 0, 0))).error.code, -32602, "a text that is not open");
  client.sendBytes("Content-Length: 3\r\n\r\n{,}");
  verdict((await client.waitForMessage(({ id }) => id === null)).error.code, -32700, "invalid JSON");
  client.sendBytes("Content-Length: 2\r\n\r\n[]");
  verdict((await client.waitForMessage(({ id }) => id === null)).error.code, -32600, "JSON that is not a message");
  client.sendBytes(`Content-Length: ${16777217}\r\n\r\n`);
  client.sendBytes(Buffer.alloc(16777217, 32));
  verdict((await client.waitForMessage(({ id }) => id === null)).error.code, -32600, "a message that is too long");
  const uri = "file:///large.asm";
  const [error] = await client.openDocument(uri, "NOP ; \u00e9\n".repeat(1600000));
  verdict(error.message.slice(0, 25), "a text has at most 65,536", "a text of 16 MB");
  client.notify("textDocument/didChange", { textDocument: { uri, version: 2 }, contentChanges: [{ text: "NOP\n" }] });
  verdict(await client.waitForErrors(uri), [], "another text in its place");
  client.notify("textDocument/didChange", { textDocument: { uri, version: 3 }, contentChanges: [{ text: "x" }, { range: {}, text: "" }] });
  verdict((await client.waitForMessage(({ method }) => method === "window/logMessage")).params.type, 1, "an edit without a range");
  verdict((await client.request("textDocument/hover", at(uri, 0, 1))).contents.value.slice(0, 4), "NOP:", "the text is unchanged");
  verdict(await client.endSession(), 0, "shutdown and exit");
}

async function tryExits() {
  const closedClient = new Client(MCS4);
  await closedClient.beginSession();
  closedClient.child.stdin.end();
  verdict(await closedClient.ended, 1, "a client that ends");
  const hastyClient = new Client(MCS4);
  hastyClient.notify("exit");
  verdict(await hastyClient.ended, 1, "exit without shutdown");
  const httpClient = new Client(MCS4);
  httpClient.sendBytes("GET / HTTP/1.1\r\n\r\n");
  verdict([await httpClient.ended, httpClient.stderr.split(",")[0]], [1, "lsp: a message begins with the line Content-Length: N"], "another protocol");
}

/** Checks that the server answers in order if a client writes all requests before it reads any answer. */
async function tryRequestsAtOnce() {
  const hastyClient = new Client(MCS4);
  const uri = "file:///hasty.asm";
  const initialized = hastyClient.fetchResponse("initialize", { processId: null, rootUri: null, capabilities: {} });
  hastyClient.notify("initialized", {});
  const errors = await hastyClient.openDocument(uri, "JMP there\n");
  verdict([(await initialized).error, errors.length], [undefined, 1], "the errors of a text that is opened in one chunk with initialize");
  const shutdown = hastyClient.fetchResponse("shutdown");
  hastyClient.notify("exit");
  verdict([(await shutdown).error, await hastyClient.ended], [undefined, 0], "shutdown and exit in one chunk");
  const largeClient = new Client(MCS4);
  largeClient.sendBytes("Content-Length: 99999999999\r\n\r\n");
  const { error } = await largeClient.waitForMessage(({ id }) => id === null);
  verdict([error.code, await largeClient.ended, largeClient.stderr], [-32600, 1, `lsp: ${error.message}\n`], "a length that no message can have");
}

/** Checks messages with wrong lengths: the server must print an error and end. Tries a length that is too small. Also tries a length that
 is too large, while the stream stays open and at the end of the stream.
 */
async function tryWrongLengths() {
  const body = JSON.stringify({ jsonrpc: "2.0", id: 1, method: "initialize", params: {} });
  const clientWithLength = (size) => {
    const newClient = new Client(MCS4);
    newClient.sendBytes(`Content-Length: ${size}\r\n\r\n${body}`);
    return newClient;
  };
  const [openClient, endedClient, shortLengthClient] = [clientWithLength(body.length + 10), clientWithLength(body.length + 10), clientWithLength(body.length - 10)];
  endedClient.child.stdin.end();
  shortLengthClient.sendBytes(`Content-Length: ${body.length}\r\n\r\n${body}`);
  const expected = `only ${body.length} of the ${body.length + 10} bytes that Content-Length announces have arrived`;
  for (const [testedClient, condition] of [[endedClient, "the client ends"], [openClient, "the stream stays open"]]) {
    const { error } = await testedClient.waitForMessage(({ id }) => id === null);
    verdict([error.code, error.message, await testedClient.ended, testedClient.stderr], [-32600, expected, 1, `lsp: ${expected}\n`], `too large a length, ${condition}`);
  }
  const { error } = await shortLengthClient.waitForMessage(({ id }) => id === null);
  verdict([error.code, await shortLengthClient.ended, shortLengthClient.stderr.split(",")[0]], [-32700, 1, "lsp: a message begins with the line Content-Length: N"],
    "too small a length");
}

const wrongLengths = tryWrongLengths();
const client = new Client(MCS4);
await client.beginSession();
for (const name of examples()) await compare(client, name);
await trySpeed(client);
verdict(await client.endSession(), 0, "the server's status");
await tryWrongMessages();
await tryRequestsAtOnce();
await tryExits();
await wrongLengths;
