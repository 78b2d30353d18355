// Tests the language server with test files and properties files: errors and their locations, completion, help, names, links, and running
// tests.
import assert from "node:assert/strict";
import { test } from "node:test";
import { readFileSync } from "node:fs";
import { frameMessage } from "../core/server/framing.js";
import { startServer } from "./server_client.js";

const LOCK = new URL("../../examples/lock/", import.meta.url);
const readExample = (name) => readFileSync(new URL(name, LOCK), "utf8");
const FOLDER = "file:///l/";
const FILES = { [`${FOLDER}board.toml`]: readExample("board.toml"), [`${FOLDER}lock.asm`]: readExample("lock.asm") };
const testsUri = `${FOLDER}lock.test`;
const propertiesUri = `${FOLDER}lock.props`;
const describeDiagnostics = (diagnostics) => diagnostics.map(({ range: { start, end }, severity, message }) => (
  `${start.line}:${start.character}-${end.character} ${severity} ${message}`));

async function startServerWith(files = FILES) {
  const server = startServer(files);
  await server.initialize();
  return server;
}

test("errors in tests have their positions", async () => {
  const { openText } = await startServerWith();
  assert.deepEqual(await openText(testsUri, readExample("lock.test"), "plaintext"), []);
  const errors = describeDiagnostics(await openText(testsUri, "test a\n  press Q\n  until lamp opn on within 1 s\n  nonsense\n"));
  assert.equal(errors[0], "1:2-9 1 the board has no key Q; it has: 1 2 3 4 5 6 7 8 9 * 0 #");
  assert.equal(errors[1], "2:8-12 1 the board has no lamp opn; it has: locked open alarm", "at the column, which is not named");
  assert.match(errors[2], /^3:2-10 1 a line of a test cannot begin with `nonsense`/);
  assert.deepEqual(await openText(testsUri, ""), []);
});

test("errors in properties have their positions", async () => {
  const { openText } = await startServerWith();
  assert.deepEqual(await openText(propertiesUri, readExample("lock.props"), "plaintext"), []);
  const errors = describeDiagnostics(await openText(propertiesUri, "press 1 2\nnever lamp purple on\nat @nowhere lamp open on\n"));
  assert.match(errors[0], /^1:6-10 1 the board has no lamp purple/);
  assert.match(errors[1], /^2:0-24 1 the program has no label nowhere/);
});

test("a missing or wrong board or program is reported", async () => {
  const serverWithoutFiles = await startServerWith({});
  assert.deepEqual(describeDiagnostics(await serverWithoutFiles.openText(testsUri, "test a\n")), [
    "0:0-0 2 there is no board.toml here, so this text is not checked; mcs4.toml can name a board and a program"]);
  const serverWithWrongProgram = await startServerWith({ ...FILES, [`${FOLDER}lock.asm`]: "NOP\n JMP 3\n" });
  assert.deepEqual(describeDiagnostics(await serverWithWrongProgram.openText(propertiesUri, "never lamp open on\n")), [
    "0:0-0 2 lock.asm has an error on line 2, so this text is not checked"]);
});

test("tests are checked again when the board or the program changes", async () => {
  const { openText, messages } = await startServerWith();
  const isTestDiagnostics = ({ method, params }) => method === "textDocument/publishDiagnostics" && params.uri === testsUri;
  const getLastDiagnostics = () => messages.filter(isTestDiagnostics).pop().params.diagnostics;
  assert.deepEqual(await openText(testsUri, "test a\n  until @enter within 1 s\n"), []);
  await openText(`${FOLDER}lock.asm`, readExample("lock.asm").replaceAll("enter", "entry"));
  for (let turn = 0; turn < 200 && getLastDiagnostics().length === 0; turn++) await new Promise(setImmediate);
  assert.match(getLastDiagnostics()[0].message, /^the program has no label enter/);
});

test("shared steps of earlier texts in the project are known", async () => {
  const project = "board = \"board.toml\"\nprogram = \"lock.asm\"\ntests = [\"shared.test\", \"lock.test\"]\n";
  const { openText } = await startServerWith({ ...FILES, [`${FOLDER}mcs4.toml`]: project,
    [`${FOLDER}shared.test`]: "steps begin\n  run 5 ms\n" });
  assert.deepEqual(await openText(testsUri, "test a\n  do begin\n"), []);
  assert.match((await openText(testsUri, "test a\n  do start\n"))[0].message, /start/);
});

test("completion with names of the board and the program, hover, definitions, symbols, folding and tokens", async () => {
  const { request, positionIn, openText } = await startServerWith();
  await openText(testsUri, "steps begin\n  run 5 ms\ntest opens\n  do begin\n  press \n  until @e\n  expect lamp \n");
  const complete = async (line, character, name = testsUri) => (
    (await request("textDocument/completion", positionIn(name, line, character))).map(({ label }) => label));
  assert.ok((await complete(4, 8)).includes("#"));
  assert.deepEqual(await complete(5, 10), ["@enter"]);
  assert.ok((await complete(6, 14)).includes("alarm"));
  assert.match((await request("textDocument/hover", positionIn(testsUri, 1, 3))).contents.value, /^run TIME: /);
  assert.deepEqual((await request("textDocument/definition", positionIn(testsUri, 3, 6))).range.start, { line: 0, character: 6 });
  const symbols = await request("textDocument/documentSymbol", { textDocument: { uri: testsUri } });
  assert.deepEqual(symbols.map(({ name, detail, range }) => [name, detail, range.end.line]), [["begin", "steps", 1], ["opens", "test", 7]]);
  assert.deepEqual(await request("textDocument/foldingRange", { textDocument: { uri: testsUri } }), [{ startLine: 2, endLine: 6 }]);
  assert.ok((await request("textDocument/semanticTokens/full", { textDocument: { uri: testsUri } })).data.length > 0);
  await openText(propertiesUri, "press 1\nnever lamp \nreach @enter\n");
  assert.ok((await complete(1, 11, propertiesUri)).includes("alarm"));
  assert.equal((await request("textDocument/definition", positionIn(propertiesUri, 2, 8))).uri, `${FOLDER}lock.asm`);
  assert.match((await request("textDocument/hover", positionIn(propertiesUri, 0, 2))).contents.value, /^press /);
  const propertySymbols = await request("textDocument/documentSymbol", { textDocument: { uri: propertiesUri } });
  assert.deepEqual(propertySymbols.map(({ name }) => name), ["never lamp", "reach @enter"]);
});

test("properties have links to the tests that they begin with", async () => {
  const { request, openText } = await startServerWith({ ...FILES, [testsUri]: "test a\n  save s\n" });
  await openText(propertiesUri, "from s of lock.test\nfrom s of ../lock.test\nfrom s of none.test\nfrom s of /dev/zero\n");
  const links = await request("textDocument/documentLink", { textDocument: { uri: propertiesUri } });
  assert.deepEqual(links.map(({ target, range }) => [target, range.start.line, range.start.character]), [[testsUri, 0, 10]]);
});

test("a test is run with its code lens, and its failed line is reported", async () => {
  const { getResponse, request, openText, messages } = await startServerWith();
  const text = "test opens\n  run 50 ms\n  save ready\ntest fails\n  from ready\n  expect lamp alarm on\ntest other\n  run 60 s\n";
  await openText(testsUri, text);
  const lenses = await request("textDocument/codeLens", { textDocument: { uri: testsUri } });
  assert.deepEqual(lenses.map(({ command }) => [command.title, ...command.arguments.slice(1)]), [
    ["Run test", "opens"], ["Run test", "fails"], ["Run test", "other"]]);
  const getLastMessage = () => messages.filter(({ method }) => method === "window/showMessage").pop().params;
  await request("workspace/executeCommand", lenses[0].command);
  assert.deepEqual(getLastMessage(), { type: 3, message: "The test opens passed." });
  await request("workspace/executeCommand", lenses[1].command);
  assert.match(getLastMessage().message, /^The test fails failed on line 6: /);
  const { diagnostics } = messages.filter(({ method }) => method === "textDocument/publishDiagnostics").pop().params;
  assert.deepEqual(diagnostics.map(({ range }) => range.start.line), [5]);
  const command = { command: "mcs4.runTest", arguments: [testsUri, "other"] };
  const answers = await Promise.all([getResponse("workspace/executeCommand", command, 901),
    getResponse("workspace/executeCommand", command, 902)]);
  assert.deepEqual(answers.map(({ error, result }) => [error && error.code, result]), [[-32800, undefined], [undefined, null]]);
  await request("workspace/executeCommand", { command: "mcs4.runTest", arguments: [testsUri, "none"] });
  assert.deepEqual(getLastMessage(), { type: 1, message: "There is no test none." });
  for (const invalidCommand of [{ command: "rm", arguments: [] }, { command: "mcs4.runTest" },
    { command: "mcs4.runTest", arguments: ["file:///none.test", "a"] }]) {
    assert.equal((await getResponse("workspace/executeCommand", invalidCommand)).error.code, -32602);
  }
});

test("a running test ends when the client cancels it, without a result", async () => {
  let pauseCount = 0;
  const pause = () => {
    pauseCount += 1;
    return new Promise(setImmediate);
  };
  const { connection, getResponse, initialize, openText, messages } = startServer(FILES, pause);
  await initialize();
  await openText(testsUri, "test long\n  until r15 9 within 10000 s\ntest short\n  run 5 ms\n");
  const waitUntil = async (isDone) => {
    for (const deadline = performance.now() + 20000; !isDone() && performance.now() < deadline;) await new Promise(setImmediate);
    assert.ok(isDone());
  };
  const countBefore = pauseCount;
  connection.receive(frameMessage({ jsonrpc: "2.0", id: 950, method: "workspace/executeCommand",
    params: { command: "mcs4.runTest", arguments: [testsUri, "long"] } }));
  await waitUntil(() => pauseCount >= countBefore + 3);
  connection.receive(frameMessage({ jsonrpc: "2.0", id: 950, method: "workspace/symbol", params: { query: "" } }));
  const getResponses = () => messages.filter(({ id }) => id === 950);
  assert.deepEqual(getResponses().map(({ error }) => error.message), ["a request with the id 950 waits for its answer"]);
  connection.receive(frameMessage({ jsonrpc: "2.0", method: "$/cancelRequest", params: { id: 950 } }));
  assert.equal(getResponses()[1].error.code, -32800);
  const countAtCancel = pauseCount;
  for (let turn = 0; turn < 50; turn++) await new Promise(setImmediate);
  assert.ok(pauseCount <= countAtCancel + 1, "the run has ended");
  const otherResponse = await getResponse("workspace/executeCommand", { command: "mcs4.runTest", arguments: [testsUri, "short"] }, 951);
  assert.equal(otherResponse.result, null);
  const shownMessages = messages.filter(({ method }) => method === "window/showMessage").map(({ params: { message } }) => message);
  assert.deepEqual([shownMessages, getResponses().length], [["The test short passed."], 2]);
});
