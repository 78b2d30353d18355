// Tests the language server with invalid texts: binary data, very long lines, and very many lines. The server must answer each request
// quickly.
import assert from "node:assert/strict";
import { test } from "node:test";
import { readFileSync } from "node:fs";
import { startServer } from "./server_client.js";

const BOARD = readFileSync(new URL("../../examples/lock/board.toml", import.meta.url), "utf8");
const FILES = { "file:///h/board.toml": BOARD, "file:///h/x.asm": "start: JUN start\n" };
const MAX_LENGTH = 65536;
const repeatToLimit = (text) => text.repeat(Math.floor(MAX_LENGTH / text.length));
const TEXTS = {
  "letters": repeatToLimit("a"), "blanks": `${repeatToLimit(" ").slice(2)}x`,
    "a letter, blanks and a letter": `a${repeatToLimit(" ").slice(2)}b`,
  "colons": repeatToLimit(":"), "commas": `DB ${repeatToLimit(",").slice(9)}`, "brackets": repeatToLimit("["),
    "open quotes": repeatToLimit("\""),
  "comments": repeatToLimit("; "), "marks": repeatToLimit(" # "), "empty lines": repeatToLimit("\n"), "labels": repeatToLimit("a:\n"),
  "jumps": repeatToLimit("a: JMS a\n"),
  "keys": repeatToLimit("k=1\n"), "tests": repeatToLimit("test a\n"), "repeats": `test a\n${repeatToLimit("repeat 2\n").slice(20)}`,
  "presses": `test a\n  press ${repeatToLimit("1 ").slice(20)}`,
  "a long condition": `test a\n  expect ${repeatToLimit("lamp open on or ").slice(40)}lamp open on`,
  "deep brackets": `never ${repeatToLimit("(").slice(20)}`,
  "many only after": repeatToLimit("lamp open on only after press 1\n"), "nots": `never ${repeatToLimit("not ").slice(20)}`,
  "binary": [...Array(MAX_LENGTH).keys()].map((at) => String.fromCharCode((at * 7919) % 256)).join(""),
  "lone surrogates": repeatToLimit("\ud800"), "directions": repeatToLimit("\u202e\u0000"), "tables": repeatToLimit("[[rom]]\n"),
  "columns": `[keys]\ncolumns = [${repeatToLimit("\"a\",").slice(50)}`,
};
const WHOLE_RANGE = { start: { line: 0, character: 0 }, end: { line: MAX_LENGTH, character: MAX_LENGTH } };
const POSITION_REQUESTS = [
  "hover", "definition", "references", "documentHighlight", "prepareRename", "completion", "signatureHelp", "prepareCallHierarchy",
];
const DOCUMENT_REQUESTS = ["documentSymbol", "codeLens", "documentLink", "foldingRange", "semanticTokens/full", "diagnostic"];
/** The time limit for an answer, in milliseconds of processor time, so that other processes do not matter. */
const MAX_ANSWER_MS = 2000;
const getProcessorTime = () => process.cpuUsage().user / 1000;

/** Sends every kind of request about a text. Resolves to the name of the request that took longest, and to its time. */
async function sendAllRequests({ getResponse, positionIn }, uri, lines) {
  const lastLine = lines.length - 1;
  const middleCharacter = Math.floor(lines[0].length / 2);
  const requests = [
    ...POSITION_REQUESTS.flatMap((name) => [[0, middleCharacter], [lastLine, lines[lastLine].length]].map(([line, character]) => (
      [name, { ...positionIn(uri, line, character), context: { includeDeclaration: true } }]))),
    ...DOCUMENT_REQUESTS.map((name) => [name, { textDocument: { uri } }]),
    ["formatting", { textDocument: { uri }, options: { tabSize: 4, insertSpaces: true } }],
    ["inlayHint", { textDocument: { uri }, range: WHOLE_RANGE }], ["codeAction", { textDocument: { uri }, range: WHOLE_RANGE }],
    ["semanticTokens/range", { textDocument: { uri }, range: WHOLE_RANGE }],
    ["selectionRange", { textDocument: { uri }, positions: [{ line: 0, character: middleCharacter }] }],
  ];
  const slowestRequest = { name: "", time: 0 };
  for (const [name, params] of requests) {
    const startTime = getProcessorTime();
    const reply = await getResponse(`textDocument/${name}`, params);
    assert.ok(reply && ("result" in reply || "error" in reply), `${name} is answered`);
    const time = getProcessorTime() - startTime;
    if (time > slowestRequest.time) Object.assign(slowestRequest, { name, time });
  }
  return slowestRequest;
}

for (const [name, text] of Object.entries(TEXTS)) {
  test(`a text of 64 KB: ${name}`, async () => {
    const server = startServer(FILES);
    await server.initialize();
    for (const file of ["x.asm", "board.toml", "x.test", "x.props", "mcs4.toml"]) {
      const uri = `file:///h/${file}`;
      const startTime = getProcessorTime();
      await server.openText(uri, text);
      const openingTime = getProcessorTime() - startTime;
      const { name: method, time } = await sendAllRequests(server, uri, text.split("\n"));
      assert.ok(openingTime < MAX_ANSWER_MS && time < MAX_ANSWER_MS,
        `${file}: ${openingTime.toFixed(0)} ms until its diagnostics, ${method} ${time.toFixed(0)} ms`);
    }
  });
}

test("a text that is longer than the maximum is rejected", async () => {
  const { openText, request, initialize } = startServer();
  await initialize();
  const diagnostics = await openText("file:///long.asm", `${repeatToLimit("a")}a`);
  assert.match(diagnostics[0].message, /^a text has at most 65,536 characters/);
  assert.equal(await request("textDocument/foldingRange", { textDocument: { uri: "file:///long.asm" } }), null);
});
