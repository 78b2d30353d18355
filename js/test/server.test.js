// Tests the language server's messages, documents and answers. The server runs in this process, on the page's WebAssembly module.
import assert from "node:assert/strict";
import { test } from "node:test";
import { readFileSync } from "node:fs";
import { createQuickFixes, toDiagnostics } from "../core/server/diagnostics.js";
import { MAX_MESSAGE_BYTES, MessageReader, StreamError, frameMessage } from "../core/server/framing.js";
import { findBoard, isBoard, isProgram } from "../core/server/text_kinds.js";
import { OpenText } from "../core/server/open_text.js";
import { encodeTokens } from "../core/server/token_codes.js";
import { bytesOf, startServer } from "./server_client.js";

const BOARD = readFileSync(new URL("../../examples/lock/board.toml", import.meta.url), "utf8");

test("messages are read from a stream in pieces of any size", () => {
  const bytes = new Uint8Array([...frameMessage({ id: 1 }), ...frameMessage({ id: "\u00e9" })]);
  for (const pieceSize of [1, 2, 7, bytes.length]) {
    const reader = new MessageReader();
    const texts = [];
    for (let offset = 0; offset < bytes.length; offset += pieceSize) {
      texts.push(...reader.readMessages(bytes.subarray(offset, offset + pieceSize)));
    }
    assert.deepEqual(texts.map(({ text }) => JSON.parse(text).id), [1, "\u00e9"]);
  }
  const reader = new MessageReader();
  assert.deepEqual([...reader.readMessages(bytesOf("content-length: 2\r\nX: y\r\n\r\n{}"))], [{ text: "{}" }]);
  assert.throws(() => [...new MessageReader().readMessages(bytesOf("GET / HTTP/1.1\r\n\r\n"))], StreamError);
  assert.throws(() => [...new MessageReader().readMessages(bytesOf("x".repeat(5000)))], StreamError);
});

test("a message that is too long is skipped, and the next message is read", () => {
  const reader = new MessageReader();
  assert.deepEqual([...reader.readMessages(bytesOf(`Content-Length: ${MAX_MESSAGE_BYTES + 1}\r\n\r\n`))], []);
  assert.deepEqual([...reader.readMessages(new Uint8Array(MAX_MESSAGE_BYTES))], []);
  const results = [...reader.readMessages(new Uint8Array([32, ...frameMessage({ id: 1 })]))];
  assert.deepEqual(results.map((result) => result.skippedSize || JSON.parse(result.text).id), [MAX_MESSAGE_BYTES + 1, 1]);
});

test("an impossible size is an error at once, after the messages before it", () => {
  const reader = new MessageReader();
  const texts = [];
  const bytes = bytesOf("Content-Length: 2\r\n\r\n{}Content-Length: 99999999999\r\n\r\n");
  assert.throws(() => {
    for (const { text } of reader.readMessages(bytes)) texts.push(text);
  }, /^Error: Content-Length: 99999999999 is more than a message can have/);
  assert.deepEqual(texts, ["{}"]);
  const { connection, messages } = startServer();
  assert.throws(() => connection.receive(bytes), StreamError);
  assert.match(messages[messages.length - 1].error.message, /^Content-Length: 99999999999 is more/);
});

test("messages in one chunk with `initialize`, or with `shutdown`, are served in order", async () => {
  const { connection, messages, getExitStatus } = startServer();
  const textDocument = { uri: "file:///a.asm", languageId: "asm", version: 1, text: "foo\n" };
  const hoverParams = { textDocument, position: { line: 0, character: 0 } };
  const notifications = [["initialized", {}], ["textDocument/didOpen", { textDocument }]].map(([method, params]) => ({ method, params }));
  const messagesToServer =
    [{ id: 1, method: "initialize", params: {} }, ...notifications, { id: 2, method: "textDocument/hover", params: hoverParams }];
  connection.receive(new Uint8Array(messagesToServer.flatMap((message) => [...frameMessage({ jsonrpc: "2.0", ...message })])));
  const waitForMessages = async (count) => {
    for (let turn = 0; turn < 2000 && messages.length < count; turn++) await new Promise(setImmediate);
  };
  await waitForMessages(3);
  assert.deepEqual(messages.slice(0, 2).map(({ id, result }) => [id, result !== undefined]), [[1, true], [2, true]]);
  assert.deepEqual(messages[2].params.diagnostics.map(({ range }) => range.start.line), [0]);
  const lastMessages = [{ id: 3, method: "shutdown" }, { id: 4, method: "textDocument/hover", params: hoverParams }, { method: "exit" }];
  connection.receive(new Uint8Array(lastMessages.flatMap((message) => [...frameMessage({ jsonrpc: "2.0", ...message })])));
  await waitForMessages(5);
  assert.deepEqual([messages.find(({ id }) => id === 3).result, messages.find(({ id }) => id === 4).error.code], [null, -32600]);
  assert.equal(getExitStatus(), 0);
});

test("a text is edited, also with ranges outside it", () => {
  const openText = new OpenText("file:///a.asm", "asm", "one\r\ntwo\rthree", 1);
  assert.deepEqual(openText.lines, ["one", "two", "three"]);
  const range = (...numbers) => ({ start: { line: numbers[0], character: numbers[1] }, end: { line: numbers[2], character: numbers[3] } });
  openText.edit(range(0, 1, 1, 2), "X\nY");
  assert.equal(openText.text, "oX\nYo\nthree");
  openText.edit(range(2, 99, 99, 99), "!");
  assert.equal(openText.text, "oX\nYo\nthree!");
  openText.edit(range(1, 2, 1, 0), "");
  assert.equal(openText.text, "oX\n\nthree!");
  openText.edit(null, "");
  assert.deepEqual(openText.lines, [""]);
});

test("boards and programs are recognised", () => {
  const createText = (uri, text, language = "toml") => new OpenText(uri, language, text, 1);
  assert.equal(isBoard(createText("file:///a/board.toml", "")), true);
  assert.equal(isBoard(createText("file:///a/x.toml", "lamp = [{ line = \"ram0.0.0\" }]")), true);
  assert.equal(isBoard(createText("file:///a/Cargo.toml", "[package]\nname = \"x\"\n[keys]\n")), false);
  assert.equal(isProgram(createText("file:///a/x.asm", "", "asm")), true);
  assert.equal(isProgram(createText("file:///a/x.test", "", "text")), false);
  assert.equal(isBoard(createText("file:///a/mcs4.toml", "[[rom]]")), false);
});

test("the board of a program is found through its project file", () => {
  const project = "board = \"my board.toml\"\nprogram = \"x.asm\"\n";
  const textOf = (files) => (uri) => (uri in files ? files[uri] : null);
  assert.equal(findBoard("file:///a/x.asm", textOf({})).uri, "file:///a/board.toml");
  assert.equal(findBoard("file:///a/x.asm", textOf({ "file:///a/mcs4.toml": project })).uri, "file:///a/my%20board.toml");
  assert.equal(findBoard("file:///a/b/c/x.asm", textOf({ "file:///a/mcs4.toml": project })).uri, "file:///a/my%20board.toml");
  assert.equal(findBoard("file:///a/x.asm", textOf({ "file:///a/mcs4.toml": "board = 1" })).uri, "file:///a/board.toml");
  assert.equal(findBoard("untitled:x", textOf({})).uri, "board.toml");
});

test("errors of a project file are reported, and a program is checked on the board that it names", async () => {
  const files = { "file:///a/b/wires.toml": BOARD, "file:///a/b/x.asm": "NOP\n" };
  const { initialize, openText, messages, request } = startServer(files);
  await initialize();
  const uri = "file:///a/b/mcs4.toml";
  const diagnosticsOf = async (text) => (await openText(uri, text, "toml")).map(({ range, message }) => `${range.start.line}: ${message}`);
  assert.deepEqual(await diagnosticsOf("board = \"wires.toml\"\nprogram = \"x.asm\"\n"), []);
  assert.deepEqual(await diagnosticsOf("board = \"wires.toml\"\nprogram = \"y.asm\"\n"), ["1: program: there is no file y.asm"]);
  assert.match((await diagnosticsOf("board = 7\nprogram = \"x.asm\"\nspeed = \"fast\"\n")).join(),
    /^0: board is the path.*,2: speed is one of/);
  const diagnostics = await openText("file:///a/b/x.asm", "    = 0x100\n    NOP\n");
  const messageCount = messages.length;
  await openText(uri, "board = \"wires.toml\"\nprogram = \"x.asm\"\n", "toml");
  await request("textDocument/documentSymbol", { textDocument: { uri: "file:///a/b/x.asm" } });
  assert.ok(messages.slice(messageCount).some(({ params }) => params && params.uri === "file:///a/b/x.asm"),
    "the program is checked again");
  assert.ok(Array.isArray(diagnostics));
});

test("semantic tokens are encoded as numbers", () => {
  const words = [{ line: 1, from: 2, to: 5, type: "keyword" }, { line: 0, from: 0, to: 3, type: "function", isDeclaration: true }];
  assert.deepEqual(encodeTokens([...words, { line: 1, from: 6, to: 8, type: "enumMember", isReadonly: true }]),
    [0, 0, 3, 1, 1, 1, 2, 3, 4, 0, 0, 4, 2, 3, 2]);
});

test("errors have quick fixes, and a note that there may be more", () => {
  const errors = [{ number: 30, line: 2, from: 8, to: 11, words: "JMP is not an instruction; JUN?", quickFixTexts: ["JUN"] },
    { number: 32, line: 3, from: 0, to: 2, words: "b" }];
  assert.deepEqual(toDiagnostics(errors, true).map(({ severity, code }) => [severity, code]), [[1, 30], [1, 32]]);
  assert.deepEqual(toDiagnostics(errors, false).map(({ severity }) => severity), [1, 1, 3]);
  const rangeAt = (line, character) => ({ start: { line, character }, end: { line, character } });
  assert.deepEqual(createQuickFixes("u", errors, rangeAt(1, 11)).map(({ title }) => title), ["Write JUN"]);
  assert.deepEqual(createQuickFixes("u", errors, rangeAt(1, 12)), []);
});

test("requests in the wrong order are rejected", async () => {
  const { getResponse, initialize, connection, messages, getExitStatus } = startServer();
  assert.equal((await getResponse("textDocument/hover", {})).error.code, -32002);
  assert.ok((await initialize()).capabilities.renameProvider);
  assert.equal((await getResponse("initialize", {})).error.code, -32600);
  assert.equal((await getResponse("constructor", {})).error.code, -32601);
  const unknownDocumentParams = { textDocument: { uri: "file:///none.asm" }, position: { line: 0, character: 0 } };
  assert.equal((await getResponse("textDocument/hover", unknownDocumentParams)).error.code, -32602);
  assert.equal((await getResponse("textDocument/hover", { position: { line: -1 } })).error.code, -32602);
  connection.receive(bytesOf("Content-Length: 1\r\n\r\n{"));
  assert.equal(messages[messages.length - 1].error.code, -32700);
  connection.receive(frameMessage({ jsonrpc: "2.0", id: 7 }));
  assert.deepEqual([messages[messages.length - 1].id, messages[messages.length - 1].error.code], [7, -32600]);
  assert.equal((await getResponse("shutdown")).result, null);
  assert.equal((await getResponse("textDocument/hover", {})).error.code, -32600);
  connection.receive(frameMessage({ jsonrpc: "2.0", method: "exit" }));
  assert.equal(getExitStatus(), 0);
});

test("all errors of a program on the board beside it have messages and quick fixes", async () => {
  const { request, initialize, openText } = startServer({ "file:///a/board.toml": BOARD });
  await initialize();
  const uri = "file:///a/x.asm";
  const diagnostics = await openText(uri, "begin: JMP begn\n  LDM 0FH\nzero EQU 4\n  JUN begni\n");
  assert.deepEqual(diagnostics.map(({ range, message }) => [range.start.line, range.start.character, range.end.character, message]), [
    [0, 7, 10, "JMP is not an instruction; JUN?"],
    [1, 6, 9, "LDM takes a value, 0 to 15; hexadecimal is 0x0F"],
    [2, 5, 10, "define a name with =: zero = 4"],
  ]);
  const range = { start: { line: 0, character: 0 }, end: { line: 9, character: 0 } };
  const actions = await request("textDocument/codeAction", { textDocument: { uri }, range });
  assert.deepEqual(actions.map(({ title }) => title), ["Write JUN", "Write 0x0F", "Write = 4"]);
  const laterDiagnostics = await openText("file:///a/z.asm", "begin: LDM 16\n  JUN begni\n");
  assert.deepEqual(laterDiagnostics.map(({ message }) => message), ["LDM takes a value, 0 to 15", "begni is not defined; begin?"]);
  const romDiagnostics = await openText("file:///a/y.asm", " ORG 0x200\n NOP\n");
  assert.match(romDiagnostics[0].message, /^this line is at 200, and the board has no ROM 2/);
  assert.deepEqual(await openText("file:///b/y.asm", " ORG 0x200\n NOP\n"), []);
});

test("an invalid name is one error, and hides no other", async () => {
  const { initialize, openText } = startServer();
  await initialize();
  for (const [index, name] of ["thisnameismuchtoolong", "LDM", "P3", "2x"].entries()) {
    const diagnostics = await openText(`file:///bad${index}.asm`, `${name} = 3\n JMP 16\nright = 4\n LDM right\n`);
    const lines = diagnostics.map(({ range, message }) => `${range.start.line} ${/more errors/.test(message)}`);
    assert.deepEqual(lines, ["0 false", "1 false"], `${name}: ${JSON.stringify(diagnostics)}`);
  }
});

test("hover, definitions, references, renaming and completion in a program", async () => {
  const { getResponse, request, positionIn, initialize, openText } = startServer();
  await initialize();
  const uri = "file:///a/x.asm";
  assert.deepEqual(await openText(uri, "four = 4\nturn: LDM four ; turn\n JUN turn\n"), []);
  const hover = await request("textDocument/hover", positionIn(uri, 2, 6));
  assert.equal(hover.contents.value, "turn: address 0x000, line 2\n\nturn\n\nline 3: address 0x001, 40 00, 2 cycles");
  assert.match((await request("textDocument/hover", positionIn(uri, 1, 7))).contents.value,
    /^LDM d: 1 word, 1 cycle\. .*\n\nline 2: address 0x000, D4, 1 cycle$/);
  assert.equal(await request("textDocument/hover", positionIn(uri, 1, 18)), null);
  assert.deepEqual((await request("textDocument/definition", positionIn(uri, 2, 6))).range.start, { line: 1, character: 0 });
  assert.equal((await request("textDocument/references", { ...positionIn(uri, 2, 6), context: { includeDeclaration: false } })).length, 1);
  const { changes } = await request("textDocument/rename", { ...positionIn(uri, 2, 6), newName: "round" });
  assert.deepEqual(changes[uri].map(({ range }) => range.start.line), [1, 2]);
  assert.match((await getResponse("textDocument/rename", { ...positionIn(uri, 2, 6), newName: "LDM" })).error.message, /is an instruction/);
  assert.match((await getResponse("textDocument/rename", { ...positionIn(uri, 2, 2), newName: "x" })).error.message,
    /no name of the program/);
  assert.deepEqual((await request("textDocument/completion", positionIn(uri, 2, 3))).map(({ label, detail }) => [label, detail]),
    [["JUN", "t   jump unconditional: to t"]]);
  const symbols = await request("textDocument/documentSymbol", { textDocument: { uri } });
  assert.deepEqual(symbols.map(({ name, kind, range }) => [name, kind, range.end.line]), [["four", 14, 0], ["turn", 12, 3]]);
  assert.equal((await request("textDocument/semanticTokens/full", { textDocument: { uri } })).data.length, 5 * 8);
});

test("hover, definitions and references in a board: a lamp's line leads to its chip", async () => {
  const { request, positionIn, initialize, openText } = startServer();
  await initialize();
  const uri = "file:///a/board.toml";
  assert.deepEqual(await openText(uri, BOARD, "toml"), []);
  const lines = BOARD.split("\n");
  const lampLine = lines.findIndex((line) => line.startsWith("lamp ="));
  const column = lines[lampLine].indexOf("ram0.0.2");
  assert.deepEqual((await request("textDocument/definition", positionIn(uri, lampLine, column + 3))).range.start.line,
    lines.indexOf("[[ram]]"));
  assert.match((await request("textDocument/hover", positionIn(uri, lampLine, column + 3))).contents.value,
    /^ram0\.0\.2: line 2 of the port of RAM chip 0 in bank 0, lamp 2 \(alarm\); its chip is on line \d+\.$/);
  assert.equal((await request("textDocument/references", positionIn(uri, lines.indexOf("[[ram]]"), 3))).length, 4);
  const diagnostics = await openText("file:///b/board.toml", BOARD.replace("chips = 1", "chip = 1"), "toml");
  assert.deepEqual(diagnostics.map(({ message }) => message), ["chip is not a key of ram; chips?"]);
  const range = { start: { line: 0, character: 0 }, end: { line: lines.length, character: 0 } };
  const actions = await request("textDocument/codeAction", { textDocument: { uri: "file:///b/board.toml" }, range });
  assert.deepEqual(actions.map(({ title }) => title), ["Write chips"]);
});

test("an incomplete message is reported", () => {
  const { connection, messages } = startServer();
  assert.equal(connection.reportIncomplete(), "");
  connection.receive(bytesOf("Content-Length: 20\r\n\r\n{\"id\":"));
  assert.equal(connection.reportIncomplete(), "only 6 of the 20 bytes that Content-Length announces have arrived");
  assert.deepEqual([messages[0].id, messages[0].error.code], [null, -32600]);
  const otherServer = startServer();
  otherServer.connection.receive(bytesOf("Content-Le"));
  assert.match(otherServer.connection.reportIncomplete(), /a part of the head/);
});
