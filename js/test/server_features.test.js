// Tests the language server's features other than errors: formatting, inlay hints, folding, workspace symbols, call hierarchy, code lenses,
// links and selection ranges. Also tests semantic tokens, signature help, completion, Markdown, and diagnostics on request.
import assert from "node:assert/strict";
import { test } from "node:test";
import { readFileSync } from "node:fs";
import { frameMessage } from "../core/server/framing.js";
import { startServer } from "./server_client.js";

const LOCK = new URL("../../examples/lock/", import.meta.url);
const readExample = (name) => readFileSync(new URL(name, LOCK), "utf8");
const PROJECT = "file:///p/";
const FILES = Object.fromEntries(["board.toml", "lock.asm", "lock.test", "lock.props"].map((name) => [PROJECT + name, readExample(name)]));
FILES[`${PROJECT}mcs4.toml`] = "board = \"board.toml\"\nprogram = \"lock.asm\"\ntests = [\"lock.test\"]\nproperties = [\"lock.props\"]\n";
const uri = `${PROJECT}lock.asm`;
const document = { textDocument: { uri } };
const range = (...numbers) => ({ start: { line: numbers[0], character: numbers[1] }, end: { line: numbers[2], character: numbers[3] } });

/** Resolves to a server in which a text is open. */
async function startServerWithText(text, params, name = uri) {
  const server = startServer(FILES);
  await server.initialize(params);
  await server.openText(name, text);
  return server;
}

/** Applies edits in the form of the language server protocol to `text`. Returns the new text. */
function applyEdits(text, edits) {
  const lines = text.split("\n");
  for (const { range: { start, end }, newText } of [...edits].reverse()) {
    assert.equal(start.line, end.line);
    lines[start.line] = lines[start.line].slice(0, start.character) + newText + lines[start.line].slice(end.character);
  }
  return lines.join("\n");
}

test("a text or a range is formatted, and a second formatting changes nothing", async () => {
  const text = "start:JMP start\nLDM 5;five\n\nloop: JUN loop\n";
  const { request, getResponse, openText } = await startServerWithText(text);
  const options = { tabSize: 4, insertSpaces: true };
  const formattedText = applyEdits(text, await request("textDocument/formatting", { ...document, options }));
  assert.equal(formattedText, "start:JMP start\n        LDM 5           ;five\n\nloop:   JUN loop\n",
    "the line with an error stays as it is");
  const partlyFormattedText =
    applyEdits(text, await request("textDocument/rangeFormatting", { ...document, range: range(1, 0, 2, 0), options }));
  assert.equal(partlyFormattedText, "start:JMP start\n        LDM 5           ;five\n\nloop: JUN loop\n");
  await openText(uri, formattedText);
  assert.deepEqual(await request("textDocument/formatting", { ...document, options }), []);
  await openText(uri, `a:NOP\n${"LDM 5\n".repeat(2700)}${"b: ".repeat(1)}NOP;${"x".repeat(30000)}\n`);
  assert.match((await getResponse("textDocument/formatting", { ...document, options })).error.message, /at most 65,536/);
  assert.equal((await getResponse("textDocument/rangeFormatting", { ...document, options })).error.code, -32602);
});

test("inlay hints show addresses, cycles and the values of names", async () => {
  const { request, openText } = await startServerWithText("four = 4\nturn: LDM four ; turn\n JUN turn\n DB 1, 2\n");
  const hints = await request("textDocument/inlayHint", { ...document, range: range(0, 0, 9, 0) });
  assert.deepEqual(hints.map(({ position, label }) => [position.line, position.character, label]), [
    [1, 14, "= 4"], [1, 21, "0x000, 1 cycle"], [2, 9, "= 0x000"], [2, 9, "0x001, 2 cycles"], [3, 8, "0x003, 2 bytes"]]);
  assert.equal((await request("textDocument/inlayHint", { ...document, range: range(3, 0, 3, 8) })).length, 1);
  await openText(uri, "LDM 99\n");
  assert.deepEqual(await request("textDocument/inlayHint", { ...document, range: range(0, 0, 9, 0) }), [], "none in a text with errors");
});

test("comments, subroutines and loops can be folded", async () => {
  const { request } = await startServerWithText("; one\n; two\n\nstart: NOP\nloop: NOP\n JUN loop\n\n; end\n");
  assert.deepEqual(await request("textDocument/foldingRange", document), [
    { startLine: 0, endLine: 1, kind: "comment" }, { startLine: 3, endLine: 5 }, { startLine: 4, endLine: 5 }]);
});

test("workspace symbols include texts that are not open", async () => {
  const { request } = await startServerWithText(readExample("lock.asm"));
  const symbolsOf = async (query) => (await request("workspace/symbol", { query }))
    .map(({ name, containerName }) => `${containerName} ${name}`);
  assert.deepEqual(await symbolsOf("enter"), ["lock.asm enter"]);
  assert.ok((await symbolsOf("")).some((name) => name.startsWith("lock.test ")));
  assert.ok((await symbolsOf("ram")).includes("board.toml ram bank 0"));
  assert.deepEqual(await symbolsOf("zzz"), []);
  const serverWithFolder = startServer(FILES);
  await serverWithFolder.initialize({ workspaceFolders: [{ uri: "file:///p", name: "p" }], rootUri: "file:///p" });
  assert.ok((await serverWithFolder.request("workspace/symbol", { query: "enter" })).length > 0, "a folder that is open");
});

test("a call hierarchy has the callers of a routine and the routines that it calls", async () => {
  const { request, positionIn } = await startServerWithText("begin: JMS show\n JMS show\n JUN begin\nshow: JMS key\n BBL 0\nkey: BBL 1\n");
  const [item] = await request("textDocument/prepareCallHierarchy", positionIn(uri, 0, 13));
  assert.deepEqual([item.name, item.detail, item.range.end.line], ["show", "show: address 0x006, line 4", 4]);
  const incomingCalls = await request("callHierarchy/incomingCalls", { item });
  assert.deepEqual(incomingCalls.map(({ from, fromRanges }) => [from.name, fromRanges.map(({ start }) => start.line)]),
    [["begin", [0, 1]]]);
  const outgoingCalls = await request("callHierarchy/outgoingCalls", { item });
  assert.deepEqual(outgoingCalls.map(({ to, fromRanges }) => [to.name, fromRanges[0].start.line]), [["key", 3]]);
  assert.equal((await request("textDocument/prepareCallHierarchy", positionIn(uri, 4, 2)))[0].name, "show", "a line of a routine");
});

test("code lenses count references to labels, with locations for clients that can show them", async () => {
  const text = "begin: JMS show\n JUN begin\nshow: BBL 0\nleft: NOP\n";
  const describeLenses = (lenses) => lenses.map(({ range: { start }, command }) => `${start.line} ${command.title} ${command.command}`);
  const plainServer = await startServerWithText(text);
  assert.deepEqual(describeLenses(await plainServer.request("textDocument/codeLens", document)),
    ["0 1 reference ", "2 1 call ", "3 0 references "]);
  const capableServer =
    await startServerWithText(text, { capabilities: { experimental: { commands: { commands: ["editor.action.showReferences"] } } } });
  const lenses = await capableServer.request("textDocument/codeLens", document);
  assert.deepEqual(describeLenses(lenses).slice(0, 2),
    ["0 1 reference editor.action.showReferences", "2 1 call editor.action.showReferences"]);
  assert.deepEqual(lenses[1].command.arguments, [uri, { line: 2, character: 0 }, [{ uri, range: range(0, 11, 0, 15) }]]);
});

test("a project file has links to the files that it names", async () => {
  const projectUri = `${PROJECT}mcs4.toml`;
  const { request } = await startServerWithText(FILES[projectUri].replace("lock.props", "gone.props"), {}, projectUri);
  const links = await request("textDocument/documentLink", { textDocument: { uri: projectUri } });
  assert.deepEqual(links.map(({ target }) => target), ["board.toml", "lock.asm", "lock.test"].map((fileName) => PROJECT + fileName));
  assert.equal(links[0].range.start.line, 0);
});

test("selection ranges grow from a word to the whole text", async () => {
  const { request } = await startServerWithText("; a\n\nstart: JCN 4, start ; b\n NOP\n");
  const positions = [{ line: 2, character: 15 }, { line: 99, character: 9 }];
  const [selection, otherSelection] = await request("textDocument/selectionRange", { ...document, positions });
  const ranges = [];
  for (let current = selection; current; current = current.parent) {
    ranges.push([current.range.start, current.range.end].map(({ line, character }) => `${line}:${character}`).join(" "));
  }
  assert.deepEqual(ranges, ["2:14 2:19", "2:11 2:19", "2:7 2:19", "2:0 2:19", "2:0 2:23", "2:0 3:4", "0:0 4:0"]);
  assert.ok(otherSelection.range);
});

test("semantic tokens of a range, and their changes", async () => {
  const text = "start: LDM 5\n JUN start\n";
  const { request, connection } = await startServerWithText(text);
  const { resultId, data } = await request("textDocument/semanticTokens/full", document);
  assert.equal(data.length, 5 * 5);
  assert.deepEqual(await request("textDocument/semanticTokens/range", { ...document, range: range(1, 0, 1, 9) }),
    { data: [1, 1, 3, 4, 0, 0, 4, 5, 1, 0] });
  const params = { textDocument: { uri, version: 2 }, contentChanges: [{ range: range(0, 11, 0, 12), text: "15" }] };
  connection.receive(frameMessage({ jsonrpc: "2.0", method: "textDocument/didChange", params }));
  const delta = await request("textDocument/semanticTokens/full/delta", { ...document, previousResultId: resultId });
  assert.deepEqual(delta.edits, [{ start: 12, deleteCount: 1, data: [2] }]);
  const emptyDelta = await request("textDocument/semanticTokens/full/delta", { ...document, previousResultId: delta.resultId });
  assert.deepEqual(emptyDelta.edits, []);
  assert.ok((await request("textDocument/semanticTokens/full/delta", { ...document, previousResultId: "lost" })).data.length > 0);
});

test("signature help is shown while operands are typed", async () => {
  const { request, positionIn } = await startServerWithText("start: JCN 4, start ; b\n NOP \n DB 1, 2, 3\n LDM 5, 6\n");
  const helpAt = async (line, character) => {
    const response = await request("textDocument/signatureHelp", positionIn(uri, line, character));
    if (!response) return null;
    const [{ label, parameters }] = response.signatures;
    const { label: [from, to], documentation } = parameters[response.activeParameter];
    return `${label}|${label.slice(from, to)}|${documentation}`;
  };
  assert.equal(await helpAt(0, 11), "JCN c, t|c|a condition, 0 to 15");
  assert.equal(await helpAt(0, 13), "JCN c, t|t|an address, 0 to 4095, or a name");
  assert.equal(await helpAt(0, 22), null, "in a comment");
  assert.equal(await helpAt(1, 5), null, "no operands");
  assert.equal(await helpAt(2, 9), "DB v, v, ..|v, v, ..|a byte, 0 to 255");
  assert.equal(await helpAt(3, 9), null, "too many");
  assert.equal(await helpAt(0, 9), null, "the mnemonic itself");
});

test("completion items have details, and a blank that only indents has none", async () => {
  const { request, positionIn } = await startServerWithText("four = 4\nstart: JCN \n FIM \n LDM f\n  \n");
  const complete = (line, character, triggerCharacter) => {
    const context = { triggerKind: triggerCharacter ? 2 : 1, triggerCharacter };
    return request("textDocument/completion", { ...positionIn(uri, line, character), context });
  };
  const conditions = await complete(1, 11, " ");
  assert.deepEqual(conditions.slice(0, 2).map(({ label, detail }) => [label, detail]), [["0", "never"], ["8", "always"]]);
  assert.deepEqual((await complete(2, 5)).slice(0, 1).map(({ label, detail }) => [label, detail.slice(0, 2)]), [["P0", "P0"]]);
  assert.deepEqual((await complete(3, 6)).map(({ label, kind }) => [label, kind]), [["four", 21]]);
  assert.deepEqual(await complete(4, 2, " "), []);
  const items = await complete(4, 2);
  assert.match(items.find(({ label }) => label === "JCN").documentation, /^JCN c, t: 2 words, 2 cycles\. Jump/);
});

test("hover in Markdown: an instruction's row, a condition's meaning, and a name's comment", async () => {
  const text = "; shows <b>\n; all\nshow: LDM 5 ; now\n JCN 4, show\n JUN show\n";
  const initializeParams = { capabilities: { textDocument: { hover: { contentFormat: ["markdown", "plaintext"] } } } };
  const { request, positionIn } = await startServerWithText(text, initializeParams);
  const hoverContents = async (line, character) => (await request("textDocument/hover", positionIn(uri, line, character))).contents;
  const { kind, value: row } = await hoverContents(3, 2);
  assert.equal(kind, "markdown");
  assert.match(row, /^\| Instruction \| Code \| Words \| Cycles \| What it does \|\n\| --- .*\n\| `JCN c, t` \| `1c tt` \| 2 \| 2 \| jump/);
  assert.match((await hoverContents(3, 5)).value, /condition 4: ACC is 0/);
  assert.match((await hoverContents(4, 6)).value, /address 0x000.*\n\n~~~text\nshows <b>\nall\nnow\n~~~/s);
});

test("diagnostics on request, and the server's request for a refresh", async () => {
  const initializeParams = { capabilities: { textDocument: { diagnostic: {} }, workspace: { diagnostics: { refreshSupport: true } } } };
  const server = startServer({});
  const { capabilities } = await server.initialize(initializeParams);
  assert.equal(capabilities.diagnosticProvider.interFileDependencies, true);
  const notify = (method, params) => server.connection.receive(frameMessage({ jsonrpc: "2.0", method, params }));
  notify("textDocument/didOpen", { textDocument: { uri, languageId: "asm", version: 1, text: "JMP x\n" } });
  const firstReport = await server.request("textDocument/diagnostic", document);
  assert.deepEqual([firstReport.kind, firstReport.items.length], ["full", 1]);
  assert.equal((await server.request("textDocument/diagnostic", { ...document, previousResultId: firstReport.resultId })).kind,
    "unchanged");
  assert.ok(!server.messages.some(({ method }) => method === "textDocument/publishDiagnostics"), "nothing is sent twice");
  notify("textDocument/didOpen",
    { textDocument: { uri: `${PROJECT}board.toml`, languageId: "toml", version: 1, text: readExample("board.toml") } });
  await server.request("textDocument/diagnostic", document);
  assert.ok(server.messages.some(({ method }) => method === "workspace/diagnostic/refresh"));
  assert.ok(!("diagnosticProvider" in (await startServer({}).initialize({})).capabilities));
});
