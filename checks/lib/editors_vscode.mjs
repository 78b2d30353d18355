// Tests of checks/editors that send requests in the same order as Visual Studio Code. They open the lock example as a project on disk. Prints
// `ok TEXT` or `failed: TEXT` for each check, and `speed: TEXT` for a measurement.
import { copyFileSync, mkdirSync, readFileSync, symlinkSync, writeFileSync } from "node:fs";
import { execFileSync } from "node:child_process";
import { Client } from "./lsp_client.mjs";

const TOP = new URL("../..", import.meta.url).pathname;
const MCS4 = `${TOP}mcs4`;
const folder = `${process.argv[2]}/vscode`;
const uriOf = (name) => `file://${folder}/${name}`;
const uri = uriOf("lock.asm");
const textDocument = { uri };
const WHOLE_RANGE = { start: { line: 0, character: 0 }, end: { line: 200, character: 0 } };

function verdict(actual, expected, description) {
  const [actualText, expectedText] = [JSON.stringify(actual), JSON.stringify(expected)];
  console.log(actualText === expectedText ? `ok ${description}` : `failed: ${description}: ${actualText}, not ${expectedText}`);
}

/** The client capabilities that Visual Studio Code sends to a language server. */
const CAPABILITIES = {
  workspace: {
    applyEdit: true, configuration: true, workspaceFolders: true, didChangeWatchedFiles: { dynamicRegistration: true },
    diagnostics: { refreshSupport: true }, inlayHint: { refreshSupport: true }, codeLens: { refreshSupport: true },
    semanticTokens: { refreshSupport: true }, symbol: { dynamicRegistration: true },
  },
  textDocument: {
    publishDiagnostics: { relatedInformation: true, versionSupport: false }, diagnostic: { dynamicRegistration: true, relatedDocumentSupport: false },
    hover: { contentFormat: ["markdown", "plaintext"] }, completion: { contextSupport: true, completionItem: { snippetSupport: true } },
    semanticTokens: { requests: { range: true, full: { delta: true } }, formats: ["relative"] }, inlayHint: { dynamicRegistration: true },
    selectionRange: {}, callHierarchy: {}, foldingRange: { lineFoldingOnly: true }, rangeFormatting: {}, documentLink: { tooltipSupport: true },
  },
  window: { showMessage: {}, workDoneProgress: true }, general: { positionEncodings: ["utf-16"] },
  experimental: { commands: { commands: ["editor.action.showReferences"] } },
};

function makeProject() {
  mkdirSync(folder);
  for (const name of ["board.toml", "lock.asm", "lock.test", "lock.props"]) copyFileSync(`${TOP}examples/lock/${name}`, `${folder}/${name}`);
  writeFileSync(`${folder}/mcs4.toml`, "board = \"board.toml\"\nprogram = \"lock.asm\"\ntests = [\"lock.test\"]\nproperties = [\"lock.props\"]\n");
}

/** Sends the requests that the editor sends when it starts. */
async function begin(client) {
  const params = {
    processId: process.pid, clientInfo: { name: "Visual Studio Code", version: "1.85.0" }, locale: "en", rootPath: folder, rootUri: uriOf(""),
    capabilities: CAPABILITIES, trace: "off", workspaceFolders: [{ uri: `file://${folder}`, name: "vscode" }], workDoneToken: "begin",
  };
  const { capabilities } = await client.request("initialize", params);
  client.notify("initialized", {});
  client.notify("$/setTrace", { value: "verbose" });
  client.notify("workspace/didChangeConfiguration", { settings: null });
  const disabled = Object.keys(capabilities).filter((key) => capabilities[key] === false);
  verdict([capabilities.diagnosticProvider !== undefined, disabled], [true, []], "the announced capabilities");
}

const open = (client, name, languageId) => client.notify("textDocument/didOpen", {
  textDocument: { uri: uriOf(name), languageId, version: 1, text: readFileSync(`${folder}/${name}`, "utf8") } });

/** Sends, all at once, the requests that the editor sends when it shows a program. */
async function sendShowRequests(client) {
  open(client, "lock.asm", "mcs4");
  const [symbols, folds, actions, links, colours, rangeColours, hints, lenses, marks, diagnostics] = await Promise.all([
    client.request("textDocument/documentSymbol", { textDocument }), client.request("textDocument/foldingRange", { textDocument }),
    client.request("textDocument/codeAction", { textDocument, range: WHOLE_RANGE, context: { diagnostics: [], triggerKind: 2 } }),
    client.request("textDocument/documentLink", { textDocument }), client.request("textDocument/semanticTokens/full", { textDocument }),
    client.request("textDocument/semanticTokens/range", { textDocument, range: WHOLE_RANGE }),
    client.request("textDocument/inlayHint", { textDocument, range: WHOLE_RANGE }), client.request("textDocument/codeLens", { textDocument }),
    client.request("textDocument/documentHighlight", { textDocument, position: { line: 29, character: 2 } }),
    client.request("textDocument/diagnostic", { textDocument, identifier: "mcs4" }),
  ]);
  verdict([symbols.length, folds.length, actions, links], [29, 22, [], []], "symbols, folds, actions and links of a program");
  verdict(colours.data, rangeColours.data, "colours of the text, and of the range with the whole text");
  verdict([hints.length > 100, lenses.length, marks.length], [true, 22, 2], "hints, lenses and marks");
  verdict([diagnostics.kind, diagnostics.items], ["full", []], "no error");
  return { colours, resultId: diagnostics.resultId };
}

/** Sends an edit and the requests that follow it, and a request that is cancelled. */
async function changeDocument(client, { colours, resultId }) {
  const range = { start: { line: 38, character: 8 }, end: { line: 38, character: 11 } };
  client.notify("textDocument/didChange", { textDocument: { uri, version: 2 }, contentChanges: [{ range, rangeLength: 3, text: "JMP" }] });
  const [delta, report] = await Promise.all([
    client.request("textDocument/semanticTokens/full/delta", { textDocument, previousResultId: colours.resultId }),
    client.request("textDocument/diagnostic", { textDocument, identifier: "mcs4", previousResultId: resultId }),
  ]);
  verdict([delta.edits.length, report.items.map(({ message }) => message)], [1, ["JMP is not an instruction; JUN?"]], "colours that changed, and the error");
  const [action] = await client.request("textDocument/codeAction", { textDocument, range: report.items[0].range, context: { diagnostics: report.items } });
  const [edit] = action.edit.changes[uri];
  client.notify("textDocument/didChange", { textDocument: { uri, version: 3 }, contentChanges: [{ range: edit.range, text: "JCN" }] });
  client.send({ id: "cancelled", method: "textDocument/diagnostic", params: { textDocument } });
  client.notify("$/cancelRequest", { id: "cancelled" });
  const { error } = await client.waitForMessage(({ id }) => id === "cancelled");
  verdict(error.code, -32800, "a request that is cancelled");
  const trigger = { triggerKind: 2, triggerCharacter: " " };
  const position = { line: 38, character: 12 };
  const completions = await client.request("textDocument/completion", { textDocument, position, context: trigger });
  verdict(completions[0].detail, "never", "conditions after a blank");
  const completionsAtBlank = await client.request("textDocument/completion", { textDocument, position: { line: 38, character: 4 }, context: trigger });
  verdict(completionsAtBlank, [], "no completion for a blank that indents");
  client.notify("workspace/didChangeWatchedFiles", { changes: [{ uri: uriOf("board.toml"), type: 2 }] });
  verdict((await client.request("textDocument/diagnostic", { textDocument })).items.length, 0, "the text with the correction");
}

/** Opens the other files of the project, runs a test, and changes the board, so that the server requests a refresh. */
async function openOthers(client) {
  for (const [name, language] of [["lock.test", "mcs4-test"], ["lock.props", "mcs4-props"], ["board.toml", "toml"], ["mcs4.toml", "toml"]]) {
    open(client, name, language);
    const { items } = await client.request("textDocument/diagnostic", { textDocument: { uri: uriOf(name) } });
    verdict(items, [], `${name} has no error`);
  }
  const refresh = await client.waitForMessage(({ method }) => method === "workspace/diagnostic/refresh");
  client.send({ id: refresh.id, result: null });
  const links = await client.request("textDocument/documentLink", { textDocument: { uri: uriOf("mcs4.toml") } });
  verdict(links.map(({ tooltip }) => tooltip), ["board.toml", "lock.asm", "lock.test", "lock.props"], "links of the project");
  const [{ command }] = await client.request("textDocument/codeLens", { textDocument: { uri: uriOf("lock.test") } });
  await client.request("workspace/executeCommand", command);
  const { params } = await client.waitForMessage(({ method }) => method === "window/showMessage");
  verdict([params.type, / passed\.$/.test(params.message)], [3, true], "a test that is run");
  verdict((await client.request("workspace/symbol", { query: "several" })).length > 0, true, "names of the workspace");
}

/** Checks that the server answers all requests even if a file of the project is a device or a pipe. */
async function openDevices(client) {
  const deviceFolder = `${process.argv[2]}/devices`;
  mkdirSync(deviceFolder);
  symlinkSync("/dev/zero", `${deviceFolder}/board.toml`);
  symlinkSync("/dev/tty", `${deviceFolder}/x.test`);
  execFileSync("mkfifo", [`${deviceFolder}/mcs4.toml`, `${deviceFolder}/fifo.asm`]);
  const errorsIn = async (name, text, languageId) => {
    const document = { uri: `file://${deviceFolder}/${name}` };
    client.notify("textDocument/didOpen", { textDocument: { ...document, languageId, version: 1, text } });
    return (await client.request("textDocument/diagnostic", { textDocument: document })).items.map(({ message }) => message);
  };
  verdict(await errorsIn("x.asm", "NOP\n", "mcs4"), [], "a program with a board that is a device, and a project that is a pipe");
  const [message] = await errorsIn("fifo.props", "never lamp a on\n", "mcs4-props");
  verdict(/^there is no board\.toml/.test(message), true, "properties of a program that is a pipe");
  const projectErrors = await errorsIn("mcs4.toml", "board = \"board.toml\"\nprogram = \"fifo.asm\"\ntests = [\"x.test\"]\n", "toml");
  verdict(projectErrors, ["board.toml", "fifo.asm", "x.test"].map((name, index) => `${["board", "program", "tests"][index]}: there is no file ${name}`),
    "a project of devices");
}

/** Returns the processor time that a process has used so far, in milliseconds. */
function processorTime(pid) {
  const fields = readFileSync(`/proc/${pid}/stat`, "utf8").replace(/^.*\) /, "").split(" ");
  return (Number(fields[11]) + Number(fields[12])) * 10;
}

/**
 * Measures edits in a 16 KB program with up to 15 errors: the time until the answer to `diagnostic` arrives, and the processor time of the
 * server. Checks that an edit takes less than 20 ms of processor time.
 */
async function measureSpeed(client) {
  const longDocument = { uri: uriOf("long.asm") };
  const text = `start:\n${"LDM 5\n".repeat(2728)}NOP`;
  client.notify("textDocument/didOpen", { textDocument: { ...longDocument, languageId: "mcs4", version: 1, text } });
  const edit = async (turn, letter) => {
    const range = { start: { line: turn, character: 4 }, end: { line: turn, character: 5 } };
    client.notify("textDocument/didChange", { textDocument: { ...longDocument, version: turn + 1 }, contentChanges: [{ range, text: letter }] });
    return (await client.request("textDocument/diagnostic", { textDocument: longDocument })).items.length;
  };
  for (let turn = 1; turn <= 60; turn++) await edit(turn, "6");
  const times = [];
  const cpuBefore = processorTime(client.child.pid);
  for (let turn = 1; turn <= 60; turn++) {
    const before = performance.now();
    const count = await edit(turn, turn <= 15 ? "x" : "7");
    if (turn <= 15) verdict(count, turn, `${turn} errors`);
    times.push(performance.now() - before);
  }
  const timePerEdit = (processorTime(client.child.pid) - cpuBefore) / 60;
  const sortedTimes = times.sort((a, b) => a - b);
  console.log(`speed: an edit of ${text.length} bytes: ${sortedTimes[30].toFixed(1)} ms (median), ${sortedTimes[59].toFixed(1)} ms at most, ${
    timePerEdit.toFixed(1)} ms of processor time`);
  verdict(timePerEdit < 20, true, `an edit of 16 KB takes less than 20 ms of processor time: ${timePerEdit.toFixed(1)}`);
}

makeProject();
const client = new Client(MCS4);
await begin(client);
await changeDocument(client, await sendShowRequests(client));
await openOthers(client);
await openDevices(client);
await measureSpeed(client);
client.notify("textDocument/didClose", { textDocument });
verdict((await client.fetchResponse("textDocument/hover", { textDocument, position: { line: 0, character: 0 } })).error.code, -32602, "a text that was closed");
verdict(client.received.filter(({ method }) => method === "textDocument/publishDiagnostics"), [], "no diagnostics that were not requested");
verdict(await client.endSession(), 0, "the server's status");
