// Starts the extension of editors/vscode with a stand-in for the editor's module and the real `mcs4 lsp`. Opens a program with an error and checks
// the results of the providers. Prints `ok TEXT` or `failed: TEXT` for each check.
import { createRequire } from "node:module";
import { mkdirSync, mkdtempSync, readFileSync, rmSync, writeFileSync } from "node:fs";
import { tmpdir } from "node:os";
import { join } from "node:path";
import Module from "node:module";

const TOP = new URL("../..", import.meta.url).pathname;
const require = createRequire(import.meta.url);

function verdict(actual, expected, description) {
  const [actualText, expectedText] = [JSON.stringify(actual), JSON.stringify(expected)];
  console.log(actualText === expectedText ? `ok ${description}` : `failed: ${description}: ${actualText}, not ${expectedText}`);
}

const providers = {};
const diagnostics = new Map();
const listeners = {};
const disposable = { dispose: () => {} };
/** A stand-in for a class of the editor's module. It only stores the arguments of its constructor. */
class Plain {
  constructor(...given) {
    this.given = given;
  }
}
/** The names of the documents whose language the extension has set, each with this language. */
const assignedLanguages = [];
const setTextDocumentLanguage = async (document, language) => {
  assignedLanguages.push([document.fileName, language]);
};
const languages = new Proxy({ setTextDocumentLanguage }, {
  get: (target, name) => target[name] || (name === "createDiagnosticCollection" ? () => ({ set: (uri, list) => diagnostics.set(uri.text, list), dispose: () => {} })
    : (...given) => {
      providers[name] = given[Math.min(1, given.length - 1)];
      return disposable;
    }),
});
const text = "start:  JMP start\n        LDM 3\n";
const uri = { scheme: "file", text: "file:///tmp/a.asm", fsPath: "/tmp/a.asm", toString: () => "file:///tmp/a.asm" };
const document = { languageId: "mcs4", fileName: "/tmp/a.asm", uri, version: 1, getText: () => text };
const factories = {};
const messages = [];
const openListeners = [];
const vscode = {
  languages,
  tasks: { registerTaskProvider: () => disposable },
  tests: { createTestController: () => ({ createRunProfile: () => {}, items: { get: () => undefined, add: () => {} },
    createTestItem: () => ({ children: { replace: () => {} } }) }) },
  TestRunProfileKind: { Run: 1, Debug: 2 },
  workspace: {
    textDocuments: [document],
    createFileSystemWatcher: () => ({ onDidCreate: () => disposable, onDidChange: () => disposable, onDidDelete: () => disposable }),
    getConfiguration: () => ({ get: () => `${TOP}mcs4` }),
    onDidOpenTextDocument: (act) => {
      openListeners.push(act);
      return disposable;
    },
    onDidCloseTextDocument: () => disposable,
    onDidChangeTextDocument: (act) => {
      listeners.change = act;
      return disposable;
    },
  },
  debug: {
    registerDebugAdapterDescriptorFactory: (type, factory) => {
      factories[type] = factory;
      return disposable;
    },
    registerDebugConfigurationProvider: (type, provider) => {
      factories.provider = provider;
      return disposable;
    },
    registerDebugAdapterTrackerFactory: (type) => {
      factories.tracker = type;
      return disposable;
    },
    onDidReceiveDebugSessionCustomEvent: () => disposable, onDidTerminateDebugSession: () => disposable,
  },
  commands: {
    registerCommand: (name, act) => {
      factories[name] = act;
      return disposable;
    },
  },
  window: {
    registerWebviewViewProvider: (id) => {
      factories.view = id;
      return disposable;
    },
    activeTextEditor: { document }, showErrorMessage: (message) => console.log(`failed: ${message}`),
    showInformationMessage: (message) => messages.push(message),
  },
  Uri: { parse: (address) => ({ text: address, toString: () => address }) },
  DiagnosticSeverity: { Error: 0, Warning: 1, Information: 2 }, CodeActionKind: { QuickFix: "quickfix" },
  MarkdownString: class { constructor(words) { this.words = words; } },
  FoldingRangeKind: { Comment: 1 },
  WorkspaceEdit: class {
    edits = [];
    replace(where, range, words) { this.edits.push([where.text, ...range.given, words]); }
  },
  ...Object.fromEntries(["Range", "Location", "Diagnostic", "Hover", "CompletionItem", "SnippetString", "DocumentSymbol", "CodeAction",
    "SemanticTokensLegend", "SemanticTokens", "SemanticTokensEdits", "SemanticTokensEdit", "DebugAdapterExecutable", "Position", "TextEdit",
    "InlayHint", "FoldingRange", "SelectionRange", "SignatureInformation", "ParameterInformation", "SignatureHelp", "CodeLens",
    "DocumentLink", "SymbolInformation", "CallHierarchyItem", "CallHierarchyIncomingCall", "CallHierarchyOutgoingCall"].map((name) => [name, class extends Plain {}])),
};

/** Checks the extension's features other than hover, names and diagnostics, in a program with the lines `start: JUN start` and `LDM 3`. */
async function tryFeatures() {
  const [formatted] = await providers.registerDocumentRangeFormattingEditProvider
    .provideDocumentRangeFormattingEdits(document, { start: { line: 1, character: 0 }, end: { line: 1, character: 3 } }, { tabSize: 4, insertSpaces: true })
    .then((edits) => [edits.length]);
  verdict(formatted, 0, "a line that is already formatted");
  const range = { start: { line: 0, character: 0 }, end: { line: 9, character: 0 } };
  const hints = await providers.registerInlayHintsProvider.provideInlayHints(document, range);
  verdict(hints.map(({ given: [{ given: at }, label], paddingLeft }) => [...at, label, paddingLeft]),
    [[0, 17, "= 0x000", true], [0, 17, "0x000, 2 cycles", true], [1, 13, "0x002, 1 cycle", true]], "hints");
  const [fold] = await providers.registerFoldingRangeProvider.provideFoldingRanges(document);
  verdict(fold.given.slice(0, 2), [0, 1], "a fold");
  const [selection] = await providers.registerSelectionRangeProvider.provideSelectionRanges(document, [{ line: 1, character: 13 }]);
  verdict([selection.given[0].given, selection.given[1].given[0].given], [[1, 12, 1, 13], [1, 8, 1, 13]], "a selection, and a larger one");
  const signatureHelp = await providers.registerSignatureHelpProvider.provideSignatureHelp(document, { line: 1, character: 12 });
  verdict([signatureHelp.signatures[0].given[0], signatureHelp.signatures[0].parameters.length, signatureHelp.activeParameter], ["LDM d", 1, 0], "the syntax of a statement");
  const [lens] = await providers.registerCodeLensProvider.provideCodeLenses(document);
  const { title, command, arguments: [at, , [place]] } = lens.given[1];
  verdict([title, command, at.text, place.given[1].given], ["1 reference", "editor.action.showReferences", "file:///tmp/a.asm", [0, 12, 0, 17]], "a lens");
  const [symbol] = await providers.registerWorkspaceSymbolProvider.provideWorkspaceSymbols("sta");
  verdict([symbol.given[0], symbol.given[1], symbol.given[2]], ["start", 11, "a.asm"], "a symbol of the workspace");
  const [item] = await providers.registerCallHierarchyProvider.prepareCallHierarchy(document, { line: 0, character: 13 });
  verdict(item.given.slice(0, 2), [11, "start"], "a routine");
  const [kind, name, detail, itemUri, fullRange, nameRange] = item.given;
  const plain = (given) => ({ start: { line: given[0], character: given[1] }, end: { line: given[2], character: given[3] } });
  const callItem = { kind, name, detail, uri: itemUri, range: plain(fullRange.given), selectionRange: plain(nameRange.given) };
  verdict(await providers.registerCallHierarchyProvider.provideCallHierarchyOutgoingCalls(callItem), [], "the outgoing calls of a routine");
  verdict(await providers.registerDocumentLinkProvider.provideDocumentLinks(document), [], "a program has no links");
  const tokensProvider = providers.registerDocumentSemanticTokensProvider;
  const { given: [, id] } = await tokensProvider.provideDocumentSemanticTokens(document);
  verdict((await tokensProvider.provideDocumentSemanticTokensEdits(document, id)).given[0], [], "no colour has changed");
  await factories["mcs4.runTest"]("file:///tmp/none.test", "a").catch((error) => messages.push(error.message));
  verdict(messages, ["file:///tmp/none.test is not open"], "a test that is not open");
}
const load = Module._load;
Module._load = (name, ...more) => (name === "vscode" ? vscode : load(name, ...more));

const extension = require(`${TOP}editors/vscode/extension.js`);
await extension.activate({ subscriptions: [] });
for (let tries = 0; tries < 300 && !diagnostics.has(uri.text); tries++) await new Promise((resume) => setTimeout(resume, 100));
verdict((diagnostics.get(uri.text) || []).map(({ given: [range, words] }) => [range.given, words.split("\n")[0]]),
  [[[0, 8, 0, 11], "JMP is not an instruction; JUN?"]], "the diagnostics of a text");
const hover = await providers.registerHoverProvider.provideHover(document, { line: 1, character: 9 });
verdict(/accumulator|ACC/i.test(hover.given[0].words), true, "a hover");
const range = { start: { line: 0, character: 8 }, end: { line: 0, character: 11 } };
const [action] = await providers.registerCodeActionsProvider.provideCodeActions(document, range);
verdict(action.edit.edits, [["file:///tmp/a.asm", 0, 8, 0, 11, "JUN"]], "a quick fix");
listeners.change({ document: { ...document, version: 2 }, contentChanges: [{ range, text: "JUN" }] });
const definition = await providers.registerDefinitionProvider.provideDefinition(document, { line: 0, character: 13 });
verdict(definition.given[1].given, [0, 0, 0, 5], "a definition");
const edit = await providers.registerRenameProvider.provideRenameEdits(document, { line: 0, character: 1 }, "again");
verdict(edit.edits.map((textEdit) => textEdit[5]), ["again", "again"], "a renamed label");
verdict((await providers.registerDocumentSymbolProvider.provideDocumentSymbols(document)).map(({ given }) => given[0]), ["start"], "the outline");
verdict((await providers.registerCompletionItemProvider.provideCompletionItems(document, { line: 1, character: 10 })).length > 0, true, "completion");
const { given: [data] } = await providers.registerDocumentSemanticTokensProvider.provideDocumentSemanticTokens(document);
verdict(data.length % 5 === 0 && data.length > 0, true, "semantic colours");
await tryFeatures();
verdict(factories.mcs4.createDebugAdapterDescriptor().given, [`${TOP}mcs4`, ["dap"], { env: {} }], "the debug adapter");
verdict(factories.provider.resolveDebugConfiguration(undefined, {}).program, "/tmp/a.asm", "F5 debugs the program in the editor");
// The extension assigns its language to an .asm file only once. It does so only if board.toml is in the file's folder, or mcs4.toml is in that folder
// or above it.
const folder = mkdtempSync(join(tmpdir(), "extension."));
for (const name of ["board", "project/deep/er", "other"]) mkdirSync(join(folder, name), { recursive: true });
for (const name of ["board/board.toml", "project/mcs4.toml"]) writeFileSync(join(folder, name), "");
const show = (name, languageId = "asm", scheme = "file") => {
  const fileName = join(folder, name);
  for (const act of openListeners) act({ languageId, fileName, uri: { scheme, fsPath: fileName, toString: () => `${scheme}://${fileName}` }, version: 1, getText: () => "" });
};
for (const name of ["board/a.asm", "project/deep/er/A.ASM", "project/b.asm", "other/x86.asm", "board/a.s", "board/a.asm"]) show(name);
for (const name of ["board/a.test", "project/a.props", "other/a.test", "other/a.props"]) show(name, "plaintext");
show("board/mine.asm", "mcs4");
show("board/old.asm", "asm", "git");
verdict(assignedLanguages.slice(0, 3), ["board/a.asm", "project/deep/er/A.ASM", "project/b.asm"].map((name) => [join(folder, name), "mcs4"]),
  "the .asm files that get the extension's language");
verdict(assignedLanguages.slice(3), [[join(folder, "board/a.test"), "mcs4-test"], [join(folder, "project/a.props"), "mcs4-props"]],
  "the tests and properties that get the extension's languages");
rmSync(folder, { recursive: true });
const manifest = JSON.parse(readFileSync(`${TOP}editors/vscode/package.json`, "utf8"));
verdict([factories.view, factories.tracker], [manifest.contributes.views.debug[0].id, "mcs4"], "the view of lamps and keys");
verdict(manifest.contributes.languages.map(({ extensions, filenames }) => [extensions, filenames]), [
  [[".4004"], undefined], [undefined, ["board.toml"]], [undefined, undefined], [undefined, undefined]],
  "only .4004 files get a language by their extension");
verdict(manifest.activationEvents.filter((event) => event.startsWith("workspace")), ["workspaceContains:**/mcs4.toml", "workspaceContains:**/board.toml"],
  "the activation events");
verdict(manifest.contributes.configuration.properties["mcs4.command"].scope, "machine", "a workspace cannot set the command");
verdict(manifest.license, "UNLICENSED", "the licence");
const namedFiles = [...manifest.contributes.grammars, ...manifest.contributes.languages.map(({ configuration }) => ({ path: configuration })), { path: manifest.main }];
for (const { path } of namedFiles) verdict(readFileSync(`${TOP}editors/vscode/${path}`, "utf8").length > 0, true, `${path} exists`);
await extension.deactivate();
