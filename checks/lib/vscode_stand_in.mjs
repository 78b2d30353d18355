// A stand-in for the parts of the module `vscode` that the extension in editors/vscode uses. `standIn()` creates one. Its `registered` contains
// everything that the extension has registered, by kind and name, and its `shown` contains what the user would see.
import { readFileSync, readdirSync, statSync } from "node:fs";
import { basename, join, sep } from "node:path";
import { pathToFileURL } from "node:url";

class Disposable {
  constructor(act = () => {}) {
    this.dispose = act;
  }
}

/** Creates an event. `fire` calls its listeners. */
function eventOf() {
  const listeners = new Set();
  const event = (act) => {
    listeners.add(act);
    return new Disposable(() => listeners.delete(act));
  };
  return { event, fire: (...given) => [...listeners].map((act) => act(...given)) };
}

class Uri {
  constructor(scheme, fsPath, text) {
    Object.assign(this, { scheme, fsPath, path: fsPath, text });
  }
  static file(path) {
    // The editor encodes characters in addresses: a colon is %3A, and a space is %20.
    return new Uri("file", path, String(pathToFileURL(path)).replace(/(?<=^file:\/\/\/[A-Za-z]):/, "%3A"));
  }
  static parse(text) {
    const { protocol, pathname } = new URL(text);
    return new Uri(protocol.slice(0, -1), decodeURIComponent(pathname), text);
  }
  static joinPath(uri, ...parts) {
    return Uri.file(join(uri.fsPath, ...parts));
  }
  toString() {
    return this.text;
  }
}

class Position {
  constructor(line, character) {
    Object.assign(this, { line, character });
  }
}

/** A range, constructed from two positions or from four numbers, as in the editor. */
class Range {
  constructor(...given) {
    const [a, b, c, d] = given;
    [this.start, this.end] = given.length === 4 ? [new Position(a, b), new Position(c, d)] : [a, b];
  }
}

/** The stand-in for `TestItemCollection` of the editor: test items by their ids. */
class TestItems {
  constructor(parent) {
    this.parent = parent;
    this.all = new Map();
  }
  get size() {
    return this.all.size;
  }
  get(id) {
    return this.all.get(id);
  }
  add(item) {
    item.parent = this.parent;
    this.all.set(item.id, item);
  }
  replace(items) {
    this.all.clear();
    for (const item of items) this.add(item);
  }
  delete(id) {
    this.all.delete(id);
  }
  forEach(act) {
    for (const item of this.all.values()) act(item);
  }
}

function testItem(id, label, uri) {
  const item = { id, label, uri, range: undefined, parent: undefined };
  return Object.assign(item, { children: new TestItems(item) });
}

// Returns the files below a folder that match a pattern of the form `**/NAME` or `**/*.EXTENSION`.
function filesIn(folder, pattern) {
  const [, name] = /^\*\*\/(.*)$/.exec(pattern);
  const matches = (fileName) => (name.startsWith("*") ? fileName.endsWith(name.slice(1)) : fileName === name);
  return readdirSync(folder).sort().flatMap((fileName) => {
    const path = join(folder, fileName);
    if (statSync(path).isDirectory()) return filesIn(path, pattern);
    return matches(fileName) ? [Uri.file(path)] : [];
  });
}

/** A stand-in for a class of the module. It only stores the arguments of its constructor. */
class Plain {
  constructor(...given) {
    this.given = given;
  }
}
const PLAIN_CLASSES = ["Location", "Diagnostic", "Hover", "CompletionItem", "SnippetString", "DocumentSymbol", "CodeAction", "SemanticTokensLegend",
  "SemanticTokens", "SemanticTokensEdits", "SemanticTokensEdit", "DebugAdapterExecutable", "TextEdit", "InlayHint", "FoldingRange",
  "SelectionRange", "SignatureInformation", "ParameterInformation", "SignatureHelp", "CodeLens", "DocumentLink", "SymbolInformation",
  "CallHierarchyItem", "CallHierarchyIncomingCall", "CallHierarchyOutgoingCall", "TestMessage", "ProcessExecution", "Task", "MarkdownString"];

/**
 * @param {string} folder the folder of the workspace
 * @param {Record<string, string>} settings the user's settings, by their names without the prefix `mcs4.`
 */
export function standIn(folder, settings = {}) {
  const registered = {};
  const shown = { errors: [], messages: [], launched: [], diagnostics: new Map(), runs: [], panels: [] };
  const events = Object.fromEntries(["open", "close", "change", "custom", "terminate"].map((name) => [name, eventOf()]));
  const documents = [];
  const register = (kind) => (...given) => {
    const name = typeof given[0] === "string" ? given.shift() : "";
    registered[name === "" ? kind : `${kind} ${name}`] = given.find((each) => typeof each === "object" || typeof each === "function");
    return new Disposable();
  };
  const languages = new Proxy({
    createDiagnosticCollection: () => ({ set: (uri, list) => shown.diagnostics.set(uri.toString(), list), dispose: () => {} }),
    // The editor closes a document and opens it again when its language changes.
    setTextDocumentLanguage: async (document, languageId) => {
      events.close.fire(document);
      document.languageId = languageId;
      events.open.fire(document);
      return document;
    },
  }, { get: (own, name) => own[name] || ((selector, provider) => register(name)(provider)) });
  const root = { uri: Uri.file(folder), name: basename(folder), index: 0 };
  const vscode = {
    ...Object.fromEntries(PLAIN_CLASSES.map((name) => [name, class extends Plain {}])), Uri, Position, Range, languages,
    DiagnosticSeverity: { Error: 0, Warning: 1, Information: 2 }, CodeActionKind: { QuickFix: "quickfix" }, FoldingRangeKind: { Comment: 1 },
    TestRunProfileKind: { Run: 1, Debug: 2 }, TaskScope: { Workspace: 2 }, TaskGroup: { Test: "test" }, ViewColumn: { Beside: -2 },
    WorkspaceEdit: class { replace() {} },
    workspace: {
      workspaceFolders: [root], textDocuments: documents,
      getConfiguration: () => ({ get: (name) => settings[name] }),
      getWorkspaceFolder: ({ fsPath }) => (fsPath.startsWith(folder + sep) ? root : undefined),
      findFiles: async (pattern, _, most = Infinity) => filesIn(folder, pattern).slice(0, most), saveAll: async () => true,
      createFileSystemWatcher: () => ({ ...new Disposable(), onDidCreate: eventOf().event, onDidChange: eventOf().event, onDidDelete: eventOf().event }),
      onDidOpenTextDocument: events.open.event, onDidCloseTextDocument: events.close.event, onDidChangeTextDocument: events.change.event,
    },
    debug: {
      registerDebugAdapterDescriptorFactory: register("adapter"), registerDebugConfigurationProvider: register("configuration"),
      registerDebugAdapterTrackerFactory: register("tracker"), onDidReceiveDebugSessionCustomEvent: events.custom.event,
      onDidTerminateDebugSession: events.terminate.event, activeDebugSession: undefined,
      startDebugging: async (_, configuration) => shown.launched.push(configuration),
    },
    commands: { registerCommand: register("command") },
    tasks: { registerTaskProvider: register("tasks") },
    tests: {
      createTestController: (id, label) => {
        const controller = {
          id, label, items: new TestItems(undefined), profiles: {}, createTestItem: testItem, dispose: () => {},
          createRunProfile: (name, kind, act) => {
            controller.profiles[name] = act;
          },
          createTestRun: () => {
            const run = { output: "", results: [], isEnded: false };
            shown.runs.push(run);
            return {
              started: () => {}, appendOutput: (text) => { run.output += text; }, end: () => { run.isEnded = true; },
              passed: ({ label: name }) => run.results.push(["passed", name]),
              failed: ({ label: name }, message) => run.results.push(["failed", name, message]),
              errored: ({ label: name }, message) => run.results.push(["errored", name, message]),
            };
          },
        };
        registered["tests"] = controller;
        return controller;
      },
    },
    window: {
      activeTextEditor: undefined, registerWebviewViewProvider: register("view"),
      showErrorMessage: (message) => shown.errors.push(message), showInformationMessage: (message) => shown.messages.push(message),
      showInputBox: async () => undefined,
      createWebviewPanel: (viewType, title, column, options) => {
        const panel = { viewType, title, column, options, webview: webview(), onDidDispose: eventOf().event };
        shown.panels.push(panel);
        return panel;
      },
    },
  };
  /** Creates a webview. `posted` contains the messages that it receives, and `sendMessage` sends its messages. */
  function webview() {
    const messageEvent = eventOf();
    const view = {
      cspSource: "vscode-resource:", html: "", options: {}, posted: [], onDidReceiveMessage: messageEvent.event,
      asWebviewUri: ({ fsPath }) => `vscode-resource:${basename(fsPath)}`,
      postMessage: async (message) => view.posted.push(message), sendMessage: (message) => Promise.all(messageEvent.fire(message)),
    };
    return view;
  }
  /** Opens a file as the editor does, which gives it a language by its name. (The extension can then choose another language.) */
  function open(name, languageId) {
    const uri = Uri.file(join(folder, name));
    const text = readFileSync(uri.fsPath, "utf8");
    const document = { uri, fileName: uri.fsPath, languageId, version: 1, getText: () => text };
    documents.push(document);
    vscode.window.activeTextEditor = { document };
    events.open.fire(document);
    return document;
  }
  return { vscode, registered, shown, events, open };
}
