// A client of the language server `mcs4 lsp` for Visual Studio Code, without third-party packages. The client sends the editor's requests to the
// server.
"use strict";
const { LanguageFeatures } = require("./language_features.js");

/** The client capabilities that the server uses. */
const CAPABILITIES = {
  textDocument: { hover: { contentFormat: ["markdown", "plaintext"] } },
  experimental: { commands: { commands: ["editor.action.showReferences"] } },
};
/** The server's language ids, by the editor's ids. Contains only the languages whose ids differ. */
const SERVER_LANGUAGE_IDS = { "mcs4": "asm", "mcs4-board": "toml" };

class LanguageClient {
  /**
   * @param vscode the editor's API module
   * @param {import("./bench_command.js").BenchCommand} bench starts the server
   * @param {string[]} languages
   */
  constructor(vscode, bench, languages) {
    this.vscode = vscode;
    this.bench = bench;
    this.languages = languages;
    this.receivedBytes = Buffer.alloc(0);
    this.pendingRequests = new Map();
    this.lastRequestId = 0;
    this.child = null;
    this.disposables = [];
  }

  // --- the server

  /** Starts the server, and registers the providers of the language features. */
  async activate() {
    const { vscode } = this;
    this.diagnostics = vscode.languages.createDiagnosticCollection("mcs4");
    this.disposables.push(this.diagnostics);
    await this.startServer();
    const workspaceFolders = (vscode.workspace.workspaceFolders || []).map(({ uri, name }) => ({ uri: uri.toString(), name }));
    const params = { processId: process.pid, rootUri: null, workspaceFolders, capabilities: CAPABILITIES };
    const { capabilities } = await this.request("initialize", params);
    this.notify("initialized", {});
    this.listenToDocuments();
    this.registerProviders(capabilities);
  }

  /**
   * Starts the server. If the program in the user setting does not start, starts the extension's own program instead. Throws an error if no
   * server starts.
   */
  async startServer() {
    const { bench } = this;
    const { configuredCommand } = bench;
    if (await this.tryToStartServer()) return;
    if (configuredCommand === "") throw new Error("cannot start the language server");
    bench.hasSettingFailed = true;
    const message = `Cannot start the command ${configuredCommand} (setting mcs4.command). The extension uses its own commands instead.`;
    this.vscode.window.showErrorMessage(message);
    if (!(await this.tryToStartServer())) throw new Error("cannot start the language server");
  }

  /** Tries to start the server. Resolves to true if the program has started. */
  async tryToStartServer() {
    const child = this.bench.start(["lsp"], "ignore");
    const hasStarted = await new Promise((settle) => {
      child.on("spawn", () => settle(true));
      child.on("error", () => settle(false));
    });
    if (!hasStarted) return false;
    this.child = child;
    child.on("close", () => this.handleServerEnd());
    child.stdin.on("error", () => {});
    child.stdout.on("data", (bytes) => this.receive(bytes));
    return true;
  }

  /** Rejects all pending requests. */
  handleServerEnd() {
    for (const { reject } of this.pendingRequests.values()) reject(new Error("the language server has ended"));
    this.pendingRequests.clear();
    this.child = null;
  }

  /** Ends the server. */
  async shutDown() {
    if (!this.child) return;
    await this.request("shutdown").catch(() => {});
    this.notify("exit");
  }

  dispose() {
    this.shutDown();
    for (const disposable of this.disposables) disposable.dispose();
  }

  /** Adds bytes to those received so far, and handles all complete messages. */
  receive(bytes) {
    this.receivedBytes = Buffer.concat([this.receivedBytes, bytes]);
    for (;;) {
      const end = this.receivedBytes.indexOf("\r\n\r\n");
      if (end < 0) return;
      const size = Number(/content-length: *(\d+)/i.exec(this.receivedBytes.subarray(0, end).toString())[1]);
      if (this.receivedBytes.length < end + 4 + size) return;
      const message = JSON.parse(this.receivedBytes.subarray(end + 4, end + 4 + size).toString());
      this.receivedBytes = this.receivedBytes.subarray(end + 4 + size);
      if (message.method === "textDocument/publishDiagnostics") this.showDiagnostics(message.params);
      if (message.method === "window/showMessage") this.showMessage(message.params);
      const pendingRequest = message.method === undefined && this.pendingRequests.get(message.id);
      if (!pendingRequest) continue;
      this.pendingRequests.delete(message.id);
      if (message.error) pendingRequest.reject(new Error(message.error.message));
      else pendingRequest.resolve(message.result);
    }
  }

  showMessage({ type, message }) {
    const { window } = this.vscode;
    if (type === 1) window.showErrorMessage(message);
    else window.showInformationMessage(message);
  }

  /** Sends a message with its header. Does nothing if the server has ended. */
  send(message) {
    if (!this.child) return;
    const body = Buffer.from(JSON.stringify({ jsonrpc: "2.0", ...message }));
    this.child.stdin.write(`Content-Length: ${body.length}\r\n\r\n`);
    this.child.stdin.write(body);
  }

  notify(method, params) {
    this.send({ method, params });
  }

  /** Sends a request. Resolves to its result. Rejects if the server reports an error or has ended. */
  request(method, params) {
    this.lastRequestId += 1;
    const id = this.lastRequestId;
    if (!this.child) return Promise.reject(new Error("the language server has ended"));
    return new Promise((resolve, reject) => {
      this.pendingRequests.set(id, { resolve, reject });
      this.send({ id, method, params });
    });
  }

  // --- documents

  /** Returns true if the server handles a document. */
  handlesDocument(document) {
    return this.languages.includes(document.languageId) || /(^|[\\/])mcs4\.toml$/.test(document.fileName);
  }

  /** Notifies the server when documents are opened, changed or closed. */
  listenToDocuments() {
    const { workspace } = this.vscode;
    const serverIdOf = ({ languageId }) => SERVER_LANGUAGE_IDS[languageId] || languageId;
    const sendDidOpen = (document) => {
      if (!this.handlesDocument(document)) return;
      const textDocument = { uri: document.uri.toString(), languageId: serverIdOf(document), version: document.version, text: document.getText() };
      this.notify("textDocument/didOpen", { textDocument });
    };
    this.disposables.push(
      workspace.onDidOpenTextDocument(sendDidOpen),
      workspace.onDidCloseTextDocument((document) => {
        if (this.handlesDocument(document)) this.notify("textDocument/didClose", { textDocument: { uri: document.uri.toString() } });
      }),
      workspace.onDidChangeTextDocument(({ document, contentChanges }) => {
        if (!this.handlesDocument(document) || contentChanges.length === 0) return;
        const changes = contentChanges.map(({ range, text }) => ({ range: this.toProtocolRange(range), text }));
        const textDocument = { uri: document.uri.toString(), version: document.version };
        this.notify("textDocument/didChange", { textDocument, contentChanges: changes });
      }),
    );
    workspace.textDocuments.forEach(sendDidOpen);
  }

  /** Shows the diagnostics of a document. */
  showDiagnostics({ uri, diagnostics }) {
    const { vscode } = this;
    const severities = [0, vscode.DiagnosticSeverity.Error, vscode.DiagnosticSeverity.Warning, vscode.DiagnosticSeverity.Information];
    this.diagnostics.set(vscode.Uri.parse(uri), diagnostics.map(({ range, message, severity }) => (
      new vscode.Diagnostic(this.toEditorRange(range), message, severities[severity] ?? vscode.DiagnosticSeverity.Error))));
  }

  // --- conversions between the types of the editor and of the protocol

  toProtocolRange({ start, end }) {
    const toProtocolPosition = ({ line, character }) => ({ line, character });
    return { start: toProtocolPosition(start), end: toProtocolPosition(end) };
  }

  toEditorRange({ start, end }) {
    return new this.vscode.Range(start.line, start.character, end.line, end.character);
  }

  toEditorLocation({ uri, range }) {
    return new this.vscode.Location(this.vscode.Uri.parse(uri), this.toEditorRange(range));
  }

  toWorkspaceEdit({ changes }) {
    const edit = new this.vscode.WorkspaceEdit();
    for (const [uri, edits] of Object.entries(changes)) {
      for (const { range, newText } of edits) edit.replace(this.vscode.Uri.parse(uri), this.toEditorRange(range), newText);
    }
    return edit;
  }

  positionParams(document, { line, character }) {
    return { textDocument: { uri: document.uri.toString() }, position: { line, character } };
  }

  // --- requests of the editor

  /** Registers the providers of the language features. */
  registerProviders(capabilities) {
    const { languages } = this.vscode;
    const selector = this.languages.map((language) => ({ language }));
    this.disposables.push(
      languages.registerHoverProvider(selector, { provideHover: (document, position) => this.requestHover(document, position) }),
      languages.registerDefinitionProvider(selector, {
        provideDefinition: async (document, position) => {
          const location = await this.request("textDocument/definition", this.positionParams(document, position));
          return location && this.toEditorLocation(location);
        },
      }),
      languages.registerReferenceProvider(selector, {
        provideReferences: async (document, position, context) => {
          const locations = await this.request("textDocument/references", { ...this.positionParams(document, position), context });
          return (locations || []).map((location) => this.toEditorLocation(location));
        },
      }),
      languages.registerRenameProvider(selector, {
        provideRenameEdits: async (document, position, newName) => (
          this.toWorkspaceEdit(await this.request("textDocument/rename", { ...this.positionParams(document, position), newName }))),
      }),
      languages.registerCompletionItemProvider(selector, {
        provideCompletionItems: (document, position, _, context) => this.requestCompletion(document, position, context),
      }, ...capabilities.completionProvider.triggerCharacters),
      languages.registerDocumentSymbolProvider(selector, { provideDocumentSymbols: (document) => this.requestSymbols(document) }),
      languages.registerCodeActionsProvider(selector, { provideCodeActions: (document, range) => this.requestActions(document, range) }),
    );
    this.registerSemanticTokens(selector, capabilities.semanticTokensProvider.legend);
    this.disposables.push(...new LanguageFeatures(this, selector).register());
  }

  registerSemanticTokens(selector, { tokenTypes, tokenModifiers }) {
    const { vscode } = this;
    const legend = new vscode.SemanticTokensLegend(tokenTypes, tokenModifiers);
    const toTokens = (tokens) => new vscode.SemanticTokens(new Uint32Array(tokens ? tokens.data : []), tokens ? tokens.resultId : undefined);
    const documentParams = (document, params) => ({ textDocument: { uri: document.uri.toString() }, ...params });
    this.disposables.push(vscode.languages.registerDocumentSemanticTokensProvider(selector, {
      provideDocumentSemanticTokens: async (document) => toTokens(await this.request("textDocument/semanticTokens/full", documentParams(document))),
      provideDocumentSemanticTokensEdits: async (document, previousResultId) => {
        const tokens = await this.request("textDocument/semanticTokens/full/delta", documentParams(document, { previousResultId }));
        if (!tokens || !tokens.edits) return toTokens(tokens);
        const edits = tokens.edits.map(({ start, deleteCount, data }) => (
          new vscode.SemanticTokensEdit(start, deleteCount, new Uint32Array(data))));
        return new vscode.SemanticTokensEdits(edits, tokens.resultId);
      },
    }, legend), vscode.languages.registerDocumentRangeSemanticTokensProvider(selector, {
      provideDocumentRangeSemanticTokens: async (document, range) => (
        toTokens(await this.request("textDocument/semanticTokens/range", documentParams(document, { range: this.toProtocolRange(range) })))),
    }, legend));
  }

  async requestHover(document, position) {
    const hover = await this.request("textDocument/hover", this.positionParams(document, position));
    if (!hover) return null;
    const markdown = new this.vscode.MarkdownString(hover.contents.value);
    return new this.vscode.Hover(markdown, hover.range && this.toEditorRange(hover.range));
  }

  async requestCompletion(document, position, { triggerKind = 0, triggerCharacter } = {}) {
    // The editor numbers trigger kinds from 0, the protocol from 1.
    const context = { triggerKind: triggerKind + 1, triggerCharacter };
    const list = (await this.request("textDocument/completion", { ...this.positionParams(document, position), context })) || [];
    return list.map(({ label, kind, detail, documentation, textEdit, insertTextFormat }) => {
      // The editor numbers item kinds from 0, the protocol from 1.
      const item = new this.vscode.CompletionItem(label, kind - 1);
      item.detail = detail;
      item.documentation = documentation;
      item.range = this.toEditorRange(textEdit.range);
      item.insertText = insertTextFormat === 2 ? new this.vscode.SnippetString(textEdit.newText) : textEdit.newText;
      return item;
    });
  }

  async requestSymbols(document) {
    const list = (await this.request("textDocument/documentSymbol", { textDocument: { uri: document.uri.toString() } })) || [];
    return list.map(({ name, detail, kind, range, selectionRange }) => (
      new this.vscode.DocumentSymbol(name, detail || "", kind - 1, this.toEditorRange(range), this.toEditorRange(selectionRange))));
  }

  async requestActions(document, range) {
    const context = { diagnostics: [] };
    const params = { textDocument: { uri: document.uri.toString() }, range: this.toProtocolRange(range), context };
    return ((await this.request("textDocument/codeAction", params)) || []).map(({ title, edit }) => {
      const action = new this.vscode.CodeAction(title, this.vscode.CodeActionKind.QuickFix);
      action.edit = this.toWorkspaceEdit(edit);
      return action;
    });
  }
}

exports.LanguageClient = LanguageClient;
