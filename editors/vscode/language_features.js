// The language features other than hover, names, completion and diagnostics: formatting, inlay hints, folding, workspace symbols, call hierarchy,
// code lenses, links, selection ranges and signature help. Sends the editor's requests to `mcs4 lsp`, and converts the responses to the editor's
// classes.
"use strict";

class LanguageFeatures {
  /**
   * @param {import("./language_client.js").LanguageClient} client
   * @param {object[]} selector selects the bench's languages
   */
  constructor(client, selector) {
    this.client = client;
    this.vscode = client.vscode;
    this.selector = selector;
  }

  register() {
    const { languages, commands } = this.vscode;
    const { selector } = this;
    return [
      languages.registerDocumentFormattingEditProvider(selector, {
        provideDocumentFormattingEdits: (document, options) => this.requestEdits("textDocument/formatting", document, { options }),
      }),
      languages.registerDocumentRangeFormattingEditProvider(selector, {
        provideDocumentRangeFormattingEdits: (document, range, options) => (
          this.requestEdits("textDocument/rangeFormatting", document, { range: this.client.toProtocolRange(range), options })),
      }),
      languages.registerInlayHintsProvider(selector, { provideInlayHints: (document, range) => this.requestHints(document, range) }),
      languages.registerFoldingRangeProvider(selector, { provideFoldingRanges: (document) => this.requestFolds(document) }),
      languages.registerSelectionRangeProvider(selector, {
        provideSelectionRanges: (document, positions) => this.requestSelections(document, positions),
      }),
      languages.registerSignatureHelpProvider(selector, {
        provideSignatureHelp: (document, position) => this.requestSignature(document, position),
      }, " ", ","),
      languages.registerCodeLensProvider(selector, { provideCodeLenses: (document) => this.requestLenses(document) }),
      languages.registerDocumentLinkProvider([...selector, { pattern: "**/mcs4.toml" }], {
        provideDocumentLinks: (document) => this.requestLinks(document),
      }),
      languages.registerWorkspaceSymbolProvider({ provideWorkspaceSymbols: (query) => this.requestWorkspaceSymbols(query) }),
      languages.registerCallHierarchyProvider(selector, {
        prepareCallHierarchy: (document, position) => this.requestRoutines(document, position),
        provideCallHierarchyIncomingCalls: (item) => this.requestHierarchyCalls("callHierarchy/incomingCalls", item, "from"),
        provideCallHierarchyOutgoingCalls: (item) => this.requestHierarchyCalls("callHierarchy/outgoingCalls", item, "to"),
      }),
      commands.registerCommand("mcs4.runTest", (...commandArguments) => (
        this.client.request("workspace/executeCommand", { command: "mcs4.runTest", arguments: commandArguments }))),
    ];
  }

  /** Sends a request about a document. Resolves to its result, or to an empty list if there is no result. */
  async request(method, document, params = {}) {
    return (await this.client.request(method, { textDocument: { uri: document.uri.toString() }, ...params })) || [];
  }

  toEditorPosition({ line, character }) {
    return new this.vscode.Position(line, character);
  }

  async requestEdits(method, document, params) {
    const edits = await this.request(method, document, params);
    return edits.map(({ range, newText }) => new this.vscode.TextEdit(this.client.toEditorRange(range), newText));
  }

  async requestHints(document, range) {
    const hints = await this.request("textDocument/inlayHint", document, { range: this.client.toProtocolRange(range) });
    return hints.map(({ position, label, paddingLeft }) => (
      Object.assign(new this.vscode.InlayHint(this.toEditorPosition(position), label), { paddingLeft })));
  }

  async requestFolds(document) {
    return (await this.request("textDocument/foldingRange", document)).map(({ startLine, endLine, kind }) => (
      new this.vscode.FoldingRange(startLine, endLine, kind === "comment" ? this.vscode.FoldingRangeKind.Comment : undefined)));
  }

  async requestSelections(document, positions) {
    const protocolPositions = positions.map(({ line, character }) => ({ line, character }));
    const selectionOf = ({ range, parent }) => new this.vscode.SelectionRange(this.client.toEditorRange(range), parent && selectionOf(parent));
    return (await this.request("textDocument/selectionRange", document, { positions: protocolPositions })).map(selectionOf);
  }

  async requestSignature(document, position) {
    const help = await this.client.request("textDocument/signatureHelp", this.client.positionParams(document, position));
    if (!help) return null;
    const { vscode } = this;
    const signatures = help.signatures.map(({ label, documentation, parameters }) => (
      Object.assign(new vscode.SignatureInformation(label, documentation), {
        parameters: parameters.map((parameter) => new vscode.ParameterInformation(parameter.label, parameter.documentation)),
      })));
    return Object.assign(new vscode.SignatureHelp(), { ...help, signatures });
  }

  async requestLenses(document) {
    return (await this.request("textDocument/codeLens", document)).map(({ range, command }) => (
      new this.vscode.CodeLens(this.client.toEditorRange(range), this.toEditorCommand(command))));
  }

  /** Converts a command of the server to a command of the editor. The arguments of the editor's own commands must have the editor's classes. */
  toEditorCommand({ title, command, arguments: serverArguments = [] }) {
    if (command !== "editor.action.showReferences") return { title, command, arguments: serverArguments };
    const [uri, position, locations] = serverArguments;
    const editorLocations = locations.map((location) => this.client.toEditorLocation(location));
    return { title, command, arguments: [this.vscode.Uri.parse(uri), this.toEditorPosition(position), editorLocations] };
  }

  async requestLinks(document) {
    return (await this.request("textDocument/documentLink", document)).map(({ range, target, tooltip }) => (
      Object.assign(new this.vscode.DocumentLink(this.client.toEditorRange(range), this.vscode.Uri.parse(target)), { tooltip })));
  }

  async requestWorkspaceSymbols(query) {
    return ((await this.client.request("workspace/symbol", { query })) || []).map(({ name, kind, containerName, location }) => (
      new this.vscode.SymbolInformation(name, kind - 1, containerName, this.client.toEditorLocation(location))));
  }

  // --- the call hierarchy of routines

  toHierarchyItem({ kind, name, detail, uri, range, selectionRange }) {
    const { vscode, client } = this;
    return new vscode.CallHierarchyItem(kind - 1, name, detail, vscode.Uri.parse(uri), client.toEditorRange(range), client.toEditorRange(selectionRange));
  }

  async requestRoutines(document, position) {
    const items = await this.client.request("textDocument/prepareCallHierarchy", this.client.positionParams(document, position));
    return (items || []).map((item) => this.toHierarchyItem(item));
  }

  async requestHierarchyCalls(method, { uri, range, selectionRange }, end) {
    const { vscode, client } = this;
    const item = { uri: uri.toString(), range: client.toProtocolRange(range), selectionRange: client.toProtocolRange(selectionRange) };
    const Call = end === "from" ? vscode.CallHierarchyIncomingCall : vscode.CallHierarchyOutgoingCall;
    const calls = (await client.request(method, { item })) || [];
    return calls.map((call) => new Call(this.toHierarchyItem(call[end]), call.fromRanges.map((callRange) => client.toEditorRange(callRange))));
  }
}

module.exports = { LanguageFeatures };
