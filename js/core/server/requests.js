// Defines the handlers of all requests. A handler checks the parameters, calls the object that handles the kind of text (its `Language`,
// language.js), and converts the result to the protocol's format.

import { listCapabilities, readClientCapabilities, RUN_TEST } from "./capabilities.js";
import { toCodeLens } from "./code_lens.js";
import { createQuickFixes } from "./diagnostics.js";
import { findFolds } from "./folding_ranges.js";
import { getField } from "./framing.js";
import { INVALID_PARAMS, ProtocolError, requirePosition, requireRange, requireString } from "./lsp_protocol.js";
import { selectionRangeAt } from "./selection_ranges.js";
import { TokenMemory } from "./token_memory.js";
import { findWorkspaceSymbols } from "./workspace_symbols.js";
import * as say from "../../words/server.js";

/**
 * @typedef {import("./connection.js").RequestHandler} RequestHandler
 * @typedef {import("./language.js").Language} Language
 * @typedef {import("./language.js").Routine} Routine
 * @typedef {import("./language_server.js").LanguageServer} LanguageServer
 * @typedef {import("./open_text.js").OpenText} OpenText
 * @typedef {import("./lsp_protocol.js").Position} Position
 */

/** The protocol's symbol kind for a routine. */
const FUNCTION_SYMBOL = 12;
/** A range that covers the whole text of any document. */
const WHOLE_TEXT_RANGE = { start: { line: 0, character: 0 }, end: { line: Number.MAX_SAFE_INTEGER, character: 0 } };
const MAX_TAB_SIZE = 16;

/**
 * Reads the formatting options: the tab size, and whether to indent with blanks instead of tabs.
 * @param {any} options the options of the request
 */
function readFormattingOptions(options) {
  const tabSize = getField(options, "tabSize");
  const isValidSize = Number.isInteger(tabSize) && tabSize >= 1 && tabSize <= MAX_TAB_SIZE;
  return { tabSize: isValidSize ? tabSize : 8, insertSpaces: getField(options, "insertSpaces") !== false };
}

/**
 * Returns a value if it is a list; throws ProtocolError for any other value.
 * @param {any} value
 * @param {string} parameterName the name of the parameter
 * @returns {any[]}
 */
function requireList(value, parameterName) {
  if (!Array.isArray(value)) throw new ProtocolError(INVALID_PARAMS, say.mustBeListMessage(parameterName));
  return value;
}

export class Requests {
  /** @param {LanguageServer} server */
  constructor(server) {
    this.server = server;
    this.tokens = new TokenMemory();
  }

  /**
   * Returns the handlers by method name.
   * @returns {Record<string, RequestHandler>}
   */
  createHandlers() {
    return { ...this.createServerHandlers(), ...this.createPositionHandlers(), ...this.createTextHandlers(), ...this.createCallHandlers() };
  }

  // --- requests to the server

  /** @returns {Record<string, RequestHandler>} */
  createServerHandlers() {
    return {
      "initialize": (params) => this.initialize(params),
      "shutdown": () => null,
      "workspace/symbol": (params) => findWorkspaceSymbols(this.server, requireString(getField(params, "query"), "query")),
      "workspace/executeCommand": (params, pending) => this.execute(params, pending),
    };
  }

  /**
   * Stores the capabilities of the client. Returns the capabilities of the server.
   * @param {any} params
   */
  initialize(params) {
    this.server.client = readClientCapabilities(params);
    return { capabilities: listCapabilities(this.server.client), serverInfo: { name: "mcs4 lsp" } };
  }

  /**
   * Runs the test that a command names. Throws ProtocolError for an unknown command.
   * @param {any} params
   * @param {import("./connection.js").PendingRequest} pending
   */
  execute(params, pending) {
    const command = requireString(getField(params, "command"), "command");
    if (command !== RUN_TEST) throw new ProtocolError(INVALID_PARAMS, say.noCommandMessage(command));
    const [uri, test] = requireList(getField(params, "arguments"), "arguments");
    return this.server.runTest(requireString(uri, "arguments[0]"), requireString(test, "arguments[1]"), pending);
  }

  // --- requests about a text

  /**
   * Calls a function with two arguments: the language (language.js) and the text that a request names.
   * @template Result
   * @param {any} params
   * @param {(language: Language, openText: OpenText) => Result} callback
   * @returns {Result | null} null for a text in an unknown language
   */
  applyToText(params, callback) {
    const { openText } = this.server.getRequestedText(params);
    const language = this.server.findLanguage(openText);
    return language && callback(language, openText);
  }

  /** @returns {Record<string, RequestHandler>} */
  createTextHandlers() {
    return {
      "textDocument/documentSymbol": (params) => this.applyToText(params, (language, openText) => (
        language.symbols ? language.symbols(openText) : [])),
      "textDocument/codeAction": (params) => this.codeAction(params),
      "textDocument/codeLens": (params) => this.applyToText(params, (language, openText) => (
        (language.lenses ? language.lenses(openText) : []).map((lens) => toCodeLens(lens, openText.uri, this.server.client.commands)))),
      "textDocument/formatting": (params) => this.format(params, WHOLE_TEXT_RANGE),
      "textDocument/rangeFormatting": (params) => this.format(params, requireRange(getField(params, "range"))),
      "textDocument/documentLink": (params) => this.applyToText(params, (language, openText) => (
        language.links ? language.links(openText) : [])),
      "textDocument/foldingRange": (params) => this.applyToText(params, (language, openText) => (
        findFolds(openText.lines, language.foldPatterns))),
      "textDocument/inlayHint": (params) => this.hints(params),
      "textDocument/semanticTokens/full": (params) => this.serveSemanticTokens(params, (openText, words) => (
        this.tokens.encodeAllTokens(openText, words))),
      "textDocument/semanticTokens/full/delta": (params) => this.serveSemanticTokens(params, (openText, words) => (
        this.tokens.encodeChangedTokens(openText, words, getField(params, "previousResultId")))),
      "textDocument/semanticTokens/range": (params) => this.serveSemanticTokens(params, (openText, words) => (
        this.tokens.encodeTokensInRange(words, requireRange(getField(params, "range"))))),
      "textDocument/diagnostic": (params) => this.diagnostic(params),
    };
  }

  /**
   * Handles a request for semantic tokens.
   * @param {any} params
   * @param {(openText: OpenText, words: import("./token_codes.js").ColouredWord[]) => object} callback returns the response for the words
   *   to colour
   */
  serveSemanticTokens(params, callback) {
    return this.applyToText(params, (language, openText) => (
      callback(openText, language.semanticTokens ? language.semanticTokens(openText) : [])));
  }

  /**
   * Returns the edits that format the text in a range; null if the language has no formatter.
   * @param {any} params
   * @param {import("./lsp_protocol.js").Range} range
   */
  format(params, range) {
    const layout = readFormattingOptions(getField(params, "options"));
    return this.applyToText(params, (language, openText) => (language.format ? language.format(openText, range, layout) : null));
  }

  /**
   * Returns the inlay hints in the requested range.
   * @param {any} params
   */
  hints(params) {
    const range = requireRange(getField(params, "range"));
    return this.applyToText(params, (language, openText) => (language.hints ? language.hints(openText, range) : []));
  }

  /**
   * Resolves to the quick fixes for the errors in the requested range.
   * @param {any} params
   */
  async codeAction(params) {
    const text = this.server.getRequestedText(params);
    const range = requireRange(getField(params, "range"));
    await this.server.waitForCheck(text);
    return createQuickFixes(text.openText.uri, text.errors, range);
  }

  /**
   * Resolves to the diagnostics of a text, or to a report that they have not changed.
   * @param {any} params
   */
  async diagnostic(params) {
    const text = this.server.getRequestedText(params);
    await this.server.waitForCheck(text);
    const resultId = JSON.stringify(text.diagnostics);
    if (getField(params, "previousResultId") === resultId) return { kind: "unchanged", resultId };
    return { kind: "full", resultId, items: text.diagnostics };
  }

  // --- requests about a position in a text

  /**
   * Calls a function with three arguments: the language, the text and the position in a request. Returns the function's result; null for a
   * text in an unknown language.
   * @template Result
   * @param {any} params
   * @param {(language: Language, openText: OpenText, position: Position) => Result} callback
   */
  applyAtPosition(params, callback) {
    const position = requirePosition(getField(params, "position"));
    return this.applyToText(params, (language, openText) => callback(language, openText, openText.clampPosition(position)));
  }

  /** @returns {Record<string, RequestHandler>} */
  createPositionHandlers() {
    return {
      "textDocument/hover": (params) => this.hover(params),
      "textDocument/definition": (params) => this.applyAtPosition(params, (language, openText, position) => {
        const target = language.definition ? language.definition(openText, position) : null;
        return target && ("uri" in target ? target : { uri: openText.uri, range: target });
      }),
      "textDocument/references": (params) => this.references(params),
      "textDocument/documentHighlight": (params) => this.applyAtPosition(params, (language, openText, position) => (
        (language.references ? language.references(openText, position, true) : []).map((range) => ({ range })))),
      "textDocument/prepareRename": (params) => this.applyAtPosition(params, (language, openText, position) => (
        language.renameTarget ? language.renameTarget(openText, position) : null)),
      "textDocument/rename": (params) => this.rename(params),
      "textDocument/completion": (params) => this.completion(params),
      "textDocument/signatureHelp": (params) => this.applyAtPosition(params, (language, openText, position) => (
        language.signature ? language.signature(openText, position) : null)),
      "textDocument/selectionRange": (params) => this.selections(params),
    };
  }

  /**
   * Returns the help at a position, in the format that the client supports; null if there is none.
   * @param {any} params
   */
  hover(params) {
    const hoverHelp = this.applyAtPosition(params, (language, openText, position) => (
      language.hover ? language.hover(openText, position) : null));
    if (!hoverHelp) return null;
    const { plainText, markdown, ...range } = hoverHelp;
    const contents = this.server.client.showsMarkdown ? { kind: "markdown", value: markdown } : { kind: "plaintext", value: plainText };
    return { contents, ...range };
  }

  /**
   * Returns the locations of the references to the name at a position.
   * @param {any} params
   */
  references(params) {
    const includesDefinition = getField(getField(params, "context"), "includeDeclaration") !== false;
    return this.applyAtPosition(params, (language, openText, position) => (
      (language.references ? language.references(openText, position, includesDefinition) : []).map((range) => (
        { uri: openText.uri, range }))));
  }

  /**
   * Returns the edits that rename the name at a position; null if the language does not support renaming.
   * @param {any} params
   */
  rename(params) {
    const newName = requireString(getField(params, "newName"), "newName");
    return this.applyAtPosition(params, (language, openText, position) => (
      language.rename ? { changes: { [openText.uri]: language.rename(openText, position, newName) } } : null));
  }

  /**
   * Returns the completions at a position, in the protocol's format.
   * @param {any} params
   */
  completion(params) {
    const trigger = String(getField(getField(params, "context"), "triggerCharacter") || "");
    return this.applyAtPosition(params, (language, openText, position) => {
      if (!language.completion) return [];
      const { from, to, list } = language.completion(openText, position, trigger);
      const range = { start: { ...position, character: from }, end: { ...position, character: to } };
      return list.map(({ text, description, kind, documentation }) => (
        { label: text.split("\n")[0], kind, ...(description ? { detail: description.trim() } : {}),
          ...(documentation ? { documentation } : {}),
          textEdit: { range, newText: text } }));
    });
  }

  /**
   * Returns the selection range at each requested position.
   * @param {any} params
   */
  selections(params) {
    const positions = requireList(getField(params, "positions"), "positions").map(requirePosition);
    return this.applyToText(params, (language, openText) => positions.map((position) => {
      const clampedPosition = openText.clampPosition(position);
      const columnRanges = language.selectionColumns ? language.selectionColumns(openText, clampedPosition) : [];
      return selectionRangeAt(openText.lines, clampedPosition, columnRanges, language.foldPatterns);
    }));
  }

  // --- requests about routines

  /** @returns {Record<string, RequestHandler>} */
  createCallHandlers() {
    return {
      "textDocument/prepareCallHierarchy": (params) => this.applyAtPosition(params, (language, openText, position) => {
        const routine = language.routine ? language.routine(openText, position) : null;
        return routine && [this.toCallItem(routine, openText.uri)];
      }),
      "callHierarchy/incomingCalls": (params) => this.applyAtCallItem(params, (language, openText, position) => (
        (language.callers ? language.callers(openText, position) : []).map(({ routine, ranges }) => (
          { from: this.toCallItem(routine, openText.uri), fromRanges: ranges })))),
      "callHierarchy/outgoingCalls": (params) => this.applyAtCallItem(params, (language, openText, position) => (
        (language.callees ? language.callees(openText, position) : []).map(({ routine, ranges }) => (
          { to: this.toCallItem(routine, openText.uri), fromRanges: ranges })))),
    };
  }

  /**
   * Returns a routine as a call hierarchy item of the protocol.
   * @param {Routine} routine
   * @param {string} uri
   */
  toCallItem(routine, uri) {
    return { ...routine, kind: FUNCTION_SYMBOL, uri };
  }

  /**
   * Calls a function with three arguments: the language, the text, and the position of the call hierarchy item in a request. Returns the
   * function's result.
   * @template Result
   * @param {any} params
   * @param {(language: Language, openText: OpenText, position: Position) => Result} callback
   */
  applyAtCallItem(params, callback) {
    const item = getField(params, "item");
    const { start } = requireRange(getField(item, "selectionRange"));
    return this.applyAtPosition({ textDocument: { uri: getField(item, "uri") }, position: start }, callback);
  }
}
