// Defines the capabilities of the server, and reads the client capabilities that the server uses.

import { getField } from "./framing.js";
import { TOKEN_MODIFIERS, TOKEN_TYPES } from "./token_codes.js";

/**
 * The capabilities of a client, and its folders:
 * - `showsMarkdown`: true if the client shows hovers in Markdown;
 * - `pullsDiagnostics`: true if the client requests diagnostics itself;
 * - `refreshesDiagnostics`: true if the client requests all diagnostics again after `workspace/diagnostic/refresh`;
 * - `commands`: the client's commands for code lenses;
 * - `folders`: the URIs of the open folders.
 * @typedef {{ showsMarkdown: boolean, pullsDiagnostics: boolean, refreshesDiagnostics: boolean, commands: Set<string>,
 *   folders: string[] }} Client
 */

/** The protocol's number for the mode in which a client sends only the changed parts of a text. */
const INCREMENTAL_SYNC = 2;
/** The name of the client's command that shows references. */
export const SHOW_REFERENCES = "editor.action.showReferences";
/** The name of the server's command that runs a test. */
export const RUN_TEST = "mcs4.runTest";

/**
 * Returns the value at a path in a message; undefined if there is none.
 * @param {any} value
 * @param {string[]} path the names of the nested fields
 */
function fieldAt(value, ...path) {
  return path.reduce((inner, name) => getField(inner, name), value);
}

/**
 * Returns a value if it is a list; an empty list for any other value.
 * @param {any} value
 * @returns {any[]}
 */
function toList(value) {
  return Array.isArray(value) ? value : [];
}

/**
 * Reads the capabilities of a client from its `initialize` request.
 * @param {any} params
 * @returns {Client}
 */
export function readClientCapabilities(params) {
  const capabilities = getField(params, "capabilities");
  const folders = toList(getField(params, "workspaceFolders")).map((folder) => getField(folder, "uri"));
  return {
    showsMarkdown: toList(fieldAt(capabilities, "textDocument", "hover", "contentFormat")).includes("markdown"),
    pullsDiagnostics: fieldAt(capabilities, "textDocument", "diagnostic") !== undefined,
    refreshesDiagnostics: fieldAt(capabilities, "workspace", "diagnostics", "refreshSupport") === true,
    commands: new Set(toList(fieldAt(capabilities, "experimental", "commands", "commands"))),
    folders: [...folders, getField(params, "rootUri")].filter((folder) => typeof folder === "string"),
  };
}

/**
 * Returns the capabilities of the server for a client.
 * @param {Client} client
 * @returns {object}
 */
export function listCapabilities({ pullsDiagnostics }) {
  const diagnostics = { identifier: "mcs4", interFileDependencies: true, workspaceDiagnostics: false };
  return {
    positionEncoding: "utf-16",
    textDocumentSync: { openClose: true, change: INCREMENTAL_SYNC },
    hoverProvider: true,
    definitionProvider: true,
    referencesProvider: true,
    documentHighlightProvider: true,
    renameProvider: { prepareProvider: true },
    documentSymbolProvider: true,
    workspaceSymbolProvider: true,
    completionProvider: { triggerCharacters: [" ", ",", "@", "\"", "."] },
    signatureHelpProvider: { triggerCharacters: [" "], retriggerCharacters: [","] },
    codeActionProvider: { codeActionKinds: ["quickfix"] },
    codeLensProvider: {},
    executeCommandProvider: { commands: [RUN_TEST] },
    documentFormattingProvider: true,
    documentRangeFormattingProvider: true,
    documentLinkProvider: {},
    foldingRangeProvider: true,
    selectionRangeProvider: true,
    inlayHintProvider: true,
    callHierarchyProvider: true,
    semanticTokensProvider: { legend: { tokenTypes: TOKEN_TYPES, tokenModifiers: TOKEN_MODIFIERS }, full: { delta: true }, range: true },
    ...(pullsDiagnostics ? { diagnosticProvider: diagnostics } : {}),
  };
}
