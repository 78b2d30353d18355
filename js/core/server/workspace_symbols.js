// Workspace symbols of the language server protocol: finds the names that match a query, in the open texts and their projects.

import { decodeFileName } from "./dependent_language.js";

/**
 * @typedef {import("./language_server.js").LanguageServer} LanguageServer
 * @typedef {import("./open_text.js").OpenText} OpenText
 */

/** The maximum number of names in a response. */
const MAX_NAMES = 512;

/**
 * Returns whether a name matches a query, ignoring case. A name without blanks must contain the letters of the query in the same order, but
 * not necessarily side by side. A name with blanks must contain the query as a substring.
 * @param {string} name
 * @param {string} query
 */
export function matchesQuery(name, query) {
  const lowerCase = name.toLowerCase();
  if (lowerCase.includes(" ")) return lowerCase.includes(query.toLowerCase());
  let index = 0;
  for (const letter of query.toLowerCase()) {
    index = lowerCase.indexOf(letter, index) + 1;
    if (index === 0) return false;
  }
  return true;
}

/**
 * Returns the symbols that match a query, in the protocol's format.
 * @param {LanguageServer} server
 * @param {string} query
 */
export function findWorkspaceSymbols(server, query) {
  return server.listTexts().flatMap((openText) => {
    const language = server.findLanguage(openText);
    const symbols = language && language.symbols ? language.symbols(openText) : [];
    const containerName = decodeFileName(openText.uri);
    return symbols.filter(({ name }) => matchesQuery(name, query)).map(({ name, kind, selectionRange }) => (
      { name, kind, containerName, location: { uri: openText.uri, range: selectionRange } }));
  }).slice(0, MAX_NAMES);
}
