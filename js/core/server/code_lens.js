// Converts code lenses to the protocol's format. A code lens is clickable text above a line. A click runs a test on the server, or shows
// references if the client has a command that shows references.

import { RUN_TEST, SHOW_REFERENCES } from "./capabilities.js";

/** @typedef {import("./language.js").Lens} Lens */

/**
 * Returns a code lens in the protocol's format.
 * @param {Lens} lens
 * @param {string} uri
 * @param {Set<string>} commands the names of the commands that the client offers for code lenses
 */
export function toCodeLens({ range, title, references, test }, uri, commands) {
  if (test !== null) return { range, command: { title, command: RUN_TEST, arguments: [uri, test] } };
  if (!references || references.length === 0 || !commands.has(SHOW_REFERENCES)) return { range, command: { title, command: "" } };
  const locations = references.map((referenceRange) => ({ uri, range: referenceRange }));
  return { range, command: { title, command: SHOW_REFERENCES, arguments: [uri, range.start, locations] } };
}
