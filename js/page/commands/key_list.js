// The table of command keys in the help's section about the keyboard.

import { COMMANDS } from "./command_table.js";
import { KEYBOARD } from "../../words/help.js";
import * as say from "../../words/page_commands.js";

/**
 * @typedef {import("../../core/help/manual.js").ManualSection} ManualSection
 * @typedef {import("../../core/help/manual.js").ManualTable} ManualTable
 */

/**
 * Returns a table row for each command with keys: its keys and its name, and where the keys work if not everywhere.
 * @returns {string[][]}
 */
export function makeKeyRows() {
  return COMMANDS.filter(({ keys }) => keys.length > 0).map(({ keys, label, place }) => (
    [keys.map((key) => `\`${key}\``).join(", "), say.KEY_SCOPES[place] ? `${label} (${say.KEY_SCOPES[place]})` : label]));
}

/**
 * Returns the manual with the command keys as the first table of the keyboard section.
 * @param {ManualSection[]} manual
 * @returns {ManualSection[]}
 */
export function addKeyRows(manual) {
  /** @type {ManualTable} */
  const table = { caption: say.KEY_TABLE, head: [say.KEY_HEADING, say.EFFECT_HEADING], rows: makeKeyRows() };
  return manual.map((section) => (section.title === KEYBOARD ? { ...section, tables: [table, ...section.tables] } : section));
}
