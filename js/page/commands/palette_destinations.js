// The destinations that the palette offers: texts, labels, addresses, source lines, projects and examples.

import { parseGoToTarget } from "../../core/machine/go_to_target.js";
import { hex } from "../../core/bench/numbers.js";
import * as say from "../../words/page_commands.js";

/**
 * @typedef {import("./palette_search.js").Entry} Entry
 * @typedef {import("../../core/machine/source_map.js").SourceMap} SourceMap
 */

/**
 * The callbacks of the palette's destinations.
 * @typedef {object} DestinationCalls
 * @property {() => SourceMap | null} map Returns the source map of the program in ROM, or null if ROM does not match the source.
 * @property {() => string[]} examples Returns the names of the examples.
 * @property {() => { id: string, name: string }[]} projects Returns the ids and names of the saved projects.
 * @property {(name: string) => void} show Brings the tab with this name to the front.
 * @property {(line: number) => void} showLine Shows a line of the source. Lines count from 1.
 * @property {(address: number) => void} showAddress Shows an address in the source and in the disassembly.
 * @property {(name: string) => void} openExample Opens a new session from the example with this name.
 * @property {(id: string) => void} openProject Opens the project with this id.
 */

const LINE_NUMBER_QUERY = /^:\s*(\d+)$/;

/** @type {(label: string, hint: string, action: () => void, isForQuery?: boolean) => Entry} */
const makeEntry = (label, hint, action, isForQuery = false) => ({ label, hint, disabledReason: "", keys: [], isForQuery, act: action });

/**
 * Returns a list with the entry for a typed line number, address, or name with an offset. Returns an empty list for any other text.
 * @param {string} query
 * @param {DestinationCalls} calls
 */
function findTypedDestinations(query, calls) {
  const [, line = ""] = LINE_NUMBER_QUERY.exec(query) || [];
  if (line) return [makeEntry(say.nameOfLine(Number(line)), "", () => calls.showLine(Number(line)), true)];
  const map = calls.map();
  if (query === "" || (map && map.names.has(query))) return [];
  const { address, message: error } = parseGoToTarget(query, map);
  return error ? [] : [makeEntry(say.nameOfAddress(hex(address, 3)), "", () => calls.showAddress(address), true)];
}

/**
 * Returns the entries of all destinations.
 * @param {string} query the typed text
 * @param {DestinationCalls} calls
 * @returns {Entry[]}
 */
export function listDestinations(query, calls) {
  const map = calls.map();
  const labels = map ? [...map.names.values()].filter(({ isLabel }) => isLabel) : [];
  return [
    ...findTypedDestinations(query, calls),
    ...Object.entries(say.TEXTS).map(([name, label]) => makeEntry(label, say.A_TEXT, () => calls.show(name))),
    ...labels.map(({ name, value }) => (
      makeEntry(name, say.labelAt(map ? map.lineOf(value) : 0, hex(value, 3)), () => calls.showAddress(value)))),
    ...calls.projects().map(({ id, name }) => makeEntry(name, say.A_PROJECT, () => calls.openProject(id))),
    ...calls.examples().map((name) => makeEntry(name, say.GROUPS.example, () => calls.openExample(name))),
  ];
}
