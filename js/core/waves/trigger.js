// Parses the trigger of a recording: an edge of a signal line (`rom0.2 rises`, `lamp 3 falls`, `r5 changes`), or a condition that becomes
// true (`r9 = 9`, `lamp 3 on`, `display 42`, `@LABEL`: see conditions/condition_language.js).

import { compileTracedCondition } from "../conditions/condition_language.js";
import { isDecoder } from "./decoders.js";
import { errorInColumn } from "../../words/conditions.js";
import * as say from "../../words/waves.js";

/**
 * @typedef {import("../conditions/condition_language.js").Names} Names
 * @typedef {import("./wave_lines.js").WaveLine} WaveLine
 * @typedef {"rises" | "falls" | "changes"} Edge
 *
 * A trigger. For an edge, `edge` is its kind, and `members` are the indices of the lines on which the edge can occur. For a condition,
 * `places` are the `trace` places that the condition reads, and `holds` tests the condition on their values. If the condition depends only
 * on the program counter, `address` is the address that makes it true; otherwise -1.
 * @typedef {{ edge: Edge | "", members: number[], places: string[], address: number, holds: (values: string[]) => boolean }} Trigger
 */

/** Matches an edge: the name of a line, and the kind of edge. */
const EDGE_SYNTAX = /^(.*\S)\s+(rises|falls|changes)$/;
/** The function `holds` of an edge trigger, which has no condition. */
const returnFalse = () => false;

/**
 * Returns a name in lower case, with one blank instead of each sequence of dots and blanks.
 * @param {string} text
 */
export function normalizeName(text) {
  return text.toLowerCase().replace(/[\s.]+/g, " ").trim();
}

/**
 * Returns the index of the line with a name, or -1. Examples of names: `rom0.2`, `rom0` (the port), `lamp 3`, `lamp minus`, `minus`, `key
 * 7`, `r5`, `ram 0 0x12`.
 * @param {string} text
 * @param {WaveLine[]} lines
 */
export function findLineByName(text, lines) {
  const wantedName = normalizeName(text);
  /** @type {(matches: (line: WaveLine) => boolean) => number} */
  const findIndex = (matches) => lines.findIndex(matches);
  const candidates = [
    findIndex(({ name }) => normalizeName(name) === wantedName),
    findIndex(({ name, kind }) => kind === "port" && normalizeName(name.replace(/\[.*/, "")) === wantedName),
    findIndex(({ title, kind }) => title !== "" && kind !== "value" && normalizeName(title) === wantedName),
    findIndex(({ name, group }) => (
      (group === "lamps" || group === "keys") && normalizeName(name.slice(name.indexOf(".") + 1)) === wantedName)),
  ];
  const lampMatch = /^lamp (\d+)$/.exec(wantedName);
  const firstLampIndex = lines.findIndex(({ group }) => group === "lamps");
  if (lampMatch && firstLampIndex >= 0) {
    const lampIndex = firstLampIndex + Number(lampMatch[1]);
    if (lines[lampIndex]?.group === "lamps") candidates.push(lampIndex);
  }
  return candidates.find((line) => line >= 0) ?? -1;
}

/**
 * Returns the name of the line in an edge trigger such as `rom0.2 rises`; "" for any other text.
 * @param {string} text
 */
export function findLineNameInEdge(text) {
  const match = EDGE_SYNTAX.exec(text.trim());
  return match ? match[1] : "";
}

/**
 * Parses a trigger. If the text has an error, `trigger` is null, and `error` is the error message. For an empty text, `trigger` is null,
 * and `error` is "".
 * @param {string} text
 * @param {WaveLine[]} lines
 * @param {Names} names
 * @returns {{ trigger: Trigger | null, error: string }}
 */
export function parseTrigger(text, lines, names) {
  if (text.trim() === "") return { trigger: null, error: "" };
  const match = EDGE_SYNTAX.exec(text.trim());
  if (match) return makeEdgeTrigger(match[1], /** @type {Edge} */ (match[2]), lines);
  const { condition, error, column } = compileTracedCondition(text, names);
  if (!condition) return { trigger: null, error: errorInColumn(error, column) };
  const { places, address, holds } = condition;
  return { trigger: { edge: "", members: [], places, address, holds: (values) => holds(values) }, error: "" };
}

/**
 * Returns an edge trigger, or an error.
 * @param {string} name
 * @param {Edge} edge
 * @param {WaveLine[]} lines
 * @returns {{ trigger: Trigger | null, error: string }}
 */
function makeEdgeTrigger(name, edge, lines) {
  const line = findLineByName(name, lines);
  if (line < 0) return { trigger: null, error: say.noSuchNameMessage(name) };
  const { kind, members, width } = lines[line];
  if (kind === "pc" || kind === "label") return { trigger: null, error: say.LABEL_SYNTAX };
  if (isDecoder(lines[line])) return { trigger: null, error: say.lineIsDecodedMessage(lines[line].name) };
  if (edge !== "changes" && width > 1) {
    return { trigger: null, error: say.numberConditionSyntax(name) };
  }
  return { trigger: { edge, members: kind === "port" ? members : [line], places: [], address: -1, holds: returnFalse }, error: "" };
}
