// Creates the bench lines that press keys of a board, by their names, one key after another.

import { LAMPS_FORECAST_QUERY, hasScannedDisplay } from "../engine/perceived_text.js";
import { TOOL_KEY_DOWN_CYCLES, TOOL_KEY_UP_CYCLES } from "../time/mcs4_time.js";
import { listNamedKeys } from "./test_text.js";

/**
 * @typedef {import("../board/face.js").Face} Face
 *
 * The times in cycles for which each key stays down (`down`) and then up (`up`).
 * @typedef {{ down: number, up: number }} Pace
 *
 * The result of `createPressLines`. If all names are keys, `lines` are the bench lines, and `unknownName` is null. The last line then
 * queries the lamps. Otherwise, `lines` is empty, and `unknownName` is the first name that is not a key.
 * @typedef {{ lines: string[], unknownName: string | null }} PressLines
 */

/** @type {Pace} the pace if the user of a tool chooses none */
export const DEFAULT_PACE = { down: TOOL_KEY_DOWN_CYCLES, up: TOOL_KEY_UP_CYCLES };

/**
 * Returns the bench lines that press and release keys one after another. Splits a word that is not a key name into characters. Each of
 * these characters must be a key name.
 * @param {Face} face
 * @param {string} text key names, separated by blanks
 * @param {Pace} pace
 * @returns {PressLines}
 */
export function createPressLines(face, text, { down, up }) {
  const keys = listNamedKeys(face);
  const names = text.split(/[ \t\n]+/).filter((word) => word !== "").flatMap((word) => (keys.has(word) ? [word] : [...word]));
  const unknownName = names.find((name) => !keys.has(name));
  if (unknownName !== undefined) return { lines: [], unknownName };
  const lines = names.flatMap((name) => {
    const { press, release } = /** @type {import("./test_text.js").Key} */ (keys.get(name));
    return [press, `run ${down}`, release, `run ${up}`];
  });
  return { lines: [...lines, hasScannedDisplay(face) ? LAMPS_FORECAST_QUERY.trim() : "lamps"], unknownName: null };
}
