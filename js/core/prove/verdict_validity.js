// Checks whether a verdict remains valid after a change of the board, the program or the properties text.

import { isSetting } from "../explore/campaign.js";
import { WAIT_WORD } from "../../words/prove.js";

/**
 * @typedef {import("./bounded_proof.js").PropertyVerdict} PropertyVerdict
 * @typedef {import("./verdicts.js").Verdict} Verdict
 * @typedef {{ boardText: string, programText: string, propertiesText: string }} ProvedTexts
 */

/**
 * Returns the lines of a properties text, trimmed and with single blanks, as the parser reads them.
 * @param {string} text
 */
function normalizeLines(text) {
  return text.replace(/^\uFEFF/, "").split(/\r?\n/).map((line) => line.trim().replace(/\s+/g, " "));
}

/** The settings on which a proof for all inputs depends: only `from`, because a proof must start at power-on. */
const PROOF_SETTINGS = /^from /;
/** The settings on which a proof with limits on the inputs depends. */
const LIMITED_PROOF_SETTINGS = /^(?:from|press|test|together)\b/;
/** The settings on which a proof with a minimum time between two changes depends. */
const WAITING_PROOF_SETTINGS = /^(?:from|press|test|together|wait|held)\b/;

/**
 * Returns the settings in a properties text on which a verdict depends.
 * @param {string[]} lines
 * @param {Verdict} verdict
 */
function selectSettings(lines, verdict) {
  const settings = lines.filter(isSetting);
  if (verdict.kind !== "proved") return settings.join("\n");
  const limitedSettings = verdict.limits.includes(WAIT_WORD) ? WAITING_PROOF_SETTINGS : LIMITED_PROOF_SETTINGS;
  const settingPattern = verdict.limits.length > 0 ? limitedSettings : PROOF_SETTINGS;
  return settings.filter((line) => settingPattern.test(line)).join("\n");
}

/**
 * Returns whether a verdict on a property is still valid after the texts have changed.
 * @param {PropertyVerdict} judged
 * @param {ProvedTexts} oldTexts the texts to which the verdict applies
 * @param {ProvedTexts} newTexts
 */
export function isStillValid({ text, line, verdict }, oldTexts, newTexts) {
  if (oldTexts.boardText !== newTexts.boardText || oldTexts.programText !== newTexts.programText) return false;
  if (oldTexts.propertiesText === newTexts.propertiesText) return true;
  const [oldLines, lines] = [normalizeLines(oldTexts.propertiesText), normalizeLines(newTexts.propertiesText)];
  return (line === 0 || lines.includes(text)) && selectSettings(oldLines, verdict) === selectSettings(lines, verdict);
}

/**
 * Returns the line number of a property in a properties text, from 1; 0 if the text does not contain the property.
 * @param {string} property
 * @param {string} text
 */
export function findPropertyLine(property, text) {
  return normalizeLines(text).indexOf(property) + 1;
}
