// The limits on the inputs in a proof. A proof without limits is for all inputs: before each cycle, any keys can be down, and TEST can be 0
// or 1. A proof with limits is only for the inputs that the lines `press`, `test`, `together`, `wait` and `held` of a properties text
// allow. The limits never exclude an input that the text allows.
//
// The prover considers only inputs that can stay within the limits for ever. Each press must therefore end in time, even if the property is
// violated during the press. The limits must leave enough time for the release.

import { indices } from "../bench/numbers.js";
import { keyLine, matrixKey } from "../board/key_place.js";
import * as say from "../../words/prove.js";

/**
 * @typedef {import("../bench/answers.js").Board} Board
 * @typedef {import("../board/key_place.js").MatrixKey} MatrixKey
 * @typedef {import("../explore/campaign.js").Campaign} Campaign
 * @typedef {import("../explore/properties.js").Property} Property
 *
 * The limits on the inputs in a proof. `keys` are the keys that may be pressed, or null if all keys may be pressed. `maxKeysDown` is the
 * maximum number of keys that are down at the same time, or null if the number is not limited. `minWait` is the minimum number of cycles
 * between two changes of the inputs; 1 allows all changes. `maxPressTime` is the maximum number of cycles for which a key stays down, or
 * null if it is not limited; the prover needs a `minWait` above 1 to limit it. `words` are the lines of the properties text that set these
 * limits, such as `together 2`.
 * @typedef {{ keys: MatrixKey[] | null, maxKeysDown: number | null, minWait: number, maxPressTime: number | null, words: string[] }}
 *   InputLimits
 */

/** The maximum number of combinations of input levels for a question that sets a minimum time between two changes. */
const MAX_COMBINATIONS = 255;
/** The highest limit on the time for which a key stays down, in cycles. */
const MAX_PRESS_TIME = 100000;

/**
 * Returns all keys in the key matrix of a board.
 * @param {Board} board
 */
const listMatrixKeys = ({ rows, columns }) => (
  indices(rows).flatMap((row) => indices(columns).map((column) => matrixKey(row, column))));

/**
 * Returns the keys of the matrix that a campaign may press. Omits keys that the front panel names but the board lacks, because the bench
 * cannot press them.
 * @param {Campaign} campaign
 * @param {Board} board
 */
function listPressableKeys({ inputs }, { rows, columns }) {
  return inputs.flatMap(({ key }) => (key.kind === "matrix" && key.row < rows && key.column < columns ? [key] : []));
}

/**
 * Returns the maximum number of lines that keys can pull at the same time at a single port.
 * @param {MatrixKey[]} keys
 * @param {Board} board
 */
function findMaxLinesAtOnePort(keys, { matrix }) {
  const lines = new Set(keys.map(({ column }) => (matrix ? matrix.columns[column] : "")));
  const ports = [...lines].map((line) => line.split(".")[0]);
  return Math.max(0, ...ports.map((port) => ports.filter((other) => other === port).length));
}

/**
 * Returns the number of combinations of the levels of TEST and of keys.
 * @param {number} keyCount the number of keys
 * @param {number} maxKeysDown the maximum number of keys that are down at the same time
 */
function countCombinations(keyCount, maxKeysDown) {
  let [count, choices] = [1, 1];
  for (let down = 1; down <= Math.min(keyCount, maxKeysDown); down++) {
    choices = choices * (keyCount - down + 1) / down;
    count += choices;
  }
  return 2 * count;
}

/**
 * Returns the keys that can be pressed in a proof. If the properties text has neither `press` nor `test` lines, these are all keys of the
 * matrix, named or not.
 * @param {Campaign} campaign
 * @param {Board} board
 */
const listProofKeys = (campaign, board) => (campaign.inputWords.length > 0 ? listPressableKeys(campaign, board) : listMatrixKeys(board));

/**
 * Returns whether the properties text lets at most one key be down at a time, and does not let TEST change.
 * @param {Campaign} campaign
 */
const pressesSingleKeys = ({ inputs, maxKeysDown }) => Math.min(maxKeysDown, inputs.length) <= 1 && inputs.every(({ isKey }) => isKey);

/**
 * Returns why a proof cannot use the line `wait` of the properties text, as text; "" if a proof can use it. A line `held` can force the
 * release of a key before the shortest wait is over. This cannot happen if only one key is down at a time, and if a press can last for the
 * shortest wait.
 * @param {Campaign} campaign
 * @param {Board} board
 */
function explainMissingWait(campaign, board) {
  const { hasWait, minWait, maxHoldTime, maxKeysDown } = campaign;
  if (!hasWait || minWait === 1) return say.NEEDS_WAIT;
  if (maxHoldTime !== Infinity && !(pressesSingleKeys(campaign) && maxHoldTime >= minWait)) return say.HELD_SHORTENS_WAITS;
  const combinationCount = countCombinations(listProofKeys(campaign, board).length, maxKeysDown);
  return combinationCount > MAX_COMBINATIONS ? say.tooManyCombinations(MAX_COMBINATIONS) : "";
}

/**
 * Returns the limits that a properties text sets on the inputs: one element for each successive attempt of a proof. The first attempt uses
 * the lines `press`, `test` and `together`, the second also uses `wait`, and the third also uses `held`. Omits attempts whose limits a
 * proof cannot use. In an attempt without `wait`, the limit of `together` matters only if more keys can be visible in one read.
 * @param {Campaign} campaign
 * @param {Board} board
 * @returns {InputLimits[]}
 */
export function listInputLimits(campaign, board) {
  const { inputWords, maxKeysDown, from, minWait, maxHoldTime } = campaign;
  // The tests that lead to a saved state can use any inputs.
  if (from) return [];
  const proofKeys = listProofKeys(campaign, board);
  const limitsKeys = proofKeys.length < listMatrixKeys(board).length;
  const limitsKeyCount = maxKeysDown < findMaxLinesAtOnePort(proofKeys, board);
  const limitsWait = explainMissingWait(campaign, board) === "";
  const createLimits = (/** @type {boolean} */ usesCount, /** @type {boolean} */ usesWait, /** @type {boolean} */ usesHeld) => ({
    keys: limitsKeys ? proofKeys : null,
    maxKeysDown: usesCount ? maxKeysDown : null,
    minWait: usesWait ? minWait : 1,
    maxPressTime: usesHeld ? maxHoldTime : null,
    words: [...(limitsKeys ? inputWords : []), ...(usesCount ? [say.togetherLine(maxKeysDown)] : []), ...(usesWait ? [say.WAIT_WORD] : []),
      ...(usesHeld ? [say.HELD_WORD] : [])],
  });
  const isKeyCountLimited = maxKeysDown < proofKeys.length;
  return [
    ...(limitsKeys || limitsKeyCount ? [createLimits(limitsKeyCount, false, false)] : []),
    ...(limitsWait ? [createLimits(isKeyCountLimited, true, false)] : []),
    ...(limitsWait && proofKeys.length > 0 && maxHoldTime <= MAX_PRESS_TIME ? [createLimits(isKeyCountLimited, true, true)] : []),
  ];
}

/**
 * Returns the maximum number of cycles for which a key can stay down in a proof of a `no press` property. This maximum must permit every
 * run in which all presses are shorter than the time of the property, and the release of all keys after such a run. The release is at least
 * the shortest wait after the last change. If only one key is down at a time, the last change is its press. Otherwise, the last change can
 * be as late as the cycle before the violation.
 * @param {Property} property
 * @param {Campaign} campaign
 */
function findMaxPressTime({ limit }, campaign) {
  const { minWait } = campaign;
  return pressesSingleKeys(campaign) ? Math.max(limit - 1, minWait) : limit - 2 + minWait;
}

/**
 * Returns the limits for successive attempts to prove a property. For a `no press` property, adds an attempt with a limit on the time for
 * which a key stays down. Does not add it if the last attempt already has such a limit that is at least as strict.
 * @param {Property} property
 * @param {Campaign} campaign
 * @param {InputLimits[]} inputLimits the limits that the properties text sets
 * @param {Board} board
 * @returns {InputLimits[]}
 */
export function listPropertyLimits(property, campaign, inputLimits, board) {
  if (property.form !== "no press" || campaign.from || explainMissingPressLimit(property, campaign, board) !== "") return inputLimits;
  const lastLimits = inputLimits[inputLimits.length - 1];
  const maxPressTime = findMaxPressTime(property, campaign);
  const hasStricterLimit = lastLimits.maxPressTime !== null && lastLimits.maxPressTime <= maxPressTime;
  const words = lastLimits.words.filter((word) => word !== say.HELD_WORD);
  return hasStricterLimit ? inputLimits : [...inputLimits, { ...lastLimits, maxPressTime, words }];
}

/**
 * Returns why a proof of a `no press` property cannot limit the time for which a key stays down, as text; "" if it can.
 * @param {Property} property
 * @param {Campaign} campaign
 * @param {Board} board
 */
export function explainMissingPressLimit(property, campaign, board) {
  if (listProofKeys(campaign, board).length === 0) return say.TEST_IS_NOT_LIMITED;
  const reason = explainMissingWait(campaign, board);
  if (reason !== "") return reason;
  return findMaxPressTime(property, campaign) > MAX_PRESS_TIME ? say.pressTimeTooLong(MAX_PRESS_TIME) : "";
}

/**
 * Returns the lines of a question that set limits on the inputs; none if `limits` is null. TEST can always change, even if the properties
 * text has no `test` line and so keeps TEST at 1, its level at power-on. A question could only keep it at 0.
 * @param {InputLimits | null} limits
 */
export function formatInputLimits(limits) {
  if (!limits) return [];
  const { keys, maxKeysDown, minWait, maxPressTime } = limits;
  const togetherLines = maxKeysDown === null ? [] : [["together", maxKeysDown].join(" ")];
  const waitLines = minWait > 1 ? [["wait", minWait].join(" ")] : [];
  const heldLines = maxPressTime === null ? [] : [["held", maxPressTime].join(" ")];
  const keyLines = keys ? ["only", ...keys.map((key) => keyLine("press", key)), "test"] : [];
  return [...togetherLines, ...waitLines, ...heldLines, ...keyLines];
}
