// Creates the labels of lamps in the board drawing. The label of a lamp is its name. For an unnamed lamp of a display, the label is its
// digit and its segment.

import { isMultiplexed, lampNames, lampsOfGroup } from "../board/face_board.js";
import { indices } from "../bench/numbers.js";
import * as say from "../../words/drawing.js";

/** @typedef {import("../board/face.js").Face} Face */

/** The labels of the lamps in a BCD digit, in a seven-segment digit, and at a decimal point. */
const BCD_LABELS = ["8", "4", "2", "1"];
const SEGMENT_LABELS = ["a", "b", "c", "d", "e", "f", "g"];
const POINT_LABEL = "point";

/**
 * Returns the lamp labels by lamp number; "" for a lamp without a label.
 * @param {Face} face
 * @param {number} count the number of lamps on the board
 */
export function createLampLabels(face, count) {
  const labels = lampNames(face, count);
  for (const group of face.groups) {
    if (group.kind !== "display") continue;
    const groupLabels = createDisplayLabels(group);
    lampsOfGroup(group).forEach((lamp, index) => {
      if (lamp < count) labels[lamp] = labels[lamp] || groupLabels[index];
    });
  }
  return labels;
}

/**
 * Returns the labels of the lamps in a display, in the order of `lampsOfGroup`.
 * @param {import("../board/face.js").Group} group
 */
function createDisplayLabels(group) {
  const { rows, columns } = group;
  const lamps = [...(columns < SEGMENT_LABELS.length ? BCD_LABELS : SEGMENT_LABELS), POINT_LABEL].slice(0, columns);
  if (isMultiplexed(group)) return [...lamps.map((lamp) => say.allDigits(lamp)), ...indices(rows).map((digit) => `digit ${digit}`)];
  return indices(rows).flatMap((digit) => lamps.map((lamp) => `digit ${digit}: ${lamp}`));
}
