// Formats the displays and named lamps of a board as text, in the format of `mcs4 display`.

import { isLit, digitPatterns, displayedNumber } from "./digit_patterns.js";

/** @typedef {import("./face.js").Group} Group */

/** Converts the lamps of a board to its display text. */
export class DisplayText {
  /**
   * @param {Group[]} displays
   * @param {{ lamp: number, text: string }[]} names the named lamps: the number (`lamp`) and the name (`text`) of each
   */
  constructor(displays, names) {
    this.displays = displays;
    this.names = [...names].sort((a, b) => a.lamp - b.lamp);
  }

  /**
   * Returns the number on the displays and the names of the other lamps that are on, at one instant. If the lamp `minus` is on, a minus
   * sign precedes the number.
   * @param {string} marks one mark per lamp, `*` if the lamp is on
   */
  read(marks) {
    return this.readPerceived(this.displays.map((display) => digitPatterns(display, marks)), (lamp) => isLit(marks, lamp));
  }

  /**
   * Returns the number and the names as perceived over time, in the same format as `read`.
   * @param {number[][]} patterns the perceived patterns of the digits of each display
   * @param {(lamp: number) => boolean} isSeen returns whether a lamp is perceived as on
   */
  readPerceived(patterns, isSeen) {
    let minus = "";
    let names = "";
    for (const { lamp, text } of this.names) {
      if (!isSeen(lamp)) continue;
      if (text === "minus") minus = "-";
      else names += `${names && " "}${text.replace(/_/g, " ")}`;
    }
    return { number: minus + patterns.map(displayedNumber).join(" "), names };
  }
}

/**
 * Joins the number on the displays and the lamp names into one string.
 * @param {{ number: string, names: string }} displayText
 */
export function joinDisplayText({ number, names }) {
  return names === "" ? number : `${number} ${names}`;
}
