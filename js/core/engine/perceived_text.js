// Forecasts what a person sees on a board in the next 30 ms if the keys do not change: the brightness of its lamps, and the text on its
// displays.

import { Brightness } from "../board/brightness.js";
import { DisplayText } from "../board/display_text.js";
import { isMultiplexed } from "../board/face_board.js";
import { EYE_PERSISTENCE_CYCLES } from "../time/mcs4_time.js";
import { BrightnessMeter } from "./brightness_meter.js";

/**
 * @typedef {import("../board/face.js").Face} Face
 */

/** The query that forecasts the lamps of the next 30 ms. */
export const LAMPS_FORECAST_QUERY = `trace ${EYE_PERSISTENCE_CYCLES} lamps\n`;

/**
 * Returns whether a front panel has a multiplexed display. The digits of such a display are not all on at the same instant.
 * @param {Face} face
 */
export function hasScannedDisplay(face) {
  return face.groups.some((group) => group.kind === "display" && isMultiplexed(group));
}

/**
 * Returns the brightness of the lamps during the 30 ms that LAMPS_FORECAST_QUERY forecasts. Ignores light from before this period.
 * @param {Face} face
 * @param {number} count the number of lamps on the board
 * @param {string[]} answers the answer to LAMPS_FORECAST_QUERY
 */
export function forecastBrightness(face, count, answers) {
  const brightness = new Brightness(face, count);
  brightness.add(new BrightnessMeter(face, count, 0).take([answers]), Infinity);
  return brightness;
}

export class PerceivedText {
  /**
   * @param {Face} face
   * @param {number} count the number of lamps on the board
   */
  constructor(face, count) {
    this.face = face;
    this.lampCount = count;
    const displays = face.groups.filter(({ kind }) => kind === "display");
    this.displayText = new DisplayText(displays, [...face.lamps].map(([lamp, { text }]) => ({ lamp, text })));
  }

  /**
   * Returns the text that a person reads from the displays and lamps in the forecast.
   * @param {string[]} answers the answer to LAMPS_FORECAST_QUERY
   */
  read(answers) {
    return this.readAtBrightness(forecastBrightness(this.face, this.lampCount, answers));
  }

  /**
   * Returns the text that a person reads from displays and lamps with the given brightness.
   * @param {Brightness} brightness
   */
  readAtBrightness(brightness) {
    return this.displayText.readPerceived(brightness.patterns, (lamp) => brightness.isOn[lamp]);
  }
}
