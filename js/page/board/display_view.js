// The board's displays: a drawing of each seven-segment digit, and its value as text for screen readers.

import { Announcer } from "../../core/board/announcer.js";
import { Cell, Switch, block, element } from "../ui/dom.js";
import { perceivedBrightness } from "../../core/board/brightness.js";
import { MINUS_PATTERN, UNLIT_PATTERN, POINT_BIT, hasDecimalPoint, isLit, digitPatterns } from "../../core/board/digit_patterns.js";
import { DisplayText } from "../../core/board/display_text.js";
import { fittingGroups, isMultiplexed, minusLamp } from "../../core/board/face_board.js";
import { indices } from "../../core/bench/numbers.js";

/**
 * @typedef {import("../../core/board/face.js").Face} Face
 * @typedef {import("../../core/board/face.js").Group} Group
 */

const SVG_NAMESPACE = "http://www.w3.org/2000/svg";
/** The SVG paths of segments a to g and of the decimal point. */
const SEGMENT_PATHS = [
  "M5 3 8 1h20l3 2-4 4H9z", "M32 4l2 3v20l-2 2-3-3V8z", "M32 31l2 2v20l-2 3-3-4V34z", "M5 57l4-4h18l4 4-3 2H8z",
  "M4 31l3 3v18l-3 4-2-3V33z", "M4 4l3 4v18l-3 3-2-2V7z", "M5 30l4-3h18l4 3-4 3H9z", "M38 54h5v5h-5z",
];
/** A drawn digit. `show` updates only the segments that have changed. */
class Digit {
  /**
   * @param {boolean} isSign true if the digit consists only of a minus sign
   * @param {boolean} hasPoint
   */
  constructor(isSign, hasPoint) {
    /** The brightness of each segment, from 0 to 1. */
    this.brightnessLevels = SEGMENT_PATHS.map(() => 0);
    /** The bit pattern of the segments that are shown as on. */
    this.litPattern = 0;
    /** The bit pattern of a digit whose segments are fully on or off, or UNLIT_PATTERN if the segments are drawn with their duty cycles. */
    this.steadyPattern = 0;
    this.node = document.createElementNS(SVG_NAMESPACE, "svg");
    this.node.setAttribute("viewBox", isSign ? "2 0 32 60" : "0 0 44 60");
    this.smearSwitch = new Switch((isOn) => this.node.classList.toggle("smeared", isOn));
    this.segments = SEGMENT_PATHS.map((shape, bit) => {
      const segment = document.createElementNS(SVG_NAMESPACE, "path");
      segment.setAttribute("d", shape);
      const isPresent = isSign ? 1 << bit === MINUS_PATTERN : hasPoint || 1 << bit !== POINT_BIT;
      if (isPresent) this.node.append(segment);
      return segment;
    });
  }

  /** @param {number} pattern the bit pattern of the segments that are on; UNLIT_PATTERN if none is on */
  set(pattern) {
    const litPattern = pattern === UNLIT_PATTERN ? 0 : pattern;
    if (litPattern === this.steadyPattern) return;
    this.steadyPattern = litPattern;
    this.smearSwitch.set(false);
    this.show(litPattern, this.segments.map((_, bit) => (litPattern & (1 << bit) ? 1 : 0)));
  }

  /**
   * @param {import("../../core/board/brightness.js").PerceivedDigit} perceivedDigit
   * @param {number} digitCount the number of digits that the program scans in turn, each for at most 1 / `digitCount` of the time; 1 if the
   *   display is not scanned
   */
  showBrightness(perceivedDigit, digitCount) {
    if (perceivedDigit.steadyPattern !== UNLIT_PATTERN) {
      this.set(perceivedDigit.steadyPattern);
      return;
    }
    this.smearSwitch.set(perceivedDigit.isSmeared);
    this.showDutyCycles(perceivedDigit.pattern, perceivedDigit.segments.map((dutyCycle) => dutyCycle * digitCount));
  }

  /**
   * @param {number} litPattern the bit pattern of the segments that are shown as on
   * @param {number[]} dutyCycles the duty cycle of each segment, from 0 to 1
   */
  showDutyCycles(litPattern, dutyCycles) {
    this.steadyPattern = UNLIT_PATTERN;
    this.show(litPattern, dutyCycles);
  }

  /**
   * @param {number} litPattern the bit pattern of the segments that are shown as on
   * @param {number[]} dutyCycles the duty cycle of each segment, from 0 to 1
   */
  show(litPattern, dutyCycles) {
    for (let bit = 0; bit < this.segments.length; bit++) {
      const brightness = perceivedBrightness(dutyCycles[bit]);
      if (brightness !== this.brightnessLevels[bit]) this.segments[bit].style.setProperty("--shine", String(brightness));
      this.brightnessLevels[bit] = brightness;
      if ((litPattern ^ this.litPattern) & (1 << bit)) this.segments[bit].classList.toggle("lit");
    }
    this.litPattern = litPattern;
  }
}

/** A drawn display: a row of digits. */
class Display {
  /** @param {Group} group */
  constructor(group) {
    this.group = group;
    this.digits = indices(group.rows).map(() => new Digit(false, hasDecimalPoint(group.columns)));
  }

  /** @param {string} marks one character per lamp: `*` if the lamp is on at this instant */
  show(marks) {
    digitPatterns(this.group, marks).forEach((pattern, index) => this.digits[index].set(pattern));
  }

  /** @param {import("../../core/board/brightness.js").PerceivedDigit[]} perceivedDigits */
  showBrightness(perceivedDigits) {
    // A scanned display switches on one digit at a time, so each digit is on for a fraction of the scan.
    const digitCount = isMultiplexed(this.group) ? this.group.rows : 1;
    perceivedDigits.forEach((digit, index) => this.digits[index].showBrightness(digit, digitCount));
  }
}

export class DisplayView {
  constructor() {
    /** @type {Display[]} */
    this.displays = [];
    this.signDigit = new Digit(true, false);
    /** The index of the minus sign's lamp; -1 if there is none. */
    this.minusIndex = -1;
    this.textCell = new Cell(block("digits"));
    this.text = new DisplayText([], []);
    const status = new Cell(block("display-status"));
    this.announcer = new Announcer((text) => status.set(text));
  }

  /**
   * @param {string[]} lines the name of each lamp's line, for example `ram0.3.2`
   * @param {Face} face
   */
  draw(lines, face) {
    const groups = fittingGroups(face, lines.length).filter(({ kind }) => kind === "display");
    this.displays = groups.map((group) => new Display(group));
    this.text = new DisplayText(groups, [...face.lamps].map(([lamp, { text }]) => ({ lamp, text })));
    this.minusIndex = minusLamp(face);
    this.signDigit = new Digit(true, false);
    const displayNodes = this.displays.map(({ group, digits }) => {
      const colour = face.colours.get(group.first);
      return element("span", { className: `number ${colour ? colour.text : "red"}` }, ...digits.map(({ node }) => node));
    });
    if (this.minusIndex >= 0 && displayNodes.length > 0) displayNodes[0].prepend(this.signDigit.node);
    block("glass").replaceChildren(...displayNodes);
    block("display").hidden = displayNodes.length === 0;
    this.textCell.set("");
    this.announcer.begin();
  }

  /** @param {string} marks one character per lamp: `*` if the lamp is on at this instant */
  show(marks) {
    if (this.displays.length === 0) return;
    for (const display of this.displays) display.show(marks);
    this.signDigit.set(this.minusIndex >= 0 && isLit(marks, this.minusIndex) ? MINUS_PATTERN : 0);
    this.showText(this.text.read(marks));
  }

  /** @param {import("../../core/board/brightness.js").Brightness} brightness */
  showBrightness(brightness) {
    if (this.displays.length === 0) return;
    this.displays.forEach((display, index) => display.showBrightness(brightness.digits[index]));
    if (this.minusIndex >= 0) this.showSignBrightness(brightness, this.minusIndex);
    this.showText(this.text.readPerceived(brightness.patterns, (lamp) => brightness.isOn[lamp]));
  }

  /**
   * Shows the minus sign of the display. A sign that does not blink is drawn as fully on or off, without the gradual fading of a lamp.
   * @param {import("../../core/board/brightness.js").Brightness} brightness
   * @param {number} lamp
   */
  showSignBrightness({ lampDuties, isOn, lampSteadiness }, lamp) {
    const litPattern = isOn[lamp] ? MINUS_PATTERN : 0;
    if (lampSteadiness[lamp].isSteady) this.signDigit.set(litPattern);
    else this.signDigit.showDutyCycles(litPattern, SEGMENT_PATHS.map((_, index) => (1 << index === MINUS_PATTERN ? lampDuties[lamp] : 0)));
  }

  /** @param {{ number: string, names: string }} content the displayed number, and the names of the lamps that are on */
  showText({ number, names }) {
    this.textCell.set(number);
    this.announcer.announce(names ? `${number} ${names}` : number);
  }
}
