// Defines the tour of the page, which explains a first program in five steps. Each step has explanatory paragraphs, a program to type, and
// a function that returns whether the step is done.

import * as say from "../../words/help.js";

/**
 * The values that decide whether a step is done:
 * - `lamps`: one character for each lamp, `*` if the lamp is on;
 * - `patterns`: the number of different lamp patterns since the start of this step;
 * - `keysDown`: the number of pressed keys;
 * - `end`: the reason for the last stop in this step, such as `break` or `watch`; "" for none.
 * @typedef {{ lamps: string, patterns: number, keysDown: number, end: string }} TourState
 *
 * A piece of a paragraph: plain text, or a link with an action. Only stories have links.
 * @typedef {string | { linkText: string, action: import("./story.js").StoryAction }} ParagraphPiece
 *
 * The control that a step highlights: the assemble button, a key of the board, the margin of the source, or a RAM nibble.
 * @typedef {"send" | "key" | "margin" | "ram"} Target
 *
 * A step: its title, its paragraphs, the program to type ("" if the program stays the same), the highlighted control, and a function that
 * returns whether the step is done.
 * @typedef {{ title: string, paragraphs: (string | ParagraphPiece[])[], program: string, target?: Target,
 *   isDone: (state: TourState) => boolean }} TourStep
 */

/**
 * The example that the page opens at the start of the tour. It has a board but no program.
 * @type {import("../engine/examples.js").Example}
 */
export const TOUR_EXAMPLE = {
  ...say.FIRST_PROGRAM, board: say.TOUR_BOARD, program: "", tests: "", properties: "",
  lines: "", project: "",
};

/** @type {TourStep[]} */
export const TOUR = [
  {
    ...say.STEP_LAMP,
    program: say.LAMP_PROGRAM,
    target: "send",
    isDone: ({ lamps }) => lamps[0] === "*",
  },
  {
    ...say.STEP_COUNT,
    program: say.COUNT_PROGRAM,
    target: "send",
    isDone: ({ patterns }) => patterns >= 4,
  },
  {
    ...say.STEP_KEY,
    program: say.KEY_PROGRAM,
    target: "key",
    isDone: ({ lamps, keysDown }) => keysDown > 0 && lamps.includes("*"),
  },
  {
    ...say.STEP_BREAKPOINT,
    program: "",
    target: "margin",
    isDone: ({ end }) => end === "break",
  },
  {
    ...say.STEP_WATCH,
    program: say.REMEMBER_PROGRAM,
    target: "ram",
    isDone: ({ end }) => end === "watch",
  },
];

/**
 * Returns whether the tour can replace a program text: true if the text is empty or is the program of a step.
 * @param {string} text
 */
export function isTourText(text) {
  return text.trim() === "" || TOUR.some(({ program }) => program === text);
}

/** The progress of the tour: the current step, and whether this step is done. */
export class TourProgress {
  /** @param {TourStep[]} steps */
  constructor(steps = TOUR) {
    this.steps = steps;
    this.stepIndex = 0;
    /** @type {TourState} */
    this.state = { lamps: "", patterns: 0, keysDown: 0, end: "" };
    /** @type {Set<string>} the different lamp patterns in this step */
    this.patterns = new Set();
    this.isDone = false;
  }

  /**
   * Starts a step of the tour, and forgets the state of the previous step.
   * @param {number} stepIndex the index of the step
   */
  begin(stepIndex) {
    this.stepIndex = stepIndex;
    this.state = { lamps: "", patterns: 0, keysDown: 0, end: "" };
    this.patterns.clear();
    this.isDone = false;
  }

  get step() {
    return this.steps[this.stepIndex];
  }

  /**
   * Records which lamps are on.
   * @param {string} lamps one character for each lamp, `*` if the lamp is on
   */
  recordLamps(lamps) {
    this.patterns.add(lamps);
    this.update({ lamps, patterns: this.patterns.size });
  }

  /**
   * Records how many keys are pressed.
   * @param {number} keysDown
   */
  recordKeys(keysDown) {
    this.update({ keysDown });
  }

  /**
   * Records why the machine stopped.
   * @param {string} end the reason for the stop, such as `break`
   */
  recordRunEnd(end) {
    this.update({ end });
  }

  /**
   * Changes values of the state, and checks whether the step is done.
   * @param {Partial<TourState>} changes
   */
  update(changes) {
    Object.assign(this.state, changes);
    this.isDone = this.isDone || this.step.isDone(this.state);
  }
}
