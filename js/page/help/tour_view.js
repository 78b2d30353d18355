// The panel next to the bench that shows a step-by-step tour with the first program, or the story of an example.

import { PointerRing } from "./pointer_ring.js";
import { Cell, block, button, element, onClick } from "../ui/dom.js";
import { TOUR_EXAMPLE, TOUR, TourProgress } from "../../core/help/tour.js";
import * as say from "../../words/help.js";

/**
 * @typedef {import("../../core/engine/examples.js").Example} Example
 * @typedef {import("../../core/help/tour.js").ParagraphPiece} ParagraphPiece
 * @typedef {import("../../core/help/tour.js").Target} Target
 * @typedef {import("../../core/help/tour.js").TourStep} TourStep
 */

/**
 * The callbacks of the tour panel.
 * @typedef {object} TourCalls
 * @property {(example: Example) => Promise<boolean>} openExample Opens a new session from an example. Resolves to true if the session was
 *   created.
 * @property {(program: string) => void} replaceProgram Replaces the source with a program.
 * @property {(action: import("../../core/help/story.js").StoryAction) => Promise<string>} executeAction Executes the action of a story's
 *   link. Resolves to the reason why the action failed, or to "".
 * @property {(program: string) => boolean} isProgramInSource Returns true if the source is `program`.
 * @property {(target: Target) => void} reveal Brings the text or panel that contains the target of a step to the front.
 * @property {() => void} handleTourEnd Handles the end of the tour.
 */

/**
 * The functions that find the element of each target on the page.
 * @type {Record<Target, () => Element | null>}
 */
const TARGET_ELEMENTS = {
  send: () => document.querySelector("#program-editor .send"),
  key: () => document.querySelector("#keys .key"),
  margin: () => document.querySelector("#program-editor .cm-gutters"),
  ram: () => document.querySelector("#banks .ram button"),
};

export class TourView {
  /** @param {TourCalls} calls */
  constructor(calls) {
    this.calls = calls;
    this.progress = new TourProgress();
    this.isOn = false;
    this.root = block("tour");
    this.title = new Cell(block("tour-title"));
    this.textBlock = block("tour-words");
    this.program = new Cell(block("tour-program"));
    this.status = new Cell(block("tour-status"));
    this.putButton = button("tour-put");
    this.nextButton = button("tour-next");
    this.ring = new PointerRing();
    for (const name of ["tour-begin", "first-program", "hello-program"]) onClick(button(name), () => this.startTour());
    onClick(button("tour-close"), () => this.close());
    onClick(this.putButton, () => calls.replaceProgram(this.progress.step.program));
    onClick(this.nextButton, () => (this.isLastStep ? this.close() : this.show(this.progress.stepIndex + 1)));
    onClick(button("tour-back"), () => this.show(Math.max(0, this.progress.stepIndex - 1)));
  }

  async startTour() {
    if (await this.calls.openExample(TOUR_EXAMPLE)) this.open(TOUR);
  }

  /** @param {TourStep[]} steps */
  open(steps) {
    this.progress = new TourProgress(steps);
    this.isOn = true;
    this.root.hidden = false;
    this.show(0);
    this.root.focus();
  }

  close() {
    this.isOn = false;
    this.root.hidden = true;
    this.ring.hide();
    this.calls.handleTourEnd();
  }

  /** True if the panel shows an example's story, false if it shows the tour with the first program. */
  get isStory() {
    return this.progress.steps !== TOUR;
  }

  get isLastStep() {
    return this.progress.stepIndex === this.progress.steps.length - 1;
  }

  /** @param {number} index the index of the step */
  show(index) {
    this.progress.begin(index);
    const { title, paragraphs, program } = this.progress.step;
    this.title.set(say.stepOf(index + 1, this.progress.steps.length, title));
    this.textBlock.replaceChildren(...paragraphs.map((paragraph) => (
      element("p", {}, ...[paragraph].flat().map((piece) => this.makeNode(piece))))));
    this.program.set(program);
    this.program.node.hidden = program === "";
    this.putButton.hidden = program === "";
    this.nextButton.textContent = this.isLastStep ? say.FINISH : say.NEXT_STEP;
    this.showStepDone();
    this.pointAtTarget();
  }

  /**
   * Scrolls the step's target into view. Puts a ring around the element that the user needs next: first the button that inserts the
   * program, then the target, then the button for the next step. Without a target, no ring is visible.
   */
  pointAtTarget() {
    const { program, target } = this.progress.step;
    if (!target) {
      this.ring.hide();
      return;
    }
    this.calls.reveal(target);
    this.ring.pointAt(() => {
      if (this.progress.isDone) return this.nextButton;
      return program !== "" && !this.calls.isProgramInSource(program) ? this.putButton : TARGET_ELEMENTS[target]();
    });
  }

  /** @param {ParagraphPiece} piece */
  makeNode(piece) {
    if (typeof piece === "string") return piece;
    const node = element("button", { type: "button", className: "place" }, piece.linkText);
    onClick(node, async () => this.status.set(await this.calls.executeAction(piece.action)));
    return node;
  }

  showStepDone() {
    const { isDone } = this.progress;
    this.status.set(isDone ? (this.isLastStep ? say.LAST_STEP_DONE : say.DONE) : "");
    this.root.classList.toggle("done", isDone);
    this.nextButton.classList.toggle("primary", isDone);
  }

  /** @param {string} lamps one character per lamp: `*` if the lamp is on */
  handleLamps(lamps) {
    if (!this.isOn || this.progress.isDone) return;
    this.progress.recordLamps(lamps);
    this.showStepDone();
  }

  /** @param {number} keyCount the number of keys that are down */
  handleKeyCount(keyCount) {
    if (!this.isOn || this.progress.isDone) return;
    this.progress.recordKeys(keyCount);
    this.showStepDone();
  }

  /** @param {string} endReason the reason why the last run ended */
  recordRunEnd(endReason) {
    if (!this.isOn || this.progress.isDone) return;
    this.progress.recordRunEnd(endReason);
    this.showStepDone();
  }
}
