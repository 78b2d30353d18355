// The bar whose buttons move back and forward in time: by a number of instructions, or to a change of a value.

import { button, byId, element, field, onClick } from "../ui/dom.js";
import { parseGoal } from "../../core/debug/condition_search.js";
import { parseCount, indices } from "../../core/bench/numbers.js";
import * as say from "../../words/time.js";

/**
 * @typedef {import("../../core/bench/answers.js").Board} Board
 * @typedef {import("../../core/engine/past_search.js").BackGoal} BackGoal
 * @typedef {import("../../core/debug/goals.js").Goal} Goal
 */

/**
 * The callbacks of the bar.
 * @typedef {object} HistoryCalls
 * @property {(goal: Goal) => void} runToGoal Runs until a goal is reached.
 * @property {(goal: BackGoal) => void} goBack Goes back in time to a goal.
 * @property {() => void} goForward Returns to the state before the last move back.
 * @property {() => import("../../core/conditions/condition_language.js").Names} names Returns the names that conditions can use.
 * @property {(message: string) => void} showMessage Shows a message in the status line.
 */

const MAX_INSTRUCTIONS = 10000000;
/** The maximum length of an error message. Longer messages, which quote the typed text, are truncated. */
const MAX_MESSAGE_LENGTH = 200;

/**
 * Returns the names of locations to suggest for a board, such as lamps, ports and registers. The most useful names are first. The user
 * can also type other locations.
 * @param {Board} board
 * @param {string[]} lampNames the name of each lamp, or "" if the lamp has none
 */
export function suggestPlaces({ banks, roms, lamps, chains }, lampNames) {
  const rams = banks.flatMap(({ bank, chips }) => indices(chips).map((chip) => `ram${bank}.${chip}`));
  const ports = [...roms.map(({ chip }) => `rom${chip}`), ...rams];
  const lampPlaces = lamps.length > 0 ? ["lamps", ...lamps.slice(0, 16).map((_, index) => lampNames[index] || `lamp ${index}`)] : [];
  const chainPlaces = chains.map((_, index) => `chain${index}.0`);
  return [...lampPlaces, ...ports, ...chainPlaces, "acc", "cy", "dcl", ...indices(16).map((number) => `r${number}`)];
}

export class HistoryView {
  /** @param {HistoryCalls} calls */
  constructor(calls) {
    this.calls = calls;
    this.countField = field("step-count");
    this.placeField = field("change-place");
    this.forwardButton = button("forward");
    onClick(button("back-stop"), () => calls.goBack({ kind: "stop" }));
    onClick(button("back-breakpoint"), () => calls.goBack({ kind: "arrival", place: "" }));
    onClick(this.forwardButton, () => calls.goForward());
    onClick(button("step-many"), () => this.stepByCount());
    onClick(button("until-change"), () => this.useTypedGoal((goal) => calls.runToGoal(goal)));
    onClick(button("back-change"), () => this.useTypedGoal((goal) => calls.goBack(goal)));
    this.listenForEnter(this.countField, () => this.stepByCount());
    this.listenForEnter(this.placeField, () => this.useTypedGoal((goal) => calls.runToGoal(goal)));
  }

  /**
   * @param {HTMLInputElement} input
   * @param {() => void} action
   */
  listenForEnter(input, action) {
    input.addEventListener("keydown", (event) => {
      if (event.key !== "Enter") return;
      event.preventDefault();
      action();
    });
  }

  /** Restores the initial contents of the fields when another session is opened. */
  resetFields() {
    for (const input of [this.countField, this.placeField]) {
      input.value = input.defaultValue;
      input.removeAttribute("aria-invalid");
    }
  }

  /** @param {number} undoableMoves the number of moves back that can be undone */
  updateForwardButton(undoableMoves) {
    const isDisabled = undoableMoves === 0;
    if (this.forwardButton.disabled !== isDisabled) this.forwardButton.disabled = isDisabled;
  }

  /**
   * @param {Board} board
   * @param {string[]} lampNames the name of each lamp, or "" if the lamp has none
   */
  draw(board, lampNames) {
    const places = suggestPlaces(board, lampNames);
    byId("change-places", HTMLDataListElement).replaceChildren(...places.map((value) => element("option", { value })));
  }

  stepByCount() {
    const count = parseCount(this.countField.value, MAX_INSTRUCTIONS);
    this.countField.setAttribute("aria-invalid", String(count === 0));
    if (count > 0) this.calls.runToGoal({ kind: "count", count });
    else this.calls.showMessage(say.instructionCountHint(MAX_INSTRUCTIONS.toLocaleString("en")));
  }

  /** @param {(goal: NonNullable<ReturnType<typeof parseGoal>["goal"]>) => void} action */
  useTypedGoal(action) {
    const text = this.placeField.value;
    const { goal, error } = text.trim() === "" ? { goal: null, error: "" } : parseGoal(text, this.calls.names());
    this.placeField.setAttribute("aria-invalid", String(goal === null));
    if (goal) action(goal);
    else this.calls.showMessage(error === "" ? say.PLACE_MISSING : say.cannotSearchForMessage(error.slice(0, MAX_MESSAGE_LENGTH)));
  }
}
