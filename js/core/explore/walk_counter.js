// Determines, from the answers to `count`, the executed code of a walk and its number of open calls, which snapshots do not show. This is
// much faster than watching the walk (walk_watcher.js), but cannot determine the memory of a property that depends on the times of events.

import { isCall, isReturn } from "../engine/rom_codes.js";
import { PlaceAnswers } from "./place_queries.js";
import { updateDownInputs, formatChangeLine } from "./walks.js";

/**
 * @typedef {import("./properties.js").Property} Property
 * @typedef {import("./walks.js").WalkStep} WalkStep
 * @typedef {import("./walk_watcher.js").StepState} StepState
 * @typedef {import("./walk_watcher.js").WalkStart} WalkStart
 */

/** The memory of a `never for` property whose condition is false. */
const FALSE_CONDITION_MEMORY = [-1];
/** The forms of properties whose memory the counts and snapshots can determine, if the properties have no guards. */
const COUNTABLE_FORMS = new Set(["code", "never", "always", "never for", "reach", "reach at", "model", "calls", "returns"]);

/**
 * Returns whether snapshots and counts are sufficient to determine the memories of the open properties. Snapshots do not show how long a
 * condition has been true. For a `never for` property, they are sufficient only while its condition is false.
 * @param {Property[]} properties
 * @param {number[]} openProperties the indices of the properties that are not decided yet
 * @param {boolean[][]} holds true if the condition is true after a step, by step and property
 */
export function isCountingSufficient(properties, openProperties, holds) {
  return openProperties.every((at) => {
    const { form, guards } = properties[at];
    return COUNTABLE_FORMS.has(form) && guards.length === 0 && !(form === "never for" && holds.some((stepHolds) => stepHolds[at]));
  });
}

/**
 * Returns the memory of a property after a step.
 * @param {Property} property
 * @param {number[]} memory
 * @param {WalkStep} step
 * @param {number} openedCalls the number of calls minus the number of returns in the step
 */
function updateMemory({ form }, memory, { kind }, openedCalls) {
  if (form === "calls" || form === "returns") return [kind === "reset" ? 0 : memory[0] + openedCalls];
  return form === "never for" ? FALSE_CONDITION_MEMORY : memory;
}

/**
 * Returns the state after each step of a walk. Adds the executed code to the coverage.
 * @param {Pick<import("./walk_watcher.js").Watcher, "subject" | "campaign"> & { coverage: import("./search_coverage.js").Coverage }} search
 * @param {WalkStart} start
 * @param {WalkStep[]} steps
 * @returns {StepState[]}
 */
export function countWalk({ subject: { engine, codes }, campaign, coverage }, start, steps) {
  const lines = steps.map((step) => `count ${step.wait}\nrun ${step.wait}\n${formatChangeLine(campaign, step)}`).join("");
  const placeAnswers = new PlaceAnswers(engine.ask(start.file, lines).answers);
  let { time, downInputs, memories } = start;
  return steps.map((step) => {
    const counts = placeAnswers.takeCountsIfAny();
    placeAnswers.skip(step.kind === "none" ? 1 : 2);
    let openedCalls = 0;
    for (const { address, startCount } of counts) {
      if (isCall(codes[address])) openedCalls += startCount;
      else if (isReturn(codes[address])) openedCalls -= startCount;
    }
    time += step.wait;
    downInputs = updateDownInputs(downInputs, step);
    memories = memories.map((memory, at) => updateMemory(campaign.properties[at], memory, step, openedCalls));
    return { time, downInputs, memories, isNew: coverage.add(counts) };
  });
}
