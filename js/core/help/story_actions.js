// Runs the actions of the links in a story, the guided text of an example. Each action calls a function of the page.

import { STORY_TEXTS } from "./story.js";
import * as say from "../../words/help.js";

/**
 * @typedef {import("../board/board_keys.js").BoardKey} BoardKey
 * @typedef {import("../debug/goals.js").Goal} Goal
 * @typedef {import("../engine/past_search.js").BackGoal} BackGoal
 * @typedef {import("./story.js").StoryAction} StoryAction
 */

/**
 * The functions of the page that the actions call.
 * @typedef {object} ActionCallbacks
 * @property {(label: string) => number | undefined} addressOf Returns the address of a label of the program in ROM; undefined if there is
 *   no such label.
 * @property {() => BoardKey[]} keys Returns the keys of the displayed board.
 * @property {() => void} run Runs the machine to the next stop.
 * @property {() => Promise<void>} pause Pauses the machine. Resolves when the machine is paused.
 * @property {(goal: Goal) => Promise<void>} runToGoal Runs the machine to a goal. Resolves when a near goal is reached. If the goal is far
 *   away, resolves when the machine has started.
 * @property {(goal: BackGoal) => Promise<void>} goBack Goes back in time to a goal. Resolves when the session is at the goal.
 * @property {() => Promise<void>} goForward Undoes the last backward move: returns to the moment from which that move started.
 * @property {(address: number) => void} goTo Shows an address in the source and in the listing.
 * @property {() => boolean} isRunning Returns whether the machine runs; while it runs, key changes are queued.
 * @property {(key: BoardKey) => boolean} isDown Returns whether a key will be down after all queued changes.
 * @property {(key: BoardKey) => void} press Clicks a key: presses it, or releases it if it is down.
 * @property {(name: string) => void} showText Shows the tab with a name, such as `board`.
 * @property {(name: string) => void} showPanel Shows the panel with a name, such as `memory`.
 */

/**
 * Calls a function with the address of a label. Resolves to an error message, or "" if there is none.
 * @param {string} label
 * @param {ActionCallbacks} callbacks
 * @param {(address: number) => unknown} callback
 */
async function callWithAddress(label, callbacks, callback) {
  const address = callbacks.addressOf(label);
  if (address === undefined) return say.noLabelMessage(label);
  await callback(address);
  return "";
}

/**
 * Calls a function with the key whose text is `legend`. Returns an error message, or "" if there is none.
 * @param {string} legend
 * @param {ActionCallbacks} callbacks
 * @param {(key: BoardKey) => unknown} callback
 */
function callWithKey(legend, callbacks, callback) {
  const key = callbacks.keys().find((candidate) => candidate.legend === legend);
  if (!key) return say.noKeyMessage(legend);
  callback(key);
  return "";
}

/**
 * The functions that run the actions, by the name of the action. Each function resolves to an error message, or "" if there is none.
 * @type {Record<import("./story.js").ActionName, (argument: string, callbacks: ActionCallbacks) => Promise<string>>}
 */
const ACTIONS = {
  run: (_, callbacks) => perform(() => callbacks.run()),
  stop: (_, callbacks) => perform(() => callbacks.pause()),
  back: (_, callbacks) => perform(() => callbacks.goBack({ kind: "stop" })),
  forward: (_, callbacks) => perform(() => callbacks.goForward()),
  "go to": (argument, callbacks) => callWithAddress(argument, callbacks, (address) => callbacks.goTo(address)),
  "run to": (argument, callbacks) => callWithAddress(argument, callbacks, (address) => callbacks.runToGoal({ kind: "here", address })),
  "back to": (argument, callbacks) => perform(() => callbacks.goBack({ kind: "change", place: argument })),
  press: async (argument, callbacks) => callWithKey(argument, callbacks, (key) => (
    (callbacks.isRunning() || !callbacks.isDown(key)) && callbacks.press(key))),
  release: async (argument, callbacks) => callWithKey(argument, callbacks, (key) => callbacks.isDown(key) && callbacks.press(key)),
  show: (argument, callbacks) => perform(() => (
    STORY_TEXTS.includes(argument) ? callbacks.showText(argument) : callbacks.showPanel(argument))),
};

/**
 * Calls the function of an action that cannot fail. Always resolves to "", which means that there is no error.
 * @param {() => unknown} callback
 */
async function perform(callback) {
  await callback();
  return "";
}

/**
 * Runs the action of a link. Resolves to an error message, or "" if there is none.
 * @param {StoryAction} action
 * @param {ActionCallbacks} callbacks
 */
export function runAction({ name, argument }, callbacks) {
  return ACTIONS[name](argument, callbacks);
}
