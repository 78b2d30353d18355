// Creates and checks walks. A walk is a sequence of steps; a step is a wait, followed by a change of an input or a power cycle.

import { formatRunLines } from "../engine/key_queue.js";

/**
 * @typedef {import("./campaign.js").Campaign} Campaign
 *
 * A step of a walk: a wait in cycles, followed by a change. An input goes down or up, the power is cut ("reset"), or nothing changes
 * ("none"). `input` is the index of the input, -1 for none.
 * @typedef {{ wait: number, kind: "down" | "up" | "reset" | "none", input: number }} WalkStep
 *
 * @typedef {() => number} Random returns a number from 0 up to, but not including, 1
 */

/**
 * Returns a random number generator (mulberry32). The same seed gives the same numbers.
 * @param {number} seed
 * @returns {Random}
 */
export function createRandom(seed) {
  let state = seed >>> 0;
  return () => {
    state = (state + 0x6D2B79F5) >>> 0;
    let mixedBits = Math.imul(state ^ (state >>> 15), state | 1);
    mixedBits ^= mixedBits + Math.imul(mixedBits ^ (mixedBits >>> 7), mixedBits | 61);
    return ((mixedBits ^ (mixedBits >>> 14)) >>> 0) / 4294967296;
  };
}

/**
 * Returns a random integer from 0 up to, but not including, `limit`.
 * @param {Random} random
 * @param {number} limit
 */
export function randomBelow(random, limit) {
  return Math.floor(random() * limit);
}

/**
 * Returns the indices of the inputs that are down in the start state.
 * @param {Campaign} campaign
 */
export function initialDownInputs({ inputs }) {
  return inputs.flatMap(({ isDown }, at) => (isDown ? [at] : []));
}

/** The fraction of waits with the maximum length. The lengths of all other waits are distributed evenly on a logarithmic scale. */
const LONGEST_WAIT_SHARE = 0.6;
/** The fraction of steps that are power cycles. */
const RESET_SHARE = 0.02;

/**
 * Returns a random wait in cycles.
 * @param {Campaign} campaign
 * @param {Random} random
 */
function chooseWait({ minWait, maxWait }, random) {
  return random() < LONGEST_WAIT_SHARE ? maxWait : Math.round(minWait * (maxWait / minWait) ** random());
}

/**
 * Returns a random step. If an input would exceed the maximum hold time, the step releases it.
 * @param {Campaign} campaign
 * @param {number[]} downInputs the indices of the inputs that are down
 * @param {number[]} ages the cycles since the last change of each input
 * @param {Random} random
 * @returns {WalkStep}
 */
export function chooseStep(campaign, downInputs, ages, random) {
  const wait = chooseWait(campaign, random);
  if (campaign.maxHoldTime === Infinity || downInputs.length === 0) return chooseChange(campaign, downInputs, ages, wait, random);
  const timesLeft = downInputs.map((at) => campaign.maxHoldTime - ages[at]);
  const nextToRelease = timesLeft.indexOf(Math.min(...timesLeft));
  // A random change is allowed if there is still enough time afterwards to release all inputs one after another.
  const releaseDuration = campaign.minWait * downInputs.length;
  if (timesLeft[nextToRelease] >= wait + releaseDuration) return chooseChange(campaign, downInputs, ages, wait, random);
  // Inputs that must go up at the same time go up one after another, one cycle apart.
  const releaseTimes = [...timesLeft].sort((one, other) => one - other).map((cycles, turn) => cycles - turn);
  return { wait: Math.max(1, Math.min(wait, ...releaseTimes)), kind: "up", input: downInputs[nextToRelease] };
}

/**
 * Returns a step with a random change after a wait of `wait` cycles.
 * @param {Campaign} campaign
 * @param {number[]} downInputs the indices of the inputs that are down
 * @param {number[]} ages the cycles since the last change of each input
 * @param {number} wait
 * @param {Random} random
 * @returns {WalkStep}
 */
function chooseChange(campaign, downInputs, ages, wait, random) {
  const { inputs, maxKeysDown, canReset, minReleaseTime } = campaign;
  if (canReset && random() < RESET_SHARE) return { wait, kind: "reset", input: -1 };
  if (inputs.length === 0) return { wait, kind: "none", input: -1 };
  const isFull = downInputs.reduce((sum, at) => sum + Number(inputs[at].isKey), 0) >= maxKeysDown;
  if (downInputs.length > 0 && random() < 0.5) return { wait, kind: "up", input: downInputs[randomBelow(random, downInputs.length)] };
  const isBlocked = (/** @type {boolean} */ isKey, /** @type {number} */ at) => (
    downInputs.includes(at) || (isKey && isFull) || ages[at] + wait < minReleaseTime);
  const freeInputs = inputs.flatMap(({ isKey }, at) => (isBlocked(isKey, at) ? [] : [at]));
  if (freeInputs.length === 0 && downInputs.length === 0) return { wait, kind: "none", input: -1 };
  if (freeInputs.length === 0) return { wait, kind: "up", input: downInputs[randomBelow(random, downInputs.length)] };
  return { wait, kind: "down", input: freeInputs[randomBelow(random, freeInputs.length)] };
}

/**
 * Returns the age of each input in the start state, which is the number of cycles since its last change: 0 if the input is down, otherwise
 * Infinity.
 * @param {Campaign} campaign
 */
export function createInitialAges({ inputs }) {
  return inputs.map(({ isDown }) => (isDown ? 0 : Infinity));
}

/**
 * Returns the age of each input after a step: the number of cycles since its last change.
 * @param {number[]} ages
 * @param {WalkStep} step
 */
export function updateAges(ages, { wait, input }) {
  return ages.map((cycles, at) => (at === input ? 0 : cycles + wait));
}

/**
 * Returns the indices of the inputs that are down after a step.
 * @param {number[]} downInputs
 * @param {WalkStep} step
 */
export function updateDownInputs(downInputs, { kind, input }) {
  if (kind === "down") return [...downInputs, input];
  return kind === "up" ? downInputs.filter((at) => at !== input) : downInputs;
}

/**
 * Returns the index of the key that goes down or up after a step; -1 if there is none.
 * @param {Pick<Campaign, "inputs">} campaign
 * @param {WalkStep} step
 */
export function findChangedKey({ inputs }, { kind, input }) {
  return (kind === "down" || kind === "up") && inputs[input].canBePressed ? input : -1;
}

/**
 * Returns whether a campaign allows steps from the start state. An input can go down only if it is up, and up only if it is down. The steps
 * must respect the limits on the number of keys that are down, on hold times and on release times.
 * @param {Campaign} campaign
 * @param {WalkStep[]} steps
 */
export function areStepsAllowed(campaign, steps) {
  let downInputs = initialDownInputs(campaign);
  let ages = createInitialAges(campaign);
  for (const step of steps) {
    if (step.kind === "down" && (downInputs.includes(step.input) || ages[step.input] + step.wait < campaign.minReleaseTime)) return false;
    if (step.kind === "up" && !downInputs.includes(step.input)) return false;
    if (step.wait > findLongestWait(campaign, downInputs, ages)) return false;
    ages = updateAges(ages, step);
    downInputs = updateDownInputs(downInputs, step);
    if (downInputs.filter((at) => campaign.inputs[at].isKey).length > campaign.maxKeysDown) return false;
  }
  return true;
}

/**
 * Returns the longest wait after which no input exceeds the maximum hold time; Infinity if no input is down.
 * @param {Campaign} campaign
 * @param {number[]} downInputs
 * @param {number[]} ages
 */
function findLongestWait({ maxHoldTime }, downInputs, ages) {
  return Math.min(...downInputs.map((at) => maxHoldTime - ages[at]));
}

/**
 * Returns the longest allowed wait after steps from the start state.
 * @param {Campaign} campaign
 * @param {WalkStep[]} steps
 */
export function findLongestWaitAfter(campaign, steps) {
  const downInputs = steps.reduce(updateDownInputs, initialDownInputs(campaign));
  return findLongestWait(campaign, downInputs, steps.reduce(updateAges, createInitialAges(campaign)));
}

/**
 * Returns the bench line for the change in a step, with its line feed; "" if there is no change.
 * @param {Pick<Campaign, "inputs">} campaign
 * @param {WalkStep} step
 */
export function formatChangeLine({ inputs }, { kind, input }) {
  if (kind === "none") return "";
  return kind === "reset" ? "reset\n" : `${kind === "down" ? inputs[input].downLine : inputs[input].upLine}\n`;
}

/**
 * Returns the bench lines that execute steps.
 * @param {Campaign} campaign
 * @param {WalkStep[]} steps
 */
export function formatWalkLines(campaign, steps) {
  return steps.map((step) => formatRunLines(step.wait) + formatChangeLine(campaign, step)).join("");
}
