// Properties: requirements that a program must meet for all inputs, and goals that it must be able to reach. A property receives the events
// of a walk (walks.js) in time order, and returns the time at which it is violated, or at which its goal is reached. A property has a
// memory: a list of numbers that summarises the earlier events of the walk. The memory is stored with each state, so that a walk can
// continue from that state.

import * as say from "../../words/explore.js";

/**
 * @typedef {import("../conditions/condition_language.js").Condition} Condition
 * @typedef {import("./search_inputs.js").Input} Input
 *
 * The kinds of events:
 * - `values`: the `trace` places of the property's conditions have new values;
 * - `label`: the program counter reaches an address of the property;
 * - `down`, `up`: an input goes down, or up; `reset`: the power is cut; `end`: a wait ends;
 * - `call`, `return`: a subroutine is called, or returns.
 * @typedef {"values" | "label" | "down" | "up" | "reset" | "end" | "call" | "return"} Event
 *
 * The circumstances of an event. Times are in cycles since power-on.
 * - `time`: the time of the event; `changeTime`: for `values`, the end of the first cycle of the instruction that changed the values;
 * - `address`: for `label`, the address that the program counter reaches;
 * - `holds`: true if the property's condition is true; `guardValues`: for each guard, true if its condition is true;
 * - `input`: for `down`, the name of the input that goes down; `downCount`: the number of inputs that are down;
 * - `key`: for `down` and `up`, the index of the key that goes down or up, -1 if the input is no key.
 * @typedef {{ time: number, changeTime: number, address: number, holds: boolean, guardValues: boolean[], input: string,
 *   downCount: number, key: number }} Moment
 *
 * A guard of a property. The property is checked only:
 * - `press`: for `limit` cycles after a press of the key, or without a limit if `limit` is 0;
 * - `once`: after the first moment at which the condition is true;
 * - `while`: as long as the condition is true.
 * @typedef {{ kind: "press" | "once" | "while", key: string, limit: number, condition: Condition | null }} Guard
 *
 * A property or a goal.
 * - `form`: the form of its line; `text`, `line`: its text and line number; `address`: the address of its label, -1 for none;
 * - `start`: for `within`, the address at which the time measurement starts; `limit`: the time limit in cycles; `keys`: the keys in its
 *   text;
 * - `createMemory`: returns the initial memory for a start time and inputs; `update`: updates the memory after an event, and returns the
 *   time of the violation or -1;
 * - `newStateKey`: returns the part of the memory that distinguishes states, as text;
 * - `hasApplied`: returns whether an event in the walk was relevant to the property, such as a press of its key.
 * @typedef {{ form: Form, text: string, line: number, condition: Condition | null, address: number, start: number, limit: number,
 *   isGoal: boolean, keys: string[], guards: Guard[], createMemory: (time: number, inputs: Input[]) => number[],
 *   update: (memory: number[], event: Event, moment: Moment) => number, newStateKey: (memory: number[]) => string,
 *   hasApplied: (memory: number[]) => boolean }} Property
 * @typedef {"never" | "always" | "never for" | "at" | "only after" | "every" | "within" | "after press" | "once" | "no press"
 *   | "reach" | "reach at" | "model" | "code" | "calls" | "returns" | "mistake"} Form
 */

/** The value of a time or address that does not exist. */
const UNSET = -1;
/** The maximum number of open calls: the 4004 stores three return addresses. */
const MAX_OPEN_CALLS = 3;

/** @type {Omit<Property, "form" | "text">} the default values of properties */
const DEFAULT_PROPERTY = {
  line: 0, condition: null, address: UNSET, start: UNSET, limit: 0, isGoal: false, keys: [], guards: [], createMemory: () => [],
  update: () => UNSET, newStateKey: () => "", hasApplied: () => true,
};

/**
 * Returns a condition for a property. If the condition is only a label or `pc = ADDRESS`, returns the address instead: the condition is
 * true whenever the program counter reaches the address.
 * @param {Condition} condition
 * @returns {Pick<Property, "condition" | "address">}
 */
function toConditionOrAddress(condition) {
  return condition.address >= 0 ? { condition: null, address: condition.address } : { condition, address: UNSET };
}

/**
 * Returns whether an event reports that the condition is true.
 * @param {Event} event
 * @param {Moment} moment
 */
const isReportedTrue = (event, { holds }) => event === "label" || (event === "values" && holds);

/** @type {Property["update"]} returns the time of the event if the condition is true */
const violationWhenTrue = (_, event, moment) => (isReportedTrue(event, moment) ? moment.time : UNSET);
/** @type {Property["update"]} returns the time of the event if the condition is false */
const violationWhenFalse = (_, event, { time, holds }) => (event === "values" && !holds ? time : UNSET);

/**
 * Creates the property that a condition is never true.
 * @param {string} text
 * @param {Condition} condition
 * @returns {Property}
 */
export function neverProperty(text, condition) {
  return { ...DEFAULT_PROPERTY, form: "never", text, ...toConditionOrAddress(condition), update: violationWhenTrue };
}

/**
 * Creates the property that a condition is always true.
 * @param {string} text
 * @param {Condition} condition
 * @returns {Property}
 */
export function alwaysProperty(text, condition) {
  return { ...DEFAULT_PROPERTY, form: "always", text, condition, update: violationWhenFalse };
}

/**
 * Creates the property that a condition is never true for more than `limit` consecutive cycles. Memory: the time at which the condition
 * became true; -1 while it is false.
 * @param {string} text
 * @param {Condition} condition
 * @param {number} limit
 * @returns {Property}
 */
export function neverForProperty(text, condition, limit) {
  return {
    ...DEFAULT_PROPERTY, form: "never for", text, condition, limit, createMemory: () => [UNSET],
    update: (memory, event, { time, changeTime, holds }) => {
      const [since] = memory;
      const lastTrueTime = event === "values" && !holds ? changeTime - 1 : time;
      if (event === "reset") memory[0] = UNSET;
      else if (since !== UNSET && lastTrueTime - since >= limit) return since + limit;
      else if (event === "values" && (since === UNSET) === holds) memory[0] = holds ? changeTime : UNSET;
      return UNSET;
    },
  };
}

/**
 * Creates the property that a condition is true whenever the program counter reaches a label. Memory: 1 if the label was reached.
 * @param {string} text
 * @param {Condition} condition
 * @param {number} address
 * @returns {Property}
 */
export function atProperty(text, condition, address) {
  return {
    ...DEFAULT_PROPERTY, form: "at", text, condition, address, createMemory: () => [0], hasApplied: ([wasReached]) => wasReached > 0,
    update: (memory, event, { time, holds }) => {
      if (event !== "label") return UNSET;
      memory[0] = 1;
      return holds ? UNSET : time;
    },
  };
}

/**
 * Creates the property that a condition becomes true only after the given keys were pressed in order. After the condition was true, the
 * keys must be pressed again. Memory: the number of these presses so far; 1 if the condition is true; and 1 if it was ever true.
 * @param {string} text
 * @param {Condition} condition
 * @param {string[]} keys
 * @returns {Property}
 */
export function onlyAfterProperty(text, condition, keys) {
  return {
    ...DEFAULT_PROPERTY, form: "only after", text, ...toConditionOrAddress(condition), keys, createMemory: () => [0, 0, 0],
    hasApplied: ([, , wasTrue]) => wasTrue > 0,
    newStateKey: ([pressCount]) => `${pressCount}`,
    update: (memory, event, moment) => {
      if (event === "reset") memory.fill(0, 0, 2);
      else if (event === "down" && moment.input === keys[memory[0]]) memory[0] += 1;
      else if (isReportedTrue(event, moment)) {
        if (!memory[1] && memory[0] < keys.length) return moment.time;
        memory[1] = memory[2] = 1;
        // The program counter is at the label only for a moment, so the condition is already false again.
        if (event === "label") memory.fill(0, 0, 2);
      } else if (event === "values" && memory[1]) memory.fill(0, 0, 2);
      return UNSET;
    },
  };
}

/**
 * Creates the property that the program counter reaches a label repeatedly, each time within `limit` cycles. Memory: the time at which the
 * label was last reached.
 * @param {string} text
 * @param {number} address
 * @param {number} limit
 * @returns {Property}
 */
export function everyProperty(text, address, limit) {
  return {
    ...DEFAULT_PROPERTY, form: "every", text, address, limit, createMemory: (time) => [time],
    update: (memory, event, { time }) => {
      if (event !== "reset" && time - memory[0] > limit) return memory[0] + limit;
      if (event === "label" || event === "reset") [memory[0]] = [time];
      return UNSET;
    },
  };
}

/**
 * Creates the property that the program counter reaches the label at `address` within `limit` cycles after the label at `start`. Memory:
 * the time at which the label at `start` was reached, -1 if the property is not waiting for `address`; and 1 if `start` was ever reached.
 * @param {string} text
 * @param {number} start
 * @param {number} address
 * @param {number} limit
 * @returns {Property}
 */
export function withinProperty(text, start, address, limit) {
  return {
    ...DEFAULT_PROPERTY, form: "within", text, start, address, limit, createMemory: () => [UNSET, 0],
    hasApplied: ([, wasAwaited]) => wasAwaited > 0,
    update: (memory, event, { time, address: reachedAddress }) => {
      const [since] = memory;
      if (event === "reset") memory[0] = UNSET;
      else if (since !== UNSET && time - since > limit) return since + limit;
      if (event !== "label") return UNSET;
      if (reachedAddress === address) memory[0] = UNSET;
      if (reachedAddress === start) {
        memory[1] = 1;
        if (memory[0] === UNSET) [memory[0]] = [time];
      }
      return UNSET;
    },
  };
}

/**
 * Returns the addresses of the labels in a property.
 * @param {Property} property
 */
export const listAddresses = ({ address, start }) => [address, start].filter((candidate) => candidate >= 0);

/**
 * Creates the property that a condition becomes true within `limit` cycles after a key press. Memory: the time of the press, -1 if the
 * property is not waiting for the condition; 1 if the key was ever pressed; and 1 if the condition is true.
 * @param {string} text
 * @param {string} key
 * @param {Condition} condition
 * @param {number} limit
 * @returns {Property}
 */
export function afterPressProperty(text, key, condition, limit) {
  return {
    ...DEFAULT_PROPERTY, form: "after press", text, ...toConditionOrAddress(condition), limit, keys: [key],
    createMemory: () => [UNSET, 0, 0],
    hasApplied: ([, wasAwaited]) => wasAwaited > 0,
    update: (memory, event, moment) => {
      const [since] = memory;
      const { time, holds, input } = moment;
      if (event === "values") memory[2] = holds ? 1 : 0;
      if (event === "reset" || (since !== UNSET && isReportedTrue(event, moment) && time <= since + limit)) memory[0] = UNSET;
      else if (since !== UNSET && time > since + limit) return since + limit;
      if (event === "down" && input === key) {
        memory[1] = 1;
        if (memory[0] === UNSET && !memory[2]) [memory[0]] = [time];
      }
      return UNSET;
    },
  };
}

/**
 * Creates the property that the program counter reaches a label at most once per press. Memory: the number of presses minus the number of
 * times that the label was reached; and 1 if the label was ever reached. The inputs that are down at the start count as presses.
 * @param {string} text
 * @param {number} address
 * @returns {Property}
 */
export function oncePerPressProperty(text, address) {
  return {
    ...DEFAULT_PROPERTY, form: "once", text, address, createMemory: (_, inputs) => [inputs.filter(({ isDown }) => isDown).length, 0],
    hasApplied: ([, wasReached]) => wasReached > 0,
    update: (memory, event, { time, downCount }) => {
      if (event === "reset") memory[0] = downCount;
      else if (event === "down") memory[0] += 1;
      else if (event === "label") {
        memory[1] = 1;
        memory[0] -= 1;
        if (memory[0] < 0) return time;
      }
      return UNSET;
    },
  };
}

/**
 * Creates the property that the program counter reaches a label only after some key was down for at least `limit` cycles without
 * interruption. Memory: 1 if a key was down for that long since power-on; and for each input, the time at which the key went down. This
 * time is -1 for a key that is up and for an input that is no key. For a key that is down at the start or at a power cycle, this is the
 * time of the start or of the power cycle.
 * @param {string} text
 * @param {number} address
 * @param {number} limit
 * @returns {Property}
 */
export function noPressProperty(text, address, limit) {
  return {
    ...DEFAULT_PROPERTY, form: "no press", text, address, limit,
    createMemory: (_, inputs) => [0, ...inputs.map(({ isDown, canBePressed }) => (isDown && canBePressed ? 0 : UNSET))],
    newStateKey: ([hadLongPress]) => `${hadLongPress}`,
    update: (memory, event, { time, key }) => {
      const pressTimes = memory.slice(1);
      if (pressTimes.some((pressTime) => pressTime !== UNSET && time - pressTime >= limit)) memory[0] = 1;
      if (event === "reset") memory.splice(0, memory.length, 0, ...pressTimes.map((pressTime) => (pressTime === UNSET ? UNSET : time)));
      else if (key !== UNSET) memory[key + 1] = event === "down" ? time : UNSET;
      return event === "label" && memory[0] === 0 ? time : UNSET;
    },
  };
}

/**
 * Creates the goal that a condition becomes true.
 * @param {string} text
 * @param {Condition} condition
 * @returns {Property}
 */
export function reachProperty(text, condition) {
  return { ...DEFAULT_PROPERTY, form: "reach", text, condition, isGoal: true, update: violationWhenTrue };
}

/**
 * Creates the goal that the program counter reaches an address.
 * @param {string} text
 * @param {number} address
 * @returns {Property}
 */
export function reachAddressProperty(text, address) {
  return {
    ...DEFAULT_PROPERTY, form: "reach at", text, address, isGoal: true,
    update: (_, event, { time }) => (event === "label" ? time : UNSET),
  };
}

/** The property forms that can have a guard. */
export const GUARDABLE_FORMS = new Set(["never", "never for", "always", "at", "after press", "reach", "reach at"]);

/**
 * Returns the memory of a guard after an event. For a `press` guard, this is the time of the last press; for a `once` guard, the time at
 * which the guard opened. For a `while` guard, it is the time of the last event at which the guard was open. The memory is UNSET before a
 * `press` or `once` guard first opens, and while a `while` guard is closed.
 * @param {Guard} guard
 * @param {number} openSince the memory of the guard before the event
 * @param {Event} event
 * @param {Moment} moment
 * @param {boolean} holds true if the condition of the guard is true
 */
function updateGuard({ kind, key }, openSince, event, { time, input }, holds) {
  if (event === "reset") return UNSET;
  if (kind === "press") return event === "down" && input === key ? time : openSince;
  if (event !== "values" && event !== "label" && event !== "down") return openSince;
  if (kind === "once") return openSince === UNSET && holds ? time : openSince;
  return holds ? time : UNSET;
}

/**
 * Returns the last cycle at which a guard is open; Infinity without a limit; UNSET if the guard has not opened.
 * @param {Guard} guard
 * @param {number} openSince the memory of the guard
 */
function findLastOpenCycle({ kind, limit }, openSince) {
  if (openSince === UNSET) return UNSET;
  return kind === "press" && limit > 0 ? openSince + limit : Infinity;
}

/**
 * Reports an event to a property with guards. Returns the time of the violation, or UNSET.
 * @param {Property} property
 * @param {number[]} memory
 * @param {Event} event
 * @param {Moment} moment
 * @param {boolean} isOpen true if all guards are open
 */
function notifyGuarded({ form, update, keys }, memory, event, moment, isOpen) {
  if (form === "never for") return update(memory, event, { ...moment, holds: moment.holds && isOpen });
  // The guards must be open when the key is pressed. They need not be open when the condition becomes true.
  if (form === "after press") return event === "down" && moment.input === keys[0] && !isOpen ? UNSET : update(memory, event, moment);
  return isOpen || event === "reset" ? update(memory, event, moment) : UNSET;
}

/**
 * Creates a property that is checked only while all guards are open. Memory: the memory of each guard; 1 once all guards have been open at
 * the same time; and the memory of the original property.
 * @param {string} text
 * @param {Property} property
 * @param {Guard[]} guards
 * @returns {Property}
 */
export function guardedProperty(text, property, guards) {
  const originalStart = guards.length + 1;
  return {
    ...property, text, guards,
    createMemory: (time, inputs) => [...guards.map(() => UNSET), 0, ...property.createMemory(time, inputs)],
    newStateKey: (memory) => (
      guards.map((_, index) => (memory[index] === UNSET ? "-" : "+")).join("") + property.newStateKey(memory.slice(originalStart))),
    hasApplied: (memory) => memory[originalStart - 1] > 0 && property.hasApplied(memory.slice(originalStart)),
    update: (memory, event, moment) => {
      const originalMemory = memory.slice(originalStart);
      const lastOpenCycle = Math.min(...guards.map((guard, index) => findLastOpenCycle(guard, memory[index])));
      // When a guard closes, the condition no longer counts as true.
      const hasClosed = property.form === "never for" && lastOpenCycle < moment.time && lastOpenCycle !== UNSET;
      const closingMoment = { ...moment, time: lastOpenCycle + 1, changeTime: lastOpenCycle + 1, holds: false };
      let violationTime = hasClosed ? property.update(originalMemory, "values", closingMoment) : UNSET;
      guards.forEach((guard, index) => {
        memory[index] = updateGuard(guard, memory[index], event, moment, moment.guardValues[index] === true);
      });
      const isOpen = guards.every((guard, index) => memory[index] !== UNSET && moment.time <= findLastOpenCycle(guard, memory[index]));
      if (isOpen) memory[originalStart - 1] = 1;
      if (violationTime === UNSET) violationTime = notifyGuarded(property, originalMemory, event, moment, isOpen);
      memory.splice(originalStart, originalMemory.length, ...originalMemory);
      return violationTime;
    },
  };
}

/**
 * Creates the property that the display shows the text that an external command computes. The property receives no events.
 * @param {string} text
 * @returns {Property}
 */
export function modelProperty(text) {
  return { ...DEFAULT_PROPERTY, form: "model", text };
}

/**
 * Updates a memory that consists of the number of open calls.
 * @param {number[]} memory
 * @param {Event} event
 */
function updateOpenCalls(memory, event) {
  if (event === "reset") memory[0] = 0;
  else if (event === "call") memory[0] += 1;
  else if (event === "return") memory[0] -= 1;
}

/**
 * Creates the properties that are checked for every program.
 * @returns {Property[]}
 */
export function standardProperties() {
  return [
    { ...DEFAULT_PROPERTY, form: "code", text: say.ONLY_INSTRUCTION_CODES },
    {
      ...DEFAULT_PROPERTY, form: "calls", text: say.NO_FOURTH_CALL, createMemory: () => [0],
      update: (memory, event, { time }) => {
        updateOpenCalls(memory, event);
        return memory[0] > MAX_OPEN_CALLS ? time : UNSET;
      },
    },
    {
      ...DEFAULT_PROPERTY, form: "returns", text: say.NO_RETURN_WITHOUT_CALL, createMemory: () => [0],
      update: (memory, event, { time }) => {
        updateOpenCalls(memory, event);
        // The property `calls` reports a fourth call. The return from that call does not count as a return without a call.
        memory[0] = Math.min(memory[0], MAX_OPEN_CALLS);
        return memory[0] < 0 ? time : UNSET;
      },
    },
  ];
}
