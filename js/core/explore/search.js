// Searches for violations by random walks that start at stored states. For most walks, the search only reads a snapshot after each step. If
// a walk reaches a new state, the search repeats the walk to count its instructions (walk_counter.js). The search watches a walk
// instruction by instruction (walk_watcher.js) if the walk executes code for the first time or may violate a property. It also does so if a
// property needs more data, and for one in WATCH_INTERVAL walks as a sample.

import { countWalk, isCountingSufficient } from "./walk_counter.js";
import { Coverage } from "./search_coverage.js";
import { DeltaFiles } from "./delta_files.js";
import { PlaceReader } from "./place_reader.js";
import { Conditions, PlaceAnswers, listConditions } from "./place_queries.js";
import { listAddresses } from "./properties.js";
import {
  chooseStep, findChangedKey, updateDownInputs, initialDownInputs, formatChangeLine, formatWalkLines, createRandom,
} from "./walks.js";
import { updateAges, createInitialAges, randomBelow } from "./walks.js";
import { Watcher } from "./walk_watcher.js";
import { MAX_ENABLED_BREAKPOINTS } from "../debug/breakpoints.js";
import { MAX_RUN_CYCLES, formatRunLines } from "../engine/key_queue.js";

/**
 * @typedef {import("./campaign.js").Campaign} Campaign
 * @typedef {import("./properties.js").Property} Property
 * @typedef {import("./subject.js").Subject} Subject
 * @typedef {import("./walks.js").WalkStep} WalkStep
 * @typedef {import("./delta_files.js").FileDelta} FileDelta
 *
 * A stored state: its session file (`delta`), its time in cycles, the steps from its parent, and how many walks have started at it
 * (`resumeCount`). `downInputs` are the inputs that are down, `ages` are the cycles since the last change of each input, and `memories` are
 * the memories of the properties. `depth` is the number of steps from the start state.
 * @typedef {{ delta: FileDelta, time: number, downInputs: number[], ages: number[], memories: number[][], parent: State | null,
 *   steps: WalkStep[], depth: number, resumeCount: number }} State
 *
 * The violation of a property, or the arrival at a goal: the index of the property, the steps from the start state, and the time in cycles.
 * @typedef {{ property: number, steps: WalkStep[], time: number }} Violation
 *
 * A snapshot of the state after a step. `notedValues` are the values of the noted `trace` places. For each property, `holds` says whether
 * its condition is true, and `guardValues` says which of its guard conditions are true.
 * @typedef {{ notedValues: string, holds: boolean[], guardValues: boolean[][] }} Snapshot
 */

const MAX_WALK_STEPS = 16;
/** The maximum number of steps from the start state to a stored state. */
const MAX_DEPTH = 120;
const MAX_STATES = 20000;
const MAX_SNAPSHOTS = 200000;
/** One in WATCH_INTERVAL walks is watched even if the walk reaches no new state. */
const WATCH_INTERVAL = 32;
/**
 * The number of stored states that are picked at random for each walk. Of these states, the walk starts at the one where the fewest walks
 * have started.
 */
const CANDIDATE_COUNT = 3;
/** The mean number of states that were stored after a recent state. Half of all walks start at a recent state. */
const MEAN_STATES_BACK = 6;

export class Search {
  /**
   * @param {Subject} subject
   * @param {Campaign} campaign
   * @param {number} seed
   */
  constructor(subject, campaign, seed) {
    this.subject = subject;
    this.campaign = campaign;
    this.random = createRandom(seed);
    this.coverage = new Coverage();
    this.watcher = new Watcher(subject, campaign, this.coverage);
    const conditionPlaces = campaign.properties.flatMap(listConditions).flatMap((condition) => (condition ? condition.places : []));
    this.places = new PlaceReader([...campaign.notedPlaces, ...conditionPlaces], subject.names.board);
    this.notedIndexes = this.places.findIndexes(campaign.notedPlaces);
    this.conditions = campaign.properties.map((property) => new Conditions(property, this.places));
    /** @type {number[]} the indices of the properties for which the search still looks for a violation */
    this.openProperties = campaign.properties.flatMap(({ form }, at) => (form === "model" ? [] : [at]));
    /** @type {Set<number>} the indices of the properties to which at least one event of a walk was relevant */
    this.appliedProperties = new Set();
    this.steps = 0;
    this.walks = 0;
    /** @type {Map<string, Snapshot>} the cached snapshots, by row of values */
    this.snapshots = new Map();
    /** @type {Set<string>} the keys of all states so far; see `recordIfNew` */
    this.seenKeys = new Set();
    /** The start state of the search, at which the check of the properties begins. */
    this.start = this.createStart();
    this.files = new DeltaFiles(this.start.file);
    const { file, time, downInputs, memories } = this.start;
    /** @type {State[]} */
    this.states = [{ delta: this.files.encode(file), time, downInputs, ages: createInitialAges(campaign), memories, parent: null, steps: [],
      depth: 0, resumeCount: 0 }];
  }

  /** The number of different states so far. */
  get stateCount() {
    return this.seenKeys.size;
  }

  /** @returns {import("./walk_watcher.js").WalkStart} the start state, at which the check of the properties begins */
  createStart() {
    const { subject, campaign: { checkStart, properties, inputs } } = this;
    const file = subject.file.slice();
    const downInputs = initialDownInputs(this.campaign);
    const { min, max } = this.campaign.calls;
    const memories = properties.map(({ createMemory, form }) => (
      form === "calls" ? [min] : form === "returns" ? [max] : createMemory(checkStart, inputs)));
    if (checkStart > 0) {
      subject.engine.serve(file, formatRunLines(checkStart), file);
      this.setCallMemories(memories);
    }
    return { file, time: checkStart, downInputs, memories };
  }

  /**
   * Sets the memories of the call properties to the number of calls that have not returned in the start state.
   * @param {number[][]} memories
   */
  setCallMemories(memories) {
    const { watcher, campaign: { checkStart }, subject: { file } } = this;
    /** @type {WalkStep[]} */
    const steps = [];
    for (let remaining = checkStart; remaining > 0; remaining -= MAX_RUN_CYCLES) {
      steps.push({ wait: Math.min(remaining, MAX_RUN_CYCLES), kind: "none", input: -1 });
    }
    const startMemories = memories.map((memory, at) => (watcher.callProperties.includes(at) ? memory : memory.map(() => 0)));
    const start = { file, time: 0, downInputs: [], memories: startMemories };
    const { stepStates } = watcher.watch(start, steps, []);
    const lastStepState = stepStates[stepStates.length - 1];
    for (const at of watcher.callProperties) memories[at] = lastStepState ? lastStepState.memories[at] : [0];
  }

  /**
   * Makes random walks for a number of milliseconds, or until a walk finds a violation. Returns this violation; null if there is none.
   * @param {number} milliseconds
   * @returns {Violation | null}
   */
  walkFor(milliseconds) {
    const end = performance.now() + milliseconds;
    do {
      const violation = this.walk();
      if (violation) return violation;
    } while (performance.now() < end);
    return null;
  }

  /**
   * Makes a random walk from a stored state, and stores the new states that it reaches.
   * @returns {Violation | null} the first violation in the walk; null if there is none
   */
  walk() {
    const state = this.pickState();
    const steps = this.chooseSteps(state);
    this.walks += 1;
    this.steps += steps.length;
    const file = this.restoreFile(state);
    const { newSteps, isSuspect, snapshots } = this.examineWalk(file, state, steps);
    const isWatched = isSuspect || this.walks % WATCH_INTERVAL === 1;
    if (newSteps.length === 0 && !isWatched) return null;
    const start = { ...state, file };
    const { violation, stepStates } = isWatched ? this.watcher.watch(start, steps, this.openProperties)
      : this.rerunWalk(start, steps, newSteps, snapshots);
    if (stepStates.length > 0) this.recordAppliedProperties(stepStates[stepStates.length - 1].memories);
    stepStates.forEach(({ isNew }, at) => {
      if (isNew && !newSteps.includes(at)) newSteps.push(at);
    });
    this.storeStates(state, file, steps, stepStates, newSteps.filter((at) => at < stepStates.length).sort((one, other) => one - other));
    if (!violation) return null;
    return { property: violation.property, steps: [...collectSteps(state), ...steps.slice(0, violation.step)], time: violation.time };
  }

  /**
   * Repeats a walk up to its last new state to determine the memories of the properties. Uses instruction counts if they are sufficient and
   * the walk executes no code for the first time. Otherwise, watches the walk. Returns the first violation, if any, and the state after
   * each complete step.
   * @param {import("./walk_watcher.js").WalkStart} start
   * @param {WalkStep[]} steps
   * @param {number[]} newSteps the indices of the steps after which the state is new; this method adds the steps that execute code for the
   *   first time
   * @param {Snapshot[]} snapshots
   */
  rerunWalk(start, steps, newSteps, snapshots) {
    const { campaign: { properties }, openProperties, watcher } = this;
    const walkPart = steps.slice(0, Math.max(...newSteps) + 1);
    if (isCountingSufficient(properties, openProperties, newSteps.map((at) => snapshots[at].holds))) {
      const stepStates = countWalk(this, start, walkPart);
      const newCodeSteps = [...stepStates.keys()].filter((at) => stepStates[at].isNew);
      if (newCodeSteps.length === 0) return { violation: null, stepStates };
      for (const at of newCodeSteps) if (!newSteps.includes(at)) newSteps.push(at);
    }
    return watcher.watch(start, walkPart, openProperties);
  }

  /**
   * Returns the session file of a stored state.
   * @param {State} state
   */
  restoreFile(state) {
    return this.files.decode(state.delta);
  }

  /**
   * Records the properties to which at least one event of a walk was relevant.
   * @param {number[][]} memories the memories of the properties at the end of the walk
   */
  recordAppliedProperties(memories) {
    memories.forEach((memory, at) => {
      if (this.campaign.properties[at].hasApplied(memory)) this.appliedProperties.add(at);
    });
  }

  /** Returns one of the stored states at random. Prefers recent states, and states at which few walks have started. */
  pickState() {
    const { states, random } = this;
    const picksRecent = random() < 0.5;
    let chosenState = null;
    for (let tries = 0; tries < CANDIDATE_COUNT; tries++) {
      const statesBack = Math.floor(-Math.log(1 - random()) * MEAN_STATES_BACK);
      const state = states[picksRecent ? Math.max(0, states.length - 1 - statesBack) : randomBelow(random, states.length)];
      if (!chosenState || state.resumeCount < chosenState.resumeCount) chosenState = state;
    }
    const state = /** @type {State} */ (chosenState);
    state.resumeCount += 1;
    return state;
  }

  /**
   * Returns random steps from a state.
   * @param {State} state
   */
  chooseSteps(state) {
    const steps = [];
    let { downInputs } = state;
    let { ages } = state;
    for (let remaining = 1 + randomBelow(this.random, MAX_WALK_STEPS); remaining > 0; remaining--) {
      const step = chooseStep(this.campaign, downInputs, ages, this.random);
      ages = updateAges(ages, step);
      downInputs = updateDownInputs(downInputs, step);
      steps.push(step);
    }
    return steps;
  }

  /** The indices of the open properties with a label. */
  get labelProperties() {
    return this.openProperties.filter((at) => this.campaign.properties[at].address >= 0);
  }

  /**
   * The addresses of the labels at which a property can be violated, no matter what happened before. The search sets breakpoints at these
   * addresses. There are at most 32 of them, because the bench has at most 32 breakpoints.
   * @returns {number[]}
   */
  get stopAddresses() {
    const { properties } = this.campaign;
    const stoppingProperties = this.labelProperties.map((at) => properties[at]).filter(stopsAtLabel);
    return [...new Set(stoppingProperties.map(({ address }) => address))].slice(0, MAX_ENABLED_BREAKPOINTS);
  }

  /**
   * Runs a walk and reads a snapshot after each step. Ends early, and returns true as `isSuspect`, if the walk may violate a property.
   * `newSteps` lists the indices of the steps that reach a new state or execute code for the first time.
   * @param {Uint8Array} file
   * @param {State} state
   * @param {WalkStep[]} steps
   */
  examineWalk(file, state, steps) {
    const { campaign, places, labelProperties, stopAddresses } = this;
    const labelAddresses = labelProperties.flatMap((at) => listAddresses(campaign.properties[at]));
    const needsCounts = labelAddresses.some((address) => !stopAddresses.includes(address));
    const lines = steps.map((step) => (
      `${needsCounts ? `count ${step.wait}\n` : ""}run ${step.wait}\n${formatChangeLine(campaign, step)}${places.lines}`)).join("");
    const breakLines = stopAddresses.map((address) => `break ${address}\n`).join("");
    const placeAnswers = new PlaceAnswers(this.subject.engine.ask(file, breakLines + lines).answers);
    placeAnswers.skip(stopAddresses.length);
    /** @type {number[]} */
    const newSteps = [];
    /** @type {Snapshot[]} */
    const snapshots = [];
    const estimatedState = new EstimatedState(this, state);
    for (const [at, step] of steps.entries()) {
      const instructionCounts = needsCounts ? placeAnswers.takeCountsIfAny() : [];
      if (placeAnswers.takeRun().end !== "end") return { newSteps, isSuspect: true, snapshots };
      if (step.kind !== "none") placeAnswers.skip(1);
      const snapshot = this.getSnapshot(places.takeRow(placeAnswers));
      snapshots.push(snapshot);
      if (estimatedState.canStepViolate(step, snapshot, instructionCounts)) return { newSteps, isSuspect: true, snapshots };
      if (this.coverage.add(instructionCounts)) newSteps.push(at);
      if (this.recordIfNew(snapshot, estimatedState.memoryKey) && !newSteps.includes(at)) newSteps.push(at);
    }
    return { newSteps, isSuspect: false, snapshots };
  }

  /**
   * Returns the snapshot that results from a row of values.
   * @param {string} row the values of all `trace` places, separated by blanks
   * @returns {Snapshot}
   */
  getSnapshot(row) {
    const knownSnapshot = this.snapshots.get(row);
    if (knownSnapshot) return knownSnapshot;
    const values = row.split(" ");
    const snapshot = {
      notedValues: this.notedIndexes.map((at) => values[at]).join(" "),
      holds: this.conditions.map((condition) => condition.holds(values)),
      guardValues: this.conditions.map((condition) => condition.evaluateGuards(values)),
    };
    if (this.snapshots.size >= MAX_SNAPSHOTS) this.snapshots.clear();
    this.snapshots.set(row, snapshot);
    return snapshot;
  }

  /**
   * Records the state that a snapshot shows. Returns whether this state is new.
   * @param {Snapshot} snapshot
   * @param {string} memoryKey the parts of the property memories that distinguish states
   */
  recordIfNew({ notedValues }, memoryKey) {
    const stateKey = `${notedValues}${memoryKey}`;
    if (this.seenKeys.has(stateKey)) return false;
    this.seenKeys.add(stateKey);
    return true;
  }

  /**
   * Stores the states after some steps of a walk, up to MAX_STATES states and MAX_DEPTH steps from the start state.
   * @param {State} state the state at which the walk started
   * @param {Uint8Array} file the session file of that state; this method changes it
   * @param {WalkStep[]} steps
   * @param {import("./walk_watcher.js").StepState[]} stepStates the state after each step
   * @param {number[]} newSteps the indices of the steps after which to store the state
   */
  storeStates(state, file, steps, stepStates, newSteps) {
    let [from, parent] = [0, state];
    for (const at of newSteps) {
      if (this.states.length >= MAX_STATES || state.depth + at >= MAX_DEPTH) return;
      const walkPart = steps.slice(from, at + 1);
      this.subject.engine.serve(file, formatWalkLines(this.campaign, walkPart), file);
      const { time, downInputs, memories } = stepStates[at];
      const ages = walkPart.reduce(updateAges, parent.ages);
      parent = { delta: this.files.encode(file), time, downInputs, ages, memories, parent, steps: walkPart,
        depth: state.depth + at + 1, resumeCount: 0 };
      this.states.push(parent);
      from = at + 1;
    }
  }

  /**
   * Ends the search for violations of a property.
   * @param {number} property
   */
  closeProperty(property) {
    this.openProperties = this.openProperties.filter((at) => at !== property);
  }
}

/**
 * Returns all steps from the start state to a state.
 * @param {State} state
 */
function collectSteps(state) {
  /** @type {WalkStep[][]} */
  const parts = [];
  /** @type {State | null} */
  let ancestor = state;
  while (ancestor) {
    parts.unshift(ancestor.steps);
    ancestor = ancestor.parent;
  }
  return parts.flat();
}

/** @type {boolean[]} the values of the guard conditions of a property without guards */
const NO_GUARDS = [];

/**
 * Returns whether a property can be violated each time that the program counter reaches its label, no matter what happened before.
 * @param {Property} property
 */
function stopsAtLabel({ form, guards }) {
  return guards.length === 0 && (form === "at" || form === "reach at" || form === "never");
}

/**
 * The memories of the properties during a walk, estimated from snapshots and instruction counts. Instruction counts show how often the
 * program counter reached a label during a wait, but not when.
 */
class EstimatedState {
  /**
   * @param {Search} search
   * @param {State} state
   */
  constructor({ campaign, openProperties }, { memories, time, downInputs }) {
    this.campaign = campaign;
    this.time = time;
    this.downInputs = downInputs;
    this.conditionProperties = openProperties.filter((at) => campaign.properties[at].address < 0 && campaign.properties[at].condition);
    this.labelProperties = openProperties.filter((at) => campaign.properties[at].address >= 0);
    this.memories = memories.map((memory) => [...memory]);
  }

  /**
   * Updates the memories after a step. Returns whether the step may have violated a property.
   * @param {WalkStep} step
   * @param {Snapshot} snapshot
   * @param {import("../engine/forecast_answers.js").InstructionCount[]} instructionCounts the instruction counts of the wait
   */
  canStepViolate(step, { holds, guardValues }, instructionCounts) {
    const { campaign, conditionProperties, memories } = this;
    const { properties, inputs } = campaign;
    this.downInputs = updateDownInputs(this.downInputs, step);
    const input = step.kind === "down" ? inputs[step.input].name : "";
    const time = this.time + step.wait;
    const moment = { time, changeTime: time, address: -1, holds: false, guardValues: NO_GUARDS, input, downCount: this.downInputs.length,
      key: findChangedKey(campaign, step) };
    const countAt = (/** @type {number} */ label) => (
      (instructionCounts.find(({ address }) => address === label) || { startCount: 0 }).startCount);
    const isAtLabel = this.labelProperties.some((at) => (
      properties[at].form === "within" ? this.canBeLate(properties[at], memories[at], moment, step, countAt)
        : this.canViolateAtLabel(properties[at], memories[at], moment, step, countAt(properties[at].address))));
    this.time += step.wait;
    return isAtLabel || conditionProperties.some((at) => {
      const { update } = properties[at];
      const memory = memories[at];
      if (step.kind === "down" && update(memory, "down", { ...moment, guardValues: guardValues[at] }) >= 0) return true;
      if (step.kind === "reset" && update(memory, "reset", moment) >= 0) return true;
      return update(memory, "values", { ...moment, holds: holds[at], guardValues: guardValues[at] }) >= 0;
    });
  }

  /**
   * After a step, updates the memory of a property that has a label. Returns whether the step may have violated the property.
   * @param {Property} property
   * @param {number[]} memory
   * @param {import("./properties.js").Moment} moment the moment at the end of the wait
   * @param {WalkStep} step
   * @param {number} count the number of times that the program counter reached the label
   */
  canViolateAtLabel(property, memory, moment, step, count) {
    const { form, update, limit, guards } = property;
    // The counts do not show whether the guards were open when the program counter reached the label.
    if (guards.length > 0) return count > 0 || form === "after press";
    if (stopsAtLabel(property)) return count > 0;
    if (form === "after press" && memory[0] >= 0 && (count > 0 || moment.time > memory[0] + limit)) {
      if (moment.time > memory[0] + limit) return true;
      memory[0] = -1;
    }
    if (form === "every") {
      // If the label was reached during this wait, assume the earliest possible time, which is the start of the wait.
      if (moment.time - memory[0] > limit) return true;
      if (count > 0) memory[0] = this.time;
    }
    // If the label was reached during this wait, assume the start of the wait, when the keys had been down for the shortest time.
    if (form === "no press" && count > 0 && update(memory, "label", { ...moment, time: this.time, key: -1 }) >= 0) return true;
    const isCounted = form === "once" || form === "only after";
    for (let times = 0; isCounted && times < count; times++) if (update(memory, "label", moment) >= 0) return true;
    if (step.kind !== "none") update(memory, step.kind, moment);
    return false;
  }

  /**
   * Updates the memory of a `within` property after a step. Returns whether the program counter may have reached the second label only
   * after the limit.
   * @param {Property} property
   * @param {number[]} memory
   * @param {import("./properties.js").Moment} moment the moment at the end of the wait
   * @param {WalkStep} step
   * @param {(address: number) => number} countAt returns the number of times that the program counter reached an address
   */
  canBeLate({ start, address, limit, update }, memory, moment, step, countAt) {
    const isLate = () => memory[0] >= 0 && moment.time - memory[0] > limit;
    if (isLate()) return true;
    if (countAt(address) > 0) memory[0] = -1;
    // If the first label was reached during this wait, assume the earliest possible time, which is the start of the wait.
    if (countAt(start) > 0 && memory[0] < 0) memory[0] = this.time;
    if (isLate()) return true;
    if (step.kind === "reset") update(memory, "reset", moment);
    return false;
  }

  /** The parts of the property memories that distinguish states, as text. */
  get memoryKey() {
    let memoryKey = "";
    for (const at of [...this.conditionProperties, ...this.labelProperties]) {
      const propertyKey = this.campaign.properties[at].newStateKey(this.memories[at]);
      if (propertyKey !== "") memoryKey += `/${propertyKey}`;
    }
    return memoryKey;
  }
}
