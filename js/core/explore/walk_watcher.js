// Watches a walk instruction by instruction: traces the places of the properties, counts the instructions, and reports all events to the
// properties in time order. search.js says which walks the search watches.

import { instructionCycles, isCall, isReturn } from "../engine/rom_codes.js";
import { parseTraceLine } from "../engine/forecast_answers.js";
import { Conditions, PlaceQueries, PlaceAnswers, listConditions } from "./place_queries.js";
import { listAddresses } from "./properties.js";
import { findChangedKey, updateDownInputs, formatChangeLine } from "./walks.js";

/**
 * @typedef {import("./campaign.js").Campaign} Campaign
 * @typedef {import("./properties.js").Property} Property
 * @typedef {import("./properties.js").Event} Event
 * @typedef {import("./subject.js").Subject} Subject
 * @typedef {import("./walks.js").WalkStep} WalkStep
 * @typedef {import("./place_queries.js").Change} Change
 * @typedef {import("../engine/forecast_answers.js").InstructionCount} InstructionCount
 *
 * The start of a walk: the session file, the cycles since power-on, the indices of the inputs that are down, and the memory of each
 * property.
 * @typedef {{ file: Uint8Array, time: number, downInputs: number[], memories: number[][] }} WalkStart
 *
 * The violation of a property, or the arrival at a goal: the index of the property, the time, and the number of complete steps before it.
 * @typedef {{ property: number, time: number, step: number }} WalkViolation
 *
 * The state after a step: the time, the inputs that are down, and the memory of each property. `isNew` is true if the step executed code
 * for the first time.
 * @typedef {{ time: number, downInputs: number[], memories: number[][], isNew: boolean }} StepState
 *
 * The bench's answers for one step: the values of all places before the step, their changes, the instruction counts, and the answer to the
 * run. `list` contains all executed instructions; it is null if they were not queried.
 * @typedef {{ values: string[], changes: Change[], counts: InstructionCount[], runAnswer: string,
 *   list: { cycles: number, address: number }[] | null }} StepReport
 */

export class Watcher {
  /**
   * @param {Subject} subject
   * @param {Campaign} campaign
   * @param {import("./search_coverage.js").Coverage | null} coverage null if the executed code does not matter
   */
  constructor(subject, campaign, coverage) {
    this.subject = subject;
    this.campaign = campaign;
    this.coverage = coverage;
    const conditionPlaces = campaign.properties.flatMap(listConditions).flatMap((condition) => (condition ? condition.places : []));
    this.callProperties = campaign.properties.flatMap(({ form }, at) => (form === "calls" || form === "returns" ? [at] : []));
    this.places = new PlaceQueries(this.callProperties.length > 0 ? [...conditionPlaces, "ret"] : conditionPlaces);
    this.conditions = campaign.properties.map((property) => new Conditions(property, this.places));
    /** @type {Set<number>} the addresses of the labels in the open properties */
    this.openLabels = new Set();
    /** True if the queries include `count`. */
    this.queriesCounts = coverage !== null || this.callProperties.length > 0 || campaign.properties.some(({ address }) => address >= 0);
  }

  /**
   * Watches a walk up to the first violation of an open property. Returns the violation, and the state after each complete step.
   * @param {WalkStart} start
   * @param {WalkStep[]} steps
   * @param {number[]} openProperties the indices of the properties that are not decided yet
   * @returns {{ violation: WalkViolation | null, stepStates: StepState[] }}
   */
  watch(start, steps, openProperties) {
    this.openLabels = new Set(openProperties.flatMap((at) => listAddresses(this.campaign.properties[at])));
    const reports = this.queryReports(start.file, steps, openProperties);
    const memories = start.memories.map((memory) => [...memory]);
    const walk = new Walk(this, memories, openProperties, start);
    /** @type {StepState[]} */
    const stepStates = [];
    for (const [at, step] of steps.entries()) {
      const violation = walk.notifyStepEvents(reports[at], step);
      const isNew = this.coverage !== null && this.coverage.add(reports[at].counts);
      if (violation) return { violation: { ...violation, step: at }, stepStates };
      if (!/ end$/.test(reports[at].runAnswer)) break;
      stepStates.push({ time: walk.time, downInputs: walk.downInputs, memories: memories.map((memory) => [...memory]), isNew });
    }
    return { violation: null, stepStates };
  }

  /**
   * Watches only the input change of a step, without the wait before it.
   * @param {WalkStart} start
   * @param {WalkStep} step
   * @param {number[]} openProperties the indices of the properties that are not decided yet
   * @returns {{ violation: WalkViolation | null, stepStates: StepState[] }}
   */
  watchChange(start, step, openProperties) {
    const memories = start.memories.map((memory) => [...memory]);
    const walk = new Walk(this, memories, openProperties, start);
    walk.values = new PlaceAnswers(this.subject.engine.ask(start.file, this.places.formatLines(1)).answers).takeChanges(this.places).values;
    walk.notifyInputChange(step);
    const violation = walk.firstViolation && { ...walk.firstViolation, step: 0 };
    return { violation, stepStates: [{ time: walk.time, downInputs: walk.downInputs, memories, isNew: false }] };
  }

  /**
   * Runs a walk, and returns the bench's answers for each step.
   * @param {Uint8Array} file
   * @param {WalkStep[]} steps
   * @param {number[]} openProperties
   * @returns {StepReport[]}
   */
  queryReports(file, steps, openProperties) {
    const { campaign, places, subject: { engine } } = this;
    const lines = steps.map((step) => {
      const countLine = this.queriesCounts ? `count ${step.wait}\n` : "";
      return `${places.formatLines(step.wait)}${countLine}run ${step.wait}\n${formatChangeLine(campaign, step)}`;
    }).join("");
    const placeAnswers = new PlaceAnswers(engine.ask(file, lines).answers);
    /** @type {StepReport[]} */
    const stepReports = [];
    for (const step of steps) {
      const { values, changes } = placeAnswers.takeChanges(places);
      const counts = this.queriesCounts ? placeAnswers.takeCountsIfAny() : [];
      stepReports.push({ values, changes, counts, runAnswer: placeAnswers.take(), list: null });
      if (step.kind !== "none") placeAnswers.skip(1);
    }
    const needsCalls = this.callProperties.some((at) => openProperties.includes(at));
    this.addInstructionLists(file, steps, stepReports, stepReports.map((report) => this.needsInstructionList(report, needsCalls)));
    return stepReports;
  }

  /**
   * Queries all executed instructions of some steps, and adds them to the reports.
   * @param {Uint8Array} file
   * @param {WalkStep[]} steps
   * @param {StepReport[]} stepReports
   * @param {boolean[]} isListed for each step, true to query its instructions
   */
  addInstructionLists(file, steps, stepReports, isListed) {
    if (!isListed.includes(true)) return;
    const lastListedIndex = isListed.lastIndexOf(true);
    const lines = steps.slice(0, lastListedIndex + 1).map((step, at) => (
      `${isListed[at] ? `trace ${step.wait}\n` : ""}run ${step.wait}\n${formatChangeLine(this.campaign, step)}`)).join("");
    const placeAnswers = new PlaceAnswers(this.subject.engine.ask(file, lines).answers);
    for (const [at, step] of steps.slice(0, lastListedIndex + 1).entries()) {
      if (isListed[at]) stepReports[at].list = placeAnswers.takeTrace().lines.map(parseTraceLine);
      placeAnswers.skip(step.kind === "none" ? 1 : 2);
    }
  }

  /**
   * Returns whether all instructions of a step must be queried. This is necessary if the program counter reaches a label of a property. It
   * is also necessary if a call or return does not change the return addresses, because the recorded changes then do not show this call or
   * return.
   * @param {StepReport} report
   * @param {boolean} needsCalls true if an open property needs all calls and returns
   */
  needsInstructionList({ changes, counts }, needsCalls) {
    if (counts.some(({ address }) => this.openLabels.has(address))) return true;
    if (!needsCalls) return false;
    const { codes } = this.subject;
    /** @type {(address: number) => boolean} */
    const isCallOrReturn = (address) => isCall(codes[address]) || isReturn(codes[address]);
    const recordedCount = new Set(changes.filter(({ address }) => isCallOrReturn(address)).map(({ cycles }) => cycles)).size;
    return recordedCount !== counts.reduce((sum, { address, startCount }) => sum + (isCallOrReturn(address) ? startCount : 0), 0);
  }
}

/** A walk that reports its events to the properties. */
class Walk {
  /**
   * @param {Watcher} watcher
   * @param {number[][]} memories
   * @param {number[]} openProperties
   * @param {WalkStart} start
   */
  constructor(watcher, memories, openProperties, { time, downInputs }) {
    this.watcher = watcher;
    this.memories = memories;
    this.openProperties = openProperties;
    this.time = time;
    this.downInputs = downInputs;
    /** @type {string[]} */
    this.values = [];
    /** @type {{ property: number, time: number } | null} */
    this.firstViolation = null;
  }

  /**
   * Reports an event to the properties, and records the first violation.
   * @param {Event} event
   * @param {number} time
   * @param {{ address?: number, input?: string, key?: number, changeTime?: number }} details the address of a label, the input that goes
   *   down, the key that goes down or up, or the time of a change of values
   */
  notify(event, time, { address = -1, input = "", key = -1, changeTime = time } = {}) {
    const { watcher: { campaign: { properties }, conditions, callProperties }, values } = this;
    const isCallEvent = event === "call" || event === "return";
    for (const at of isCallEvent ? callProperties : this.openProperties) {
      const { update, address: ownLabel, start } = properties[at];
      if (event === "label" && ownLabel !== address && start !== address) continue;
      const needsConditions = event === "values" || event === "label";
      const holds = needsConditions && conditions[at].holds(values);
      const guardValues = needsConditions || event === "down" ? conditions[at].evaluateGuards(values) : NO_GUARDS;
      const moment = { time, changeTime, address, holds, guardValues, input, downCount: this.downInputs.length, key };
      const violationTime = update(this.memories[at], event, moment);
      const isFirst = violationTime >= 0 && (!this.firstViolation || violationTime < this.firstViolation.time);
      if (isFirst && this.openProperties.includes(at)) this.firstViolation = { property: at, time: violationTime };
    }
  }

  /**
   * Reports all events of a step to the properties. Returns the first violation so far, or null.
   * @param {StepReport} report
   * @param {WalkStep} step
   */
  notifyStepEvents(report, step) {
    const startTime = this.time;
    const runCycles = Number(report.runAnswer.split(" ")[3]);
    this.values = report.values;
    this.notify("values", startTime);
    if (report.list) this.notifyListedInstructions(report, startTime, runCycles);
    else for (const change of report.changes) this.notifyChange(change, startTime, runCycles, true);
    this.time = startTime + runCycles;
    this.notify("end", this.time);
    this.notifyInvalidOpcode(report);
    if (!this.firstViolation) this.notifyInputChange(step);
    return this.firstViolation;
  }

  /**
   * Reports to the properties that an instruction changed values.
   * @param {Change} change
   * @param {number} startTime the time at which the step starts
   * @param {number} runCycles the number of cycles that the step ran
   * @param {boolean} notifiesCalls true to report a call or return, too
   */
  notifyChange({ cycles, address, from, values }, startTime, runCycles, notifiesCalls) {
    const { codes } = this.watcher.subject;
    if (this.firstViolation) return;
    this.values = from === 0 && values.length === this.values.length ? values
      : [...this.values.slice(0, from), ...values, ...this.values.slice(from + values.length)];
    const time = startTime + Math.min(runCycles, cycles + instructionCycles(codes[address]));
    this.notify("values", time, { changeTime: startTime + Math.min(runCycles, cycles + 1) });
    if (notifiesCalls) this.notifyCall(address, time);
  }

  /**
   * If the instruction at an address is a call or a return, reports the call or the return.
   * @param {number} address
   * @param {number} time
   */
  notifyCall(address, time) {
    const { codes } = this.watcher.subject;
    if (isCall(codes[address])) this.notify("call", time);
    else if (isReturn(codes[address])) this.notify("return", time);
  }

  /**
   * Reports the events of a step whose executed instructions are known. Reports the arrival at a label before the changes that its
   * instruction makes.
   * @param {StepReport} report
   * @param {number} startTime
   * @param {number} runCycles
   */
  notifyListedInstructions({ list, changes }, startTime, runCycles) {
    const { openLabels: labels, subject: { codes } } = this.watcher;
    let changeIndex = 0;
    for (const { cycles, address } of list || []) {
      if (this.firstViolation) return;
      if (labels.has(address)) this.notify("label", startTime + cycles, { address });
      for (; changeIndex < changes.length && changes[changeIndex].cycles <= cycles; changeIndex++) {
        this.notifyChange(changes[changeIndex], startTime, runCycles, false);
      }
      this.notifyCall(address, startTime + Math.min(runCycles, cycles + instructionCycles(codes[address])));
    }
    for (; changeIndex < changes.length; changeIndex++) this.notifyChange(changes[changeIndex], startTime, runCycles, false);
  }

  /**
   * Records a violation if the run ended at an opcode that is not an instruction.
   * @param {StepReport} report
   */
  notifyInvalidOpcode({ runAnswer }) {
    if (this.firstViolation || !/ code$/.test(runAnswer)) return;
    const codeProperty = this.watcher.campaign.properties.findIndex(({ form }) => form === "code");
    if (this.openProperties.includes(codeProperty)) this.firstViolation = { property: codeProperty, time: this.time };
  }

  /**
   * Reports the input change or the power cycle at the end of a step.
   * @param {WalkStep} step
   */
  notifyInputChange(step) {
    const { campaign } = this.watcher;
    this.downInputs = updateDownInputs(this.downInputs, step);
    const key = findChangedKey(campaign, step);
    if (step.kind === "down") this.notify("down", this.time, { input: campaign.inputs[step.input].name, key });
    if (step.kind === "up") this.notify("up", this.time, { key });
    if (step.kind === "reset") {
      this.notify("reset", this.time);
      for (const at of this.watcher.callProperties) this.watcher.campaign.properties[at].update(this.memories[at], "reset", EMPTY_MOMENT);
    }
  }
}

/** @type {boolean[]} the values of the guard conditions of a property without guards */
const NO_GUARDS = [];
const EMPTY_MOMENT = { time: 0, changeTime: 0, address: -1, holds: false, guardValues: NO_GUARDS, input: "", downCount: 0, key: -1 };
