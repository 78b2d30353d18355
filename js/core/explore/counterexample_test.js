// Writes a counterexample as a test for `mcs4 test`. The test fails as long as the program has the error. The test for a goal passes if the
// program reaches the goal.

import { readCounter } from "../bench/answers.js";
import { hex } from "../bench/numbers.js";
import { formatRunLines } from "../engine/key_queue.js";
import { formatWalkLines } from "./walks.js";
import * as say from "../../words/explore.js";

/**
 * @typedef {import("./campaign.js").Campaign} Campaign
 * @typedef {import("./properties.js").Property} Property
 * @typedef {import("./search.js").Violation} Violation
 * @typedef {import("./subject.js").Subject} Subject
 * @typedef {import("./walks.js").WalkStep} WalkStep
 */

/**
 * Returns the bench lines that lead from the start state to a violation.
 * @param {Campaign} campaign
 * @param {Violation} violation
 */
export function formatViolationLines(campaign, { steps, time }) {
  const lastChangeTime = steps.reduce((sum, { wait }) => sum + wait, campaign.checkStart);
  return formatWalkLines(campaign, steps) + formatRunLines(time - lastChangeTime);
}

/** Writes the test for a counterexample. */
class TestWriter {
  /**
   * @param {Subject} subject
   * @param {Uint8Array} file the session file of the start state
   * @param {Campaign} campaign
   * @param {Violation} violation
   */
  constructor(subject, file, campaign, violation) {
    const { property, steps, time } = violation;
    this.subject = subject;
    this.file = file;
    this.campaign = campaign;
    /** The bench lines that lead to the violation. */
    this.violationLines = formatViolationLines(campaign, violation);
    this.property = campaign.properties[property];
    this.steps = steps;
    this.time = time;
    /** The time of the last change in cycles. */
    this.lastChangeTime = steps.reduce((sum, { wait }) => sum + wait, campaign.checkStart);
    /** @type {string[]} */
    this.lines = [`test ${this.property.text}`, ...campaign.leadingLines];
    this.pendingWait = campaign.checkStart;
  }

  /** Writes a `run` line for the waits that are not written yet. */
  writePendingWait() {
    if (this.pendingWait > 0) this.lines.push(`  run ${this.pendingWait}`);
    this.pendingWait = 0;
  }

  writeSteps() {
    for (const { wait, kind, input } of this.steps) {
      this.pendingWait += wait;
      if (kind === "none") continue;
      this.writePendingWait();
      const { downTestLine, upTestLine } = this.campaign.inputs[input] || { downTestLine: "reset", upTestLine: "" };
      this.lines.push(`  ${kind === "up" ? upTestLine : downTestLine}`);
    }
  }

  /**
   * Writes a `run` line that ends at `time`.
   * @param {number} time
   */
  writeRunUntil(time) {
    this.pendingWait += time - this.lastChangeTime;
    this.writePendingWait();
  }

  /** The program counter at the violation. */
  get counterAtViolation() {
    const { answers } = this.subject.engine.ask(this.file, `${this.violationLines}regs\n`);
    return parseInt(readCounter(answers[answers.length - 1]).counter, 16);
  }

  /**
   * Returns the text of the property's condition, or of its negation.
   * @param {boolean} holds false for the negation
   */
  formatCondition(holds) {
    const { condition, address } = this.property;
    if (condition) return holds ? condition.text : condition.negation;
    return holds ? this.formatCounterCondition(address) : `not ${this.formatCounterCondition(address)}`;
  }

  /**
   * Writes an `expect` line for a condition at the time of the violation.
   * @param {string} condition
   */
  writeExpect(condition) {
    this.writeRunUntil(this.time);
    this.lines.push(`  expect ${condition}`);
  }

  /**
   * Returns the text of the condition that the program counter is at an address. Uses the label if the address has one.
   * @param {number} address
   */
  formatCounterCondition(address) {
    const [label] = this.subject.names.map.labelsAt(address);
    return label ? `@${label}` : `pc 0x${hex(address, 3)}`;
  }

  /**
   * Writes an `until` line, which requires that a condition becomes true before the time of the violation.
   * @param {string} condition the condition
   * @param {number} waitStart the time at which the wait for the condition starts, in cycles
   */
  writeUntil(condition, waitStart) {
    const from = Math.max(waitStart, this.lastChangeTime);
    this.writeRunUntil(from);
    this.lines.push(`  until ${condition} within ${Math.max(1, this.time - from)}`);
  }
}

/**
 * The functions that write the last lines of a test, by property form. These lines check the property.
 * @type {Record<Property["form"], (writer: TestWriter) => void>}
 */
const FINAL_LINES = {
  never: (writer) => writer.writeExpect(writer.formatCondition(false)),
  always: (writer) => writer.writeExpect(writer.formatCondition(true)),
  at: (writer) => writer.writeExpect(writer.formatCondition(true)),
  "only after": (writer) => writer.writeExpect(writer.formatCondition(false)),
  "never for": (writer) => writer.writeUntil(writer.formatCondition(false), writer.time - writer.property.limit),
  every: (writer) => writer.writeUntil(writer.formatCounterCondition(writer.property.address), writer.time - writer.property.limit),
  within: (writer) => writer.writeUntil(writer.formatCounterCondition(writer.property.address), writer.time - writer.property.limit),
  "after press": (writer) => writer.writeUntil(writer.formatCondition(true), writer.time - writer.property.limit),
  once: (writer) => writer.writeExpect(`not ${writer.formatCounterCondition(writer.property.address)}`),
  "no press": (writer) => writer.writeExpect(`not ${writer.formatCounterCondition(writer.property.address)}`),
  reach: (writer) => writer.writeExpect(writer.formatCondition(true)),
  "reach at": (writer) => writer.writeExpect(writer.formatCounterCondition(writer.property.address)),
  model: () => undefined,
  code: (writer) => {
    writer.writeRunUntil(writer.time + 1);
  },
  calls: (writer) => writer.writeExpect(`not ${writer.formatCounterCondition(writer.counterAtViolation)}`),
  returns: (writer) => writer.writeExpect(`not ${writer.formatCounterCondition(writer.counterAtViolation)}`),
  mistake: (writer) => writer.writeExpect(`not ${writer.formatCounterCondition(writer.counterAtViolation)}`),
};

/** @type {Partial<Record<Property["form"], string>>} the comments below the name of a test, by property form */
const FORM_NOTES = {
  calls: say.FOURTH_CALL,
  returns: say.RETURN_WITHOUT_CALL,
  mistake: say.MISTAKE_CONFIRMED,
  once: say.REACHED_MORE_OFTEN_THAN_PRESSES,
};

/**
 * Returns the text of the test for a counterexample.
 * @param {Subject} subject
 * @param {Uint8Array} file the session file of the start state
 * @param {Campaign} campaign
 * @param {Violation} violation
 */
export function formatTest(subject, file, campaign, violation) {
  const { form } = campaign.properties[violation.property];
  const writer = new TestWriter(subject, file, campaign, violation);
  const note = FORM_NOTES[form];
  writer.writeSteps();
  FINAL_LINES[form](writer);
  if (note) writer.lines.splice(1, 0, `  # ${note}`);
  return `${writer.lines.join("\n")}\n`;
}
