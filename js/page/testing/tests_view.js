// The results of tests: a row for each test with its error, and the coverage and the cycle profile of the program.

import { Cell, block, makeButton, findDescendant, element } from "../ui/dom.js";
import { hex } from "../../core/bench/numbers.js";
import { CYCLE_MS } from "../../core/time/mcs4_time.js";
import { coverageMessage, testDuration } from "../../words/test_results.js";
import { lineReference } from "../../words/stops.js";
import * as say from "../../words/testing.js";

/**
 * @typedef {import("../../core/testing/profile.js").Profile} Profile
 * @typedef {import("../../core/testing/test_suite.js").Report} Report
 * @typedef {import("../../core/testing/test_run.js").Failure} Failure
 * @typedef {import("../../core/testing/test_run.js").Outcome} Outcome
 */

/**
 * The callbacks of the test results.
 * @typedef {object} ResultCalls
 * @property {(line: number) => void} goTo Shows a line of the tests text. Lines count from 1.
 * @property {(address: number) => void} goToAddress Shows an address in the source and in the disassembly.
 * @property {(outcome: Outcome) => void} openFailure Opens the session of a failed test as a new session.
 */

/** @param {number} cycles */
function formatCycles(cycles) {
  return say.cyclesAndTime(cycles.toLocaleString("en"), (cycles * CYCLE_MS).toFixed(1));
}

export class TestsView {
  /** @param {ResultCalls} calls */
  constructor(calls) {
    this.calls = calls;
    this.block = block("test-results");
    this.list = block("test-list");
    this.coverage = new Cell(block("coverage-status"));
    this.labels = block("profile-labels");
    this.keys = block("profile-keys");
  }

  clear() {
    this.block.hidden = true;
    this.list.replaceChildren();
    this.coverage.set("");
  }

  /** @param {Report} report */
  show(report) {
    this.list.replaceChildren(...report.outcomes.map((outcome) => this.makeRow(outcome)));
    this.coverage.set(coverageMessage(report));
    if (report.profile) this.showProfile(report.profile);
    this.block.hidden = false;
  }

  /** @param {Outcome} outcome */
  makeRow(outcome) {
    const { name, line, failure } = outcome;
    const mark = element("b", { className: failure ? "not-ok" : "ok" }, failure ? say.NOT_OK : "ok");
    const head = element("p", {}, mark, " ",
      makeButton(name, () => this.calls.goTo(line), { className: "name", title: lineReference(line) }),
      element("span", { className: "time" }, ` ${testDuration(outcome)}`));
    return element("li", {}, head, ...(failure ? this.makeFailureNodes(outcome, failure) : []));
  }

  /**
   * @param {Outcome} outcome
   * @param {Failure} failure
   */
  makeFailureNodes(outcome, { line, text, words, lamps, registers, trace, file }) {
    const lineButton = makeButton(lineReference(line), () => this.calls.goTo(line));
    const paragraph = element("p", { className: "wrong" }, lineButton, ` ${text}: ${words}`);
    if (!file) return [paragraph];
    const state = `${lamps && `lamps ${lamps}\n`}${registers}\n`;
    const lastLines = element("pre", { tabIndex: 0 }, `${state}${trace.join("\n")}`);
    return [paragraph,
      element("details", {}, element("summary", {}, say.LAST_INSTRUCTIONS), lastLines),
      element("p", { className: "bar" }, makeButton(say.OPEN_AT_FAILURE, () => this.calls.openFailure(outcome)))];
  }

  /** @param {Profile} profile */
  showProfile({ rows, total, earlierInstructionCycles, keys }) {
    const makeTableRow = (/** @type {(string | Node)[]} */ ...texts) => element("tr", {}, ...texts.map((text) => element("td", {}, text)));
    const formatPercent = (/** @type {number} */ part) => ((100 * part) / total).toFixed(1);
    const tableRows = rows.map(({ label, address, ownCycles, calls }) => {
      const name = address < 0 ? say.NO_LABEL : makeButton(label, () => this.calls.goToAddress(address), { className: "name" });
      const callCells = calls
        ? [calls.callCount, calls.cyclesWithCalls, calls.longestCall].map((count) => count.toLocaleString("en")) : ["", "", ""];
      return makeTableRow(name, address < 0 ? "" : hex(address, 3), ownCycles.toLocaleString("en"), formatPercent(ownCycles), ...callCells);
    });
    if (earlierInstructionCycles > 0) {
      const count = earlierInstructionCycles.toLocaleString("en");
      tableRows.push(makeTableRow(say.BEGUN_EARLIER, "", count, formatPercent(earlierInstructionCycles), "", "", ""));
    }
    this.labels.replaceChildren(...tableRows);
    this.keys.hidden = keys.length === 0;
    findDescendant(this.keys, "tbody", HTMLElement).replaceChildren(...keys.map(({ key, presses, answered, first, last }) => (
      makeTableRow(key, String(presses), String(answered), ...(answered > 0 ? [formatCycles(first), formatCycles(last)] : ["", ""])))));
  }
}
