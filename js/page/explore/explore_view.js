// The results of a search for counterexamples: a row for each property, and the program's coverage.

import { Cell, Switch, block, makeButton, findDescendant, element } from "../ui/dom.js";
import { moreItems } from "../../words/debug.js";
import { coverageOf, markOf, searchStatistics, describePropertyResult } from "../../words/explore_results.js";
import * as say from "../../words/explore.js";
import { lineReference } from "../../words/stops.js";

/**
 * @typedef {import("../../core/explore/report.js").Report} Report
 * @typedef {import("../../core/explore/report.js").PropertyResult} PropertyResult
 */

/**
 * The callbacks of the search results. Properties are numbered from 0.
 * @typedef {object} CounterexampleCalls
 * @property {(line: number) => void} goTo Shows a line of the properties text. Lines count from 1.
 * @property {(line: number) => void} goToSource Shows a line of the source. Lines count from 1.
 * @property {(property: number) => void} openCounterexample Opens a counterexample as a new session.
 * @property {(property: number) => void} addTest Adds a counterexample's test to the text in the Tests tab.
 */

/** The maximum number of lines listed as never executed. */
const MAX_LISTED_LINES = 60;

/** A property's row. The counterexample is inserted only once, so that buttons that the user is about to click are not replaced. */
class PropertyRow {
  /**
   * @param {PropertyResult} property
   * @param {number} index
   * @param {CounterexampleCalls} calls
   */
  constructor({ text, line }, index, calls) {
    this.index = index;
    this.calls = calls;
    const mark = element("b", {});
    const statusText = element("span", { className: "time" });
    const name = line > 0 ? makeButton(text, () => calls.goTo(line), { className: "name", title: lineReference(line) })
      : element("span", {}, text);
    this.node = element("li", {}, element("p", {}, mark, " ", name, " ", statusText));
    this.mark = new Cell(mark);
    this.status = new Cell(statusText);
    this.okSwitch = new Switch((isOn) => mark.classList.toggle("ok", isOn));
    this.notOkSwitch = new Switch((isOn) => mark.classList.toggle("not-ok", isOn));
    this.hasCounterexample = false;
  }

  /**
   * @param {PropertyResult} property
   * @param {Report} report
   * @param {boolean} isRunning
   */
  show(property, report, isRunning) {
    const mark = markOf(property, isRunning);
    this.mark.set(mark);
    this.okSwitch.set(mark === "ok");
    this.notOkSwitch.set(mark === "not ok");
    this.status.set(describePropertyResult(property, report));
    if (!property.found || this.hasCounterexample) return;
    this.hasCounterexample = true;
    this.node.append(
      element("details", {}, element("summary", {}, say.SHOW_AS_TEST), element("pre", { tabIndex: 0 }, property.found.test.trimEnd())),
      element("p", { className: "bar" },
        makeButton(say.OPEN_AS_SESSION, () => this.calls.openCounterexample(this.index), { title: say.NEW_SESSION_HINT }),
        makeButton(say.ADD_TO_TESTS, () => this.calls.addTest(this.index), { title: say.AT_END })));
  }
}

export class ExploreView {
  /** @param {CounterexampleCalls} calls */
  constructor(calls) {
    this.calls = calls;
    this.block = block("explore-results");
    this.list = block("property-list");
    this.statistics = new Cell(block("explore-figures"));
    this.bars = (/** @type {const} */ (["instructions", "ways"])).map((name) => {
      const root = block(`explored-${name}`);
      const label = new Cell(findDescendant(root, "span", HTMLElement));
      return { name, root, bar: findDescendant(root, "progress", HTMLProgressElement), label };
    });
    this.unexecutedBlock = block("never-run");
    /** The line numbers in the list of unexecuted lines, to detect changes. */
    this.listedLineNumbers = "";
    /** @type {PropertyRow[]} */
    this.rows = [];
  }

  clear() {
    this.block.hidden = true;
    this.rows = [];
    this.list.replaceChildren();
    this.statistics.set("");
    this.listUnexecutedLines([]);
  }

  /**
   * @param {Report} report
   * @param {boolean} isRunning true if the search is running
   */
  show(report, isRunning) {
    if (this.rows.length === 0) {
      this.rows = report.properties.map((property, index) => new PropertyRow(property, index, this.calls));
      this.list.replaceChildren(...this.rows.map(({ node }) => node));
    }
    this.rows.forEach((row, index) => row.show(report.properties[index], report, isRunning));
    // If proofs have already decided all properties, the search executes no steps.
    const hasStarted = isRunning || report.steps > 0;
    this.statistics.set(hasStarted ? searchStatistics(report) : say.NO_STEPS);
    this.showCoverage(report, isRunning, hasStarted);
    this.block.hidden = false;
  }

  /**
   * @param {Report} report
   * @param {boolean} isRunning
   * @param {boolean} hasStarted true if the search is running or has executed a step
   */
  showCoverage(report, isRunning, hasStarted) {
    const coverage = coverageOf(report);
    for (const { name, root, bar, label } of this.bars) {
      root.hidden = !hasStarted;
      const { count, total, text } = coverage[name];
      bar.max = Math.max(1, total);
      bar.value = count;
      label.set(text);
    }
    // The list would change continuously during a search, so it is empty until the end.
    this.listUnexecutedLines(isRunning || !hasStarted ? [] : coverage.unexecutedLines);
  }

  /** @param {number[]} lines the source lines that the search has not executed */
  listUnexecutedLines(lines) {
    const key = lines.join(" ");
    if (key === this.listedLineNumbers) return;
    this.listedLineNumbers = key;
    const moreText = lines.length > MAX_LISTED_LINES ? moreItems(lines.length - MAX_LISTED_LINES) : "";
    const buttons = lines.slice(0, MAX_LISTED_LINES).flatMap((line) => [
      " ", makeButton(String(line), () => this.calls.goToSource(line), { className: "name", ariaLabel: say.lineOfSource(line) })]);
    this.unexecutedBlock.replaceChildren(...(lines.length === 0 ? [] : [say.NEVER_RUN, ...buttons, moreText]));
  }
}
