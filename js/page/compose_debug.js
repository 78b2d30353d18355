// Creates the debugger's components: breakpoints, steps back and forward, and the views of values. Connects them to the page's other
// components.

import { CancelledError, WorkerDiedError } from "../core/bench/bench_errors.js";
import { hex } from "../core/bench/numbers.js";
import { LINE_HAS_NO_ADDRESS } from "../words/machine.js";
import { lastChangeText, addressWithName } from "../words/stops.js";
import { BreakpointsController } from "./machine/breakpoints_controller.js";
import { HeatView } from "./machine/heat_view.js";
import { LastChangeView } from "./machine/last_change_view.js";
import { listenForRunToCaret, listenForRunToLine } from "./machine/run_to.js";
import { SourceValues } from "../core/machine/source_values.js";
import { collectWatchNames } from "../core/debug/watch_expressions.js";
import { MistakesView } from "./machine/mistakes_view.js";
import { WatchView } from "./machine/watch_view.js";
import { showNibbleNames } from "./compose_texts.js";
import { HistoryView } from "./time/history_view.js";
import { Travel } from "../core/time/travel.js";
import { block } from "./ui/dom.js";

/** @typedef {import("./bench_page.js").Page} Page */

/**
 * Runs to a line of the source, or shows a message if the line has no address.
 * @param {Page} page
 * @param {number} line
 */
export function runToLine({ source, runController, travel }, line) {
  const address = source.map ? source.map.addressOf(line) : undefined;
  if (address === undefined) runController.showMessage(LINE_HAS_NO_ADDRESS);
  else travel.runToGoal({ kind: "here", address });
}

/**
 * @param {Page} page
 * @returns {BreakpointsController}
 */
export function makeBreakpointsController(page) {
  return new BreakpointsController(page.bench, {
    session: () => page.currentSession.session,
    saveSession: () => page.currentSession.markChangedAndSave(),
    texts: () => ({ board: page.boardEditor.text, program: page.programEditor.benchText }),
    handleResult: (result) => page.lineServer.handleResult(result),
    showSession: (result) => page.show(result, page.runController.clock.isRunning),
    showMarks: (lines, addresses) => {
      page.programEditor.showBreakpoints(lines);
      page.snapshotView.showBreakpoints(addresses);
    },
    goTo: (address) => page.snapshotView.goTo.show(address),
    reveal: (line) => page.programEditor.reveal(line),
    showElementBelow: (line, node) => page.programEditor.editor.lineEditor.showElementBelow(line - 1, node),
    callAfterLayout: (action) => page.programEditor.editor.lineEditor.callAfterLayout(action),
    showSource: () => page.layout.showText("program"),
    focusSource: () => page.programEditor.editor.lineEditor.focus(),
    runTo: (line) => runToLine(page, line),
    ensureSourceChecked: () => page.source.waitForCheck(),
    checkSource: () => page.source.check(),
    showMessage: (message) => page.snapshotView.message.show(message),
    reportFailure: (error) => page.recovery.reportFailure(error),
  });
}

/** @param {Page} page */
export function makeTravel(page) {
  const { runController } = page;
  return new Travel(page.bench, {
    pause: () => runController.pause(),
    texts: () => page.breakpoints.texts(),
    storeGoal: (goal) => runController.storeGoal(goal),
    change: (description, work) => page.lineServer.performWork(description, work),
    runTo: (goal) => runController.run(goal),
    reportTally: (tally) => page.breakpoints.handleTally(tally),
    reasonOf: (stop, goal) => runController.describeStop(stop, goal),
    describeCounter: () => runController.counterText,
    breakpoint: (id) => page.breakpoints.manager.list.get(id),
    showMessage: (message) => runController.showMessage(message),
  });
}

/** @param {Page} page */
export function makeHistoryView(page) {
  const { travel, snapshotView, programEditor, runController } = page;
  listenForRunToLine(snapshotView.listing.block, (node) => snapshotView.listing.rows.addressAt(node), (address) => {
    travel.runToGoal({ kind: "here", address });
  });
  listenForRunToCaret(block("program-editor"), () => runToLine(page, programEditor.editor.lineEditor.getCursor().line + 1));
  makeLastChangeView(page);
  return new HistoryView({
    runToGoal: (goal) => travel.runToGoal(goal),
    goBack: (goal) => travel.goBack(goal),
    goForward: () => travel.goForward(),
    names: () => collectExpressionNames(page),
    showMessage: (message) => runController.showMessage(message),
  });
}

/** @param {Page} page */
function makeLastChangeView({ bench, snapshotView, source, runController, recovery }) {
  return new LastChangeView([block("processor"), block("watched"), block("memory")], {
    isRunning: () => runController.clock.isRunning,
    editableCellAt: (cell) => snapshotView.editor.editableCells.get(cell),
    describeLastChange: async ({ place, name }, signal) => {
      try {
        return lastChangeText(name, await bench.call("findLastChange", [place], { signal }), source.map);
      } catch (error) {
        if (!(error instanceof CancelledError) && !(error instanceof WorkerDiedError)) recovery.reportFailure(error);
        return "";
      }
    },
  });
}

/**
 * @param {Page} page
 * @returns {SourceValues}
 */
export function makeSourceValues(page) {
  const { snapshotView, runController, source, editors } = page;
  return new SourceValues({
    snapshot: () => snapshotView.reader.snapshot,
    isRunning: () => runController.clock.isRunning,
    nameOf: (word) => {
      const name = source.map && source.map.names.get(word);
      return name ? { ...name, description: source.meaningOf(word) } : undefined;
    },
    describeInstruction: (word) => (editors.instructions.get(word) || { effect: "" }).effect,
    map: () => source.map,
    showWatched: () => page.watchView.show(),
    showLines: (lines) => editors.program.lineValues.show(lines),
    onChange: () => editors.program.scheduleDescription(),
  });
}

/**
 * @param {Page} page
 * @returns {HeatView}
 */
export function makeHeatView(page) {
  const { bench, snapshotView, runController, recovery } = page;
  return new HeatView(page.layout.preferences, {
    isRunning: () => runController.clock.isRunning,
    countChanges: (cycles, signal) => bench.call("measureHeat", [cycles], { signal }).catch((error) => {
      if (!(error instanceof CancelledError) && !(error instanceof WorkerDiedError)) recovery.reportFailure(error);
      return null;
    }),
    setReporting: (isOn) => {
      bench.call("watchRam", [isOn]).catch((error) => recovery.reportFailure(error));
    },
    showCells: (heatByPlace) => snapshotView.ram.showHeat(heatByPlace),
    describePlace: (place) => snapshotView.ram.describePlace(place),
    map: () => page.source.map,
  });
}

/**
 * Returns the names that expressions can use: names from the board in use, from the program in ROM, and from the watch list.
 * @param {Page} page
 */
function collectExpressionNames({ snapshotView, source, breakpoints }) {
  const watchedNames = collectWatchNames(breakpoints.manager.watchTexts);
  return { face: snapshotView.face, board: snapshotView.board, map: source.map, watched: watchedNames };
}

/**
 * @param {Page} page
 * @returns {WatchView}
 */
export function makeWatchView(page) {
  const { currentSession, snapshotView } = page;
  return new WatchView({
    makeEditable: (cell, { place, name }) => snapshotView.editor.makeEditable(cell, { place, name, digits: 1 }),
    pausedState: () => page.sourceValues.machineState,
    names: () => collectExpressionNames(page),
    handleListChange: () => showNibbleNames(page),
    storeExpressions: (texts) => {
      if (!currentSession.session) return;
      currentSession.session.record.watched = texts;
      page.breakpoints.manager.setWatchExpressions(texts);
      currentSession.save();
    },
  });
}

/**
 * @param {Page} page
 * @param {import("./text/problems_view.js").ProblemsView} problems
 * @returns {MistakesView}
 */
export function makeMistakesView(page, problems) {
  const { preferences } = page.layout;
  return new MistakesView({
    describeAddress: (address) => addressWithName(hex(address, 3), page.source.map),
    goTo: (address) => page.snapshotView.goTo.show(address),
    stopAtMistakes: (kinds) => {
      page.bench.call("stopAtMistakes", [kinds]).catch((error) => page.recovery.reportFailure(error));
    },
    showCount: (count) => problems.showMistakeCount(count),
    storedKinds: () => preferences.get("stops"),
    storeKinds: (kinds) => preferences.set("stops", kinds),
  });
}
