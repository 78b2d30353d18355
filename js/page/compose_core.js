// Creates the components that run the board, execute the session's commands and save the session. Connects them to the page's other
// components.

import { addressWithName, describeBreakpointCondition } from "../words/stops.js";
import { LineServer } from "./lines/line_server.js";
import { Recovery } from "./recovery.js";
import { CurrentSession } from "./session/current_session.js";
import { RunController } from "./time/run_controller.js";

/** @typedef {import("./bench_page.js").Page} Page */

/**
 * @param {Page} page
 * @returns {CurrentSession}
 */
export function makeCurrentSession(page) {
  return new CurrentSession(page.bench, page.store, {
    showSession: (record) => page.showSession(record),
    show: (state) => page.show(state),
    checkSource: () => page.checkSource(),
    checkTestsAndProperties: () => page.checkTestsAndProperties(),
    run: () => page.runController.run(),
    showPaused: (reason) => page.runController.endRun(reason),
    pauseTime: () => page.runController.stopRun(),
    describeCounter: () => page.runController.counterText,
    handleSessionChange: () => page.sessionsController.handleSessionChange(),
    takeRuns: () => page.logView.takeRuns(),
    logRuns: (runs, saveError) => page.logView.showRuns(runs, saveError),
    showSaveError: (message) => (message ? page.notice.show(message, "saveError") : page.notice.hide("saveError")),
    showSaveState: (state) => page.layout.status.showSaveState(state),
  }, page.storedHistory);
}

/**
 * @param {Page} page
 * @returns {Recovery}
 */
export function makeRecovery(page) {
  return new Recovery(page.bench, page.errorMessages, page.notice, {
    session: () => page.currentSession.session,
    isRunning: () => page.runController.clock.isRunning,
    stopClock: () => page.runController.clock.stop(),
    showPaused: (reason) => page.runController.endRun(reason),
    showLastFrame: (frame) => page.runController.handleFrame(frame),
    reopenSession: async (record) => {
      page.show(await page.currentSession.openInBench(record));
      page.breakpoints.manager.resend();
    },
  });
}

/**
 * @param {Page} page
 * @returns {RunController}
 */
export function makeRunController(page) {
  const { currentSession } = page;
  return new RunController(page.bench, currentSession, {
    handleRunStart: () => page.mistakesView.clear(),
    handleRunEnd: () => page.scope.showPaused(),
    showFrame: (frame) => {
      page.logView.collectRuns(frame.runEntries);
      page.mistakesView.show(frame.tally.mistakes);
      page.heatView.handleFrame(frame);
      page.show(frame, true, frame.litShares);
      page.breakpoints.handleTally(frame.tally);
    },
    updateThrottledViews: () => page.snapshotView.updateThrottledViews(),
    drawListing: () => page.snapshotView.showListing(),
    isSecondCyclePending: () => {
      const { registers } = page.snapshotView.reader;
      return registers !== null && registers.owed === "1";
    },
    cycles: () => page.cyclesView.cycles.total,
    describeCounter: () => addressWithName(page.snapshotView.counter, page.source.map),
    describeCondition: (id) => describeBreakpointCondition(page.breakpoints.manager.list.get(id), page.breakpoints.manager.errors.get(id)),
    countInvalidBreakpoints: () => page.breakpoints.manager.errors.size,
    describeRefusal: (number) => page.errorMessages.refusalMeaning(number),
    step: () => page.lineServer.serveLines("step\n"),
    reportFailure: (error) => page.recovery.reportFailure(error),
  });
}

/**
 * @param {Page} page
 * @returns {LineServer}
 */
export function makeLineServer(page) {
  const { currentSession, runController } = page;
  return new LineServer(page.bench, page.errorMessages, page.notice, {
    map: () => page.source.map,
    runWithProgress: (description, work) => page.progressView.show(description, (signal, progress) => work({ signal, progress })),
    counter: () => page.snapshotView.counter,
    show: (result) => {
      if (result.hasChangedRom) page.snapshotView.discardRom();
      page.show(result);
    },
    checkSource: () => page.checkSource(),
    save: () => currentSession.markChangedAndSave(),
    log: (entries, saveError) => page.logView.show(entries, saveError),
    handleTally: (tally) => page.breakpoints.handleTally(tally),
    isRunning: () => runController.clock.isRunning,
    discardGoal: () => runController.discardGoal(),
    describeStop: (stop) => runController.describeStop(stop, null),
    showMessage: (message) => runController.showMessage(message),
    reportFailure: (error) => page.recovery.reportFailure(error),
  });
}
