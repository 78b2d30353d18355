// Reports the progress of long tasks to clients that support the events `progressStart`, `progressUpdate` and `progressEnd`. The user can
// stop a task.

import { AdapterError } from "./dap_protocol.js";
import * as say from "../../words/adapter.js";

/** The time from the start of a task to the first report, and the minimum time between reports, in milliseconds. */
const FIRST_REPORT_DELAY_MS = 1000;
const REPORT_INTERVAL_MS = 500;

/** A long task whose progress is reported. */
class LongTask {
  /**
   * @param {Progress} progress
   * @param {string} title
   * @param {() => void} stop ends the task early
   */
  constructor(progress, title, stop) {
    this.progress = progress;
    this.title = title;
    this.stop = stop;
    this.id = "";
    this.dueTime = performance.now() + progress.firstReportDelay;
  }

  /**
   * Reports the progress if the next report is due.
   * @param {() => string} describeProgress returns the progress as text
   */
  reportIfDue(describeProgress) {
    const now = performance.now();
    if (!this.progress.isEnabled || now < this.dueTime) return;
    this.dueTime = now + REPORT_INTERVAL_MS;
    if (this.id === "") this.id = this.progress.start(this, describeProgress());
    else this.progress.sendEvent("progressUpdate", { progressId: this.id, message: describeProgress() });
  }

  /** Reports the end of the task, if its progress was reported. */
  end() {
    if (this.id !== "") this.progress.end(this.id);
    this.id = "";
  }
}

export class Progress {
  /** @param {(event: string, body: object) => void} sendEvent */
  constructor(sendEvent) {
    this.sendEvent = sendEvent;
    /** True if the client supports progress reports. */
    this.isEnabled = false;
    this.firstReportDelay = FIRST_REPORT_DELAY_MS;
    this.lastId = 0;
    /** @type {Map<string, LongTask>} the tasks whose progress is reported, by progress id */
    this.tasksById = new Map();
  }

  /**
   * Creates an object that reports the progress of a task. The task starts now.
   * @param {string} title
   * @param {() => void} stop ends the task early
   */
  createTask(title, stop) {
    return new LongTask(this, title, stop);
  }

  /**
   * Sends the first report of a task. Returns its new progress id.
   * @param {LongTask} task
   * @param {string} message
   */
  start(task, message) {
    this.lastId += 1;
    const progressId = `mcs4 ${this.lastId}`;
    this.tasksById.set(progressId, task);
    this.sendEvent("progressStart", { progressId, title: task.title, cancellable: true, message });
    return progressId;
  }

  /** @param {string} progressId */
  end(progressId) {
    this.tasksById.delete(progressId);
    this.sendEvent("progressEnd", { progressId });
  }

  /**
   * Stops the task that has the given progress id; throws AdapterError if there is no such task.
   * @param {string} progressId
   */
  stop(progressId) {
    const task = this.tasksById.get(progressId);
    if (!task) throw new AdapterError(say.unknownProgressIdMessage(progressId));
    task.stop();
  }
}
