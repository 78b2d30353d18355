// The requests that the page sends to the worker, by name. A request either succeeds completely, or throws and changes nothing.

import { BreakpointRequests } from "./breakpoint_requests.js";
import { FileRequests } from "./file_requests.js";
import { OutputRequests } from "./output_requests.js";
import { ProgramRequests } from "./program_requests.js";
import { ProofRequests } from "./proof_requests.js";
import { RecordingRequests } from "./recording_requests.js";
import { SessionRequests } from "./session_requests.js";
import { TimeRequests } from "./time_requests.js";
import { TravelRequests } from "./travel_requests.js";
import { TrialRequests } from "./trial_requests.js";
import { OpenBench } from "./open_bench.js";

/**
 * All requests, by name.
 * @typedef {Omit<FileRequests
 *   & TrialRequests
 *   & ProofRequests
 *   & SessionRequests
 *   & ProgramRequests
 *   & BreakpointRequests
 *   & TravelRequests
 *   & RecordingRequests
 *   & TimeRequests
 *   & OutputRequests, "bench" | "currentSearch" | "currentJudge">} Requests
 */

export class BenchCalls {
  /** @param {import("./open_bench.js").ShouldContinue} shouldContinue */
  constructor(shouldContinue) {
    this.bench = new OpenBench(shouldContinue);
    const { bench } = this;
    const requestGroups = [
      new FileRequests(bench),
      new TrialRequests(bench),
      new ProofRequests(bench),
      new SessionRequests(bench),
      new ProgramRequests(bench),
      new BreakpointRequests(bench),
      new TravelRequests(bench),
      new RecordingRequests(bench),
      new TimeRequests(bench),
      new OutputRequests(bench),
    ];
    for (const group of requestGroups) Object.assign(this, bindMethods(group));
  }
}

/**
 * Returns the methods of a group of requests by name, as functions that are bound to the group.
 * @param {object} group
 */
function bindMethods(group) {
  const names = Object.getOwnPropertyNames(Object.getPrototypeOf(group)).filter((name) => name !== "constructor");
  return Object.fromEntries(names.map((name) => [name, /** @type {any} */ (group)[name].bind(group)]));
}
