// Manages the breakpoints that the client sets on lines, labels and addresses. Merges these breakpoints with those that the session already
// had, into one list for the debugger. Also manages data breakpoints, which watch a place, and exception filters, which stop the machine at
// common mistakes.

import { watchedPlaces } from "../bench/answers.js";
import { LAST_ADDRESS } from "../bench/numbers.js";
import { compileCondition } from "../conditions/condition_language.js";
import {
  BreakpointList, MAX_BREAKPOINTS, MAX_ENABLED_BREAKPOINTS, instructionAtAddress, instructionForLine,
} from "../debug/breakpoints.js";
import { parsePlace } from "../conditions/places.js";
import { watchablePlace } from "../debug/data_watches.js";
import { MAX_PIECE_CYCLES } from "../debug/debug_session.js";
import { MAX_CYCLES_PER_CALL } from "../debug/common_mistakes.js";
import { optionalList, requireNumber, requireText, optionalText, errorMessage } from "./dap_protocol.js";
import * as say from "../../words/adapter.js";
import { errorInColumn, noLabelMessage } from "../../words/conditions.js";
import { MISTAKE_KINDS } from "../../words/debug.js";
import { stopsEachTime } from "../../words/machine.js";

/**
 * @typedef {import("../debug/debug_session.js").DebugSession} DebugSession
 * @typedef {import("../debug/common_mistakes.js").Kind} MistakeKind
 *
 * A breakpoint that the client requested. `address` is -1 if no instruction was found. `from` is the number of the first hit that stops the
 * machine. `note` is the text to log instead of stopping, or "". `error` is the error message, "" if the breakpoint can be set.
 * @typedef {{ id: number, line: number, address: number, condition: string, from: number, note: string,
 *   error: string }} RequestedBreakpoint
 *
 * A breakpoint in a response; `line` counts from 1.
 * @typedef {{ id: number, verified: boolean, line?: number, message?: string, address: number }} SentBreakpoint
 * @typedef {"lines" | "labels" | "addresses"} BreakpointKind
 *
 * A data breakpoint that the client requested. `name` is the name of the place. `error` is the error message, "" if the place can be
 * watched.
 * @typedef {{ id: number, name: string, condition: string, from: number, error: string }} RequestedDataBreakpoint
 * @typedef {{ kind: string, condition: string }} RequestedFilter a requested exception filter: the kind of mistake, and the condition of
 *   the filter ("" for none)
 */

/** @type {Omit<RequestedBreakpoint, "id">} */
const DEFAULT_BREAKPOINT = { line: 0, address: -1, condition: "", from: 1, note: "", error: "" };
/** Matches a hit condition such as `5`, `= 5` or `> 4`, and captures its number. */
const HIT_CONDITION = /^(?:>=|=|==|>)?\s*(\d{1,9})$/;
/** The maximum number of RAM characters that the bench can watch. */
const MAX_WATCHES = 8;

/**
 * Parses a hit condition such as `5` or `> 4`. Returns the number of the first hit that stops the machine (`from`), and an error message
 * ("" for none).
 * @param {string} text
 */
function parseHitCondition(text) {
  const trimmed = text.trim();
  if (trimmed === "") return { from: 1, error: "" };
  const match = HIT_CONDITION.exec(trimmed);
  const from = match ? Number(match[1]) + (trimmed.startsWith(">") && !trimmed.startsWith(">=") ? 1 : 0) : 0;
  return from >= 1 ? { from, error: "" } : { from: 1, error: say.HIT_COUNT_SYNTAX };
}

/**
 * Reads the fields that a line, label or address breakpoint can have in a request.
 * @param {any} requested
 */
function readCommonFields(requested) {
  const { from, error } = parseHitCondition(optionalText(requested, "hitCondition"));
  return { condition: optionalText(requested, "condition"), note: optionalText(requested, "logMessage"), from, error };
}

/**
 * Adds an offset to the address of a reference. `error` is the error message, "" for none. If the reference has no address,
 * `requestedAddress` is -1. A sum outside ROM is also an error.
 * @param {string} reference
 * @param {number} offset
 * @param {(reference: string) => number} addressOf returns the address of a reference; throws if the reference has no address
 */
function resolveAddress(reference, offset, addressOf) {
  try {
    const requestedAddress = addressOf(reference) + offset;
    return { requestedAddress, error: requestedAddress >= 0 && requestedAddress <= LAST_ADDRESS ? "" : say.ADDRESS_RANGE };
  } catch (thrown) {
    return { requestedAddress: -1, error: errorMessage(thrown) };
  }
}

export class ClientBreakpoints {
  /** @param {DebugSession} session */
  constructor(session) {
    this.session = session;
    this.lastId = 0;
    /** @type {Record<BreakpointKind, RequestedBreakpoint[]>} the breakpoints that the client requested, by kind */
    this.requestedByKind = { lines: [], labels: [], addresses: [] };
    /** The addresses of the bench's breakpoints that the client did not set. */
    this.nonClientAddresses = session.debugger.session.breakpointAddresses;
    /**
     * The RAM characters that the bench watches, except those that it watches for the client. Each has the form `B 0xSS`: its bank and its
     * SRC byte.
     */
    this.nonClientWatches = readBenchWatches(session);
    /** @type {string[]} the RAM characters that the bench watches for the client, in the form of `nonClientWatches` */
    this.clientWatches = [];
    /** @type {RequestedDataBreakpoint[]} the data breakpoints that the client requested */
    this.dataBreakpoints = [];
    /** @type {RequestedFilter[]} the exception filters that the client requested */
    this.exceptionFilters = [];
    /** @type {Map<number, RequestedBreakpoint>} the requested breakpoints, by their ids in the debugger's list */
    this.requestedById = new Map();
  }

  /**
   * Copies the breakpoints and filters that were set before a restart. Moves each line breakpoint to its instruction in the new program.
   * Resolves to the breakpoints that moved.
   * @param {ClientBreakpoints} other
   */
  async copyBreakpointsFrom({ requestedByKind, lastId, dataBreakpoints, exceptionFilters }) {
    Object.assign(this, { requestedByKind, lastId, dataBreakpoints, exceptionFilters });
    await this.applyDataBreakpoints();
    this.applyExceptionFilters();
    return this.relocateLineBreakpoints();
  }

  /**
   * Returns a requested breakpoint with a new id.
   * @param {Partial<RequestedBreakpoint>} fields
   */
  createBreakpoint(fields) {
    this.lastId += 1;
    return { ...DEFAULT_BREAKPOINT, ...fields, id: this.lastId };
  }

  // --- requests of the client ---

  /**
   * Handles the `setBreakpoints` request.
   * @param {any} args
   * @param {(line: number) => number} lineOf converts the client's line number to a line number that counts from 1
   */
  setLineBreakpoints(args, lineOf) {
    const { map } = this.session;
    return this.setRequestedBreakpoints("lines", optionalList(args, "breakpoints").map((requested) => {
      const { line, address, message: error } = instructionForLine(lineOf(requireNumber(requested, "line")), map);
      return this.createBreakpoint({ ...readCommonFields(requested), line, address, ...(address < 0 ? { error } : {}) });
    }));
  }

  /**
   * Handles the `setFunctionBreakpoints` request: sets breakpoints on labels.
   * @param {any} args
   */
  setLabelBreakpoints(args) {
    const { map } = this.session;
    return this.setRequestedBreakpoints("labels", optionalList(args, "breakpoints").map((requested) => {
      const name = requireText(requested, "name").trim();
      const programName = map.names.get(name);
      const message = programName && programName.isLabel ? "" : noLabelMessage(name);
      const address = programName && programName.isLabel ? programName.value : -1;
      const line = address < 0 ? 0 : map.lineOf(address);
      return this.createBreakpoint({ ...readCommonFields(requested), line, address, ...(message ? { error: message } : {}) });
    }));
  }

  /**
   * Handles the `setInstructionBreakpoints` request.
   * @param {any} args
   * @param {(reference: string) => number} addressOf returns the address of a memory reference
   */
  setAddressBreakpoints(args, addressOf) {
    const { map } = this.session;
    return this.setRequestedBreakpoints("addresses", optionalList(args, "breakpoints").map((requested) => {
      const [reference, offset] = [requireText(requested, "instructionReference"), requireNumber(requested, "offset", 0)];
      const { requestedAddress, error } = resolveAddress(reference, offset, addressOf);
      const { line, address } = error === "" ? instructionAtAddress(requestedAddress, map) : { line: 0, address: -1 };
      return this.createBreakpoint({ ...readCommonFields(requested), line, address, ...(error === "" ? {} : { error }) });
    }));
  }

  /**
   * Replaces the requested breakpoints of a kind. Resolves to the breakpoints in the response.
   * @param {BreakpointKind} kind
   * @param {RequestedBreakpoint[]} requested
   */
  async setRequestedBreakpoints(kind, requested) {
    this.requestedByKind[kind] = requested;
    const errors = await this.applyBreakpoints();
    return requested.map((breakpoint) => this.toSentBreakpoint(breakpoint, errors.get(breakpoint) || ""));
  }

  /**
   * Converts a breakpoint to its form in a response.
   * @param {RequestedBreakpoint} requested
   * @param {string} applyError the error message of `applyBreakpoints` for this breakpoint, "" for none
   * @returns {SentBreakpoint}
   */
  toSentBreakpoint({ id, line, address, error }, applyError) {
    const message = error || applyError;
    return { id, verified: message === "", ...(line > 0 ? { line } : {}), ...(message ? { message } : {}), address };
  }

  // --- the debugger's list ---

  /** Returns all breakpoints without errors, by address. At an address with a client breakpoint, any other breakpoint is omitted. */
  mergeBreakpoints() {
    /** @type {Map<number, RequestedBreakpoint>} */
    const byAddress = new Map();
    const { lines, labels, addresses } = this.requestedByKind;
    for (const breakpoint of [...lines, ...labels, ...addresses]) {
      const { address, error } = breakpoint;
      if (error === "" && address >= 0 && !byAddress.has(address)) byAddress.set(address, breakpoint);
    }
    for (const address of this.nonClientAddresses) {
      if (!byAddress.has(address)) byAddress.set(address, { ...DEFAULT_BREAKPOINT, id: 0, address });
    }
    return byAddress;
  }

  /**
   * Sets the debugger's breakpoints. Resolves to a map with an error message for each breakpoint that cannot be set, or whose condition or
   * note has an error.
   */
  async applyBreakpoints() {
    const { session } = this;
    /** @type {Map<RequestedBreakpoint, string>} */
    const errors = new Map();
    const breakpoints = [...this.mergeBreakpoints().values()];
    const isOverLimit = (/** @type {number} */ index) => index >= MAX_ENABLED_BREAKPOINTS;
    const limitMessage = say.tooManyEnabledMessage(MAX_ENABLED_BREAKPOINTS);
    breakpoints.forEach((breakpoint, index) => isOverLimit(index) && errors.set(breakpoint, limitMessage));
    const hitsByAddress = new Map([...this.requestedById].map(([id, { address }]) => (
      [address, (session.breakpoints.get(id) || { hits: 0 }).hits])));
    session.breakpoints = new BreakpointList();
    this.requestedById.clear();
    for (const breakpoint of breakpoints.slice(0, Math.min(MAX_ENABLED_BREAKPOINTS, MAX_BREAKPOINTS))) {
      const { address, condition, from, note } = breakpoint;
      const addedBreakpoint = session.breakpoints.add({ address, condition, from, note });
      addedBreakpoint.hits = hitsByAddress.get(address) || 0;
      this.requestedById.set(addedBreakpoint.id, breakpoint);
    }
    const { errors: compileErrors } = await session.applyBreakpoints();
    for (const [id, message] of compileErrors) {
      errors.set(/** @type {RequestedBreakpoint} */ (this.requestedById.get(id)), stopsEachTime(message));
    }
    return errors;
  }

  /**
   * Returns the client's id for the breakpoint that stopped the machine, and the stop reason in the protocol. The id is 0 if the client did
   * not set the breakpoint.
   * @param {number} id the breakpoint id in the debugger's list
   */
  describeHit(id) {
    const breakpoint = this.requestedById.get(id);
    if (!breakpoint || breakpoint.id === 0) return { id: 0, reason: "breakpoint" };
    const { labels, addresses } = this.requestedByKind;
    if (labels.includes(breakpoint)) return { id: breakpoint.id, reason: "function breakpoint" };
    return { id: breakpoint.id, reason: addresses.includes(breakpoint) ? "instruction breakpoint" : "breakpoint" };
  }

  /** Moves each line breakpoint to its instruction after a program change. Resolves to the breakpoints that moved. */
  async relocateLineBreakpoints() {
    const { map } = this.session;
    const movedBreakpoints = this.requestedByKind.lines.filter((breakpoint) => {
      const { line, address, message } = instructionForLine(Math.max(1, breakpoint.line), map);
      const hasMoved = line !== breakpoint.line || address !== breakpoint.address;
      // If the breakpoint had no instruction before, its old error message no longer applies.
      const remainingError = breakpoint.address < 0 ? "" : breakpoint.error;
      Object.assign(breakpoint, { line, address, error: address < 0 ? message : remainingError });
      return hasMoved;
    });
    await this.applyBreakpoints();
    return movedBreakpoints.map((breakpoint) => this.toSentBreakpoint(breakpoint, ""));
  }

  // --- data breakpoints ---

  /**
   * Handles the `setDataBreakpoints` request.
   * @param {any} args
   */
  async setDataBreakpoints(args) {
    const { board } = this.session.debugger.session.statusQueries;
    this.dataBreakpoints = optionalList(args, "breakpoints").map((requested) => {
      const name = requireText(requested, "dataId");
      const { from, error: hitConditionError } = parseHitCondition(optionalText(requested, "hitCondition"));
      const place = watchablePlace(name, board);
      const access = optionalText(requested, "accessType") || "write";
      this.lastId += 1;
      const error = !place ? say.notWatchedMessage(name) : access !== "write" ? say.ONLY_CHANGES : hitConditionError;
      return { id: this.lastId, name: place ? place.name : name, condition: optionalText(requested, "condition"), from, error };
    });
    const errors = await this.applyDataBreakpoints();
    return this.dataBreakpoints.map(({ id, error }) => {
      const message = error || errors.get(id) || "";
      return { id, verified: message === "", ...(message ? { message } : {}) };
    });
  }

  /**
   * Sets the watches of the session. The bench watches RAM characters whose data breakpoints have no condition and no hit count, up to
   * MAX_WATCHES in total. The debugger watches all other places. Resolves to the error messages, by the id of the data breakpoint.
   */
  async applyDataBreakpoints() {
    const { session, nonClientWatches } = this;
    const validRequests = this.dataBreakpoints.filter(({ error }) => error === "");
    const freeCount = MAX_WATCHES - nonClientWatches.length;
    const unconditionalRequests = validRequests.filter(({ name, condition, from }) => (
      watchOperands(name) !== "" && condition.trim() === "" && from === 1));
    const ramPlaces = [...new Set(unconditionalRequests.map(({ name }) => watchOperands(name)))];
    const watches = ramPlaces.filter((place) => !nonClientWatches.includes(place)).slice(0, freeCount);
    const removedWatches = this.clientWatches.filter((place) => !watches.includes(place));
    const addedWatches = watches.filter((place) => !this.clientWatches.includes(place));
    const lines = [...removedWatches.map((place) => `unwatch ${place}\n`), ...addedWatches.map((place) => `watch ${place}\n`)].join("");
    if (lines) await session.debugger.session.serve(lines, async () => true);
    this.clientWatches = watches;
    const benchWatches = readBenchWatches(session);
    const isWatchedByBench = (/** @type {RequestedDataBreakpoint} */ request) => (
      unconditionalRequests.includes(request) && benchWatches.includes(watchOperands(request.name)));
    return session.debugger.setWatches(validRequests.filter((request) => !isWatchedByBench(request)), session.names);
  }

  // --- common mistakes ---

  /**
   * Handles the `setExceptionBreakpoints` request.
   * @param {any} args
   */
  setExceptionFilters(args) {
    const unconditionalFilters = optionalList(args, "filters").map((kind) => ({ kind: String(kind), condition: "" }));
    const options = optionalList(args, "filterOptions").map((option) => (
      { kind: requireText(option, "filterId"), condition: optionalText(option, "condition") }));
    this.exceptionFilters = [...unconditionalFilters, ...options];
    return this.applyExceptionFilters();
  }

  /**
   * Sets the kinds of mistakes that stop the machine. A filter whose condition has an error stops the machine at each mistake of its kind.
   * Returns the response for each filter.
   */
  applyExceptionFilters() {
    const { session, exceptionFilters } = this;
    const { commonMistakes } = session.debugger;
    commonMistakes.stoppingKinds = new Set();
    commonMistakes.conditions = new Map();
    const responses = exceptionFilters.map(({ kind, condition: text }) => {
      if (!Object.prototype.hasOwnProperty.call(MISTAKE_KINDS, kind)) return { verified: false, message: say.unknownFilterMessage(kind) };
      const mistakeKind = /** @type {MistakeKind} */ (kind);
      const isUnconditional = text.trim() === "";
      const { condition, error, column } = isUnconditional ? { condition: null, error: "", column: -1 }
        : compileCondition(text, session.names);
      commonMistakes.stoppingKinds.add(mistakeKind);
      if (condition) commonMistakes.conditions.set(mistakeKind, condition);
      return error ? { verified: false, message: stopsEachTime(errorInColumn(error, column)) } : { verified: true };
    });
    // The debugger checks every instruction for mistakes only if a piece has at most MAX_CYCLES_PER_CALL cycles.
    if (session.maxPieceCycles >= MAX_CYCLES_PER_CALL) {
      session.maxPieceCycles = commonMistakes.stoppingKinds.size > 0 ? MAX_CYCLES_PER_CALL : MAX_PIECE_CYCLES;
    }
    return responses;
  }

  /**
   * Updates the lists of breakpoints and watches that the client did not set. Called after console lines have changed breakpoints or
   * watches.
   */
  updateNonClientBreakpoints() {
    const { lines, labels, addresses } = this.requestedByKind;
    const clientAddresses = new Set([...lines, ...labels, ...addresses].map(({ address }) => address));
    this.nonClientAddresses = this.session.debugger.session.breakpointAddresses.filter((address) => !clientAddresses.has(address));
    this.nonClientWatches = readBenchWatches(this.session).filter((place) => !this.clientWatches.includes(place));
  }

  /** Removes the client's breakpoints and watches. Resolves to an error message, "" if there is no error. */
  async removeClientBreakpoints() {
    this.requestedByKind = { lines: [], labels: [], addresses: [] };
    try {
      await this.applyBreakpoints();
      await this.setDataBreakpoints({});
    } catch (thrown) {
      return errorMessage(thrown);
    }
    return "";
  }
}

/**
 * Returns the RAM characters that the bench watches, each in the form `B 0xSS` (its bank and its SRC byte).
 * @param {DebugSession} session
 */
function readBenchWatches(session) {
  return watchedPlaces(session.debugger.session.ask("watches\n")[0]).map(watchOperands);
}

/**
 * Returns the operands of a `watch` line for a RAM character: `B 0xSS`, its bank and its SRC byte. Returns "" for any other place.
 * @param {string} name
 */
export function watchOperands(name) {
  const place = parsePlace(name);
  const match = place && /^ram\.([0-7])\.0x([0-9A-F]{2})$/.exec(place.name);
  return match ? `${match[1]} 0x${match[2]}` : "";
}

/**
 * Returns the response to `dataBreakpointInfo` for a place; null if the place cannot be watched.
 * @param {string} name
 * @param {DebugSession} session
 */
export function describeDataBreakpoint(name, session) {
  const place = watchablePlace(name, session.debugger.session.statusQueries.board);
  return place ? { dataId: place.name, description: say.placeChanges(place.name), canPersist: true } : null;
}
