// Manages the breakpoints of the current session in a list. The breakpoints in the list move with the source text. After each change of the
// list, the manager sends the breakpoints to the bench. If something else sets a breakpoint in the bench, for example a typed `break`, the
// manager adds this breakpoint to the list.

import { BreakpointList, MAX_BREAKPOINTS, MAX_ENABLED_BREAKPOINTS, instructionAtAddress, instructionForLine } from "./breakpoints.js";
import { isSoft } from "./soft_breakpoints.js";
import * as say from "../../words/debug.js";

/**
 * @typedef {import("../machine/source_map.js").SourceMap} SourceMap
 * @typedef {import("./breakpoints.js").Breakpoint} Breakpoint
 * @typedef {import("./breakpoints.js").Edit} Edit
 * @typedef {import("./breakpoints.js").SavedBreakpoint} SavedBreakpoint
 * @typedef {import("./debugger.js").Tally} Tally
 * @typedef {import("./soft_breakpoints.js").LocatedBreakpoint} LocatedBreakpoint
 */

/**
 * The functions with which the breakpoint manager uses the bench and the page.
 * @typedef {object} ManagerCallbacks
 * @property {(breakpoints: LocatedBreakpoint[]) => Promise<[number, string][]>} setBreakpoints Replaces all breakpoints of the bench.
 *   Resolves to the ids and error messages of breakpoints that cannot be compiled.
 * @property {() => void} handleChange Handles a change of the list or of its error messages.
 * @property {() => void} handleNewHits Handles a change of hit counts only.
 * @property {() => void} saveList Saves the list after a change that the user made.
 * @property {(message: string) => void} showMessage Shows a message near the user's last action.
 * @property {(error: unknown) => void} reportFailure Reports an error that `setBreakpoints` threw.
 */

const TOO_MANY_ENABLED = say.tooManyEnabledMessage(MAX_ENABLED_BREAKPOINTS);
/** The maximum number of sessions whose breakpoint lists are stored. */
const MAX_STORED_LISTS = 30;

/** Synchronizes the list of breakpoints with the breakpoints of the bench. */
export class BreakpointManager {
  /** @param {ManagerCallbacks} callbacks */
  constructor(callbacks) {
    this.callbacks = callbacks;
    this.list = new BreakpointList();
    /** @type {Map<string, BreakpointList>} the lists of recent sessions, by session id, in the order in which they were last opened */
    this.listsById = new Map();
    /** @type {SourceMap | null} the source map; null if the source is not the program in ROM */
    this.map = null;
    /** The reason why ROM does not contain the assembled source; "" if it does. */
    this.mapError = "";
    /** @type {string[]} the watch expressions; conditions can use their names */
    this.watchTexts = [];
    /** @type {Map<number, string>} the error messages of breakpoints that cannot be compiled, by id */
    this.errors = new Map();
    /** @type {Set<number> | null} the addresses of the bench's breakpoints; null before the bench first reports them for a session */
    this.benchAddresses = null;
    /** @type {string[] | null} the breakpoint addresses that the bench reported while a request was unanswered; used after the answer */
    this.postponedAddresses = null;
    /** True if the saved session contains a list of breakpoints. */
    this.hasSavedList = false;
    /** The number of unanswered requests to the bench, and the last request as JSON. */
    this.pendingCount = 0;
    this.lastRequest = "";
    /** @type {Promise<void>} resolves after all requests are answered */
    this.requestsDone = Promise.resolve();
    /**
     * @type {{ id: number, changes: Partial<SavedBreakpoint> } | null} the fields that the user is editing, with the id of their breakpoint
     */
    this.typedEdit = null;
  }

  // --- Reports from other parts of the page ---

  /**
   * Switches to the list of another session. If this list is still in memory and equals the saved breakpoints, reuses it, because only the
   * list in memory can restore breakpoints on undo.
   * @param {string} id the session id
   * @param {SavedBreakpoint[] | undefined} savedBreakpoints the saved breakpoints; if undefined, the breakpoints of the session file are
   *   used
   */
  switchToSession(id, savedBreakpoints) {
    const storedList = this.listsById.get(id);
    const isReusable = storedList && JSON.stringify(storedList.savedBreakpoints) === JSON.stringify(savedBreakpoints);
    this.list = storedList && isReusable ? storedList : new BreakpointList(savedBreakpoints);
    this.list.resetHits();
    this.listsById.delete(id);
    this.listsById.set(id, this.list);
    for (const oldestId of [...this.listsById.keys()].slice(0, -MAX_STORED_LISTS)) this.listsById.delete(oldestId);
    this.hasSavedList = savedBreakpoints !== undefined;
    this.map = null;
    this.mapError = "";
    this.benchAddresses = null;
    this.postponedAddresses = null;
    this.lastRequest = "";
    this.typedEdit = null;
    this.errors.clear();
    this.callbacks.handleChange();
  }

  /**
   * Sets the watch expressions.
   * @param {string[]} texts
   */
  setWatchExpressions(texts) {
    this.watchTexts = texts;
    if (this.benchAddresses) this.sendIfChanged();
  }

  /** Sends the list again after the bench has restarted, because a restart deletes the bench's breakpoints. */
  resend() {
    this.lastRequest = "";
    this.sendIfChanged();
  }

  /**
   * Moves the breakpoints after edits of the source text.
   * @param {Edit[]} edits the edits, in order
   */
  applyTextEdits(edits) {
    const effectiveEdits = edits.filter((edit) => this.list.applyEdit(edit));
    if (effectiveEdits.length === 0) return;
    if (this.benchAddresses) this.sendIfChanged();
    else this.callbacks.handleChange();
  }

  /**
   * Sets the source map, and moves each breakpoint to an instruction of the program in ROM.
   * @param {SourceMap | null} map null if the source is not the program in ROM
   * @param {string} reason the reason why `map` is null; "" if it is not null
   */
  setSourceMap(map, reason) {
    this.map = map;
    this.mapError = reason;
    if (!this.benchAddresses) return;
    const messages = map ? this.list.locate(map) : [];
    if (messages.length > 0) this.callbacks.showMessage(messages.join(" "));
    this.sendIfChanged();
  }

  /**
   * Updates the list from the bench's breakpoint addresses. While a request to the bench is unanswered, postpones the update.
   * @param {string[]} breaks the addresses, as hexadecimal digits
   */
  updateFromBench(breaks) {
    const addresses = breaks.map((address) => parseInt(address, 16));
    const previousAddresses = this.benchAddresses;
    if (previousAddresses && this.hasPendingRequest) {
      this.postponedAddresses = breaks;
      return;
    }
    this.benchAddresses = new Set(addresses);
    if (!previousAddresses) {
      // This is the first report since the session was opened. A session that was saved without a breakpoint list has the breakpoints of
      // its session file.
      if (!this.hasSavedList) for (const address of addresses) this.addFromBench(address);
      this.callbacks.handleChange();
      return;
    }
    const wantedAddresses = new Set(this.hardAddresses);
    const newAddresses = addresses.filter((address) => !wantedAddresses.has(address) && !previousAddresses.has(address));
    for (const address of newAddresses) this.addFromBench(address);
    const missingAddresses = [...wantedAddresses].filter((address) => previousAddresses.has(address) && !addresses.includes(address));
    for (const address of missingAddresses) this.removeBreakpointAt(address);
    this.sendIfChanged();
  }

  /** The addresses of the enabled breakpoints that stop the machine at every arrival. */
  get hardAddresses() {
    return this.list.locatedBreakpoints.filter((breakpoint) => !isSoft(breakpoint)).map(({ address }) => address);
  }

  /**
   * Adds a bench breakpoint to the list. If the list already has a breakpoint at the address, enables that breakpoint. If the list already
   * has a breakpoint on the line of the address, adds nothing.
   * @param {number} address
   */
  addFromBench(address) {
    const breakpoint = this.list.findByAddress(address);
    if (breakpoint) {
      this.list.change(breakpoint.id, { isOn: true });
      return;
    }
    const { map } = this;
    const instruction = map ? instructionAtAddress(address, map) : { line: 0, address, message: "" };
    if (instruction.message) this.callbacks.showMessage(instruction.message);
    if (instruction.line > 0 && this.list.findByLine(instruction.line)) return;
    this.list.add({ line: instruction.line, address: instruction.address });
  }

  /**
   * Removes from the list a breakpoint that the bench no longer has.
   * @param {number} address
   */
  removeBreakpointAt(address) {
    const breakpoint = this.list.findByAddress(address);
    if (breakpoint) this.list.remove(breakpoint.id);
  }

  /**
   * Adds the new hits in a tally to the hit counts of the list.
   * @param {Tally} tally
   */
  countHits({ hits }) {
    if (hits.length === 0) return;
    this.list.countHits(hits);
    this.callbacks.handleNewHits();
  }

  // --- Actions of the user ---

  /**
   * Removes the breakpoint of a line, or adds a breakpoint if the line has none. If the line has no instruction, adds the breakpoint at the
   * next instruction.
   * @param {number} line
   */
  toggleLine(line) {
    const existingBreakpoint = this.list.findByLine(line);
    if (existingBreakpoint) {
      this.remove(existingBreakpoint.id);
      return;
    }
    const instruction = this.map ? instructionForLine(line, this.map) : { line, address: -1, message: this.inactiveMessage() };
    if (instruction.message) this.callbacks.showMessage(instruction.message);
    if (instruction.line !== line && this.list.findByLine(instruction.line)) return;
    if (this.map && instruction.address < 0) return;
    this.add({ line: instruction.line, address: instruction.address });
  }

  /**
   * Returns the breakpoint of a line; adds a breakpoint if the line has none. If the line has no instruction, uses the line of the next
   * instruction. Returns undefined if no instruction follows, or if the list is full.
   * @param {number} line
   */
  findOrAddOnLine(line) {
    if (!this.list.findByLine(line)) this.toggleLine(line);
    const nextLine = this.map ? instructionForLine(line, this.map).line : line;
    return this.list.findByLine(line) || this.list.findByLine(nextLine);
  }

  /** Returns a message that explains why a new breakpoint has no effect yet; "" if no reason is known. */
  inactiveMessage() {
    return this.mapError ? say.inactiveUntilThen(this.mapError) : "";
  }

  /**
   * Removes the breakpoint at an address, or adds a breakpoint if there is none. If the address is the second byte of an instruction, adds
   * the breakpoint at the next instruction.
   * @param {number} address
   */
  toggleAddress(address) {
    const existingBreakpoint = this.list.findByAddress(address);
    if (existingBreakpoint) {
      this.remove(existingBreakpoint.id);
      return;
    }
    const instruction = this.map ? instructionAtAddress(address, this.map) : { line: 0, address, message: "" };
    if (instruction.message) this.callbacks.showMessage(instruction.message);
    this.add({ line: instruction.line, address: instruction.address });
  }

  /**
   * Adds a breakpoint. If the maximum number of breakpoints is already enabled, disables the new breakpoint. If the list is full, shows a
   * message instead.
   * @param {Partial<SavedBreakpoint>} fields
   */
  add(fields) {
    if (this.list.all.length >= MAX_BREAKPOINTS) {
      this.callbacks.showMessage(say.tooManyBreakpointsMessage(MAX_BREAKPOINTS));
      return;
    }
    const isFull = this.list.enabledCount >= MAX_ENABLED_BREAKPOINTS;
    if (isFull) this.callbacks.showMessage(TOO_MANY_ENABLED);
    this.list.add({ ...fields, isOn: !isFull });
    this.saveAndSend();
  }

  /** @param {number} id */
  remove(id) {
    this.list.remove(id);
    this.saveAndSend();
  }

  /**
   * Saves the changes of a breakpoint while the user types. The bench does not receive them until the user has finished and `change` is
   * called.
   * @param {number} id
   * @param {Partial<SavedBreakpoint>} changes the changed fields
   */
  saveTypedEdit(id, changes) {
    this.typedEdit = { id, changes };
    this.callbacks.handleChange();
    this.callbacks.saveList();
  }

  /**
   * The breakpoints to save in the session, including the changes that the user is typing.
   * @returns {SavedBreakpoint[]}
   */
  get savedBreakpoints() {
    const { list, typedEdit } = this;
    return list.savedBreakpoints.map((breakpoint, index) => (
      typedEdit && typedEdit.id === list.all[index].id ? { ...breakpoint, ...typedEdit.changes } : breakpoint));
  }

  /**
   * Changes some fields of a breakpoint. If the change would exceed the maximum number of enabled breakpoints, only shows a message.
   * @param {number} id
   * @param {Partial<SavedBreakpoint>} changes the changed fields
   */
  change(id, changes) {
    const breakpoint = this.list.get(id);
    if (!breakpoint) return;
    if (this.typedEdit && this.typedEdit.id === id) this.typedEdit = null;
    else if (JSON.stringify({ ...breakpoint, ...changes }) === JSON.stringify(breakpoint)) return;
    if (changes.isOn && !breakpoint.isOn && this.list.enabledCount >= MAX_ENABLED_BREAKPOINTS) {
      this.callbacks.showMessage(TOO_MANY_ENABLED);
      this.callbacks.handleChange();
      return;
    }
    this.list.change(id, changes);
    this.saveAndSend();
  }

  /**
   * Enables as many breakpoints as possible, or disables all breakpoints.
   * @param {boolean} isOn
   */
  switchAll(isOn) {
    let freeCount = MAX_ENABLED_BREAKPOINTS;
    for (const { id } of [...this.list.all]) {
      this.list.change(id, { isOn: isOn && freeCount > 0 });
      freeCount -= 1;
    }
    this.saveAndSend();
  }

  removeAll() {
    this.list.all = [];
    this.saveAndSend();
  }

  /** Resets the hit counts in the list, and sends the list again to reset the debugger's hit counts. */
  resetHits() {
    this.list.resetHits();
    this.lastRequest = "";
    this.sendIfChanged();
  }

  // --- The bench ---

  /** True while a request to the bench is unanswered. */
  get hasPendingRequest() {
    return this.pendingCount > 0;
  }

  /** Saves a change by the user, and sends it to the bench. */
  saveAndSend() {
    this.callbacks.saveList();
    this.sendIfChanged();
  }

  /**
   * Reports the change, and sends the list to the bench unless the bench already has this list. `requestsDone` resolves after the bench has
   * set the breakpoints.
   */
  sendIfChanged() {
    this.callbacks.handleChange();
    const { locatedBreakpoints } = this.list;
    // The request includes the source text and the watch expressions, because they define the names in conditions.
    const names = locatedBreakpoints.some(isSoft) ? [this.map ? this.map.text : "", this.watchTexts] : [];
    const request = JSON.stringify([names, locatedBreakpoints.map((breakpoint) => ({ ...breakpoint, line: 0, hits: 0 }))]);
    const hasNoBreakpoint = locatedBreakpoints.length === 0 && this.benchAddresses !== null && this.benchAddresses.size === 0;
    if (request === this.lastRequest || (this.lastRequest === "" && hasNoBreakpoint)) return;
    this.lastRequest = request;
    this.send(locatedBreakpoints);
  }

  /**
   * Sends breakpoints to the bench at once, before any later request. Handles the answers in the order of the requests.
   * @param {LocatedBreakpoint[]} breakpoints
   */
  send(breakpoints) {
    const { list, hardAddresses } = this;
    this.pendingCount += 1;
    this.requestsDone = Promise.all([this.callbacks.setBreakpoints(breakpoints), this.requestsDone])
      .finally(() => {
        this.pendingCount -= 1;
      })
      .then(([errors]) => this.handleAnswer(list, hardAddresses, errors))
      .catch((error) => this.callbacks.reportFailure(error));
  }

  /**
   * Handles the bench's answer to a request that set breakpoints.
   * @param {BreakpointList} list the list whose breakpoints were set
   * @param {number[]} hardAddresses the addresses of the breakpoints that stop the machine at every arrival
   * @param {[number, string][]} errors the ids and error messages of breakpoints that cannot be compiled
   */
  handleAnswer(list, hardAddresses, errors) {
    if (list !== this.list) return;
    this.errors = new Map(errors);
    this.benchAddresses = new Set(hardAddresses);
    this.callbacks.handleChange();
    this.applyPostponedAddresses();
  }

  /** Applies the addresses that the bench reported during a request. They can differ from the list if the user typed `break` meanwhile. */
  applyPostponedAddresses() {
    const { postponedAddresses } = this;
    if (this.hasPendingRequest || !postponedAddresses) return;
    this.postponedAddresses = null;
    this.updateFromBench(postponedAddresses);
  }
}
