// Controls the breakpoints of the current session: their list, their marks in the margin and in the disassembly, their panel, the form that
// edits a breakpoint, and the margin menu.

import { BreakpointManager } from "../../core/debug/breakpoint_manager.js";
import { breakpointMarks } from "../../core/machine/breakpoint_marks.js";
import { commandById } from "../commands/command_table.js";
import { ContextMenu } from "../commands/menu_view.js";
import { BreakpointForm } from "./breakpoint_form.js";
import { BreakpointsView } from "./breakpoints_view.js";
import * as say from "../../words/machine.js";

/**
 * @typedef {import("../../core/engine/breakpoint_requests.js").BreakpointRequests} BreakpointRequests
 * @typedef {import("../../core/bench/bench_client.js").Caller<BreakpointRequests>} Bench
 * @typedef {import("../../core/bench/protocol.js").LinesReply} LinesReply
 * @typedef {import("../../core/debug/debugger.js").Tally} Tally
 * @typedef {import("../../core/debug/soft_breakpoints.js").LocatedBreakpoint} LocatedBreakpoint
 * @typedef {import("../session/open_session.js").OpenSession} OpenSession
 * @typedef {import("../session/store.js").SessionRecord} SessionRecord
 * @typedef {import("../../core/machine/breakpoint_marks.js").BreakpointMark} BreakpointMark
 * @typedef {import("../../core/machine/source_map.js").SourceMap} SourceMap
 *
 * @typedef {import("../../core/debug/breakpoints.js").Breakpoint} Breakpoint
 * @typedef {import("./breakpoint_form.js").BreakpointField} BreakpointField
 */

/**
 * The callbacks of the breakpoints controller. Source lines count from 1.
 * @typedef {object} BreakpointsCalls
 * @property {() => OpenSession | null} session Returns the current session, whose record stores the breakpoints, or null if there is none.
 * @property {() => void} saveSession Saves the session after the user has changed breakpoints.
 * @property {() => { board: string, program: string }} texts Returns the current text of the board and of the source.
 * @property {(result: LinesReply) => Promise<void>} handleResult Saves, shows and logs the result of lines that set the bench's
 *   breakpoints.
 * @property {(result: LinesReply) => void} showSession Shows the session after a call that set breakpoints without executing lines.
 * @property {(lines: Map<number, BreakpointMark>, addresses: Map<number, BreakpointMark>) => void} showMarks Shows marks at source lines
 *   and at addresses of the disassembly.
 * @property {(address: number) => void} goTo Shows an address in the source and in the disassembly.
 * @property {(line: number) => void} reveal Scrolls the source to a line.
 * @property {(line: number, node: HTMLElement | null) => void} showElementBelow Shows an element below a source line; null removes the
 *   element.
 * @property {(action: () => void) => void} callAfterLayout Calls `action` after the next layout of the source.
 * @property {() => void} showSource Brings the source to the front.
 * @property {() => void} focusSource Moves the focus to the source.
 * @property {(line: number) => void} runTo Runs to a line of the source.
 * @property {() => Promise<void>} ensureSourceChecked Compares the source with ROM if the source was edited since the last comparison.
 *   Resolves when the comparison is complete.
 * @property {() => Promise<void>} checkSource Compares the source with ROM, even if the source was not edited. Resolves when the comparison
 *   is complete.
 * @property {(message: string) => void} showMessage Shows a message near the user's last action.
 * @property {(error: unknown) => void} reportFailure Reports an error that a call threw.
 */

export class BreakpointsController {
  /**
   * @param {Bench} bench
   * @param {BreakpointsCalls} calls
   */
  constructor(bench, calls) {
    this.bench = bench;
    this.calls = calls;
    /** @type {BreakpointManager} */
    this.manager = this.makeManager();
    this.view = this.makeView();
    this.form = this.makeForm();
    this.menu = new ContextMenu("margin-menu", say.LINE);
  }

  makeManager() {
    const { calls } = this;
    return new BreakpointManager({
      setBreakpoints: (locatedBreakpoints) => this.sendBreakpoints(locatedBreakpoints),
      handleChange: () => this.show(),
      handleNewHits: () => this.view.showHits(this.manager),
      saveList: calls.saveSession,
      showMessage: calls.showMessage,
      reportFailure: calls.reportFailure,
    });
  }

  makeView() {
    const { calls } = this;
    return new BreakpointsView({
      change: (id, changes) => this.manager.change(id, changes),
      edit: (breakpoint) => this.edit(breakpoint, "condition"),
      remove: (id) => this.manager.remove(id),
      switchAll: (isOn) => this.manager.switchAll(isOn),
      removeAll: () => this.manager.removeAll(),
      resetHits: () => this.manager.resetHits(),
      goTo: ({ line, address }) => {
        if (address >= 0) calls.goTo(address);
        if (line > 0) calls.reveal(line);
      },
    });
  }

  makeForm() {
    const { calls } = this;
    return new BreakpointForm({
      change: (id, changes) => this.manager.change(id, changes),
      showTypedTexts: (id, changes) => this.manager.saveTypedEdit(id, changes),
      waitForChanges: () => this.manager.requestsDone,
      placeForm: ({ id, line }, node) => {
        calls.showElementBelow(line, line > 0 ? node : null);
        const root = this.view.rowElement(id);
        if (line === 0 && root && !root.contains(node)) root.append(node);
      },
      callWhenPlaced: calls.callAfterLayout,
      removeForm: (node) => {
        calls.showElementBelow(0, null);
        node.remove();
      },
      returnFocus: ({ id, line }) => (line > 0 ? calls.focusSource() : this.view.focus(id)),
    });
  }

  /**
   * Opens the form for a breakpoint: below the breakpoint's source line, or in the list if the breakpoint has no line.
   * @param {Breakpoint} breakpoint
   * @param {BreakpointField} fieldName the field that receives the caret
   */
  edit(breakpoint, fieldName) {
    const { line } = breakpoint;
    if (line > 0) this.calls.showSource();
    if (line > 0) this.calls.reveal(line);
    this.form.open(breakpoint, this.manager.errors.get(breakpoint.id) || "", fieldName);
  }

  /**
   * Opens the margin menu for a source line.
   * @param {number} line
   * @param {{ left: number, bottom: number }} point
   */
  openMenu(line, point) {
    const { manager, calls } = this;
    const [toggleKey, conditionKey] = ["debug.breakpoint", "debug.condition"].map((id) => commandById(id).keys[0]);
    const breakpoint = manager.list.findByLine(line);
    const makeAction = (/** @type {() => Promise<void>} */ work) => () => {
      work().catch(calls.reportFailure);
    };
    this.menu.open([
      {
        label: breakpoint ? say.REMOVE_BREAKPOINT_ITEM : say.ADD_BREAKPOINT_ITEM, key: toggleKey,
        act: makeAction(() => this.toggleBreakpointAt(line)),
      },
      { label: say.CONDITION, key: conditionKey, act: makeAction(() => this.editBreakpointAt(line, "condition")) },
      { label: say.HIT_COUNT, act: makeAction(() => this.editBreakpointAt(line, "from")) },
      { label: say.LOG_MESSAGE, act: makeAction(() => this.editBreakpointAt(line, "note")) },
      ...(breakpoint ? [{
        label: breakpoint.isOn ? say.DISABLE_BREAKPOINT_ITEM : say.ENABLE_BREAKPOINT_ITEM,
        act: () => manager.change(breakpoint.id, { isOn: !breakpoint.isOn }),
      }] : []),
      { label: say.RUN_TO_LINE, act: () => calls.runTo(line) },
    ], point);
  }

  /** Returns the board's text, the source and the watch expressions, which define the names that conditions can use. */
  texts() {
    const { board, program } = this.calls.texts();
    return { board, program: this.manager.map ? this.manager.map.text : program, watched: this.manager.watchTexts };
  }

  /**
   * Sends breakpoints to the bench. Resolves to the id and the error of each breakpoint whose condition or message has an error.
   * @param {LocatedBreakpoint[]} locatedBreakpoints
   * @returns {Promise<[number, string][]>}
   */
  async sendBreakpoints(locatedBreakpoints) {
    const { errors, ...result } = await this.bench.call("setBreakpoints", [locatedBreakpoints, this.texts()]);
    if (result.entries.length > 0) await this.calls.handleResult(result);
    else this.calls.showSession(result);
    return errors;
  }

  show() {
    const session = this.calls.session();
    const { list, errors, savedBreakpoints } = this.manager;
    if (session) session.record.breakpoints = savedBreakpoints;
    const { lines, addresses } = breakpointMarks(list.all, errors);
    this.calls.showMarks(lines, addresses);
    this.view.show(this.manager);
    this.form.show((id) => list.get(id), errors);
  }

  /** @param {SessionRecord} record the record of the session to show */
  open(record) {
    this.form.close();
    this.view.clearLog();
    this.manager.watchTexts = record.watched || [];
    this.manager.switchToSession(record.id, record.breakpoints);
  }

  /** @param {number} line */
  async toggleBreakpointAt(line) {
    await this.calls.ensureSourceChecked();
    this.manager.toggleLine(line);
  }

  /**
   * Opens a field of the breakpoint at a line. Creates the breakpoint first if there is none.
   * @param {number} line
   * @param {BreakpointField} fieldName
   */
  async editBreakpointAt(line, fieldName) {
    await this.calls.ensureSourceChecked();
    const breakpoint = this.manager.findOrAddOnLine(line);
    if (breakpoint) this.edit(breakpoint, fieldName);
  }

  /**
   * Updates the addresses of the breakpoints after the source was loaded into ROM. Resolves when all addresses are up to date.
   * @param {boolean} wasReset true if the processor was reset, which also resets the hit counts
   */
  async handleAssembly(wasReset) {
    if (wasReset) this.manager.resetHits();
    await this.calls.checkSource();
    await this.manager.requestsDone;
  }

  /**
   * Updates the hit counts, and appends the log messages of breakpoints to the log below the list.
   * @param {Tally} tally the new hit counts and log messages
   */
  handleTally(tally) {
    this.manager.countHits(tally);
    this.view.log(tally, this.manager);
  }
}
