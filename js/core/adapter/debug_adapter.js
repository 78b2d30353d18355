// The debug adapter: an editor launches a program on a board, or opens a session file. The editor then sets breakpoints, runs forward and
// back, and shows the machine state. The page uses the same debugger (debug/debug_session.js).
//
//     const adapter = new DebugAdapter(new AdapterConnection(write), engine, texts, host);    // session_launch.js describes the host
//     connection.receive(bytes);                                         // whenever bytes from the client arrive
//     await adapter.leave();                                             // after the connection has ended

import { Face } from "../board/face.js";
import { instructionForLine } from "../debug/breakpoints.js";
import { MISTAKE_KINDS } from "../../words/debug.js";
import { pausedAt } from "../../words/stops.js";
import { readInstructions } from "../help/manual.js";
import { getField } from "../server/framing.js";
import { ErrorMessages } from "../bench/error_messages.js";
import { ResponseWithFollowUp } from "./adapter_connection.js";
import { QueryHandlers } from "./query_handlers.js";
import { ClientBreakpoints, describeDataBreakpoint } from "./client_breakpoints.js";
import { Console, findAddress } from "./console.js";
import { attach, describeDifference, launch } from "./session_launch.js";
import { Machine } from "./debugged_machine.js";
import { formatReference } from "./memory.js";
import { MoveHandlers, THREAD_ID } from "./move_requests.js";
import { requestedBase } from "./number_format.js";
import { Progress } from "./progress.js";
import { NOT_STOPPED, fail, optionalList, requireNumber, requireText, optionalText } from "./dap_protocol.js";
import { Scopes } from "./scopes.js";
import { RemoteFrontPanel, changeKey } from "./remote_front_panel.js";
import * as say from "../../words/adapter.js";

/**
 * @typedef {import("./adapter_connection.js").RequestHandler} RequestHandler
 * @typedef {import("./adapter_connection.js").AdapterConnection} AdapterConnection
 * @typedef {import("./session_launch.js").Host} Host
 * @typedef {import("./session_launch.js").LaunchResult} LaunchResult
 * @typedef {import("./debugged_machine.js").MoveEnd} MoveEnd
 *
 * The parts of a debug session, which exists from `launch` or `attach` until the end of debugging.
 * @typedef {{ launchResult: LaunchResult, machine: Machine, breakpoints: ClientBreakpoints, console: Console,
 *   queryHandlers: QueryHandlers }} OpenSession
 */

const CAPABILITIES = {
  supportsConfigurationDoneRequest: true,
  supportsFunctionBreakpoints: true,
  supportsConditionalBreakpoints: true,
  supportsHitConditionalBreakpoints: true,
  supportsLogPoints: true,
  supportsDataBreakpoints: true,
  supportsInstructionBreakpoints: true,
  supportsBreakpointLocationsRequest: true,
  supportsEvaluateForHovers: true,
  supportsStepBack: true,
  supportsSetVariable: true,
  supportsSetExpression: true,
  supportsRestartRequest: true,
  supportsGotoTargetsRequest: true,
  supportsCompletionsRequest: true,
  supportsDisassembleRequest: true,
  supportsReadMemoryRequest: true,
  supportsWriteMemoryRequest: true,
  supportsSteppingGranularity: true,
  supportsLoadedSourcesRequest: true,
  supportsTerminateRequest: true,
  supportsExceptionInfoRequest: true,
  supportsExceptionFilterOptions: true,
  supportsStepInTargetsRequest: true,
  supportsRestartFrame: true,
  supportsCancelRequest: true,
  supportsValueFormattingOptions: true,
  supportsDelayedStackTraceLoading: true,
  supportsClipboardContext: true,
  completionTriggerCharacters: [" ", "@", "."],
  exceptionBreakpointFilters: Object.entries(MISTAKE_KINDS).map(([filter, label]) => (
    { filter, label, default: false, supportsCondition: true, conditionDescription: say.EXCEPTION_CONDITION_HINT })),
};

export class DebugAdapter {
  /**
   * @param {AdapterConnection} connection
   * @param {import("../engine/engine_host.js").EngineHost} engine
   * @param {{ refusals: Record<string, string>, manual: import("../help/manual.js").ManualSection[] }} texts the refusal messages and the
   *   manual
   * @param {Host & { end: (status: number) => void }} host
   */
  constructor(connection, engine, { refusals, manual }, host) {
    this.connection = connection;
    this.engine = engine;
    this.host = host;
    this.errorMessages = new ErrorMessages(refusals);
    this.instructions = readInstructions(manual);
    /** The number that the client gives to the first line, and to the first column: 0 or 1. */
    this.firstLine = 1;
    this.firstColumn = 1;
    /** True if the client supports the event `invalidated`. */
    this.supportsInvalidatedEvent = false;
    /** True if the client supports the event `memory`. */
    this.supportsMemoryEvent = false;
    this.progress = new Progress((event, body) => connection.sendEvent(event, body));
    this.moveHandlers = new MoveHandlers(this);
    /** @type {OpenSession | null} the debug session; null before launch or attach, and after the end of debugging */
    this.openSession = null;
    /** True after the request `configurationDone`. */
    this.isConfigured = false;
    /** @type {Promise<string> | null} the result of `endDebugging`; null before `leave` is called */
    this.leavePromise = null;
    /** @type {MoveEnd | null} the end of the last move; null before the first move */
    this.lastStop = null;
    /** @type {RemoteFrontPanel | null} the reports to a client that draws the front panel; null until the client asks for them */
    this.remoteFrontPanel = null;
    connection.handlers = {
      ...this.lifecycleHandlers(), ...this.breakpointHandlers(), ...this.moveHandlers.handlers(), ...this.stateHandlers(),
    };
    connection.stopTask = (id) => this.progress.stop(id);
  }

  /**
   * The debug session. Throws AdapterError if there is none.
   * @returns {OpenSession}
   */
  get currentSession() {
    return this.openSession || fail(say.NOTHING_LAUNCHED);
  }

  // --- from launch to disconnect ---

  /**
   * Returns the handlers of the requests from `initialize` to `disconnect`, by command.
   * @returns {Record<string, RequestHandler>}
   */
  lifecycleHandlers() {
    return {
      initialize: (args) => {
        if (optionalText(args, "pathFormat") === "uri") fail(say.PATHS_ONLY);
        this.firstLine = getField(args, "linesStartAt1") === false ? 0 : 1;
        this.firstColumn = getField(args, "columnsStartAt1") === false ? 0 : 1;
        this.supportsInvalidatedEvent = getField(args, "supportsInvalidatedEvent") === true;
        this.supportsMemoryEvent = getField(args, "supportsMemoryEvent") === true;
        this.progress.isEnabled = getField(args, "supportsProgressReporting") === true;
        return CAPABILITIES;
      },
      cancel: (args) => this.connection.cancel(args),
      launch: (args) => this.launch(args, launch),
      attach: (args) => this.launch(args, attach),
      configurationDone: () => {
        const { launchResult } = this.currentSession;
        if (this.isConfigured) fail(say.CONFIGURED_ONCE);
        this.isConfigured = true;
        return new ResponseWithFollowUp(undefined, () => (
          launchResult.stopsOnEntry ? this.sendStopped(this.createMoveEnd("entry")) : this.currentSession.machine.runToGoal(null)));
      },
      restart: (args) => this.restart(args),
      terminate: () => new ResponseWithFollowUp(undefined, () => {
        this.leave().then(() => this.connection.sendEvent("terminated"));
      }),
      disconnect: async () => {
        const message = await this.leave();
        if (message) this.sendOutput(`${message}\n`, "stderr");
        return new ResponseWithFollowUp(undefined, () => this.host.end(message ? 1 : 0));
      },
    };
  }

  /**
   * Handles the requests `launch` and `attach`. Throws AdapterError if a session is already open.
   * @param {any} args
   * @param {typeof launch} createSession the function `launch` or `attach`, which creates the session
   */
  async launch(args, createSession) {
    if (this.openSession) fail(say.LAUNCH_ONCE);
    await this.beginSession(await createSession(this.engine, args, this.host, this.errorMessages));
    return new ResponseWithFollowUp(undefined, () => this.connection.sendEvent("initialized"));
  }

  /**
   * Begins a debug session, which replaces any earlier session.
   * @param {LaunchResult} launchResult
   */
  async beginSession(launchResult) {
    const { session } = launchResult;
    /** @type {Machine} */
    const machine = new Machine(session, launchResult.writer, {
      handleStop: (moveEnd) => this.sendStopped(moveEnd),
      output: (text, category) => this.sendOutput(text, category),
      pause: this.host.pause,
      handleStateChange: () => this.sendFrontPanel(),
      startTask: (title) => this.progress.createTask(title, () => machine.pause()),
    }, launchResult.isRealTime);
    const breakpoints = new ClientBreakpoints(session);
    await breakpoints.applyBreakpoints();
    const face = new Face(session.boardText);
    const frontPanelText = () => machine.frontPanelText.currentText();
    const expressionContext = { session, face, instructions: this.instructions, frontPanelText };
    const debugConsole = new Console(machine, expressionContext, this.errorMessages, {
      handleBreakpointChange: () => breakpoints.updateNonClientBreakpoints(), handleRomChange: () => this.reportRomDifference(launchResult),
    });
    const queryHandlers = new QueryHandlers(launchResult, new Scopes(session, face), expressionContext, this);
    this.openSession = { launchResult, machine, breakpoints, console: debugConsole, queryHandlers };
    if (this.remoteFrontPanel) this.remoteFrontPanel = new RemoteFrontPanel(machine);
    this.sendFrontPanel();
    if (launchResult.note) this.sendOutput(`${launchResult.note}\n`, "console");
  }

  /**
   * Warns the user if the bytes in ROM differ from the assembled source.
   * @param {LaunchResult} launchResult
   */
  reportRomDifference({ session }) {
    const message = describeDifference(session);
    if (message) this.sendOutput(`${say.sourceDiffers(message)}\n`, "console");
  }

  /**
   * Handles the `restart` request. Resets a session that is saved to a file. Launches any other session again, from the current source
   * files or session file.
   * @param {any} args
   */
  async restart(args) {
    const { machine, launchResult, breakpoints } = this.currentSession;
    await this.pauseAndWait();
    if (launchResult.writer) {
      await launchResult.session.debugger.session.serve("reset\n", async () => true);
      await machine.saveAndReport();
    } else {
      const newArgs = getField(args, "arguments");
      const launchArgs = newArgs === undefined ? launchResult.args : newArgs;
      const createSession = launchResult.isAttached ? attach : launch;
      await this.beginSession(await createSession(this.engine, launchArgs, this.host, this.errorMessages));
      const movedBreakpoints = await this.currentSession.breakpoints.copyBreakpointsFrom(breakpoints);
      for (const movedBreakpoint of movedBreakpoints) this.sendBreakpoint(movedBreakpoint);
    }
    return new ResponseWithFollowUp(undefined, () => this.sendStopped(this.createMoveEnd("entry")));
  }

  /** Pauses the machine and waits for the end of its move. */
  async pauseAndWait() {
    if (!this.openSession) return;
    const { machine } = this.openSession;
    machine.pause();
    await machine.move;
  }

  /**
   * Ends debugging: removes the client's breakpoints, and saves the session if it has a file. Resolves to an error message, "" for none.
   */
  leave() {
    if (!this.leavePromise) this.leavePromise = this.endDebugging();
    return this.leavePromise;
  }

  async endDebugging() {
    const { openSession } = this;
    if (!openSession) return "";
    await this.pauseAndWait();
    this.openSession = null;
    const { writer, session } = openSession.launchResult;
    if (!writer) return "";
    const message = await openSession.breakpoints.removeClientBreakpoints();
    try {
      await writer.write(session.debugger.session);
      return message;
    } catch (thrown) {
      return thrown instanceof Error ? thrown.message : String(thrown);
    } finally {
      await writer.end();
    }
  }

  // --- breakpoints ---

  /**
   * Returns the handlers of the requests about breakpoints, by command.
   * @returns {Record<string, RequestHandler>}
   */
  breakpointHandlers() {
    return {
      setBreakpoints: (args) => this.setBreakpoints(args),
      setFunctionBreakpoints: (args) => this.changeBreakpoints((breakpoints) => breakpoints.setLabelBreakpoints(args)),
      setInstructionBreakpoints: (args) => (
        this.changeBreakpoints((breakpoints) => breakpoints.setAddressBreakpoints(args, (reference) => this.resolveReference(reference)))),
      dataBreakpointInfo: (args) => this.dataBreakpointInfo(args),
      setDataBreakpoints: (args) => {
        const { machine, breakpoints } = this.currentSession;
        return machine.runWhenFree(async () => ({ breakpoints: await breakpoints.setDataBreakpoints(args) }));
      },
      setExceptionBreakpoints: (args) => {
        const { machine, breakpoints } = this.currentSession;
        return machine.runWhenFree(() => ({ breakpoints: breakpoints.setExceptionFilters(args) }));
      },
      breakpointLocations: (args) => this.breakpointLocations(args),
    };
  }

  /** @param {any} args */
  setBreakpoints(args) {
    const source = getField(args, "source");
    const { queryHandlers, launchResult } = this.currentSession;
    if (queryHandlers.isProgram(source) && launchResult.isDebugged) {
      return this.changeBreakpoints((breakpoints) => breakpoints.setLineBreakpoints(args, (line) => line + 1 - this.firstLine));
    }
    const message = launchResult.isDebugged ? say.notInProgramMessage(queryHandlers.programName)
      : say.RUNS_WITHOUT_DEBUGGER;
    const breakpoints = optionalList(args, "breakpoints");
    return { breakpoints: breakpoints.map((requested) => ({ verified: false, line: requireNumber(requested, "line"), message })) };
  }

  /** @param {(breakpoints: ClientBreakpoints) => Promise<import("./client_breakpoints.js").SentBreakpoint[]>} action */
  async changeBreakpoints(action) {
    const { machine, breakpoints } = this.currentSession;
    const sentBreakpoints = await machine.runWhenFree(() => action(breakpoints));
    return { breakpoints: sentBreakpoints.map((breakpoint) => this.toProtocolBreakpoint(breakpoint)) };
  }

  /** @param {import("./client_breakpoints.js").SentBreakpoint} breakpoint */
  toProtocolBreakpoint({ address, line, ...breakpoint }) {
    const sourceFields = line === undefined ? {} : { line: line - 1 + this.firstLine, source: this.currentSession.queryHandlers.source };
    return { ...breakpoint, ...sourceFields, ...(address >= 0 ? { instructionReference: formatReference(address) } : {}) };
  }

  /** @param {import("./client_breakpoints.js").SentBreakpoint} breakpoint */
  sendBreakpoint(breakpoint) {
    this.connection.sendEvent("breakpoint", { reason: "changed", breakpoint: this.toProtocolBreakpoint(breakpoint) });
  }

  /** @param {any} args */
  dataBreakpointInfo(args) {
    const { queryHandlers, launchResult } = this.currentSession;
    const name = requireText(args, "name");
    const reference = requireNumber(args, "variablesReference", 0);
    const placeName = reference > 0 ? queryHandlers.findWatchPlace(reference, name) : name;
    const dataBreakpoint = describeDataBreakpoint(placeName, launchResult.session);
    if (!dataBreakpoint) return { dataId: null, description: say.notWatchedMessage(name) };
    return { ...dataBreakpoint, accessTypes: ["write"] };
  }

  /** @param {any} args */
  breakpointLocations(args) {
    const { session } = this.currentSession.launchResult;
    if (!this.currentSession.queryHandlers.isProgram(getField(args, "source"))) return { breakpoints: [] };
    const from = requireNumber(args, "line");
    const to = Math.min(requireNumber(args, "endLine", from), from + 65536);
    const lines = [];
    for (let line = from; line <= to; line++) {
      const programLine = line + 1 - this.firstLine;
      if (instructionForLine(programLine, session.map).line === programLine && session.map.addressOf(programLine) !== undefined) {
        lines.push({ line });
      }
    }
    return { breakpoints: lines };
  }

  // --- requests ---

  /**
   * Returns the handlers of the requests about the machine state and the front panel, by command.
   * @returns {Record<string, RequestHandler>}
   */
  stateHandlers() {
    const requirePaused = (/** @type {(queryHandlers: QueryHandlers, args: any) => unknown} */ action) => (/** @type {any} */ args) => {
      const { machine, queryHandlers } = this.currentSession;
      if (machine.isMoving) fail(NOT_STOPPED);
      return action(queryHandlers, args);
    };
    return {
      threads: () => ({ threads: [{ id: THREAD_ID, name: "4004" }] }),
      stackTrace: requirePaused((queryHandlers, args) => queryHandlers.stackTrace(args)),
      scopes: requirePaused((queryHandlers, args) => queryHandlers.listScopes(args)),
      variables: requirePaused((queryHandlers, args) => queryHandlers.variables(args)),
      setVariable: requirePaused(async (queryHandlers, args) => this.saveAfterChange(await queryHandlers.setVariable(args))),
      setExpression: requirePaused(async (queryHandlers, args) => this.saveAfterChange(await queryHandlers.setExpression(args))),
      disassemble: requirePaused((queryHandlers, args) => queryHandlers.disassemble(args, (reference) => this.resolveReference(reference))),
      readMemory: requirePaused((queryHandlers, args) => queryHandlers.readMemory(args, (reference) => this.resolveReference(reference))),
      writeMemory: requirePaused((queryHandlers, args) => this.writeMemory(queryHandlers, args)),
      completions: (args) => this.currentSession.queryHandlers.completions(args),
      loadedSources: () => ({ sources: [this.currentSession.queryHandlers.source] }),
      source: (args) => this.currentSession.queryHandlers.sourceText(args),
      exceptionInfo: () => {
        const { reason, message } = this.lastStop || { reason: "", message: "" };
        return { exceptionId: reason || "none", description: message, breakMode: "always" };
      },
      evaluate: (args, pending) => this.evaluate(args, pending),
      pressKey: (args) => this.pressOrReleaseKey("press", args),
      releaseKey: (args) => this.pressOrReleaseKey("release", args),
      watchBoard: () => {
        this.remoteFrontPanel = new RemoteFrontPanel(this.currentSession.machine);
        return this.remoteFrontPanel.takeChanges();
      },
      changeKey: (args) => this.changeKey(args),
      clearPrintout: () => (this.remoteFrontPanel ? this.remoteFrontPanel.clear() : undefined),
    };
  }

  /**
   * Returns the ROM address of a label or number; throws AdapterError for any other reference.
   * @param {string} reference
   */
  resolveReference(reference) {
    const { console: debugConsole } = this.currentSession;
    return findAddress(reference, debugConsole.context);
  }

  /**
   * Saves the session after a request has changed the session. Resolves to the result of the request, unchanged.
   * @template Result
   * @param {Result} result
   */
  async saveAfterChange(result) {
    const { machine } = this.currentSession;
    await machine.saveAndReport();
    return result;
  }

  /**
   * Handles the `writeMemory` request. Then sends the event `memory` if the client supports it.
   * @param {QueryHandlers} queryHandlers
   * @param {any} args
   */
  async writeMemory(queryHandlers, args) {
    const writeResult = await this.saveAfterChange(await queryHandlers.writeMemory(args, (reference) => this.resolveReference(reference)));
    const { offset, bytesWritten: count } = writeResult;
    if (!this.supportsMemoryEvent || count === 0) return writeResult;
    const memory = { memoryReference: requireText(args, "memoryReference"), offset: requireNumber(args, "offset", 0) + offset, count };
    return new ResponseWithFollowUp(writeResult, () => this.connection.sendEvent("memory", memory));
  }

  /**
   * Handles the `evaluate` request: executes a line of the debug console (`repl`), or evaluates an expression.
   * @param {any} args
   * @param {import("./adapter_connection.js").PendingRequest} pending
   */
  async evaluate(args, pending) {
    const { machine, console: debugConsole, queryHandlers } = this.currentSession;
    const [expression, context, base] = [requireText(args, "expression"), optionalText(args, "context"), requestedBase(args)];
    if (context !== "repl") return machine.runWhenFree(() => queryHandlers.evaluate(expression, context, base));
    const task = this.progress.createTask(say.RUNNING_LINES, () => { pending.isCancelled = true; });
    const shouldContinue = async (/** @type {number} */ done) => {
      task.reportIfDue(() => say.characterProgress(done, expression.length));
      await this.host.pause();
      return !pending.isCancelled;
    };
    const lineResult = machine.runWhenFree(() => debugConsole.serveLine(expression, shouldContinue, base));
    const { text, changes, move } = await lineResult.finally(() => task.end());
    if (move) this.moveHandlers.checkPaused();
    const wasPaused = !machine.isMoving && this.isConfigured;
    if (changes && !machine.isMoving) await machine.saveAndReport();
    return new ResponseWithFollowUp({ result: text, variablesReference: 0 }, () => {
      if (move) move();
      else if (changes && wasPaused) this.sendInvalidated();
    });
  }

  /** Makes the client read the machine state again, after a console line has changed the machine. */
  sendInvalidated() {
    this.lastStop = this.createMoveEnd("step");
    if (this.supportsInvalidatedEvent) this.connection.sendEvent("invalidated", { areas: ["all"] });
    else this.sendStopped(this.lastStop);
  }

  /**
   * Presses or releases a key, as the console line `press` or `release` does.
   * @param {"press" | "release"} word
   * @param {any} args
   */
  async pressOrReleaseKey(word, args) {
    const { machine, console: debugConsole } = this.currentSession;
    const key = requireText(args, "key");
    const { text } = await machine.runWhenFree(() => debugConsole.pressOrReleaseKeys(word, [key]));
    if (!machine.isMoving) await machine.saveAndReport();
    return { words: text };
  }

  /**
   * Handles the request `changeKey`: presses or releases a key of the drawn front panel.
   * @param {any} args `place` (the key's row and column, or TEST) and `isDown`
   */
  async changeKey(args) {
    const { machine, console: debugConsole } = this.currentSession;
    const key = requireText(args, "place");
    await machine.runWhenFree(() => changeKey(machine, debugConsole, key, getField(args, "isDown") === true));
    if (!machine.isMoving) await machine.saveAndReport();
    return {};
  }

  // --- events ---

  /** Sends the changes of the front panel, if the client draws the front panel. */
  sendFrontPanel() {
    const { remoteFrontPanel } = this;
    const changes = remoteFrontPanel ? remoteFrontPanel.takeChanges() : {};
    if (Object.keys(changes).length > 0) this.connection.sendEvent("boardShown", changes);
  }

  /**
   * Returns a `MoveEnd` for a pause that is not a stop of the debugger, for example after a launch or a `goto`.
   * @param {string} reason a stop reason of the protocol
   * @returns {MoveEnd}
   */
  createMoveEnd(reason) {
    return { reason, message: pausedAt(this.currentSession.launchResult.session.counterText), id: 0 };
  }

  /**
   * Sends the event `stopped`.
   * @param {MoveEnd} moveEnd
   */
  sendStopped(moveEnd) {
    const { openSession } = this;
    if (!openSession) return;
    this.lastStop = moveEnd;
    this.sendFrontPanel();
    const isDataBreakpoint = moveEnd.reason === "data breakpoint";
    const hit = moveEnd.reason === "breakpoint" ? openSession.breakpoints.describeHit(moveEnd.id)
      : { id: isDataBreakpoint ? moveEnd.id : 0, reason: moveEnd.reason };
    this.connection.sendEvent("stopped", {
      reason: hit.reason, description: moveEnd.message, threadId: THREAD_ID, allThreadsStopped: true,
      ...(hit.id > 0 ? { hitBreakpointIds: [hit.id] } : {}),
    });
  }

  /**
   * Sends the event `output`.
   * @param {string} output
   * @param {"console" | "stdout" | "stderr"} category
   */
  sendOutput(output, category) {
    this.connection.sendEvent("output", { category, output });
  }
}
