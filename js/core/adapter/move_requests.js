// Handlers for requests that move the machine: continue, step, go back, restart a frame, go to a line.

import { LAST_ADDRESS, hex } from "../bench/numbers.js";
import { instructionForLine } from "../debug/breakpoints.js";
import { isCall } from "../engine/rom_codes.js";
import { getField } from "../server/framing.js";
import { ResponseWithFollowUp } from "./adapter_connection.js";
import { readStackFrames } from "./frames.js";
import { formatReference } from "./memory.js";
import { AdapterError, NOT_STOPPED, fail, requireNumber } from "./dap_protocol.js";
import * as say from "../../words/adapter.js";
import { NO_OPEN_CALL } from "../../words/stops.js";

/**
 * @typedef {import("./adapter_connection.js").RequestHandler} RequestHandler
 * @typedef {import("./debug_adapter.js").DebugAdapter} DebugAdapter
 * @typedef {import("./debugged_machine.js").Machine} Machine
 */

/** The thread id of the processor, the only thread. */
export const THREAD_ID = 1;

export class MoveHandlers {
  /** @param {DebugAdapter} adapter */
  constructor(adapter) {
    this.adapter = adapter;
  }

  /**
   * Returns the handlers of the move requests, by command.
   * @returns {Record<string, RequestHandler>}
   */
  handlers() {
    const moveHandler = (/** @type {(machine: Machine) => void} */ startMove) => (
      (/** @type {any} */ args) => this.createMoveResponse(args, startMove));
    return {
      continue: (args) => {
        const { followUp } = this.createMoveResponse(args, (machine) => machine.runToGoal(null));
        return new ResponseWithFollowUp({ allThreadsContinued: true }, followUp);
      },
      next: moveHandler((machine) => machine.runToGoal({ kind: "over" })),
      stepIn: (args) => this.stepIn(args),
      stepInTargets: (args) => {
        this.checkPaused();
        return this.adapter.currentSession.queryHandlers.stepInTargets(args);
      },
      stepOut: (args) => this.stepOut(args),
      stepBack: moveHandler((machine) => machine.goBack({ kind: "instruction" })),
      reverseContinue: moveHandler((machine) => machine.goBack({ kind: "arrival", place: "" })),
      restartFrame: (args) => this.restartFrame(args),
      pause: () => {
        const { machine } = this.adapter.currentSession;
        return new ResponseWithFollowUp(undefined, () => machine.pause());
      },
      gotoTargets: (args) => this.gotoTargets(args),
      goto: (args) => this.goto(args),
    };
  }

  /**
   * Returns the response to a move request. The move begins after the response is sent. Throws AdapterError if the machine is not paused.
   * @param {any} args
   * @param {(machine: Machine) => void} startMove starts the move
   */
  createMoveResponse(args, startMove) {
    this.checkPaused();
    this.checkThread(args);
    const { machine } = this.adapter.currentSession;
    return new ResponseWithFollowUp(undefined, () => startMove(machine));
  }

  /** @param {any} args */
  stepIn(args) {
    const target = requireNumber(args, "targetId", -1);
    if (target < 0) return this.createMoveResponse(args, (machine) => machine.stepInto());
    const { session } = this.adapter.currentSession.launchResult;
    if (!(target <= LAST_ADDRESS) || !isCall(session.debugger.session.romBytes[target])) fail(say.NO_SUCH_TARGET);
    return this.createMoveResponse(args, (machine) => machine.stepIntoCall(target));
  }

  /** @param {any} args */
  stepOut(args) {
    const response = this.createMoveResponse(args, (machine) => machine.runToGoal({ kind: "out" }));
    if (readStackFrames(this.adapter.currentSession.launchResult.session).length === 1) throw new AdapterError(NO_OPEN_CALL, true);
    return response;
  }

  /** @param {any} args */
  restartFrame(args) {
    this.checkPaused();
    const { machine, queryHandlers } = this.adapter.currentSession;
    const { call, returns } = queryHandlers.requestedFrame(args);
    if (call < 0) throw new AdapterError(say.PROGRAM_FRAME_HAS_NO_CALLER, true);
    return new ResponseWithFollowUp(undefined, () => machine.goBack({ kind: "call", call, returns }));
  }

  /** Throws AdapterError if the machine runs, or if the client has not sent `configurationDone` yet. */
  checkPaused() {
    if (!this.adapter.isConfigured) fail(say.CONFIGURATION_NOT_DONE);
    if (this.adapter.currentSession.machine.isMoving) fail(NOT_STOPPED);
  }

  /** @param {any} args */
  checkThread(args) {
    if (requireNumber(args, "threadId", THREAD_ID) !== THREAD_ID) fail(say.ONLY_ONE_THREAD);
  }

  /** @param {any} args */
  gotoTargets(args) {
    const { currentSession: { launchResult: { session }, queryHandlers }, firstLine } = this.adapter;
    if (!queryHandlers.isProgram(getField(args, "source"))) return { targets: [] };
    const instruction = instructionForLine(requireNumber(args, "line") + 1 - firstLine, session.map);
    if (instruction.address < 0) return { targets: [] };
    const label = session.map.nameOf(instruction.address) || hex(instruction.address, 3);
    const instructionPointerReference = formatReference(instruction.address);
    return { targets: [{ id: instruction.address, label, line: instruction.line - 1 + firstLine, instructionPointerReference }] };
  }

  /** @param {any} args */
  async goto(args) {
    this.checkPaused();
    this.checkThread(args);
    const { machine, launchResult } = this.adapter.currentSession;
    const address = requireNumber(args, "targetId");
    if (!(address >= 0 && address <= LAST_ADDRESS)) fail(say.NO_SUCH_TARGET);
    await launchResult.session.debugger.session.serve(`poke pc ${address}\n`, async () => true);
    await machine.saveAndReport();
    return new ResponseWithFollowUp(undefined, () => this.adapter.sendStopped(this.adapter.createMoveEnd("goto")));
  }
}
