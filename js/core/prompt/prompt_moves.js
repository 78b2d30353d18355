// Moves that only the prompt offers: several steps back, a step back over a subroutine call, and a run during which a key is pressed and
// released.

import { isCall, isReturn } from "../engine/rom_codes.js";
import { KEY_DOWN_CYCLES, TOOL_KEY_UP_CYCLES } from "../time/mcs4_time.js";
import * as say from "../../words/prompt.js";
import { describeTimeTravel } from "../../words/stops.js";

/**
 * @typedef {import("../debug/debug_session.js").DebugSession} DebugSession
 * @typedef {import("../debug/debugger.js").ShouldContinue} ShouldContinue
 */

/**
 * Steps back over several instructions, or over fewer if the stored past contains fewer. `goForward` then undoes all these steps. In the
 * result, `message` contains the total number of cycles of these steps.
 * @param {DebugSession} session
 * @param {number} count at least 1
 * @param {ShouldContinue} shouldContinue
 */
export async function stepBackBy(session, count, shouldContinue) {
  /** @type {import("../engine/past_search.js").BackGoal} */
  const goal = { kind: "instruction" };
  let result = await session.goBack(goal, shouldContinue);
  if (!result.isDone) return result;
  let { cycles } = result;
  for (let done = 1; done < count && await shouldContinue(0); done++) {
    const nextResult = await session.goBack(goal, shouldContinue);
    if (!nextResult.isDone) return { ...result, message: say.fewerStepsBackMessage(session.counterText, cycles, done, count) };
    session.joinBackwardMoves();
    result = nextResult;
    cycles += nextResult.cycles;
  }
  return { ...result, message: describeTimeTravel(goal, { ...result, cycles }, session.counterText) };
}

/**
 * Returns the first byte of the next instruction.
 * @param {DebugSession} session
 */
function readNextOpcode(session) {
  return parseInt(session.debugger.session.ask(`list ${session.address} 1\n`)[0].slice(4, 6), 16);
}

/**
 * Steps back over an instruction. If the instruction returns from a subroutine, goes back to the call of this subroutine. To find the call,
 * goes back through the changes of the return addresses one by one, and counts the calls and returns. If the stored past begins inside the
 * subroutine, stops there. `goForward` then undoes all these moves.
 * @param {DebugSession} session
 * @param {ShouldContinue} shouldContinue
 */
export async function stepBackOver(session, shouldContinue) {
  let result = await session.goBack({ kind: "instruction" }, shouldContinue);
  let depth = result.isDone && isReturn(readNextOpcode(session)) ? 1 : 0;
  while (depth > 0) {
    result = await session.goBack({ kind: "change", place: "ret" }, shouldContinue);
    const message = say.backInSubroutine(session.counterText);
    if (!result.isDone) return { ...result, message, isDone: true };
    session.joinBackwardMoves();
    const code = readNextOpcode(session);
    depth += Number(isReturn(code)) - Number(isCall(code));
  }
  return { ...result, message: result.isDone ? say.backAt(session.counterText) : result.message };
}

/**
 * Presses and releases a key while the machine runs. Resolves to the stop at the end of the run.
 * @param {DebugSession} session
 * @param {import("../board/key_place.js").Key} key
 * @param {ShouldContinue} shouldContinue
 */
export function runKeyPress(session, key, shouldContinue) {
  const { queue } = session.debugger.session;
  queue.press(key);
  queue.release(key);
  return session.runCycles(KEY_DOWN_CYCLES + TOOL_KEY_UP_CYCLES, shouldContinue);
}
