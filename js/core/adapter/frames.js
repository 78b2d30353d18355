// Reads the stack frames: a frame for the next instruction, and a frame for each call that has not returned.

import { hex } from "../bench/numbers.js";
import { findLiveReturns, addressOfCall } from "../machine/return_addresses.js";

/**
 * @typedef {import("../debug/debug_session.js").DebugSession} DebugSession
 *
 * A stack frame. `address` is the program counter in the newest frame, and the address of a JMS in any other frame. `line` is 0 if the
 * address has no source line. `name` is a label with an offset, or else the address. `call` is the address of the JMS that created the
 * frame, -1 for the outermost frame. `returns` are the return addresses on the stack before that JMS, newest first.
 * @typedef {{ address: number, line: number, name: string, call: number, returns: string[] }} Frame
 */

/**
 * Returns the stack frames, newest first.
 * @param {DebugSession} session
 * @returns {Frame[]}
 */
export function readStackFrames(session) {
  const { returns } = session;
  const calls = returns.map((address) => addressOfCall(address));
  const lines = session.debugger.session.ask(calls.map((address) => `list ${address} 1\n`).join(""));
  const liveFlags = findLiveReturns(returns, lines.map((line) => line.slice(4, 6)), session.map);
  const openCalls = calls.filter((_, index) => liveFlags[index]);
  const { map } = session;
  return [session.address, ...openCalls].map((address, index) => ({
    address, line: map.lineOf(address), name: map.nameOf(address) || hex(address, 3),
    call: index < openCalls.length ? openCalls[index] : -1,
    returns: returns.slice(index + 1, openCalls.length).map((returnAddress) => hex(returnAddress, 3)),
  }));
}
