// Describes the return addresses in the call stack. The stack can contain stale entries, to which the program will not return. A call
// stores the address after its JMS, so an entry is stale if no JMS precedes its address.

import { LAST_ADDRESS } from "../bench/numbers.js";
import * as say from "../../words/machine.js";
import { lineReference } from "../../words/stops.js";

/**
 * @typedef {import("./source_map.js").SourceMap} SourceMap
 *
 * A description of an address: `description` contains its name and line; `title` is its source line. `isLive` is false for a stale entry of
 * the stack.
 * @typedef {{ isLive: boolean, description: string, title: string }} AddressNote
 */

const JMS_BYTES = 2;
/** The first hexadecimal digit of the opcode of JMS. */
const JMS_DIGIT = "5";

/**
 * Returns the address of the JMS before a return address.
 * @param {number} address
 */
export function addressOfCall(address) {
  return (address - JMS_BYTES) & LAST_ADDRESS;
}

/**
 * Returns, for each return address, whether its stack entry is live. All entries that are older than a stale entry are also stale.
 * @param {number[]} addresses the return addresses, newest first
 * @param {string[]} bytes for each return address, the ROM byte at the address where its JMS should be
 * @param {SourceMap | null} map the source map of the program in ROM; null if unknown
 */
export function findLiveReturns(addresses, bytes, map) {
  const firstStaleIndex = addresses.findIndex((address, index) => {
    const call = addressOfCall(address);
    const isInProgram = map !== null && map.lineOf(call) > 0;
    return bytes[index][0] !== JMS_DIGIT || (isInProgram && !map.beginsInstruction(call));
  });
  return addresses.map((_, index) => firstStaleIndex < 0 || index < firstStaleIndex);
}

/**
 * Describes the program counter.
 * @param {number} address
 * @param {SourceMap | null} map
 * @returns {AddressNote}
 */
export function describeProgramCounter(address, map) {
  const line = map ? map.lineOf(address) : 0;
  if (!map || line === 0) return { isLive: true, description: "", title: "" };
  return { isLive: true, description: joinWithCommas([map.nameOf(address), lineReference(line)]), title: map.sourceLines[line - 1].trim() };
}

/**
 * Describes a return address: its name and the line of its call. If the stack entry is stale, the description says so.
 * @param {number} address
 * @param {boolean} isLive
 * @param {SourceMap | null} map
 * @returns {AddressNote}
 */
export function describeReturn(address, isLive, map) {
  if (!isLive) return { isLive, description: say.STALE_RETURN, title: say.NO_CALL_FOR_ADDRESS };
  const line = map ? map.lineOf(addressOfCall(address)) : 0;
  if (!map || line === 0) return { isLive, description: "", title: "" };
  return { isLive, description: joinWithCommas([map.nameOf(address), say.callInLine(line)]), title: map.sourceLines[line - 1].trim() };
}

/**
 * Joins the non-empty strings with commas.
 * @param {string[]} texts
 */
function joinWithCommas(texts) {
  return texts.filter((word) => word !== "").join(", ");
}
