// Parses the address that a user types for the command "go to". The address can be a program name, a name plus an offset, three hexadecimal
// digits as in listings, or a number as in commands.

import { LAST_ADDRESS, parseNumber } from "../bench/numbers.js";
import * as say from "../../words/machine.js";

/**
 * @typedef {import("./source_map.js").SourceMap} SourceMap
 *
 * The target address (`address`), or an error message (`message`; "" for none).
 * @typedef {{ address: number, message: string }} GoToTarget
 */

/** Matches an address as in listings: three hexadecimal digits without a prefix. */
const LISTING_ADDRESS = /^[0-9a-f]{3}$/i;
/** Matches a name plus an offset, as the page writes addresses. */
const NAME_PLUS_OFFSET = /^([a-z_]\w*)\s*\+\s*(0x[0-9a-f]+|\d+)$/i;

/**
 * Creates an error result.
 * @param {string} message
 * @returns {GoToTarget}
 */
function createTargetError(message) {
  return { address: 0, message };
}

/**
 * Parses the target of "go to".
 * @param {string} text
 * @param {SourceMap | null} map the source map of the program in ROM; null if unknown
 * @returns {GoToTarget}
 */
export function parseGoToTarget(text, map) {
  const word = text.trim();
  const [, name = word, offset = "0"] = NAME_PLUS_OFFSET.exec(word) || [];
  const value = map ? map.findValueIgnoringCase(name) : undefined;
  if (value !== undefined && value + parseNumber(offset) <= LAST_ADDRESS) return { address: value + parseNumber(offset), message: "" };
  const address = LISTING_ADDRESS.test(word) ? parseInt(word, 16) : parseNumber(word);
  if (address <= LAST_ADDRESS) return { address, message: "" };
  if (!Number.isNaN(parseNumber(word))) return createTargetError(say.addressTooLargeMessage(word));
  if (word === "") return createTargetError(say.nothingToGoToMessage(say.ADDRESS_FORMS));
  if (map) return createTargetError(say.noNameOrAddressMessage(word, say.ADDRESS_FORMS));
  return createTargetError(say.notAnAddressMessage(word, say.ADDRESS_FORMS));
}
