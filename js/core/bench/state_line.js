// Parses the answer to `state`, which is one line of names and values in a fixed order. The line contains the whole state except ROM and
// RAM.

import { readRegisters } from "./answers.js";

/**
 * @typedef {import("./answers.js").Ports} Ports
 * @typedef {import("./answers.js").Registers} Registers
 *
 * The parts of the answer, as unparsed text, so that callers parse only the parts that changed. `registers` also contains the TEST level,
 * and `ports` also contains the pressed keys.
 * @typedef {{ registers: string, test: string, ports: string, keys: string, lamps: string, breaks: string, watches: string }} StateParts
 */

const STATE_ANSWER = /^state seq \d+ (acc .* test (\d) .*) src (.* keys (\S+)) lamps (\S+) breaks (\S+) watches (\S+)$/;

/**
 * Splits the answer to `state` into its parts. Throws an error for any other answer.
 * @param {string} answer
 * @returns {StateParts}
 */
export function parseState(answer) {
  const match = STATE_ANSWER.exec(answer);
  if (!match) throw new Error(`unexpected answer to \`state\`: ${answer}`);
  const [, registers, test, ports, keys, lamps, breaks, watches] = match;
  return { registers, test, ports, keys, lamps, breaks, watches };
}

/**
 * Returns the value that follows a name in the answer, as unparsed text. Throws an error if the answer does not contain the name.
 * @param {string} answer
 * @param {string} name such as `pc`
 */
export function stateValue(answer, name) {
  const nameIndex = answer.indexOf(` ${name} `);
  if (nameIndex < 0) throw new Error(`unexpected answer to \`state\`: ${answer}`);
  return answer.slice(nameIndex + name.length + 2).split(" ", 1)[0];
}

/**
 * Returns the answer without the command count, so that callers can compare the states of two sessions.
 * @param {string} answer the answer to `state`; other answers can follow in the same string
 */
export function withoutCommandCount(answer) {
  return answer.replace(/^state seq \d+ /, "");
}

/**
 * Returns the items of a list value; an empty list for `-`.
 * @param {string} value
 */
export function parseItems(value) {
  return value === "-" ? [] : value.split(",");
}

/**
 * Parses the part of the answer that contains the registers.
 * @param {string} part
 * @returns {Registers}
 */
export function parseRegisters(part) {
  return readRegisters(part.replace(/,/g, " "));
}

/**
 * Parses the part of the answer that contains the ports, chains and keys.
 * @param {string} part the text after `src`
 * @returns {Ports}
 */
export function parsePorts(part) {
  const [srcByte, , banks, , roms, , , , chains, , keys] = part.split(" ");
  return {
    srcBytes: [srcByte, ...parseItems(banks)],
    roms: parseItems(roms).map((rom) => {
      const [chip, out, inputLevels] = rom.split(".");
      return { chip, out, in: inputLevels };
    }),
    chains: parseItems(chains),
    keys: parseItems(keys),
  };
}
