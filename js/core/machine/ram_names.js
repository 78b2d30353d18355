// Finds names for RAM nibbles: the names of watch expressions, and the names of the numbers that the source loads as SRC bytes.

import { hex } from "../bench/numbers.js";
import { PAIR, splitStatement } from "../text/assembly.js";

/**
 * @typedef {import("../bench/answers.js").Board} Board
 * @typedef {import("../debug/watch_expressions.js").WatchExpression} WatchExpression
 * @typedef {import("./source_map.js").SourceMap} SourceMap
 */

/**
 * Returns the named numbers that are probably SRC bytes: a FIM loads them into a register pair, and an SRC uses the same pair. Removes
 * duplicates.
 * @param {SourceMap} map
 * @returns {{ name: string, byte: number }[]}
 */
export function namedSrcBytes(map) {
  const lines = map.sourceLines.map(splitStatement).filter(({ head }) => head !== null);
  /** @type {(name: string) => import("../text/assembly.js").Word[][]} */
  const findOperands = (name) => lines.filter(({ head }) => head && head.text.toUpperCase() === name).map(({ operands }) => operands);
  const srcPairs = new Set(findOperands("SRC").flatMap(([pair]) => (pair && PAIR.test(pair.text) ? [pair.text.toUpperCase()] : [])));
  const loadedValues = findOperands("FIM")
    .flatMap(([pair, value]) => (pair && value && srcPairs.has(pair.text.toUpperCase()) ? [value.text] : []));
  return [...new Set(loadedValues)].flatMap((text) => {
    const name = map.names.get(text);
    return name && !name.isLabel ? [{ name: name.name, byte: name.value }] : [];
  });
}

/**
 * Returns the names of RAM nibbles, by their place name in `poke`, such as `ram.0.0x12`. An SRC byte selects one nibble in each bank.
 * @param {Board} board
 * @param {Pick<WatchExpression, "name" | "place">[]} watchExpressions
 * @param {SourceMap | null} map the source's map; null if the source is not the program in ROM
 * @returns {Map<string, string[]>}
 */
export function nibbleNames({ banks }, watchExpressions, map) {
  /** @type {Map<string, string[]>} */
  const names = new Map();
  /** @type {(place: string, name: string) => void} */
  const add = (place, name) => {
    const currentNames = names.get(place) || [];
    if (!currentNames.includes(name)) names.set(place, [...currentNames, name]);
  };
  // If the user gave a watch expression no name, its `name` is a place such as `ram.0.0x12`.
  for (const { name, place } of watchExpressions) if (place !== "" && /^\w+$/.test(name)) add(place, name);
  for (const { name, byte } of map ? namedSrcBytes(map) : []) {
    for (const { bank, chips } of banks) if (byte < chips * 64) add(`ram.${bank}.0x${hex(byte, 2)}`, name);
  }
  return names;
}
