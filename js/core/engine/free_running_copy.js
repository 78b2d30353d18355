// Creates a copy of a state without breakpoints or watches, so that nothing stops its runs.

import { readItems } from "../bench/answers.js";
import { joinLines } from "../bench/inputs.js";

/**
 * Returns the lines that remove all breakpoints and watches.
 * @param {string[]} answers the answers to `breaks` and `watches`
 */
function stopRemovalLines([breaks, watches]) {
  const unwatchLines = readItems(watches).map((item) => item.split(".")).map(([bank, source]) => `unwatch ${bank} 0x${source}`);
  return joinLines([...readItems(breaks).map((address) => `unbreak 0x${address}`), ...unwatchLines]);
}

/**
 * Returns a copy of a state without breakpoints or watches.
 * @param {import("./engine_host.js").EngineHost} engine
 * @param {Uint8Array} file
 */
export function copyWithoutStops(engine, file) {
  const copy = file.slice();
  engine.serve(copy, stopRemovalLines(engine.ask(copy, "breaks\nwatches\n").answers), copy);
  return copy;
}
