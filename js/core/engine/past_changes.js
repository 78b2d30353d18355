// Finds the changes of values in a part of the past. A copy of the session replays this part in units (see replay_units.js). Before each
// unit, `trace` queries forecast its changes.

import { ForecastAnswers, parseTraceLine } from "./forecast_answers.js";

/**
 * @typedef {import("./engine_host.js").EngineHost} Engine
 * @typedef {import("./forecast_answers.js").Trace} Trace
 * @typedef {import("./replay_units.js").Unit} Unit
 *
 * A change in a group of values. `before` and `after` are the trace rows before and after the change. `unit` is the unit with the change,
 * and `cycles` is the number of cycles from the start of the unit to the start of the instruction that made the change. `address` is the
 * address of this instruction, or -1 if the command `line` made the change.
 * @typedef {{ group: number, before: string, after: string, unit: Unit, cycles: number, address: number, line: string }} PastChange
 */

/**
 * Returns one list of traces for each unit, and one for the state after the last unit. A list has one trace per group of `trace` places.
 * @param {Engine} engine
 * @param {Uint8Array} file the session file; modified in place, to the state after the units
 * @param {Unit[]} units
 * @param {string[][]} groups
 * @returns {Trace[][]}
 */
function traceUnits(engine, file, units, groups) {
  /** @type {(cycles: number) => string} */
  const traceQueries = (cycles) => groups.map((places) => `trace ${cycles} ${places.join(" ")}\n`).join("");
  const lines = units.map(({ line, cycles }) => `${traceQueries(Math.max(1, cycles))}${line}\n`).join("");
  const answers = new ForecastAnswers(engine.serve(file, lines + traceQueries(1), file).answers);
  return [...units, null].map((unit) => {
    const traces = groups.map(() => answers.takeTrace());
    if (unit) answers.take();
    return traces;
  });
}

/**
 * Replays units of the past on a session file, and reports each change of the watched values.
 * @param {Engine} engine
 * @param {Uint8Array} file the session file; modified in place, to the state after the units
 * @param {Unit[]} units
 * @param {string[][]} groups the `trace` places to watch, in groups; each group fits into one `trace` query
 * @param {(change: PastChange) => void} report called for each change: for the changes of the first group in order, then for those of the
 *   next group
 */
export function reportChanges(engine, file, units, groups, report) {
  const traces = traceUnits(engine, file, units, groups);
  groups.forEach((_, group) => {
    let previousRow = traces[0][group].row;
    /** @type {(after: string, details: Omit<PastChange, "group" | "before" | "after">) => void} */
    const reportIfChanged = (after, details) => {
      if (after !== previousRow) report({ group, before: previousRow, after, ...details });
      previousRow = after;
    };
    units.forEach((unit, index) => {
      if (unit.cycles === 0) {
        reportIfChanged(traces[index + 1][group].row, { unit, cycles: 0, address: -1, line: unit.line.split("\n")[0] });
        return;
      }
      for (const { row, cycles, address } of traces[index][group].lines.map(parseTraceLine)) {
        reportIfChanged(row, { unit, cycles, address, line: "" });
      }
    });
  });
}
