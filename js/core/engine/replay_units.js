// Divides the past of a session into units, which a caller can replay. A unit is a command, or a part of a `run` command.

/**
 * @typedef {import("./timeline.js").Moment} Moment
 * @typedef {import("./timeline.js").Timeline} Timeline
 *
 * A unit: a command, the number of cycles that it runs, and the moment at which it starts.
 * @typedef {{ line: string, cycles: number, moment: Moment }} Unit
 */

/**
 * Returns the units between two moments in the same segment of the timeline.
 * @param {Timeline} timeline
 * @param {Moment} from
 * @param {Moment} to
 */
export function unitsBetween(timeline, from, to) {
  const { entries } = timeline.segments[from.segment];
  /** @type {Unit[]} */
  const units = [];
  for (let entryIndex = from.entry; entryIndex < entries.length && entryIndex <= to.entry; entryIndex++) {
    const { line, cycles } = entries[entryIndex];
    const start = entryIndex === from.entry ? from.cycles : 0;
    const end = entryIndex === to.entry ? to.cycles : cycles;
    const moment = { ...from, entry: entryIndex, cycles: start };
    if (cycles === 0 && entryIndex < to.entry) units.push({ line, cycles, moment });
    else if (end > start) units.push({ line: end - start === cycles ? line : `run ${end - start}`, cycles: end - start, moment });
  }
  return units;
}

/**
 * Returns the same units, with each long unit split into shorter runs.
 * @param {Unit[]} units
 * @param {number} maxCycles the maximum number of cycles in a part
 */
export function splitUnits(units, maxCycles) {
  return units.flatMap((unit) => {
    if (unit.cycles <= maxCycles) return [unit];
    /** @type {Unit[]} */
    const parts = [];
    for (let doneCycles = 0; doneCycles < unit.cycles; doneCycles += maxCycles) {
      const cycles = Math.min(maxCycles, unit.cycles - doneCycles);
      parts.push({ line: `run ${cycles}`, cycles, moment: { ...unit.moment, cycles: unit.moment.cycles + doneCycles } });
    }
    return parts;
  });
}

/** @param {Unit[]} units */
export function sumCycles(units) {
  return units.reduce((sum, { cycles }) => sum + cycles, 0);
}

/**
 * Yields units in pieces. A piece ends when it runs at least `maxCycles` cycles or contains `maxUnits` units.
 * @param {Unit[]} units
 * @param {number} maxCycles
 * @param {number} maxUnits
 */
export function* splitIntoPieces(units, maxCycles, maxUnits) {
  let from = 0;
  let cycles = 0;
  for (let index = 0; index < units.length; index++) {
    cycles += units[index].cycles;
    if (cycles < maxCycles && index + 1 - from < maxUnits && index + 1 < units.length) continue;
    yield units.slice(from, index + 1);
    from = index + 1;
    cycles = 0;
  }
}
