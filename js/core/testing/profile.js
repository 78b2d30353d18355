// Computes a profile from recorded counts: the cycles spent below each label, and the response time of each key.

/**
 * @typedef {import("../machine/source_map.js").SourceMap} SourceMap
 * @typedef {import("./recorders.js").ExecutionRecorder} ExecutionRecorder
 * @typedef {import("./recorders.js").CallCounts} CallCounts
 * @typedef {import("./recorders.js").KeyTimes} KeyTimes
 *
 * The row of a label. `ownCycles` is the number of cycles spent between this label and the next label. `calls` counts the calls of the
 * routine at the label; it is null if there are no calls. The code before the first label has a row with the label "" and the address -1.
 * @typedef {{ label: string, address: number, ownCycles: number, calls: CallCounts | null }} ProfileRow
 *
 * A profile. `total` is the total number of cycles. `rows` has a row for each label with cycles, and `keys` has an entry for each pressed
 * key. `earlierInstructionCycles` counts the cycles of instructions that had started before the test in which they ended.
 * @typedef {{ total: number, rows: ProfileRow[], earlierInstructionCycles: number, keys: (KeyTimes & { key: string })[] }} Profile
 */

/**
 * Returns the first label at each address, in ascending address order.
 * @param {SourceMap} map
 */
function sortLabels(map) {
  return [...map.labels].map(([address, [label]]) => ({ address, label })).sort((one, other) => one.address - other.address);
}

/**
 * Returns the profile of tests. Rows without cycles are omitted.
 * @param {ExecutionRecorder} recorder
 * @param {SourceMap} map
 * @returns {Profile}
 */
export function computeProfile({ cycleCounts, calls, keys, total, earlierInstructionCycles }, map) {
  const labels = [{ address: -1, label: "" }, ...sortLabels(map)];
  const rows = labels.map((label) => ({ ...label, ownCycles: 0, calls: calls.get(label.address) || null }));
  let rowIndex = 0;
  cycleCounts.forEach((cycles, address) => {
    while (rowIndex + 1 < rows.length && rows[rowIndex + 1].address <= address) rowIndex += 1;
    rows[rowIndex].ownCycles += cycles;
  });
  const shownRows = rows.filter((row) => row.ownCycles > 0).sort((one, other) => other.ownCycles - one.ownCycles);
  return { total, rows: shownRows, earlierInstructionCycles, keys: [...keys].map(([key, times]) => ({ key, ...times })) };
}
