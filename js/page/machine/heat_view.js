// The heat map of RAM nibbles. A cell's colour shows how often or how recently its value changed. While time is paused, the colours come
// from the changes in the recorded past, which the bench counts. While time is running, they come from the changes that the bench reports
// as they happen.

import { block, byId, field } from "../ui/dom.js";
import { parseCount } from "../../core/bench/numbers.js";
import {
  RecentHeat, heatLevels, describeHeat, describeChanges, describeHeatStatus, describeChangesWhileRunning,
} from "../../core/machine/heat_levels.js";
import * as say from "../../words/machine.js";

/**
 * @typedef {import("../../core/engine/heat_map.js").Heat} Heat
 * @typedef {import("../../core/engine/heat_meter.js").ChipHeat} ChipHeat
 * @typedef {import("../../core/machine/heat_levels.js").HeatKind} HeatKind
 * @typedef {import("../../core/machine/source_map.js").SourceMap} SourceMap
 * @typedef {{ warmth: number, changeText: string }} CellHeat `warmth`: the level of the cell's colour, or 0 if it has none; `changeText`: a
 *   description of the cell's changes
 */

/**
 * The callbacks of the heat map.
 * @typedef {object} HeatCalls
 * @property {() => boolean} isRunning Returns true if time is running.
 * @property {(cycles: number, signal: AbortSignal) => Promise<Heat | null>} countChanges Counts the changes in the last `cycles` cycles.
 *   Resolves to null if `signal` is aborted or if the count fails. A failure has already been reported.
 * @property {(isOn: boolean) => void} setReporting Starts or stops the bench's reports of RAM changes.
 * @property {(heatByPlace: Map<string, CellHeat>) => void} showCells Colours the cells. `heatByPlace` has each cell's colour and the
 *   description of its changes, by the cell's location. Cells that are not in the map have no colour.
 * @property {(place: string) => string} describePlace Returns the name of the cell at location `place`, or a description if the cell has
 *   no name.
 * @property {() => SourceMap | null} map Returns the source map of the program in ROM, or null if ROM does not match the source.
 */

/** The delay in milliseconds after the last input or snapshot before changes are counted. Applies only while time is paused. */
const COUNT_DELAY_MS = 300;
/** The maximum number of cycles over which changes are counted. */
const MAX_CYCLES = 10000000;
/** The interval in milliseconds at which the cells are updated while time is running. */
const DRAW_INTERVAL_MS = 200;

export class HeatView {
  /**
   * @param {import("../ui/preferences.js").Preferences} preferences
   * @param {HeatCalls} calls
   */
  constructor(preferences, calls) {
    this.preferences = preferences;
    this.calls = calls;
    this.kindSelect = byId("heat", HTMLSelectElement);
    this.cyclesField = field("heat-cycles");
    this.status = block("heat-status");
    this.countTimer = 0;
    this.request = new AbortController();
    /** True if the heat map may be out of date. */
    this.isStale = true;
    /** @type {Heat | null} the result of the last count */
    this.heat = null;
    this.recentHeat = new RecentHeat();
    /** The time of the last update while time was running, in milliseconds. */
    this.lastDrawTime = 0;
    this.kindSelect.value = preferences.get("heat");
    this.cyclesField.value = preferences.get("heat-cycles") || this.cyclesField.value;
    this.kindSelect.addEventListener("change", () => this.applyChoice());
    this.cyclesField.addEventListener("change", () => this.applyChoice());
    // Input cancels a count, so that the user's next action does not wait for the count.
    for (const eventName of ["keydown", "pointerdown"]) addEventListener(eventName, () => this.restartTimer(), true);
    this.showCyclesField();
  }

  applyChoice() {
    this.preferences.set("heat", this.kindSelect.value);
    this.preferences.set("heat-cycles", this.cyclesField.value);
    this.showCyclesField();
    this.clear();
    this.updateReporting();
    if (this.kindSelect.value !== "") this.parseCycleCount();
    this.isStale = true;
    this.restartTimer();
  }

  /** Returns the number of cycles in the field. If the number is not valid, shows a message and returns 0. */
  parseCycleCount() {
    const cycles = parseCount(this.cyclesField.value, MAX_CYCLES);
    this.cyclesField.setAttribute("aria-invalid", String(cycles === 0));
    if (cycles === 0) {
      this.clear();
      this.showStatus(say.cycleCountHint(MAX_CYCLES.toLocaleString("en")));
    }
    return cycles;
  }

  /**
   * Switches the bench's reports of RAM changes on if a heat map is selected, otherwise off. Called when the selection or the board
   * changes.
   */
  updateReporting() {
    this.calls.setReporting(this.kindSelect.value !== "");
  }

  showCyclesField() {
    block("heat-reach").hidden = this.kindSelect.value === "";
  }

  /**
   * Updates the heat map with a frame that the worker has reported while time is running.
   * @param {{ chipHeat: ChipHeat | null, cycles: number }} frame
   */
  handleFrame({ chipHeat, cycles }) {
    if (this.kindSelect.value === "") return;
    // Remove a message about the recorded past, which does not apply while time is running. On a board without RAM, no message replaces it.
    if (!chipHeat) this.showStatus("");
    const maxCycles = parseCount(this.cyclesField.value, MAX_CYCLES);
    if (!chipHeat || maxCycles === 0) return;
    this.recentHeat.add(chipHeat, cycles, maxCycles);
    if (performance.now() - this.lastDrawTime < DRAW_INTERVAL_MS) return;
    this.lastDrawTime = performance.now();
    this.heat = null;
    this.showCells(this.recentHeat.heat, describeChangesWhileRunning);
    this.showStatus(describeHeatStatus(chipHeat, chipHeat.cycles >= cycles));
  }

  /** Marks the heat map as out of date after a new snapshot. */
  handleSnapshot() {
    if (this.kindSelect.value === "") return;
    this.isStale = true;
    if (!this.calls.isRunning()) this.recentHeat.clear();
    this.restartTimer();
  }

  clear() {
    this.heat = null;
    this.recentHeat.clear();
    this.lastDrawTime = 0;
    this.showStatus("");
    this.calls.showCells(new Map());
  }

  /** @param {string} text */
  showStatus(text) {
    if (this.status.textContent !== text) this.status.textContent = text;
  }

  /** Cancels the current count. If the heat map is out of date and time is paused, starts another count after COUNT_DELAY_MS. */
  restartTimer() {
    clearTimeout(this.countTimer);
    this.request.abort();
    if (!this.isStale || this.kindSelect.value === "" || this.calls.isRunning()) return;
    this.countTimer = window.setTimeout(() => this.startCounting(), COUNT_DELAY_MS);
  }

  async startCounting() {
    const cycles = this.parseCycleCount();
    if (cycles === 0) return;
    const request = new AbortController();
    this.request = request;
    if (!this.heat) this.showStatus(say.SEARCHING_PAST);
    const heat = await this.calls.countChanges(cycles, request.signal);
    if (!heat || request.signal.aborted || this.calls.isRunning() || this.kindSelect.value === "") return;
    this.heat = heat;
    this.isStale = false;
    this.showHeat(heat, cycles);
  }

  /**
   * @param {Heat} heat
   * @param {number} requestedCycles
   */
  showHeat(heat, requestedCycles) {
    this.showStatus(describeHeat(heat, requestedCycles, this.calls.describePlace, this.calls.map()));
    this.showCells(heat, describeChanges);
  }

  /**
   * @param {Heat} heat
   * @param {(cell: import("../../core/engine/heat_map.js").HeatCell, map: SourceMap | null) => string} describeCell
   */
  showCells(heat, describeCell) {
    const map = this.calls.map();
    const levels = heatLevels(heat, /** @type {HeatKind} */ (this.kindSelect.value));
    this.calls.showCells(new Map(heat.cells.map((cell) => (
      [cell.place, { warmth: levels.get(cell.place) || 0, changeText: say.changedBy(describeCell(cell, map)) }]))));
  }
}
