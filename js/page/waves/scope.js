// The logic analyser: records the board's lines over time, shows them, and saves them as a VCD file or a picture.

import { Cell, block, button, byId, findDescendant, field, onClick } from "../ui/dom.js";
import { download } from "../session/download.js";
import { LiveWaves } from "../../core/waves/live_waves.js";
import { findLineByName, findLineNameInEdge } from "../../core/waves/trigger.js";
import { vcdParts } from "../../core/waves/vcd.js";
import { WaveChoice } from "./wave_choice.js";
import { renderPng, toSvg } from "./wave_pictures.js";
import { findMatch, parseSearch } from "../../core/waves/wave_search.js";
import { WaveView } from "./wave_view.js";
import { MAX_CYCLES, formatNumber, parseCycleCount, describeRecording } from "../../core/waves/wave_words.js";
import { Waves } from "../../core/waves/wave_recording.js";
import * as say from "../../words/waves.js";

/**
 * @typedef {import("../../core/engine/live_recorder.js").LivePart} LivePart
 * @typedef {import("../../core/engine/live_recorder.js").LiveSetup} LiveSetup
 * @typedef {import("../../core/engine/wave_recorder.js").Recording} Recording
 * @typedef {import("../../core/waves/live_waves.js").RecordingSettings} RecordingSettings
 * @typedef {import("../../core/waves/wave_lines.js").WaveLine} WaveLine
 * @typedef {import("../../core/waves/wave_words.js").NumberBase} NumberBase
 */

/**
 * The callbacks of the logic analyser.
 * @typedef {object} ScopeCalls
 * @property {(cycles: number, isBefore: boolean, values: string[]) => Promise<Recording | null>} record Records the past `cycles` cycles
 *   if `isBefore` is true, otherwise the next `cycles` cycles. `values` are the names of registers and nibbles to
 *   include. Resolves to null after a failure. A failure has already been reported.
 * @property {(setup: { trigger: string } & LiveSetup, values: string[]) => Promise<{ recording: Recording | null, error: string } | null>}
 *   startLive Starts a recording that lasts until `endLive`. Resolves to the first part of the recording or to the error in the trigger's
 *   condition, or to null after a failure.
 * @property {() => Promise<LivePart | null>} endLive Ends the recording. Resolves to its last part, or to null if there is none.
 * @property {() => WaveLine[]} boardLines Returns all lines of the board.
 * @property {() => string} name Returns the session's name, which is used for file names.
 * @property {(address: number) => void} goTo Shows an address in the source and in the disassembly.
 * @property {(isOn: boolean) => void} showRecording Shows on the tab whether a recording is in progress.
 * @property {(rows: import("../../core/waves/wave_rows.js").StoredRows) => void} storeRows Stores the arrangement of the rows.
 */

/** The interval in milliseconds at which the picture of a recording in progress is updated. */
const DRAW_INTERVAL_MS = 100;

/** Lets at most one panel be open below the controls. Escape and a click outside the panel close the panel. */
function listenToPanels() {
  const panels = [.../** @type {NodeListOf<HTMLDetailsElement>} */ (block("wave-bar").querySelectorAll(".pop"))];
  const closePanelsWithout = (/** @type {EventTarget | null} */ target) => {
    for (const panel of panels) if (panel.open && !(target instanceof Node && panel.contains(target))) panel.open = false;
  };
  addEventListener("pointerdown", ({ target }) => closePanelsWithout(target), true);
  const filesPanel = byId("wave-files", HTMLDetailsElement);
  filesPanel.addEventListener("click", ({ target }) => {
    if (target instanceof HTMLButtonElement) filesPanel.open = false;
  });
  for (const panel of panels) {
    panel.addEventListener("toggle", () => panel.open && closePanelsWithout(panel));
    panel.addEventListener("keydown", (event) => {
      if (event.key !== "Escape") return;
      panel.open = false;
      findDescendant(panel, "summary", HTMLElement).focus();
    });
  }
}

/** Keeps a CSS property equal to the height of the controls. The style sheet uses this property to place panels below the controls. */
function trackControlsHeight() {
  const bar = block("wave-bar");
  new ResizeObserver(() => block("scope").style.setProperty("--wave-bar-height", `${bar.offsetHeight}px`)).observe(bar);
}

export class Scope {
  /** @param {ScopeCalls} calls */
  constructor(calls) {
    this.calls = calls;
    this.status = new Cell(block("scope-status"));
    this.lengthStatus = new Cell(block("scope-count"));
    this.searchStatus = new Cell(block("wave-search-status"));
    this.recordLabel = new Cell(button("record"));
    this.recordLabel.set(say.RECORD);
    /** @type {WaveView} */
    this.view = new WaveView({ goTo: calls.goTo, hide: (name) => this.choice.select(name, false), storeRows: calls.storeRows });
    /** @type {WaveChoice} */
    this.choice = new WaveChoice({
      boardLines: calls.boardLines,
      showLines: (lines) => this.view.setChosenLines(lines),
      handleMissingValues: () => this.restartLiveRecording(),
    });
    this.isBusy = false;
    /** @type {LiveWaves | null} the last live recording, which records while time is running; null if there is none */
    this.liveWaves = null;
    /** True if the picture shows everything that has been recorded so far. */
    this.isUpToDate = true;
    this.periodSelect = byId("record-where", HTMLSelectElement);
    this.addListeners();
    this.updateTriggerVisibility();
  }

  addListeners() {
    onClick(button("record"), () => this.record());
    onClick(button("save-waves"), () => this.save());
    onClick(button("save-png"), () => this.savePng());
    onClick(button("save-svg"), () => this.saveSvg());
    listenToPanels();
    trackControlsHeight();
    for (const id of ["record-cycles", "trigger", "behind"]) {
      field(id).addEventListener("keydown", (event) => {
        if (event.key === "Enter") this.record();
      });
    }
    this.periodSelect.addEventListener("change", () => this.updateTriggerVisibility());
    onClick(button("find-before"), () => this.findNextMatch(false));
    onClick(button("find-after"), () => this.findNextMatch(true));
    field("wave-search").addEventListener("keydown", (event) => {
      if (event.key === "Enter") this.findNextMatch(!event.shiftKey);
      if (event.key === "Escape") this.view.canvas.focus();
    });
    const baseSelect = byId("wave-base", HTMLSelectElement);
    baseSelect.addEventListener("change", () => this.view.setBase(/** @type {NumberBase} */ (baseSelect.value)));
  }

  get isLive() {
    return this.liveWaves !== null && this.liveWaves.isRecording;
  }

  /** Shows the trigger's controls only for a live recording. */
  updateTriggerVisibility() {
    block("trigger-bar").hidden = this.periodSelect.value !== "live";
  }

  /**
   * Returns the number of cycles in a field. If the field has no valid number, shows a message and returns -1.
   * @param {string} id
   * @param {number} min
   */
  readCycleField(id, min) {
    const input = field(id);
    const cycles = input.value.trim() === "0" && min === 0 ? 0 : parseCycleCount(input.value) || -1;
    input.setAttribute("aria-invalid", String(cycles < 0));
    if (cycles < 0) {
      this.status.set(say.cycleCountHint(min, MAX_CYCLES.toLocaleString("en")));
      byId("wave-settings", HTMLDetailsElement).open = true;
    }
    return cycles;
  }

  /** Handles the Record button: starts or ends a recording. */
  async record() {
    if (this.isBusy) return;
    this.isBusy = true;
    // Clear the status, so that screen readers announce the same message again.
    this.status.set("");
    try {
      if (this.isLive) await this.finishLiveRecording();
      else if (this.periodSelect.value === "live") await this.beginLiveRecording();
      else await this.recordOnce(this.periodSelect.value === "before");
    } finally {
      this.isBusy = false;
    }
  }

  /** @param {boolean} isBefore */
  async recordOnce(isBefore) {
    const cycles = this.readCycleField("record-cycles", 1);
    if (cycles < 0) return;
    const recording = await this.calls.record(cycles, isBefore, this.choice.valueNames);
    if (!recording) return;
    const waves = new Waves(recording);
    this.status.set(describeRecording(waves, cycles, isBefore));
    if (waves.length > 0 || !isBefore) this.show(waves);
  }

  /** @param {Waves} waves */
  show(waves) {
    block("waves").hidden = block("wave-tools").hidden = false;
    this.view.setRecording(waves);
    this.choice.setRecording(waves);
  }

  // --- live recordings ---

  /**
   * Returns the settings of the recording. If a field has no valid number, shows a message and returns null.
   * @returns {RecordingSettings | null}
   */
  readLiveSettings() {
    const trigger = field("trigger").value.trim();
    const maxCycles = this.readCycleField("record-cycles", 1);
    const cyclesAfter = maxCycles < 0 || trigger === "" ? 0 : this.readCycleField("behind", 0);
    if (maxCycles < 0 || cyclesAfter < 0) return null;
    field("behind").setAttribute("aria-invalid", String(cyclesAfter > maxCycles));
    if (cyclesAfter > maxCycles) this.status.set(say.tooManyCyclesAfterMessage(maxCycles.toLocaleString("en")));
    const pausesAtEnd = byId("stops-time", HTMLInputElement).checked;
    return cyclesAfter > maxCycles ? null : { maxCycles, cyclesAfterTrigger: cyclesAfter, trigger, pausesAtEnd };
  }

  async beginLiveRecording() {
    const settings = this.readLiveSettings();
    if (!settings) return;
    this.selectTriggerLine(settings.trigger);
    const { trigger, cyclesAfterTrigger: cyclesAfter, pausesAtEnd } = settings;
    const liveSetup = { trigger, cyclesAfterTrigger: cyclesAfter, stopsMachine: pausesAtEnd };
    const result = await this.calls.startLive(liveSetup, this.choice.valueNames);
    if (!result) return;
    const { recording, error } = result;
    field("trigger").setAttribute("aria-invalid", String(error !== ""));
    if (error) this.status.set(say.triggerNotUnderstood(error));
    if (!recording) return;
    this.liveWaves = new LiveWaves(recording, settings);
    this.show(this.liveWaves.waves);
    this.showLiveRecording(this.liveWaves);
  }

  /**
   * Selects the register or nibble that the trigger's condition names, so that the recording includes it.
   * @param {string} trigger
   */
  selectTriggerLine(trigger) {
    const boardLines = this.calls.boardLines();
    const line = boardLines[findLineByName(findLineNameInEdge(trigger), boardLines)];
    if (line && line.kind === "value" && !this.choice.selectedNames.has(line.name)) this.choice.select(line.name, true);
  }

  async finishLiveRecording() {
    const part = await this.calls.endLive();
    if (part) this.addPart(part);
  }

  /** Restarts the recording in progress, because the user has selected values that the recording does not include. */
  async restartLiveRecording() {
    if (!this.isLive || this.isBusy) return;
    this.isBusy = true;
    try {
      await this.beginLiveRecording();
    } finally {
      this.isBusy = false;
    }
  }

  /**
   * Adds a new part to the live recording. `part` is null if the bench no longer has the recording.
   * @param {LivePart | null} part
   */
  addPart(part) {
    const { liveWaves } = this;
    if (!liveWaves || !liveWaves.isRecording) return;
    if (part) liveWaves.append(part);
    else liveWaves.markLost();
    if (!liveWaves.isRecording) this.drawLiveRecording(liveWaves);
    else if (this.isUpToDate) {
      this.isUpToDate = false;
      setTimeout(() => this.drawLiveRecording(liveWaves), DRAW_INTERVAL_MS);
    }
  }

  /** @param {LiveWaves} liveWaves */
  drawLiveRecording(liveWaves) {
    this.isUpToDate = true;
    if (this.liveWaves !== liveWaves) return;
    this.view.handleGrowth(liveWaves.triggerMoment);
    if (liveWaves.endReason === "trigger") this.view.showAround(liveWaves.triggerMoment);
    else if (!liveWaves.isRecording) this.view.fit();
    this.choice.handleGrowth();
    this.showLiveRecording(liveWaves);
    const { endReason } = liveWaves;
    // A change of the program or the board ends the recording. The user usually wants the same recording again, so restart it.
    if (endReason === "board" || endReason === "program") this.beginLiveRecording();
  }

  /** Shows the complete recording so far when time is paused. */
  showPaused() {
    const { liveWaves } = this;
    if (!liveWaves || !liveWaves.isRecording) return;
    this.drawLiveRecording(liveWaves);
    if (liveWaves.triggerMoment < 0) this.view.fit();
  }

  /** @param {LiveWaves} liveWaves */
  showLiveRecording(liveWaves) {
    this.status.set(liveWaves.statusText);
    this.lengthStatus.set(liveWaves.isRecording ? liveWaves.lengthText : "");
    this.recordLabel.set(liveWaves.isRecording ? say.STOP_RECORDING : say.RECORD);
    this.calls.showRecording(liveWaves.isRecording);
  }

  /**
   * Searches the recording for the query in the search field, starting at the cursor of the waves.
   * @param {boolean} isForward
   */
  findNextMatch(isForward) {
    const { waves, selectedLine, view } = this.view;
    if (!waves) return;
    this.searchStatus.set("");
    const query = field("wave-search").value;
    const { search, error } = parseSearch(query, waves, selectedLine);
    field("wave-search").setAttribute("aria-invalid", String(error !== ""));
    if (!search) {
      this.searchStatus.set(error);
      return;
    }
    const { name } = waves.lines[search.line];
    if (!this.choice.selectedNames.has(name)) this.choice.select(name, true);
    this.view.selectRowOfLine(search.line);
    const moment = findMatch(waves, search, view.moment, isForward);
    if (moment >= 0) this.view.moveCursor(moment);
    else this.searchStatus.set(say.notFoundMessage(query.trim(), isForward, formatNumber(view.moment)));
  }

  /** Discards the recording. Called when another session is opened. */
  discardRecording() {
    this.liveWaves = null;
    this.view.waves = null;
    this.choice.discardRecording();
    this.status.set("");
    this.lengthStatus.set("");
    this.recordLabel.set(say.RECORD);
    this.calls.showRecording(false);
    block("waves").hidden = block("wave-tools").hidden = true;
  }

  /**
   * Returns the recording to save. Returns null if there is no recording, or if no line is chosen; in the second case, shows a message.
   * @returns {Waves | null}
   */
  requireWavesToSave() {
    const { waves, chosenLines } = this.view;
    if (waves && chosenLines.length === 0) this.status.set(say.NO_LINE_CHOSEN);
    return chosenLines.length === 0 ? null : waves;
  }

  save() {
    const waves = this.requireWavesToSave();
    if (waves) download(this.calls.name(), ".vcd", new Blob([...vcdParts(waves, this.view.sortedLines)], { type: "text/plain" }));
  }

  savePng() {
    const waves = this.requireWavesToSave();
    if (waves) renderPng(this.view.makePicture(waves), (blob) => download(this.calls.name(), ".png", blob));
  }

  saveSvg() {
    const waves = this.requireWavesToSave();
    if (waves) download(this.calls.name(), ".svg", new Blob([toSvg(this.view.makePicture(waves))], { type: "image/svg+xml" }));
  }
}
