// A recording that grows while the session runs: its data, its limits, and its status.

import { Waves } from "./wave_recording.js";
import { formatNumber } from "./wave_words.js";
import { formatCycles } from "../time/cycles.js";
import * as say from "../../words/waves.js";

/**
 * @typedef {import("../engine/live_recorder.js").LivePart} LivePart
 * @typedef {import("../engine/wave_recorder.js").Recording} Recording
 *
 * The settings of a recording. `maxCycles` is its maximum length. `cyclesAfterTrigger` is the number of cycles to record after the trigger.
 * `trigger` is the text of the trigger; "" for none. `pausesAtEnd` is true if the session pauses when the recording ends.
 * @typedef {{ maxCycles: number, cyclesAfterTrigger: number, trigger: string, pausesAtEnd: boolean }} RecordingSettings
 */

export class LiveWaves {
  /**
   * @param {Recording} firstPart the first part of the recording
   * @param {RecordingSettings} settings
   */
  constructor(firstPart, settings) {
    this.waves = new Waves(firstPart);
    this.settings = settings;
    /** The moment of the trigger; -1 if the trigger has not occurred. */
    this.triggerMoment = -1;
    /** The reason for the end of the recording; "" while the recording continues. */
    this.endReason = "";
  }

  /** True while the recording continues. */
  get isRecording() {
    return this.endReason === "";
  }

  /**
   * Adds a part to the recording. Drops cycles at the start if the recording exceeds its maximum length.
   * @param {LivePart} part
   */
  append(part) {
    const { waves } = this;
    const { maxCycles, cyclesAfterTrigger, trigger } = this.settings;
    waves.append(part);
    this.triggerMoment = part.triggerMoment;
    this.endReason = part.endReason;
    if (this.endReason === "trigger") waves.endAt(this.triggerMoment + cyclesAfterTrigger);
    if (trigger === "") waves.beginAt(waves.cycles - maxCycles);
    else waves.beginAt((this.triggerMoment < 0 ? waves.cycles : this.triggerMoment) - (maxCycles - cyclesAfterTrigger));
  }

  /** Ends the recording. Called when the worker that recorded its last part has stopped. */
  markLost() {
    this.endReason = "lost";
  }

  /** The length of the recording, as text. It changes whenever a part is appended. */
  get lengthText() {
    const { waves } = this;
    return waves.cycles === 0 ? "" : formatCycles(waves.length);
  }

  /** The status of the recording, as text. It rarely changes. */
  get statusText() {
    const { waves, triggerMoment, endReason } = this;
    const { trigger } = this.settings;
    const triggerText = triggerMoment < 0 ? "" : say.triggerWasAt(formatNumber(triggerMoment));
    if (endReason === "trigger") return say.recordedDuration(this.lengthText, triggerText);
    if (endReason !== "") return say.recordedUntil(this.lengthText || say.NOTHING, say.END_REASONS[endReason] || endReason, triggerText);
    if (triggerMoment >= 0) return say.recordingAfterTrigger(triggerText);
    const statusText = waves.cycles === 0 ? say.RECORDS_WHEN_RUNNING : say.RECORDING;
    return `${statusText}${trigger ? say.waitingForTrigger(trigger) : ""}`;
  }
}
