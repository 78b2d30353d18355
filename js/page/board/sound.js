// The sound of the board's buzzer. If sound is on and time is running at the real chip's speed, Web Audio plays the level changes of the
// buzzer's line.

import { CYCLES_PER_SECOND } from "../../core/time/mcs4_time.js";
import { Cell, block, button, onClick, makePressedSwitch } from "../ui/dom.js";
import { SampleBuffer } from "../../core/board/sound_samples.js";
import * as say from "../../words/board.js";

/**
 * @typedef {import("../../core/engine/buzzer_meter.js").BuzzerLevels} BuzzerLevels
 */

/**
 * The callbacks of Sound.
 * @typedef {object} SoundCalls
 * @property {(line: string) => void} listenToLine Asks the bench to report the level changes of a line; "" stops the reports.
 * @property {() => boolean} isRealTime Returns true if the speed is set to that of the real chip. At other speeds the buzzer is silent.
 */

/** The number of cycles in one block of samples, which lasts 45 ms. */
const BLOCK_CYCLES = 4200;
/** The delay in seconds between the simulation of a cycle and its sound. */
const SOUND_DELAY_SECONDS = 0.09;
/** The maximum delay in seconds. Blocks that would play even later are dropped. */
const MAX_DELAY_SECONDS = 0.4;
/** The gain of the sound, from 0 to 1. */
const GAIN = 0.12;
/** The cut-off frequency of the high-pass filter in hertz. The filter silences a line that stays at 1. */
const CUTOFF_HERTZ = 30;

/** Plays blocks of samples in sequence. */
class Player {
  constructor() {
    this.context = new AudioContext();
    this.sampleBuffer = new SampleBuffer(BLOCK_CYCLES);
    /** The time at which the last block ends, in seconds on the audio context's clock. */
    this.endTime = 0;
    const volume = new GainNode(this.context, { gain: GAIN });
    const filter = new BiquadFilterNode(this.context, { type: "highpass", frequency: CUTOFF_HERTZ });
    this.input = volume;
    volume.connect(filter).connect(this.context.destination);
  }

  /** @param {BuzzerLevels} levels */
  play(levels) {
    const samples = this.sampleBuffer.add(levels);
    const currentTime = this.context.currentTime;
    if (!samples || this.endTime > currentTime + MAX_DELAY_SECONDS) return;
    // If the last block has ended, or this is the first one, playback starts after the delay. (An audio context's time is 0 until the
    // context runs.)
    if (this.endTime <= currentTime) this.endTime = currentTime + SOUND_DELAY_SECONDS;
    const buffer = this.context.createBuffer(1, samples.length, CYCLES_PER_SECOND);
    buffer.copyToChannel(samples, 0);
    const source = new AudioBufferSourceNode(this.context, { buffer });
    source.connect(this.input);
    source.start(this.endTime);
    this.endTime += samples.length / CYCLES_PER_SECOND;
  }
}

export class Sound {
  /** @param {SoundCalls} calls */
  constructor(calls) {
    this.calls = calls;
    this.line = "";
    /** @type {Player | null} null if sound is off */
    this.player = null;
    this.status = new Cell(block("sound-status"));
    this.buttonSwitch = makePressedSwitch(button("sound-button"));
    onClick(button("sound-button"), () => this.toggle());
  }

  /**
   * Selects the buzzer of a new board or front panel.
   * @param {{ place: string, name: string } | null} buzzer null if the board has no buzzer
   */
  setBuzzer(buzzer) {
    const line = buzzer ? buzzer.place : "";
    block("sound").hidden = line === "";
    button("sound-button").textContent = say.soundOf(buzzer ? buzzer.name : "");
    this.line = line;
    if (line === "" && this.player) this.switchOff();
    else this.update();
  }

  /** Switches the sound on or off. */
  toggle() {
    if (this.player) this.switchOff();
    else if (typeof AudioContext === "function") this.switchOn();
    else this.status.set(say.NO_SOUND);
  }

  switchOn() {
    this.player = new Player();
    this.player.context.resume().catch(() => this.status.set(say.NO_SOUND));
    this.update();
  }

  switchOff() {
    if (this.player) this.player.context.close().catch(() => {});
    this.player = null;
    this.update();
  }

  /** Updates the button and the status, and starts or stops the bench's reports about the buzzer's line. */
  update() {
    const isOn = this.player !== null;
    this.buttonSwitch.set(isOn);
    this.status.set(isOn && !this.calls.isRealTime() ? say.SILENT : "");
    this.calls.listenToLine(isOn && this.calls.isRealTime() ? this.line : "");
  }

  /** @param {BuzzerLevels | null} levels */
  playLevels(levels) {
    if (this.player && levels && this.calls.isRealTime()) this.player.play(levels);
  }
}
