// A recording of signal lines. Provides the value of each line at any moment, the changes of each line, and the instruction at any moment.
// The recording of a running session grows at its end and drops cycles at its start. A moment is a time, counted in cycles.

import { ADDRESS_COUNT } from "../bench/rom_bytes.js";
import { extendShiftTrack, findLastRise, formatScan, formatShift } from "./decoders.js";
import { NumberQueue, countUpTo } from "./number_queue.js";
import { Track, createEmptyTrack } from "./track.js";
import { valueText } from "./wave_words.js";

/**
 * @typedef {import("../engine/wave_recorder.js").Recording} Recording
 * @typedef {import("../engine/wave_recorder.js").RecordedPart} RecordedPart
 * @typedef {import("./wave_lines.js").WaveLine} WaveLine
 * @typedef {import("./wave_words.js").NumberBase} NumberBase
 *
 * The instruction at a moment: its address, its listing line, and its source line with the line number (0 for none). `isSecond` is true if
 * the recording starts at the second cycle of the instruction, and the moment is this cycle. `isEnd` is true at the end of the recording;
 * the instruction is then the next to run.
 * @typedef {{ address: number, listingLine: string, line: number, source: string, isSecond: boolean, isEnd: boolean }} Instruction
 */

/** The kinds of lines whose values are computed from other lines or from the program counter. */
const DERIVED_KINDS = new Set(["pc", "label", "port", "shift", "scan"]);

/**
 * Returns for each address the index of the nearest label at the same or a lower address; -1 for none.
 * @param {{ address: number }[]} labels the labels in ascending address order
 */
function findLabelsBelow(labels) {
  const labelIndices = new Int16Array(ADDRESS_COUNT);
  let [nextLabel, currentLabel] = [0, -1];
  for (let address = 0; address < labelIndices.length; address++) {
    while (nextLabel < labels.length && labels[nextLabel].address <= address) currentLabel = nextLabel++;
    labelIndices[address] = currentLabel;
  }
  return labelIndices;
}

export class Waves {
  /** @param {Recording} recording the recording; this object takes ownership of the arrays */
  constructor({ from, cycles, isStuck, isOwed, lines, tracks, moments, counters, listing, program }) {
    /** The moments at which the recording starts and ends. */
    this.from = from;
    this.cycles = cycles;
    /** True if the recording ends before a byte that is not an instruction. */
    this.isStuck = isStuck;
    /** True if the recording starts at the second cycle of an instruction. */
    this.isOwed = isOwed;
    this.lines = lines;
    this.tracks = tracks.map((data) => new Track(data));
    this.moments = new NumberQueue(moments);
    this.counters = new NumberQueue(counters);
    this.listing = new Map(listing);
    this.program = program;
    this.sourceLines = program ? program.text.split("\n") : [];
    this.labelIndices = findLabelsBelow(program ? program.labels : []);
    /** @type {Map<number, Track>} the tracks computed so far, by line index */
    this.derivedTracks = new Map();
    /** @type {Map<number, number>} the moment of the last rising clock edge before the recording, by shift register line */
    this.earlierRises = new Map();
    /** @type {NumberBase} the number base in which values are displayed */
    this.base = "hex";
  }

  /** The length of the recording in cycles. */
  get length() {
    return this.cycles - this.from;
  }

  // --- growing and shrinking ---

  /**
   * Adds a part at the end of the recording.
   * @param {RecordedPart} part
   */
  append({ cycles, isStuck, tracks, moments, counters, listing }) {
    const previousEnd = this.cycles;
    tracks.forEach((data, line) => this.tracks[line].append(data));
    moments.forEach((moment, index) => this.appendInstruction(moment, counters[index]));
    for (const [address, text] of listing) this.listing.set(address, text);
    this.cycles = cycles;
    this.isStuck = isStuck;
    for (const [line, track] of this.derivedTracks) {
      // The first moment of the new part is the last moment of the previous part. The new part can contain a change at this moment, so the
      // track is computed again from there.
      track.endAt(previousEnd - 1);
      this.extendTrack(line, track, previousEnd - 1);
    }
  }

  /**
   * Adds an instruction at the end of the recording. Replaces the last instruction if it starts at the same moment.
   * @param {number} moment
   * @param {number} counter the program counter
   */
  appendInstruction(moment, counter) {
    if (this.moments.last === moment) {
      this.counters.last = counter;
      return;
    }
    this.moments.push(moment);
    this.counters.push(counter);
  }

  /**
   * Drops all cycles before a moment.
   * @param {number} moment the new start
   */
  beginAt(moment) {
    if (moment <= this.from) return;
    this.from = moment;
    this.isOwed = false;
    for (const line of this.derivedTracks.keys()) {
      if (this.lines[line].kind === "shift") this.earlierRises.set(line, this.findRiseBefore(line, moment));
    }
    for (const track of [...this.tracks, ...this.derivedTracks.values()]) track.beginAt(moment);
    const count = Math.max(0, countUpTo(this.moments.all, moment) - 1);
    this.moments.dropFirst(count);
    this.counters.dropFirst(count);
  }

  /**
   * Drops all cycles after a moment.
   * @param {number} moment the new end
   */
  endAt(moment) {
    if (moment >= this.cycles) return;
    this.cycles = moment;
    this.isStuck = false;
    for (const track of [...this.tracks, ...this.derivedTracks.values()]) track.endAt(moment);
    const count = Math.max(1, countUpTo(this.moments.all, moment));
    this.moments.keepFirst(count);
    this.counters.keepFirst(count);
  }

  // --- values ---

  /**
   * Returns the track of a line. Computes the track of a derived line on its first use.
   * @param {number} line
   * @returns {Track}
   */
  getTrack(line) {
    const { kind } = this.lines[line];
    if (!DERIVED_KINDS.has(kind)) return this.tracks[line];
    let track = this.derivedTracks.get(line);
    if (!track) {
      track = new Track({ ...createEmptyTrack(this.lines[line].width), first: this.computeValue(line, this.from) });
      this.extendTrack(line, track, this.from);
      this.derivedTracks.set(line, track);
    }
    return track;
  }

  /**
   * Computes the value of a derived line. The value of a port or key scan comes from its member lines; the program counter and the label
   * come from the instructions. The value of a shift register is 0, which means at rest.
   * @param {number} line
   * @param {number} moment
   */
  computeValue(line, moment) {
    const { kind, members } = this.lines[line];
    if (kind === "shift") return 0;
    if (kind !== "pc" && kind !== "label") {
      return members.reduce((sum, member, bit) => sum + this.tracks[member].valueAt(moment) * 2 ** bit, 0);
    }
    const counter = this.counterAt(moment);
    return kind === "pc" ? counter : this.labelIndices[counter] + 1;
  }

  /**
   * Extends the track of a derived line up to the end of the recording.
   * @param {number} line
   * @param {Track} track
   * @param {number} computedUntil the moment up to which the track is already computed
   */
  extendTrack(line, track, computedUntil) {
    const { kind, members } = this.lines[line];
    const tracks = members.map((member) => this.tracks[member]);
    if (kind === "shift") {
      const [clock, data] = tracks;
      extendShiftTrack({ clock, data, rise: this.findRiseBefore(line, computedUntil) }, track, computedUntil, this.cycles);
    }
    if (kind === "port" || kind === "scan") this.extendPortTrack(tracks, track, computedUntil);
    if (kind !== "pc" && kind !== "label") return;
    const [moments, counters] = [this.moments.all, this.counters.all];
    for (let index = countUpTo(moments, computedUntil); index < moments.length; index++) {
      track.set(kind === "pc" ? counters[index] : this.labelIndices[counters[index]] + 1, moments[index]);
    }
  }

  /**
   * Returns the moment of the last rising clock edge of a shift register, at or before `moment`; -1 if there is none.
   * @param {number} line
   * @param {number} moment
   */
  findRiseBefore(line, moment) {
    const lastRise = findLastRise(this.tracks[this.lines[line].members[0]], moment);
    return lastRise < 0 ? this.earlierRises.get(line) ?? -1 : lastRise;
  }

  /**
   * Extends the track of a port or key scan up to the end of the recording. Bit k of the value is the value of member line k.
   * @param {Track[]} members
   * @param {Track} track
   * @param {number} computedUntil the moment up to which the track is already computed
   */
  extendPortTrack(members, track, computedUntil) {
    const moments = members.map((member) => member.moments.all);
    const nextIndices = moments.map((memberMoments) => countUpTo(memberMoments, computedUntil));
    for (;;) {
      let moment = Infinity;
      moments.forEach((memberMoments, bit) => {
        if (nextIndices[bit] < memberMoments.length) moment = Math.min(moment, memberMoments[nextIndices[bit]]);
      });
      if (moment === Infinity) return;
      let value = 0;
      for (let bit = members.length - 1; bit >= 0; bit--) {
        if (moments[bit][nextIndices[bit]] === moment) nextIndices[bit] += 1;
        value = 2 * value + members[bit].valueAfter(nextIndices[bit]);
      }
      track.set(value, moment);
    }
  }

  /**
   * Returns the moments at which a line changed.
   * @param {number} line
   */
  changesOf(line) {
    return this.getTrack(line).moments.all;
  }

  /**
   * Returns the value of a line as a number.
   * @param {number} line
   * @param {number} moment
   */
  numberAt(line, moment) {
    return this.getTrack(line).valueAt(moment);
  }

  /**
   * Returns the index of the last instruction that started at or before a moment; 0 if there is none.
   * @param {number} moment
   */
  instructionIndexAt(moment) {
    return Math.max(0, countUpTo(this.moments.all, moment) - 1);
  }

  /**
   * Returns the program counter at a moment.
   * @param {number} moment
   */
  counterAt(moment) {
    return this.counters.all[this.instructionIndexAt(moment)];
  }

  /**
   * Returns the nearest label at or below the program counter at a moment; "" for none.
   * @param {number} moment
   */
  labelAt(moment) {
    const label = this.labelIndices[this.counterAt(moment)];
    return this.program && label >= 0 ? this.program.labels[label].name : "";
  }

  /**
   * Returns the value of a line as text.
   * @param {number} line
   * @param {number} moment
   */
  valueAt(line, moment) {
    const { kind, width, members } = this.lines[line];
    if (kind === "label") return this.labelAt(moment) || "-";
    if (kind === "scan") return formatScan(this.lines[line], this.numberAt(line, moment));
    if (kind === "shift") {
      return formatShift(this.numberAt(line, moment), members.slice(2).map((member) => this.tracks[member].valueAt(moment)), this.base);
    }
    return valueText(this.numberAt(line, moment), width, kind === "pc" ? "hex" : this.base);
  }

  /**
   * Returns the moment of the next change of a line after `moment`; undefined if there is none.
   * @param {number} line
   * @param {number} moment
   * @returns {number | undefined}
   */
  changeAfter(line, moment) {
    const changes = this.changesOf(line);
    return changes[countUpTo(changes, moment)];
  }

  /**
   * Returns the moment of the last change of a line before `moment`; undefined if there is none.
   * @param {number} line
   * @param {number} moment
   * @returns {number | undefined}
   */
  changeBefore(line, moment) {
    const changes = this.changesOf(line);
    return changes[countUpTo(changes, moment - 1) - 1];
  }

  /**
   * Returns the instruction at a moment.
   * @param {number} moment
   * @returns {Instruction}
   */
  instructionAt(moment) {
    const index = this.instructionIndexAt(moment);
    const { program } = this;
    const address = this.counters.all[index];
    const line = program ? program.lines[address] : 0;
    return {
      address,
      listingLine: this.listing.get(address) || "",
      line,
      source: line > 0 ? this.sourceLines[line - 1].trim() : "",
      isSecond: index === 0 && this.isOwed,
      isEnd: index === this.moments.count - 1 && this.moments.last === this.cycles,
    };
  }
}
