// The values of a signal line in a recording: the first value, and each moment at which the value changed. The track of a single bit stores
// no other values, because each change inverts the bit.

import { NumberQueue, countUpTo } from "./number_queue.js";

/**
 * The data of a track, as sent by the worker. `moments` are the moments of the changes. `values` are the values after each change; null for
 * a single bit.
 * @typedef {{ first: number, moments: Uint32Array, values: Uint16Array | Float64Array | null }} TrackData
 */

/** @typedef {import("./number_queue.js").Numbers} Numbers */

/**
 * Returns the track of a line that is always 0.
 * @param {number} width the width of the line in bits
 * @returns {TrackData}
 */
export function createEmptyTrack(width) {
  const values = width > 16 ? new Float64Array(0) : new Uint16Array(0);
  return { first: 0, moments: new Uint32Array(0), values: width > 1 ? values : null };
}

export class Track {
  /** @param {TrackData} data the track data; the track takes ownership of the arrays */
  constructor({ first, moments, values }) {
    this.first = first;
    this.moments = new NumberQueue(moments);
    /** @type {NumberQueue<Numbers> | null} */
    this.values = values && new NumberQueue(values);
    this.lastValue = this.valueAfter(this.moments.count);
  }

  /**
   * Returns the value after `count` changes.
   * @param {number} count
   * @returns {number}
   */
  valueAfter(count) {
    if (!this.values) return this.first ^ (count & 1);
    return count === 0 ? this.first : this.values.numbers[this.values.from + count - 1];
  }

  /**
   * Returns the value at a moment.
   * @param {number} moment
   */
  valueAt(moment) {
    return this.valueAfter(countUpTo(this.moments.all, moment));
  }

  /**
   * Sets the value from a moment onwards. If several changes at the same moment cancel out, stores none of them.
   * @param {number} value
   * @param {number} moment the moment, not before the last change
   */
  set(value, moment) {
    if (value === this.lastValue) return;
    this.lastValue = value;
    if (this.moments.last === moment) {
      this.moments.pop();
      if (this.values) this.values.pop();
      if (this.valueAfter(this.moments.count) === value) return;
    }
    this.moments.push(moment);
    if (this.values) this.values.push(value);
  }

  /**
   * Appends the changes in a later part of the recording.
   * @param {TrackData} data
   */
  append({ moments, values }) {
    for (let index = 0; index < moments.length; index++) this.set(values ? values[index] : 1 - this.lastValue, moments[index]);
  }

  /**
   * Moves the start to a moment, and drops earlier changes.
   * @param {number} moment
   */
  beginAt(moment) {
    const count = countUpTo(this.moments.all, moment);
    this.first = this.valueAfter(count);
    this.moments.dropFirst(count);
    if (this.values) this.values.dropFirst(count);
  }

  /**
   * Moves the end to a moment, and drops later changes.
   * @param {number} moment
   */
  endAt(moment) {
    const count = countUpTo(this.moments.all, moment);
    this.moments.keepFirst(count);
    if (this.values) this.values.keepFirst(count);
    this.lastValue = this.valueAfter(count);
  }

  /**
   * Returns the track data and empties the track. The track continues with its last value.
   * @returns {TrackData}
   */
  takeData() {
    const { first } = this;
    this.first = this.lastValue;
    return { first, moments: this.moments.takeAll(), values: this.values && /** @type {Uint16Array} */ (this.values.takeAll()) };
  }
}
