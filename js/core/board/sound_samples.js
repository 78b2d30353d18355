// Converts the levels of the buzzer's signal line to sound samples, one sample per cycle.

/** @typedef {import("../engine/buzzer_meter.js").BuzzerLevels} BuzzerLevels */

/**
 * Returns one sample per cycle: 1 for a high level, -1 for a low level.
 * @param {BuzzerLevels} levels
 */
export function soundSamples({ cycles, level, edges }) {
  const samples = new Float32Array(cycles);
  let [from, currentLevel] = [0, level];
  for (const edge of [...edges, cycles]) {
    samples.fill(currentLevel === 1 ? 1 : -1, from, edge);
    [from, currentLevel] = [edge, 1 - currentLevel];
  }
  return samples;
}

/** Collects samples until there are enough for playback. */
export class SampleBuffer {
  /** @param {number} minSamples the minimum number of samples for playback */
  constructor(minSamples) {
    this.minSamples = minSamples;
    /** @type {Float32Array[]} */
    this.pieces = [];
    this.count = 0;
  }

  /** Discards all samples. */
  forget() {
    this.pieces = [];
    this.count = 0;
  }

  /**
   * Adds the samples of an interval. If there are enough samples, removes and returns them all; otherwise returns null.
   * @param {BuzzerLevels} levels
   */
  add(levels) {
    this.pieces.push(soundSamples(levels));
    this.count += levels.cycles;
    if (this.count < this.minSamples) return null;
    const allSamples = new Float32Array(this.count);
    let offset = 0;
    for (const piece of this.pieces) {
      allSamples.set(piece, offset);
      offset += piece.length;
    }
    this.forget();
    return allSamples;
  }
}
