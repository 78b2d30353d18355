// Writes the sound of a signal line as a WAV file: 16 bits, one channel, one sample per cycle.

import { CYCLES_PER_SECOND } from "../time/mcs4_time.js";

/** The sizes in bytes of a sample, of the file header, and of the format data in the header. */
const SAMPLE_BYTES = 2;
const HEADER_BYTES = 44;
const FORMAT_BYTES = 16;
/** The sample values for the two levels of the line. */
const SAMPLE_VALUES = { high: 0x2020, low: -0x2020 };
/** The offsets of the four-letter tags in the file header. */
const TAG_OFFSETS = { riff: 0, kind: 8, format: 12, data: 36 };
const PCM = 1;
const CHANNELS = 1;

/**
 * Writes an ASCII tag into the file.
 * @param {Uint8Array} bytes
 * @param {number} tagOffset
 * @param {string} letters
 */
function writeTag(bytes, tagOffset, letters) {
  [...letters].forEach((letter, offset) => {
    bytes[tagOffset + offset] = letter.charCodeAt(0);
  });
}

/**
 * Returns the WAV file for a signal line.
 * @param {number} level the level of the line at the start
 * @param {number[]} edges the moment of each edge, in cycles from the start
 * @param {number} cycles the length of the sound
 */
export function createWav(level, edges, cycles) {
  const size = cycles * SAMPLE_BYTES;
  const bytes = new Uint8Array(HEADER_BYTES + size);
  const view = new DataView(bytes.buffer);
  writeTag(bytes, TAG_OFFSETS.riff, "RIFF");
  view.setUint32(4, HEADER_BYTES - 8 + size, true);
  writeTag(bytes, TAG_OFFSETS.kind, "WAVE");
  writeTag(bytes, TAG_OFFSETS.format, "fmt".padEnd(4));
  view.setUint32(16, FORMAT_BYTES, true);
  view.setUint16(20, PCM, true);
  view.setUint16(22, CHANNELS, true);
  view.setUint32(24, CYCLES_PER_SECOND, true);
  view.setUint32(28, CYCLES_PER_SECOND * SAMPLE_BYTES, true);
  view.setUint16(32, SAMPLE_BYTES, true);
  view.setUint16(34, 8 * SAMPLE_BYTES, true);
  writeTag(bytes, TAG_OFFSETS.data, "data");
  view.setUint32(40, size, true);
  let [from, isHigh] = [0, level === 1];
  for (const edge of [...edges, cycles]) {
    for (let sample = from; sample < edge; sample++) {
      view.setInt16(HEADER_BYTES + sample * SAMPLE_BYTES, isHigh ? SAMPLE_VALUES.high : SAMPLE_VALUES.low, true);
    }
    [from, isHigh] = [edge, !isHigh];
  }
  return bytes;
}
