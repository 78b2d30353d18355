// Stores session files compactly: for each file, only the 32-bit words that differ from those of a base file. Most words do not differ.

/**
 * A stored file: the indices and the values of the words that differ from those of the base file.
 * @typedef {{ indexes: Uint32Array, words: Uint32Array }} FileDelta
 */

/** The size of a word in bytes. */
const WORD_BYTES = 4;

export class DeltaFiles {
  /** @param {Uint8Array} baseFile the session file with which `encode` compares other files */
  constructor(baseFile) {
    this.baseWords = viewWords(baseFile);
    /** The words of the last decoded file. */
    this.scratch = new Uint32Array(baseFile.length / WORD_BYTES);
    /** The bytes of the last decoded file, in the same memory as `scratch`. */
    this.bytes = new Uint8Array(this.scratch.buffer);
    /** @type {number[]} a list that `encode` reuses */
    this.indexes = [];
  }

  /**
   * Returns the words of a file that differ from those of the base file.
   * @param {Uint8Array} file
   * @returns {FileDelta}
   */
  encode(file) {
    const words = viewWords(file);
    const { baseWords, indexes } = this;
    indexes.length = 0;
    for (let at = 0; at < baseWords.length; at++) if (words[at] !== baseWords[at]) indexes.push(at);
    return { indexes: Uint32Array.from(indexes), words: Uint32Array.from(indexes, (at) => words[at]) };
  }

  /**
   * Returns the bytes of a stored file. The next call of this method overwrites the returned array.
   * @param {FileDelta} delta
   */
  decode({ indexes, words }) {
    const { scratch } = this;
    scratch.set(this.baseWords);
    indexes.forEach((index, at) => {
      scratch[index] = words[at];
    });
    return this.bytes;
  }
}

/**
 * Returns the bytes of a file as 32-bit words, without a copy if the bytes are aligned.
 * @param {Uint8Array} file
 */
function viewWords(file) {
  if (file.byteOffset % WORD_BYTES !== 0) return new Uint32Array(file.slice().buffer);
  return new Uint32Array(file.buffer, file.byteOffset, file.length / WORD_BYTES);
}
