// Chooses the size of the pieces into which a long task is divided. Between two pieces, the task can report its progress and be cancelled.

/** The target duration of a piece, in milliseconds. */
const PIECE_MILLISECONDS = 40;
/** The length in cycles of the first piece of a task that examines each cycle. */
export const FIRST_PIECE_CYCLES = 1000;
/** The maximum number of cycles in a piece of a search. */
export const SEARCH_PIECE_CYCLES = 400000;
/** The maximum number of units (see replay_units.js) in a piece of a search. */
export const SEARCH_PIECE_UNITS = 500;
/** The maximum number of cycles in a piece of a recording. */
export const RECORDING_PIECE_CYCLES = 50000;
/** The maximum number of units in a piece of a recording. */
export const RECORDING_PIECE_UNITS = 50;

export class PieceSize {
  /**
   * @param {number} first the size of the first piece
   * @param {number} min the minimum size
   * @param {number} max the maximum size
   */
  constructor(first, min, max) {
    this.size = first;
    this.min = min;
    this.max = max;
  }

  /**
   * Runs a piece and returns its result. Computes the size of the next piece from the duration of this one.
   * @template Result
   * @param {() => Result} runPiece
   * @returns {Result}
   */
  measure(runPiece) {
    const start = performance.now();
    const result = runPiece();
    const targetSize = this.size * Math.min(4, Math.max(0.25, PIECE_MILLISECONDS / Math.max(1, performance.now() - start)));
    this.size = Math.round(Math.min(this.max, Math.max(this.min, targetSize)));
    return result;
  }
}
