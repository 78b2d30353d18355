// The positions of parts that the user dragged in the board drawing. When a chain is deleted, the later chains get new numbers. Their
// positions are then stored under the new numbers. Undo restores the positions together with the text.

/**
 * @typedef {import("../board/wiring.js").Positions} Positions
 * @typedef {import("../board/wiring.js").Point} Point
 *
 * A text edit that deletes chains: the text before and after the edit, and the numbers of the deleted chains. `points` are the positions of
 * deleted chains that the user had dragged.
 * @typedef {{ before: string, after: string, chains: number[], points: Positions }} Deletion
 */

const CHAIN_NAME = /^chain (\d+)$/;

/** The positions of the parts that the user dragged. */
export class MovedParts {
  constructor() {
    /** @type {Positions} the positions, by part name */
    this.positions = new Map();
    /** @type {Deletion[]} the recorded edits that delete chains */
    this.deletions = [];
    /** True if positions have changed since the last call of `hasNewChanges`. */
    this.hasChanged = false;
  }

  /**
   * Replaces all positions with the positions of another session.
   * @param {[string, Point][]} points the part names and positions
   */
  load(points) {
    this.positions.clear();
    for (const [part, point] of points) this.positions.set(part, point);
    this.deletions = [];
  }

  /**
   * Records a text edit that deletes chains.
   * @param {string} textBefore the text before the edit
   * @param {string} textAfter the text after the edit
   * @param {number[]} numbers the numbers of the deleted chains
   */
  recordDeletion(textBefore, textAfter, numbers) {
    if (numbers.length === 0) return;
    const chains = [...numbers].sort((a, b) => a - b);
    this.deletions.push({ before: textBefore, after: textAfter, chains, points: new Map() });
  }

  /**
   * Updates the positions if a change of the text performs or undoes a recorded deletion.
   * @param {string | null} textBefore
   * @param {string} textAfter
   */
  updateForTextChange(textBefore, textAfter) {
    const performedDeletion = this.deletions.find(({ before, after }) => before === textBefore && after === textAfter);
    const undoneDeletion = this.deletions.find(({ before, after }) => before === textAfter && after === textBefore);
    if (performedDeletion) this.removeChains(performedDeletion);
    else if (undoneDeletion) this.restoreChains(undoneDeletion);
  }

  /** Returns whether positions have changed since the previous call. */
  hasNewChanges() {
    const { hasChanged } = this;
    this.hasChanged = false;
    return hasChanged;
  }

  /**
   * Moves the positions of deleted chains to the record of the deletion, and renumbers the other chains.
   * @param {Deletion} deletion
   */
  removeChains({ chains, points }) {
    for (const [number, point] of this.takeChains()) {
      if (chains.includes(number)) points.set(`chain ${number}`, point);
      else this.positions.set(`chain ${number - chains.filter((deletedNumber) => deletedNumber < number).length}`, point);
    }
  }

  /**
   * Restores the positions of deleted chains, and renumbers the other chains.
   * @param {Deletion} deletion
   */
  restoreChains({ chains, points }) {
    for (const [currentNumber, point] of this.takeChains()) {
      const oldNumber = chains.reduce((number, deletedNumber) => (deletedNumber <= number ? number + 1 : number), currentNumber);
      this.positions.set(`chain ${oldNumber}`, point);
    }
    for (const [part, point] of points) this.positions.set(part, point);
  }

  /** Removes the positions of all chains. Returns them as pairs of the chain number and the position. */
  takeChains() {
    /** @type {[number, Point][]} */
    const chains = [];
    for (const [part, point] of this.positions) {
      const match = CHAIN_NAME.exec(part);
      if (match) chains.push([Number(match[1]), point]);
    }
    for (const [number] of chains) this.positions.delete(`chain ${number}`);
    this.hasChanged = true;
    return chains;
  }
}
