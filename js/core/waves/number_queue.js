// A queue of numbers in a typed array. Callers can add numbers at the end, and remove numbers at both ends.

/** @typedef {Uint16Array | Uint32Array | Float64Array} Numbers */

/** The minimum capacity of the array after the first number is added. */
const INITIAL_CAPACITY = 64;
/** If fewer elements than this are unused at the start of the array, the queue does not move its numbers there. */
const MIN_UNUSED = 4096;

/**
 * Returns how many of the numbers are less than or equal to `limit`.
 * @param {ArrayLike<number>} numbers the numbers in ascending order
 * @param {number} limit
 */
export function countUpTo(numbers, limit) {
  let [low, high] = [0, numbers.length];
  while (low < high) {
    const middle = (low + high) >> 1;
    if (numbers[middle] <= limit) low = middle + 1;
    else high = middle;
  }
  return low;
}

/** @template {Numbers} Kind */
export class NumberQueue {
  /** @param {Kind} numbers the initial numbers; the queue takes ownership of the array */
  constructor(numbers) {
    this.numbers = numbers;
    this.from = 0;
    this.to = numbers.length;
  }

  /** The number of elements. */
  get count() {
    return this.to - this.from;
  }

  /** The last number; -1 if the queue is empty. */
  get last() {
    return this.count > 0 ? this.numbers[this.to - 1] : -1;
  }

  set last(number) {
    this.numbers[this.to - 1] = number;
  }

  /**
   * Adds a number at the end.
   * @param {number} number
   */
  push(number) {
    if (this.to === this.numbers.length) this.enlarge();
    this.numbers[this.to] = number;
    this.to += 1;
  }

  /** Replaces the array with an array of twice the size. */
  enlarge() {
    const largerArray = /** @type {Kind} */ (new (/** @type {any} */ (this.numbers.constructor))(Math.max(INITIAL_CAPACITY, this.to * 2)));
    largerArray.set(this.numbers);
    this.numbers = largerArray;
  }

  /** Removes the last number. */
  pop() {
    this.to -= 1;
  }

  /**
   * Removes numbers at the start.
   * @param {number} count
   */
  dropFirst(count) {
    this.from += count;
    if (this.from < MIN_UNUSED || this.from < this.count) return;
    this.numbers.copyWithin(0, this.from, this.to);
    this.to -= this.from;
    this.from = 0;
  }

  /**
   * Removes all numbers except the first ones.
   * @param {number} count the number of numbers to keep
   */
  keepFirst(count) {
    this.to = this.from + count;
  }

  /**
   * The numbers, as a view of the array. The view is valid until the queue changes.
   * @returns {Kind}
   */
  get all() {
    return /** @type {Kind} */ (this.numbers.subarray(this.from, this.to));
  }

  /** Removes all numbers and returns a copy of them. */
  takeAll() {
    const numbers = /** @type {Kind} */ (this.all.slice());
    this.from = this.to = 0;
    return numbers;
  }
}
