// The visible range of a recording, and the moments of its two cursors. All moments are in cycles.

/** The minimum number of visible cycles. */
const MIN_CYCLES = 10;
/** The default number of visible cycles. */
const DEFAULT_CYCLES = 20000;
/** The maximum distance in pixels between a click and the edge that the click selects. */
const MAX_EDGE_DISTANCE = 7;

/** @typedef {import("./wave_recording.js").Waves} Waves */

/**
 * Returns the number in a range that is nearest to a number.
 * @param {number} number
 * @param {number} min
 * @param {number} max
 */
function clamp(number, min, max) {
  return Math.min(Math.max(number, min), max);
}

export class WaveWindow {
  /**
   * @param {number} end the end of the recording
   * @param {number} [begin] the start of the recording
   */
  constructor(end, begin = 0) {
    this.begin = begin;
    this.end = end;
    /** The first visible moment, and the number of visible cycles. */
    this.from = begin;
    this.span = Math.max(1, end - begin);
    /** The width of the view in pixels. */
    this.width = 1;
    this.cursors = [begin, begin];
    /** The index of the cursor that the user moves. */
    this.activeCursor = 0;
  }

  /** The length of the recording in cycles. */
  get length() {
    return Math.max(1, this.end - this.begin);
  }

  /** The end of the visible range. */
  get to() {
    return this.from + this.span;
  }

  /** The moment of the active cursor. */
  get moment() {
    return this.cursors[this.activeCursor];
  }

  /** The number of cycles between the cursors. */
  get cursorDistance() {
    return Math.abs(this.cursors[1] - this.cursors[0]);
  }

  /**
   * Returns the horizontal position of a moment in pixels.
   * @param {number} moment
   */
  xAt(moment) {
    return ((moment - this.from) / this.span) * this.width;
  }

  /**
   * Returns the moment at a horizontal position.
   * @param {number} x
   */
  timeAt(x) {
    return this.from + (x / this.width) * this.span;
  }

  /**
   * Zooms in by a factor; a factor below 1 zooms out. The moment `moment` keeps its position on the screen.
   * @param {number} factor
   * @param {number} moment
   */
  zoom(factor, moment) {
    const share = (moment - this.from) / this.span;
    this.span = clamp(this.span / factor, Math.min(MIN_CYCLES, this.length), this.length);
    this.scrollTo(moment - share * this.span);
  }

  /**
   * Scrolls to a moment, as far as the recording allows.
   * @param {number} from the first visible moment
   */
  scrollTo(from) {
    this.from = clamp(from, this.begin, Math.max(this.begin, this.end - this.span));
  }

  /**
   * Adapts to a recording that has grown at its end or lost cycles at its start. If the visible range or a cursor was at the end, it moves
   * with the end. A short recording stays completely visible.
   * @param {number} begin
   * @param {number} end
   */
  extendRange(begin, end) {
    const wasAtEnd = this.to >= this.end;
    const isCompletelyVisible = this.span >= this.length && this.length < DEFAULT_CYCLES;
    this.cursors = this.cursors.map((cursor) => (cursor === this.end ? end : clamp(cursor, begin, end)));
    this.begin = begin;
    this.end = end;
    this.span = isCompletelyVisible ? Math.min(DEFAULT_CYCLES, this.length) : Math.min(this.span, this.length);
    this.scrollTo(wasAtEnd ? end - this.span : this.from);
  }

  /** Shows all cycles of a finished recording, unless the user has zoomed in or scrolled away from the end. */
  showAllIfUnzoomed() {
    if (this.to >= this.end && this.span >= Math.min(DEFAULT_CYCLES, this.length)) this.showAll();
  }

  /**
   * Moves cursor A to a moment, and shows the cycles around the moment.
   * @param {number} moment
   */
  showAround(moment) {
    this.cursors[0] = clamp(moment, this.begin, this.end);
    this.span = Math.min(DEFAULT_CYCLES, this.length);
    this.scrollTo(moment - this.span / 2);
  }

  /**
   * Moves the cursors to two moments, unless the user has already moved a cursor away from the end.
   * @param {number} first
   * @param {number} second
   */
  placeCursors(first, second) {
    if (this.cursors.some((cursor) => cursor !== this.end)) return;
    this.cursors = [first, second].map((moment) => clamp(moment, this.begin, this.end));
  }

  /** Shows all cycles of the recording. */
  showAll() {
    this.span = this.length;
    this.from = this.begin;
  }

  /**
   * Moves the active cursor. Scrolls if the cursor would not be visible.
   * @param {number} moment
   */
  move(moment) {
    const to = clamp(Math.round(moment), this.begin, this.end);
    this.cursors[this.activeCursor] = to;
    if (to < this.from || to > this.to) this.scrollTo(to - this.span / 2);
  }

  /**
   * Returns the moment at a horizontal position: the nearest edge of a line if an edge is close, otherwise the cycle at the position.
   * @param {number} x
   * @param {Waves} waves
   * @param {number} line the index of the line; -1 for none
   */
  momentAt(x, waves, line) {
    const cycle = clamp(Math.floor(this.timeAt(x)), this.begin, this.end);
    if (line < 0) return cycle;
    const edges = [waves.changeBefore(line, cycle + 1), waves.changeAfter(line, cycle)];
    const nearEdges = edges.filter((edge) => edge !== undefined && Math.abs(this.xAt(edge) - x) <= MAX_EDGE_DISTANCE);
    const [nearest] = nearEdges.sort((one, other) => Math.abs(this.xAt(Number(one)) - x) - Math.abs(this.xAt(Number(other)) - x));
    return nearest === undefined ? cycle : nearest;
  }
}

/**
 * Returns the moments of the ticks on the time scale. The ticks are far enough apart for their labels.
 * @param {WaveWindow} view
 * @param {number} labelWidth the required width per label in pixels
 */
export function chooseTickMoments(view, labelWidth) {
  const minDistance = (labelWidth / view.width) * view.span;
  const power = 10 ** Math.floor(Math.log10(Math.max(1, minDistance)));
  const distance = [1, 2, 5, 10].map((step) => step * power).find((step) => step >= minDistance) || 1;
  const ticks = [];
  for (let tick = Math.ceil(view.from / distance) * distance; tick <= view.to; tick += distance) ticks.push(tick);
  return ticks;
}
