// Stores the past of a session, so that the session can move back in time. The past consists of segments. A segment has the session file at
// its start and the accepted commands since then. To compute a past state, the timeline runs the commands of a segment again on a copy of
// its file. When the past becomes too long, segments without a stop (a moment at which the machine was paused) are removed first. The past
// is stored in the memory of this worker. The page receives the additions (js/page/session/stored_history.js), and restores the past
// after a reload.

import { CancelledError } from "../bench/bench_errors.js";
import { withoutCommandCount } from "../bench/state_line.js";
import { CycleCount } from "./accepted_commands.js";

/**
 * @typedef {import("./accepted_commands.js").AcceptedCommand} AcceptedCommand
 * @typedef {import("./engine_host.js").EngineHost} Engine
 *
 * A command. `cycles` is the number of cycles that it ran, and `resets` is true if it reset the machine. `isStop` is true if the machine
 * was paused before the command.
 * @typedef {{ line: string, cycles: number, resets: boolean, isStop: boolean }} Entry
 *
 * A part of the past: the session file and the cycle count at its start, and the commands from there on, which ran `cycles` cycles.
 * `characters` is the total length of the command lines. `follows` is true if the segment starts where the previous segment ends.
 * @typedef {{ file: Uint8Array, count: CycleCount, entries: Entry[], cycles: number, characters: number, follows: boolean,
 *   checkpoints: Checkpoint[] }} Segment
 *
 * A checkpoint: the session state after the first `entry` entries of a segment, which ran `cycles` cycles. A replay can start here.
 * @typedef {{ entry: number, file: Uint8Array, count: CycleCount, cycles: number }} Checkpoint
 *
 * A moment: after `entry` entries of a segment, and `cycles` cycles into the next entry.
 * @typedef {{ segment: number, entry: number, cycles: number }} Moment
 *
 * A session at a moment: its file and its cycle count.
 * @typedef {{ file: Uint8Array, count: CycleCount }} SessionAtMoment
 *
 * The entries since the last report to the page. If `isNewPast` is true, they replace all entries that were reported before.
 * @typedef {{ isNewPast: boolean, entries: Entry[] }} PastChanges
 *
 * A segment as the page stores it: the session file and the cycle counts (`total`, and `reset` for the last reset) at its start, and its
 * entries.
 * @typedef {{ file: Uint8Array, total: number, reset: number, entries: Entry[] }} StoredSegment
 *
 * A callback that receives the number of cycles searched since its last call, and resolves to true to continue.
 * @typedef {(done?: number) => Promise<boolean>} ShouldContinue
 */

/** The maximum numbers of cycles, of entries, and of characters in the command lines of a segment. They limit the time of a replay. */
const MAX_SEGMENT_CYCLES = 4000000;
export const MAX_SEGMENT_ENTRIES = 4000;
const MAX_SEGMENT_CHARACTERS = 200000;
/** The maximum number of segments. Each segment contains a file of 164 KB. */
const MAX_SEGMENTS = 48;
/**
 * The minimum distance between two checkpoints in a segment, in cycles. Checkpoints make short moves back fast because few cycles must be
 * replayed. Only the last two segments have checkpoints.
 */
const CHECKPOINT_INTERVAL = 250000;
/** The maximum number of moves back that can be undone. */
export const MAX_FORWARD_MOVES = 64;
/** The maximum length of a replayed command, in characters. After a longer command, a new segment starts. */
const MAX_LINE_LENGTH = 20000;
/**
 * The maximum number of positions that `restorePast` tries as the end of the stored past. Several positions can have the same cycle count,
 * because some commands run no cycles.
 */
const MAX_TRIES = 8;
/** The maximum number of cycles and of lines that one call replays. */
const MAX_PIECE_CYCLES = 1000000;
const MAX_PIECE_LINES = 500;

export class Timeline {
  /** @param {SessionAtMoment} present */
  constructor(present) {
    /** @type {Segment[]} */
    this.segments = [createSegment(present, false)];
    /** True if the machine is paused; the next entry then starts at a stop. */
    this.isStopped = true;
    /**
     * @type {({ segments: Segment[] } & SessionAtMoment)[]} the session before each move back that can be undone; a move forward returns to
     *   the last session in this list
     */
    this.future = [];
    /** @type {PastChanges} */
    this.unreportedChanges = { isNewPast: true, entries: [] };
  }

  /** Returns the entries since the previous call. */
  takeChanges() {
    const { unreportedChanges } = this;
    this.unreportedChanges = { isNewPast: false, entries: [] };
    return unreportedChanges;
  }

  /**
   * Restores the past before the first segment, as stored by the page. If the stored past is newer than the session, drops its later
   * entries. Returns the number of entries used from the last stored segment, or -1 if the stored past does not lead to the start of the
   * first segment.
   * @param {Engine} engine
   * @param {StoredSegment[]} storedSegments consecutive segments
   */
  restorePast(engine, storedSegments) {
    const [first] = this.segments;
    if (storedSegments.length === 0 || first.follows) return -1;
    const { total, entries, file } = storedSegments[storedSegments.length - 1];
    const expectedState = queryState(engine, first.file);
    let cycles = total + addUp(entries.map((entry) => entry.cycles));
    for (let count = entries.length, tries = 0; count >= 0 && cycles >= first.count.total && tries < MAX_TRIES; count--) {
      if (cycles === first.count.total) {
        tries += 1;
        const restoredFile = file.slice();
        engine.serve(restoredFile, entries.slice(0, count).map(({ line }) => `${line}\n`).join(""), restoredFile);
        if (queryState(engine, restoredFile) === expectedState) return this.prepend(storedSegments, count);
      }
      if (count > 0) cycles -= entries[count - 1].cycles;
    }
    return -1;
  }

  /**
   * Puts stored segments before the first segment. Returns `count`.
   * @param {StoredSegment[]} storedSegments
   * @param {number} count the number of entries to use from the last stored segment
   */
  prepend(storedSegments, count) {
    const [first, ...laterSegments] = this.segments;
    const restoredSegments = storedSegments.map((segment, index) => restoreSegment(
      index === storedSegments.length - 1 ? { ...segment, entries: segment.entries.slice(0, count) } : segment, index));
    this.segments = [...restoredSegments, { ...first, follows: true }, ...laterSegments];
    return count;
  }

  get lastSegment() {
    return this.segments[this.segments.length - 1];
  }

  /** The number of cycles in the stored past. */
  get cycles() {
    return this.segments.reduce((sum, { cycles }) => sum + cycles, 0);
  }

  /** Records that the machine is paused, so that the next entry starts at a stop. */
  recordStop() {
    this.isStopped = true;
  }

  /**
   * Appends commands to the past. Earlier moves back can then no longer be undone. A stored entry never changes. If there are too many
   * commands to replay, or a command is too long, stores none of them and starts a segment that does not follow the last segment.
   * @param {AcceptedCommand[]} commands
   * @param {SessionAtMoment} present the session after the commands
   */
  record(commands, present) {
    if (commands.length === 0) return;
    this.future = [];
    const { lastSegment } = this;
    const isTooLong = commands.length > MAX_SEGMENT_ENTRIES || commands.some(({ line }) => line.length > MAX_LINE_LENGTH);
    if (isTooLong) this.unreportedChanges = { isNewPast: true, entries: [] };
    else {
      for (const { line, cycles, resets } of commands) {
        const entry = { line, cycles, resets, isStop: this.isStopped };
        lastSegment.entries.push(entry);
        this.unreportedChanges.entries.push(entry);
        lastSegment.cycles += cycles;
        lastSegment.characters += line.length;
        this.isStopped = false;
      }
    }
    this.addCheckpointIfDue(present);
    const { cycles: segmentCycles, entries, characters } = lastSegment;
    const isFull = segmentCycles >= MAX_SEGMENT_CYCLES || entries.length >= MAX_SEGMENT_ENTRIES || characters >= MAX_SEGMENT_CHARACTERS;
    if (isTooLong || isFull) {
      this.segments.push(createSegment(present, !isTooLong));
      if (this.segments.length > 2) this.segments[this.segments.length - 3].checkpoints = [];
      if (this.segments.length > MAX_SEGMENTS) this.dropSegment();
    }
  }

  /**
   * Stores the present state as a checkpoint if at least CHECKPOINT_INTERVAL cycles have run since the previous checkpoint.
   * @param {SessionAtMoment} present
   */
  addCheckpointIfDue({ file, count }) {
    const { entries, cycles, checkpoints } = this.lastSegment;
    const lastCheckpointCycles = checkpoints.length > 0 ? checkpoints[checkpoints.length - 1].cycles : 0;
    if (cycles - lastCheckpointCycles < CHECKPOINT_INTERVAL) return;
    checkpoints.push({ entry: entries.length, file: file.slice(), count: count.copy(), cycles });
  }

  /** Removes the oldest segment without a stop, but not the last segment. If all older segments have stops, removes the oldest segment. */
  dropSegment() {
    const olderSegments = this.segments.slice(0, -1);
    const firstWithoutStop = olderSegments.findIndex(({ entries }) => !entries.some(({ isStop }) => isStop));
    const droppedIndex = Math.max(0, firstWithoutStop);
    this.segments = this.segments.filter((_, index) => index !== droppedIndex);
    this.segments[droppedIndex] = { ...this.segments[droppedIndex], follows: false };
  }

  /** @returns {Moment} the present */
  get presentMoment() {
    return { segment: this.segments.length - 1, entry: this.lastSegment.entries.length, cycles: 0 };
  }

  /**
   * Returns the last stop before the present; null if there is none.
   * @returns {Moment | null}
   */
  lastStop() {
    for (let segment = this.segments.length - 1; segment >= 0; segment--) {
      const { entries } = this.segments[segment];
      for (let entry = entries.length - 1; entry >= 0; entry--) {
        if (entries[entry].isStop) return { segment, entry, cycles: 0 };
      }
    }
    return null;
  }

  /**
   * Returns the moment that is `cycles` cycles before another moment; null if the past is too short. If commands that run no cycles were
   * entered at that time, the moment is after these commands.
   * @param {number} cycles 1 or more
   * @param {Moment} [from]
   * @returns {Moment | null}
   */
  momentBefore(cycles, from = this.presentMoment) {
    let remainingCycles = cycles - from.cycles;
    if (remainingCycles <= 0) return { ...from, cycles: -remainingCycles };
    let { segment, entry } = from;
    for (;;) {
      if (entry === 0) {
        if (!this.segments[segment].follows) return null;
        segment -= 1;
        entry = this.segments[segment].entries.length;
        continue;
      }
      entry -= 1;
      remainingCycles -= this.segments[segment].entries[entry].cycles;
      if (remainingCycles <= 0 && this.segments[segment].entries[entry].cycles > 0) return { segment, entry, cycles: -remainingCycles };
    }
  }

  /**
   * Resolves to the session at a moment, by running the commands again on a copy. Throws CancelledError if `shouldContinue` resolves to
   * false.
   * @param {Engine} engine
   * @param {Moment} moment
   * @param {ShouldContinue} shouldContinue
   * @returns {Promise<SessionAtMoment>}
   */
  async sessionAt(engine, moment, shouldContinue) {
    const { file, count, entries, checkpoints } = this.segments[moment.segment];
    const checkpoint = [...checkpoints].reverse().find(({ entry }) => entry <= moment.entry) || { entry: 0, file, count };
    const replayedEntries = [...entries.slice(checkpoint.entry, moment.entry), ...truncateEntry(entries[moment.entry], moment.cycles)];
    const session = { file: checkpoint.file.slice(), count: checkpoint.count.copy() };
    for (let from = 0; from < replayedEntries.length;) {
      if (from > 0 && !(await shouldContinue())) throw new CancelledError();
      const piece = nextPiece(replayedEntries, from);
      from += piece.length;
      engine.serve(session.file, piece.map(({ line }) => `${line}\n`).join(""), session.file);
    }
    session.count.add(replayedEntries);
    return session;
  }

  /**
   * Makes a past moment the present. `goForward` returns to the former present.
   * @param {Moment} moment
   * @param {SessionAtMoment} present the session at the former present
   */
  goBack(moment, present) {
    const { segments } = this;
    this.future.push({ segments, ...present });
    if (this.future.length > MAX_FORWARD_MOVES) this.future.shift();
    const oldSegment = segments[moment.segment];
    const entries = [...oldSegment.entries.slice(0, moment.entry), ...truncateEntry(oldSegment.entries[moment.entry], moment.cycles)];
    const cycles = entries.reduce((sum, entry) => sum + entry.cycles, 0);
    const checkpoints = oldSegment.checkpoints.filter(({ entry }) => entry <= moment.entry);
    this.segments = [...segments.slice(0, moment.segment), { ...oldSegment, entries, cycles, checkpoints }];
    this.unreportedChanges = { isNewPast: true, entries: [] };
    this.isStopped = true;
  }

  /** Joins the last two moves back into one move, which `goForward` undoes as a whole. */
  joinBackwardMoves() {
    if (this.future.length > 1) this.future.pop();
  }

  /**
   * Undoes the last move back. Returns the session before that move, or null if there is no move back to undo.
   * @returns {SessionAtMoment | null}
   */
  goForward() {
    const target = this.future.pop();
    if (!target) return null;
    this.segments = target.segments;
    this.unreportedChanges = { isNewPast: true, entries: [] };
    this.isStopped = true;
    return target;
  }
}

/**
 * Converts a segment from the form in which the page stores it.
 * @param {StoredSegment} stored
 * @param {number} index the index of the segment
 * @returns {Segment}
 */
function restoreSegment({ file, total, reset, entries }, index) {
  const [cycles, characters] = [entries.map((entry) => entry.cycles), entries.map(({ line }) => line.length)].map(addUp);
  return { ...createSegment({ file, count: new CycleCount(total, reset) }, index > 0), entries, cycles, characters };
}

/** @param {number[]} numbers */
function addUp(numbers) {
  return numbers.reduce((sum, number) => sum + number, 0);
}

/**
 * Returns the answer to `state` without the command count.
 * @param {Engine} engine
 * @param {Uint8Array} file
 */
function queryState(engine, file) {
  return withoutCommandCount(engine.ask(file, "state\n").answers[0]);
}

/**
 * Returns the next entries to replay, as many as one call can replay.
 * @param {Entry[]} entries
 * @param {number} from the index of the first of these entries
 */
function nextPiece(entries, from) {
  let cycles = 0;
  let to = from;
  while (to < entries.length && to - from < MAX_PIECE_LINES && cycles < MAX_PIECE_CYCLES) {
    cycles += entries[to].cycles;
    to += 1;
  }
  return entries.slice(from, to);
}

/**
 * Creates an empty segment that starts with the state of a session.
 * @param {SessionAtMoment} present
 * @param {boolean} follows true if the segment starts where the previous one ends
 * @returns {Segment}
 */
function createSegment({ file, count }, follows) {
  return { file: file.slice(), count: count.copy(), entries: [], cycles: 0, characters: 0, follows, checkpoints: [] };
}

/**
 * Returns a list with one new entry, which runs the first `cycles` cycles of an entry; an empty list for 0 cycles.
 * @param {Entry | undefined} entry
 * @param {number} cycles
 * @returns {Entry[]}
 */
function truncateEntry(entry, cycles) {
  return entry && cycles > 0 ? [{ line: `run ${cycles}`, cycles, resets: false, isStop: entry.isStop }] : [];
}
