// Converts the inputs in a counterexample of the prover to steps that press keys, release keys or set TEST. To do so, this module runs the
// program on the bench. Before each instruction that reads inputs, it sets the keys or TEST. A counterexample contains either the values
// that the program reads, or the levels of all inputs at each read. For levels, this module finally chooses the moments of all changes.

import { readCounter, readRun } from "../bench/answers.js";
import { indices } from "../bench/numbers.js";
import { ADDRESS_COUNT } from "../bench/rom_bytes.js";
import { parsePorts, parseState } from "../bench/state_line.js";
import { isSameKey, keyLine, matrixKey, pinKey } from "../board/key_place.js";
import { MAX_ENABLED_BREAKPOINTS } from "../debug/breakpoints.js";
import { MAX_RUN_CYCLES, formatRunLines } from "../engine/key_queue.js";
import { RDR } from "../engine/rom_codes.js";
import { createInput, createTestInput, listKeyInputs } from "../explore/search_inputs.js";
import { formatChangeLine } from "../explore/walks.js";
import { createSteps, findLatestMoments } from "./change_moments.js";
import { DEFAULT_PAUSE } from "./question.js";

/**
 * @typedef {import("../explore/campaign.js").Campaign} Campaign
 * @typedef {import("../explore/search_inputs.js").Input} Input
 * @typedef {import("../explore/subject.js").Subject} Subject
 * @typedef {import("../explore/walks.js").WalkStep} WalkStep
 * @typedef {import("./change_moments.js").Change} Change
 * @typedef {import("./question.js").Reads} Reads
 *
 * The minimum number of cycles between two changes, and the maximum length of a press in cycles; Infinity for no maximum.
 * @typedef {{ minWait: number, maxPressTime: number }} PressLimits
 */

/**
 * Returns whether an instruction is a JCN that reads the TEST pin.
 * @param {number} code
 */
const readsTest = (code) => (code & 0xF1) === 0x11;

/**
 * Returns all inputs of a board: the keys, named or not, and the TEST pin last.
 * @param {Subject} subject
 * @returns {Input[]}
 */
export function listInputs({ names: { face, board } }) {
  const namedInputs = new Map(listKeyInputs(face).map((input) => [input.downLine, input]));
  const keys = indices(board.rows).flatMap((row) => indices(board.columns).map((column) => {
    const key = matrixKey(row, column);
    const [downLine, upLine] = [keyLine("press", key), keyLine("release", key)];
    return namedInputs.get(downLine) || createInput(`${row},${column}`, key, [downLine, upLine]);
  }));
  return [...keys, createTestInput(face)];
}

/** A session that runs from one read of an input to the next, with the steps that change its inputs. */
class InputReplay {
  /**
   * @param {Subject} subject
   * @param {Input[]} inputs
   */
  constructor(subject, inputs) {
    this.subject = subject;
    this.inputs = inputs;
    this.file = subject.file.slice();
    /** The session file after the last change of an input. */
    this.changedFile = this.file.slice();
    /** For each input, whether it is down now. */
    this.downInputs = inputs.map(({ isDown }) => isDown);
    this.cyclesSinceChange = 0;
    /** The number of cycles since power-on. */
    this.time = 0;
    /** @type {WalkStep[]} */
    this.steps = [];
    this.readAddresses = indices(ADDRESS_COUNT).filter((address) => this.readsInput(subject.codes[address]));
    if (this.hasBreakpoints) this.serve(this.readAddresses.map((address) => `break ${address}\n`).join(""));
  }

  /** True if there is a breakpoint at each instruction that reads an input. */
  get hasBreakpoints() {
    return this.readAddresses.length <= MAX_ENABLED_BREAKPOINTS;
  }

  /**
   * Returns whether an instruction reads an input.
   * @param {number} code
   */
  readsInput(code) {
    return code === RDR || readsTest(code);
  }

  /**
   * Executes bench lines and returns their answers.
   * @param {string} lines
   */
  serve(lines) {
    return this.subject.engine.serve(this.file, lines, this.file).answers;
  }

  /** Returns the opcode of the next instruction if the instruction reads an input and no second cycle is pending; otherwise -1. */
  findNextReadCode() {
    const { counter, owed } = readCounter(this.subject.engine.ask(this.file, "regs\n").answers[0]);
    const code = this.subject.codes[parseInt(counter, 16)];
    return owed === "1" || !this.readsInput(code) ? -1 : code;
  }

  /**
   * Presses or releases a key, or sets the TEST pin, if the input is not in this position yet.
   * @param {number} index
   * @param {boolean} isDown
   */
  moveInput(index, isDown) {
    if (this.downInputs[index] === isDown) return;
    this.downInputs[index] = isDown;
    this.serve(`${isDown ? this.inputs[index].downLine : this.inputs[index].upLine}\n`);
    this.steps.push({ wait: this.cyclesSinceChange, kind: isDown ? "down" : "up", input: index });
    this.cyclesSinceChange = 0;
    this.changedFile = this.file.slice();
  }

  /**
   * Sets TEST to a level.
   * @param {number} level
   */
  setTest(level) {
    const pinIndex = this.inputs.length - 1;
    this.moveInput(pinIndex, isSameKey(this.inputs[pinIndex].key, pinKey(level)));
  }

  /**
   * Runs the program for at most `count` cycles. Returns the number of cycles that it ran, and the reason why it stopped.
   * @param {number} count
   */
  run(count) {
    const [answer] = this.serve(`run ${count}\n`);
    const { cycles, end } = readRun(answer) || { cycles: 0, end: "" };
    this.cyclesSinceChange += cycles;
    this.time += cycles;
    return { cycles, end };
  }

  /** Runs to the next instruction that reads an input, for at most DEFAULT_PAUSE cycles. Returns false if the program cannot continue. */
  runToRead() {
    for (let remaining = DEFAULT_PAUSE; remaining > 0 && this.findNextReadCode() < 0;) {
      const { cycles, end } = this.run(Math.min(remaining, this.hasBreakpoints ? MAX_RUN_CYCLES : 1));
      remaining -= cycles;
      if (end === "code" || end === "") return false;
    }
    return true;
  }

  /** Returns the session file after the last change, without breakpoints. */
  takeChangedFile() {
    const { subject, changedFile, readAddresses } = this;
    const unbreakLines = readAddresses.map((address) => `unbreak ${address}\n`).join("");
    if (this.hasBreakpoints) subject.engine.serve(changedFile, unbreakLines, changedFile);
    return changedFile;
  }
}

/** A replay in which the program reads given values. If possible, presses only keys that a campaign allows. */
class ValueReplay extends InputReplay {
  /**
   * @param {Subject} subject
   * @param {Input[]} inputs
   * @param {Campaign} campaign
   */
  constructor(subject, inputs, campaign) {
    super(subject, inputs);
    this.maxKeysDown = campaign.maxKeysDown;
    const allowedLines = new Set(campaign.inputs.map(({ downLine }) => downLine));
    /** For each input, whether the campaign allows it. */
    this.allowedInputs = inputs.map(({ downLine }) => allowedLines.has(downLine));
  }

  /**
   * Sets the keys so that the program reads a value at the selected port. For each 1 bit, presses a key in a driven row, preferably a key
   * that the campaign allows. Releases keys before it presses others.
   * @param {number} value
   */
  setKeys(value) {
    const { board: { matrix, rows, columns } } = this.subject.names;
    if (!matrix) return;
    const { srcBytes, chains } = parsePorts(parseState(this.subject.engine.ask(this.file, "state\n").answers[0]).ports);
    const port = `rom${parseInt(srcBytes[0][0], 16)}`;
    const drivenRows = indices(rows).filter((row) => chains[matrix.chain][matrix.first + row] === "1");
    const wantedLines = new Set(indices(4).filter((line) => Math.floor(value / 2 ** line) % 2 === 1));
    /** @type {number[]} the keys that the next read can detect */
    const visibleKeys = [];
    /** @type {number[]} */
    const wantedKeys = [];
    for (const column of indices(columns)) {
      const [chip, line] = matrix.columns[column].split(".");
      if (chip !== port) continue;
      const keys = drivenRows.map((row) => row * columns + column);
      visibleKeys.push(...keys);
      if (wantedLines.delete(Number(line))) wantedKeys.push(...(keys.filter((key) => this.allowedInputs[key]).concat(keys).slice(0, 1)));
    }
    for (const key of visibleKeys) if (!wantedKeys.includes(key)) this.moveInput(key, false);
    this.releaseSurplusKeys(wantedKeys);
    for (const key of wantedKeys) this.moveInput(key, true);
  }

  /**
   * Releases other keys if too many keys would be down after the wanted keys are pressed.
   * @param {number[]} wantedKeys the keys to press
   */
  releaseSurplusKeys(wantedKeys) {
    const otherKeys = indices(this.inputs.length).filter((index) => (
      this.inputs[index].isKey && this.downInputs[index] && !wantedKeys.includes(index)));
    const surplusCount = otherKeys.length + wantedKeys.length - this.maxKeysDown;
    for (const key of otherKeys.slice(0, Math.max(0, surplusCount))) this.moveInput(key, false);
  }

  /**
   * Sets the inputs for the next cycle.
   * @param {number} value the value that the program reads in the next cycle; 0 if the cycle does not read an input
   */
  setInputs(value) {
    const code = this.findNextReadCode();
    if (code === RDR) this.setKeys(value);
    else if (code >= 0) this.setTest(value);
  }
}

/**
 * A step of a counterexample. `time` is the moment at which it begins, in cycles since power-on. `code` is the opcode of the instruction
 * that reads an input at this moment, or -1. `levels` are the levels of all inputs: of each key, row by row, and of TEST.
 * @typedef {{ time: number, code: number, levels: number[] }} LevelStep
 */

/**
 * A replay that gives the inputs certain levels at each read. Changes only inputs that the next instruction reads, immediately before the
 * read. Records all steps with their moments.
 */
class LevelReplay extends InputReplay {
  /**
   * @param {Subject} subject
   * @param {Input[]} inputs
   */
  constructor(subject, inputs) {
    super(subject, inputs);
    /** @type {LevelStep[]} */
    this.levelSteps = [];
  }

  /**
   * Sets the keys, or TEST, to given levels before the next read. Does not change inputs that this read cannot detect.
   * @param {number[]} levels
   */
  setInputs(levels) {
    const step = { time: this.time, code: this.findNextReadCode(), levels };
    this.levelSteps.push(step);
    const inputsToSet = indices(this.inputs.length).filter((index) => isRead(step, index === this.inputs.length - 1));
    for (const index of inputsToSet) this.moveInput(index, isDownAt(step, this.inputs, index));
  }
}

/**
 * Returns whether a step reads TEST or, if `isPin` is false, whether it reads the keys.
 * @param {LevelStep} step
 * @param {boolean} isPin
 */
const isRead = ({ code }, isPin) => code >= 0 && isPin === readsTest(code);

/**
 * Returns whether an input is down in a step.
 * @param {LevelStep} step
 * @param {Input[]} inputs
 * @param {number} index the index of the input
 */
const isDownAt = ({ levels }, inputs, index) => (
  inputs[index].isKey ? levels[index] === 1 : isSameKey(inputs[index].key, pinKey(levels[index])));

/**
 * Functions that decide whether an input must have its given level in a step, in the order in which they are tried. If only the inputs
 * that the step reads must have their levels, the replay needs the fewest changes. But then a key can stay down too long, because no read
 * detects its release. Therefore, the second function also demands the levels of keys that the step does not read, and the third one also
 * demands that of TEST.
 * @type {((step: LevelStep, isPin: boolean) => boolean)[]}
 */
const LEVEL_DEMANDS = [isRead, (step, isPin) => !isPin || isRead(step, true), () => true];

/**
 * Returns the changes that give the inputs their levels in all steps in which `isDemanded` demands them. Also returns the releases of the
 * keys that are down after the last step. A change can happen at any moment from `first` to `last`. `first` is after the last step that
 * demands an old level, and `last` is the step that demands the new levels.
 * @param {LevelStep[]} levelSteps
 * @param {Input[]} inputs
 * @param {(step: LevelStep, isPin: boolean) => boolean} isDemanded
 * @returns {{ changes: Change[], releases: Change[] }}
 */
function listChanges(levelSteps, inputs, isDemanded) {
  let downInputs = indices(inputs.length).filter((index) => inputs[index].isDown);
  // A counterexample can be minimised only if a run of at least one cycle comes before each change.
  const firstMoments = inputs.map(() => 1);
  const changes = levelSteps.flatMap((step) => {
    const { time } = step;
    const demandedInputs = indices(inputs.length).filter((index) => isDemanded(step, index === inputs.length - 1));
    const pressed = demandedInputs.filter((index) => isDownAt(step, inputs, index) && !downInputs.includes(index));
    const released = demandedInputs.filter((index) => !isDownAt(step, inputs, index) && downInputs.includes(index));
    const first = Math.min(time, Math.max(...[...pressed, ...released].map((index) => firstMoments[index])));
    for (const index of demandedInputs) firstMoments[index] = time + 1;
    downInputs = [...downInputs.filter((index) => !released.includes(index)), ...pressed];
    return pressed.length + released.length === 0 ? [] : [{ released, pressed, first, last: time }];
  });
  const pressedKeys = downInputs.filter((index) => inputs[index].canBePressed);
  const releases = pressedKeys.map((index) => ({ released: [index], pressed: [], first: firstMoments[index], last: Infinity }));
  return { changes, releases };
}

/**
 * Returns the steps that give the inputs their levels at all reads, and later steps that release keys in time. Keeps `minWait` and
 * `maxPressTime` if possible; otherwise makes each change immediately before the read that demands it. Keys that cannot be released in time
 * at the end stay down, because the violation can happen during their press.
 * @param {LevelStep[]} levelSteps
 * @param {Input[]} inputs
 * @param {PressLimits} limits
 * @returns {{ steps: WalkStep[], releaseSteps: WalkStep[] }}
 */
function scheduleChanges(levelSteps, inputs, { minWait, maxPressTime }) {
  // Levels at power-on do not count as changes. They need not be set unless the first cycle reads them.
  const requiredSteps = levelSteps.filter(({ time, code }) => time > 0 || code >= 0);
  const changeLists = LEVEL_DEMANDS.map((isDemanded) => listChanges(requiredSteps, inputs, isDemanded));
  for (const { changes, releases } of changeLists) {
    for (const allChanges of maxPressTime === Infinity ? [changes] : [[...changes, ...releases], changes]) {
      const moments = findLatestMoments(allChanges, inputs, minWait, maxPressTime);
      if (!moments) continue;
      const steps = createSteps(allChanges, moments);
      const releaseStart = steps.length - (allChanges.length - changes.length);
      return { steps: steps.slice(0, releaseStart), releaseSteps: steps.slice(releaseStart) };
    }
  }
  const [{ changes }] = changeLists;
  return { steps: createSteps(changes, changes.map(({ last }) => last)), releaseSteps: [] };
}

/**
 * Returns the session file after steps.
 * @param {Subject} subject
 * @param {Input[]} inputs
 * @param {WalkStep[]} steps
 */
function runSteps(subject, inputs, steps) {
  const file = subject.file.slice();
  for (const step of steps) subject.engine.serve(file, formatRunLines(step.wait) + formatChangeLine({ inputs }, step), file);
  return file;
}

/**
 * Returns the steps that make the program read the inputs of a counterexample. `time` is the number of cycles up to the last step, and
 * `file` is the session file after it. `remainingCycles` is the number of cycles after the last step, in which the violation must happen.
 * `releaseSteps` are additional steps after the last one. They release keys in time, and no read detects them; the violation can happen
 * before them.
 * @param {Subject} subject
 * @param {Input[]} inputs all inputs of the board
 * @param {Reads} reads
 * @param {Campaign} campaign the campaign whose inputs the steps use, if possible
 * @param {number} maxPressTime the maximum length of a press, if possible, in cycles
 * @returns {{ steps: WalkStep[], releaseSteps: WalkStep[], time: number, file: Uint8Array, remainingCycles: number }}
 */
export function replayReads(subject, inputs, reads, campaign, maxPressTime) {
  /** @type {(steps: WalkStep[]) => number} */
  const timeOf = (steps) => steps.reduce((sum, { wait }) => sum + wait, 0);
  if (!reads.levels) {
    const replay = replayEach(new ValueReplay(subject, inputs, campaign), reads.values);
    const { steps } = replay;
    return { steps, releaseSteps: [], time: timeOf(steps), file: replay.takeChangedFile(), remainingCycles: replay.cyclesSinceChange };
  }
  const replay = replayEach(new LevelReplay(subject, inputs), reads.levels);
  const { steps, releaseSteps } = scheduleChanges(replay.levelSteps, inputs, { minWait: campaign.minWait, maxPressTime });
  const file = runSteps(subject, inputs, steps);
  return { steps, releaseSteps, time: timeOf(steps), file, remainingCycles: replay.time - timeOf(steps) };
}

/**
 * Replays the inputs of a counterexample, one after the other. Ends early if the program cannot continue. Returns the replay.
 * @template T
 * @template {InputReplay & { setInputs: (input: T) => void }} R
 * @param {R} replay
 * @param {T[]} reads
 */
function replayEach(replay, reads) {
  reads.every((input) => {
    replay.setInputs(input);
    replay.run(1);
    return replay.runToRead();
  });
  return replay;
}
