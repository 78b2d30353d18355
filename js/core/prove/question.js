// Formats questions for the prover and parses its answers. The prover (crates/mcs_prove) parses the board and the program in the same way
// as a session. Then it searches all states that the program can reach with any inputs.
//
// A list of conjunctions (`Comparisons[]`, cells.js) is a condition: it is true if all comparisons in at least one conjunction are true.

import { UnsupportedQuestion, listComparisons } from "./condition_comparisons.js";
import { IMPOSSIBLE_COMPARISONS, addressComparisons } from "./cells.js";
import { formatKey } from "../board/key_place.js";
import { isJin, isReturn } from "../engine/rom_codes.js";
import { listKeyInputs } from "../explore/search_inputs.js";
import { formatInputLimits } from "./input_limits.js";
import { formatNumber } from "../explore/report.js";
import { sentText } from "../text/sendable_text.js";
import * as say from "../../words/prove.js";

/**
 * @typedef {import("./cells.js").Comparisons} Comparisons
 * @typedef {import("./input_limits.js").InputLimits} InputLimits
 * @typedef {import("../conditions/condition_language.js").Condition} Condition
 * @typedef {import("../explore/campaign.js").Campaign} Campaign
 * @typedef {import("../explore/properties.js").Property} Property
 * @typedef {import("../explore/subject.js").Subject} Subject
 * @typedef {import("../bench/answers.js").Board} Board
 * @typedef {import("../board/face.js").Face} Face
 * @typedef {import("../board/key_place.js").MatrixKey} MatrixKey
 *
 * A stopwatch: it starts when `startCondition` is true, stops when `endCondition` is true, and must never exceed `maxCycles` cycles.
 * @typedef {{ startCondition: Comparisons[], endCondition: Comparisons[], maxCycles: number }} Stopwatch
 *
 * Presses that are required before `openCondition` becomes true. Since the condition was last true, the program must have read each
 * key up and then down, one key after the other.
 * @typedef {{ openCondition: Comparisons[], keys: MatrixKey[] }} Presses
 *
 * A question. `forbidden` is the condition that must never be true. `mistakes` are the words for the common mistakes that the program must
 * never make. `stopwatch` and `presses` are the time limit and the required presses, or null if there are none. `inputLimits` are the
 * limits on the inputs, or null if all inputs are allowed.
 * @typedef {{ forbidden: Comparisons[], mistakes: string[], stopwatch: Stopwatch | null, presses: Presses | null,
 *   inputLimits: InputLimits | null }} Question
 *
 * The question about a property, or the reason why the prover does not support the property.
 * @typedef {{ question: Question, reason: "" } | { question: null, reason: string }} PropertyQuestion
 *
 * An answer of the prover that is not an error:
 * - `holds`: no reachable state violates a requirement of the question; `states` is the number of reachable states;
 * - `fails`: `reads` are the inputs up to a violation;
 * - `more`: there are more states than the limit `maxStates`;
 * - `lost`: the prover gave up the search;
 * - `full`: the memory is full after `states` states (0 if there is not enough memory for the first state).
 * @typedef {{ kind: "more" } | { kind: "lost" } | { kind: "full", states: number }} NoAnswer
 * @typedef {{ kind: "holds", states: number } | { kind: "fails", reads: Reads } | NoAnswer} Answer
 *
 * The inputs in a counterexample, one for each step of the search. `values` are the values that the first cycles of the steps read. If the
 * question has a minimum time between two changes, `levels` are the levels of all inputs in these cycles instead. They are lists of bits:
 * of all keys, row by row, and then of TEST.
 * @typedef {{ values: number[], levels?: undefined } | { levels: number[][], values?: undefined }} Reads
 *
 * The limits of a question:
 * - `maxStates`: the maximum number of states; `memory`: the maximum memory for them in MB (0 to use all memory);
 * - `sets`: the maximum number of sets of states; with 0, the prover searches single states;
 * - `pause`: a number of cycles; the prover counts an additional state whenever the program has read no input for this long.
 *
 * A search simulates at most `maxStates` * `pause` cycles. A proof by sets of states is not a search: the prover computes for each address
 * the values that each register can have.
 * @typedef {{ maxStates: number, memory?: number, sets?: number, pause?: number }} QuestionLimits
 */

/** The default `pause` of a question, in cycles. */
export const DEFAULT_PAUSE = 1000000;
/** The maximum number of sets of states in a proof by sets. */
export const MAX_SETS = 100000;
/** The maximum number of states in the first attempt to answer a question. Later attempts have higher limits. */
const INITIAL_BOUND = 10000;
/** The highest time limit that a stopwatch can have, in cycles. */
export const MAX_STOPWATCH_CYCLES = 16777214;
/** The maximum number of presses in a property. */
export const MAX_PRESSES = 100;
/** The program counter at power-on. */
const POWER_ON_ADDRESS = 0;
/** @type {Question} a question without requirements, for all inputs; other questions add requirements to it */
const EMPTY_QUESTION = { forbidden: [], mistakes: [], stopwatch: null, presses: null, inputLimits: null };

/**
 * Returns increasing limits on the number of states, for repeated attempts to answer a question. Each limit is twice the previous one,
 * except the last limit, which is `maxBound`.
 * @param {number} maxBound
 * @param {number} [initialBound]
 */
export function listBounds(maxBound, initialBound = INITIAL_BOUND) {
  const bounds = [];
  for (let bound = initialBound; bound < maxBound; bound *= 2) bounds.push(bound);
  return [...bounds, maxBound];
}

/**
 * Creates the question that asks whether a condition can ever become true.
 * @param {Comparisons[]} forbidden the condition
 * @returns {Question}
 */
export const createNeverQuestion = (forbidden) => ({ ...EMPTY_QUESTION, forbidden });

/**
 * Creates the question that asks whether the program can make certain common mistakes.
 * @param {string[]} mistakes the words for the mistakes
 * @returns {Question}
 */
export const createMistakeQuestion = (mistakes) => ({ ...EMPTY_QUESTION, mistakes });

/**
 * Returns whether the prover must count cycles or presses to answer a question.
 * @param {Question} question
 */
export const needsCounting = ({ stopwatch, presses }) => stopwatch !== null || presses !== null;

/**
 * Returns whether the question about a property must be asked separately. All other questions are combined into one question. A property
 * with guards is asked separately, because it often fails without its guards. So is a `no press` property, which often fails if presses
 * are not limited. In a combined question, one failure leaves all properties undecided.
 * @param {Property} property
 * @param {Question} question
 */
export const needsSeparateQuestion = ({ form, isGoal, guards }, question) => (
  isGoal || form === "no press" || guards.length > 0 || needsCounting(question));

/**
 * Combines several questions for all inputs into one. The questions must have no stopwatch and no presses.
 * @param {Question[]} questions
 * @returns {Question}
 */
export function combineQuestions(questions) {
  const forbidden = questions.flatMap((question) => question.forbidden);
  return { ...EMPTY_QUESTION, forbidden, mistakes: questions.flatMap(({ mistakes }) => mistakes) };
}

/**
 * Returns `lists`; if `lists` is empty, returns a list with one conjunction that is never true.
 * @param {Comparisons[]} lists
 */
const replaceEmptyCondition = (lists) => (lists.length > 0 ? lists : [IMPOSSIBLE_COMPARISONS]);

/**
 * Creates the question that asks whether a stopwatch can exceed its limit. Throws UnsupportedQuestion if the limit is too high.
 * @param {Comparisons[]} startCondition
 * @param {Comparisons[]} endCondition
 * @param {number} limit
 * @returns {Question}
 */
function createStopwatchQuestion(startCondition, endCondition, limit) {
  if (limit > MAX_STOPWATCH_CYCLES) throw new UnsupportedQuestion(say.timeTooLong(formatNumber(MAX_STOPWATCH_CYCLES)));
  const stopwatch = {
    startCondition: replaceEmptyCondition(startCondition), endCondition: replaceEmptyCondition(endCondition), maxCycles: limit,
  };
  return { ...EMPTY_QUESTION, stopwatch };
}

/**
 * Returns the key with a name; throws UnsupportedQuestion for the TEST pin, which is not in the key matrix.
 * @param {Face} face
 * @param {string} name
 */
function findMatrixKey(face, name) {
  const namedInput = listKeyInputs(face).find((input) => input.name === name);
  if (!namedInput || namedInput.key.kind !== "matrix") throw new UnsupportedQuestion(say.notInKeyMatrix(name));
  return namedInput.key;
}

/**
 * Creates the question that asks whether a condition becomes true only after certain presses. Throws UnsupportedQuestion if the prover
 * cannot count these presses. The condition is evaluated as if no second cycle were pending.
 * @param {Property} property
 * @param {Subject} subject
 * @returns {Question}
 */
function createPressQuestion({ condition, address, keys }, { names: { board, face }, codes }) {
  if (keys.length > MAX_PRESSES) throw new UnsupportedQuestion(say.tooManyPresses(MAX_PRESSES));
  // JIN and BBL can jump from the label to itself in one cycle. The prover would not detect that the label is reached again.
  if (!condition && (isJin(codes[address]) || isReturn(codes[address]))) throw new UnsupportedQuestion(say.LABEL_REPEATS);
  const openCondition = condition ? listComparisons(condition, true, board, true) : [addressComparisons(address)];
  const matrixKeys = keys.map((name) => findMatrixKey(face, name));
  return { ...EMPTY_QUESTION, presses: { openCondition: replaceEmptyCondition(openCondition), keys: matrixKeys } };
}

/**
 * Creates the question that asks whether the condition of a property can become true, or whether the program can reach its label.
 * @param {Property} property
 * @param {Board} board
 */
function createNeverReachedQuestion({ condition, address }, board) {
  return createNeverQuestion(condition ? listComparisons(condition, true, board) : [addressComparisons(address)]);
}

/**
 * The functions that create the question about a property, by property form. The functions omit guards that depend on earlier events, and
 * the time of a `no press` property. This is sound, because the property without them is stricter.
 * @type {Record<string, (property: Property & { condition: Condition }, board: Board, subject: Subject) => Question>}
 */
const QUESTIONS_BY_FORM = {
  never: createNeverReachedQuestion,
  always: ({ condition }, board) => createNeverQuestion(listComparisons(condition, false, board)),
  at: ({ condition, address }, board) => (
    createNeverQuestion(listComparisons(condition, false, board).map((comparisons) => [...addressComparisons(address), ...comparisons]))),
  "only after": (property, _board, subject) => createPressQuestion(property, subject),
  reach: createNeverReachedQuestion,
  "reach at": ({ address }) => createNeverQuestion([addressComparisons(address)]),
  "never for": ({ condition, limit }, board) => (
    createStopwatchQuestion(listComparisons(condition, true, board, true), listComparisons(condition, false, board, true), limit)),
  // The program counter is 000 at power-on, so the stopwatch starts there. A later arrival at 000 does not restart it.
  every: ({ address, limit }) => (
    createStopwatchQuestion([addressComparisons(POWER_ON_ADDRESS), addressComparisons(address)], [addressComparisons(address)], limit)),
  within: ({ start, address, limit }) => createStopwatchQuestion([addressComparisons(start)], [addressComparisons(address)], limit),
  "no press": ({ address }) => createNeverQuestion([addressComparisons(address)]),
};

/**
 * Returns the question about a property without its guards, or the reason why the prover does not support the property.
 * @param {Property} property
 * @param {Campaign} campaign
 * @param {Subject} subject
 * @returns {PropertyQuestion}
 */
export function createQuestion(property, { from }, subject) {
  const create = QUESTIONS_BY_FORM[property.form];
  if (!create) return { question: null, reason: say.unprovableForm(property.form) };
  if (from) return { question: null, reason: say.STARTS_AFTER_POWER_ON };
  try {
    return { question: create(/** @type {Property & { condition: Condition }} */ (property), subject.names.board, subject), reason: "" };
  } catch (thrown) {
    if (!(thrown instanceof UnsupportedQuestion)) throw thrown;
    return { question: null, reason: thrown.message };
  }
}

/**
 * Returns the first words of the guards that the question about a property omits, as text; "" if there are none.
 * @param {Property} property
 */
export const describeOmittedGuards = ({ guards }) => say.guardsNamed(new Set(guards.map(({ kind }) => kind)));

/**
 * Returns the lines for a condition. The lines of each conjunction follow a line that contains only `word`.
 * @param {string} word
 * @param {Comparisons[]} lists
 */
const formatCondition = (word, lists) => lists.flatMap((conjunction) => [word, ...conjunction]);

/**
 * Returns the lines that require the program to read a key first as up and then as down.
 * @param {MatrixKey} key
 */
const formatKeyPress = (key) => ["up", "down"].map((level) => [level, formatKey(key)].join(" "));

/**
 * Formats a question for the prover.
 * @param {{ board: string, program: string }} texts
 * @param {Question} question
 * @param {QuestionLimits} limits
 */
export function formatQuestion({ board, program }, { forbidden, mistakes, stopwatch, presses, inputLimits }, limits) {
  const { maxStates, memory = 0, sets = 0, pause = DEFAULT_PAUSE } = limits;
  const optionalLimits = Object.entries({ memory, sets }).filter(([, number]) => number > 0);
  const limitLines = [["most", maxStates], ...optionalLimits, ["pause", pause]].map((words) => words.join(" "));
  const texts = [`wire\n${sentText(board, "#")}.`, `asm\n${sentText(program, ";")}.`];
  const mistakeLines = mistakes.length > 0 ? ["never", ["mistake", ...mistakes].join(" ")] : [];
  const stopwatchLines = stopwatch
    ? [`within ${stopwatch.maxCycles}`, ...formatCondition("begin", stopwatch.startCondition),
      ...formatCondition("end", stopwatch.endCondition)] : [];
  const pressLines = presses ? [...formatCondition("open", presses.openCondition), ...presses.keys.flatMap(formatKeyPress)] : [];
  const neverLines = formatCondition("never", forbidden);
  const lines = [...limitLines, ...formatInputLimits(inputLimits), ...texts, ...neverLines, ...mistakeLines, ...stopwatchLines,
    ...pressLines, "prove"];
  return `${lines.join("\n")}\n`;
}

/** @type {[RegExp, NoAnswer][]} the answers whose text is always the same, each with the pattern of its line */
const FIXED_ANSWERS = [[/^too many$/, { kind: "more" }], [/^gave up$/, { kind: "lost" }], [/^no 90$/, { kind: "full", states: 0 }]];

/**
 * Parses the levels of all inputs. Each hexadecimal digit has four levels, the first one in its lowest bit.
 * @param {string} digits
 */
const parseLevels = (digits) => [...digits].flatMap((digit) => [1, 2, 4, 8].map((bit) => Math.floor(parseInt(digit, 16) / bit) % 2));

/**
 * Parses an answer of the prover. Returns null for an error and for any unknown text.
 * @param {string} text
 * @returns {Answer | null}
 */
export function readAnswer(text) {
  const line = text.trimEnd();
  const [, states] = /^holds (\d+)$/.exec(line) || [];
  if (states) return { kind: "holds", states: Number(states) };
  const [, values] = /^may fail((?: \d+)*)$/.exec(line) || [];
  if (values !== undefined) return { kind: "fails", reads: { values: values.split(" ").slice(1).map(Number) } };
  const [, levels] = /^may fail with((?: [0-9a-f]+)+)$/.exec(line) || [];
  if (levels) return { kind: "fails", reads: { levels: levels.trim().split(" ").map(parseLevels) } };
  const [, stateCount] = /^no room (\d+)$/.exec(line) || [];
  if (stateCount) return { kind: "full", states: Number(stateCount) };
  const [, fixedAnswer = null] = FIXED_ANSWERS.find(([form]) => form.test(line)) || [];
  return fixedAnswer;
}
