// Messages and labels about proofs: the verdicts on properties, and the reasons why a property is not decided.

// --- prove/condition_comparisons.js ---
export const USES_TOO_MANY_PLACES = "its condition uses too many places at once";
/** @type {(place: string) => string} */
export const dependsOnInput = (place) => `its condition uses ${place}, an input`;

// --- prove/input_limits.js ---
/** @type {(count: number) => string} */
export const togetherLine = (count) => `together ${count}`;
/** The first words of the lines that set the minimum time between two changes, and the maximum length of a press. */
export const WAIT_WORD = "wait";
export const HELD_WORD = "held";
export const NEEDS_WAIT = "keys can go up and down unseen between two reads; write a line `wait TIME to TIME`, from 2 cycles";
export const HELD_SHORTENS_WAITS = "a proof cannot use `wait` if the text has a line `held`; this property does not need `held`";
/** @type {(maximum: number) => string} */
export const tooManyCombinations = (maximum) => "a proof can use `wait` only if keys and TEST have at most "
  + `${maximum} allowed combinations; name fewer keys with \`press\`, or write \`together 1\``;
export const TEST_IS_NOT_LIMITED = "a proof limits only how long keys of the matrix are down";
/** @type {(maximum: number) => string} */
export const pressTimeTooLong = (maximum) => `its time and the shortest wait are together longer than ${maximum} cycles`;

// --- prove/question.js ---
/** @type {(form: string) => string} */
export const unprovableForm = (form) => `a property of the form "${form}" cannot be proved yet`;
/** @type {(name: string) => string} */
export const notInKeyMatrix = (name) => `${name} is at the TEST pin; only presses of keys of the matrix are counted`;
/** @type {(maximum: number) => string} */
export const tooManyPresses = (maximum) => `it names more than ${maximum} presses`;
export const LABEL_REPEATS = "the BBL or JIN at its label can lead to the same label in one cycle";
/** The first words of guards, by their kinds. */
const GUARDS = { press: "after press", once: "once", while: "while" };
/** @type {(kinds: Iterable<keyof typeof GUARDS>) => string} */
export const guardsNamed = (kinds) => [...kinds].map((kind) => `"${GUARDS[kind]}"`).join(" and ");
/** @type {(maximum: string) => string} */
export const timeTooLong = (maximum) => `its time is longer than ${maximum} cycles`;
export const STARTS_AFTER_POWER_ON = "a proof begins at power-on, but the text begins elsewhere (from)";

// --- prove/mistakes.js ---
/** The properties that are checked for every program, by the prover's word for the mistake that breaks the property. */
export const MISTAKES = {
  code: "no code outside the instruction table",
  call: "no fourth nested call",
  return: "no BBL without a call",
  ram: "no RAM that is absent",
  rom: "no ROM that is absent",
  rdr: "no RDR of a port without inputs",
  wrr: "no WRR to a port without outputs",
};

// --- prove/property_judge.js ---
/** @type {(steps: string) => string} */
export const onlyExcludedInputs = (steps) => `so far, only inputs that the text excludes break it (${steps})`;
export const NOT_CONFIRMED = "the bench does not confirm the counterexample that was found";
/** @type {(guards: string, isGoal: boolean) => string} */
export const failsWithoutGuards = (guards, isGoal) =>
  `it can ${isGoal ? "be reached" : "fail"} without ${guards}, which a proof leaves out`;
export const UNSEEN_RELEASES = `${NOT_CONFIRMED}; keys can go up and down unseen between reads that are further apart than the `
  + "shortest wait";
/** @type {(maximum: string) => string} */
export const allowsLongerPresses = (maximum) => `${NOT_CONFIRMED}; with this \`wait\`, a proof allows presses of up to ${maximum} cycles`;
export const TRUE_BEFORE_KEYS_ARE_READ = "it can become true before the program has read each key up and then down";

// --- prove/bounded_proof.js ---
/** @type {(states: string) => string} */
export const moreStatesThan = (states) => `more than ${states} states; enter a larger number next to Prove to allow more`;
/** @type {(states: string) => string} */
export const memoryFullAfter = (states) => `memory has room for only ${states} states; mcs4 prove in a terminal can use more`;

// --- prove/verdicts.js ---
export const STATE = "state";
export const SET = "set of states";
export const SETS = "sets of states";
/** @type {(reason: string) => string} */
export const notDecided = (reason) => `TODO not decided: ${reason}`;
/** @type {(guards: string) => string} */
const evenWithout = (guards) => (guards ? `, even without ${guards}` : "");
/** @type {(words: string[]) => string} returns `"a"`, `"a" and "b"` or `"a", "b" and "c"` */
const quotedList = (words) => words.map((word) => `"${word}"`).join(", ").replace(/, (?=[^,]*$)/, " and ");
/** @type {(limits: string[]) => string} `limits` are the lines that limit the inputs in a proof; [] if there are none */
const forInputs = (limits) => (limits.length > 0 ? `for the inputs of ${quotedList(limits)}` : "for all inputs");
/**
 * The inputs and the guards of a proof. `limits` are the lines of the properties text that limit the inputs. `leftOut` names the guards
 * that the proof leaves out, or is "" if there are none.
 * @typedef {{ limits: string[], leftOut: string }} Scope
 */
/** @type {(states: string, scope: Scope) => string} */
export const provedVerdict = (states, { limits, leftOut }) => `proved ${forInputs(limits)} (${states})${evenWithout(leftOut)}`;
/** @type {(states: string, scope: Scope) => string} */
export const neverReachedVerdict = (states, { limits, leftOut }) =>
  `never reached, ${forInputs(limits)} (${states})${evenWithout(leftOut)}`;
/** @type {(steps: string) => string} */
export const brokenBy = (steps) => `broken, ${steps}`;
/** @type {(steps: string) => string} */
export const reachedBy = (steps) => `reached, ${steps}`;
/** @type {(steps: string, cycles: string, isGoal: boolean) => string} */
export const foundBy = (steps, cycles, isGoal) => `${isGoal ? "reached" : "broken"} by ${steps}, ${cycles} cycles`;

// --- node/proof_search.mjs, node/commands/prove.mjs ---
/** @type {(maximum: string) => string} */
export const moreStates = (maximum) => `more than ${maximum} states; --most allows more`;
export const NO_MEMORY = "memory is full";
/** @type {(states: string) => string} */
export const memoryHasRoomFor = (states) => `memory has room for only ${states} states`;
/** @type {(states: string, megabytes: number) => string} */
export const memoryLimitReached = (states, megabytes) =>
  `there is no room for more than ${states} states in ${megabytes} MB; --memory allows more`;
export const GAVE_UP = "the prover gave up";
/** @type {(number: number, count: number, property: string, seconds: number) => string} */
export const provingSoFar = (number, count, property, seconds) => `proving ${number} of ${count}, ${seconds} s: ${property}`;
/** @type {(output: string) => string} */
export const proverEnded = (output) => `the prover ended without an answer: ${output || "it printed nothing"}`;

// --- page/prove/proofs.js ---
export const PROVE = "Prove";
export const CANCEL = "Cancel";
export const STATES_RANGE = "The number of states must be 1 to 999,999,999.";
export const CANCELLED_EARLY = "It was cancelled before anything was proved.";
/** @type {(property: string) => string} */
export const nextStepBreaks = (property) => `The next step breaks: ${property}`;
/** @type {(property: string) => string} */
export const nextStepReaches = (property) => `The next step reaches: ${property}`;

// --- page/prove/proofs_view.js ---
export const TEXTS_HAVE_CHANGED = "the program, the board or the text has changed since then";
export const SHOW_AS_TEST = "Show as test";
export const COUNTEREXAMPLE_LINES = "Its lines";
export const OPEN_COUNTEREXAMPLE = "Open counterexample";
export const OPEN_STEPS_TO_GOAL = "Open the steps to it";
export const BEFORE_BREAK = "a new session, paused before the step that breaks it; you can step back from there";
export const BEFORE_GOAL = "a new session, paused before the step that reaches it; you can step back from there";
export const ADD_TO_TESTS = "Add to tests";
export const AT_END = "at the end of Tests";

// --- words/prove_results.js ---
/** The verdict on a property, in one or two words. */
export const MARKS = { proved: "proved", never: "never reached", fails: "can fail", reached: "reached", open: "not decided" };
/** @type {(states: string, scope: Scope) => string} */
export const provedFor = (states, { limits, leftOut }) => `${forInputs(limits)}: ${states}${evenWithout(leftOut)}`;
export const CANCELLED = "Cancelled: ";
/** @type {(count: string) => string} */
export const countProved = (count) => `${count} proved`;
/** @type {(count: string) => string} */
export const countBroken = (count) => `${count} can fail`;
/** @type {(count: string) => string} */
export const countReached = (count) => `${count} reached`;
/** @type {(count: string) => string} */
export const countNeverReached = (count) => `${count} never reached`;
/** @type {(count: string) => string} */
export const countOpen = (count) => `${count} not decided`;
/** @type {(number: number, count: number) => string} */
export const propertyProgress = (number, count) => `Property ${number} of ${count}`;
/** @type {(which: string, states: string) => string} */
export const statesSoFar = (which, states) => `${which}: more than ${states} states so far`;
