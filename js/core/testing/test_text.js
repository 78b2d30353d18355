// Parses test texts into tests with steps, and reports errors. A text can use the shared steps of earlier texts, but only its own saved
// states. The manual ("The lines of a test") describes the language.

import { parseDuration, parseExactDuration } from "../conditions/durations.js";
import { compileExpression, compileTestCondition } from "../conditions/condition_language.js";
import { parsePlace } from "../conditions/places.js";
import { compileSetting } from "../conditions/set_command.js";
import { parseNumber } from "../bench/numbers.js";
import { keyLine, pinKey } from "../board/key_place.js";
import { errorInColumn } from "../../words/conditions.js";
import * as say from "../../words/testing.js";

/**
 * @typedef {import("../conditions/condition_language.js").Condition} Condition
 * @typedef {import("../conditions/condition_language.js").Names} Names
 *
 * A test text. `name` is its file name; "" for none.
 * @typedef {{ name: string, text: string }} Source
 *
 * An error in a test text. `column` is counted from 0; it is -1 if unknown.
 * @typedef {{ file: string, line: number, column: number, words: string }} TestTextError
 *
 * A key with its name and the commands that press and release it.
 * @typedef {{ name: string, key: import("../board/key_place.js").Key, press: string, release: string }} Key
 *
 * A key that a value in the session selects when the step runs. `word` is the word in the test line. `place` is the name of the register or
 * nibble with the value, and `probe` is its name in `trace` queries. `keys` are the keys for the values 0, 1 and so on. If `keys` is empty,
 * the value is the name of the key.
 * @typedef {{ word: string, place: string, probe: string, keys: Key[] }} ChosenKey
 *
 * The action of a step.
 * @typedef {{ kind: "from" | "save", state: string } | { kind: "press" | "release" | "keys", keys: (Key | ChosenKey)[] }
 *   | { kind: "pace", down: number, up: number } | { kind: "run", cycles: number }
 *   | { kind: "until", condition: Condition, cycles: number } | { kind: "expect", condition: Condition }
 *   | { kind: "mark" | "reset" } | { kind: "set", commands: string[], changesRom: boolean }
 *   | { kind: "repeat", times: number, steps: Step[] } | { kind: "do", name: string, steps: Step[] }} Action
 * @typedef {{ source: Source, line: number, text: string, action: Action }} Step
 *
 * Shared steps, defined by a `steps` line. `lineCount` is the number of lines that they execute, including all repetitions.
 * @typedef {{ source: Source, name: string, line: number, steps: Step[], lineCount: number }} SharedSteps
 *
 * A test. `textNumber` is the number of its text, from 1. `from` is the name of its start state, or "" if it starts at power-on.
 * @typedef {{ textNumber: number, name: string, line: number, from: string, steps: Step[] }} Test
 * @typedef {{ tests: Test[], errors: TestTextError[] }} TestText
 */

/** The maximum count in a `repeat` line, and the maximum number of lines that a test executes, including all repetitions. */
const MAX_REPETITIONS = 100000;
const MAX_EXECUTED_LINES = 1000000;

/** The error for an invalid line, with the column at which the error starts. */
class InvalidLineError extends Error {
  /**
   * @param {string} message
   * @param {number} column the column from 0; -1 if unknown
   */
  constructor(message, column) {
    super(message);
    this.column = column;
  }
}

/**
 * Throws an InvalidLineError.
 * @param {string} message
 * @param {number} [column]
 * @returns {never}
 */
function fail(message, column = -1) {
  throw new InvalidLineError(message, column);
}

/**
 * Returns the address in a place such as `rom.0x12`; NaN for a place that is not in ROM.
 * @param {string} place
 */
const parseRomAddress = (place) => (place.startsWith("rom.") ? parseNumber(place.slice("rom.".length)) : NaN);

/**
 * Creates a key from its name and location, with the commands that press and release it.
 * @param {string} name
 * @param {Key["key"]} key
 * @returns {Key}
 */
export function createKey(name, key) {
  return { name, key, press: keyLine("press", key), release: keyLine("release", key) };
}

/**
 * Returns the named keys of a board, by name, in front-panel order. The button or switch at the TEST pin comes last.
 * @param {import("../board/face.js").Face} face
 * @returns {Map<string, Key>}
 */
export function listNamedKeys(face) {
  /** @type {Map<string, Key>} */
  const keys = new Map();
  for (const { text: name, key } of face.keys.values()) if (name !== "") keys.set(name, createKey(name, key));
  if (face.test && !keys.has(face.test.name)) keys.set(face.test.name, createKey(face.test.name, pinKey(face.test.level)));
  return keys;
}

/** A reader of test texts. Its methods throw InvalidLineError for an invalid line; `readSource` records these errors. */
class TestReader {
  /** @param {Names} names */
  constructor(names) {
    this.names = names;
    this.keys = listNamedKeys(names.face);
    /** @type {Source} the current text */
    this.source = { name: "", text: "" };
    /** The number of the current text, from 1. */
    this.textNumber = 0;
    /** @type {Test[]} */
    this.tests = [];
    /** @type {TestTextError[]} */
    this.errors = [];
    /** @type {Map<string, Test>} the tests that save states, by state name, in the current text */
    this.savingTests = new Map();
    /** @type {Map<string, SharedSteps>} */
    this.sharedSteps = new Map();
    /** @type {SharedSteps | null} the current shared steps; null in a test */
    this.currentShared = null;
    /** @type {Step[]} the list that receives the next step */
    this.steps = [];
    /** @type {{ line: number, times: number, outer: Step[] }[]} the repetitions without an `end` so far, outermost first */
    this.openRepeats = [];
    /** The number of lines that the current test or shared steps execute, up to the current line. */
    this.lineCount = 0;
    /** True after the first `test` or `steps` line of the current text. */
    this.hasBegun = false;
  }

  /** @returns {Test} the current test */
  get test() {
    return this.tests[this.tests.length - 1];
  }

  /**
   * Parses a text. Adds its tests, shared steps and errors to those of the earlier texts.
   * @param {Source} source
   */
  readSource(source) {
    this.source = source;
    this.textNumber += 1;
    this.savingTests.clear();
    this.hasBegun = false;
    const plainText = source.text.replace(/^\uFEFF/, "").replace(/\r(?=\n|$)/g, "");
    const originalLines = plainText.split("\n");
    const lines = originalLines.map((line) => line.replace(/^[ \t]+|[ \t]+$/g, ""));
    for (let index = 0; index < lines.length; index++) {
      const line = this.removeComment(lines[index]);
      if (line === "") continue;
      try {
        this.readLine(line, index + 1);
      } catch (error) {
        if (!(error instanceof InvalidLineError)) throw error;
        const column = error.column < 0 ? -1 : error.column + originalLines[index].length - originalLines[index].trimStart().length;
        this.addError(index + 1, error.message, Math.min(column, originalLines[index].trimEnd().length - 1));
        // If a text does not start like a test text, one error is sufficient.
        if (!this.hasBegun && /^[\t -~]*$/.test(lines[index])) return;
      }
    }
    this.closeRepeats();
    if (!this.hasBegun && this.errors.length === 0) this.addError(1, say.NO_TEST);
  }

  /** If the texts contain neither a test nor an error, reports that there is no test. */
  finish() {
    if (this.tests.length === 0 && this.errors.length === 0) this.addError(1, say.NO_TEST);
  }

  /**
   * Records an error in the current text.
   * @param {number} line
   * @param {string} message
   * @param {number} [column]
   */
  addError(line, message, column = -1) {
    this.errors.push({ file: this.source.name, line, column, words: column < 0 ? message : errorInColumn(message, column) });
  }

  /**
   * Returns a line without its comment. A comment starts with `#` or `;`, at the start of the line or between blanks. In the name of a
   * test, these characters are part of the name. In a line with keys, such a character stands for the key if it is also a key name.
   * @param {string} line
   */
  removeComment(line) {
    if (/^[#;]/.test(line)) return "";
    if (/^test[ \t]/.test(line)) return line;
    const hasKeys = /^(press|release|keys)[ \t]/.test(line);
    const isKey = (/** @type {RegExpMatchArray} */ { 1: name, index = 0 }) => (
      this.keys.has(name) && (hasKeys || /(^|[\s(!])key$/i.test(line.slice(0, index))));
    const mark = [...line.matchAll(/[ \t]+([#;])(?=[ \t]|$)/g)].find((candidate) => !isKey(candidate));
    return mark ? line.slice(0, mark.index) : line;
  }

  /**
   * Parses a line.
   * @param {string} text
   * @param {number} line
   */
  readLine(text, line) {
    if (/[^\t -~]/.test(text)) fail(say.NOT_ASCII);
    const words = text.split(/[ \t]+/);
    if (words[0] === "test" || words[0] === "steps") {
      this.beginPart();
      if (words[0] === "steps") this.beginSharedSteps(words, line);
      else this.beginTest(text.replace(/^test[ \t]*/, ""), line);
    } else if (!this.hasBegun) {
      fail(say.beginsWithTest(text.slice(0, 60)));
    } else if (words[0] === "end") {
      this.endRepeat(words);
    } else {
      this.readStep(words, text, line);
    }
  }

  /** Ends the previous test or shared steps, and prepares for the next. */
  beginPart() {
    this.closeRepeats();
    this.hasBegun = true;
    this.lineCount = 0;
  }

  /**
   * Adds a test. Fails if the name is missing.
   * @param {string} name
   * @param {number} line
   */
  beginTest(name, line) {
    this.currentShared = null;
    this.steps = [];
    this.tests.push({ textNumber: this.textNumber, name, line, from: "", steps: this.steps });
    if (name === "") fail(say.TEST_NAME_MISSING);
  }

  /**
   * Adds shared steps. Fails if the name is missing or already in use.
   * @param {string[]} words
   * @param {number} line
   */
  beginSharedSteps(words, line) {
    const name = words.length === 2 ? words[1] : "";
    const previousSteps = this.sharedSteps.get(name);
    this.steps = [];
    const { source } = this;
    this.currentShared = { source, name, line, steps: this.steps, lineCount: 0 };
    this.sharedSteps.set(name, this.currentShared);
    if (name === "") fail(say.STEPS_NAME_MISSING);
    if (previousSteps) {
      fail(say.stepsDefinedTwice(name, previousSteps.line, previousSteps.source.name === source.name ? "" : previousSteps.source.name));
    }
  }

  // --- repetitions ---

  /** Reports an error for each repetition whose `end` is missing, and closes the repetition. */
  closeRepeats() {
    for (const { line } of this.openRepeats.splice(0)) this.addError(line, say.REPEAT_END_MISSING);
  }

  /**
   * Ends the innermost repetition. Fails if there is none.
   * @param {string[]} words
   */
  endRepeat(words) {
    const openRepeat = this.openRepeats.pop();
    if (openRepeat) this.steps = openRepeat.outer;
    if (words.length > 1) fail(say.END_SYNTAX);
    if (!openRepeat) fail(say.REPEAT_MISSING);
  }

  /**
   * Adds lines to the number of executed lines. Counts each line as often as the open repetitions repeat it. Fails if the number becomes
   * too large.
   * @param {number} addedCount the number of lines in the text
   */
  countExecutedLines(addedCount) {
    const previousCount = this.lineCount;
    this.lineCount += this.openRepeats.reduce((product, { times }) => product * times, addedCount);
    if (this.currentShared) this.currentShared.lineCount = this.lineCount;
    if (previousCount <= MAX_EXECUTED_LINES && this.lineCount > MAX_EXECUTED_LINES) fail(say.TOO_MANY_LINES);
  }

  /**
   * Parses a step.
   * @param {string[]} words
   * @param {string} text
   * @param {number} line
   */
  readStep(words, text, line) {
    /** @type {Step} */
    const step = { source: this.source, line, text, action: { kind: "mark" } };
    this.steps.push(step);
    if (words[0] === "repeat") {
      const isValidCount = words.length === 2 && /^\d{1,6}$/.test(words[1]) && Number(words[1]) >= 1 && Number(words[1]) <= MAX_REPETITIONS;
      const times = isValidCount ? Number(words[1]) : 1;
      const outer = this.steps;
      this.steps = [];
      step.action = { kind: "repeat", times, steps: this.steps };
      this.openRepeats.push({ line, times, outer });
      if (!isValidCount) fail(say.REPEAT_SYNTAX);
    } else if (words[0] === "do") {
      step.action = this.readDo(words);
    } else {
      this.countExecutedLines(1);
      step.action = this.readAction(words, text);
    }
  }

  /**
   * Parses `do`. Accepts only shared steps that are complete, so that shared steps never contain themselves.
   * @param {string[]} words
   * @returns {Action}
   */
  readDo(words) {
    if (words.length !== 2) fail(say.DO_SYNTAX);
    const [, name] = words;
    const { currentShared } = this;
    if (currentShared && currentShared.name === name) fail(say.stepsUseThemselves(name));
    const usableNames = [...this.sharedSteps.keys()].filter((other) => other !== "" && (!currentShared || other !== currentShared.name));
    const shared = this.sharedSteps.get(name);
    if (!shared) {
      const explanation = say.knownSteps(usableNames.join(" "), name);
      return fail(say.noStepsMessage(name, explanation));
    }
    this.countExecutedLines(shared.lineCount);
    return { kind: "do", name, steps: shared.steps };
  }

  /**
   * Parses the action of a step.
   * @param {string[]} words
   * @param {string} text
   * @returns {Action}
   */
  readAction(words, text) {
    const [kind, ...operands] = words;
    const startColumn = kind.length;
    if (kind === "from" || kind === "save") return this.readStateAction(kind, operands);
    if (kind === "press" || kind === "release" || kind === "keys") return this.readKeys(kind, operands);
    if (kind === "pace") return parsePace(operands);
    if (kind === "run") return { kind, cycles: parseExactDuration(operands) || fail(say.RUN_SYNTAX) };
    if (kind === "until") return this.readUntil(text, startColumn);
    if (kind === "expect") return { kind, condition: this.readCondition(text.slice(startColumn), startColumn) };
    if (kind === "set") return { kind, ...this.readSet(text.slice(startColumn), startColumn) };
    if (kind === "mark" || kind === "reset") return operands.length === 0 ? { kind } : fail(say.takesNoArgument(kind));
    return fail(say.unknownFirstWord(kind.slice(0, 30), say.FIRST_WORDS));
  }

  /**
   * Parses `from` or `save`. Fails if the line is not allowed here, if the state of `from` does not exist, or if that of `save` already
   * exists.
   * @param {"from" | "save"} kind
   * @param {string[]} words
   * @returns {Action}
   */
  readStateAction(kind, words) {
    const [stateName] = words;
    if (words.length !== 1) fail(say.stateSyntax(kind));
    if (kind === "save" && this.openRepeats.length > 0) fail(say.SAVED_ONCE);
    if (this.currentShared) fail(say.noStatesMessage(kind));
    const savingTest = this.savingTests.get(stateName);
    if (kind === "save") {
      if (savingTest) fail(say.stateAlreadySaved(stateName, savingTest.name));
      this.savingTests.set(stateName, this.test);
      return { kind, state: stateName };
    }
    if (this.test.steps.length > 1 || this.openRepeats.length > 0) fail(say.FROM_POSITION);
    const knownStates = this.savingTests.size > 0 ? say.knownStates([...this.savingTests.keys()].join(" ")) : "";
    if (!savingTest) fail(say.noSuchStateMessage(stateName, knownStates));
    if (savingTest === this.test) fail(say.OWN_STATE);
    this.test.from = stateName;
    return { kind, state: stateName };
  }

  /**
   * Parses key names. In a `keys` line, splits a word that is not a key name into letters.
   * @param {"press" | "release" | "keys"} kind
   * @param {string[]} words
   * @returns {Action}
   */
  readKeys(kind, words) {
    if (words.length === 0) fail(say.keysSyntax(kind, kind === "keys"));
    const keys = words.flatMap((word) => {
      const key = this.keys.get(word) || this.parseChosenKey(word);
      if (key) return [key];
      if (kind !== "keys") return [this.failForUnknownKey(word, word)];
      return [...word].map((letter) => this.keys.get(letter) || this.failForUnknownKey(letter, word));
    });
    return { kind, keys };
  }

  /**
   * Parses a word that selects a key by a value. `{r4}` selects the key whose name is the value. `{r4:red,green}` selects the key whose
   * index in the list is the value. Returns null for any other word.
   * @param {string} word
   * @returns {ChosenKey | null}
   */
  parseChosenKey(word) {
    const [, inner] = /^\{([^{}]+)\}$/.exec(word) || [];
    if (inner === undefined) return null;
    const [, place, list] = /^([^:]*)(?::(.*))?$/.exec(inner) || ["", ""];
    const knownPlace = parsePlace(place);
    const placeName = knownPlace ? knownPlace.name : place.toLowerCase();
    if (!/^(acc|cy|dcl|r\d+|(ram|st)\..+)$/.test(placeName) || list === "") return fail(say.CHOICE_SYNTAX);
    const keys = list === undefined ? [] : list.split(",").map((name) => this.keys.get(name) || this.failForUnknownKey(name, name));
    const { expression, error } = compileExpression(place, this.names);
    const { places: [probe] } = expression || fail(error);
    return { word, place: placeName, probe, keys };
  }

  /**
   * Throws an InvalidLineError for a key that does not exist.
   * @param {string} name
   * @param {string} word the word that contains the name
   * @returns {never}
   */
  failForUnknownKey(name, word) {
    const keyNames = [...this.keys.keys()].join(" ");
    const unknownNames = word.length > name.length ? say.nameNorWord(name, word) : name;
    return fail(say.noKeyMessage(unknownNames, keyNames));
  }

  /**
   * Parses a condition.
   * @param {string} text
   * @param {number} startColumn the column of the condition in the line
   */
  readCondition(text, startColumn) {
    const { condition, error, column } = compileTestCondition(text, this.names);
    return condition || fail(error, startColumn + column);
  }

  /**
   * Parses an `until` line: its condition and its time limit.
   * @param {string} text the line
   * @param {number} startColumn the column of the condition
   * @returns {Action}
   */
  readUntil(text, startColumn) {
    const [, conditionText, time] = /^(.*\S)[ \t]+within[ \t]+(.*)$/.exec(text) || [];
    if (conditionText === undefined || conditionText.length <= startColumn) return fail(say.UNTIL_SYNTAX);
    const cycles = parseExactDuration(time.split(/[ \t]+/));
    if (cycles < 1) fail(say.WITHIN_SYNTAX);
    const condition = this.readCondition(conditionText.slice(startColumn), startColumn);
    if (condition.needs.includes("cycles")) fail(say.CYCLES_NOT_ALLOWED);
    return { kind: "until", condition, cycles };
  }

  /**
   * Parses `set`. Fails if the board has no ROM at the address.
   * @param {string} text the text after `set`
   * @param {number} startColumn the column of that text in the line
   */
  readSet(text, startColumn) {
    const { board, map } = this.names;
    const { place, lines, error, column } = compileSetting(text, map, board);
    if (error) fail(error, startColumn + column);
    const address = parseRomAddress(place);
    const hasRom = Number.isNaN(address) || board.roms.some(({ chip }) => Number(chip) === Math.floor(address / 256));
    if (!hasRom) fail(say.noRomAtMessage(text.trim().split(/[ \t=]+/)[0].slice("rom.".length)), startColumn + 1);
    return { commands: lines.trimEnd().split("\n"), changesRom: !Number.isNaN(address) };
  }
}

/**
 * Parses the two times after `pace`.
 * @param {string[]} words
 * @returns {Action}
 */
function parsePace(words) {
  const down = parseDuration(words, 0);
  const up = parseDuration(words, down.wordCount);
  const isValid = down.cycles > 0 && up.cycles > 0 && down.wordCount + up.wordCount === words.length;
  return isValid ? { kind: "pace", down: down.cycles, up: up.cycles }
    : fail(say.PACE_SYNTAX);
}

/**
 * Returns the lines of steps. Replaces each `do` line with the lines of the shared steps.
 * @param {Step[]} steps
 * @returns {{ text: string, action: Action }[]}
 */
export function expandSteps(steps) {
  return steps.flatMap(({ text, action }) => {
    if (action.kind === "do") return expandSteps(action.steps);
    if (action.kind !== "repeat") return [{ text, action }];
    return [{ text, action }, ...expandSteps(action.steps), { text: "end", action }];
  });
}

/**
 * Parses test texts in order.
 * @param {Source[]} sources
 * @param {Names} names the names of the board and the program
 * @returns {TestText}
 */
export function readSources(sources, names) {
  const reader = new TestReader(names);
  for (const source of sources) reader.readSource(source);
  reader.finish();
  return { tests: reader.tests, errors: reader.errors };
}

/**
 * Parses one test text.
 * @param {string} text
 * @param {Names} names the names of the board and the program
 */
export function readTests(text, names) {
  return readSources([{ name: "", text }], names);
}
