// Parses a properties text, which defines the inputs, the values that distinguish states, and the properties. The manual's chapter "Looking
// for what breaks it" describes the lines of such a text.

import { MAX_RUN_CYCLES } from "../engine/key_queue.js";
import { hasScannedDisplay } from "../engine/perceived_text.js";
import { compileTracedCondition } from "../conditions/condition_language.js";
import { parseDuration, parseExactDuration } from "../conditions/durations.js";
import { parsePlace } from "../conditions/places.js";
import { ConditionError, fail } from "../conditions/scanner.js";
import { TOOL_KEY_DOWN_CYCLES, TOOL_KEY_UP_CYCLES, cyclesFromMilliseconds } from "../time/mcs4_time.js";
import { listKeyInputs, listInputNames, createTestInput } from "./search_inputs.js";
import {
  GUARDABLE_FORMS, afterPressProperty, alwaysProperty, atProperty, everyProperty, guardedProperty, modelProperty, neverForProperty,
  neverProperty, noPressProperty, oncePerPressProperty, onlyAfterProperty, reachAddressProperty, reachProperty, standardProperties,
  withinProperty,
} from "./properties.js";
import { NO_DISPLAY, boardLacks, errorInColumn, noLabelMessage } from "../../words/conditions.js";
import * as say from "../../words/explore.js";
import { noKeyMessage } from "../../words/testing.js";

/**
 * @typedef {import("./search_inputs.js").Input} Input
 * @typedef {import("./properties.js").Guard} Guard
 * @typedef {import("./properties.js").Property} Property
 * @typedef {import("./subject.js").Subject} Subject
 * An error in a properties text. `line` counts from 1. `column` counts from 0, -1 if unknown. `words` is the message.
 * @typedef {{ line: number, column: number, words: string }} PropertyError
 *
 * A campaign: the parsed contents of a properties text. Times are in cycles.
 * - `inputWords`: the first words of the lines that name the inputs, `press` and `test`; [] if the inputs are those of the front panel;
 * - `maxKeysDown`: the maximum number of keys that are down at the same time; `canReset`: true if the search can cut the power;
 * - `minWait`, `maxWait`: the range of waits between two changes; `hasWait`: true if a line `wait` sets the range;
 * - `maxHoldTime`, `minReleaseTime`: the maximum time for which an input stays down, and the minimum time for which it stays up;
 * - `checkStart`: the time at which the check of the properties starts;
 * - `command`: the external command of the model ("" for none); `downTime`, `upTime`: the times for which each key in a sequence for the
 *   model is pressed and then released;
 * - `notedPlaces`: the `trace` places whose values distinguish states;
 * - `from`: the start state, null to start at power-on; `leadingLines`: the test lines that lead to the start state;
 * - `calls`: the minimum and the maximum number of calls that have not returned in the start state.
 * @typedef {{ inputs: Input[], inputWords: string[], maxKeysDown: number, canReset: boolean, minWait: number, maxWait: number,
 *   hasWait: boolean, maxHoldTime: number, minReleaseTime: number, checkStart: number, downTime: number, upTime: number,
 *   notedPlaces: string[], properties: Property[], command: string, from: StartState | null, leadingLines: string[],
 *   calls: { min: number, max: number } }} Campaign
 *
 * The start state of a search: its name, the test file that saves it ("" for the tests that belong to the program), and the number of the
 * `from` line.
 * @typedef {{ state: string, file: string, line: number }} StartState
 */

/**
 * Converts a column in a normalised line, which has only single blanks, to the column in the original line.
 * @param {string} originalLine
 * @param {number} column
 */
function findOriginalColumn(originalLine, column) {
  let at = originalLine.length - originalLine.trimStart().length;
  for (let remaining = column; remaining > 0 && at < originalLine.length - 1; remaining--) {
    at += 1;
    while (/\s/.test(originalLine[at]) && /\s/.test(originalLine[at - 1]) && at < originalLine.length - 1) at += 1;
  }
  return at;
}

/** The maximum number of `trace` places in all `note` lines. */
const MAX_NOTES = 16;
/** The default for the maximum number of keys that are down at the same time. */
const DEFAULT_MAX_KEYS_DOWN = 2;
/** The shortest and the longest time in the line `no press below TIME reaches @LABEL`, in cycles. A proof can use these times. */
const PRESS_TIME_RANGE = { min: 2, max: 100000 };
/** The default waits, 1 and 20 ms, in cycles. */
const DEFAULT_WAITS = { minWait: cyclesFromMilliseconds(1), maxWait: cyclesFromMilliseconds(20) };
/** The default times, in cycles, for which each key in a model's key sequence is down and then up. */
const DEFAULT_PACE = { downTime: TOOL_KEY_DOWN_CYCLES, upTime: TOOL_KEY_UP_CYCLES };

/** A reader of one properties text, with the settings that it has read so far. */
class PropertiesReader {
  /** @param {Subject} subject */
  constructor({ names, instructions }) {
    this.names = names;
    this.instructions = instructions;
    /** @type {Input[]} */
    this.inputs = [];
    /** The first words of the lines that name the inputs. */
    this.inputWords = new Set();
    /** @type {Property[]} */
    this.properties = [];
    /** @type {string[]} */
    this.notedPlaces = [];
    this.maxKeysDown = DEFAULT_MAX_KEYS_DOWN;
    this.canReset = false;
    this.minWait = DEFAULT_WAITS.minWait;
    this.maxWait = DEFAULT_WAITS.maxWait;
    this.hasWait = false;
    this.downTime = DEFAULT_PACE.downTime;
    this.upTime = DEFAULT_PACE.upTime;
    this.maxHoldTime = Infinity;
    this.minReleaseTime = 0;
    this.checkStart = 0;
    this.command = "";
    /** @type {{ state: string, file: string } | null} */
    this.from = null;
    /** The `while` condition of the current line; "" for none. */
    this.whileCondition = "";
    this.line = "";
    /** The index in the current line from which `parseCondition` searches for the condition, to report the column of an error. */
    this.searchStart = 0;
  }

  /**
   * Parses a condition; throws `ConditionError`, with the column in the current line, if the condition has an error.
   * @param {string} text
   */
  parseCondition(text) {
    const { condition, error, column } = compileTracedCondition(text, this.names);
    return condition || fail(error, Math.max(0, this.line.indexOf(text, this.searchStart)) + column);
  }

  /**
   * Parses a condition that must not become true, or that is a goal. If the line has a `while` guard, the result is true only while the
   * guard's condition is true, too.
   * @param {string} text
   */
  parseViolation(text) {
    const condition = this.parseCondition(text);
    return this.whileCondition === "" ? condition : this.parseCondition(`(${this.whileCondition}) and (${text})`);
  }

  /**
   * Parses a condition that must be true. If the line has a `while` guard, the result is also true while the guard's condition is false.
   * @param {string} text
   */
  parseRequirement(text) {
    const condition = this.parseCondition(text);
    return this.whileCondition === "" ? condition : this.parseCondition(`not (${this.whileCondition}) or (${text})`);
  }

  /**
   * Returns the address of a label; throws `ConditionError` if there is no such label.
   * @param {string} word the label, such as `@count`
   */
  parseLabel(word) {
    const name = word.replace(/^@/, "");
    const definition = this.names.map.names.get(name);
    return word.startsWith("@") && definition && definition.isLabel ? definition.value
      : fail(word.startsWith("@") ? noLabelMessage(name) : say.labelSyntax(word));
  }

  /**
   * Returns the front-panel input with the given name; throws `ConditionError` if there is none.
   * @param {string} name
   */
  findInput(name) {
    const { face } = this.names;
    const inputs = [...listKeyInputs(face), createTestInput(face)];
    const input = inputs.find((candidate) => candidate.name === name && (candidate.isKey || face.test));
    if (input) return input;
    const inputNames = listInputNames(face);
    return fail(noKeyMessage(name, inputNames.join(" ")));
  }

  /**
   * Adds an input, unless the campaign already has it.
   * @param {Input} input
   */
  addInput(input) {
    if (!this.inputs.some(({ name }) => name === input.name)) this.inputs.push(input);
  }

  /**
   * Converts a time such as `5 ms` to cycles; throws `ConditionError` for any other text.
   * @param {string} text
   * @param {string} syntax the error message if the text is not a time
   */
  parseTime(text, syntax) {
    const cycles = parseExactDuration(text.trim().split(/\s+/));
    return cycles > 0 ? cycles : fail(syntax);
  }
}

/**
 * Parses two times, with or without `to` between them. Returns the times in cycles. Throws `ConditionError` for any other words.
 * @param {string[]} words
 * @param {string} syntax the error message if the words are not two times
 */
function parseTimePair(words, syntax) {
  const firstTime = parseDuration(words, 0);
  const timeWords = words.slice(firstTime.wordCount).filter((word, index) => index > 0 || word !== "to");
  const secondCycles = parseExactDuration(timeWords);
  if (firstTime.cycles === 0 || secondCycles === 0) fail(syntax);
  return [firstTime.cycles, secondCycles];
}


/**
 * The parsers of settings (inputs, timing, start state and noted places), by first word.
 * @type {Record<string, (reader: PropertiesReader, words: string[]) => void>}
 */
const SETTING_PARSERS = {
  press: (reader, words) => {
    reader.inputWords.add("press");
    if (words.length === 0) fail(say.PRESS_SYNTAX);
    for (const word of words) reader.addInput(reader.findInput(word));
  },
  test: (reader, words) => {
    reader.inputWords.add("test");
    if (words.length > 0) fail(say.TEST_SYNTAX);
    reader.addInput(createTestInput(reader.names.face));
  },
  reset: (reader, words) => {
    if (words.length > 0) fail(say.RESET_SYNTAX);
    reader.canReset = true;
  },
  together: (reader, words) => {
    if (words.length !== 1 || !/^[1-9]\d?$/.test(words[0])) fail(say.TOGETHER_SYNTAX);
    reader.maxKeysDown = Number(words[0]);
  },
  wait: (reader, words) => {
    [reader.minWait, reader.maxWait] = parseTimePair(words, say.WAIT_SYNTAX);
    // A wait cannot be longer than one `run` of the bench.
    if (reader.maxWait > MAX_RUN_CYCLES || reader.minWait > reader.maxWait) fail(say.WAIT_SYNTAX);
    reader.hasWait = true;
  },
  held: (reader, words) => {
    const syntax = say.HELD_SYNTAX;
    if (words[0] !== "at" || words[1] !== "most") fail(syntax);
    reader.maxHoldTime = reader.parseTime(words.slice(2).join(" "), syntax);
  },
  apart: (reader, words) => {
    const syntax = say.APART_SYNTAX;
    if (words[0] !== "at" || words[1] !== "least") fail(syntax);
    reader.minReleaseTime = reader.parseTime(words.slice(2).join(" "), syntax);
  },
  from: (reader, words) => {
    const [state, of, ...file] = words;
    if (!state || (words.length > 1 && (of !== "of" || file.length === 0))) {
      fail(say.FROM_SYNTAX);
    }
    if (reader.from) fail(say.FROM_REPEATED);
    reader.from = { state, file: file.join(" ") };
  },
  begin: (reader, words) => {
    const syntax = say.BEGIN_SYNTAX;
    if (words[0] !== "after") fail(syntax);
    reader.checkStart = reader.parseTime(words.slice(1).join(" "), syntax);
  },
  pace: (reader, words) => {
    const syntax = say.PACE_SYNTAX;
    [reader.downTime, reader.upTime] = parseTimePair(words, syntax);
  },
  note: (reader, words) => {
    if (words.length === 0) fail(say.NOTE_SYNTAX);
    for (const word of words) reader.notedPlaces.push(...findNotePlaces(reader, word));
    if (reader.notedPlaces.length > MAX_NOTES) fail(say.tooManyNotesMessage(MAX_NOTES));
  },
};

/**
 * Returns whether a line of a properties text is a setting rather than a property.
 * @param {string} line without leading blanks
 */
export const isSetting = (line) => Object.prototype.hasOwnProperty.call(SETTING_PARSERS, line.split(/\s/)[0]);

/**
 * Returns the `trace` places for a word of a `note` line; throws `ConditionError` if no `trace` place reports the word.
 * @param {PropertiesReader} reader
 * @param {string} word
 * @returns {string[]}
 */
function findNotePlaces({ names }, word) {
  if (word.toLowerCase() === "pc") fail(say.PC_NOT_ALLOWED);
  const place = parsePlace(word);
  const places = place ? place.probesOn(names.board) : [];
  if (places.length > 0) return places;
  return fail(place ? boardLacks(place.name) : say.noTraceMessage(word));
}

/** Matches `lamp open on for 1.1 s`: the condition and the time. */
const FOR_DURATION = /^(.*) for (\S+(?: \S+)?)$/;

/**
 * The parsers of property lines, by first word. `remainingText` is the text after the first word, and `text` is the complete line.
 * @type {Record<string, (reader: PropertiesReader, remainingText: string, text: string) => Property>}
 */
const PROPERTY_PARSERS = {
  never: (reader, remainingText, text) => {
    const [, condition, time] = FOR_DURATION.exec(remainingText) || ["", remainingText, ""];
    if (condition === "") fail(say.NEVER_SYNTAX);
    return time ? neverForProperty(text, reader.parseViolation(condition), reader.parseTime(time, say.FOR_SYNTAX))
      : neverProperty(text, reader.parseViolation(condition));
  },
  always: (reader, remainingText, text) => alwaysProperty(text, reader.parseRequirement(remainingText)),
  at: (reader, remainingText, text) => {
    const [word, ...words] = remainingText.split(" ");
    if (words.length === 0) fail(say.AT_SYNTAX);
    return atProperty(text, reader.parseRequirement(words.join(" ")), reader.parseLabel(word));
  },
  after: (reader, remainingText, text) => {
    const syntax = say.AFTER_SYNTAX;
    const match = /^press (\S+) within (.*)$/.exec(remainingText);
    if (!match) fail(syntax);
    const [, key, requirement] = /** @type {RegExpExecArray} */ (match);
    const words = requirement.split(" ");
    const { cycles, wordCount: count } = parseDuration(words, 0);
    if (cycles === 0 || words.length === count) fail(syntax);
    return afterPressProperty(text, reader.findInput(key).name, reader.parseCondition(words.slice(count).join(" ")), cycles);
  },
  every: (reader, remainingText, text) => {
    const syntax = say.EVERY_SYNTAX;
    const words = remainingText.split(" ");
    if (words.length < 2) fail(syntax);
    return everyProperty(text, reader.parseLabel(words[words.length - 1]), reader.parseTime(words.slice(0, -1).join(" "), syntax));
  },
  no: (reader, remainingText, text) => {
    const syntax = say.SHORT_PRESS_SYNTAX;
    const [, time, label] = /^press below (.+) reaches (\S+)$/.exec(remainingText) || fail(syntax);
    const limit = reader.parseTime(time, syntax);
    if (limit < PRESS_TIME_RANGE.min || limit > PRESS_TIME_RANGE.max) fail(syntax);
    if (listInputNames(reader.names.face).length === 0) fail(say.NOTHING_TO_PRESS);
    return noPressProperty(text, reader.parseLabel(label), limit);
  },
  reach: (reader, remainingText, text) => {
    const lineMatch = /^line (\d+)$/.exec(remainingText);
    if (!lineMatch && !/^@\S+$/.test(remainingText)) return reachProperty(text, reader.parseViolation(remainingText));
    const instruction = lineMatch && reader.instructions.find((candidate) => candidate.line === Number(lineMatch[1]));
    if (lineMatch && !instruction) fail(say.noInstructionInMessage(lineMatch[1]));
    const address = instruction ? instruction.address : reader.parseLabel(remainingText);
    return reader.whileCondition === "" ? reachAddressProperty(text, address)
      : reachProperty(text, reader.parseViolation(`pc = ${address}`));
  },
  model: (reader, remainingText, text) => {
    if (reader.command) fail(say.MODEL_REPEATED);
    if (remainingText === "") fail(say.MODEL_SYNTAX);
    if (!reader.names.face.groups.some(({ kind }) => kind === "display")) {
      fail(NO_DISPLAY);
    }
    if (hasScannedDisplay(reader.names.face)) {
      fail(say.DISPLAY_IS_MULTIPLEXED);
    }
    reader.command = remainingText;
    return modelProperty(text);
  },
};

/** Matches the start of a guarded line, such as `while lamp open on, never lamp alarm on`. */
const GUARD_START = /^(while|once|after press)\b/;

/**
 * Splits a line into its first guard and the text after the comma; a comma in quotes does not count. Returns null if the line has no guard.
 * Throws `ConditionError` if the comma is missing.
 * @param {string} text
 */
function splitGuard(text) {
  if (!GUARD_START.test(text)) return null;
  const [, guard, remainingText] = /^((?:"[^"]*"|[^"])*?),(?: (.*))?$/.exec(text) || [];
  if (text.startsWith("after") && !/^after press \S+( within \S+( \S+)?)?$/.test(guard || "")) return null;
  return guard === undefined ? fail(say.GUARD_SYNTAX) : { guard, remainingText: remainingText || "" };
}

/**
 * Parses a guard other than `while`. Throws `ConditionError` if the guard has an error.
 * @param {PropertiesReader} reader
 * @param {string} text the guard: `once C`, `after press K`, `after press K within TIME`
 * @returns {Guard}
 */
function parseGuard(reader, text) {
  const [, condition] = /^once (.+)$/.exec(text) || [];
  if (condition !== undefined) return { kind: "once", key: "", limit: 0, condition: reader.parseCondition(condition) };
  const [, key, time] = /^after press (\S+)(?: within (.+))?$/.exec(text) || [];
  if (key === undefined) return fail(say.GUARD_SYNTAX);
  const limit = time === undefined ? 0 : reader.parseTime(time, say.GUARD_SYNTAX);
  return { kind: "press", key: reader.findInput(key).name, limit, condition: null };
}

/**
 * Returns the property of a guarded line. Throws `ConditionError` if the line has an error.
 * @param {PropertiesReader} reader
 * @param {string} text
 * @param {{ guard: string, remainingText: string } | null} firstGuard the first guard and the text after it; null for a line without guards
 * @returns {Property | null} null for a line without guards
 */
function parseGuardedLine(reader, text, firstGuard) {
  /** @type {Guard[]} */
  const guards = [];
  let unguardedText = "";
  let guardCount = 0;
  for (let currentGuard = firstGuard; currentGuard; currentGuard = splitGuard(unguardedText)) {
    reader.searchStart = text.length - (unguardedText || text).length;
    ({ remainingText: unguardedText } = currentGuard);
    guardCount += 1;
    if (guardCount > MAX_GUARDS) fail(say.tooManyGuardsMessage(MAX_GUARDS));
    const [, condition] = /^while (.+)$/.exec(currentGuard.guard) || [];
    if (condition === undefined) guards.push(parseGuard(reader, currentGuard.guard));
    else reader.whileCondition = `${reader.whileCondition && `${reader.whileCondition} and `}(${reader.parseCondition(condition).text})`;
  }
  if (unguardedText === "") return firstGuard ? fail(say.GUARD_SYNTAX) : null;
  reader.searchStart = text.length - unguardedText.length;
  const property = parseUnguardedLine(reader, unguardedText);
  if (!property || !GUARDABLE_FORMS.has(property.form)) return fail(say.GUARD_SYNTAX);
  // For `after press`, the `while` condition must be true at the moment of the press.
  if (property.form === "after press" && reader.whileCondition !== "") {
    guards.push({ kind: "while", key: "", limit: 0, condition: reader.parseCondition(reader.whileCondition) });
  }
  return guards.length > 0 ? guardedProperty(text, property, guards) : { ...property, text };
}

/** The maximum number of guards of a property. */
const MAX_GUARDS = 4;
/** Matches `lamp open on only after press 1, press 2`: the condition and the presses. */
const ONLY_AFTER_LINE = /^(.+) only after (.+)$/;
/** Captures the label in `@count at most once for each press`. */
const ONCE_PER_PRESS_LINE = /^(@\S+) at most once for each press$/;
/** Matches `@start to @end within 5 ms`: the two labels and the time. */
const WITHIN_LINE = /^(@\S+) to (@\S+) within (.+)$/;

/**
 * Parses a line. Stores a setting in the reader; returns a property. Throws `ConditionError` if the line has an error.
 * @param {PropertiesReader} reader
 * @param {string} text the text of the line
 * @returns {Property | null} null for a setting
 */
function parseLine(reader, text) {
  reader.whileCondition = "";
  reader.line = text;
  reader.searchStart = 0;
  return parseGuardedLine(reader, text, splitGuard(text)) || parseUnguardedLine(reader, text);
}

/**
 * Parses a line without guards, or the part of a line after its guards. Stores a setting in the reader; returns a property.
 * @param {PropertiesReader} reader
 * @param {string} text
 * @returns {Property | null} null for a setting
 */
function parseUnguardedLine(reader, text) {
  const onlyAfterParts = ONLY_AFTER_LINE.exec(text);
  if (onlyAfterParts) {
    const keys = onlyAfterParts[2].split(/ *, */).map((pressText) => (/^press (\S+)$/.exec(pressText)
      || fail(say.ONLY_AFTER_SYNTAX))[1]);
    return onlyAfterProperty(text, reader.parseCondition(onlyAfterParts[1]), keys.map((key) => reader.findInput(key).name));
  }
  const onceParts = ONCE_PER_PRESS_LINE.exec(text);
  if (onceParts) return oncePerPressProperty(text, reader.parseLabel(onceParts[1]));
  const [, start, target, time] = WITHIN_LINE.exec(text) || [];
  if (start) return withinProperty(text, reader.parseLabel(start), reader.parseLabel(target), reader.parseTime(time, say.WITHIN_SYNTAX));
  const [kind, ...words] = text.split(" ");
  if (Object.prototype.hasOwnProperty.call(PROPERTY_PARSERS, kind)) return PROPERTY_PARSERS[kind](reader, words.join(" "), text);
  if (!Object.prototype.hasOwnProperty.call(SETTING_PARSERS, kind)) fail(say.unknownFirstWord(kind.slice(0, 30), say.FIRST_WORDS));
  SETTING_PARSERS[kind](reader, words);
  return null;
}

/**
 * Returns false if there is a model but no input is a key, so that no key sequence could be sent to the model.
 * @param {PropertiesReader} reader
 */
function hasKeysForModel({ command, inputs }) {
  return command === "" || inputs.some(({ isKey }) => isKey);
}

/**
 * Adds all inputs of the front panel if no line names an input, and the lamps if no line names a place to note. Returns whether the search
 * can change an input or cut the power.
 * @param {PropertiesReader} reader
 */
function addDefaults(reader) {
  const { face } = reader.names;
  if (reader.inputWords.size === 0) {
    for (const input of listKeyInputs(face)) reader.addInput(input);
    if (face.test) reader.addInput(createTestInput(face));
  }
  if (reader.notedPlaces.length === 0) reader.notedPlaces.push("lamps");
  return reader.inputs.length > 0 || reader.canReset;
}


/**
 * Parses a properties text. Returns the campaign, which includes the standard properties, and the errors. The campaign does not include the
 * lines with errors.
 * @param {string} text
 * @param {Subject} subject
 * @param {boolean} [needsInputs] true if missing inputs are an error
 * @returns {{ campaign: Campaign, errors: PropertyError[] }}
 */
export function readCampaign(text, subject, needsInputs = true) {
  const reader = new PropertiesReader(subject);
  /** @type {PropertyError[]} */
  const errors = [];
  let fromLine = 0;
  text.replace(/^\uFEFF/, "").split(/\r?\n/).forEach((originalLine, index) => {
    const line = originalLine.trim().replace(/\s+/g, " ");
    if (line === "" || /^[#;]/.test(line)) return;
    try {
      const property = parseLine(reader, line);
      if (reader.from && fromLine === 0) fromLine = index + 1;
      if (property) reader.properties.push({ ...property, line: index + 1 });
    } catch (error) {
      if (!(error instanceof ConditionError)) throw error;
      const column = error.column < 0 ? -1 : findOriginalColumn(originalLine, error.column);
      errors.push({ line: index + 1, column, words: column < 0 ? error.message : errorInColumn(error.message, column) });
    }
  });
  const lastLine = Math.max(1, text.trimEnd().split("\n").length);
  if (!addDefaults(reader) && needsInputs && errors.length === 0) {
    errors.push({ line: lastLine, column: -1, words: say.NO_INPUT_MAY_CHANGE });
  }
  if (errors.length === 0 && !hasKeysForModel(reader)) {
    const { line } = reader.properties.find(({ form }) => form === "model") || { line: 1 };
    errors.push({ line, column: -1, words: say.MODEL_NEEDS_KEYS });
  }
  const { inputs, maxKeysDown, canReset, minWait, maxWait, hasWait, maxHoldTime, minReleaseTime } = reader;
  const { checkStart, downTime, upTime, notedPlaces, command } = reader;
  const campaign = { inputs, inputWords: [...reader.inputWords].sort(), maxKeysDown, canReset, minWait, maxWait, hasWait,
    maxHoldTime, minReleaseTime, checkStart, downTime, upTime, notedPlaces, command,
    from: reader.from && { ...reader.from, line: fromLine }, leadingLines: [], calls: { min: 0, max: 0 },
    properties: [...reader.properties, ...standardProperties()] };
  return { campaign, errors };
}
