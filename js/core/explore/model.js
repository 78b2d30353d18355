// A model: an external command that computes the expected display text. The command's input has one line per key sequence: the key names,
// separated by blanks. Its output has one line per sequence: the text that the display must show after these keys. An empty output line
// accepts any text. Each sequence begins in the start state and uses the press and release times of the properties text.

import { readItems } from "../bench/answers.js";
import { DisplayText } from "../board/display_text.js";
import { formatChangeLine, randomBelow } from "./walks.js";
import { formatRunLines } from "../engine/key_queue.js";

/**
 * @typedef {import("./campaign.js").Campaign} Campaign
 * @typedef {import("./subject.js").Subject} Subject
 * @typedef {import("./walks.js").Random} Random
 * @typedef {import("./walk_watcher.js").WalkStart} WalkStart
 *
 * The output of the command: the expected text after each key sequence (`expectedTexts`), or an error message.
 * @typedef {{ expectedTexts: string[], error: string }} ModelOutput
 * @typedef {(keySequences: string[]) => ModelOutput | Promise<ModelOutput>} ModelCommand
 *
 * A key sequence after which the display differs from the expected text. `keys` are the indices of the pressed inputs. `lampsOn` are the
 * names of lamps that are on but must be off.
 * @typedef {{ keys: number[], expectedText: string, lampsOn: string[], cycles: number }} Difference
 */

/** The number of key sequences per call of the command, and the maximum number of keys in a sequence. */
const SEQUENCE_COUNT = 40;
const MAX_SEQUENCE_LENGTH = 14;

export class Model {
  /**
   * @param {Subject} subject
   * @param {Campaign} campaign
   * @param {WalkStart} start
   * @param {ModelCommand} modelCommand
   * @param {Random} random
   */
  constructor(subject, campaign, start, modelCommand, random) {
    this.subject = subject;
    this.campaign = campaign;
    this.start = start;
    this.modelCommand = modelCommand;
    this.random = random;
    /** The indices of the inputs that are keys. */
    this.keys = campaign.inputs.flatMap(({ isKey }, at) => (isKey ? [at] : []));
    this.sequenceCount = 0;
    /** The error message of the command, or "". After an error, the command is not called again. */
    this.error = "";
  }

  /**
   * Compares the display with the model's output after random key sequences. Resolves to a minimised difference, or to null.
   * @returns {Promise<Difference | null>}
   */
  async trySequences() {
    const keySequences = [...Array(SEQUENCE_COUNT)].map(() => (
      [...Array(1 + randomBelow(this.random, MAX_SEQUENCE_LENGTH))].map(() => this.keys[randomBelow(this.random, this.keys.length)])));
    this.sequenceCount += keySequences.length;
    const difference = await this.findDifference(keySequences);
    return difference && this.shorten(difference);
  }

  /**
   * Compares the display with the model's output after each of several key sequences. Resolves to the first difference, or to null.
   * @param {number[][]} keySequences
   * @returns {Promise<Difference | null>}
   */
  async findDifference(keySequences) {
    const names = keySequences.map((keys) => keys.map((at) => this.campaign.inputs[at].name).join(" "));
    const { expectedTexts, error } = await this.modelCommand(names);
    this.error = error;
    for (const [at, keys] of keySequences.entries()) {
      if (error !== "") return null;
      const expectedText = expectedTexts[at].trim();
      const cycles = keys.length * (this.campaign.downTime + this.campaign.upTime);
      const { number, fullText, lampsOn } = this.readDisplayAfter(keys);
      if (expectedText !== "" && fullText !== expectedText) {
        return { keys, expectedText, lampsOn: number === expectedText ? lampsOn : [], cycles };
      }
    }
    return null;
  }

  /**
   * Returns the state of the display and lamps after a key sequence. `number` is the number on the display. `fullText` is the number
   * followed by lamp names, as `mcs4 display` prints them. `lampsOn` are the names of all named lamps that are on, except the minus lamp.
   * @param {number[]} keys the indices of the inputs to press
   */
  readDisplayAfter(keys) {
    const { downTime, upTime } = this.campaign;
    const { face } = this.subject.names;
    const lines = keys.map((input) => (
      `${formatChangeLine(this.campaign, { wait: 0, kind: "down", input })}${formatRunLines(downTime)}`
      + `${formatChangeLine(this.campaign, { wait: 0, kind: "up", input })}${formatRunLines(upTime)}`)).join("");
    const { answers } = this.subject.engine.ask(this.start.file, `${lines}lamps\n`);
    const lampMarks = readItems(answers[answers.length - 1]).join("");
    const lamps = [...face.lamps].map(([lamp, { text }]) => ({ lamp, text }));
    const { number, names } = new DisplayText(face.groups.filter(({ kind }) => kind === "display"), lamps).read(lampMarks);
    const lampsOn = lamps.filter(({ lamp, text }) => lampMarks[lamp] === "*" && text !== "minus").map(({ text }) => text);
    return { number, fullText: names === "" ? number : `${number} ${names}`, lampsOn };
  }

  /**
   * Removes one key after another as long as the display still differs from the model's output. Resolves to the difference after the
   * remaining keys.
   * @param {Difference} difference
   */
  async shorten(difference) {
    let minimised = difference;
    for (;;) {
      const { keys } = minimised;
      const shorterSequences = keys.map((_, at) => keys.filter((_key, index) => index !== at)).filter(({ length }) => length > 0);
      const shorterDifference = await this.findDifference(shorterSequences);
      if (!shorterDifference) return minimised;
      minimised = shorterDifference;
    }
  }

  /**
   * Returns the text of the test for a difference.
   * @param {string} name the name of the test
   * @param {Difference} difference
   */
  formatTest(name, { keys, expectedText, lampsOn }) {
    const { downTime, upTime, checkStart, inputs, leadingLines } = this.campaign;
    const lines = [`test ${name}`, ...leadingLines, ...(checkStart > 0 ? [`  run ${checkStart}`] : []), `  pace ${downTime} ${upTime}`,
      `  keys ${keys.map((at) => inputs[at].name).join(" ")}`, `  expect display ${expectedText}`,
      ...lampsOn.map((lamp) => `  expect lamp ${lamp} off`)];
    return `${lines.join("\n")}\n`;
  }
}
