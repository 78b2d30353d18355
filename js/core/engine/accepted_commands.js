// Finds the commands that the bench has accepted, and the number of cycles that each of them ran. With these commands, a session counts its
// cycles and replays its past.

import { readRun } from "../bench/answers.js";

/**
 * @typedef {import("../bench/inputs.js").Input} Input
 *
 * An accepted command: its text, the number of cycles it ran, and whether it reset the machine.
 * @typedef {{ line: string, cycles: number, resets: boolean }} AcceptedCommand
 */

/** @type {Record<string, true>} the kinds of commands that reset the machine */
const RESET_COMMANDS = { reset: true, wire: true };

/**
 * Returns the lines that repeat a command: the command itself and, for `wire` or `asm`, the text after it.
 * @param {Input} input
 */
function linesToRepeat({ line, text, kind }) {
  return kind === "wire" || kind === "asm" ? [line, ...text, "."].join("\n") : line;
}

/**
 * Returns the accepted commands among the inputs.
 * @param {Input[]} inputs
 * @param {string[][]} answers the answer lines of each input
 * @returns {AcceptedCommand[]}
 */
export function findAcceptedCommands(inputs, answers) {
  /** @type {AcceptedCommand[]} */
  const commands = [];
  inputs.forEach((input, index) => {
    const [answer = ""] = answers[index];
    if (!answer.startsWith("ok ")) return;
    const run = readRun(answer);
    commands.push({ line: linesToRepeat(input), cycles: run ? run.cycles : 0, resets: RESET_COMMANDS[input.kind] === true });
  });
  return commands;
}

/** The number of cycles that a session has run: in total (`total`), and up to its last reset (`reset`). */
export class CycleCount {
  /**
   * @param {number} totalCycles
   * @param {number} resetCycles
   */
  constructor(totalCycles = 0, resetCycles = 0) {
    this.total = totalCycles;
    this.reset = resetCycles;
  }

  /**
   * Adds the cycles of the given commands.
   * @param {AcceptedCommand[]} commands
   */
  add(commands) {
    for (const { cycles, resets } of commands) {
      this.total += cycles;
      if (resets) this.reset = this.total;
    }
  }

  copy() {
    return new CycleCount(this.total, this.reset);
  }
}
