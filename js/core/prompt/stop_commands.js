// The prompt commands that change what happens at a breakpoint: temporary breakpoints, conditions, ignored hits, and commands that run at a
// stop. Also saves the breakpoints to a file.

import { hex } from "../bench/numbers.js";
import { LAST_BREAKPOINT } from "./breakpoint_commands.js";
import { rejectCommand } from "./argument_parsers.js";
import * as say from "../../words/prompt.js";

/**
 * @typedef {import("./debugger_prompt.js").CommandHandler} CommandHandler
 * @typedef {import("./debugger_prompt.js").Prompt} Prompt
 * @typedef {import("../debug/breakpoints.js").Breakpoint} Breakpoint
 *
 * The actions when a breakpoint stops a run. If `isTemporary` is true, the breakpoint is deleted. Then the commands run.
 * @typedef {{ isTemporary: boolean, commands: string[] }} StopActions
 */

/** @type {StopActions} the actions of a breakpoint that only stops */
const NO_ACTIONS = { isTemporary: false, commands: [] };
/** The maximum number of hits that `ignore` accepts. */
const MAX_IGNORED_HITS = 999999999;
/** The maximum number of commands of one breakpoint. */
const MAX_COMMANDS = 100;
/** The line that ends a list of commands. */
export const COMMANDS_END = "end";
/** The command that hides the message about the stop if it is the first command of a list. */
const SILENT_COMMAND = "silent";

/** @type {(command: string) => string} returns the line that applies a command to the breakpoint that was set last */
const formatForLastBreakpoint = (command) => `${command} ${LAST_BREAKPOINT}`;

export class StopCommands {
  /** @param {Prompt} prompt */
  constructor(prompt) {
    this.prompt = prompt;
    /** @type {Map<number, StopActions>} the actions, by breakpoint id */
    this.actions = new Map();
    /** @type {{ id: number, lines: string[] } | null} the commands that the user is entering, and their breakpoint id; null for none */
    this.unfinishedCommands = null;
  }

  get list() {
    return this.prompt.session.breakpoints;
  }

  /**
   * The handlers by command name.
   * @returns {Record<string, CommandHandler>}
   */
  get handlers() {
    return {
      tbreak: async (argumentText) => {
        const id = await this.prompt.breakpointCommands.add(argumentText);
        this.change(id, { isTemporary: true });
      },
      condition: (argumentText) => this.setCondition(argumentText),
      ignore: (argumentText) => this.ignoreHits(argumentText),
      commands: (argumentText) => this.beginCommands(argumentText),
      save: (argumentText) => this.saveBreakpoints(argumentText),
    };
  }

  /**
   * Returns the actions of a breakpoint.
   * @param {number} id
   */
  getActions(id) {
    return this.actions.get(id) || NO_ACTIONS;
  }

  /**
   * Changes the actions of a breakpoint.
   * @param {number} id
   * @param {Partial<StopActions>} changes
   */
  change(id, changes) {
    this.actions.set(id, { ...this.getActions(id), ...changes });
  }

  /**
   * Returns the breakpoint whose number is the first word, and the text after the number; fails if the breakpoint does not exist.
   * @param {string} argumentText
   * @param {string} usage the usage of the command, for messages
   * @returns {{ breakpoint: Breakpoint, remainingText: string }}
   */
  parseBreakpoint(argumentText, usage) {
    const [, word = "", remainingText = ""] = /^(\S*)\s*(.*)$/.exec(argumentText) || [];
    const [id] = this.prompt.breakpointCommands.parseNumbers(word || rejectCommand(usage));
    return { breakpoint: /** @type {Breakpoint} */ (this.list.get(id)), remainingText };
  }

  /**
   * Changes or removes the condition of a breakpoint.
   * @param {string} argumentText the breakpoint number, and the condition if there is one
   */
  async setCondition(argumentText) {
    const { breakpoint: { id }, remainingText } = this.parseBreakpoint(argumentText, say.CONDITION_SYNTAX);
    await this.prompt.breakpointCommands.change(id, { condition: remainingText.replace(/^if\s+/, "") });
    if (remainingText === "") this.prompt.callbacks.print(say.conditionRemovedMessage(id));
  }

  /**
   * Makes a breakpoint ignore its next hits.
   * @param {string} argumentText the breakpoint number, and the number of hits to ignore
   */
  async ignoreHits(argumentText) {
    const { breakpoint: { id, hits }, remainingText } = this.parseBreakpoint(argumentText, say.IGNORE_SYNTAX);
    const count = /^\d{1,9}$/.test(remainingText) ? Number(remainingText) : -1;
    if (count < 0) rejectCommand(say.hitCountRangeMessage(MAX_IGNORED_HITS.toLocaleString("en"), remainingText || say.NOTHING));
    await this.prompt.breakpointCommands.change(id, { from: count === 0 ? 1 : hits + count + 1 });
    this.prompt.callbacks.print(say.breakpointWillIgnore(id, count));
  }

  // --- commands at a stop ---

  /**
   * Begins a list of commands. The next lines are the commands, up to the line `end`.
   * @param {string} argumentText the breakpoint number, or "" to use the breakpoint that was set last
   */
  beginCommands(argumentText) {
    const { breakpoint: { id }, remainingText } = this.parseBreakpoint(argumentText || LAST_BREAKPOINT, say.COMMANDS_SYNTAX);
    if (remainingText !== "") rejectCommand(say.COMMANDS_SYNTAX);
    this.unfinishedCommands = { id, lines: [] };
  }

  /**
   * Adds a line to the unfinished commands. The line `end` completes the commands. Fails if there are too many commands.
   * @param {string} line
   */
  addLine(line) {
    const { id, lines } = /** @type {NonNullable<StopCommands["unfinishedCommands"]>} */ (this.unfinishedCommands);
    if (line.trim() === COMMANDS_END) {
      this.change(id, { commands: lines });
      this.unfinishedCommands = null;
    } else if (lines.length === MAX_COMMANDS) {
      this.unfinishedCommands = null;
      rejectCommand(say.tooManyCommandsMessage(MAX_COMMANDS));
    } else if (line.trim() !== "") lines.push(line.trim());
  }

  /** Discards the unfinished commands. Returns a message about the commands; "" if there are none. */
  discardUnfinished() {
    const { unfinishedCommands } = this;
    this.unfinishedCommands = null;
    return unfinishedCommands ? say.commandsDropped(unfinishedCommands.id) : "";
  }

  /**
   * Handles the stop at the end of a move. Resolves to the commands of the breakpoint that caused the stop, whether these commands hide the
   * stop message, and an additional message. Deletes a temporary breakpoint.
   * @returns {Promise<{ commands: string[], isSilent: boolean, words: string }>}
   */
  async finishStop() {
    const { lastStop: { reason, id }, session, breakpointCommands } = this.prompt;
    const breakpoint = reason === "breakpoint" ? this.list.get(id) || this.list.findByAddress(session.address) : undefined;
    const { isTemporary, commands } = breakpoint ? this.getActions(breakpoint.id) : NO_ACTIONS;
    if (breakpoint && isTemporary) await breakpointCommands.remove(String(breakpoint.id));
    const isSilent = commands[0] === SILENT_COMMAND;
    return { commands: isSilent ? commands.slice(1) : commands, isSilent,
      words: breakpoint && isTemporary ? say.temporaryDeleted(breakpoint.id) : "" };
  }

  // --- reports and saved lists ---

  /**
   * Returns the additional text for a breakpoint in `info breakpoints`.
   * @param {number} id
   */
  describeActions(id) {
    const { isTemporary, commands } = this.getActions(id);
    return `${isTemporary ? say.TEMPORARY : ""}${commands.map((line) => `\n       ${line}`).join("")}`;
  }

  /**
   * Saves the breakpoints and watches to a file, as commands of this prompt.
   * @param {string} argumentText the word `breakpoints` or a prefix of it, and the file name
   */
  saveBreakpoints(argumentText) {
    const [, word = "", name = ""] = /^(\S*)\s*(.*)$/.exec(argumentText) || [];
    if (!/^b(r(e(akpoints?)?)?)?$/.test(word) || name === "") rejectCommand(say.SAVE_SYNTAX);
    const watches = this.prompt.breakpointCommands.watchedPlaces.map((place) => `watch ${place}`);
    const lines = [...this.list.all.flatMap((breakpoint) => this.formatBreakpoint(breakpoint)), ...watches];
    this.prompt.callbacks.write(name, `${[say.BREAKPOINTS_HEADER, ...lines].join("\n")}\n`);
    this.prompt.callbacks.print(say.savedIn(name, this.list.all.length));
  }

  /**
   * Returns the prompt commands that recreate a breakpoint.
   * @param {Breakpoint} breakpoint
   */
  formatBreakpoint({ id, line, address, isOn, from, hits, condition, note }) {
    const { isTemporary, commands } = this.getActions(id);
    const remainingHits = from - hits;
    const place = line > 0 ? String(line) : `0x${hex(address, 3)}`;
    const words = [isTemporary ? "tbreak" : "break", place, ...(remainingHits > 1 ? [`from ${remainingHits}`] : [])];
    return [
      `${words.join(" ")}${say.ifCondition(condition)}${say.logNote(note)}`, ...(isOn ? [] : [formatForLastBreakpoint("disable")]),
      ...(commands.length > 0 ? [formatForLastBreakpoint("commands"), ...commands.map((command) => `  ${command}`), COMMANDS_END] : []),
    ];
  }
}
