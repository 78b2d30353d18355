// The prompt of the debugger: each line is a command. The prompt uses the same debugger as the page (js/core/debug). It debugs a session in
// memory, and saves the session to its file at each stop. Callbacks print output and errors.
//
//     const prompt = new Prompt(launchResult, { refusals, manual }, callbacks);         adapter/session_launch.js creates the launch result
//     await prompt.begin(); await prompt.enterLine("break show"); prompt.isEnded; prompt.complete("br")

import { KEYWORDS } from "../conditions/parser.js";
import { PLACE_WORDS, parsePlace } from "../conditions/places.js";
import { NAMED_PLACES } from "../../words/conditions.js";
import { Face } from "../board/face.js";
import { readInstructions } from "../help/manual.js";
import { Console } from "../adapter/console.js";
import { Machine } from "../adapter/debugged_machine.js";
import { ErrorMessages } from "../bench/error_messages.js";
import { BreakpointCommands } from "./breakpoint_commands.js";
import { ChangeCommands } from "./change_commands.js";
import { COMMANDS, findCommand } from "./prompt_commands.js";
import { BoardKeyNames } from "./prompt_keys.js";
import { INFO_WORDS, InspectCommands } from "./inspect_commands.js";
import { formatNextInstruction } from "./state_text.js";
import { MoveCommands } from "./move_commands.js";
import { SourceCommand } from "./source_command.js";
import { StopCommands } from "./stop_commands.js";
import { rejectCommand } from "./argument_parsers.js";
import { boardHasNo } from "../../words/adapter.js";
import * as say from "../../words/prompt.js";
import { pausedAt } from "../../words/stops.js";

/**
 * @typedef {import("../adapter/session_launch.js").LaunchResult} LaunchResult
 *
 * A command handler, which receives the text after the command name.
 * @typedef {(argumentText: string) => void | Promise<void>} CommandHandler
 */

/**
 * The callbacks of the debugger's prompt. `source FILE` also uses `printError` and `read`.
 * @typedef {object} PromptCallbacks
 * @property {(words: string) => void} print Prints a message on standard output.
 * @property {(words: string) => void} printError Prints a message on standard error.
 * @property {() => Promise<void>} pause Yields to other tasks, such as the handler of Ctrl-C.
 * @property {() => string | null} source Returns the current text of the program file; null if the program has no file.
 * @property {(name: string) => string} read Returns the text of a file; throws an error with the reason if it cannot be read.
 * @property {(name: string, text: string) => void} write Writes text to a file; throws an error with the reason if it cannot be written.
 * @property {(prefix: string) => string[]} files Returns the file names that start with a prefix.
 * @property {boolean} isInteractive True if a user at a terminal can interrupt an endless run.
 * @property {{ toggle: () => string, setVisible: (isOn: boolean) => string } | null} view Shows or hides the view (view.js); null without a
 *   terminal. Each function returns an error message, or "".
 */

/**
 * The maximum length of a move in a script, in cycles: 18 minutes on a real board. A move runs the machine or goes back in time.
 */
const MAX_CYCLES = 100000000;
/** The maximum number of stops whose breakpoint commands run after a single line of a script. */
const MAX_STOPS = 100000;
/** Matches a command word and the text after it. */
const COMMAND = /^([a-zA-Z-]+|\S)(.*)$/;
/** The actions at a stop if the breakpoint has no commands. */
const NO_STOP_ACTIONS = { commands: [], isSilent: false, words: "", hasMoved: false };
/** Matches the commands that an empty line repeats. */
const REPEATABLE_COMMANDS = /^(next|step|reverse-step|reverse-next|reverse-continue|continue|until|list|run|x)$/;

/**
 * The patterns that capture the file name in a line, by command.
 * @type {Record<string, RegExp>}
 */
const FILE_ARGUMENTS = { source: /^\s*\S+\s+(.*)$/, save: /^\s*\S+\s+\S+\s+(.*)$/ };

/** An error whose message has already been printed. */
class ReportedError extends Error {}

export class Prompt {
  /**
   * @param {LaunchResult} launchResult
   * @param {{ refusals: Record<string, string>, manual: import("../help/manual.js").ManualSection[] }} data the bench's error messages, by
   *   number, and the manual
   * @param {PromptCallbacks} callbacks
   */
  constructor(launchResult, { refusals, manual }, callbacks) {
    this.launchResult = launchResult;
    this.session = launchResult.session;
    this.callbacks = callbacks;
    this.isEnded = false;
    /** The command line that an empty line repeats. */
    this.repeatedLine = "";
    /** The cycle count before the last line was executed. */
    this.startCycles = 0;
    /** True if the user interrupted the last line. */
    this.isInterrupted = false;
    /** @type {{ commands: string[], isSilent: boolean, words: string, hasMoved: boolean }} the commands of the breakpoint at the last stop;
     *    whether these commands hide the stop message; an additional message; and whether the last line made a move */
    this.stopActions = NO_STOP_ACTIONS;
    /** @type {import("../adapter/debugged_machine.js").MoveEnd} the last stop */
    this.lastStop = { reason: "", message: "", id: 0 };
    this.machine = this.makeMachine();
    this.face = new Face(this.session.boardText);
    this.expressionContext = {
      session: this.session, face: this.face, instructions: readInstructions(manual),
      frontPanelText: () => this.machine.frontPanelText.currentText(),
    };
    this.breakpointCommands = new BreakpointCommands(this);
    this.inspectCommands = new InspectCommands(this);
    this.stopCommands = new StopCommands(this);
    this.sourceCommand = new SourceCommand(this, callbacks);
    const consoleCalls = { handleBreakpointChange: () => this.breakpointCommands.syncWithBench(), handleRomChange: () => {} };
    this.console = new Console(this.machine, this.expressionContext, new ErrorMessages(refusals), consoleCalls);
    this.keys = new BoardKeyNames(this.session, this.face);
    /** @type {Record<string, CommandHandler>} */
    this.handlers = {
      ...new MoveCommands(this).handlers, ...this.breakpointCommands.handlers, ...this.stopCommands.handlers,
      ...this.inspectCommands.handlers, ...new ChangeCommands(this).handlers,
      source: async (name) => {
        if (!(await this.sourceCommand.serve(name))) throw new ReportedError();
      },
    };
  }

  makeMachine() {
    return new Machine(this.session, this.launchResult.writer, {
      handleStop: (lastStop) => {
        this.lastStop = lastStop;
      },
      output: (text, category) => this.output(text, category),
      pause: () => this.yieldToOtherTasks(),
      handleStateChange: () => {},
    });
  }

  /** The register, port or lamp whose change stops `continue`; "" for none. */
  get watchedPlace() {
    return this.breakpointCommands.watchedPlace;
  }

  /** Adds the session's breakpoints to the list, and shows the current position. */
  async begin() {
    this.breakpointCommands.syncWithBench();
    await this.session.applyBreakpoints();
    this.showStop(pausedAt(this.session.counterText));
  }

  /** Yields to other tasks. In a script, ends a move that exceeds MAX_CYCLES. */
  async yieldToOtherTasks() {
    await this.callbacks.pause();
    const { count } = this.session.debugger.session;
    if (!this.callbacks.isInteractive && count.total - this.startCycles >= MAX_CYCLES) this.machine.pause();
  }

  /**
   * Prints the output of the machine. Prints errors on standard error.
   * @param {string} text
   * @param {"console" | "stdout" | "stderr"} category
   */
  output(text, category) {
    if (category === "stderr") this.sourceCommand.printError(text.trimEnd());
    // Does not print the message about a move that did nothing, because `makeMove` reports this message.
    else if (!text.startsWith(say.NOTHING_DONE)) this.callbacks.print(text.trimEnd());
  }

  // --- lines ---

  /**
   * Executes a line, and the commands of each breakpoint that stops the machine. If a line is rejected, prints the reason and resolves to
   * false.
   * @param {string} text
   */
  async enterLine(text) {
    const line = text.trim() || (this.callbacks.isInteractive && !this.stopCommands.unfinishedCommands ? this.repeatedLine : "");
    this.startCycles = this.session.debugger.session.count.total;
    this.isInterrupted = false;
    const name = this.findCommandName(line);
    const isDone = await this.executeLine(line);
    // A repeated `list` has no argument, so that it lists the next lines.
    this.repeatedLine = isDone && REPEATABLE_COMMANDS.test(name) ? (name === "list" ? name : line) : "";
    return isDone && this.runCommands();
  }

  /**
   * Executes a line, but not the commands of a breakpoint that stops the machine. If the line is rejected, prints the reason and resolves
   * to false.
   * @param {string} line
   */
  async executeLine(line) {
    this.stopActions = NO_STOP_ACTIONS;
    try {
      if (this.stopCommands.unfinishedCommands) this.stopCommands.addLine(line);
      else if (line !== "" && !line.startsWith("#")) await this.executeCommand(line);
      return true;
    } catch (error) {
      if (!(error instanceof ReportedError)) this.sourceCommand.printError(error instanceof Error ? error.message : String(error));
      return false;
    }
  }

  /**
   * Returns the full command name of a line; "" if the line has no command.
   * @param {string} line
   */
  findCommandName(line) {
    const { command } = findCommand((COMMAND.exec(line) || ["", ""])[1]);
    return command && !this.stopCommands.unfinishedCommands ? command.name : "";
  }

  /**
   * Executes the command in a line; fails if the command is unknown.
   * @param {string} line
   */
  async executeCommand(line) {
    const [, word, argumentText] = /** @type {string[]} */ (COMMAND.exec(line));
    const { command, message } = findCommand(word);
    await this.handlers[command ? command.name : rejectCommand(message)](argumentText.trim());
  }

  /**
   * Runs the commands of the breakpoint at which the machine stopped. When a command runs the machine again, skips the remaining commands,
   * and runs those of the breakpoint at the new stop. Resolves to false if a command is rejected.
   */
  async runCommands() {
    let stopCount = 0;
    for (let { commands } = this.stopActions; commands.length > 0 && !this.isInterrupted; { commands } = this.stopActions) {
      for (const line of commands) {
        if (!(await this.executeLine(line))) return false;
        if (this.stopActions.hasMoved || this.isEnded) break;
      }
      stopCount += 1;
      if (!this.stopActions.hasMoved || (!this.callbacks.isInteractive && stopCount === MAX_STOPS)) break;
      await this.yieldToOtherTasks();
    }
    this.stopActions = NO_STOP_ACTIONS;
    return true;
  }

  /**
   * Starts a move and waits for its end. Resolves to a message about the stop; fails if the move did nothing.
   * @param {() => void} startMove starts the move
   */
  async makeMove(startMove) {
    startMove();
    await this.machine.move;
    const message = this.lastStop.message.replace(say.PAGE_REMEMBERS, say.SESSION_REMEMBERS);
    if (message.startsWith(say.NOTHING_DONE)) rejectCommand(message);
    const stopActions = await this.stopCommands.finishStop();
    this.stopActions = { ...stopActions, hasMoved: true };
    return stopActions.words ? `${message} ${stopActions.words}` : message;
  }

  /**
   * Executes a bench line and saves the session.
   * @param {string} line
   */
  async serve(line) {
    await this.console.runBenchLines(`${line}\n`);
    await this.machine.saveAndReport();
  }

  /**
   * Shows a stop: its reason, the next instruction, and the expressions of `display`. Shows nothing if the commands of the breakpoint hide
   * the stop message.
   * @param {string} reason the stop reason
   */
  showStop(reason) {
    this.inspectCommands.lastListedLine = 0;
    if (this.stopActions.isSilent) return;
    if (reason) this.callbacks.print(reason);
    this.callbacks.print(formatNextInstruction(this.session));
    this.inspectCommands.showDisplays();
  }

  /**
   * Parses the name of a register, port, lamp or RAM nibble. Returns the place name (conditions/places.js). Fails if the board does not
   * have the place.
   * @param {string} text the name; for a lamp also its name on the front panel
   * @param {string} command the prompt command, for messages
   */
  parsePlace(text, command) {
    if (text === "") rejectCommand(say.placeSyntax(command));
    const lamp = this.face.lampNumbers.get(text.replace(/ /g, "_"));
    const place = parsePlace(lamp === undefined ? text : `lamp ${lamp}`);
    if (!place) return rejectCommand(say.noPlaceMessage(text, NAMED_PLACES));
    return this.session.values([place.name])[0] === "" ? rejectCommand(boardHasNo(place.name)) : place.name;
  }

  /** The prompt text before a line. */
  get label() {
    return this.stopCommands.unfinishedCommands ? "> " : "(mcs4) ";
  }

  /** Interrupts the current move. Returns false if no move is in progress. */
  interrupt() {
    const { isMoving } = this.machine;
    this.isInterrupted = true;
    if (isMoving) this.machine.pause();
    return isMoving;
  }

  /** Discards the unfinished breakpoint commands. Returns a message about the commands; "" if there are none. */
  discardUnfinished() {
    return this.stopCommands.discardUnfinished();
  }

  // --- completion ---

  /**
   * Resolves to the completions of a line: the candidate words, and the part at the end of the line that the chosen word replaces.
   * @param {string} line the line up to the cursor
   * @returns {Promise<[string[], string]>}
   */
  async complete(line) {
    const [, first] = /^\s*(\S*)$/.exec(line) || [];
    if (first !== undefined) return [COMMANDS.map(({ name }) => `${name} `).filter((name) => name.startsWith(first)), first];
    const { command } = findCommand((/^\s*([a-zA-Z-]+)/.exec(line) || ["", ""])[1]);
    const name = command ? command.name : "";
    const file = FILE_ARGUMENTS[name] ? FILE_ARGUMENTS[name].exec(line) : null;
    if (file) return [this.callbacks.files(file[1]), file[1]];
    const [word] = /** @type {string[]} */ (/[\w@.+~*/-]*$/.exec(line));
    const candidates = this.listNextWords(name);
    return [candidates.filter((candidate) => candidate.toLowerCase().startsWith(word.toLowerCase())), word];
  }

  /**
   * Returns the words that can follow a command.
   * @param {string} command
   */
  listNextWords(command) {
    if (command === "info") return INFO_WORDS;
    if (command === "save") return ["breakpoints"];
    if (command === "help") return COMMANDS.map(({ name }) => name);
    if (/^(press|hold|release)$/.test(command)) return this.keys.names;
    if (/^(condition|ignore|commands|enable|disable)$/.test(command)) return this.session.breakpoints.all.map(({ id }) => String(id));
    const names = [...this.session.map.names.keys()];
    if (/^(list|x)$/.test(command)) return names;
    return [...new Set([...names, ...PLACE_WORDS, "display", ...this.face.lampNumbers.keys(), ...KEYWORDS])];
  }
}
