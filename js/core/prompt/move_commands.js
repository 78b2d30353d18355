// The prompt commands that run the machine or go back in time. Each command waits until the machine stops, and reports where and why it
// stopped.

import { parseGoal } from "../debug/condition_search.js";
import { countOpenCalls } from "./state_text.js";
import { runKeyPress, stepBackBy, stepBackOver } from "./prompt_moves.js";
import { parseCountArgument, parseCycles, findInstruction, parseConditionText, rejectCommand } from "./argument_parsers.js";
import * as say from "../../words/prompt.js";
import { NO_OPEN_CALL, pausedAt } from "../../words/stops.js";

/**
 * @typedef {import("./debugger_prompt.js").CommandHandler} CommandHandler
 * @typedef {import("./debugger_prompt.js").Prompt} Prompt
 * @typedef {import("../debug/goals.js").Goal} Goal
 */

/** The maximum count of `step` and `next`. */
const MAX_STEPS = 1000000;

export class MoveCommands {
  /** @param {Prompt} prompt */
  constructor(prompt) {
    this.prompt = prompt;
  }

  /**
   * The handlers by command name.
   * @returns {Record<string, CommandHandler>}
   */
  get handlers() {
    const { machine } = this.prompt;
    return {
      "next": (argumentText) => this.repeatMove(argumentText, () => machine.runToGoal({ kind: "over" })),
      "step": (argumentText) => {
        const count = parseCountArgument(argumentText, MAX_STEPS);
        return this.moveAndShow(() => (count === 1 ? machine.stepInto() : machine.runToGoal({ kind: "count", count })));
      },
      "finish": (argumentText) => this.finishSubroutine(argumentText),
      "until": (argumentText) => {
        if (argumentText === "") rejectCommand(say.UNTIL_SYNTAX);
        const condition = parseConditionText(argumentText, this.prompt.session);
        if (condition !== "") return this.moveAndShow(() => machine.runToGoal({ kind: "when", condition }));
        const { address } = findInstruction(argumentText, this.prompt.session);
        return this.moveAndShow(() => machine.runToGoal({ kind: "here", address }));
      },
      "continue": (argumentText) => this.continueRun(argumentText),
      "run": (argumentText) => {
        const cycles = parseCycles(argumentText);
        const runCycles = () => this.prompt.session.runCycles(cycles, (_, tally) => machine.finishPiece(tally));
        return this.moveAndShow(() => machine.beginMove(runCycles, () => true));
      },
      "reverse-step": (argumentText) => this.stepBack(parseCountArgument(argumentText, MAX_STEPS)),
      "reverse-next": (argumentText) => this.repeatMove(argumentText, () => machine.beginMove(async () => (
        machine.toRunResult(await stepBackOver(this.prompt.session, () => machine.finishPiece()), "goal")), () => false)),
      "reverse-continue": (argumentText) => {
        if (argumentText !== "") rejectCommand(say.REVERSE_SYNTAX);
        return this.moveAndShow(() => machine.goBack({ kind: "arrival", place: this.prompt.watchedPlace }));
      },
      "back": (argumentText) => {
        if (argumentText === "") return this.moveAndShow(() => machine.goBack({ kind: "stop" }));
        const { goal, error } = parseGoal(argumentText, this.prompt.session.names);
        return goal ? this.moveAndShow(() => machine.goBack(goal)) : rejectCommand(error);
      },
      "forward": () => this.moveAndShow(() => machine.goForward()),
      "press": (argumentText) => this.pressKeys(argumentText),
    };
  }

  /**
   * Starts a move, waits for its end, and shows where it stopped. A move runs the machine or goes back in time.
   * @param {() => void} startMove starts the move
   */
  async moveAndShow(startMove) {
    this.prompt.showStop(await this.prompt.makeMove(startMove));
  }

  /**
   * Repeats a move at most a given number of times. Ends early if a move stops for a reason other than the end of its step. Shows where the
   * last move stopped.
   * @param {string} argumentText the number of moves; "" means 1
   * @param {() => void} startMove starts the move
   */
  async repeatMove(argumentText, startMove) {
    const { prompt } = this;
    let stopText = "";
    for (let remaining = parseCountArgument(argumentText, MAX_STEPS); remaining > 0; remaining--) {
      stopText = await prompt.makeMove(startMove);
      if (prompt.lastStop.reason !== "step" || prompt.machine.mustPause) break;
    }
    prompt.showStop(stopText);
  }

  /**
   * Steps back over several instructions.
   * @param {number} count
   */
  stepBack(count) {
    const { session, machine } = this.prompt;
    const goBack = async () => machine.toRunResult(await stepBackBy(session, count, () => machine.finishPiece()), "goal");
    return this.moveAndShow(() => machine.beginMove(goBack, () => false));
  }

  /**
   * Runs until the current subroutine returns. Fails if the program is not in a subroutine.
   * @param {string} argumentText must be ""
   */
  finishSubroutine(argumentText) {
    if (argumentText !== "") rejectCommand(say.FINISH_SYNTAX);
    if (countOpenCalls(this.prompt.session) === 0) rejectCommand(NO_OPEN_CALL);
    return this.moveAndShow(() => this.prompt.machine.runToGoal({ kind: "out" }));
  }

  /**
   * Runs to the next breakpoint or watch. Fails if nothing can stop the run and the user cannot interrupt it.
   * @param {string} argumentText must be ""
   */
  continueRun(argumentText) {
    if (argumentText !== "") rejectCommand(say.CONTINUE_SYNTAX);
    const { session, watchedPlace, callbacks, machine } = this.prompt;
    const hasWatches = watchedPlace !== "" || session.debugger.session.ask("watches\n")[0] !== "watches -";
    const canStop = session.breakpoints.enabledCount > 0 || hasWatches;
    if (!canStop && !callbacks.isInteractive) rejectCommand(say.NOTHING_STOPS);
    return this.moveAndShow(() => machine.runToGoal(watchedPlace === "" ? null : { kind: "change", place: watchedPlace }));
  }

  /**
   * Presses and releases keys one after another while the machine runs. If the machine stops early, for example at a breakpoint, does not
   * press the remaining keys.
   * @param {string} argumentText the names of the keys
   */
  async pressKeys(argumentText) {
    const { prompt } = this;
    const { machine, session } = prompt;
    const keys = prompt.keys.parseKeys(argumentText, "press");
    for (const [index, { key }] of keys.entries()) {
      let stopReason = "";
      const stopText = await prompt.makeMove(() => machine.beginMove(async () => {
        const stop = await runKeyPress(session, key, (_, tally) => machine.finishPiece(tally));
        ({ reason: stopReason } = stop);
        return stop;
      }, () => true));
      if (stopReason === "passed") continue;
      const remainingKeys = keys.slice(index + 1).map(({ name }) => name).join(" ");
      prompt.showStop(remainingKeys === "" ? stopText : say.notPressedMessage(stopText, remainingKeys));
      return;
    }
    prompt.showStop(pausedAt(session.counterText));
  }
}
