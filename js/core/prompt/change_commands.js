// The prompt commands that change the session while the machine is paused: keys, values and the program.

import { compileSetLine } from "../adapter/place_assignment.js";
import { rejectCommand } from "./argument_parsers.js";
import * as say from "../../words/prompt.js";

/**
 * @typedef {import("./debugger_prompt.js").CommandHandler} CommandHandler
 * @typedef {import("./debugger_prompt.js").Prompt} Prompt
 */

export class ChangeCommands {
  /** @param {Prompt} prompt */
  constructor(prompt) {
    this.prompt = prompt;
  }

  /**
   * The handlers by command name.
   * @returns {Record<string, CommandHandler>}
   */
  get handlers() {
    const { prompt } = this;
    return {
      hold: (argumentText) => this.pressOrReleaseKeys("press", argumentText, "hold"),
      release: (argumentText) => this.pressOrReleaseKeys("release", argumentText, "release"),
      set: (argumentText) => this.setPlace(argumentText),
      load: () => this.loadProgram(),
      reset: async () => {
        await prompt.serve("reset");
        prompt.showStop("");
      },
      bench: async (argumentText) => {
        const { text: words, changes } = await prompt.console.serveBenchLines(argumentText || rejectCommand(say.BENCH_SYNTAX));
        prompt.callbacks.print(words);
        if (changes) await prompt.machine.saveAndReport();
      },
    };
  }

  /**
   * Presses or releases keys; the machine stays paused.
   * @param {"press" | "release"} word the command of the bench
   * @param {string} argumentText the keys
   * @param {string} command the prompt command, for messages
   */
  async pressOrReleaseKeys(word, argumentText, command) {
    for (const key of this.prompt.keys.parseKeys(argumentText, command)) await this.prompt.serve(key[word]);
  }

  /**
   * Sets a place, such as a register, to a value.
   * @param {string} argumentText the place and the value: `r4 = r5 + 1`
   */
  async setPlace(argumentText) {
    const { session, machine } = this.prompt;
    const lines = compileSetLine(argumentText, session);
    await this.prompt.console.runBenchLines(lines);
    await machine.saveAndReport();
    if (lines.startsWith("poke pc ")) this.prompt.showStop("");
  }

  /** Assembles the current text of the program file into ROM; fails if the program has no file or the text has an error. */
  async loadProgram() {
    const { callbacks, session, console: debugConsole, machine } = this.prompt;
    const text = callbacks.source();
    if (text === null) return rejectCommand(say.NO_SOURCE_FILE);
    const refusal = await session.setProgram(text.replace(/^\uFEFF/, "").replace(/\r\n?/g, "\n"));
    if (refusal) {
      const lineText = refusal.line ? `, line ${refusal.line}` : "";
      rejectCommand(`no ${refusal.number}${lineText}: ${debugConsole.errorMessages.refusalMeaning(refusal.number)}`);
    }
    await machine.saveAndReport();
    return this.prompt.showStop(say.SOURCE_IN_ROM);
  }
}
