// The proof search of `mcs4 prove`. Its questions go to the program mcs4-prove, or to the proved module if this program does not exist for the
// system. `mcs4 test` must confirm each counterexample.
import { writeFileSync } from "node:fs";
import { join } from "node:path";
import { PropertyJudge } from "../core/prove/property_judge.js";
import { MAX_SETS, formatQuestion, readAnswer } from "../core/prove/question.js";
import { readCampaign } from "../core/explore/campaign.js";
import { formatNumber } from "../core/explore/report.js";
import { createSubject } from "../core/explore/subject.js";
import { prepareTests } from "../core/testing/test_preparation.js";
import * as say from "../words/prove.js";
import { interruptChildren, runCommand } from "./child_processes.mjs";
import { yieldToMessages, createRejectedTextsError, findProverPath, startEngine } from "./native_program.mjs";
import { CommandError } from "./output.mjs";
import { removeFolder, createTemporaryFolder } from "./temporary_folders.mjs";

/**
 * @typedef {import("./input_texts.mjs").InputText} InputText
 * @typedef {{ board: InputText, program: InputText, properties: { name: string, text: string } }} Texts
 *
 * The limits of a search. `maxStates` is the maximum number of states, and `memory` the maximum memory for them in MB (0 means all memory).
 * @typedef {{ maxStates: number, memory: number }} Limits
 */

/** A run of `mcs4 prove`: the texts, the limits and the prover. */
class ProofSession {
  /**
   * @param {Texts} texts
   * @param {Limits} limits
   */
  constructor(texts, limits) {
    this.texts = texts;
    this.limits = limits;
    this.program = findProverPath();
    /** @type {((question: string) => string) | null} answers a question with the module; null if the program mcs4-prove answers the questions */
    this.moduleProver = null;
    // This handler runs before the engine's handler. Ctrl-C does not reach the search, because the search has its own process group.
    process.on("SIGINT", interruptChildren);
  }

  /** Checks the texts. Resolves to an object that proves or disproves the properties. Throws an error if one of the texts is rejected. */
  async createJudge() {
    const engine = await startEngine();
    if (this.program === "") this.moduleProver = (await import("./module_prover.mjs")).makeModuleProver();
    const { board, program, properties } = this.texts;
    const { prepared, errors: textErrors } = prepareTests(engine, { boardText: board.text, programText: program.text });
    if (!prepared) throw await createRejectedTextsError(engine, { board, program }, textErrors);
    const subject = createSubject(engine, board.text, program.text, program.linesBefore);
    const { campaign, errors } = readCampaign(properties.text, subject, false);
    if (errors.length > 0) throw new CommandError(errors.map(({ line, words }) => `${properties.name}:${line}: ${words}`).join("\n"));
    return new PropertyJudge(subject, campaign, {
      ask: (question) => this.ask(question, this.limits),
      askBySets: (question) => this.ask(question, { maxStates: 0, sets: MAX_SETS }),
      confirm: (counterexample, isGoal) => this.confirm(counterexample, isGoal),
      explainNoAnswer: (answer) => this.describeNoAnswer(answer),
      yieldToMessages: async () => {
        await yieldToMessages();
      },
    });
  }

  /**
   * Returns the reason why an answer of the prover neither proves nor disproves a property.
   * @param {import("../core/prove/question.js").NoAnswer} answer
   */
  describeNoAnswer(answer) {
    const { maxStates, memory } = this.limits;
    if (answer.kind === "more") return say.moreStates(formatNumber(maxStates));
    if (answer.kind === "lost") return say.GAVE_UP;
    if (answer.states === 0) return say.NO_MEMORY;
    return memory > 0 ? say.memoryLimitReached(formatNumber(answer.states), memory) : say.memoryHasRoomFor(formatNumber(answer.states));
  }

  /**
   * Sends the text of a question to the prover. Resolves to its output, its errors, and the signal that ended it, if any.
   * @param {string} text
   */
  async search(text) {
    return this.moduleProver ? { stdout: this.moduleProver(text), stderr: "", signal: null } : runCommand(this.program, [], text);
  }

  /**
   * Asks the prover a question. Resolves to the parsed answer. Throws an error if the prover ended without an answer.
   * @param {import("../core/prove/question.js").Question} question
   * @param {import("../core/prove/question.js").QuestionLimits} limits
   */
  async ask(question, limits) {
    const { board, program } = this.texts;
    const { stdout, stderr, signal } = await this.search(formatQuestion({ board: board.text, program: program.text }, question, limits));
    const answer = readAnswer(stdout);
    if (!answer) throw new CommandError(say.proverEnded([stdout.trim(), stderr.trim(), signal].filter(Boolean).join("; ")));
    return answer;
  }

  /**
   * Resolves to true if `mcs4 test` confirms a counterexample. A counterexample that consists of session lines needs no confirmation, because the
   * bench has already run it.
   * @param {import("../core/prove/counterexample.js").Counterexample} counterexample
   * @param {boolean} isGoal true if the property is a goal, whose test must pass
   */
  async confirm({ isTest, text }, isGoal) {
    if (!isTest) return true;
    const folder = createTemporaryFolder("prove");
    const paths = ["board_text", "program_text", "found.test"].map((name) => join(folder, name));
    [this.texts.board.text, this.texts.program.text, text].forEach((content, index) => writeFileSync(paths[index], content));
    try {
      const { status } = await runCommand(process.execPath, [process.argv[1], "test", ...paths]);
      return status === (isGoal ? 0 : 1);
    } finally {
      removeFolder(folder);
    }
  }
}

/**
 * Checks the texts. Resolves to an object that proves or disproves the properties one by one.
 * @param {Texts} texts
 * @param {Limits} limits
 * @returns {Promise<PropertyJudge>}
 */
export function beginProving(texts, limits) {
  return new ProofSession(texts, limits).createJudge();
}
