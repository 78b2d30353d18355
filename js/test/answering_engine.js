// A stand-in for the prover, for tests of its limits on the inputs.
import assert from "node:assert/strict";
import { Engine } from "../core/engine/engine.js";
import { beginProving } from "../core/prove/bounded_proof.js";
import { pageModule } from "./page_session.js";

const MODULE = new globalThis.WebAssembly.Module(pageModule);

/**
 * The bench's module with a stand-in for the prover, which records the limits in each question about one property. It answers that there
 * are no mistakes, and never proves anything by sets of states.
 */
export class AnsweringEngine extends Engine {
  /**
   * @param {(limits: string) => string} answer
   * @param {string | null} jointAnswer the answer to a question about several properties or mistakes; null if each such question must be
   *   about mistakes
   */
  constructor(answer, jointAnswer = null) {
    super(MODULE);
    this.answer = answer;
    this.jointAnswer = jointAnswer;
    /** @type {string[]} */
    this.asked = [];
  }

  prove(question) {
    if (/^sets /m.test(question)) return "gave up\n";
    const isJoint = question.split("\nnever\n").length > 2;
    if (isJoint && this.jointAnswer !== null) return this.jointAnswer;
    if (/^mistake/m.test(question)) return "holds 9\n";
    assert.ok(!isJoint);
    const [, lines] = /^pause \d+\n([^]*?)wire$/m.exec(question);
    const limits = lines.trimEnd().replace(/\n/g, "; ") || "all";
    this.asked.push(limits);
    return this.answer(limits);
  }
}

/**
 * Resolves to the verdict on the first property of a properties text, and to the limits in the questions about it.
 * @param {AnsweringEngine} engine
 * @param {{ boardText: string, programText: string, propertiesText: string }} texts
 */
export async function judgeFirst(engine, texts) {
  const calls = { reportStates: async () => {}, yieldToMessages: async () => {} };
  const { judge } = beginProving(engine, { ...texts, testText: "" }, 10000, calls);
  const { verdict } = await judge.judgeNext();
  return { verdict, asked: engine.asked };
}
