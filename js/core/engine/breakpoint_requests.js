// Requests that set the breakpoints, and the kinds of common mistakes that stop the machine.

import { readBoard } from "../bench/answers.js";
import { Face } from "../board/face.js";
import { collectWatchNames } from "../debug/watch_expressions.js";
import { SourceMap } from "../machine/source_map.js";

/**
 * @typedef {import("./open_bench.js").OpenBench} OpenBench
 * @typedef {import("../bench/protocol.js").BreakpointReply} BreakpointReply
 * @typedef {import("../debug/soft_breakpoints.js").LocatedBreakpoint} LocatedBreakpoint
 * @typedef {import("../debug/common_mistakes.js").Kind} Kind
 */

export class BreakpointRequests {
  /** @param {OpenBench} bench */
  constructor(bench) {
    this.bench = bench;
  }

  /**
   * Sets the breakpoints. A breakpoint that has no condition, no hit count and no note is also set in the bench, so that the bench itself
   * stops there. Resolves to the reply for the page, with the errors of breakpoints that cannot be compiled.
   * @param {LocatedBreakpoint[]} breakpoints
   * @param {{ board: string, program: string, watched?: string[] }} texts the texts that define the names in conditions; `watched` are the
   *   watch expressions
   * @returns {Promise<BreakpointReply>}
   */
  async setBreakpoints(breakpoints, texts) {
    const { session } = this.bench;
    const { map } = this.bench.checkProgram(texts.program);
    const names = { face: new Face(texts.board), board: readBoard(session.statusQueries.board), map: new SourceMap(map, texts.program),
      watched: collectWatchNames(texts.watched) };
    const { lines, errors } = this.bench.debugger.setBreakpoints(breakpoints, names);
    return { ...(lines ? await this.bench.serve(lines) : this.bench.replyWithoutServing()), errors };
  }

  /**
   * Sets the kinds of common mistakes that stop the machine.
   * @param {Kind[]} kinds
   */
  stopAtMistakes(kinds) {
    this.bench.stopKinds = kinds;
    if (this.bench.currentDebugger) this.bench.currentDebugger.commonMistakes.stoppingKinds = new Set(kinds);
  }
}
