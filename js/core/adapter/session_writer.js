// Saves a session in memory to its file. Another process, `mcs4 open FILE`, has the file open. The writer sends the new lines of the
// session to that process. After a move back in time, the new lines do not continue the history in the file, so the writer replaces the
// file.

import { parseRefusal } from "../bench/answers.js";
import { joinLines } from "../bench/inputs.js";
import { AdapterError } from "./dap_protocol.js";
import * as say from "../../words/adapter.js";

/**
 * @typedef {import("../engine/worker_session.js").WorkerSession} WorkerSession
 * @typedef {import("../engine/timeline.js").Segment} Segment
 *
 * A session file that another process has open. `bytes` are its contents when it was opened. `ask` sends lines and resolves to their
 * `count` answers. `replace` replaces the file with a session that starts from `bytes` and executes `lines`. If `check` throws for the
 * `count` answers, or the file cannot be replaced, `replace` throws and the file does not change. `end` closes the file.
 * @typedef {{ bytes: Uint8Array, ask: (lines: string, count: number) => Promise<string[]>,
 *   replace: (bytes: Uint8Array, lines: string, count: number, check: (answers: string[]) => void) => Promise<void>,
 *   end: () => Promise<void> }} OpenFile
 */

export class SessionWriter {
  /**
   * @param {OpenFile} file
   * @param {WorkerSession} session a session that was started from the bytes of the file
   */
  constructor(file, session) {
    this.file = file;
    /** @type {Segment | null} the segment of the timeline whose commands are in the file; null if the file contents are unknown */
    this.segment = session.timeline.lastSegment;
    /** The number of commands in the file, counted from the start of the segment. */
    this.commandCount = 0;
  }

  /**
   * Returns the commands of the session that the file lacks; null if the session does not continue the history in the file.
   * @param {WorkerSession} session
   */
  missingLines({ timeline, unrecordedCommands }) {
    const segmentIndex = this.segment ? timeline.segments.indexOf(this.segment) : -1;
    if (segmentIndex < 0 || timeline.segments.slice(segmentIndex + 1).some(({ follows }) => !follows)) return null;
    const entries = [...timeline.segments.slice(segmentIndex).flatMap((segment) => segment.entries), ...unrecordedCommands];
    return entries.slice(this.commandCount).map(({ line }) => line);
  }

  /**
   * Writes the missing commands to the file, or replaces the file. Throws AdapterError if the other process rejects a line, or if the state
   * in the file then differs from the state of the session.
   * @param {WorkerSession} session
   */
  async write(session) {
    const { lastSegment } = session.timeline;
    const missingLines = this.missingLines(session);
    const state = session.ask("state\n")[0];
    const allLines = [...lastSegment.entries, ...session.unrecordedCommands].map(({ line }) => line);
    this.segment = null;
    /** @type {(answers: string[]) => void} */
    const checkAnswers = (answers) => {
      const rejectedAnswer = answers.find((answer) => parseRefusal(answer));
      if (rejectedAnswer) throw new AdapterError(say.sessionFileNotWritten(rejectedAnswer));
      const isStateEqual = answers[answers.length - 1] === state;
      if (!isStateEqual) throw new AdapterError(say.STATES_DIFFER);
    };
    if (missingLines) checkAnswers(await this.file.ask(`${joinLines(missingLines)}state\n`, missingLines.length + 1));
    else await this.file.replace(lastSegment.file, `${joinLines(allLines)}state\n`, allLines.length + 1, checkAnswers);
    this.segment = lastSegment;
    this.commandCount = allLines.length;
  }

  end() {
    return this.file.end();
  }
}
