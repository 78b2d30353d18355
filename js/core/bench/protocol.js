// The messages between page and worker. A request has a number. Every message about this request, such as its reply, has the same number.

/**
 * @typedef {import("../engine/worker_session.js").LinesResult} LinesResult
 * @typedef {import("../engine/examples.js").Example} Example
 * @typedef {import("./bench_errors.js").PackedError} PackedError
 * @typedef {import("./run_log.js").RunEntry} RunEntry
 *
 * The session state that the worker sends to the page. `snapshot`: the answers to the snapshot queries. `file`: the bytes of the session
 * file (transferred). `board`: the answer to `board`, null if unchanged. `total`: the number of all cycles. `reset`: the number of cycles
 * up to the last reset. `futureCount`: the number of possible moves forward in time. `past`: the additions to the timeline since the last
 * report. `waves`: the recording since the last report, null if recording is off. `printed`: the printer data, null if unchanged.
 * `waitingChanges`: the key changes that are queued for later.
 * @typedef {{ snapshot: string[], file: ArrayBuffer, board: string[] | null, total: number, reset: number, futureCount: number,
 *   past: import("../engine/timeline.js").PastChanges, waves: import("../engine/live_recorder.js").LivePart | null,
 *   printed: import("../engine/printer_codes.js").PrintoutData | null,
 *   waitingChanges: import("../engine/key_queue.js").KeyChange[] }} PageState
 *
 * The result of a period in which the machine ran. `runEntries`: the executed lines with their answers. `changesKeys`: true if a key
 * changed. `end`: the answer that ended the run early, or "". `stop`: the reason why the machine stopped, or null. `tally`: breakpoint
 * hits, log messages and common mistakes. `litShares`, `buzzerLevels`, `chipHeat`: lamp brightness, sound, and the changes in one RAM chip;
 * each is null if it was not measured.
 * @typedef {{ runEntries: RunEntry[], cycles: number, end: string, changesKeys: boolean, stop: Stop | null, tally: Tally,
 *   litShares: import("../engine/brightness_meter.js").LitShares | null,
 *   buzzerLevels: import("../engine/buzzer_meter.js").BuzzerLevels | null,
 *   chipHeat: import("../engine/heat_meter.js").ChipHeat | null } & PageState} Frame
 * @typedef {import("../debug/debugger.js").Stop} Stop
 * @typedef {import("../debug/debugger.js").Tally} Tally
 *
 * @typedef {LinesResult & PageState} LinesReply
 * @typedef {Omit<import("../engine/past_search.js").BackSearchResult, "moment" | "sessionAtMoment">} SearchReport
 * @typedef {LinesReply & { typedResult: import("../debug/debugger.js").TypedResult }} TypedReply the result of lines that the user typed
 * @typedef {LinesReply & SearchReport & { isDone: boolean, cycles: number }} TravelResult the result of a move back or forward in time:
 *   whether the session has moved, and by how many cycles
 * @typedef {LinesReply & { searchResult: import("../debug/debugger.js").RunResult["searchResult"], tally: Tally }} GoalReply
 *   the result of lines that run to a goal
 * @typedef {LinesReply & { errors: [number, string][] }} BreakpointReply the result of lines that set breakpoints; `errors` are the ids of
 *   breakpoints that cannot be compiled, each with an error message
 *
 * The messages to the worker.
 * @typedef {keyof import("../engine/bench_calls.js").Requests} CallName the name of a request
 * @typedef {{ kind: "request", number: number, call: CallName, parameters: any[], spare: ArrayBuffer[] }} Request `parameters` are the
 *   arguments of the call; `spare` are buffers as in `SpareBuffer`
 * @typedef {{ kind: "cancel", number: number }} Cancel cancels a request that serves lines
 * @typedef {{ kind: "ping" }} Ping checks whether the worker responds
 * @typedef {{ kind: "spare", buffer: ArrayBuffer }} SpareBuffer returns the buffer of a received file (transferred)
 * @typedef {Request | Cancel | Ping | SpareBuffer} ToWorker
 *
 * The messages to the page.
 * @typedef {{ kind: "reply", number: number, result?: any, error?: PackedError }} Reply
 * @typedef {{ kind: "early", number: number, result: any }} EarlyReply a copy of the result, sent before the reply
 * @typedef {{ kind: "progress", number: number, done: number, total: number }} Progress the completed and the total amount of a request's
 *   work
 * @typedef {{ kind: "frame", frame: Frame }} FrameMessage the result of a period in which the machine ran at full speed
 * @typedef {{ kind: "failed", error: PackedError }} FailureMessage the error that stopped the machine at full speed
 * @typedef {{ kind: "pong" }} Pong
 * @typedef {Reply | EarlyReply | Progress | FrameMessage | FailureMessage | Pong} ToPage
 */

export {};
