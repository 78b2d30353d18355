// The interface of a host, which runs sessions: given a state and lines, it executes the lines and returns the answers and the next state.
// There are two hosts: the module (engine.js) and the native program (js/node/native_engine.mjs). js/test/engine_hosts.test.js tests both
// hosts.

/**
 * The state of a session. Only the host that created a state can interpret its bytes. A copy of the bytes represents the same state. All
 * states of a host have the same length.
 * @typedef {Uint8Array} State
 *
 * @typedef {import("./engine.js").ServedAnswers} ServedAnswers
 *
 * @typedef {object} EngineHost
 * @property {number} size the length of a state in bytes
 * @property {(into?: State) => State} begin returns the state of a new session
 * @property {(state: State, lines: string, into: State) => ServedAnswers} serve executes lines on a state, and writes the next state into
 *   `into`, which can be the same array
 * @property {(state: State, lines: string) => ServedAnswers} ask returns the result that `serve` would return; the state does not change
 * @property {(state: State) => void} prepareForRuns prepares the host for many runs from this state, so that these runs are faster
 * @property {(state: State) => Uint8Array} bytesOf returns the bytes of the session file
 * @property {(bytes: Uint8Array) => State} stateOf returns the state in a session file; if the bytes are not a valid session, the next
 *   `serve` or `ask` with this state rejects them
 * @property {(question: string) => string} [prove] asks the prover, and returns the line that the program mcs4-prove would print; only the
 *   module has this method
 */

export {};
