// Answers the questions of `mcs4 prove` with the proved WebAssembly module, for systems without the program mcs4-prove.
import { startModule } from "./module_engine.mjs";

const SIGNALS = /** @type {const} */ (["SIGHUP", "SIGINT", "SIGTERM"]);

/**
 * Returns a function that answers the questions of `mcs4 prove`. A search is a single call of the module, during which no signal handler
 * can run. The function therefore removes the handlers during the call, so that a signal ends the process immediately.
 * @returns {(question: string) => string}
 */
export function makeModuleProver() {
  const engine = startModule("");
  return (question) => {
    const handlers = SIGNALS.flatMap((signal) => process.listeners(signal).map((handler) => ({ signal, handler })));
    for (const { signal, handler } of handlers) process.off(signal, handler);
    try {
      return engine.prove(question);
    } finally {
      for (const { signal, handler } of handlers) process.on(signal, handler);
    }
  };
}
