// Node's module for child processes, loaded on first use. Loading it takes a tenth of the startup time, and many commands do not start any process.
import { createRequire } from "node:module";

const require = createRequire(import.meta.url);

/** @type {() => typeof import("node:child_process")} */
export const loadChildProcess = () => require("node:child_process");
