// The command table, used by argument parsing, the help, the manual pages and the completions. The descriptions are in
// js/words/commands.js, under the same names. The module of a command exports `run(values, positionals)`, which returns the exit status or
// a promise of it.

/**
 * @typedef {import("../../words/commands.js").CommandName} CommandName
 *
 * An option as `parseArgs` of node:util accepts it, with one more member: `value` is the name of the option's value in the help.
 * @typedef {{ type: "string" | "boolean", short?: string, multiple?: boolean, value?: string }} Option
 *
 * `Values` are the options' values by their long names. `CommandModule` is the module of a command.
 * @typedef {Record<string, any>} Values
 * @typedef {{ run: (values: Values, positionals: string[]) => Promise<number> | number }} CommandModule
 *
 * A command: its group in the help, its usage lines, its options by their long names, and a function that loads its module.
 * @typedef {{ group: "tests" | "session" | "texts", usage: string[], options: Record<string, Option>, load: () => Promise<CommandModule> }} Command
 */

/** @type {Option} */
const FOLDER_OPTION = { type: "string", short: "C", value: "FOLDER" };

/** @type {Option} */
const SOURCE_OPTION = { type: "string", value: "PROGRAM" };
/** @type {Option} */
const CYCLES_OPTION = { type: "string", value: "CYCLES" };

/** @type {Record<string, Command>} */
export const COMMANDS = {
  back: {
    group: "session",
    usage: ["SESSION [N]"],
    options: {},
    load: () => import("./back.mjs"),
  },
  cover: {
    group: "tests",
    usage: ["[-C FOLDER] [--lcov FILE] [BOARD PROGRAM] [TEST ..]", "[--lcov FILE] --session SESSION CYCLES PROGRAM"],
    options: { folder: FOLDER_OPTION, lcov: { type: "string", value: "FILE" }, session: { type: "string", value: "SESSION" } },
    load: () => import("./cover.mjs"),
  },
  cycles: {
    group: "session",
    usage: ["[--source PROGRAM SESSION] [FIRST LAST] < ANSWERS"],
    options: { source: SOURCE_OPTION },
    load: () => import("./cycles.mjs"),
  },
  dap: {
    group: "tests",
    usage: [""],
    options: { stdio: { type: "boolean" } },
    load: () => import("./dap.mjs"),
  },
  debug: {
    group: "session",
    usage: ["[-C FOLDER] [SESSION]", "BOARD PROGRAM [SESSION]"],
    options: { folder: FOLDER_OPTION },
    load: () => import("./debug.mjs"),
  },
  display: {
    group: "session",
    usage: ["[-C FOLDER] [BOARD] < ANSWERS"],
    options: { folder: FOLDER_OPTION },
    load: () => import("./display.mjs"),
  },
  explain: {
    group: "session",
    usage: ["[--source PROGRAM SESSION] SCRIPT < ANSWERS"],
    options: { source: SOURCE_OPTION },
    load: () => import("./explain.mjs"),
  },
  explore: {
    group: "tests",
    usage: [
      "[-C FOLDER] [BOARD PROGRAM] [PROPERTIES] [--seconds N] [--jobs N] [--seed N] [--out FINDS.test] [--report REPORT] [--allow-model]",
      "--merge [--out FINDS.test] [--report REPORT] REPORT ..",
    ],
    options: {
      folder: FOLDER_OPTION,
      seconds: { type: "string", value: "SECONDS" },
      jobs: { type: "string", value: "JOBS" },
      seed: { type: "string", value: "SEED" },
      out: { type: "string", value: "FINDS.test" },
      report: { type: "string", value: "REPORT" },
      "allow-model": { type: "boolean" },
      merge: { type: "boolean" },
    },
    load: () => import("./explore.mjs"),
  },
  import: {
    group: "texts",
    usage: ["PROGRAM"],
    options: {},
    load: () => import("./import.mjs"),
  },
  keys: {
    group: "session",
    usage: ["[-C FOLDER] [--down CYCLES] [--up CYCLES] [--until-stop SESSION] [BOARD] KEYS"],
    options: { folder: FOLDER_OPTION, down: CYCLES_OPTION, up: CYCLES_OPTION, "until-stop": { type: "string", value: "SESSION" } },
    load: () => import("./keys.mjs"),
  },
  listing: {
    group: "tests",
    usage: ["[-C FOLDER] [--names | --labels] [PROGRAM]"],
    options: { folder: FOLDER_OPTION, names: { type: "boolean" }, labels: { type: "boolean" } },
    load: () => import("./listing.mjs"),
  },
  lsp: {
    group: "tests",
    usage: [""],
    options: { stdio: { type: "boolean" } },
    load: () => import("./lsp.mjs"),
  },
  names: {
    group: "tests",
    usage: ["[-C FOLDER] [PROGRAM] < LINES"],
    options: { folder: FOLDER_OPTION },
    load: () => import("./names.mjs"),
  },
  new: {
    group: "session",
    usage: ["FILE"],
    options: {},
    load: () => import("./new.mjs"),
  },
  open: {
    group: "session",
    usage: ["FILE"],
    options: {},
    load: () => import("./open.mjs"),
  },
  panel: {
    group: "session",
    usage: ["[-C FOLDER] [--stopped] [--source PROGRAM] [BOARD] SESSION"],
    options: { folder: FOLDER_OPTION, stopped: { type: "boolean" }, source: SOURCE_OPTION },
    load: () => import("./panel.mjs"),
  },
  profile: {
    group: "tests",
    usage: ["[-C FOLDER] [BOARD PROGRAM] [TEST ..]", "--session SESSION CYCLES PROGRAM"],
    options: { folder: FOLDER_OPTION, session: { type: "string", value: "SESSION" } },
    load: () => import("./profile.mjs"),
  },
  project: {
    group: "texts",
    usage: ["split FILE FOLDER", "join FOLDER FILE"],
    options: {},
    load: () => import("./project.mjs"),
  },
  prove: {
    group: "tests",
    usage: ["[-C FOLDER] [BOARD PROGRAM] [PROPERTIES] [--most N] [--memory MB]"],
    options: { folder: FOLDER_OPTION, most: { type: "string", value: "N" }, memory: { type: "string", value: "MB" } },
    load: () => import("./prove.mjs"),
  },
  resume: {
    group: "session",
    usage: ["SCRIPT SESSION"],
    options: {},
    load: () => import("./resume.mjs"),
  },
  rom: {
    group: "texts",
    usage: ["load [--hex | --srec | --bnpf | --binary] IMAGE [ADDRESS]", "ask FIRST COUNT", "save [--hex | --bnpf] FIRST COUNT < ANSWERS"],
    options: { hex: { type: "boolean" }, srec: { type: "boolean" }, bnpf: { type: "boolean" }, binary: { type: "boolean" } },
    load: () => import("./rom.mjs"),
  },
  script: {
    group: "session",
    usage: ["BOARD PROGRAM [KEYS]", "[-C FOLDER] [KEYS]"],
    options: { folder: FOLDER_OPTION },
    load: () => import("./script.mjs"),
  },
  test: {
    group: "tests",
    usage: ["[-C FOLDER] [BOARD PROGRAM] [TEST ..]"],
    options: { folder: FOLDER_OPTION },
    load: () => import("./test.mjs"),
  },
  trace: {
    group: "session",
    usage: ["[-C FOLDER] [--names PROGRAM | --source PROGRAM] [--last N] SESSION CYCLES"],
    options: {
      folder: FOLDER_OPTION,
      names: { type: "string", value: "PROGRAM" },
      source: { type: "string", value: "PROGRAM" },
      last: { type: "string", value: "N" },
    },
    load: () => import("./trace.mjs"),
  },
  wave: {
    group: "session",
    usage: [
      "[-C FOLDER] [--board BOARD] [--names PROGRAM] SESSION CYCLES [LINE ..]",
      "[-C FOLDER] --lines [--board BOARD] [--names PROGRAM] SESSION",
      "[-C FOLDER] --wav OUT [--board BOARD] SESSION CYCLES [LINE]",
    ],
    options: {
      folder: FOLDER_OPTION,
      board: { type: "string", value: "BOARD" },
      names: { type: "string", value: "PROGRAM" },
      lines: { type: "boolean" },
      wav: { type: "string", value: "OUT" },
    },
    load: () => import("./wave.mjs"),
  },
};
