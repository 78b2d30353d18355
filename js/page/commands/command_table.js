// The table of all page commands. The toolbar, the menus, the palette, the key list in the help and the key bindings are created from this
// table.

import { SPEEDS } from "../../core/time/speeds.js";
import { KEYBOARD } from "../../words/help.js";
import { PANELS, RESET_LAYOUT } from "../../words/workbench.js";
import * as say from "../../words/page_commands.js";

/**
 * @typedef {import("../ui/icons.js").IconName} IconName
 * @typedef {"everywhere" | "texts" | "source" | "board" | "tests" | "properties"} KeyPlace where a command's keys work: everywhere, in all
 *   text editors, or in one of them
 * @typedef {"system" | "light" | "dark"} Theme
 *
 * A command of the page. `label` is its name in menus and lists, `group` its group in lists, and `icon` its icon in the toolbar and in
 * lists. `keys` are its key bindings; lists show the first. `place` says where these keys work. `act` executes the command. `currentLabel`
 * returns a label that depends on whether time is running. `unavailableReason` returns the reason why the command is unavailable, or "" if
 * it is available.
 * @typedef {{ id: string, label: string, group: keyof typeof say.GROUPS, icon?: IconName, keys: string[], place: KeyPlace,
 *   currentLabel?: (calls: CommandCalls) => string,
 *   act: (calls: CommandCalls) => void, unavailableReason: (calls: CommandCalls) => string }} Command
 *
 * @typedef {"find" | "replace" | "line" | "comment" | "complete" | "define" | "uses" | "rename" | "fold" | "unfold" | "foldAll" |
 *   "unfoldAll" | "undo" | "redo"} TextAction an editing action
 */

/**
 * The callbacks through which commands act on the page. A callback that fails to open or send something reports the error to the user.
 * @typedef {object} CommandCalls
 * @property {() => boolean} isRunning Returns true if time is running.
 * @property {() => void} continueOrPause Resumes or pauses time.
 * @property {() => void} step Executes one instruction.
 * @property {(goal: import("../../core/debug/goals.js").Goal) => void} runToGoal Runs until a goal is reached.
 * @property {(goal: import("../../core/engine/past_search.js").BackGoal) => void} goBack Goes back in time to a goal.
 * @property {() => void} goForward Returns to the state before the last move back.
 * @property {() => boolean} canGoForward Returns true if a move back can be undone.
 * @property {() => void} runToCursor Runs to the line of the caret in the source.
 * @property {(line: string) => void} sendLine Sends one line to the bench and logs its answer.
 * @property {() => void} toggleTestPin Changes the level of the TEST pin.
 * @property {(id: string) => void} setSpeed Sets the speed. `id` is the speed's id in speeds.js.
 * @property {(theme: Theme) => void} setTheme Sets the colours of the page.
 * @property {() => void} print Prints the page.
 * @property {(name: string) => void} show Brings a text or a panel to the front, by its name.
 * @property {(button: string, containerName: string) => void} clickButton Brings the text or panel `containerName` to the front, then
 *   clicks the button with the id `button`.
 * @property {(button: string) => boolean} isButtonAvailable Returns true if the button with the id `button` is available.
 * @property {(field: string, containerName: string) => void} focusField Brings the text or panel `containerName` to the front, then focuses
 *   the field with the id `field`.
 * @property {(text: TextName) => void} sendText Sends a text to the bench, like the first button of the text's editor.
 * @property {(box: string) => void} toggleCheckBox Toggles the check box with the id `box`.
 * @property {(isSource: boolean) => boolean} isTextInFront Returns true if a text editor is in front. If `isSource` is true, only the
 *   source's editor counts.
 * @property {(textAction: TextAction) => void} performTextAction Performs an editing action in the editor that is in front.
 * @property {(fieldName?: import("../machine/breakpoint_form.js").BreakpointField) => void} toggleOrEditBreakpoint Toggles the
 *   breakpoint at the caret's line. With `fieldName`, opens that field of the breakpoint instead.
 * @property {() => void} openFile Asks for a file to open.
 * @property {() => void} saveProject Saves the project to a file.
 * @property {() => void} saveSession Saves only the session file.
 * @property {() => void} exportFiles Opens the dialog that exports the board's text, the source and ROM images.
 * @property {() => void} openProjects Opens the list of projects.
 * @property {() => void} share Creates a link to the session.
 * @property {() => void} openNotices Opens the list of notices.
 * @property {() => boolean} hasNotices Returns true if the list of notices has entries.
 * @property {() => void} insertKeyScan Inserts a key scan routine into the source.
 * @property {() => boolean} hasKeys Returns true if the board has a key matrix.
 * @property {(id: string) => void} togglePanel Shows or hides a panel by its id.
 * @property {(id: string) => void} toggleMaximisedPanel Maximises a panel, or restores its size.
 * @property {() => void} resetLayout Restores the initial layout of the page.
 * @property {() => void} toggleHelp Closes the help, or opens it at the word at the caret.
 * @property {() => void} openExamples Opens the list of examples.
 * @property {() => void} openWelcome Opens the welcome cards.
 * @property {(query?: string) => void} openHelp Opens the help. With `query`, searches the help for this text.
 * @property {(initialText: string) => void} openPalette Opens the command palette with `initialText` in its field.
 */

/**
 * @typedef {keyof typeof say.COMMANDS} CommandId
 * @typedef {"program" | "board" | "tests" | "properties"} TextName
 */

const alwaysAvailable = () => "";

/**
 * @param {CommandId} id
 * @param {Command["group"]} group
 * @param {Command["act"]} action
 * @param {Partial<Command>} [options]
 * @returns {Command}
 */
function makeCommand(id, group, action, options = {}) {
  return { id, label: say.COMMANDS[id], group, keys: [], place: "everywhere", act: action, unavailableReason: alwaysAvailable, ...options };
}

/**
 * Returns a command that clicks a button of the page.
 * @param {CommandId} id
 * @param {Command["group"]} group
 * @param {string} button the id of the button
 * @param {string} containerName the name of the text or panel that contains the button
 * @param {string} [reason] the message that explains why the button is not available
 * @param {Partial<Command>} [options]
 */
function makeButtonCommand(id, group, button, containerName, reason = say.NOT_NOW, options = {}) {
  /** @param {CommandCalls} calls */
  const unavailableReason = (calls) => (calls.isButtonAvailable(button) ? "" : reason);
  return makeCommand(id, group, (calls) => calls.clickButton(button, containerName), { unavailableReason, ...options });
}

/**
 * Returns a command that performs an editing action in the editor that is in front.
 * @param {CommandId} id
 * @param {TextAction} textAction
 * @param {string[]} keys
 * @param {boolean} [isSource] true if the command is available only in the source's editor
 */
function makeTextCommand(id, textAction, keys, isSource = false) {
  return makeCommand(id, "text", (calls) => calls.performTextAction(textAction), { keys, place: isSource ? "source" : "texts",
    unavailableReason: (calls) => (calls.isTextInFront(isSource) ? "" : isSource ? say.NEEDS_SOURCE : say.NEEDS_TEXT) });
}

/** @type {Command[]} */
const TIME_COMMANDS = [
  makeCommand("time.continue", "time", (calls) => calls.continueOrPause(), {
    icon: "continue", keys: ["F5", "F8"], currentLabel: (calls) => say.COMMANDS[calls.isRunning() ? "time.pause" : "time.continue"] }),
  makeCommand("time.over", "time", (calls) => calls.runToGoal({ kind: "over" }), { icon: "over", keys: ["F10"] }),
  makeCommand("time.into", "time", (calls) => calls.step(), { icon: "into", keys: ["F11"] }),
  makeCommand("time.out", "time", (calls) => calls.runToGoal({ kind: "out" }), { icon: "out", keys: ["Shift+F11"] }),
  makeCommand("time.stepBack", "time", (calls) => calls.goBack({ kind: "instruction" }), { icon: "back", keys: ["Ctrl+F11"] }),
  makeCommand("time.lastPause", "time", (calls) => calls.goBack({ kind: "stop" }), { keys: ["Shift+F8"] }),
  makeCommand("time.reverse", "time", (calls) => calls.goBack({ kind: "arrival", place: "" })),
  makeCommand("time.redo", "time", (calls) => calls.goForward(), {
    unavailableReason: (calls) => (calls.canGoForward() ? "" : say.NOTHING_UNDONE) }),
  makeCommand("time.toCursor", "time", (calls) => calls.runToCursor(), { keys: ["Ctrl+F10"], place: "source" }),
  makeCommand("time.count", "time", (calls) => calls.focusField("step-count", "history")),
  makeCommand("time.untilChange", "time", (calls) => calls.focusField("change-place", "history")),
  makeButtonCommand("time.backToChange", "time", "back-change", "history"),
  makeCommand("time.reset", "time", (calls) => calls.sendLine("reset\n"), { icon: "reset" }),
  makeCommand("time.test", "time", (calls) => calls.toggleTestPin(), {
    unavailableReason: (calls) => (calls.isButtonAvailable("test") ? "" : say.TEST_HAS_OWN_CONTROL) }),
];

/** @type {Command[]} */
const PROJECT_COMMANDS = [
  makeCommand("project.open", "project", (calls) => calls.openFile(), { icon: "open", keys: ["Ctrl+O"] }),
  makeCommand("project.save", "project", (calls) => calls.saveProject(), { icon: "save", keys: ["Ctrl+S"] }),
  makeCommand("project.saveSession", "project", (calls) => calls.saveSession(), { icon: "file" }),
  makeCommand("project.export", "project", (calls) => calls.exportFiles(), { icon: "export" }),
  makeCommand("project.print", "project", (calls) => calls.print(), { icon: "print" }),
  makeCommand("project.all", "project", (calls) => calls.openProjects(), { icon: "projects" }),
  makeCommand("project.examples", "project", (calls) => calls.openExamples(), { icon: "examples" }),
  makeCommand("project.rename", "project", (calls) => calls.focusField("name", "")),
  makeCommand("project.share", "project", (calls) => calls.share(), { icon: "share" }),
];

/** @type {Command[]} */
const SHOW_COMMANDS = [
  makeCommand("settings.palette", "show", (calls) => calls.openPalette(">"), { icon: "search", keys: ["Ctrl+Shift+P", "Ctrl+K"] }),
  makeCommand("go.to", "show", (calls) => calls.openPalette(""), { icon: "goTo", keys: ["Ctrl+P"] }),
  makeCommand("go.notices", "show", (calls) => calls.openNotices(), { icon: "notices",
    unavailableReason: (calls) => (calls.hasNotices() ? "" : say.NO_NOTICES) }),
];

/** @type {Command[]} */
const BOARD_COMMANDS = [
  makeCommand("board.apply", "board", (calls) => calls.sendText("board"), { keys: ["Ctrl+Enter"], place: "board" }),
  makeCommand("board.type", "board", (calls) => calls.toggleCheckBox("typing")),
  makeButtonCommand("board.sound", "board", "sound-button", "front", say.NO_BUZZER),
  makeButtonCommand("board.tear", "board", "clear-printout", "front", say.NO_PRINTER),
  makeButtonCommand("board.first", "board", "first-board", "front", say.HAS_BOARD),
  makeButtonCommand("board.draw", "board", "first-drawing", "front", say.HAS_BOARD),
];

/** @type {Command[]} */
const TEXT_COMMANDS = [
  makeCommand("text.assembleAndRun", "text", (calls) => calls.sendText("program"), {
    icon: "assemble", keys: ["Ctrl+Enter"], place: "source" }),
  makeButtonCommand("text.assemble", "text", "assemble-only", "program"),
  makeButtonCommand("text.disassemble", "text", "from-rom", "program"),
  makeTextCommand("text.find", "find", ["Ctrl+F"]),
  makeTextCommand("text.replace", "replace", ["Ctrl+H"]),
  makeTextCommand("text.line", "line", ["Ctrl+G"]),
  makeTextCommand("text.comment", "comment", ["Ctrl+/"]),
  makeTextCommand("text.complete", "complete", ["Ctrl+Space"]),
  makeTextCommand("text.define", "define", ["F12"], true),
  makeTextCommand("text.uses", "uses", ["Shift+F12"], true),
  makeTextCommand("text.rename", "rename", ["F2"], true),
  makeTextCommand("text.fold", "fold", ["Ctrl+Shift+["]),
  makeTextCommand("text.unfold", "unfold", ["Ctrl+Shift+]"]),
  makeTextCommand("text.foldAll", "foldAll", ["Ctrl+Alt+Shift+["]),
  makeTextCommand("text.unfoldAll", "unfoldAll", ["Ctrl+Alt+Shift+]"]),
  makeTextCommand("text.undo", "undo", ["Ctrl+Z"]),
  makeTextCommand("text.redo", "redo", ["Ctrl+Y"]),
  makeButtonCommand("text.smaller", "text", "text-smaller", ""),
  makeButtonCommand("text.larger", "text", "text-larger", ""),
  makeCommand("text.wrap", "text", (calls) => calls.toggleCheckBox("text-wrap")),
];

/** @type {Command[]} */
const DEBUG_COMMANDS = [
  makeCommand("debug.breakpoint", "debug", (calls) => calls.toggleOrEditBreakpoint(), { icon: "breakpoint", keys: ["F9"] }),
  makeCommand("debug.condition", "debug", (calls) => calls.toggleOrEditBreakpoint("condition"), { keys: ["Shift+F9"] }),
  makeCommand("debug.hitCount", "debug", (calls) => calls.toggleOrEditBreakpoint("from")),
  makeCommand("debug.log", "debug", (calls) => calls.toggleOrEditBreakpoint("note")),
  makeButtonCommand("debug.allOn", "debug", "breakpoints-on", "breakpoints", say.NO_BREAKPOINTS),
  makeButtonCommand("debug.allOff", "debug", "breakpoints-off", "breakpoints", say.NO_BREAKPOINTS),
  makeButtonCommand("debug.hits", "debug", "breakpoints-hits", "breakpoints", say.NO_BREAKPOINTS),
  makeButtonCommand("debug.removeAll", "debug", "breakpoints-remove", "breakpoints", say.NO_BREAKPOINTS),
  makeCommand("debug.watch", "debug", (calls) => calls.focusField("watched-field", "watched")),
  makeCommand("debug.heat", "debug", (calls) => calls.focusField("heat", "memory")),
  makeCommand("debug.console", "debug", (calls) => calls.focusField("lines", "talk")),
  makeCommand("debug.goTo", "debug", (calls) => calls.focusField("go-to", "listing")),
  makeButtonCommand("debug.there", "debug", "break-there", "listing"),
  makeCommand("debug.follow", "debug", (calls) => calls.toggleCheckBox("follow")),
];

/** @type {Command[]} */
const TEST_COMMANDS = [
  makeCommand("tests.run", "tests", (calls) => calls.sendText("tests"), { icon: "tests", keys: ["Ctrl+Enter"], place: "tests" }),
  makeButtonCommand("tests.first", "tests", "first-test", "tests", say.HAS_TEXT),
  makeButtonCommand("tests.clear", "tests", "clear-tests", "tests", say.NO_RESULTS),
  makeCommand("properties.search", "tests", (calls) => calls.sendText("properties"), { keys: ["Ctrl+Enter"], place: "properties" }),
  makeButtonCommand("properties.prove", "tests", "prove", "properties", "", { keys: ["Ctrl+Shift+Enter"], place: "properties" }),
  makeButtonCommand("properties.first", "tests", "first-properties", "properties", say.HAS_TEXT),
  makeButtonCommand("properties.clear", "tests", "clear-finds", "properties", say.NO_RESULTS),
];

/** @type {Command[]} */
const WIRING_COMMANDS = [
  makeButtonCommand("wiring.apply", "wiring", "drawing-wire", "wiring"),
  makeButtonCommand("wiring.undo", "wiring", "drawing-undo", "wiring"),
  makeButtonCommand("wiring.redo", "wiring", "drawing-redo", "wiring"),
  makeButtonCommand("wiring.arrange", "wiring", "drawing-tidy", "wiring"),
  makeCommand("wiring.scan", "wiring", (calls) => calls.insertKeyScan(), {
    unavailableReason: (calls) => (calls.hasKeys() ? "" : say.NO_KEYS) }),
  makeButtonCommand("wiring.larger", "wiring", "picture-larger", "wiring"),
  makeButtonCommand("wiring.smaller", "wiring", "picture-smaller", "wiring"),
  makeButtonCommand("wiring.fit", "wiring", "picture-fit", "wiring"),
];

/**
 * Returns a command for a button that needs recorded waves.
 * @param {CommandId} id
 * @param {string} button the id of the button
 */
const makeWaveCommand = (id, button) => makeButtonCommand(id, "waves", button, "waves", say.NOTHING_RECORDED);

/** @type {Command[]} */
const WAVE_COMMANDS = [
  makeButtonCommand("waves.record", "waves", "record", "waves", "", { icon: "record" }),
  makeCommand("waves.trigger", "waves", (calls) => calls.focusField("trigger", "waves")),
  makeWaveCommand("waves.save", "save-waves"),
  makeWaveCommand("waves.png", "save-png"),
  makeWaveCommand("waves.svg", "save-svg"),
  makeWaveCommand("waves.in", "zoom-in"),
  makeWaveCommand("waves.out", "zoom-out"),
  makeWaveCommand("waves.all", "zoom-all"),
  makeWaveCommand("waves.before", "edge-before"),
  makeWaveCommand("waves.after", "edge-after"),
  makeWaveCommand("waves.a", "cursor-a"),
  makeWaveCommand("waves.b", "cursor-b"),
  makeWaveCommand("waves.instruction", "wave-go-to"),
  makeCommand("waves.search", "waves", (calls) => calls.focusField("wave-search", "waves"), {
    unavailableReason: (calls) => (calls.isButtonAvailable("zoom-in") ? "" : say.NOTHING_RECORDED) }),
  makeWaveCommand("waves.findBefore", "find-before"),
  makeWaveCommand("waves.findAfter", "find-after"),
  makeButtonCommand("waves.changing", "waves", "waves-changing", "waves"),
  makeButtonCommand("waves.every", "waves", "waves-all", "waves"),
  makeButtonCommand("waves.none", "waves", "waves-none", "waves"),
];

/** @type {Command[]} */
const HELP_COMMANDS = [
  makeCommand("help.open", "help", (calls) => calls.toggleHelp(), { icon: "help", keys: ["F1"] }),
  makeCommand("help.keys", "help", (calls) => calls.openHelp(KEYBOARD)),
  makeCommand("help.welcome", "help", (calls) => calls.openWelcome(), { icon: "lamp" }),
  makeButtonCommand("help.tour", "help", "tour-begin", "", "", { icon: "lamp" }),
];

/**
 * Returns a command whose label is not in the table of labels, such as a command that shows a panel.
 * @param {string} id
 * @param {string} label
 * @param {Command["group"]} group
 * @param {Command["act"]} action
 * @param {IconName} [icon]
 * @returns {Command}
 */
export const makeLabelledCommand = (id, label, group, action, icon) => (
  { id, label, group, keys: [], place: "everywhere", act: action, unavailableReason: alwaysAvailable, icon });

/** @type {Command[]} */
const PANEL_COMMANDS = [...Object.entries(say.TEXTS), ...Object.entries(say.PANELS)].map(([name, label]) => (
  makeLabelledCommand(`show.${name}`, say.showText(label), "show", (calls) => calls.show(name))));

/**
 * The commands that show, hide and maximise panels, and the command that restores the initial layout.
 * @type {Command[]}
 */
const LAYOUT_COMMANDS = [
  ...Object.entries(PANELS).flatMap(([id, name]) => [
    makeLabelledCommand(`panel.${id}`, say.togglePanel(name), "show", (calls) => calls.togglePanel(id)),
    makeLabelledCommand(`full.${id}`, say.fullPanel(name), "show", (calls) => calls.toggleMaximisedPanel(id)),
  ]),
  makeLabelledCommand("layout.reset", RESET_LAYOUT, "show", (calls) => calls.resetLayout()),
];

/** @type {Command[]} */
const SETTING_COMMANDS = [
  ...SPEEDS.map(({ id, label }) => makeLabelledCommand(`speed.${id}`, say.atSpeed(label), "settings", (calls) => calls.setSpeed(id))),
  ...Object.entries(say.THEMES).map(([name, label]) => (
    makeLabelledCommand(`theme.${name}`, label, "settings", (calls) => calls.setTheme(/** @type {Theme} */ (name)), "theme"))),
];

/** The commands that do not depend on the session, in the order in which lists show them. */
export const COMMANDS = [
  ...TIME_COMMANDS, ...TEXT_COMMANDS, ...DEBUG_COMMANDS, ...TEST_COMMANDS, ...PROJECT_COMMANDS, ...BOARD_COMMANDS, ...SHOW_COMMANDS,
  ...PANEL_COMMANDS, ...WIRING_COMMANDS, ...WAVE_COMMANDS, ...LAYOUT_COMMANDS, ...SETTING_COMMANDS, ...HELP_COMMANDS,
];

/**
 * Returns the command with an id. Throws an error if there is none.
 * @param {string} id
 * @returns {Command}
 */
export function commandById(id) {
  const match = COMMANDS.find((entry) => entry.id === id);
  if (!match) throw new Error(`there is no command ${id}`);
  return match;
}
