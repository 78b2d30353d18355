// Key bindings of the commands: keys that work everywhere, and keys that work only in an editor.

import { COMMANDS, commandById } from "./command_table.js";

/**
 * @typedef {import("./command_table.js").Command} Command
 * @typedef {import("./command_table.js").CommandId} CommandId
 * @typedef {Pick<KeyboardEvent, "key" | "ctrlKey" | "metaKey" | "altKey" | "shiftKey">} KeyPress
 */

/**
 * Returns the name of a key with its modifiers, in the form that the command table uses. The Command key counts as Control.
 * @param {KeyPress} event
 */
export function formatKey({ key, ctrlKey, metaKey, altKey, shiftKey }) {
  const modifiers = `${ctrlKey || metaKey ? "Ctrl+" : ""}${altKey ? "Alt+" : ""}${shiftKey ? "Shift+" : ""}`;
  return `${modifiers}${key.length === 1 ? key.toUpperCase() : key}`;
}

/** The commands whose keys work everywhere, by key name. */
const GLOBAL_COMMANDS = new Map(COMMANDS.filter(({ place }) => place === "everywhere").flatMap((command) => (
  command.keys.map((key) => [key, command]))));

/**
 * Returns the command of a key that works everywhere. Returns undefined for other keys, or if another listener has handled the event.
 * @param {KeyPress & { defaultPrevented: boolean }} event
 * @returns {Command | undefined}
 */
export function commandForKey(event) {
  return event.defaultPrevented ? undefined : GLOBAL_COMMANDS.get(formatKey(event));
}

/**
 * Listens to the keys that work everywhere. While a dialog is open, these keys trigger neither the command nor the browser's default
 * action.
 * @param {(command: Command) => void} action executes a command
 * @param {() => boolean} isBlocked returns true while a dialog is open
 * @param {Pick<Window, "addEventListener">} target
 */
export function listenToKeys(action, isBlocked, target = window) {
  target.addEventListener("keydown", (event) => {
    const command = commandForKey(event);
    if (!command) return;
    event.preventDefault();
    if (!isBlocked()) action(command);
  });
}

/**
 * Returns the key bindings of a command for an editor, as a map from the editor's key names to the action.
 * @template Editor
 * @param {CommandId} id
 * @param {(editor: Editor) => void} action
 * @returns {Record<string, (editor: Editor) => void>}
 */
export function makeEditorBindings(id, action) {
  /** @type {[string, (editor: Editor) => void][]} */
  const bindings = commandById(id).keys.flatMap((key) => {
    const name = key.replace(/\+/g, "-").replace(/-$/, "+");
    const names = name.includes("Ctrl-") ? [name, name.replace("Ctrl-", "Cmd-")] : [name];
    return names.map((editorKey) => /** @type {[string, (editor: Editor) => void]} */ ([editorKey, action]));
  });
  return Object.fromEntries(bindings);
}
