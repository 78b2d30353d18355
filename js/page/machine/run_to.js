// Listens to the keys and clicks that run to a line. In the disassembly, these are Ctrl+click, a right click and Ctrl+Enter. In the source,
// a key runs to the caret's line.

import { commandById } from "../commands/command_table.js";
import { formatKey } from "../commands/keys.js";

/**
 * @param {HTMLElement} root the disassembly
 * @param {(node: Node) => number | null} addressAt returns the address of the line that contains a node, or null if there is none
 * @param {(address: number) => void} runTo
 */
export function listenForRunToLine(root, addressAt, runTo) {
  /** @param {Event} event */
  const runToLineOf = (event) => {
    const address = event.target instanceof Node ? addressAt(event.target) : null;
    if (address === null) return;
    event.preventDefault();
    event.stopPropagation();
    runTo(address);
  };
  root.addEventListener("click", (event) => {
    if (event.ctrlKey || event.metaKey) runToLineOf(event);
  }, { capture: true });
  root.addEventListener("contextmenu", runToLineOf);
  root.addEventListener("keydown", (event) => {
    if (event.key === "Enter" && (event.ctrlKey || event.metaKey)) runToLineOf(event);
  }, { capture: true });
}

/**
 * @param {HTMLElement} root the source editor
 * @param {() => void} runToCaret
 */
export function listenForRunToCaret(root, runToCaret) {
  const { keys } = commandById("time.toCursor");
  root.addEventListener("keydown", (event) => {
    if (!keys.includes(formatKey(event))) return;
    event.preventDefault();
    runToCaret();
  }, { capture: true });
}
