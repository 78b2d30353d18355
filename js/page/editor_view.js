// The board view of the editor extension: lamps, displays and keys, drawn by the page's views. The extension sends updates
// (adapter/remote_front_panel.js) and receives key presses. editors/vsix bundles this module into one script. The HTML is in
// editors/vscode/board_view.html.

import { readBoard } from "../core/bench/answers.js";
import { findBoardKey } from "../core/board/board_keys.js";
import { Face } from "../core/board/face.js";
import { pinKey, formatKey } from "../core/board/key_place.js";
import { FrontView } from "./board/front_view.js";
import { KeyPresser, handlesKey } from "./board/key_presser.js";
import { PrinterView } from "./board/printer_view.js";
import { block, button, field } from "./ui/dom.js";

/**
 * @typedef {import("../core/adapter/remote_front_panel.js").FrontPanelUpdate} FrontPanelUpdate
 * @typedef {import("../core/board/key_place.js").Key} Key
 */

/** The web view API of Visual Studio Code. */
const vsCode = globalThis.acquireVsCodeApi();
let isRunning = false;

/** @type {(key: Key, isDown: boolean) => void} */
const sendKey = (key, isDown) => vsCode.postMessage({ place: formatKey(key), isDown });

/** @type {KeyPresser} */
const keyPresser = new KeyPresser({
  queuesKeyChanges: () => isRunning,
  isDown: (key) => frontView.isDown(key),
  press: (key) => sendKey(key, true),
  release: (key) => sendKey(key, false),
  change: (word, key) => sendKey(key, word === "press"),
  keyForEvent: (event) => {
    if (event.ctrlKey || event.metaKey || event.altKey || !field("typing").checked || handlesKey(event.target, event.key)) return undefined;
    return findBoardKey(frontView.keys, event.key);
  },
});
/**
 * The front panel. Lamps show their perceived brightness while time is running, and their current state while time is paused.
 */
const frontView = new FrontView((node, key) => keyPresser.listenToButton(node, key), () => {});
/** The printer view. The debug adapter stores everything that was printed since the board was drawn. */
const printerView = new PrinterView({ setPrinter: () => {}, clear: () => vsCode.postMessage({ clearsPrintout: true }) });
keyPresser.listenToKeyboard();
button("test").addEventListener("click", () => sendKey(pinKey(frontView.testLevel === "1" ? 0 : 1), true));

/**
 * Shows an update of the front panel.
 * @param {FrontPanelUpdate | null} update null after the end of debugging
 */
function showUpdate(update) {
  block("front").hidden = update === null;
  block("nothing").hidden = update !== null;
  if (update === null) {
    keyPresser.forgetKeys();
    return;
  }
  if (update.board) {
    keyPresser.forgetKeys();
    const [board, face] = [readBoard(update.board), new Face(update.boardText || "")];
    frontView.draw(board, face);
    printerView.draw(board, face);
  }
  if (update.isRunning !== undefined) isRunning = update.isRunning;
  if (update.test !== undefined) {
    frontView.showTestPin(update.test);
    button("test").textContent = `TEST ${update.test}`;
    button("test").setAttribute("aria-pressed", String(update.test === "1"));
  }
  if (update.printed) printerView.showPrintout(update.printed);
  if (update.keys) frontView.showKeys(update.keys);
  const marks = update.lamps ?? frontView.marks;
  if (update.litShares) frontView.showBrightness(marks, update.litShares, Infinity);
  else if (!isRunning) frontView.showLamps(marks);
}

addEventListener("message", ({ data }) => {
  if (data && data.kind === "boardShown") showUpdate(data.update);
});
showUpdate(null);
vsCode.postMessage({ isReady: true });
