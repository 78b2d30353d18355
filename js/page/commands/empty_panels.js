// Explains each empty panel, and offers the command that fills the panel.

import { block, element, onClick } from "../ui/dom.js";
import { commandById } from "./command_table.js";
import * as say from "../../words/page_commands.js";

/** The id of the command that fills each panel, by the id of the panel's list or picture. */
const FILL_COMMANDS = {
  "watched-list": "debug.watch", "breakpoint-list": "debug.breakpoint", "waves": "waves.record", "log": "debug.console",
};

/**
 * Adds an explanation and a button after the list of each panel. The style sheet shows them while the list is empty.
 * @param {(command: import("./command_table.js").Command) => void} action
 */
export function fillEmptyPanels(action) {
  for (const [panelId, commandId] of Object.entries(FILL_COMMANDS)) {
    const command = commandById(commandId);
    const { words, button } = say.EMPTY_PANELS[panelId];
    const fillButton = element("button", { type: "button" }, button);
    onClick(fillButton, () => action(command));
    block(panelId).after(element("p", { className: "empty" }, words, " ", fillButton));
  }
}
