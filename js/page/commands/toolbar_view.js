// The toolbar: a row of buttons and menus, created from the command table.

import { block, element, onClick } from "../ui/dom.js";
import { icon } from "../ui/icons.js";
import { commandById } from "./command_table.js";
import { MenuView } from "./menu_view.js";
import * as say from "../../words/page_commands.js";

/**
 * @typedef {import("../ui/icons.js").IconName} IconName
 * @typedef {import("./command_table.js").Command} Command
 * @typedef {import("../ui/theme.js").Theme} Theme
 * @typedef {import("../ui/tooltips.js").Tooltips} Tooltips
 */

/**
 * @typedef {{ id: string, tip?: string, isWide?: boolean }} ButtonOptions the id and tooltip of a button; if `isWide`, its label is visible
 */

/** The id of each button that runs, steps or resets, by command. */
const RUN_BUTTON_IDS = {
  "time.stepBack": "back-instruction", "time.continue": "run", "time.over": "over", "time.into": "step", "time.out": "out",
  "time.reset": "reset",
};
/** The id of each item of the file menu, by command. */
const FILE_MENU_IDS = {
  "project.open": "open-button", "project.save": "save-button", "project.saveSession": "save-session-button",
  "project.export": "export-button", "project.print": "print-button", "project.all": "projects-button",
};
/** The commands that a narrow window shows in the menu instead of the toolbar, with the ids of their menu items. */
const NARROW_MENU_IDS = {
  "project.examples": "examples-narrow", "project.share": "share-narrow", "settings.palette": "palette-narrow",
  "go.notices": "notices-narrow", "help.open": "help-narrow", "help.welcome": "welcome-narrow",
};

export class ToolbarView {
  /**
   * @param {Tooltips} tips
   * @param {Theme} theme
   */
  constructor(tips, theme) {
    this.tips = tips;
    /** @type {(command: Command) => void} executes a command; set when the page's commands are created */
    this.executeCommand = () => {};
    this.runLabel = element("span", { className: "word" });
    this.runButtons = Object.entries(RUN_BUTTON_IDS).map(([command, id]) => (
      this.makeButton(commandById(command), { id, tip: say.TOOLTIPS[command] })));
    this.runButton = this.runButtons[1];
    this.runButton.classList.add("primary");
    this.showRunning(false);
    this.noticesButton = this.makeButton(commandById("go.notices"), { id: "notices-button" });
    this.noticesButton.hidden = true;
    this.helpButton = this.makeButton(commandById("help.open"), { id: "help-button" });
    this.helpButton.setAttribute("aria-controls", "help");
    this.helpButton.setAttribute("aria-expanded", "false");
    this.fileMenu = this.makeFileMenu();
    const examplesButton = this.makeButton(commandById("project.examples"), { id: "sessions-button", isWide: true });
    block("session-bar").append(this.fileMenu.node, examplesButton);
    block("steps").append(...this.runButtons);
    const shareButton = this.makeButton(commandById("project.share"), { id: "share-button", isWide: true });
    block("tools").append(this.makePaletteButton(), shareButton, this.noticesButton, this.makeThemeMenu(theme).node, this.helpButton);
  }

  /**
   * Returns a button with an icon. Its accessible name is the command's label. Its tooltip shows the command's first key.
   * @param {Command} command
   * @param {ButtonOptions} options
   */
  makeButton(command, { id, tip, isWide = false }) {
    const { icon: name, label, keys } = command;
    const node = element("button", { id, type: "button", className: "tool" }, ...(name ? [icon(name)] : []));
    if (isWide) node.append(element("span", { className: "word" }, say.SHORT_LABELS[command.id] || label));
    node.setAttribute("aria-label", label);
    if (keys.length > 0) node.setAttribute("aria-keyshortcuts", keys.map((key) => key.replace("Ctrl+", "Control+")).join(" "));
    onClick(node, () => this.executeCommand(command));
    this.tips.add(node, () => ({ text: tip || label, key: keys[0] || "" }));
    return node;
  }

  /**
   * Shows on the run button the action of the next click: continue or pause.
   * @param {boolean} isRunning
   */
  showRunning(isRunning) {
    const label = say.COMMANDS[isRunning ? "time.pause" : "time.continue"];
    this.runLabel.textContent = label;
    this.runButton.replaceChildren(icon(isRunning ? "pause" : "continue"), this.runLabel);
    this.runButton.setAttribute("aria-label", label);
    this.tips.add(this.runButton, () => ({ text: label, key: commandById("time.continue").keys[0] }));
  }

  makePaletteButton() {
    const node = this.makeButton(commandById("settings.palette"), { id: "palette-button" });
    node.append(element("span", { className: "word" }, say.PALETTE), element("kbd", {}, commandById("settings.palette").keys[0]));
    return node;
  }

  /**
   * @param {string} id
   * @param {string} label
   * @param {IconName} name
   */
  makeMenuButton(id, label, name) {
    const node = element("button", { id, type: "button", className: "tool" }, icon(name), element("span", { className: "word" }, label),
      icon("down"));
    node.setAttribute("aria-label", label);
    this.tips.add(node, () => ({ text: label, key: "" }));
    return node;
  }

  /** Returns the file menu. In a narrow window, this menu also has the commands that do not fit into the toolbar. */
  makeFileMenu() {
    /** @type {(command: Command, id: string, isNarrowOnly: boolean) => import("./menu_view.js").MenuItem} */
    const makeItem = (command, id, isNarrowOnly) => ({ id, label: command.label, icon: command.icon, key: command.keys[0], isNarrowOnly,
      act: () => this.executeCommand(command) });
    return new MenuView(this.makeMenuButton("menu-button", say.FILE, "file"), "menu", say.FILE, [
      ...Object.entries(FILE_MENU_IDS).map(([command, id]) => makeItem(commandById(command), id, false)),
      ...Object.entries(NARROW_MENU_IDS).map(([command, id]) => makeItem(commandById(command), id, true)),
    ]);
  }

  /** @param {Theme} theme */
  makeThemeMenu(theme) {
    const themeItems = Object.entries(say.THEMES).map(([name, label]) => ({
      label, act: () => this.executeCommand(commandById(`theme.${name}`)), isChosen: () => theme.name === name,
    }));
    return new MenuView(this.makeMenuButton("theme-button", say.THEME, "theme"), "theme-menu", say.THEME, themeItems);
  }
}
