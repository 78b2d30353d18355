// The workbench panels. Each panel can be closed, reopened and maximised, with the panel's own buttons or in a menu. The page stores the
// state of the panels.

import { Switch, block, button, makeButton, element, onClick } from "./dom.js";
import * as say from "../../words/workbench.js";

/**
 * @typedef {import("./preferences.js").Preferences} Preferences
 * @typedef {{ id: string, name: string, node: HTMLElement, visibilitySwitch: Switch, checkBox: HTMLInputElement }} Panel
 */

/** The key of the stored preference for the maximised panel. */
const MAXIMISED_KEY = "full";

/**
 * Returns the row at the top of a panel: the panel's row of tabs, or a new row that contains its heading. Returns the panel itself if the
 * panel has neither tabs nor a heading.
 * @param {HTMLElement} panel
 */
function ensureHeader(panel) {
  const head = panel.querySelector(".tab-row, h2") || panel;
  if (!head.matches("h2")) return head;
  const row = element("div", { className: "panel-head" });
  head.replaceWith(row);
  row.append(head);
  return row;
}

export class Panels {
  /**
   * @param {Preferences} preferences
   * @param {() => void} reset restores the splitters, folds and tabs of the layout
   */
  constructor(preferences, reset) {
    this.preferences = preferences;
    this.resetOtherParts = reset;
    this.menu = block("view-menu");
    this.viewButton = button("view-button");
    this.menuSwitch = new Switch((isOpen) => {
      this.menu.hidden = !isOpen;
      this.viewButton.setAttribute("aria-expanded", String(isOpen));
    });
    this.panels = Object.entries(say.PANELS).map(([id, name]) => this.makePanel(id, name));
    /** The id of the maximised panel, or "" if there is none. */
    this.maximisedId = "";
    this.menu.append(element("ul", {}, ...this.panels.map((panel) => this.makeMenuItem(panel))),
      makeButton(say.RESET_LAYOUT, () => this.reset()));
    this.addListeners();
    this.setMaximised(preferences.get(MAXIMISED_KEY));
    this.updateColumns();
  }

  /**
   * @param {string} id
   * @param {string} name
   * @returns {Panel}
   */
  makePanel(id, name) {
    const node = block(id);
    const checkBox = element("input", { type: "checkbox", autocomplete: "off" });
    const visibilitySwitch = new Switch((isOn) => node.classList.toggle("closed", !isOn));
    visibilitySwitch.set(this.preferences.get(`panel.${id}`) !== "closed");
    checkBox.checked = visibilitySwitch.isOn;
    checkBox.addEventListener("change", () => this.open(id, checkBox.checked));
    const [maximiseTitle, closeTitle] = [say.fullSizeLabel(name), say.closeLabel(name)];
    const tools = element("span", { className: "panel-tools" },
      makeButton("\u25A1", () => this.toggleMaximised(id), { "title": maximiseTitle, "aria-label": maximiseTitle, "tabIndex": -1 }),
      makeButton("\u00D7", () => this.open(id, false), { "title": closeTitle, "aria-label": closeTitle, "tabIndex": -1 }));
    ensureHeader(node).append(tools);
    return { id, name, node, visibilitySwitch, checkBox };
  }

  /** @param {Panel} panel */
  makeMenuItem({ id, name, checkBox }) {
    const maximiseButton = makeButton(say.FULL_SIZE, () => {
      this.menuSwitch.set(false);
      this.open(id, true);
      this.setMaximised(id);
    }, { "aria-label": say.fullSizeLabel(name) });
    return element("li", {}, element("label", { className: "check" }, checkBox, ` ${name}`), maximiseButton);
  }

  addListeners() {
    onClick(this.viewButton, () => this.menuSwitch.set(!this.menuSwitch.isOn));
    document.addEventListener("pointerdown", ({ target }) => {
      if (target instanceof Node && !this.menu.contains(target) && !this.viewButton.contains(target)) this.menuSwitch.set(false);
    });
    for (const node of [this.menu, this.viewButton]) {
      node.addEventListener("keydown", (event) => {
        if (event.key !== "Escape" || !this.menuSwitch.isOn) return;
        event.stopPropagation();
        this.menuSwitch.set(false);
        this.viewButton.focus();
      });
    }
  }

  /** @param {string} id */
  find(id) {
    return this.panels.find((panel) => panel.id === id);
  }

  /**
   * @param {string} id
   * @param {boolean} isOpen
   */
  open(id, isOpen) {
    const panel = this.find(id);
    if (!panel) return;
    if (!isOpen && this.maximisedId === id) this.setMaximised("");
    panel.visibilitySwitch.set(isOpen);
    panel.checkBox.checked = isOpen;
    this.preferences.set(`panel.${id}`, isOpen ? "" : "closed");
    this.updateColumns();
  }

  /** @param {string} id */
  toggle(id) {
    const panel = this.find(id);
    if (panel) this.open(id, !panel.visibilitySwitch.isOn);
  }

  /** Hides the columns that have no open panels, so that the other columns use their space. */
  updateColumns() {
    const side = block("side");
    const { classList } = document.body;
    classList.toggle("no-front", !this.panels.some(({ id, visibilitySwitch }) => id === "front" && visibilitySwitch.isOn));
    classList.toggle("no-side", !this.panels.some(({ node, visibilitySwitch }) => side.contains(node) && visibilitySwitch.isOn));
  }

  /** @param {string} id */
  toggleMaximised(id) {
    this.setMaximised(this.maximisedId === id ? "" : id);
  }

  /**
   * Maximises a panel to the size of the window, above all other panels.
   * @param {string} id the panel's id; "" restores the size of the maximised panel
   */
  setMaximised(id) {
    this.maximisedId = this.find(id) ? id : "";
    this.preferences.set(MAXIMISED_KEY, this.maximisedId);
    for (const panel of this.panels) panel.node.classList.toggle("full", panel.id === this.maximisedId);
    document.body.classList.toggle("has-full", this.maximisedId !== "");
  }

  /** Restores the initial layout. */
  reset() {
    this.menuSwitch.set(false);
    this.setMaximised("");
    for (const { id } of this.panels) this.open(id, true);
    this.resetOtherParts();
  }
}
