// The regions of a narrow window. A phone shows one region of the workbench at a time, and has tabs at the bottom to choose a region. A
// window that is too narrow for three columns shows the debugger's panels in a drawer.

import { Switch, block, button, onClick, makePressedSwitch } from "./dom.js";

/**
 * @typedef {import("./preferences.js").Preferences} Preferences
 * @typedef {"board" | "source" | "debug" | "more"} RegionName
 */

/** @type {RegionName[]} */
const REGIONS = ["board", "source", "debug", "more"];
const REGION_KEY = "region";

export class Regions {
  /** @param {Preferences} preferences */
  constructor(preferences) {
    this.preferences = preferences;
    this.marks = REGIONS.map((name) => {
      onClick(button(`region-${name}`), () => this.show(name));
      return { name, buttonSwitch: makePressedSwitch(button(`region-${name}`)) };
    });
    this.drawerSwitch = new Switch((isOpen) => {
      button("drawer-button").setAttribute("aria-expanded", String(isOpen));
      document.body.classList.toggle("drawer-open", isOpen);
    });
    onClick(button("drawer-button"), () => this.drawerSwitch.set(!this.drawerSwitch.isOn));
    block("side").addEventListener("keydown", (event) => {
      if (event.key !== "Escape" || !this.drawerSwitch.isOn || event.defaultPrevented) return;
      this.drawerSwitch.set(false);
      button("drawer-button").focus();
    });
    this.draw(REGIONS.find((name) => name === preferences.get(REGION_KEY)) || "board");
  }

  /** @param {RegionName} name */
  show(name) {
    this.preferences.set(REGION_KEY, name);
    this.draw(name);
  }

  /** @param {RegionName} name */
  draw(name) {
    for (const mark of this.marks) {
      mark.buttonSwitch.set(mark.name === name);
      document.body.classList.toggle(`region-${mark.name}`, mark.name === name);
    }
  }

  /**
   * Brings the region that contains a panel into view. A wide window always shows all regions.
   * @param {HTMLElement} panel
   */
  reveal(panel) {
    if (block("side").contains(panel)) {
      this.show("debug");
      this.drawerSwitch.set(true);
    } else if (block("dock").contains(panel)) this.show("more");
    else this.show(block("texts").contains(panel) ? "source" : "board");
  }
}
