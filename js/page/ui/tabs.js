// Tabs that follow the ARIA tabs pattern. The tab row is a single tab stop; arrow keys, Home and End move to another tab and show it.

import { block, button, onClick } from "./dom.js";

/** @typedef {{ name: string, tab: HTMLButtonElement, panel: HTMLElement, mark: HTMLElement, listeners: (() => void)[] }} TabEntry */

export class Tabs {
  /**
   * Sets up the tabs. The tab NAME is the element with the id `NAME-tab`. Its `aria-controls` attribute is the id of its panel.
   * @param {string[]} names
   * @param {string} initialName the name of the tab that is initially in front
   * @param {(name: string) => void} onChoice called after the user has chosen a tab
   */
  constructor(names, initialName, onChoice) {
    this.onChoice = onChoice;
    this.tabs = names.map((name) => this.makeTab(name));
    this.frontTab = this.tabs[0];
    this.show(initialName);
  }

  /**
   * @param {string} name
   * @returns {TabEntry}
   */
  makeTab(name) {
    const tab = button(`${name}-tab`);
    const mark = document.createElement("span");
    mark.className = "mark";
    tab.append(mark);
    onClick(tab, () => this.choose(name));
    tab.addEventListener("keydown", (event) => this.handleKey(event));
    return { name, tab, panel: block(tab.getAttribute("aria-controls") || ""), mark, listeners: [] };
  }

  /** @param {string} name */
  find(name) {
    const entry = this.tabs.find((candidate) => candidate.name === name);
    if (!entry) throw new Error(`there is no tab ${name}`);
    return entry;
  }

  /** The name of the tab in front. */
  get shownName() {
    return this.frontTab.name;
  }

  /** @param {string} name */
  choose(name) {
    this.show(name);
    this.onChoice(name);
  }

  /**
   * Brings a tab to the front. If it does not exist, brings the first tab to the front instead.
   * @param {string} name
   */
  show(name) {
    this.frontTab = this.tabs.find((entry) => entry.name === name) || this.tabs[0];
    for (const entry of this.tabs) {
      const isFront = entry === this.frontTab;
      entry.tab.setAttribute("aria-selected", String(isFront));
      entry.tab.tabIndex = isFront ? 0 : -1;
      entry.panel.hidden = !isFront;
    }
    for (const listener of this.frontTab.listeners) listener();
  }

  /**
   * @param {string} name
   * @param {() => void} listener called each time the tab has been brought to the front, when the size of its contents can be measured
   */
  onShown(name, listener) {
    this.find(name).listeners.push(listener);
  }

  /**
   * Sets the short text that a tab shows about its contents; "" removes the text.
   * @param {string} name
   * @param {string} label
   * @param {boolean} isSuccess true if the text reports a success
   */
  setMark(name, label, isSuccess = false) {
    const { mark } = this.find(name);
    if (mark.textContent !== label) mark.textContent = label;
    mark.classList.toggle("good", isSuccess);
  }

  /** @param {KeyboardEvent} event */
  handleKey(event) {
    const index = this.tabs.indexOf(this.frontTab);
    /** @type {Record<string, number>} */
    const targetIndices = { ArrowRight: index + 1, ArrowLeft: index - 1, Home: 0, End: -1 };
    if (!(event.key in targetIndices) || event.ctrlKey || event.altKey || event.metaKey) return;
    event.preventDefault();
    this.choose(this.tabs[(targetIndices[event.key] + this.tabs.length) % this.tabs.length].name);
    this.frontTab.tab.focus();
  }
}
