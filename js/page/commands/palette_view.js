// The command palette: a field that filters commands or destinations, and the list of matches. It follows the ARIA pattern of a combobox
// with a listbox: the field keeps the focus, arrow keys choose an entry, and Enter executes it.

import { element } from "../ui/dom.js";
import { icon } from "../ui/icons.js";
import { searchEntries, splitQuery } from "./palette_search.js";
import * as say from "../../words/page_commands.js";

/**
 * @typedef {import("./palette_search.js").Entry} Entry
 *
 * `commands` returns an entry for each command, `destinations` an entry for each destination, including a destination made for the query.
 * @typedef {{ commands: () => Entry[], destinations: (query: string) => Entry[] }} EntryProviders
 */

/** The first character of a query that searches commands. A query without this character searches destinations. */
export const COMMAND_PREFIX = ">";
/** The maximum number of entries that are drawn. */
const MAX_DRAWN_ENTRIES = 500;
/** The number of entries in a step of Page Up or Page Down. */
const PAGE_STEP = 8;

export class PaletteView {
  /** @param {EntryProviders} providers */
  constructor(providers) {
    this.providers = providers;
    /** @type {Entry[]} */
    this.entries = [];
    this.selectedIndex = 0;
    this.field = element("input", { "type": "text", "role": "combobox", "aria-expanded": "true", "aria-controls": "palette-list",
      "aria-autocomplete": "list", "autocomplete": "off", "autocapitalize": "off", "spellcheck": false });
    this.list = element("ul", { id: "palette-list", role: "listbox" });
    this.countStatus = element("p", { className: "unseen", role: "status" });
    this.dialog = element("dialog", { id: "palette" }, element("label", {}, icon("search"), this.field), this.countStatus, this.list);
    document.body.append(this.dialog);
    this.field.addEventListener("input", () => this.draw());
    this.field.addEventListener("keydown", (event) => this.handleKey(event));
    this.list.addEventListener("click", (event) => this.handleClick(event));
    // A click on an entry leaves the focus in the field.
    this.list.addEventListener("pointerdown", (event) => event.preventDefault());
    // A click outside the palette closes it.
    this.dialog.addEventListener("click", (event) => event.target === this.dialog && this.dialog.close());
  }

  /** @param {string} initialText the initial text of the field */
  open(initialText) {
    if (this.dialog.open) return;
    this.field.value = initialText;
    this.draw();
    this.dialog.showModal();
    this.field.focus();
    // WebKit puts the caret before text that a script has written.
    this.field.setSelectionRange(initialText.length, initialText.length);
  }

  /** True if the query begins with COMMAND_PREFIX and therefore searches commands; false if it searches destinations. */
  get searchesCommands() {
    return this.field.value.startsWith(COMMAND_PREFIX);
  }

  draw() {
    const { searchesCommands, field } = this;
    const query = searchesCommands ? field.value.slice(COMMAND_PREFIX.length) : field.value;
    const title = searchesCommands ? say.PALETTE : say.GO_TO;
    this.dialog.setAttribute("aria-label", title);
    this.list.setAttribute("aria-label", title);
    field.setAttribute("aria-label", searchesCommands ? say.TYPE_COMMAND : say.TYPE_DESTINATION);
    field.placeholder = searchesCommands ? say.TYPE_COMMAND : say.TYPE_DESTINATION;
    const allEntries = searchesCommands ? this.providers.commands() : this.providers.destinations(query.trim());
    this.entries = searchEntries(allEntries, query).slice(0, MAX_DRAWN_ENTRIES);
    this.list.replaceChildren(...this.entries.map((entry, index) => this.makeOption(entry, index)));
    const { length } = this.entries;
    const noMatchText = splitQuery(query).length > 0 && length === 0 ? say.noMatchMessage(query.trim()) : "";
    this.countStatus.textContent = noMatchText || (searchesCommands ? say.commandCountText(length) : say.destinationCountText(length));
    if (noMatchText) this.list.append(element("li", { "role": "option", "aria-disabled": "true" }, noMatchText));
    this.choose(0);
  }

  /**
   * @param {Entry} entry
   * @param {number} index
   */
  makeOption({ label, hint, disabledReason, keys, icon: name }, index) {
    const option = element("li", { "id": `palette-${index}`, "role": "option", "aria-selected": "false" });
    if (disabledReason) option.setAttribute("aria-disabled", "true");
    // An empty icon aligns the label with the labels of other commands.
    const iconSpace = this.searchesCommands ? [element("span", { className: "icon" })] : [];
    option.append(...(name ? [icon(name)] : iconSpace), element("span", { className: "grow" }, label),
      element("small", {}, disabledReason || hint), ...keys.slice(0, 1).map((key) => element("kbd", {}, key)));
    return option;
  }

  /** Lists the destinations again, and keeps the selected index. */
  refresh() {
    if (!this.dialog.open || this.searchesCommands) return;
    const { selectedIndex } = this;
    this.draw();
    this.choose(selectedIndex);
  }

  /** @param {number} index the index of the entry that Enter executes */
  choose(index) {
    const options = this.list.children;
    if (options[this.selectedIndex]) options[this.selectedIndex].setAttribute("aria-selected", "false");
    this.selectedIndex = Math.max(0, Math.min(index, this.entries.length - 1));
    const option = options[this.selectedIndex];
    if (this.entries.length === 0 || !option) {
      this.field.removeAttribute("aria-activedescendant");
      return;
    }
    option.setAttribute("aria-selected", "true");
    this.field.setAttribute("aria-activedescendant", option.id);
    option.scrollIntoView({ block: "nearest" });
  }

  /** @param {KeyboardEvent} event */
  handleKey(event) {
    if (event.isComposing) return;
    const lastIndex = this.entries.length - 1;
    /** @type {Record<string, () => void>} */
    const actions = {
      ArrowDown: () => this.choose(this.selectedIndex === lastIndex ? 0 : this.selectedIndex + 1),
      ArrowUp: () => this.choose(this.selectedIndex === 0 ? lastIndex : this.selectedIndex - 1),
      PageDown: () => this.choose(this.selectedIndex + PAGE_STEP),
      PageUp: () => this.choose(this.selectedIndex - PAGE_STEP),
      Enter: () => this.executeEntry(this.selectedIndex),
    };
    const action = actions[event.key];
    if (!action) return;
    event.preventDefault();
    action();
  }

  /** @param {MouseEvent} event */
  handleClick(event) {
    const index = [...this.list.children].findIndex((option) => event.target instanceof Node && option.contains(event.target));
    if (index >= 0) this.executeEntry(index);
  }

  /**
   * Closes the palette and executes an entry. For a disabled entry, the palette stays open and shows the reason.
   * @param {number} index
   */
  executeEntry(index) {
    const entry = this.entries[index];
    if (!entry) return;
    if (entry.disabledReason) {
      this.choose(index);
      this.countStatus.textContent = `${entry.label}: ${entry.disabledReason}`;
      return;
    }
    this.dialog.close();
    entry.act();
  }
}
