// The help: the manual's tables, with a search.

import { Cell, block, button, findDescendant, element, field, onClick } from "../ui/dom.js";
import { splitCell, searchManual } from "../../core/help/manual.js";
import * as say from "../../words/help.js";

/**
 * @typedef {import("../../core/help/manual.js").ManualSection} ManualSection
 * @typedef {import("../../core/help/manual.js").ManualTable} ManualTable
 */

/** @param {string} cell */
function makeTextNodes(cell) {
  return splitCell(cell).map(({ text, isCode }) => (isCode ? element("code", {}, text) : text));
}

/**
 * @param {ManualTable} table
 * @param {string} title the title of the table's section
 */
function makeTable({ caption, head, rows }, title) {
  const headCells = head.map((cell) => element("th", { scope: "col" }, ...makeTextNodes(cell)));
  const body = rows.map((row) => element("tr", {}, ...row.map((cell) => element("td", {}, ...makeTextNodes(cell)))));
  return element("table", { "aria-label": caption || title }, ...(caption ? [element("caption", {}, caption)] : []),
    element("thead", {}, element("tr", {}, ...headCells)), element("tbody", {}, ...body));
}

export class HelpView {
  /** @param {ManualSection[]} manual */
  constructor(manual) {
    this.manual = manual;
    this.root = block("help");
    this.helpButton = button("help-button");
    this.search = field("help-search");
    this.sections = findDescendant(this.root, "#help-sections", HTMLElement);
    this.status = new Cell(findDescendant(this.root, "#help-status", HTMLElement));
    /** @type {string | null} the query whose matching sections are drawn; null before the first drawing */
    this.drawnQuery = null;
    this.isOpen = false;
    onClick(button("help-close"), () => this.close());
    this.search.addEventListener("input", () => this.draw());
    this.root.addEventListener("keydown", (event) => {
      if (event.key !== "Escape") return;
      event.stopPropagation();
      this.close();
    });
  }

  /**
   * Shows the help.
   * @param {string} [query] the new query; if it is missing, the last query stays
   */
  open(query) {
    if (query !== undefined) this.search.value = query;
    this.draw();
    this.isOpen = true;
    this.root.hidden = false;
    this.helpButton.setAttribute("aria-expanded", "true");
    this.search.focus();
  }

  /** @param {string} query the initial query, or "" to keep the last query */
  toggle(query) {
    if (this.isOpen) this.close();
    else this.open(query || undefined);
  }

  close() {
    this.isOpen = false;
    this.root.hidden = true;
    this.helpButton.setAttribute("aria-expanded", "false");
    // On a phone, the help button is in a menu, which is closed. Then focus the menu button instead.
    (this.helpButton.offsetParent ? this.helpButton : button("menu-button")).focus();
  }

  /** Draws the sections that match the query. Without a query, all sections are folded. */
  draw() {
    const query = this.search.value.trim();
    if (query === this.drawnQuery) return;
    this.drawnQuery = query;
    const sections = searchManual(this.manual, query);
    this.sections.replaceChildren(...sections.map(({ title, tables }) => (
      element("details", { open: query !== "" }, element("summary", {}, title), ...tables.map((table) => makeTable(table, title))))));
    const rowCount = sections.reduce((sum, { tables }) => sum + tables.reduce((rows, table) => rows + table.rows.length, 0), 0);
    this.status.set(query === "" ? "" : say.rowsFound(rowCount));
  }
}
