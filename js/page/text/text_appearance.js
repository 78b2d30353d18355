// The appearance of the text in the editors: the font size, and whether long lines wrap.

import { block, button, field, onClick } from "../ui/dom.js";

/**
 * @typedef {import("../ui/preferences.js").Preferences} Preferences
 * @typedef {import("./line_editor.js").LineEditor} LineEditor
 */

/** The initial, minimum and maximum font size in pixels. */
const DEFAULT_FONT_SIZE = 13;
const MIN_FONT_SIZE = 9;
const MAX_FONT_SIZE = 28;

export class TextAppearance {
  /**
   * @param {Preferences} preferences
   * @param {LineEditor[]} editors
   */
  constructor(preferences, editors) {
    this.preferences = preferences;
    this.editors = editors;
    onClick(button("text-smaller"), () => this.resize(this.size - 1));
    onClick(button("text-larger"), () => this.resize(this.size + 1));
    const wrapCheckBox = field("text-wrap");
    wrapCheckBox.checked = preferences.get("wrap") === "on";
    wrapCheckBox.addEventListener("change", () => {
      preferences.set("wrap", wrapCheckBox.checked ? "on" : "");
      this.show();
    });
    this.show();
  }

  get size() {
    return Math.min(MAX_FONT_SIZE, Math.max(MIN_FONT_SIZE, Number(this.preferences.get("size")) || DEFAULT_FONT_SIZE));
  }

  /** @param {number} size */
  resize(size) {
    this.preferences.set("size", String(Math.min(MAX_FONT_SIZE, Math.max(MIN_FONT_SIZE, size))));
    this.show();
  }

  show() {
    block("texts").style.setProperty("--text-size", `${this.size}px`);
    const wraps = this.preferences.get("wrap") === "on";
    for (const editor of this.editors) {
      editor.setWrapping(wraps);
      editor.refresh();
    }
  }
}
