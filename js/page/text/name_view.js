// The commands for names in a text: go to the definition, find all references, and rename. The command that goes to a line is also here.

import { formatQuantity } from "../../core/bench/numbers.js";
import { element, onClick } from "../ui/dom.js";
import { FieldBar } from "./field_bar.js";
import { findDefinition, findRenamingError, nameAt, findReferences } from "../../core/text/references.js";
import * as say from "../../words/text.js";

/**
 * @typedef {import("./text_editor.js").TextEditor} TextEditor
 * @typedef {import("../../core/text/references.js").Reference} Reference
 */

/** The maximum length of a line in the list of references. */
const MAX_LINE_LENGTH = 60;

export class NameView {
  /**
   * @param {TextEditor} textEditor
   * @param {HTMLElement} parent the element that contains the field for typed names and the list of references
   * @param {{ isInstruction: (word: string) => boolean, showMessage: (message: string) => void }} calls
   */
  constructor(textEditor, parent, calls) {
    this.textEditor = textEditor;
    this.calls = calls;
    this.bar = new FieldBar(parent, () => textEditor.lineEditor.focus());
    this.list = element("ul", { "className": "places", "aria-label": say.PLACES_OF_NAME, "hidden": true });
    parent.append(this.list);
  }

  get lines() {
    return this.textEditor.text.split("\n");
  }

  /** Returns the name at the caret. If there is none, shows a message and returns "". */
  nameAtCaret() {
    const { line, ch } = this.textEditor.lineEditor.getCursor();
    const name = nameAt(this.lines, line, ch);
    if (name === "") this.calls.showMessage(say.NO_NAME);
    return name;
  }

  /** @param {Reference} reference */
  selectReference({ line, from, to }) {
    const { lineEditor } = this.textEditor;
    this.textEditor.goTo({ line: line - 1, ch: from });
    lineEditor.setSelection({ line: line - 1, ch: from }, { line: line - 1, ch: to });
    lineEditor.scrollIntoView({ line: line - 1, ch: to }, 60);
  }

  /** Goes to the definition of the name at the caret. */
  goToDefinition() {
    const name = this.nameAtCaret();
    const definition = name === "" ? null : findDefinition(this.lines, name);
    if (definition) this.selectReference(definition);
  }

  /** Lists all references to the name at the caret. */
  listReferences() {
    const name = this.nameAtCaret();
    if (name === "") return;
    const { lines } = this;
    const references = findReferences(lines, name);
    const closeButton = element("button", { type: "button" }, say.CLOSE);
    onClick(closeButton, () => this.close());
    this.list.replaceChildren(element("li", {}, say.nameIsAt(name, formatQuantity(references.length, "place")), closeButton),
      ...references.map((reference) => this.makeRow(reference, lines[reference.line - 1])));
    this.list.hidden = false;
  }

  /**
   * @param {Reference} reference
   * @param {string} text the line that contains the reference
   */
  makeRow(reference, text) {
    const node = element("button", { type: "button" }, say.lineOfName(reference.line, reference.isDefinition));
    onClick(node, () => this.selectReference(reference));
    return element("li", {}, node, " ", element("code", {}, text.trim().slice(0, MAX_LINE_LENGTH)));
  }

  close() {
    this.list.hidden = true;
    this.textEditor.lineEditor.focus();
  }

  /** Asks the user for a new name, and then renames all references to the name at the caret. */
  askNewName() {
    const name = this.nameAtCaret();
    if (name === "") return;
    const label = say.renameLabel(name);
    this.bar.open({ label, value: name, buttonLabel: say.RENAME, act: (newName) => this.applyRename(name, newName) });
  }

  /**
   * Renames all references to a name. Returns "", or the reason why the new name is rejected.
   * @param {string} name
   * @param {string} newName
   */
  applyRename(name, newName) {
    const { lines, calls, textEditor } = this;
    const error = findRenamingError(lines, name, newName, calls.isInstruction);
    if (error) return error;
    const references = findReferences(lines, name);
    const { lineEditor } = textEditor;
    textEditor.edit([...references].reverse().map(({ line, from, to }) => (
      { from: lineEditor.offset({ line: line - 1, ch: from }), to: lineEditor.offset({ line: line - 1, ch: to }), insert: newName })));
    calls.showMessage(say.renamedMessage(name, newName, formatQuantity(references.length, "place")));
    return "";
  }

  /** Asks the user for a line number and goes to that line. */
  goToLine() {
    const lineCount = this.textEditor.lineEditor.lineCount();
    this.bar.open({
      label: say.lineNumberLabel(lineCount.toLocaleString("en")),
      value: "",
      buttonLabel: say.GO,
      act: (text) => {
        const line = /^\d+$/.test(text) ? Number(text) : 0;
        if (line < 1 || line > lineCount) return say.lineRangeMessage(lineCount.toLocaleString("en"));
        this.textEditor.goTo({ line: line - 1, ch: 0 });
        this.textEditor.reveal(line);
        return "";
      },
    });
  }
}
