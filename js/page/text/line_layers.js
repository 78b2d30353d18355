// Layers of an editor: marks in the gutters, line styles, underlined ranges, and text after lines. Their ranges move with the text when the
// user edits it. New ranges in a layer replace its previous ranges.

import { RangeSet, StateEffect, StateField } from "@codemirror/state";
import { Decoration, EditorView, GutterMarker, WidgetType, gutter, gutterLineClass } from "@codemirror/view";
import { element } from "../ui/dom.js";
import * as say from "../../words/text.js";

/**
 * @typedef {import("@codemirror/state").Extension} Extension
 * @typedef {import("@codemirror/state").Transaction} Transaction
 * @typedef {RangeSet<any>} Ranges
 * @typedef {{ state: import("@codemirror/state").EditorState,
 *   dispatch: (spec: import("@codemirror/state").TransactionSpec) => void }} Target an editor, with or without a view
 *
 * A mark in a gutter: its line (counted from 0), its text, and its description.
 * @typedef {{ line: number, text: string, description: string }} GutterMark
 */

/** A gutter marker that shows text. */
class TextMark extends GutterMarker {
  /**
   * @param {string} name the name of the gutter
   * @param {string} text
   * @param {string} description
   */
  constructor(name, text, description) {
    super();
    this.mark = { textContent: text, title: description, className: `mark-${name}` };
  }

  /** @param {TextMark} other */
  eq({ mark }) {
    return mark.textContent === this.mark.textContent && mark.title === this.mark.title;
  }

  toDOM() {
    return element("span", this.mark);
  }
}

/** A CSS class for the gutters of a line. */
class GutterStyle extends GutterMarker {
  /** @param {string} name */
  constructor(name) {
    super();
    this.elementClass = name;
  }
}

/** Text that is shown after a line. */
class TextAfterLine extends WidgetType {
  /**
   * @param {string} text
   * @param {string} className
   */
  constructor(text, className) {
    super();
    this.text = text;
    this.className = className;
  }

  /** @param {TextAfterLine} other */
  eq({ text, className }) {
    return text === this.text && className === this.className;
  }

  toDOM() {
    return element("span", { className: this.className, title: say.CHANGES_BY_LINE }, this.text);
  }
}

/** An HTML element below a line. */
class ElementBelow extends WidgetType {
  /** @param {HTMLElement} node */
  constructor(node) {
    super();
    this.node = node;
  }

  /** @param {ElementBelow} other */
  eq({ node }) {
    return node === this.node;
  }

  // The element handles its key and pointer events itself.
  ignoreEvent() {
    return true;
  }

  toDOM() {
    return this.node;
  }
}

/** A set of ranges of the editor's text. */
export class Layer {
  /**
   * @param {(field: StateField<Ranges>) => Extension} provide returns the extension through which the editor shows the ranges
   * @param {(ranges: Ranges, edit: Transaction) => Ranges} [move] returns the ranges after an edit
   */
  constructor(provide, move = (ranges, { changes }) => ranges.map(changes)) {
    /** @type {import("@codemirror/state").StateEffectType<Ranges>} */
    this.replaceEffect = StateEffect.define();
    /** @type {StateField<Ranges>} */
    this.field = StateField.define({
      create: () => RangeSet.empty,
      update: (ranges, transaction) => {
        const replacement = transaction.effects.find((effect) => effect.is(this.replaceEffect));
        return replacement ? replacement.value : move(ranges, transaction);
      },
      provide,
    });
  }

  /**
   * @param {Target} editor
   * @param {import("@codemirror/state").Range<any>[]} ranges the new ranges, which replace the previous ranges
   */
  show(editor, ranges) {
    const oldRanges = editor.state.field(this.field);
    const newRanges = RangeSet.of(ranges, true);
    if (!RangeSet.eq([oldRanges], [newRanges])) editor.dispatch({ effects: this.replaceEffect.of(newRanges) });
  }
}

/** Returns a layer for decorations of the text. */
export function makeTextLayer() {
  return new Layer((field) => EditorView.decorations.from(field));
}

/** Returns a layer for elements below lines. An element stays below its line when the user starts a new line at the end of that line. */
export function makeElementLayer() {
  return new Layer((field) => EditorView.decorations.from(field), (ranges, { changes, docChanged, newDoc, startState: { doc } }) => {
    if (!docChanged) return ranges;
    const movedRanges = [];
    for (const cursor = ranges.iter(); cursor.value; cursor.next()) {
      movedRanges.push(cursor.value.range(newDoc.lineAt(changes.mapPos(doc.lineAt(cursor.from).from, 1)).to));
    }
    return RangeSet.of(movedRanges);
  });
}

/** @param {HTMLElement} node */
export function makeElementBelow(node) {
  return Decoration.widget({ widget: new ElementBelow(node), block: true, side: 1 });
}

/** Returns a layer for styles of the gutters. */
export function makeGutterLayer() {
  return new Layer((field) => gutterLineClass.from(field));
}

/** Returns a layer for the marks of one gutter. `makeLayerGutter` returns the gutter that shows these marks. */
export function makeMarkLayer() {
  return new Layer(() => []);
}

/**
 * Returns a gutter that shows a layer's marks.
 * @param {string} name
 * @param {Layer} layer
 * @param {Parameters<typeof gutter>[0]} options
 */
export function makeLayerGutter(name, layer, options) {
  return gutter({ class: name, markers: ({ state }) => state.field(layer.field), ...options });
}

/**
 * @param {string} name the name of the gutter
 * @param {GutterMark} mark
 */
export function makeTextMark(name, { text, description }) {
  return new TextMark(name, text, description);
}

/** @type {Map<string, { line: Decoration, gutters: GutterMarker }>} the line styles, by name */
const lineStyles = new Map();

/**
 * Returns the style of lines that have a CSS class. The CSS class of the gutters of these lines is `at-` and the name.
 * @param {string} name the CSS class
 */
export function findLineStyle(name) {
  const style = lineStyles.get(name) || { line: Decoration.line({ class: name }), gutters: new GutterStyle(`at-${name}`) };
  lineStyles.set(name, style);
  return style;
}

/**
 * @param {string} text
 * @param {string} className
 */
export function makeTextAfterLine(text, className) {
  return Decoration.widget({ widget: new TextAfterLine(text, className), side: 1 });
}

/**
 * @param {string} className
 * @param {string} title
 */
export function makeUnderlineMark(className, title) {
  return Decoration.mark({ class: className, attributes: { title } });
}
