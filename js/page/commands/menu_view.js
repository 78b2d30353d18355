// Menus that follow the ARIA menu pattern and open below a button or at a point. Arrow keys move between items; Escape closes the menu.

import { element } from "../ui/dom.js";
import { icon } from "../ui/icons.js";
import { placeBelow } from "../ui/popup_message.js";

/**
 * A menu item: its id, label, icon, key binding and action. For an item in a set of alternatives, `isChosen` returns true if the item is
 * the current alternative. An item with `isNarrowOnly` appears only in a narrow window; a wide window has a toolbar button instead.
 * @typedef {{ id?: string, label: string, icon?: import("../ui/icons.js").IconName, key?: string, act: () => void,
 *   isChosen?: () => boolean, isNarrowOnly?: boolean }} MenuItem
 */

/** The items of a menu. */
class MenuList {
  /**
   * @param {string} id
   * @param {string} label the name of the menu
   * @param {() => void} close closes the menu after a choice or on Escape
   */
  constructor(id, label, close) {
    this.close = close;
    this.node = element("ul", { id, "role": "menu", "aria-label": label, "hidden": true });
    /** @type {MenuItem[]} */
    this.items = [];
    /** @type {HTMLButtonElement[]} */
    this.buttons = [];
  }

  /** @param {MenuItem[]} items */
  fill(items) {
    this.items = items;
    this.buttons = items.map((item) => this.makeItem(item));
    this.node.replaceChildren(...this.buttons.map((button, index) => (
      element("li", { role: "none", className: items[index].isNarrowOnly ? "narrow" : "" }, button))));
  }

  /** @param {MenuItem} item */
  makeItem({ id, label, icon: name, key, act: action, isChosen }) {
    const button = element("button", { "type": "button", "role": isChosen ? "menuitemradio" : "menuitem", "tabIndex": -1 },
      ...(name ? [icon(name)] : []), element("span", { className: "grow" }, label),
      ...(key ? [element("kbd", { "aria-hidden": "true" }, key)] : []));
    if (id) button.id = id;
    button.addEventListener("click", () => {
      this.close();
      action();
    });
    return button;
  }

  get isOpen() {
    return !this.node.hidden;
  }

  /** @param {boolean} isOpen */
  show(isOpen) {
    this.node.hidden = !isOpen;
    if (!isOpen) return;
    this.buttons.forEach((button, index) => {
      const { isChosen } = this.items[index];
      if (isChosen) button.setAttribute("aria-checked", String(isChosen()));
    });
  }

  /** The buttons that are visible at the window's current width. */
  get visibleButtons() {
    return this.buttons.filter((button) => button.offsetParent !== null);
  }

  /** @param {number} index the index among the visible buttons, or -1 to focus the last one */
  focus(index) {
    const { visibleButtons } = this;
    visibleButtons[(index + visibleButtons.length) % visibleButtons.length].focus();
  }

  /** @param {KeyboardEvent} event */
  handleKey(event) {
    const index = this.visibleButtons.findIndex((button) => button === document.activeElement);
    /** @type {Record<string, () => void>} */
    const actions = {
      ArrowDown: () => this.focus(index + 1),
      ArrowUp: () => this.focus(index < 0 ? -1 : index - 1),
      Home: () => this.focus(0),
      End: () => this.focus(-1),
      Escape: this.close,
    };
    const action = actions[event.key];
    if (!action) return;
    event.preventDefault();
    event.stopPropagation();
    action();
  }
}

/**
 * Calls `onLeave` when the user clicks outside a menu or moves the focus out of it.
 * @param {HTMLElement} node
 * @param {() => void} onLeave
 */
function listenForLeaving(node, onLeave) {
  addEventListener("pointerdown", ({ target }) => target instanceof Node && !node.contains(target) && onLeave(), true);
  node.addEventListener("focusout", ({ relatedTarget }) => {
    if (relatedTarget instanceof Node && !node.contains(relatedTarget)) onLeave();
  });
}

/** A button with a menu below it. */
export class MenuView {
  /**
   * @param {HTMLButtonElement} button
   * @param {string} id the id of the menu
   * @param {string} label the name of the menu
   * @param {MenuItem[]} items
   */
  constructor(button, id, label, items) {
    this.button = button;
    this.menu = new MenuList(id, label, () => {
      // When the menu closes, the focus returns to the button.
      if (this.node.contains(document.activeElement)) this.button.focus();
      this.show(false);
    });
    this.menu.fill(items);
    this.node = element("div", { className: "menu-place" }, button, this.menu.node);
    button.setAttribute("aria-haspopup", "menu");
    button.setAttribute("aria-controls", id);
    this.show(false);
    button.addEventListener("click", (event) => this.toggle(event.detail === 0));
    this.node.addEventListener("keydown", (event) => this.handleKey(event));
    listenForLeaving(this.node, () => this.show(false));
  }

  /** @param {boolean} isOpen */
  show(isOpen) {
    this.menu.show(isOpen);
    this.button.setAttribute("aria-expanded", String(isOpen));
  }

  /** @param {boolean} isByKeyboard */
  toggle(isByKeyboard) {
    this.show(!this.menu.isOpen);
    if (this.menu.isOpen && isByKeyboard) this.menu.focus(0);
  }

  /** @param {KeyboardEvent} event */
  handleKey(event) {
    if (this.menu.isOpen) {
      this.menu.handleKey(event);
      return;
    }
    if (event.key !== "ArrowDown" && event.key !== "ArrowUp") return;
    event.preventDefault();
    event.stopPropagation();
    this.toggle(true);
  }
}

/** A context menu. It opens at a point in the window, for example at the pointer. */
export class ContextMenu {
  /**
   * @param {string} id
   * @param {string} label the name of the menu
   */
  constructor(id, label) {
    this.menu = new MenuList(id, label, () => this.close());
    const { node } = this.menu;
    document.body.append(node);
    /** @type {Element | null} the element that had the focus before the menu opened */
    this.priorFocus = null;
    node.addEventListener("keydown", (event) => this.menu.handleKey(event));
    listenForLeaving(node, () => this.menu.show(false));
  }

  /**
   * @param {MenuItem[]} items
   * @param {{ left: number, bottom: number }} point
   */
  open(items, { left, bottom }) {
    this.priorFocus = document.activeElement;
    this.menu.fill(items);
    this.menu.show(true);
    const { node } = this.menu;
    placeBelow(node, { left, bottom: Math.max(0, Math.min(bottom, innerHeight - node.offsetHeight)) }, 0);
    this.menu.focus(0);
  }

  /** Closes the menu and returns the focus to the element that had the focus before the menu opened. */
  close() {
    if (this.priorFocus instanceof HTMLElement) this.priorFocus.focus();
    this.menu.show(false);
  }
}
