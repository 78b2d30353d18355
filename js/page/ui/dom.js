// Helpers for the views: find and create elements, and update elements only when something has changed.

/**
 * Returns the element with an id. Throws an error if the page has no element with this id and the class `kind`.
 * @template {HTMLElement} Kind
 * @param {string} id
 * @param {new () => Kind} kind
 * @returns {Kind}
 */
export function byId(id, kind) {
  const node = document.getElementById(id);
  if (!(node instanceof kind)) throw new Error(`the page has no ${kind.name} ${id}`);
  return node;
}

/**
 * Returns the HTML element with an id.
 * @param {string} id
 */
export const block = (id) => byId(id, HTMLElement);
/**
 * Returns the button with an id.
 * @param {string} id
 */
export const button = (id) => byId(id, HTMLButtonElement);
/**
 * Returns the input field with an id.
 * @param {string} id
 */
export const field = (id) => byId(id, HTMLInputElement);

/**
 * Returns the first descendant that matches a selector. Throws an error if there is none, or if it is not of the class `kind`.
 * @template {HTMLElement} Kind
 * @param {HTMLElement} root
 * @param {string} selector
 * @param {new () => Kind} kind
 * @returns {Kind}
 */
export function findDescendant(root, selector, kind) {
  const node = root.querySelector(selector);
  if (!(node instanceof kind)) throw new Error(`${root.id} has no ${selector}`);
  return node;
}

/**
 * Creates an element. Each entry of `properties` becomes a property if the element has such a property, otherwise an attribute.
 * @template {keyof HTMLElementTagNameMap} Name
 * @param {Name} name
 * @param {Record<string, unknown>} [properties]
 * @param {(Node | string)[]} children
 * @returns {HTMLElementTagNameMap[Name]}
 */
export function element(name, properties = {}, ...children) {
  const node = document.createElement(name);
  for (const [key, value] of Object.entries(properties)) {
    if (key in node) Object.assign(node, { [key]: value });
    else node.setAttribute(key, String(value));
  }
  node.append(...children);
  return node;
}

/**
 * The text of an element. The page is updated only if the text differs, so setting the same text costs nothing. The text node is never
 * replaced, because WebKit loses a click if the pressed text node is removed before the release.
 */
export class Cell {
  /** @param {HTMLElement} node */
  constructor(node) {
    this.node = node;
    this.text = "";
    this.textNode = document.createTextNode("");
    node.replaceChildren(this.textNode);
  }

  /**
   * Sets the text. Returns true if the text has changed.
   * @param {string} text
   */
  set(text) {
    if (this.text === text) return false;
    this.text = text;
    this.textNode.data = text;
    return true;
  }
}

/**
 * A state of an element that is on or off, for example a class or an attribute. The constructor calls `show` with false. After that, `show`
 * is called only when the state changes.
 */
export class Switch {
  /** @param {(isOn: boolean) => void} show */
  constructor(show) {
    this.show = show;
    this.isOn = false;
    show(false);
  }

  /** @param {boolean} isOn */
  set(isOn) {
    if (this.isOn === isOn) return;
    this.isOn = isOn;
    this.show(isOn);
  }
}

/**
 * Returns a switch for the `aria-pressed` attribute of a button, which screen readers announce.
 * @param {HTMLElement} node
 */
export function makePressedSwitch(node) {
  return new Switch((isOn) => node.setAttribute("aria-pressed", String(isOn)));
}

/**
 * Calls `action` on each click. After a mouse click, removes the focus from the button, so that Enter and the space bar press the board's
 * keys again.
 * @param {HTMLElement} node
 * @param {() => void} action
 */
export function onClick(node, action) {
  node.addEventListener("click", (event) => {
    if (event.detail > 0) node.blur();
    action();
  });
}

/**
 * Returns a button that shows `text` and executes `action`.
 * @param {string} text
 * @param {() => void} action
 * @param {Record<string, unknown>} [properties]
 */
export function makeButton(text, action, properties = {}) {
  const node = element("button", { type: "button", ...properties }, text);
  onClick(node, action);
  return node;
}

/** Returns true if a dialog is open. An open dialog receives all keys. */
export function isDialogOpen() {
  return document.querySelector("dialog[open]") !== null;
}

/**
 * Makes the Tab key stop only once in a block of buttons. The arrow keys move the focus between the buttons.
 * @param {HTMLElement} root
 * @param {() => number} columns returns the number of buttons in a row
 */
export function makeOneTabStop(root, columns) {
  /** @type {Record<string, () => number>} */
  const moves = { ArrowLeft: () => -1, ArrowRight: () => 1, ArrowUp: () => -columns(), ArrowDown: () => columns() };
  root.addEventListener("keydown", (event) => {
    if (!(event.key in moves)) return;
    const buttons = [...root.querySelectorAll("button")];
    const index = buttons.findIndex((node) => node === document.activeElement);
    if (index < 0) return;
    event.preventDefault();
    const nextButton = buttons[index + moves[event.key]()];
    if (!nextButton) return;
    for (const node of buttons) node.tabIndex = node === nextButton ? 0 : -1;
    nextButton.focus();
  });
  root.addEventListener("focusin", (event) => {
    for (const node of root.querySelectorAll("button")) node.tabIndex = node === event.target ? 0 : -1;
  });
}

/**
 * Makes the first button of a block the only button that the Tab key reaches. Called after the buttons have been created.
 * @param {HTMLElement} root
 */
export function makeFirstTabStop(root) {
  root.querySelectorAll("button").forEach((node, index) => {
    node.tabIndex = index === 0 ? 0 : -1;
  });
}
