// Notices about errors and about actions that can be undone. At most three notices are visible; they stay in view while the page scrolls.
// Most kinds show only their newest notice, but each undoable action and each session that was not opened has its own notice. An error
// notice disappears when its cause is gone, a success notice after some time. A list shows all past notices.

import { block, element } from "./dom.js";
import { NoticeList } from "./notice_list.js";
import * as say from "../../words/page.js";

/**
 * The kinds of notices:
 * - `saveError`, `store`: lasting errors;
 * - `session`, `refusal`: rejected actions;
 * - `share`: a copied link; `file`: a loaded file;
 * - `left`: a session that the user has left for a new session;
 * - `unopened`: a session that was not opened automatically;
 * - `undo`: an action that can be undone;
 * - "": any other error.
 * @typedef {"" | "saveError" | "session" | "store" | "refusal" | "share" | "file" | "left" | "unopened" | "undo"} NoticeKind
 * @typedef {{ label: string, act: () => void }} NoticeAction a button in the notice
 * @typedef {{ kind: NoticeKind, text: string, node: HTMLElement, message: import("./notice_list.js").Message, timer: number }} Row
 */

/**
 * The kinds of errors that are reported repeatedly while their cause persists. A notice that the user has dismissed appears again only if
 * its cause was gone in the meantime.
 */
const LASTING_KINDS = new Set(["saveError", "store"]);
/** The kinds that have a separate notice for each event. */
const MULTIPLE_KINDS = new Set(["undo", "unopened"]);
/** The kinds that report a success. */
const SUCCESS_KINDS = new Set(["undo", "file", "share", "left"]);
/** The time in milliseconds for which a success notice stays. */
const SUCCESS_NOTICE_MS = 8000;
/** The maximum number of visible notices. */
const MAX_VISIBLE_NOTICES = 3;

/**
 * Returns the notices to remove so that at most MAX_VISIBLE_NOTICES remain: first the oldest success notices, then the oldest notices of
 * other kinds. The newest notice stays.
 * @template {{ kind: NoticeKind }} AnyRow
 * @param {AnyRow[]} rows the notices, newest first
 * @returns {AnyRow[]}
 */
export function findNoticesToRemove(rows) {
  const olderRows = rows.slice(1).reverse();
  const successes = olderRows.filter(({ kind }) => SUCCESS_KINDS.has(kind));
  const removalOrder = [...successes, ...olderRows.filter(({ kind }) => !SUCCESS_KINDS.has(kind))];
  return removalOrder.slice(0, Math.max(0, rows.length - MAX_VISIBLE_NOTICES));
}

export class Notice {
  constructor() {
    this.block = block("notice");
    this.list = new NoticeList((message, action) => this.executeAction(message, action));
    /** @type {Row[]} the visible notices, newest first */
    this.rows = [];
    /** @type {Map<NoticeKind, string>} the text of the dismissed notice about each lasting error */
    this.dismissedTexts = new Map();
    /** @type {HTMLElement | null} the element that had the focus before a notice received the focus */
    this.priorFocus = null;
    this.block.addEventListener("focusin", (event) => {
      const previousFocus = event.relatedTarget;
      if (previousFocus instanceof HTMLElement && !this.block.contains(previousFocus)) this.priorFocus = previousFocus;
    });
  }

  /**
   * Shows a notice, unless a notice about the same lasting error is visible or was dismissed.
   * @param {string} text
   * @param {NoticeKind} kind
   * @param {NoticeAction[]} actions
   */
  show(text, kind = "", ...actions) {
    if (this.dismissedTexts.get(kind) === text) return;
    if (LASTING_KINDS.has(kind) && this.rows.some((row) => row.kind === kind && row.text === text)) return;
    if (!MULTIPLE_KINDS.has(kind)) this.hide(kind);
    const message = { text, time: new Date(), actions };
    this.list.add(message);
    const row = { kind, text, node: element("div", { className: "notice", role: "alert" }, element("p", {}, text)), message, timer: 0 };
    row.node.append(...actions.map((action) => (
      this.makeButton(action.label, say.noticeText(action.label, text), () => this.executeAction(message, action)))));
    row.node.append(this.makeButton(say.DISMISS, say.DISMISS_NOTICE, () => this.dismiss(row), "dismiss"));
    this.rows.unshift(row);
    this.block.prepend(row.node);
    this.block.hidden = false;
    for (const oldRow of findNoticesToRemove(this.rows)) this.remove(oldRow);
    if (SUCCESS_KINDS.has(kind)) this.scheduleRemoval(row);
  }

  /**
   * Removes a notice after SUCCESS_NOTICE_MS milliseconds, but not while the pointer or the focus is on the notice.
   * @param {Row} row
   */
  scheduleRemoval(row) {
    row.timer = window.setTimeout(() => {
      if (row.node.matches(":hover, :focus-within")) this.scheduleRemoval(row);
      else this.remove(row);
    }, SUCCESS_NOTICE_MS);
  }

  /**
   * Removes the notices of a kind because their cause is gone.
   * @param {NoticeKind} kind
   */
  hide(kind) {
    this.dismissedTexts.delete(kind);
    for (const row of this.rows.filter((candidate) => candidate.kind === kind)) this.remove(row);
  }

  /** @param {Row} row */
  dismiss(row) {
    if (LASTING_KINDS.has(row.kind)) this.dismissedTexts.set(row.kind, row.text);
    this.remove(row);
  }

  /**
   * Executes an action of a notice and removes the notice, because the action can be executed only once.
   * @param {import("./notice_list.js").Message} message
   * @param {NoticeAction} action
   */
  executeAction(message, action) {
    message.actions = [];
    for (const row of this.rows.filter((candidate) => candidate.message === message)) this.remove(row);
    action.act();
  }

  /** @param {Row} row */
  remove(row) {
    const hadFocus = row.node.contains(document.activeElement);
    clearTimeout(row.timer);
    this.rows = this.rows.filter((candidate) => candidate !== row);
    row.node.remove();
    this.block.hidden = this.rows.length === 0;
    if (hadFocus) this.moveFocusAway();
  }

  /** Moves the focus to the next notice, or back to the element that had the focus before a notice received the focus. */
  moveFocusAway() {
    const nextFocus = this.block.querySelector("button") || this.priorFocus;
    if (nextFocus) nextFocus.focus();
  }

  /**
   * @param {string} text
   * @param {string} label
   * @param {() => void} action
   * @param {string} className
   */
  makeButton(text, label, action, className = "") {
    const node = element("button", { type: "button", className }, text);
    node.setAttribute("aria-label", label);
    node.addEventListener("click", (event) => {
      // After a mouse click, remove the focus from the button, so that the board receives key presses again.
      if (event.detail > 0) node.blur();
      action();
    });
    return node;
  }

  /**
   * Moves the notices into an element, for example into a dialog that has opened, because the user can neither read nor use anything
   * outside an open dialog.
   * @param {HTMLElement} host
   */
  moveTo(host) {
    host.append(this.block);
  }
}
