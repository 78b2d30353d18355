// A dialog with all past notices, newest first. The user can still execute the actions of past notices.

import { button, makeButton, element } from "./dom.js";
import * as say from "../../words/page.js";

/**
 * @typedef {import("./notice.js").NoticeAction} NoticeAction
 * @typedef {{ text: string, time: Date, actions: NoticeAction[] }} Message a notice: its text, its time, and its actions; the
 *   list of actions is empty after the user has executed an action
 */

/** The maximum number of stored notices. */
const MAX_STORED_NOTICES = 100;

export class NoticeList {
  /** @param {(message: Message, action: NoticeAction) => void} act executes a notice's action */
  constructor(act) {
    this.act = act;
    /** @type {Message[]} the past notices, newest first */
    this.messages = [];
    this.list = element("ul", { "aria-label": say.NOTICES });
    const closeButton = makeButton(say.CLOSE, () => this.dialog.close());
    this.dialog = element("dialog", { "id": "notices", "aria-labelledby": "notices-title" },
      element("div", { className: "bar" }, element("h2", { id: "notices-title" }, say.NOTICES), closeButton), this.list);
    document.body.append(this.dialog);
  }

  /** @param {Message} message */
  add(message) {
    this.messages = [message, ...this.messages].slice(0, MAX_STORED_NOTICES);
    button("notices-button").hidden = false;
  }

  open() {
    this.list.replaceChildren(...this.messages.map((message) => this.makeRow(message)));
    this.dialog.showModal();
  }

  /** @param {Message} message */
  makeRow(message) {
    const time = message.time.toLocaleTimeString([], { hour: "2-digit", minute: "2-digit" });
    const buttons = message.actions.map((action) => makeButton(action.label, () => {
      this.dialog.close();
      this.act(message, action);
    }, { "aria-label": say.noticeText(action.label, message.text) }));
    return element("li", {}, element("small", {}, time), element("span", { className: "grow" }, message.text), ...buttons);
  }
}
