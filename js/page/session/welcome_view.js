// The dialog that a first-time visitor sees. Each of its six cards starts the tour, an example or a drawing.

import { drawBoardPicture } from "./gallery_view.js";
import { makeButton, element } from "../ui/dom.js";
import { icon } from "../ui/icons.js";
import { TOUR_BOARD } from "../../words/help.js";
import * as say from "../../words/example_notes.js";

/**
 * @typedef {import("../../core/engine/examples.js").Example} Example
 */

/**
 * The callbacks of the welcome cards.
 * @typedef {object} WelcomeCalls
 * @property {() => void} startTour Starts the tour with the first program.
 * @property {(name: string) => Promise<boolean>} openExample Opens a new session from the example with this name. Resolves to true if the
 *   session was created.
 * @property {() => void} showWiring Brings the Wiring tab to the front.
 * @property {() => void} storeWelcomeShown Stores the fact that the cards were shown.
 */

export class WelcomeView {
  /**
   * @param {Example[]} examples
   * @param {WelcomeCalls} calls
   */
  constructor(examples, calls) {
    this.examples = examples;
    this.calls = calls;
    /** @type {HTMLButtonElement[]} the cards, once they have been drawn */
    this.cards = [];
    this.dialog = element("dialog", { "id": "welcome", "aria-labelledby": "welcome-title" });
    this.dialog.addEventListener("close", () => calls.storeWelcomeShown());
    document.body.append(this.dialog);
  }

  /** Draws the cards when the dialog first opens. Drawing their pictures earlier would delay the start of the page. */
  draw() {
    if (this.cards.length > 0) return;
    /** @type {(name: string) => Example | undefined} */
    const findExample = (name) => this.examples.find((example) => example.name === name);
    this.cards = Object.entries(say.WELCOME_CARDS).map(([name, card]) => this.makeCard(name, card, findExample(card.example)));
    const title = element("h2", { id: "welcome-title" }, say.WELCOME);
    this.dialog.append(
      element("div", { className: "bar" }, title, makeButton(say.CLOSE, () => this.dialog.close())),
      element("ul", {}, ...this.cards.map((card) => element("li", {}, card))), element("p", { className: "hint" }, say.WELCOME_HINT));
  }

  /**
   * @param {string} name
   * @param {{ title: string, words: string, example: string }} card
   * @param {Example | undefined} example
   */
  makeCard(name, { title, words, example: exampleName }, example) {
    const node = element("button", { type: "button", className: "card" });
    const picture = name === "draw" ? icon("chip") : drawBoardPicture(example ? example.board : TOUR_BOARD);
    node.append(picture, element("b", {}, title), element("span", {}, words));
    node.addEventListener("click", () => {
      this.dialog.close();
      if (!exampleName) this.calls.startTour();
      else this.openExample(exampleName, name === "draw");
    });
    return node;
  }

  /**
   * @param {string} name the name of an example
   * @param {boolean} showsWiring true to bring the Wiring tab to the front
   */
  async openExample(name, showsWiring) {
    if ((await this.calls.openExample(name)) && showsWiring) this.calls.showWiring();
  }

  open() {
    if (this.dialog.open) return;
    this.draw();
    this.dialog.showModal();
    this.cards[0].focus();
  }
}
