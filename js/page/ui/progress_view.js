// The progress of long work, with a button to cancel it.

import { Cell, block, button, findDescendant, onClick } from "./dom.js";
import * as say from "../../words/page.js";

/** The delay in milliseconds before the progress appears. Shorter work does not show any progress. */
const SHOW_DELAY_MS = 300;

export class ProgressView {
  constructor() {
    this.block = block("work");
    this.bar = findDescendant(this.block, "progress", HTMLProgressElement);
    this.text = new Cell(findDescendant(this.block, "p", HTMLElement));
    /** @type {AbortController | null} */
    this.controller = null;
    onClick(button("cancel"), () => this.cancel());
  }

  cancel() {
    if (this.controller) this.controller.abort();
    this.text.set(say.CANCELLING);
  }

  /**
   * Performs work, and shows its progress if the work takes longer than SHOW_DELAY_MS. Resolves to the result of the work.
   * @template Result
   * @param {string} description the description of the work
   * @param {(signal: AbortSignal, progress: (done: number, total: number) => void) => Promise<Result>} work
   * @returns {Promise<Result>}
   */
  async show(description, work) {
    const controller = new AbortController();
    const showTimer = setTimeout(() => this.open(description, controller), SHOW_DELAY_MS);
    try {
      return await work(controller.signal, (done, total) => {
        if (this.controller === controller) this.bar.value = done / total;
      });
    } finally {
      clearTimeout(showTimer);
      if (this.controller === controller) this.close();
    }
  }

  /**
   * @param {string} description
   * @param {AbortController} controller
   */
  open(description, controller) {
    this.controller = controller;
    this.text.set(description);
    this.bar.removeAttribute("value");
    this.block.hidden = false;
  }

  close() {
    this.controller = null;
    this.block.hidden = true;
  }
}
