// The status bar: shows whether time is paused, whether the source matches ROM, and whether the session is saved.

import { Cell, Switch, block } from "./dom.js";
import * as say from "../../words/page.js";

export class StatusView {
  constructor() {
    this.romText = new Cell(block("rom-status"));
    this.saveText = new Cell(block("saved"));
    const bar = block("statusbar");
    this.pausedSwitch = new Switch((isOn) => bar.classList.toggle("paused", isOn));
  }

  /**
   * @param {boolean} isMatching true if the source is the program in ROM
   * @param {string} tooltip the tooltip that says how ROM and the source differ; "" if there is no source
   */
  showRomStatus(isMatching, tooltip) {
    this.romText.set(isMatching ? say.ROM_MATCHES : tooltip === "" ? "" : say.ROM_DIFFERS);
    this.romText.node.title = tooltip;
  }

  /** @param {boolean} isRunning true if time is running */
  showRunning(isRunning) {
    this.pausedSwitch.set(!isRunning);
  }

  /** @param {"example" | "saved" | "failed"} state */
  showSaveState(state) {
    this.saveText.set(say.SAVING_STATES[state]);
  }
}
