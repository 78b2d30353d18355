// The workbench: the text tabs, the dock, the panels with their splitters, and printing.

import { Preferences } from "./ui/preferences.js";
import { block } from "./ui/dom.js";
import { makeFolds, unfold } from "./ui/folds.js";
import { Panels } from "./ui/panels.js";
import { Regions } from "./ui/regions.js";
import { PrintView } from "./print_view.js";
import { Splitter } from "./ui/splitter.js";
import { StatusView } from "./ui/status_view.js";
import { Tabs } from "./ui/tabs.js";

/**
 * @typedef {import("./print_view.js").PrintContents} PrintContents
 * @typedef {import("./ui/splitter.js").SplitterOptions} SplitterOptions
 */

const TEXT_TABS = ["program", "board", "wiring", "tests", "properties"];
const DOCK_TABS = ["disassembly", "waves", "console", "problems"];
/** @type {Record<string, string>} the name of the dock tab that contains each dock panel, by panel id */
const DOCK_TAB_BY_PANEL = { listing: "disassembly", scope: "waves", talk: "console", problems: "problems" };

/** @type {SplitterOptions[]} */
const SPLITTERS = [
  { id: "front-splitter", panel: "front", property: "--front-width", side: "right", min: 160, max: 700 },
  { id: "dock-splitter", panel: "dock", property: "--dock-height", side: "top", min: 60, max: 1200 },
  { id: "side-splitter", panel: "side", property: "--side-width", side: "left", min: 240, max: 900 },
  ...["processor", "calls", "watched", "breakpoints", "memory", "ports"].map((panel) => /** @type {SplitterOptions} */ (
    { id: `${panel}-splitter`, panel, property: `--height-${panel}`, side: "bottom", min: 28, max: 900 })),
];

export class Layout {
  /** @param {() => PrintContents} readContents returns the contents to print */
  constructor(readContents) {
    this.preferences = new Preferences();
    const { preferences } = this;
    this.regions = new Regions(preferences);
    this.tabs = new Tabs(TEXT_TABS, preferences.get("text"), (name) => {
      preferences.set("text", name);
      this.regions.reveal(block("texts"));
    });
    this.dock = new Tabs(DOCK_TABS, preferences.get("dock"), (name) => {
      preferences.set("dock", name);
      this.regions.reveal(block("dock"));
    });
    this.status = new StatusView();
    this.print = new PrintView(readContents);
    this.splitters = SPLITTERS.map((options) => new Splitter(preferences, options));
    this.folds = makeFolds(preferences);
    this.panels = new Panels(preferences, () => this.reset());
  }

  /** Restores the initial sizes, folds and tabs. */
  reset() {
    for (const splitter of this.splitters) splitter.reset();
    for (const id of this.folds) unfold(id);
    this.tabs.choose(TEXT_TABS[0]);
    this.dock.choose(DOCK_TABS[0]);
    this.regions.show("board");
  }

  /**
   * Brings the tab of a text, or a tab of the dock, to the front.
   * @param {string} name
   */
  showText(name) {
    const isText = TEXT_TABS.includes(name);
    this.panels.open(isText ? "texts" : "dock", true);
    (isText ? this.tabs : this.dock).choose(name);
  }

  /**
   * Brings a panel into view.
   * @param {string} id
   */
  showPanel(id) {
    if (id in DOCK_TAB_BY_PANEL) this.dock.choose(DOCK_TAB_BY_PANEL[id]);
    this.panels.open(id in DOCK_TAB_BY_PANEL ? "dock" : id, true);
    unfold(id);
    this.regions.reveal(block(id));
    block(id).scrollIntoView({ block: "nearest" });
  }
}
