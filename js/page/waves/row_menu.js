// The context menus of wave rows. The menu of a line changes its name, group, position and colour, or hides it. A group has its own menu.

import { ContextMenu } from "../commands/menu_view.js";
import { FieldBar } from "../text/field_bar.js";
import { block } from "../ui/dom.js";
import { ROW_COLOURS } from "../../core/waves/wave_rows.js";
import * as say from "../../words/waves.js";

/**
 * @typedef {import("../commands/menu_view.js").MenuItem} MenuItem
 * @typedef {import("../../core/waves/wave_rows.js").WaveRow} WaveRow
 */

/** The maximum length of a name in characters. */
const MAX_NAME_LENGTH = 40;

export class RowMenu {
  /** @param {import("./wave_view.js").WaveView} view the wave view, whose selected row the menus change */
  constructor(view) {
    this.view = view;
    this.menu = new ContextMenu("row-menu", say.ROW);
    this.nameBar = new FieldBar(block("waves"), () => view.canvas.focus());
  }

  /**
   * @param {WaveRow} row
   * @param {{ left: number, bottom: number }} point
   */
  open(row, point) {
    this.menu.open(row.line < 0 ? this.makeGroupItems(row) : this.makeLineItems(row), point);
  }

  /** @returns {MenuItem[]} */
  get positionItems() {
    const { view } = this;
    const { selectedIndex } = view;
    return [
      { label: say.MOVE_UP, key: "Alt+Up", act: () => view.moveRow(selectedIndex, selectedIndex - 1) },
      { label: say.MOVE_DOWN, key: "Alt+Down", act: () => view.moveRow(selectedIndex, selectedIndex + 1) },
    ];
  }

  /**
   * @param {WaveRow} row
   * @returns {MenuItem[]}
   */
  makeGroupItems({ group }) {
    const { view } = this;
    const memberNames = () => view.sortedNames.filter((name) => view.arrangement.groupOf(name) === group);
    return [
      { label: say.FOLD, key: "Enter", act: () => view.toggleFold(group) },
      { label: say.RENAME,
        act: () => this.askName(say.nameLabel(group), group, (newName) => (
          newName && view.changeAppearance(memberNames(), { group: newName }))) },
      { label: say.UNGROUP, act: () => view.changeAppearance(memberNames(), { group: "" }) },
      ...this.positionItems,
    ];
  }

  /**
   * @param {WaveRow} row
   * @returns {MenuItem[]}
   */
  makeLineItems({ name, title, colour, group }) {
    const { view } = this;
    const leaveGroupItem = { label: say.LEAVE_GROUP, act: () => view.changeAppearance([name], { group: "" }) };
    const joinGroupItem = {
      label: say.GROUP, act: () => this.askName(say.groupLabel(name), "", (newName) => view.changeAppearance([name], { group: newName })),
    };
    const colourItems = /** @type {const} */ (["", ...ROW_COLOURS]).map((choice) => (
      { label: say.COLOURS[choice], isChosen: () => colour === choice, act: () => view.changeAppearance([name], { colour: choice }) }));
    return [
      { label: say.RENAME, act: () => this.askName(say.nameLabel(name), title || name,
        (newTitle) => view.changeAppearance([name], { title: newTitle === name ? "" : newTitle })) },
      group === "" ? joinGroupItem : leaveGroupItem,
      ...this.positionItems,
      { label: say.HIDE, act: () => view.calls.hide(name) },
      ...colourItems,
    ];
  }

  /**
   * Asks the user for a name.
   * @param {string} label
   * @param {string} value
   * @param {(name: string) => void} action receives the name
   */
  askName(label, value, action) {
    this.nameBar.open({ label, value, buttonLabel: say.NAME, act: (text) => {
      action(text.slice(0, MAX_NAME_LENGTH));
      return "";
    } });
  }
}
