// The arrangement of the rows that show waves: their order, titles, colours and groups. The page stores the arrangement by line name, so
// that later recordings use it, too.

/**
 * @typedef {import("./wave_lines.js").WaveLine} WaveLine
 * @typedef {typeof ROW_COLOURS[number]} RowColour
 * @typedef {{ title?: string, colour?: RowColour | "", group?: string }} RowAppearance
 * @typedef {{ order: string[], looks: Record<string, RowAppearance>, folded: string[] }} StoredRows
 *
 * A row: either a line, or the heading of a group. `line` is the index of the line; -1 for a heading. `title` is the displayed text.
 * @typedef {{ line: number, name: string, title: string, colour: RowColour | "", group: string, isFolded: boolean }} WaveRow
 */

export const ROW_COLOURS = /** @type {const} */ (["red", "amber", "green", "blue", "violet"]);

export class WaveRows {
  /** @param {Partial<StoredRows>} [storedRows] */
  constructor(storedRows = {}) {
    const { order = [], looks = {}, folded = [] } = storedRows;
    /** The names of lines in the order that the user has chosen. Lines that are not in this list keep their default order. */
    this.order = order;
    /** The appearances of rows, by line name. */
    this.appearances = new Map(Object.entries(looks));
    this.folded = new Set(folded);
  }

  /** @returns {StoredRows} */
  get storedRows() {
    return { order: this.order, looks: Object.fromEntries(this.appearances), folded: [...this.folded] };
  }

  /**
   * Returns the appearance of a row, given the name of its line.
   * @param {string} name
   * @returns {RowAppearance}
   */
  getAppearance(name) {
    return this.appearances.get(name) || {};
  }

  /**
   * Returns the group of a line; "" for none.
   * @param {string} name
   */
  groupOf(name) {
    return this.getAppearance(name).group || "";
  }

  /**
   * Changes the title, colour or group of a row.
   * @param {string} name the name of the line
   * @param {RowAppearance} changes the changed properties
   */
  changeAppearance(name, changes) {
    this.appearances.set(name, { ...this.getAppearance(name), ...changes });
  }

  /**
   * Returns line names in row order. A name that is not in the stored order follows the name that precedes it in board order.
   * @param {string[]} names the line names in board order
   */
  sortNames(names) {
    const wantedNames = new Set(names);
    const sortedNames = this.order.filter((name) => wantedNames.has(name));
    const placedNames = new Set(sortedNames);
    names.forEach((name, index) => {
      if (!placedNames.has(name)) sortedNames.splice(index === 0 ? 0 : sortedNames.indexOf(names[index - 1]) + 1, 0, name);
    });
    // All rows of a group directly follow its first row.
    const groups = [...new Set(sortedNames.map((name) => this.groupOf(name) || ` ${name}`))];
    const members = new Map(groups.map((group) => [group, /** @type {string[]} */ ([])]));
    for (const name of sortedNames) (members.get(this.groupOf(name) || ` ${name}`) || []).push(name);
    return [...members.values()].flat();
  }

  /**
   * Returns the rows of the visible lines.
   * @param {WaveLine[]} lines all lines of the recording
   * @param {number[]} visibleIndices the indices of the visible lines
   * @returns {WaveRow[]}
   */
  arrange(lines, visibleIndices) {
    const linesByName = new Map(visibleIndices.map((line) => [lines[line].name, line]));
    /** @type {WaveRow[]} */
    const rows = [];
    let lastGroup = "";
    for (const name of this.sortNames([...linesByName.keys()])) {
      const { title = "", colour = "", group = "" } = this.getAppearance(name);
      const isFolded = this.folded.has(group);
      if (group !== "" && group !== lastGroup) rows.push({ line: -1, name: "", title: group, colour: "", group, isFolded });
      if (group === "" || !isFolded) rows.push({ line: linesByName.get(name) || 0, name, title, colour, group, isFolded: false });
      lastGroup = group;
    }
    return rows;
  }

  /**
   * Moves a row to the position of another row. If the row is the heading of a group, moves the group. A row that moves into a group joins
   * it.
   * @param {WaveRow[]} rows
   * @param {string[]} names the names of all visible lines, in row order
   * @param {number} fromIndex
   * @param {number} toIndex
   */
  move(rows, names, fromIndex, toIndex) {
    const [movedRow, targetRow] = [rows[fromIndex], rows[toIndex]];
    if (!movedRow || !targetRow || movedRow === targetRow || (movedRow.line < 0 && targetRow.group === movedRow.group)) return;
    const isDown = toIndex > fromIndex;
    const movedNames = movedRow.line < 0 ? names.filter((name) => this.groupOf(name) === movedRow.group) : [movedRow.name];
    const otherNames = names.filter((name) => !movedNames.includes(name));
    const isGroupMove = targetRow.group !== "" && (movedRow.line < 0 || targetRow.line < 0);
    const neighbourNames = isGroupMove ? otherNames.filter((name) => this.groupOf(name) === targetRow.group) : [targetRow.name];
    const joinsGroup = movedRow.line >= 0 && targetRow.group !== "" && (targetRow.line >= 0 || (isDown && !targetRow.isFolded));
    if (movedRow.line >= 0) this.changeAppearance(movedRow.name, { group: joinsGroup ? targetRow.group : "" });
    const isAfter = isDown && !(joinsGroup && targetRow.line < 0);
    const neighbour = neighbourNames[isAfter ? neighbourNames.length - 1 : 0];
    const position = neighbourNames.length === 0 ? otherNames.length : otherNames.indexOf(neighbour) + Number(isAfter);
    otherNames.splice(position, 0, ...movedNames);
    this.order = [...otherNames, ...this.order.filter((name) => !otherNames.includes(name))];
  }

  /**
   * Folds a group, or unfolds a folded group.
   * @param {string} group the group to fold or unfold
   */
  toggleFold(group) {
    if (!this.folded.delete(group)) this.folded.add(group);
  }
}
