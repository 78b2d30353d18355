// Finds keys by the names that a user types at a prompt: the names on the board's front panel, or `row.column`.

import { readBoard } from "../bench/answers.js";
import { matrixKey, formatKey } from "../board/key_place.js";
import { listNamedKeys, createKey } from "../testing/test_text.js";
import { listPressedKeys } from "./state_text.js";
import { rejectCommand } from "./argument_parsers.js";
import * as say from "../../words/prompt.js";

/**
 * @typedef {import("../debug/debug_session.js").DebugSession} DebugSession
 * @typedef {import("../testing/test_text.js").Key} NamedKey
 */

export class BoardKeyNames {
  /**
   * @param {DebugSession} session
   * @param {import("../board/face.js").Face} face
   */
  constructor(session, face) {
    this.session = session;
    this.namedKeys = listNamedKeys(face);
  }

  /** The names of all keys. A key that has no name on the front panel is named by its row and column, such as `3.0`. */
  get names() {
    const { rows, columns } = readBoard(this.session.debugger.session.statusQueries.board);
    const namedPositions = new Set([...this.namedKeys.values()].map(({ key }) => formatKey(key)));
    const unnamedKeys = [];
    for (let index = 0; index < rows * columns; index++) {
      const [row, column] = [Math.floor(index / columns), index % columns];
      if (!namedPositions.has(formatKey(matrixKey(row, column)))) unnamedKeys.push(`${row}.${column}`);
    }
    return [...this.namedKeys.keys(), ...unnamedKeys];
  }

  /** Returns the text of `info keys`. */
  formatInfo() {
    const keysDown = listPressedKeys(this.session);
    const { names } = this;
    if (names.length === 0) return say.NO_KEYS;
    return `${names.join(" ")}\n${keysDown.length > 0 ? say.keysDown(keysDown.join(" ")) : say.NO_KEY_IS_DOWN}`;
  }

  /**
   * Returns the key with a name; null if there is none.
   * @param {string} word
   * @returns {NamedKey | null}
   */
  findKey(word) {
    const namedKey = this.namedKeys.get(word);
    if (namedKey) return namedKey;
    const [, row, column] = /^(\d+)\.(\d+)$/.exec(word) || [];
    const { rows, columns } = readBoard(this.session.debugger.session.statusQueries.board);
    if (row === undefined || Number(row) >= rows || Number(column) >= columns) return null;
    return createKey(word, matrixKey(Number(row), Number(column)));
  }

  /**
   * Parses key names, and returns the keys. A word that is not a key name is split into letters. Fails if a word or letter is not a key
   * name.
   * @param {string} text
   * @param {string} command the prompt command, for messages
   */
  parseKeys(text, command) {
    if (text === "") rejectCommand(say.keySyntax(command));
    /** @type {(word: string) => NamedKey} */
    const requireKey = (word) => {
      const { names } = this;
      const message = names.length === 0 ? say.NO_KEYS : say.noKeyMessage(word, names.join(" "));
      return this.findKey(word) || rejectCommand(message);
    };
    return text.split(/\s+/).flatMap((word) => (this.findKey(word) ? [word] : [...word])).map(requireKey);
  }
}
