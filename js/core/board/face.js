// Parses the front panel of a board: the names, colours and positions in the comments of the board text. `tools/lib/face.txt` defines the
// syntax.

import {
  COLOURS, areWordsValid, findLimit, formatMessage, isHeadValid, isNumber, parseFaceLine, parseSize, splitWords,
} from "./face_words.js";
import { matrixKey, formatKey } from "./key_place.js";
import * as say from "../../words/board.js";

/**
 * An error in a front-panel line. `isFatal` is true if names or displays depend on the line. A tool that needs names or displays then
 * rejects the text.
 * @typedef {{ line: number, message: string, isFatal: boolean }} FaceError
 * @typedef {import("./face_words.js").Kind} Kind
 * @typedef {import("./key_place.js").MatrixKey} MatrixKey
 * @typedef {{ text: string, line: number }} FaceText a name or a colour, and the number of its line
 *
 * A lamp on the grid, its position, and the number of its line.
 * @typedef {{ row: number, column: number, lamp: number, line: number }} GridLamp
 *
 * A group of lamps that starts at lamp `first`: a display, a die, a bar or a matrix. In a display, each row is a digit with four or seven
 * columns, plus one column if the digits have decimal points. If `firstRowLamp` is -1, each lamp of the group is a board lamp. Otherwise
 * the group is multiplexed: it has one board lamp per column from lamp `first` on, and one board lamp per row from lamp `firstRowLamp` on.
 * A lamp of the group is on while the board lamps for its row and its column are both on.
 * @typedef {{ kind: string, first: number, rows: number, columns: number, firstRowLamp: number, line: number }} Group
 *
 * The `button` or `switch` (`kind`) at the TEST pin. `level` is the TEST level while the button is pressed or the switch is on.
 * @typedef {{ kind: string, name: string, level: number, line: number }} TestPin
 *
 * A front-panel line. `name` is its first word; `first` is the second word before the colon, "" for none; `words` is the text after the
 * colon.
 * @typedef {{ name: string, kind: Kind, first: string, words: string, line: number }} Line
 *
 * A printer. At each rising edge of the strobe line, the printer reads a code at its port, and prints the word for this code.
 * @typedef {{ strobe: string, port: string, words: string[], line: number }} Printer
 */

/** The maximum total number of words in all lists of names, colours and positions. A board needs far fewer. */
const MAX_WORDS = findLimit("words");

/** The front panel that a board text defines. */
export class Face {
  /** @param {string} text the board text */
  constructor(text) {
    this.title = "";
    /** @type {Map<string, FaceText & { key: MatrixKey }>} the key names, by row and column (`0 2`); "" for a position without a key */
    this.keys = new Map();
    /** @type {Map<number, FaceText>} the lamp names, by number */
    this.lamps = new Map();
    /** @type {Map<string, number>} the lamp numbers, by name */
    this.lampNumbers = new Map();
    /** @type {Map<number, FaceText>} the lamp colours, by number */
    this.colours = new Map();
    /** @type {GridLamp[]} */
    this.grid = [];
    /** @type {Group[]} */
    this.groups = [];
    /** @type {TestPin | null} */
    this.test = null;
    /** @type {{ place: string, name: string, line: number } | null} the buzzer; `place` is the output line that drives the buzzer */
    this.buzzer = null;
    /** @type {Printer | null} */
    this.printer = null;
    /** @type {Map<string, FaceText>} the names of the devices at ports and chains, by port or chain (`rom0`, `ram0.0`, `chain0`) */
    this.ports = new Map();
    /** @type {FaceError[]} */
    this.errors = [];
    /** All front-panel lines as one string. Callers compare this string to find changes of the front panel. */
    this.comments = "";
    /**
     * @type {Map<string, number>} the line numbers of definitions that a board text can contain only once, by the identifier of the
     *   definition
     */
    this.definitionLines = new Map();
    /** @type {{ row: number, column: number, word: string, line: number }[]} the words of grid lines, before lamp names are resolved */
    this.gridWords = [];
    /** True if names or displays depend on the current line. */
    this.isFatal = false;
    /** The number of words read from lists. Reading stops when the number exceeds MAX_WORDS. */
    this.wordCount = 0;
    text.split("\n").forEach((line, index) => this.readLine(line.replace(/\r$/, ""), index + 1));
    for (const word of this.gridWords) this.addToGrid(word);
  }

  /**
   * Adds an error to the list of errors.
   * @param {number} line
   * @param {string} message
   */
  reportError(line, message) {
    this.errors.push({ line, message, isFatal: this.isFatal });
  }

  /**
   * Records a definition that a board text can contain only once. Returns true for the first definition; reports an error and returns false
   * for any other.
   * @param {string} name the identifier of the definition
   * @param {number} line
   * @param {string} messageName the name of the error message
   * @param {...(string | number)} values the values for the error message; the line of the first definition is added as the last value
   */
  defineOnce(name, line, messageName, ...values) {
    const firstLine = this.definitionLines.get(name);
    if (firstLine === undefined) this.definitionLines.set(name, line);
    else this.reportError(line, formatMessage(messageName, ...values, firstLine));
    return firstLine === undefined;
  }

  /**
   * Reads a line of the board text, if it is a front-panel line.
   * @param {string} text
   * @param {number} line
   */
  readLine(text, line) {
    const faceLine = this.wordCount <= MAX_WORDS ? parseFaceLine(text) : null;
    if (!faceLine) return;
    const { name, kind, first, last, words } = faceLine;
    this.comments += `${text}\n`;
    this.isFatal = kind.isFatal;
    if (kind.countsWords) this.wordCount += splitWords(words).filter((word) => word !== "_").length;
    if (this.wordCount > MAX_WORDS) this.reportError(line, formatMessage("too many words"));
    else if (!isHeadValid(kind, first, last)) this.reportError(line, kind.headError);
    else if (kind.size === "-" && !areWordsValid(kind, splitWords(words))) this.reportError(line, kind.wordsError);
    else if (name === "colour" && last !== undefined) this.readColourRange(Number(first), Number(last), words, line, kind);
    else LINE_READERS[name](this, { name, kind, first: (first || "").toLowerCase(), words, line });
  }

  /**
   * Reads the board title.
   * @param {string} text
   * @param {number} line
   */
  readTitle(text, line) {
    if (this.defineOnce("title", line, "second title")) this.title = splitWords(text).join(" ");
  }

  /**
   * Reads the key names of a row.
   * @param {number} row
   * @param {string} text
   * @param {number} line
   */
  readKeyRow(row, text, line) {
    if (!this.defineOnce(`row ${row}`, line, "second row", row)) return;
    splitWords(text).forEach((name, column) => {
      const isNone = name === "_";
      if (!isNone && !this.defineOnce(`key ${name}`, line, "second key", name)) return;
      const key = matrixKey(row, column);
      this.keys.set(formatKey(key), { text: isNone ? "" : name, line, key });
    });
  }

  /**
   * Reads lamp names.
   * @param {number} first the number of the first lamp
   * @param {string} text
   * @param {number} line
   */
  readLamps(first, text, line) {
    splitWords(text).forEach((name, index) => {
      if (name === "_") return;
      const firstLine = this.definitionLines.get(`lamp ${name}`);
      const namedLamp = this.lamps.get(first + index);
      if (firstLine !== undefined) this.reportError(line, formatMessage("second name", name, firstLine));
      else if (/^[*.?-]+$/.test(name)) this.reportError(line, formatMessage("a pattern", name));
      else if (namedLamp) this.reportError(line, formatMessage("named before", first + index, namedLamp.text));
      else {
        this.definitionLines.set(`lamp ${name}`, line);
        this.lamps.set(first + index, { text: name, line });
        this.lampNumbers.set(name, first + index);
      }
    });
  }

  /**
   * Reads a list of colours for consecutive lamps.
   * @param {number} first the number of the first lamp
   * @param {string} text
   * @param {number} line
   */
  readColours(first, text, line) {
    this.setColours(first, splitWords(text.toLowerCase()), line);
  }

  /**
   * Reads one colour for a range of lamps.
   * @param {number} first the number of the first lamp
   * @param {number} last the number of the last lamp
   * @param {string} text
   * @param {number} line
   * @param {Kind} kind
   */
  readColourRange(first, last, text, line, kind) {
    const words = splitWords(text.toLowerCase());
    if (words.length !== 1 || last < first) this.reportError(line, kind.headError);
    else this.setColours(first, COLOURS.has(words[0]) ? repeatWord(words[0], last - first + 1) : words, line);
  }

  /**
   * Sets the colours of consecutive lamps. Reports an error for an unknown colour. Stops with an error at a lamp that already has a colour.
   * @param {number} first the number of the first lamp
   * @param {Iterable<string>} colours the colours; `_` for none
   * @param {number} line
   */
  setColours(first, colours, line) {
    let lamp = first - 1;
    for (const word of colours) {
      lamp += 1;
      const earlierColour = this.colours.get(lamp);
      if (word === "_") continue;
      if (!COLOURS.has(word)) this.reportError(line, formatMessage("no colour", word));
      else if (earlierColour) {
        this.reportError(line, formatMessage("coloured before", lamp, earlierColour.line));
        return;
      } else this.colours.set(lamp, { text: word, line });
    }
  }

  /**
   * Reads a grid row.
   * @param {number} row
   * @param {string} text
   * @param {number} line
   */
  readGrid(row, text, line) {
    if (row >= findLimit("rows")) this.reportError(line, formatMessage("no such row"));
    else if (this.defineOnce(`grid ${row}`, line, "second row of grid", row)) {
      splitWords(text).forEach((word, column) => {
        if (word !== "_") this.gridWords.push({ row, column, word, line });
      });
    }
  }

  /**
   * Adds a lamp to the grid. All lamp names must be known before this call.
   * @param {{ row: number, column: number, word: string, line: number }} gridWord `word` is the name or number of the lamp
   */
  addToGrid({ row, column, word, line }) {
    const namedLamp = this.lampNumbers.get(word);
    if (namedLamp !== undefined) this.grid.push({ row, column, lamp: namedLamp, line });
    else if (isNumber(word)) this.grid.push({ row, column, lamp: Number(word), line });
    else this.reportError(line, formatMessage("no such lamp", word));
  }

  /**
   * Reads a display, a die, a bar or a matrix.
   * @param {Line} line
   */
  readGroup({ name, kind, first, words, line }) {
    const size = parseSize(kind, splitWords(words));
    const group = size && { kind: name, first: Number(first), ...size, line };
    if (!group) this.reportError(line, kind.wordsError);
    else if (group.firstRowLamp < 0 || this.checkMultiplexing(group)) this.groups.push(group);
  }

  /**
   * Returns whether a multiplexed group is within the limits and uses each lamp only once; otherwise reports an error.
   * @param {Group} group
   */
  checkMultiplexing({ kind, first, rows, columns, firstRowLamp, line }) {
    const [rowWord, columnWord] = kind === "display" ? ["digits", say.A_SEGMENT] : ["rows", say.A_COLUMN];
    const max = findLimit("scanned");
    const fits = rows <= max && columns <= max;
    const sharedLamp = Math.max(first, firstRowLamp);
    const isShared = sharedLamp < Math.min(first + columns, firstRowLamp + rows);
    if (!fits) this.reportError(line, formatMessage("too many scanned", rowWord));
    else if (isShared) {
      this.reportError(line, formatMessage("scanned twice", sharedLamp, columnWord, rowWord === "digits" ? say.A_DIGIT : say.A_ROW));
    }
    return fits && !isShared;
  }

  /**
   * Reads the button or switch at the TEST pin.
   * @param {string} text
   * @param {number} line
   */
  readTestPin(text, line) {
    const [kind, name, , level] = splitWords(text);
    if (this.defineOnce("test", line, "second test")) this.test = { kind, name, level: Number(level || 0), line };
  }

  /**
   * Reads the buzzer.
   * @param {string} place the output line that drives the buzzer
   * @param {string} text the name of the buzzer
   * @param {number} line
   */
  readBuzzer(place, text, line) {
    if (this.defineOnce("buzzer", line, "second buzzer")) this.buzzer = { place, name: splitWords(text).join(" "), line };
  }

  /**
   * Reads the printer.
   * @param {string} strobe the strobe output line
   * @param {string} text the port and the words for the codes
   * @param {number} line
   */
  readPrinter(strobe, text, line) {
    const [port, ...words] = splitWords(text);
    if (!this.defineOnce("printer", line, "second printer")) return;
    if (words.length > findLimit("codes")) this.reportError(line, formatMessage("too many codes", words.length));
    else if (strobe.startsWith(`${port}.`)) this.reportError(line, formatMessage("strobe in code", strobe));
    else this.printer = { strobe, port, words, line };
  }

  /**
   * Reads the name of the device at a port or a chain.
   * @param {string} port `rom0`, `ram0.0` or `chain0`
   * @param {string} text
   * @param {number} line
   */
  readPort(port, text, line) {
    if (this.defineOnce(port, line, "second port", port)) this.ports.set(port, { text: splitWords(text).join(" "), line });
  }
}

/**
 * Yields a word `count` times.
 * @param {string} word
 * @param {number} count
 */
function* repeatWord(word, count) {
  for (let index = 0; index < count; index++) yield word;
}

/** @type {(face: Face, line: Line) => void} reads the line of a group of lamps */
const readGroup = (face, line) => face.readGroup(line);

/**
 * The functions that read front-panel lines, by the first word of the line.
 * @type {Record<string, (face: Face, line: Line) => void>}
 */
const LINE_READERS = {
  title: (face, { words, line }) => face.readTitle(words, line),
  row: (face, { first, words, line }) => face.readKeyRow(Number(first), words, line),
  lamp: (face, { first, words, line }) => face.readLamps(Number(first), words, line),
  colour: (face, { first, words, line }) => face.readColours(Number(first), words, line),
  grid: (face, { first, words, line }) => face.readGrid(Number(first), words, line),
  display: readGroup, die: readGroup, bar: readGroup, matrix: readGroup,
  test: (face, { words, line }) => face.readTestPin(words, line),
  buzzer: (face, { first, words, line }) => face.readBuzzer(first, words, line),
  printer: (face, { first, words, line }) => face.readPrinter(first, words, line),
  port: (face, { first, words, line }) => face.readPort(first, words, line),
};

/**
 * Returns the errors in the front panel of a board text, sorted by line.
 * @param {string} text
 * @returns {FaceError[]}
 */
export function findFaceErrors(text) {
  return sortByLine(new Face(text).errors);
}

/**
 * Returns a message with the number of errors that a list omits; "" if it omits none.
 * @param {unknown[]} errors
 * @param {number} maxListed the maximum number of listed errors
 */
export function moreErrorsMessage(errors, maxListed) {
  return errors.length > maxListed ? say.andMore((errors.length - maxListed).toLocaleString("en")) : "";
}

/**
 * Returns errors sorted by line.
 * @param {FaceError[]} errors
 */
export function sortByLine(errors) {
  return [...errors].sort((a, b) => a.line - b.line);
}
