// A snapshot of the session for the panel. The snapshot contains the registers, keys, RAM, lamp brightness, and the instructions near the
// program counter, read from the answers to queries.

import { readRam } from "../bench/answers.js";
import { joinLines, matchAnswers, readInputs } from "../bench/inputs.js";
import { hex, indices } from "../bench/numbers.js";
import { parseItems, parseState, parseRegisters, stateValue } from "../bench/state_line.js";
import { FULL_LEVEL, brightnessLevel } from "../board/brightness.js";
import { PressedKeys } from "../board/key_place.js";
import { joinDisplayText } from "../board/display_text.js";
import { LAMPS_FORECAST_QUERY, PerceivedText, forecastBrightness } from "../engine/perceived_text.js";
import { ListingReader } from "../machine/listing_reader.js";
import { visibleLines } from "../machine/listing_range.js";

/**
 * @typedef {import("../bench/answers.js").ListingLine} ListingLine
 * @typedef {import("../bench/answers.js").Ram} Ram
 * @typedef {import("../bench/answers.js").Registers} Registers
 * @typedef {import("../board/brightness.js").Brightness} Brightness
 * @typedef {import("../board/lamp_state.js").LampReader} LampReader
 * @typedef {import("./terminal_panel.js").Panel} Panel
 */

/** The number of screen rows per RAM chip: four registers and a port. */
export const CHIP_ROWS = 5;
/** The number of bytes in a new listing before the program counter. */
const BYTES_BEFORE = 6;
/** If the program counter is in the last MIN_LINES_LEFT lines of the listing, or not in the listing, the panel reads a new listing. */
const MIN_LINES_LEFT = 2;

/** The state of the session that the panel shows. */
export class PanelSnapshot {
  /** @param {Panel} panel */
  constructor(panel) {
    this.panel = panel;
    const { board, face } = panel.subject;
    /** @type {{ bank: number, name: string }[]} the RAM chips of the board; their names have the form `0.1` */
    this.chips = board.banks.flatMap(({ bank, chips }) => indices(chips).map((chip) => ({ bank, name: `${bank}.${chip}` })));
    this.hasDisplay = face.groups.some(({ kind }) => kind === "display");
    this.perceivedText = new PerceivedText(face, board.lamps.length);
    this.reader = new ListingReader(panel.ask);
    /** The number of commands in the session, as text. */
    this.commandCount = "0";
    /** @type {Registers | null} */
    this.registers = null;
    this.keysDown = new PressedKeys();
    /** One character for each lamp: `*` if the lamp is on at the time of the snapshot, otherwise `.`. */
    this.marks = "";
    /** @type {Brightness | null} the perceived brightness of the lamps; null while time is paused, if the board has no lamps, or if the
     *   last query asked only for the state */
    this.brightness = null;
    /** @type {string[]} the breakpoint addresses as three hexadecimal digits */
    this.breakpoints = [];
    /** @type {Ram} the contents of the RAM chips that are visible on the screen */
    this.ram = { registers: new Map(), ports: new Map() };
    /** @type {ListingLine[]} the visible listing lines */
    this.listing = [];
  }

  /** The TEST level, `0` or `1`; "" before the first snapshot. */
  get test() {
    return this.registers ? this.registers.test : "";
  }

  /** The program counter; 0 before the first snapshot. */
  get counter() {
    return this.registers ? parseInt(this.registers.counter, 16) : 0;
  }

  /** True if there is a breakpoint at the program counter. */
  get isAtBreakpoint() {
    return this.breakpoints.includes(hex(this.counter, 3));
  }

  /**
   * Returns whether a key is pressed.
   * @param {import("../board/key_place.js").Key} key
   */
  isDown(key) {
    return this.keysDown.has(key, this.test);
  }

  /**
   * Returns the RAM chips that fit into a number of screen rows. The first of them is the chip to which the user has scrolled.
   * @param {number} rows
   */
  listVisibleChips(rows) {
    const { firstChip } = this.panel;
    return this.chips.slice(firstChip, firstChip + Math.floor(rows / CHIP_ROWS));
  }

  /**
   * Queries the session, and stores the answers as the new snapshot.
   * @param {number} rows the number of rows for RAM and listing; 0 to query only the state
   */
  async refresh(rows) {
    const banks = new Set(this.listVisibleChips(rows).map(({ bank }) => bank));
    const showsBrightness = rows > 0 && !this.panel.isPaused && this.panel.subject.board.lamps.length > 0;
    const queries = `${joinLines(["state", ...[...banks].map((bank) => `ram ${bank}`)])}${showsBrightness ? LAMPS_FORECAST_QUERY : ""}`;
    const answers = matchAnswers(readInputs(queries), await this.panel.ask(queries));
    this.storeState(answers[0][0]);
    this.storeRam(answers.slice(1, 1 + banks.size));
    const { face, board } = this.panel.subject;
    this.brightness = showsBrightness ? forecastBrightness(face, board.lamps.length, answers[answers.length - 1]) : null;
    if (rows > 0) await this.refreshListing(rows);
  }

  /**
   * Stores the state of the session.
   * @param {string} answer the answer to `state`
   */
  storeState(answer) {
    const { registers, keys, lamps, breaks } = parseState(answer);
    this.commandCount = stateValue(answer, "seq");
    this.registers = parseRegisters(registers);
    this.keysDown = new PressedKeys(parseItems(keys));
    this.marks = parseItems(lamps).join("");
    this.breakpoints = parseItems(breaks);
  }

  /**
   * Stores the contents of the visible RAM chips.
   * @param {string[][]} answers the answers to `ram B`, one for each visible bank
   */
  storeRam(answers) {
    const rams = answers.map(readRam);
    this.ram = {
      registers: new Map(rams.flatMap(({ registers }) => [...registers])),
      ports: new Map(rams.flatMap(({ ports }) => [...ports])),
    };
  }

  /**
   * Reads a new listing near the program counter. Keeps the current listing if it contains the program counter and at least MIN_LINES_LEFT
   * lines after that address.
   * @param {number} rows the number of listing lines
   */
  async refreshListing(rows) {
    const { counter } = this;
    if (this.listing.slice(0, -MIN_LINES_LEFT).some(({ address }) => address === counter)) return;
    const from = Math.max(0, counter - BYTES_BEFORE);
    this.listing = visibleLines(await this.reader.read({ from, anchor: counter }, rows), from, rows);
  }

  /** Clears the listing, so that the next snapshot reads a new listing. The terminal calls this function when its size changes. */
  forgetListing() {
    this.listing = [];
  }

  /**
   * Returns the brightness level of a lamp: the perceived level if time is running, otherwise the level at the time of the snapshot.
   * @param {LampReader} lamp
   */
  findLampLevel(lamp) {
    if (this.brightness) return brightnessLevel(lamp.duty(this.brightness));
    return lamp.isLit(this.marks) ? FULL_LEVEL : 0;
  }

  /** The state of the displays and named lamps as text. */
  get display() {
    const { displayText } = this.perceivedText;
    return joinDisplayText(this.brightness ? this.perceivedText.readAtBrightness(this.brightness) : displayText.read(this.marks));
  }
}
