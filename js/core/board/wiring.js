// Computes the layout of the wiring diagram: the parts of a board with their pins and positions, and the wires between pins. This module
// does not draw.

import { BITS_PER_CHIP } from "../bench/board_form.js";
import * as say from "../../words/board.js";

/**
 * @typedef {import("../bench/answers.js").Board} Board
 * @typedef {import("./face.js").TestPin} TestPin
 * @typedef {{ place: string, name: string }} Buzzer a buzzer: the output line that drives it, and its name
 *
 * A pin of a part. `line` is the signal line at the pin, "" for the TEST pin and for the pin of its button or switch. For a port pin or a
 * chain bit, `id` is the name of the line. For any other pin, `id` is its function: `clock 0`, `data 0`, `row 1`, `column 2`, `lamp 3`,
 * `buzzer 0`, `test` or `TEST`. `colour` is the lamp colour. `number` is the pin number on the 16-pin chip package.
 * @typedef {{ id: string, line: string, label: string, colour?: string, number?: number, x: number, y: number }} Pin
 * @typedef {Omit<Pin, "x" | "y">} UnplacedPin
 *
 * A part. `id` is its name (`rom 1`, `ram 0.2`, `chain 0`, `keys`, `lamps`, `test`, `buzzer` or `processor`). `descriptions` contains the
 * phrases that describe the part.
 * @typedef {{ id: string, kind: string, title: string, x: number, y: number, width: number, height: number, pins: Pin[],
 *   descriptions: string[] }} Part
 *
 * A wire from the pin that drives a signal line to a pin that uses the line.
 * @typedef {{ line: string, from: Pin, to: Pin }} Wire
 * @typedef {{ parts: Part[], wires: Wire[], width: number, height: number }} WiringDiagram
 *
 * The front-panel parts in the diagram. `names` and `colours` are the names and colours of the lamps by number, "" for none. `test` is the
 * button or switch at the TEST pin.
 * @typedef {{ names: string[], colours: string[], test: TestPin | null, buzzer: Buzzer | null }} Appearance
 *
 * @typedef {{ x: number, y: number }} Point
 *
 * The positions of parts that the user dragged, by part id.
 * @typedef {Map<string, Point>} Positions
 */

/** Lengths in the diagram, in SVG units: the distance between pins, the height of a title, the gap between parts, and the margin. */
export const PIN_STEP = 18;
export const TITLE_HEIGHT = 26;
const PART_GAP = 14;
const MARGIN = 10;
/** The maximum number of unused bits that the diagram shows for each chain, so that the user can wire them. */
const MAX_UNUSED_BITS = 6;
/** The columns of the diagram, from left to right: their widths, and the space for wires to the left of each column, in SVG units. */
const DIAGRAM_COLUMNS = [
  { wireSpace: 0, width: 84 },
  { wireSpace: 24, width: 112 },
  { wireSpace: 80, width: 138 },
  { wireSpace: 90, width: 150 },
];

/** The maximum length of the title of the button or switch at the TEST pin, in characters. */
const MAX_TITLE_LENGTH = 11;

/**
 * Pin numbers on the chip packages. The 4004 has the TEST pin. The 4001 and 4002 have the pins of port lines 0 to 3. The 4003 has the
 * clock, the data and the pins of bits 0 to 9.
 */
const TEST_PIN_NUMBER = 10;
const PORT_PIN_NUMBERS = [16, 15, 14, 13];
const CLOCK_PIN_NUMBER = 1;
const DATA_PIN_NUMBER = 2;
const BIT_PIN_NUMBERS = [3, 4, 6, 7, 8, 9, 10, 11, 12, 14];

/** A column of parts, one below the other. */
class Column {
  /**
   * @param {number} x
   * @param {number} width
   */
  constructor(x, width) {
    this.x = x;
    this.width = width;
    this.bottom = MARGIN;
  }

  /**
   * Adds a part with pins on its left and right sides; returns the part with all positions.
   * @param {Pick<Part, "id" | "kind" | "title" | "descriptions">} part
   * @param {UnplacedPin[]} left
   * @param {UnplacedPin[]} right
   * @returns {Part}
   */
  add(part, left, right) {
    const { x, width } = this;
    const y = this.bottom;
    const height = TITLE_HEIGHT + Math.max(left.length, right.length, 1) * PIN_STEP;
    this.bottom += height + PART_GAP;
    /** @type {(pinX: number) => (pin: UnplacedPin, index: number) => Pin} */
    const positionPin = (pinX) => (pin, index) => ({ ...pin, x: pinX, y: y + TITLE_HEIGHT + index * PIN_STEP + PIN_STEP / 2 });
    return { ...part, x, y, width, height, pins: [...left.map(positionPin(x)), ...right.map(positionPin(x + width))] };
  }
}

/** The uses of each signal line of a board: descriptions of the inputs to which the line is connected. */
class LineUses {
  /**
   * @param {Board} board
   * @param {Buzzer | null} buzzer
   */
  constructor(board, buzzer) {
    /** @type {Map<string, string[]>} the descriptions of the uses, by line */
    this.descriptions = new Map();
    /** @type {Map<string, number>} the ranks of the lines: 0 for the line that was used first */
    this.ranks = new Map();
    board.chains.forEach(({ clock, data }, chain) => {
      this.add(clock, say.clocksChain(chain));
      this.add(data, say.dataOfChain(chain));
    });
    if (board.matrix) this.addMatrix(board.matrix);
    board.lamps.forEach((line, lamp) => this.add(line, say.lightsLamp(lamp)));
    if (buzzer) this.add(buzzer.place, say.SOUNDS_BUZZER);
  }

  /**
   * Adds the rows and columns of the key matrix.
   * @param {NonNullable<Board["matrix"]>} matrix
   */
  addMatrix({ chain, first, rows, columns }) {
    for (let row = 0; row < rows; row++) this.add(`chain${chain}.${first + row}`, say.drivesRow(row));
    columns.forEach((line, column) => this.add(line, say.readsColumn(column)));
  }

  /**
   * Adds a use of a signal line.
   * @param {string} line
   * @param {string} description the description of the use
   */
  add(line, description) {
    if (!this.descriptions.has(line)) this.ranks.set(line, this.ranks.size);
    this.descriptions.set(line, [...(this.descriptions.get(line) || []), description]);
  }

  /**
   * Returns the rank of a line in the order of first use: clock and data lines, rows, columns, lamps, buzzer.
   * @param {string} line
   */
  usageRank(line) {
    return this.ranks.get(line) || 0;
  }

  /**
   * Returns the descriptions of the uses of a line.
   * @param {string} line
   */
  descriptionsFor(line) {
    return this.descriptions.get(line) || [];
  }

  /**
   * Returns a sentence that describes the uses of a line.
   * @param {string} name the name of the line or of its pin, for the sentence
   * @param {string} line
   */
  describe(name, line) {
    const uses = this.descriptionsFor(line);
    return `${name} ${uses.join(say.AND) || say.NOT_USED}`;
  }
}

/**
 * Returns the four pins of a port, line 0 first.
 * @param {string} chip `rom1` or `ram0.2`
 */
function portPins(chip) {
  return PORT_PIN_NUMBERS.map((number, portLine) => ({ id: `${chip}.${portLine}`, line: `${chip}.${portLine}`, number }));
}

/**
 * Adds the processor to a column, and returns the new part.
 * @param {Column} column
 * @param {TestPin | null} test
 */
function addProcessor(column, test) {
  const descriptions = [say.PROCESSOR_ROLE,
    test ? say.testConnectedTo(test.kind, displayedName(test)) : say.TEST_IS_ONLY_INPUT];
  const pin = { id: "TEST", line: "", label: "TEST", number: TEST_PIN_NUMBER };
  return column.add({ id: "processor", kind: "processor", title: "4004", descriptions }, [], [pin]);
}

/**
 * Returns the name of a button or switch, with blanks instead of underscores.
 * @param {TestPin} test
 */
function displayedName({ name }) {
  return name.replace(/_/g, " ");
}

/**
 * Adds the button or switch at the TEST pin to a column, and returns the new part.
 * @param {Column} column
 * @param {TestPin} test
 */
function addTestPart(column, test) {
  const name = displayedName(test);
  const title = name.length > MAX_TITLE_LENGTH ? `${name.slice(0, MAX_TITLE_LENGTH - 1)}…` : name;
  const descriptions = [say.drivesTest(test.kind, name, test.level)];
  return column.add({ id: "test", kind: "test", title, descriptions }, [], [{ id: "test", line: "", label: test.kind }]);
}

/**
 * Adds a ROM to a column, and returns the new part.
 * @param {Column} column
 * @param {Board["roms"][number]} rom
 * @param {LineUses} uses
 */
function addRom(column, { chip, port }, uses) {
  const isInput = (/** @type {number} */ portLine) => port[3 - portLine] === "i";
  const pins = portPins(`rom${chip}`).map((pin, index) => ({ ...pin, label: say.portPin(isInput(index), index) }));
  const descriptions = pins.map(({ line }, index) => uses.describe(say.lineOfPort(line, isInput(index)), line));
  return column.add({ id: `rom ${chip}`, kind: "rom", title: say.romTitle(chip), descriptions }, [], pins);
}

/**
 * Adds a RAM chip to a column, and returns the new part.
 * @param {Column} column
 * @param {number} bank
 * @param {number} chip
 * @param {LineUses} uses
 */
function addRam(column, bank, chip, uses) {
  const pins = portPins(`ram${bank}.${chip}`).map((pin, index) => ({ ...pin, label: say.portPin(false, index) }));
  const descriptions = pins.map(({ line }) => uses.describe(say.lineOfPort(line, false), line));
  return column.add({ id: `ram ${bank}.${chip}`, kind: "ram", title: say.ramTitle(bank, chip), descriptions }, [], pins);
}

/**
 * Adds a chain to a column, and returns the new part. The part shows all used bits, and the first of the unused bits.
 * @param {Column} column
 * @param {Board["chains"][number]} chain
 * @param {number} number the chain number
 * @param {LineUses} uses
 */
function addChain(column, { clock, data, chips }, number, uses) {
  const bits = Array.from({ length: BITS_PER_CHIP * chips }, (_, bit) => (
    { id: `chain${number}.${bit}`, line: `chain${number}.${bit}`, label: say.bitPin(bit), number: BIT_PIN_NUMBERS[bit % BITS_PER_CHIP] }));
  const usedBits = bits.filter(({ line }) => uses.descriptionsFor(line).length > 0)
    .sort((a, b) => uses.usageRank(a.line) - uses.usageRank(b.line));
  const unusedBits = bits.filter(({ line }) => uses.descriptionsFor(line).length === 0).slice(0, MAX_UNUSED_BITS);
  const descriptions = [say.clockIs(clock), say.dataIs(data), ...usedBits.map(({ line, label }) => uses.describe(label, line))];
  const inputs = [{ id: `clock ${number}`, line: clock, label: say.CLOCK_PIN, number: CLOCK_PIN_NUMBER },
    { id: `data ${number}`, line: data, label: say.DATA_PIN, number: DATA_PIN_NUMBER }];
  const part = { id: `chain ${number}`, kind: "chain", title: say.chainTitle(number, chips), descriptions };
  return column.add(part, inputs, [...usedBits, ...unusedBits]);
}

/**
 * Adds the key matrix to a column, and returns the new part.
 * @param {Column} column
 * @param {NonNullable<Board["matrix"]>} matrix
 */
function addKeys(column, { chain, first, rows, columns }) {
  const rowPins = Array.from({ length: rows }, (_, row) => (
    { id: `row ${row}`, line: `chain${chain}.${first + row}`, label: say.rowPin(row) }));
  const columnPins = columns.map((line, keyColumn) => ({ id: `column ${keyColumn}`, line, label: say.columnPin(keyColumn) }));
  const descriptions = [...rowPins.map(({ line, label }) => say.drivenBy(label, line)), ...columnPins.map(({ line, label }) => (
    say.readAt(label, line)))];
  const part = { id: "keys", kind: "keys", title: say.keysTitle(rows, columns.length), descriptions };
  return column.add(part, [...rowPins, ...columnPins], []);
}

/**
 * Adds all lamps to a column as one part, and returns this part.
 * @param {Column} column
 * @param {string[]} lamps
 * @param {Appearance} appearance
 */
function addLamps(column, lamps, { names, colours }) {
  const pins = lamps.map((line, lamp) => (
    { id: `lamp ${lamp}`, line, label: names[lamp] || say.lampPin(lamp), colour: colours[lamp] || "red" }));
  const descriptions = pins.map(({ line, label }) => say.labelIsAt(label, line));
  return column.add({ id: "lamps", kind: "lamps", title: say.lampsTitle(lamps.length), descriptions }, pins, []);
}

/**
 * Adds the buzzer to a column, and returns the new part.
 * @param {Column} column
 * @param {Buzzer} buzzer
 */
function addBuzzer(column, { place, name }) {
  const descriptions = [say.soundsAtEdges(name, place)];
  return column.add({ id: "buzzer", kind: "buzzer", title: say.BUZZER, descriptions }, [{ id: "buzzer 0", line: place, label: name }], []);
}

/**
 * Returns all wires. A wire runs from the port pin or chain bit of a signal line to each other pin on the line. Another wire runs from the
 * button or switch to the TEST pin.
 * @param {Part[]} parts
 */
function collectWires(parts) {
  /** @type {Map<string, Pin>} */
  const sources = new Map();
  for (const part of parts) {
    if (part.id === "test") sources.set("", part.pins[0]);
    const owner = part.id.replace(" ", "");
    for (const pin of part.pins) if (pin.line !== "" && pin.id === pin.line && pin.line.startsWith(`${owner}.`)) sources.set(pin.line, pin);
  }
  /** @type {Wire[]} */
  const wires = [];
  for (const { pins } of parts) {
    for (const pin of pins) {
      const from = sources.get(pin.line);
      if (from && from !== pin) wires.push({ line: pin.line, from, to: pin });
    }
  }
  return wires;
}

/**
 * Returns the columns of the diagram. An empty column takes no space.
 * @param {boolean[]} isUsed for each column, whether it contains parts
 */
function layOutColumns(isUsed) {
  let right = MARGIN;
  return DIAGRAM_COLUMNS.map(({ wireSpace, width }, index) => {
    const column = new Column(right + wireSpace, width);
    if (isUsed[index]) right += wireSpace + width;
    return column;
  });
}

/**
 * Moves parts and their pins to the positions to which the user dragged the parts.
 * @param {Part[]} parts
 * @param {Positions} positions
 */
function moveParts(parts, positions) {
  for (const part of parts) {
    const point = positions.get(part.id);
    if (!point) continue;
    const [dx, dy] = [point.x - part.x, point.y - part.y];
    Object.assign(part, point);
    for (const pin of part.pins) Object.assign(pin, { x: pin.x + dx, y: pin.y + dy });
  }
}

/**
 * Returns the wiring diagram of a board.
 * @param {Board} board
 * @param {Appearance} appearance
 * @param {Positions} [positions]
 * @returns {WiringDiagram}
 */
export function layOutBoard(board, appearance = { names: [], colours: [], test: null, buzzer: null }, positions = new Map()) {
  const uses = new LineUses(board, appearance.buzzer);
  const hasChips = board.roms.length + board.banks.length > 0;
  const hasFrontPanel = board.matrix !== null || board.lamps.length > 0 || Boolean(appearance.buzzer);
  const columns = layOutColumns([true, hasChips, board.chains.length > 0, hasFrontPanel]);
  const [firstColumn, secondColumn, thirdColumn, fourthColumn] = columns;
  const parts = [addProcessor(firstColumn, appearance.test)];
  if (appearance.test) parts.push(addTestPart(firstColumn, appearance.test));
  for (const rom of [...board.roms].sort((a, b) => a.chip - b.chip)) parts.push(addRom(secondColumn, rom, uses));
  for (const { bank, chips } of board.banks) {
    for (let chip = 0; chip < chips; chip++) parts.push(addRam(secondColumn, bank, chip, uses));
  }
  board.chains.forEach((chain, index) => parts.push(addChain(thirdColumn, chain, index, uses)));
  if (board.matrix) parts.push(addKeys(fourthColumn, board.matrix));
  if (board.lamps.length > 0) parts.push(addLamps(fourthColumn, board.lamps, appearance));
  if (appearance.buzzer) parts.push(addBuzzer(fourthColumn, appearance.buzzer));
  moveParts(parts, positions);
  const width = Math.max(...parts.map((part) => part.x + part.width)) + MARGIN;
  const height = Math.max(...parts.map((part) => part.y + part.height)) + PART_GAP;
  return { parts, wires: collectWires(parts), width, height };
}

/**
 * Returns whether a port line is high.
 * @param {string} digit the port value, as a hexadecimal digit
 * @param {number} line
 */
export function isHigh(digit, line) {
  return ((parseInt(digit, 16) >> line) & 1) === 1;
}

/**
 * Returns whether a ROM port line is high. The level of an input line is the level that the chip reads; the level of an output line is the
 * latched level.
 * @param {string} mask the port directions in the board text, line 3 first
 * @param {{ out: string, in: string }} portLevels the port values, as hexadecimal digits
 * @param {number} line
 */
export function isHighAtRom(mask, portLevels, line) {
  return isHigh(mask[3 - line] === "i" ? portLevels.in : portLevels.out, line);
}
