// The views of the board and its processor. `SnapshotView` reads each snapshot and passes the changes to these views.

import { readBoard, parseRefusal } from "../core/bench/answers.js";
import { CellEditor } from "./machine/cell_editor.js";
import { Changes } from "./machine/changes.js";
import { Cell, Switch, block, button } from "./ui/dom.js";
import { Face } from "../core/board/face.js";
import { FrontView } from "./board/front_view.js";
import { GoToView } from "./machine/go_to_view.js";
import { ListingView } from "./machine/listing_view.js";
import { SnapshotReader } from "../core/bench/snapshot.js";
import { PortsView, RegistersView } from "./machine/machine_view.js";
import { hex } from "../core/bench/numbers.js";
import { RamView } from "./machine/ram_view.js";
import { PrinterView } from "./board/printer_view.js";
import { StackView } from "./machine/stack_view.js";
import { PopupMessage } from "./ui/popup_message.js";
import { WiringView } from "./board/wiring_view.js";
import * as say from "../words/page.js";

/**
 * @typedef {import("../core/board/board_keys.js").BoardKey} BoardKey
 * @typedef {import("../core/bench/snapshot.js").StateChanges} StateChanges
 * @typedef {import("../core/bench/snapshot.js").FrontPanelChanges} FrontPanelChanges
 * @typedef {import("../core/machine/source_map.js").SourceMap} SourceMap
 */

/**
 * The callbacks of SnapshotView.
 * @typedef {object} SnapshotViewCalls
 * @property {(node: HTMLButtonElement, key: BoardKey) => void} connectKey Connects a button to its key.
 * @property {() => boolean} isRunning Returns true if time is running.
 * @property {() => boolean} isFast Returns true if the speed is too high for the disassembly to follow each instruction.
 * @property {() => boolean} isWiringShown Returns true if the Wiring tab is in front.
 * @property {(lines: string) => Promise<string[]>} ask Resolves to the bench's answers to queries.
 * @property {(line: string) => Promise<string | null>} serveLine Sends a line to the bench. Resolves to its answer, or to null after a
 *   failure. A failure has already been reported.
 * @property {(number: number) => string} describeRefusal Returns the message for a numbered error of the bench.
 * @property {(name: string) => string} explain Returns the manual's description of a register or another cell, or "" if there is
 *   none.
 * @property {(counter: number) => void} showCounterLine Shows the program counter's line in the source.
 * @property {(breakpoints: string[]) => void} receiveBreakpoints Receives the addresses of the bench's breakpoints, each as three
 *   hexadecimal digits.
 * @property {(address: number) => void} toggleBreakpoint Sets or removes the breakpoint at an address.
 * @property {(address: number) => void} revealAddress Shows an address in the source after the disassembly has moved to it.
 * @property {(face: string, number: number) => void} watchLamps Asks the bench to measure the duty cycle of each lamp; `face` is the
 *   text of the front panel's comments and `number` the panel's serial number.
 * @property {(cycles: number) => number} durationOf Returns the duration of a number of cycles in milliseconds at the current speed.
 *   Returns Infinity at full speed and at one instruction per second.
 * @property {(error: unknown) => void} reportFailure Reports an error that a call threw.
 */

/** @typedef {import("./board/printer_view.js").PrinterCalls & SnapshotViewCalls} SnapshotCalls */

/**
 * A listener for changes of lamps and keys. `lamps` has one character per lamp, `*` if the lamp is on. `keyCount` is the number of keys
 * that are down.
 * @typedef {{ handleLamps: (lamps: string) => void, handleKeyCount: (keyCount: number) => void }} Watcher
 */

/** The interval in milliseconds between updates of the views whose values change too quickly to read while time is running fast. */
const DRAW_INTERVAL_MS = 100;

export class SnapshotView {
  /** @param {SnapshotCalls} calls */
  constructor(calls) {
    this.calls = calls;
    this.board = readBoard([]);
    this.face = new Face("");
    this.reader = new SnapshotReader();
    /** The time of the last complete update, in milliseconds. */
    this.lastDrawTime = 0;
    this.changes = new Changes();
    this.front = new FrontView(calls.connectKey, calls.watchLamps);
    this.printer = new PrinterView(calls);
    this.message = new PopupMessage();
    this.editor = new CellEditor({
      poke: async (place, value) => this.refusalMessage(await calls.serveLine(`poke ${place} ${value}\n`)),
      showMessage: (message, cell) => this.message.show(message, cell),
    });
    this.registers = new RegistersView(this.changes, this.editor, calls.explain);
    this.ram = new RamView(this.changes, this.editor, (bank, srcByte, isSet, cell) => (
      this.toggleWatch(isSet, `${bank} 0x${hex(srcByte, 2)}`, cell)));
    this.ports = new PortsView(this.changes, this.editor, calls.explain);
    this.wiring = new WiringView(calls.isWiringShown);
    /** @type {Watcher | null} the tour's listener for changes of lamps and keys, or null if no tour is open */
    this.watcher = null;
    this.listing = new ListingView(calls.ask, calls.toggleBreakpoint, () => this.showListing());
    this.goTo = new GoToView(this.listing, calls.toggleBreakpoint, (address) => {
      this.showListing();
      calls.revealAddress(address);
    });
    this.stack = new StackView(this.changes, calls.explain, calls.ask, (address) => this.goTo.show(address));
    this.sourceStatus = new Cell(block("source-status"));
    this.testText = new Cell(button("test"));
    /** On if the TEST pin is at 1. */
    this.testSwitch = new Switch((isOn) => button("test").setAttribute("aria-pressed", String(isOn)));
  }

  /**
   * Sets or clears a watch. If the bench rejects the command, shows the error message near the click.
   * @param {boolean} isSet true if the watch is set and must be cleared
   * @param {string} place the bank and the nibble, in the syntax of the `watch` command
   * @param {HTMLElement} [anchor] the element next to which the message appears
   */
  async toggleWatch(isSet, place, anchor) {
    const refusal = this.refusalMessage(await this.calls.serveLine(`${isSet ? "un" : ""}watch ${place}\n`));
    if (refusal) this.message.show(say.notSetMessage(refusal), anchor);
  }

  /**
   * Returns the error message for a rejected command or a failed call, or "" if the command was accepted.
   * @param {string | null} answer the answer to the command; null if the call has failed
   */
  refusalMessage(answer) {
    if (answer === null) return say.NOT_DONE;
    const refusal = parseRefusal(answer);
    return refusal ? `${this.calls.describeRefusal(refusal.number)}.` : "";
  }

  /** The program counter as three hexadecimal digits, or "" before the first snapshot. */
  get counter() {
    return this.reader.registers ? this.reader.registers.counter : "";
  }

  /**
   * Draws a new board in place of the current one.
   * @param {string[]} boardLines the lines of the bench's answer to the query `board`
   * @param {string} boardText the board's text, which declares its front panel
   */
  draw(boardLines, boardText) {
    this.board = readBoard(boardLines);
    this.reader.forget();
    this.changes.forgetCells();
    this.editor.close(false);
    const face = new Face(boardText);
    this.face = face;
    this.front.draw(this.board, face);
    this.printer.draw(this.board, face);
    this.ram.draw(this.board);
    this.ports.draw(this.board, face);
    this.wiring.discardLevels();
    this.discardRom();
  }

  /** Discards the cached contents of ROM, which may have changed. */
  discardRom() {
    this.listing.discardLines();
    this.stack.invalidateNotes();
  }

  /** @param {string} boardText the text of the same board, with another front panel */
  changeFace(boardText) {
    const face = new Face(boardText);
    this.face = face;
    this.front.changeFace(this.board, face);
    this.printer.changeFace(this.board, face);
  }

  /**
   * Shows the names of the program in ROM.
   * @param {SourceMap | null} map null if the source is not the program in ROM
   * @param {string} reason the reason why `map` is null; "" otherwise
   */
  showLabels(map, reason) {
    this.sourceStatus.set(reason);
    this.listing.showLabels(map);
    this.goTo.setNames(map);
    this.showListing();
  }

  /**
   * Shows a snapshot. Lamps, displays and keys are updated immediately. While time is running fast, all other views are updated less often.
   * @param {string[]} snapshot
   * @param {boolean} [isIntermediate] true if time is running and another snapshot follows
   * @param {import("../core/engine/brightness_meter.js").LitShares | null} [litShares] the brightness measurements of the lamps
   */
  show(snapshot, isIntermediate = false, litShares = null) {
    const changedValues = this.reader.readSnapshot(snapshot);
    this.showLamps(changedValues.lamps, isIntermediate && this.calls.isRunning() ? litShares : null);
    this.showFront(changedValues);
    if (isIntermediate && this.calls.isFast() && performance.now() - this.lastDrawTime < DRAW_INTERVAL_MS) return;
    this.updateThrottledViews();
    if (this.calls.isRunning()) this.changes.clearWhileRunning();
    else this.changes.markWhilePaused();
  }

  /** Updates the views that `show` updates less often while time is running fast. */
  updateThrottledViews() {
    this.lastDrawTime = performance.now();
    this.showStateChanges(this.reader.readStateChanges());
  }

  /**
   * Shows the perceived brightness of the lamps while time is running, otherwise their state at this instant.
   * @param {string | undefined} lamps one character per lamp, `*` if the lamp is on; undefined if no lamp has changed
   * @param {import("../core/engine/brightness_meter.js").LitShares | null} litShares
   */
  showLamps(lamps, litShares) {
    const { front } = this;
    const marks = lamps === undefined ? front.marks : lamps;
    if (litShares && litShares.face === front.faceNumber) front.showBrightness(marks, litShares, this.calls.durationOf(litShares.cycles));
    else if (lamps !== undefined || front.showsBrightness) front.showLamps(marks);
  }

  /** @param {FrontPanelChanges} changedValues */
  showFront({ lamps, keys, test }) {
    if (keys) this.front.showKeys(keys);
    if (test !== undefined) {
      this.testText.set(`TEST ${test}`);
      this.testSwitch.set(test === "1");
      this.front.showTestPin(test);
      this.wiring.showTestPin(test === "1");
    }
    if (this.watcher && (keys || lamps !== undefined)) {
      this.watcher.handleKeyCount(this.front.keysDown.count);
      this.watcher.handleLamps(this.front.marks);
    }
  }

  /** @param {StateChanges} changedValues */
  showStateChanges({ registers, ports, breakpoints, watches, ram = [] }) {
    if (ports) {
      this.ports.show(ports);
      this.wiring.showPorts(ports);
    }
    if (registers) {
      this.registers.show(registers);
      this.stack.show(registers);
      this.listing.counter = parseInt(registers.counter, 16);
    }
    for (const entry of ram) {
      this.ram.show(entry);
      this.wiring.showRam(entry);
    }
    if (watches) this.ram.showWatches(watches);
    if (breakpoints) this.calls.receiveBreakpoints(breakpoints);
    if (registers || breakpoints || this.listing.lines.length === 0) this.showListing();
  }

  /** @param {Map<number, import("../core/machine/breakpoint_marks.js").BreakpointMark>} marks the breakpoint marks, by address */
  showBreakpoints(marks) {
    this.listing.breakpoints = new Map([...marks].map(([address, mark]) => [hex(address, 3), mark]));
    this.showListing();
  }

  showListing() {
    this.calls.showCounterLine(this.listing.counter);
    const isRunning = this.calls.isRunning();
    this.listing.show(this.calls.isFast()).catch(this.calls.reportFailure);
    this.stack.updateNotes(this.listing.map, isRunning).catch(this.calls.reportFailure);
  }
}
