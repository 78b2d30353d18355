// The prompt commands for breakpoints and watches.

import { watchedPlaces } from "../bench/answers.js";
import { formatAddress, formatBreakpointList } from "./state_text.js";
import { findInstruction, rejectCommand } from "./argument_parsers.js";
import * as say from "../../words/prompt.js";

/**
 * @typedef {import("./debugger_prompt.js").CommandHandler} CommandHandler
 * @typedef {import("./debugger_prompt.js").Prompt} Prompt
 */

/** Matches the arguments of `break`: the location, and optionally the number of the first hit that stops, a condition and a log text. */
const BREAKPOINT_ARGUMENTS = /^(.*?)(?:\s*\bfrom\s+(\d{1,9}))?(?:\s*\bif\s+(.+?))?(?:\s*\blog\s+"([^"]*)")?$/;
/** The word for the number of the breakpoint that was set last, as in gdb. */
export const LAST_BREAKPOINT = "$bpnum";
/** Matches the name of a RAM nibble. The bench watches RAM nibbles. The command `continue` watches any other place. */
const RAM_NIBBLE_NAME = /^ram\.[0-7]\.\w+$/i;

export class BreakpointCommands {
  /** @param {Prompt} prompt */
  constructor(prompt) {
    this.prompt = prompt;
    /** The register, port or lamp whose change stops `continue`, "" for none. It is never a RAM nibble, because the bench watches RAM. */
    this.watchedPlace = "";
    /** The number of the breakpoint that was set last, 0 for none. */
    this.lastBreakpointNumber = 0;
  }

  /** The list of breakpoints. */
  get list() {
    return this.prompt.session.breakpoints;
  }

  /**
   * The handlers by command name.
   * @returns {Record<string, CommandHandler>}
   */
  get handlers() {
    /** @type {(isOn: boolean) => CommandHandler} */
    const createOnOffHandler = (isOn) => async (argumentText) => {
      if (argumentText === "") rejectCommand(say.BREAKPOINT_NUMBER_MISSING);
      for (const id of this.parseNumbers(argumentText)) this.list.change(id, { isOn });
      await this.applyBreakpoints();
    };
    return {
      break: async (argumentText) => {
        await this.add(argumentText);
      },
      delete: (argumentText) => this.remove(argumentText),
      disable: createOnOffHandler(false),
      enable: createOnOffHandler(true),
      watch: (argumentText) => this.watch(argumentText),
    };
  }

  /**
   * Adds the breakpoints of the bench to the list, and removes the breakpoints that the bench no longer has. Keeps breakpoints with a
   * condition, a hit count or a log text, because the bench never has such breakpoints.
   */
  syncWithBench() {
    const { map, debugger: { session } } = this.prompt.session;
    for (const address of session.breakpointAddresses) {
      if (!this.list.findByAddress(address)) this.list.add({ line: map.lineOf(address), address });
    }
    const benchBreakpoints = this.list.locatedBreakpoints.filter(({ condition, note, from }) => !condition && !note && from === 1);
    for (const { id, address } of benchBreakpoints) if (!session.breakpointAddresses.includes(address)) this.list.remove(id);
  }

  /**
   * Sets a breakpoint, replacing any breakpoint at the same address. Resolves to the number of the new breakpoint. Fails if the location,
   * the condition or the log text has an error.
   * @param {string} argumentText the arguments: location, number of the first hit that stops, condition and log text
   */
  async add(argumentText) {
    const { session, machine, callbacks } = this.prompt;
    const [, place, from = "1", condition = "", note = ""] = /** @type {RegExpExecArray} */ (BREAKPOINT_ARGUMENTS.exec(argumentText));
    const { line, address } = findInstruction(place, session);
    const previousBreakpoint = this.list.findByAddress(address);
    if (previousBreakpoint) this.list.remove(previousBreakpoint.id);
    const newBreakpoint = this.list.add({ line, address, from: Math.max(1, Number(from)), condition, note });
    const { errors } = await session.applyBreakpoints();
    const breakpointError = errors.find(([id]) => id === newBreakpoint.id);
    if (breakpointError) {
      this.list.remove(newBreakpoint.id);
      if (previousBreakpoint) this.list.add(previousBreakpoint);
      await this.applyBreakpoints();
      rejectCommand(breakpointError[1]);
    }
    await machine.saveAndReport();
    const { address: placedAddress } = this.list.get(newBreakpoint.id) || newBreakpoint;
    callbacks.print(say.breakpointAt(newBreakpoint.id, formatAddress(session, placedAddress)));
    this.lastBreakpointNumber = newBreakpoint.id;
    return newBreakpoint.id;
  }

  /**
   * Changes a breakpoint. If the new condition or log text has an error, restores the breakpoint and fails.
   * @param {number} id
   * @param {Partial<import("../debug/breakpoints.js").SavedBreakpoint>} changes
   */
  async change(id, changes) {
    const { session, machine } = this.prompt;
    const previous = this.list.get(id);
    this.list.change(id, changes);
    const breakpointError = (await session.applyBreakpoints()).errors.find(([other]) => other === id);
    if (breakpointError && previous) {
      this.list.change(id, previous);
      await this.applyBreakpoints();
      rejectCommand(breakpointError[1]);
    }
    await machine.saveAndReport();
  }

  /** Sends the list of breakpoints to the bench, and saves the session. */
  async applyBreakpoints() {
    await this.prompt.session.applyBreakpoints();
    await this.prompt.machine.saveAndReport();
  }

  /**
   * Parses breakpoint numbers; fails if a word is not the number of a breakpoint.
   * @param {string} argumentText
   */
  parseNumbers(argumentText) {
    return argumentText.split(/\s+/).filter(Boolean).map((word) => {
      const id = word === LAST_BREAKPOINT ? this.lastBreakpointNumber : /^\d+$/.test(word) ? Number(word) : 0;
      return this.list.get(id) ? id : rejectCommand(say.noBreakpointMessage(word));
    });
  }

  /**
   * Deletes breakpoints or a watch.
   * @param {string} argumentText the breakpoint numbers, or the watched place; or "" to delete all breakpoints
   */
  async remove(argumentText) {
    if (/[a-z]/i.test(argumentText.replace(LAST_BREAKPOINT, ""))) return this.unwatch(argumentText);
    const ids = argumentText === "" ? this.list.all.map(({ id }) => id) : this.parseNumbers(argumentText);
    for (const id of ids) this.list.remove(id);
    return this.applyBreakpoints();
  }

  /**
   * Sets a watch. For a place that is not a RAM nibble, fails if `continue` already watches another place.
   * @param {string} argumentText the place to watch
   */
  async watch(argumentText) {
    const { prompt, watchedPlace } = this;
    const place = prompt.parsePlace(argumentText, "watch");
    if (RAM_NIBBLE_NAME.test(place)) {
      await prompt.serve(`watch ${place.slice("ram.".length).replace(".", " ")}`);
      prompt.callbacks.print(say.placeIsWatchedMessage(place));
      return;
    }
    if (watchedPlace !== "" && watchedPlace !== place) {
      rejectCommand(say.onlyOneWatchAllowed(watchedPlace));
    }
    this.watchedPlace = place;
    prompt.callbacks.print(say.watchedByContinue(place));
  }

  /**
   * Deletes a watch; fails if the place is not watched.
   * @param {string} argumentText the watched place
   */
  async unwatch(argumentText) {
    const place = this.prompt.parsePlace(argumentText, "delete");
    if (RAM_NIBBLE_NAME.test(place)) await this.prompt.serve(`unwatch ${place.slice("ram.".length).replace(".", " ")}`);
    else if (this.watchedPlace === place) this.watchedPlace = "";
    else rejectCommand(say.notWatchedMessage(place));
  }

  /** The names of the registers, ports, lamps and RAM nibbles that are watched. */
  get watchedPlaces() {
    const [answer] = this.prompt.session.debugger.session.ask("watches\n");
    return [...watchedPlaces(answer), ...(this.watchedPlace ? [this.watchedPlace] : [])];
  }

  /** The text of `info watches`. */
  get watchesText() {
    const places = this.watchedPlaces.map((place) => (place === this.watchedPlace ? say.watchOfContinue(place) : place));
    return places.join("\n") || say.NOTHING_WATCHED;
  }

  /** The text of `info breakpoints`. */
  get breakpointsText() {
    return formatBreakpointList(this.prompt.session, (id) => this.prompt.stopCommands.describeActions(id));
  }
}
