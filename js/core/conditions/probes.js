// Builds the queries that report the values of places, and reads the answers. `trace` reports most places. `state` reports the places in
// STATE_PLACES.

import { MAX_PLACES } from "../bench/inputs.js";
import { stateValue } from "../bench/state_line.js";
import { rowValues } from "../engine/forecast_answers.js";
import { STATE_PLACES } from "./values.js";

/** @typedef {import("../engine/forecast_answers.js").ForecastAnswers} ForecastAnswers */

/** The queries that report the values of a list of places. */
export class Probes {
  /** @param {string[]} places */
  constructor(places) {
    this.places = places;
    const tracedPlaces = places.filter((place) => !STATE_PLACES.has(place));
    this.groups = [];
    for (let from = 0; from < tracedPlaces.length; from += MAX_PLACES) this.groups.push(tracedPlaces.slice(from, from + MAX_PLACES));
    this.queriesState = tracedPlaces.length < places.length;
    /** The query lines. */
    this.lines = this.groups.map((group) => `trace 1 ${group.join(" ")}\n`).join("") + (this.queriesState ? "state\n" : "");
  }

  /**
   * Returns the values of the places, in order.
   * @param {ForecastAnswers} answers the answers to the queries
   * @returns {string[]}
   */
  takeValues(answers) {
    const tracedValues = this.groups.flatMap(() => rowValues(answers.takeTrace().row));
    if (!this.queriesState) return tracedValues;
    const state = answers.take();
    let index = 0;
    return this.places.map((place) => (STATE_PLACES.has(place) ? stateValue(state, place) : tracedValues[index++]));
  }
}
