// The guide: the help, the tour with the first program, the stories of the examples, and the hints in the console's input.

import { addKeyRows } from "../commands/key_list.js";
import { HelpView } from "./help_view.js";
import { LinesView } from "../lines/lines_view.js";
import { readLineForms } from "../../core/help/manual.js";
import { shortenName } from "../../core/session/names.js";
import { runAction } from "../../core/help/story_actions.js";
import { parseStory } from "../../core/help/story.js";
import { isTourText } from "../../core/help/tour.js";
import { TourView } from "./tour_view.js";
import * as say from "../../words/help.js";

/**
 * @typedef {import("../lines/lines_view.js").LinesCalls} LinesCalls
 * @typedef {import("../../core/engine/examples.js").Example} Example
 * @typedef {import("../../core/help/manual.js").ManualSection} ManualSection
 */

/**
 * The callbacks through which the guide acts on the page.
 * @typedef {object} GuidePageCalls
 * @property {(example: Example) => Promise<boolean>} openExample Opens a new session from an example. Resolves to true if the session was
 *   created.
 * @property {() => void} showSource Brings the source to the front.
 * @property {() => string} program Returns the text of the source.
 * @property {(program: string) => void} replaceSource Replaces the source with a program, as one edit.
 * @property {(target: import("../../core/help/tour.js").Target) => void} reveal Brings the text or panel that contains the target of a tour
 *   step to the front.
 * @property {(program: string, message: string) => void} replaceWithUndo Replaces the source with a program, and shows a message that
 *   offers undo.
 * @property {import("../../core/help/story_actions.js").ActionCallbacks} storyCalls The callbacks for links in stories.
 * @property {() => void} handleTourEnd Handles the end of the tour or of a story.
 * @property {(reason: string) => void} showRefusal Shows the reason why a story cannot be opened.
 */

/** @typedef {Omit<LinesCalls, "openHelp"> & GuidePageCalls} GuideCalls */

export class Guide {
  /**
   * @param {ManualSection[]} manual
   * @param {GuideCalls} calls
   */
  constructor(manual, calls) {
    this.calls = calls;
    this.help = new HelpView(addKeyRows(manual));
    this.lines = new LinesView(readLineForms(manual), {
      send: calls.send,
      formatAnswer: calls.formatAnswer,
      openHelp: (query) => this.help.open(query),
    });
    this.tour = new TourView({
      openExample: (example) => this.openTourExample(example),
      replaceProgram: (program) => this.replaceProgram(program),
      isProgramInSource: (program) => calls.program() === program,
      reveal: calls.reveal,
      executeAction: (action) => runAction(action, calls.storyCalls),
      handleTourEnd: calls.handleTourEnd,
    });
  }

  /**
   * Opens a new session from the tour's example, closes the help and shows the source. Resolves to true if the session was created.
   * @param {Example} example
   */
  async openTourExample(example) {
    const wasOpened = await this.calls.openExample(example);
    if (wasOpened) {
      this.help.close();
      this.calls.showSource();
    }
    return wasOpened;
  }

  /**
   * Opens an example's story next to the current session. If the example has no story, reports that.
   * @param {string} name the name of the example
   * @param {Example[]} examples
   */
  showStory(name, examples) {
    const { story = "" } = examples.find((example) => example.name === name) || {};
    const steps = parseStory(story);
    if (steps.length > 0) this.tour.open(steps);
    else this.calls.showRefusal(say.noSuchStoryMessage(shortenName(name)));
  }

  /** Closes the story, if one is open. Called when another session is opened. */
  endStory() {
    if (this.tour.isOn && this.tour.isStory) this.tour.close();
  }

  /**
   * Shows the source and replaces it with a program. If the old source is not a program of the tour, a message offers to restore it.
   * @param {string} program
   */
  replaceProgram(program) {
    const { calls } = this;
    calls.showSource();
    if (isTourText(calls.program())) calls.replaceSource(program);
    else calls.replaceWithUndo(program, say.PROGRAM_IN_SOURCE);
  }
}
