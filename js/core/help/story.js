// Parses the story of an example: guided text in steps, with links that run actions on the page. The first line is `# TITLE`. Each step
// starts with `## TITLE`. Blank lines separate paragraphs. `[WORDS](ACTION)` is a link. The actions are:
//
//     run, stop, back, forward                runs the machine; pauses it; goes back to the previous stop; undoes the last `back`
//     go to LABEL, run to LABEL               shows a line of the program; runs the machine to a line
//     back to NAME                            goes back to the moment before the last change of, for example, r11, ram.0.0x12 or rom0.2
//     press KEY, release KEY                  presses a key (which stays down while the machine is paused); releases a key
//     show VIEW                               shows a text or a panel

/**
 * @typedef {import("./tour.js").ParagraphPiece} ParagraphPiece
 * @typedef {import("./tour.js").TourStep} TourStep
 *
 * The name of an action.
 * @typedef {"run" | "stop" | "back" | "forward" | "go to" | "run to" | "back to" | "press" | "release" | "show"} ActionName
 *
 * The action of a link. `argument` is "" for an action without an argument.
 * @typedef {{ name: ActionName, argument: string }} StoryAction
 */

/** The views that the action `show` accepts: texts in the order of their tabs, and panels. */
export const STORY_TEXTS = ["program", "board", "tests", "properties", "wiring", "waves"];
export const STORY_PANELS = ["front", "processor", "listing", "memory", "ports"];

/** Matches the text of an action. Captures the name of an action without an argument, or the name and the argument. */
const ACTION_PATTERN = /^(?:(run|stop|back|forward)|(go to|run to|back to|press|release|show) ([^ ]+))$/;
/** Matches a link, and captures its words and its action. */
const LINK_PATTERN = /\[([^\]]+)\]\(([^()]+)\)/g;

/**
 * Parses the action of a link. Returns null if the action is invalid.
 * @param {string} words
 * @returns {StoryAction | null}
 */
function parseAction(words) {
  const match = ACTION_PATTERN.exec(words);
  if (!match) return null;
  const [, simpleName, name, argument = ""] = match;
  if (name === "show" && !STORY_TEXTS.includes(argument) && !STORY_PANELS.includes(argument)) return null;
  return { name: /** @type {ActionName} */ (simpleName || name), argument };
}

/**
 * Splits a paragraph into pieces of plain text and links. The words of a link without a valid action become plain text.
 * @param {string} text
 * @returns {ParagraphPiece[]}
 */
function splitParagraph(text) {
  /** @type {ParagraphPiece[]} */
  const parts = [];
  let end = 0;
  for (const match of text.matchAll(LINK_PATTERN)) {
    const [linkMarkup, linkText, actionText] = match;
    const storyAction = parseAction(actionText);
    parts.push(text.slice(end, match.index), storyAction ? { linkText, action: storyAction } : linkText);
    end = (match.index || 0) + linkMarkup.length;
  }
  return [...parts, text.slice(end)].filter((part) => part !== "");
}

/**
 * Parses a step of a story.
 * @param {string} text
 * @returns {TourStep}
 */
function parseStep(text) {
  const [title, ...paragraphs] = text.trim().split(/\n[ \t]*\n/).map((paragraph) => paragraph.replace(/\s+/g, " ").trim());
  return { title, paragraphs: paragraphs.map(splitParagraph), program: "", isDone: () => false };
}

/**
 * Returns the steps of a story; an empty list if the text has no steps.
 * @param {string} text
 * @returns {TourStep[]}
 */
export function parseStory(text) {
  return text.split(/^## /m).slice(1).map(parseStep);
}
