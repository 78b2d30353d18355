// Creates the report of `mcs4 explain`. For each rejected line of a script, the report contains the reason and the line. If the bench rejected a
// command because of an error in the text after it, and the line of the error is known, the report contains that line instead.
import { parseRefusal } from "../core/bench/answers.js";
import { INVALID_CHARACTER, LINE_TOO_LONG, MAX_LINE_LENGTH, NOT_ASCII, opensText } from "../core/bench/inputs.js";
import { parseNumber } from "../core/bench/numbers.js";
import { ADDRESS_COUNT } from "../core/bench/rom_bytes.js";
import * as say from "../words/commands.js";
import { MAX_SHOWN_LENGTH, UNKNOWN_FORM, RejectedTexts, findSpellingHint, describeRefusal } from "./rejected_texts.mjs";

/**
 * @typedef {import("../core/bench/script_answers.js").AnsweredInput} AnsweredInput
 */

/** @type {Record<string, "board" | "program">} the kinds of texts in a script, by the command or query that precedes the text */
const TEXT_KINDS = { wire: "board", wiring: "board", asm: "program", map: "program", errors: "program" };

/** @type {(line: string) => string} describes the first invalid character in a line; "" if there is none */
function describeInvalidCharacter(line) {
  const [character = ""] = INVALID_CHARACTER.exec(line) || [];
  if (character === "") return "";
  return character > "\x7f" ? say.characterHint(character) : say.byteHint(character.charCodeAt(0).toString(16).toUpperCase().padStart(2, "0"));
}

/** The rejected lines of a script. */
export class RejectedLines {
  /**
   * @param {import("../core/engine/engine_host.js").EngineHost} engine
   * @param {string[]} lines the script's lines
   * @param {((address: number) => string) | null} describeAddress describes an address by its label and source line; null if there is no source
   */
  constructor(engine, lines, describeAddress) {
    this.engine = engine;
    this.lines = lines;
    this.describeAddress = describeAddress;
    /**
     * The text of the current board; "" if there is no board. The value is null if the text is unknown because the board was wired before the script.
     * @type {string | null}
     */
    this.boardText = null;
  }

  /**
   * Returns the error in a rejected text, with its line number in that text. Returns null if the line is not known.
   * @param {AnsweredInput} answeredInput
   * @param {{ number: number, line: number }} refusal
   */
  findTextError({ input }, { number, line }) {
    const { text: textLines, kind } = input;
    if (number === LINE_TOO_LONG || number === NOT_ASCII) {
      const index = textLines.findIndex((textLine) => (number === NOT_ASCII ? INVALID_CHARACTER.test(textLine) : textLine.length > MAX_LINE_LENGTH));
      return index < 0 ? null : { line: index + 1, words: describeRefusal(number) };
    }
    const makeUnnamedText = (/** @type {string} */ text) => ({ name: "", text, linesBefore: 0 });
    const text = textLines.map((textLine) => `${textLine}\n`).join("");
    const board = this.boardText === null ? undefined : makeUnnamedText(this.boardText);
    const rejectedTexts = new RejectedTexts(this.engine, { board, program: makeUnnamedText(text) });
    const textKind = TEXT_KINDS[kind];
    return rejectedTexts.findError({ text: textKind, line: textKind === "board" ? 0 : line, number, words: "" }, text);
  }

  /**
   * Returns the report line about the address in an input, as a list. The list is empty if the input has no address, or if no source is
   * known.
   * @param {AnsweredInput} answeredInput
   */
  formatAddressLines({ input: { line, words: [kind, first = "", second = ""] } }) {
    if (!this.describeAddress || opensText(line)) return [];
    const addressWord = /^(break|unbreak|list)$/.test(kind) ? first : kind !== "poke" ? "" : first === "pc" ? second
      : first.startsWith("rom.") ? first.slice("rom.".length) : "";
    const address = parseNumber(addressWord);
    return address >= 0 && address < ADDRESS_COUNT ? [`    ${this.describeAddress(address)}`] : [];
  }

  /**
   * Returns the report lines about a rejected input.
   * @param {AnsweredInput} answeredInput
   * @param {{ number: number, line: number }} refusal
   */
  describeInput(answeredInput, refusal) {
    const { input, lineNumber } = answeredInput;
    const { number } = refusal;
    const error = opensText(input.line) ? this.findTextError(answeredInput, refusal) : null;
    const shownLine = this.lines[lineNumber + (error ? error.line : 0) - 1];
    const hint = number === NOT_ASCII ? describeInvalidCharacter(shownLine) : number === UNKNOWN_FORM && error ? findSpellingHint(shownLine) : "";
    return [
      say.rejectedLine(lineNumber, number, error ? error.line : 0, `${error ? error.words : describeRefusal(number)}${hint}`),
      `    ${shownLine.slice(0, MAX_SHOWN_LENGTH)}`, ...this.formatAddressLines(answeredInput),
    ];
  }

  /**
   * Returns the report lines about all rejected inputs, and about the first input without an answer.
   * @param {AnsweredInput[]} inputs
   * @param {string} openingLine the first answer line
   */
  createReport(inputs, openingLine) {
    const openingRefusal = parseRefusal(openingLine);
    const lines = openingRefusal ? [say.rejectedWithNumber(openingRefusal.number, describeRefusal(openingRefusal.number))] : [];
    if (openingLine === "session 0") this.boardText = "";
    for (const [index, answeredInput] of inputs.entries()) {
      const { input, lineNumber, answer } = answeredInput;
      if (answer === "") {
        const shownLine = `    ${input.line.slice(0, MAX_SHOWN_LENGTH)}`;
        return [...lines, say.notAnsweredMessage(lineNumber, index === inputs.length - 1), shownLine, ...this.formatAddressLines(answeredInput)];
      }
      const refusal = parseRefusal(answer);
      if (refusal) lines.push(...this.describeInput(answeredInput, refusal));
      else if (input.kind === "wire") this.boardText = input.text.map((line) => `${line}\n`).join("");
    }
    return lines;
  }
}
