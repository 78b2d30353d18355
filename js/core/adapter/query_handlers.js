// Handlers for requests about the paused machine: stack, scopes, values, memory and source.

import { LAST_ADDRESS } from "../bench/numbers.js";
import { KEYWORDS } from "../conditions/parser.js";
import { PLACE_WORDS } from "../conditions/places.js";
import { CONSOLE_FIRST_WORDS } from "./console.js";
import { listInstructionRows } from "./disassembly.js";
import { readStackFrames } from "./frames.js";
import { referenceNumberForPlace, readMemory, formatReference, writeMemory } from "./memory.js";
import { requestedBase, readFormatFlag, convertToBase, formatInBase } from "./number_format.js";
import { isCall, neverContinues, jumpTarget, instructionWords } from "../engine/rom_codes.js";
import { getField } from "../server/framing.js";
import { listNamedKeys } from "../testing/test_text.js";
import { fail, requireNumber, requireText } from "./dap_protocol.js";
import { findSettablePlace, setPlace } from "./place_assignment.js";
import { expressionHover, evaluateExpression } from "./expression_values.js";
import * as say from "../../words/adapter.js";
import { lineReference } from "../../words/stops.js";

/**
 * @typedef {import("./session_launch.js").LaunchResult} LaunchResult
 * @typedef {import("./scopes.js").Scopes} Scopes
 * @typedef {import("./expression_values.js").ExpressionContext} ExpressionContext
 */

/** The source reference of the text disassembled from ROM. */
const ROM_SOURCE_REFERENCE = 1;
/** The maximum number of instructions in a response to `disassemble`. */
const MAX_ROWS = 8192;
/** The maximum number of completions in a response. */
const MAX_COMPLETIONS = 500;
/** Matches a console line that ends where a key name is expected, and captures the typed start of this name. */
const UNFINISHED_KEY_NAME = /(?:^\s*(?:press|release|keys)\s(?:.*\s)?|\bkey\s+)(\S*)$/;
/** The maximum number of instructions that `stepInTargets` scans for calls. */
const MAX_SCANNED_INSTRUCTIONS = 256;

export class QueryHandlers {
  /**
   * @param {LaunchResult} launchResult
   * @param {Scopes} scopes
   * @param {ExpressionContext} expressionContext
   * @param {{ firstLine: number, firstColumn: number }} numbering the client's numbers for the first line and the first column: 0 or 1
   */
  constructor(launchResult, scopes, expressionContext, { firstLine, firstColumn }) {
    this.launchResult = launchResult;
    this.session = launchResult.session;
    this.scopes = scopes;
    this.expressionContext = expressionContext;
    this.firstLine = firstLine;
    this.firstColumn = firstColumn;
  }

  // --- the source ---

  get programName() {
    return this.launchResult.program || say.ROM_CONTENTS;
  }

  get source() {
    const { program } = this.launchResult;
    if (program === "") return { name: "ROM", sourceReference: ROM_SOURCE_REFERENCE, origin: say.DISASSEMBLED_FROM_ROM };
    return { name: program.replace(/^.*[\\/]/, ""), path: program };
  }

  /**
   * Returns whether a source that the client names is the debugged program.
   * @param {any} source
   */
  isProgram(source) {
    const { program, nameOf } = this.launchResult;
    if (program === "") return getField(source, "sourceReference") === ROM_SOURCE_REFERENCE;
    const path = getField(source, "path");
    return typeof path === "string" && path !== "" && nameOf(path) === program;
  }

  /** @param {any} args */
  sourceText(args) {
    if (!this.isProgram(getField(args, "source") || args)) fail(say.onlySourceMessage(this.programName));
    return { content: this.session.program, mimeType: "text/x-asm" };
  }

  // --- the stack ---

  /** @param {any} args */
  stackTrace(args) {
    const stack = readStackFrames(this.session);
    const firstFrame = Math.max(0, requireNumber(args, "startFrame", 0));
    const levels = requireNumber(args, "levels", 0);
    const [isHex, showsLine] = [readFormatFlag(args, "hex"), readFormatFlag(args, "line") === true];
    const frames = stack.map(({ address, line, name, call }, index) => ({
      id: index + 1, name: formatFrameName(name, isHex) + (showsLine && line > 0 ? `, ${lineReference(line)}` : ""),
      instructionPointerReference: formatReference(address), canRestart: call >= 0,
      ...(line > 0 ? { line: line - 1 + this.firstLine, column: this.firstColumn, source: this.source }
        : { line: 0, column: 0, presentationHint: "subtle" }),
    }));
    return { stackFrames: frames.slice(firstFrame, levels > 0 ? firstFrame + levels : undefined), totalFrames: stack.length };
  }

  /** @param {any} args */
  listScopes(args) {
    this.requestedFrame(args, 1);
    // A scope contains no numbers. `requestedBase` is called only to reject a malformed `format`.
    requestedBase(args);
    return { scopes: this.scopes.list() };
  }

  /**
   * Returns the stack frame that the `frameId` of a request names; throws AdapterError if there is no such frame.
   * @param {any} args
   * @param {number} [defaultId] the id if the request has no `frameId`
   */
  requestedFrame(args, defaultId) {
    return readStackFrames(this.session)[requireNumber(args, "frameId", defaultId) - 1] || fail(say.NO_SUCH_FRAME);
  }

  /**
   * Handles the `stepInTargets` request: returns the calls that a step can enter from the program counter.
   * @param {any} args
   */
  stepInTargets(args) {
    const frame = this.requestedFrame(args);
    const { map } = this.session;
    // The call in a caller's frame is already in progress, so a step cannot enter it.
    if (requireNumber(args, "frameId") > 1) return { targets: [] };
    return {
      targets: findCalls(this.session, frame.address).map(({ address, target }) => {
        const [line, name] = [map.lineOf(address), map.nameOf(target) || formatReference(target)];
        const description = line > 0 ? `${name}, ${lineReference(line)}` : name;
        return { id: address, label: description, ...(line > 0 ? { line: line - 1 + this.firstLine, column: this.firstColumn } : {}) };
      }),
    };
  }

  // --- values ---

  /** @param {any} args */
  variables(args) {
    const variables = this.scopes.variables(requireNumber(args, "variablesReference"), requestedBase(args)) || fail(say.UNKNOWN_REFERENCE);
    const from = Math.max(0, requireNumber(args, "start", 0));
    const count = requireNumber(args, "count", 0);
    const requestedVariables = variables.slice(from, count > 0 ? from + count : undefined);
    return {
      variables: requestedVariables.map(({ name, value, evaluateName, place, variablesReference, count: namedVariables, memory }) => ({
        name, value, variablesReference, ...(evaluateName ? { evaluateName } : {}), ...(namedVariables ? { namedVariables } : {}),
        ...(memory ? { memoryReference: memory } : {}),
        ...(place === "" && variablesReference === 0 ? { presentationHint: { attributes: ["readOnly"] } } : {}),
      })),
    };
  }

  /**
   * Returns the name of the place that a data breakpoint on a variable watches; "" if there is no such place.
   * @param {number} reference
   * @param {string} name
   */
  findWatchPlace(reference, name) {
    const variable = (this.scopes.variables(reference) || []).find((candidate) => candidate.name === name);
    return variable ? variable.watchPlace || variable.place : "";
  }

  /** @param {any} args */
  async setVariable(args) {
    const [name, value] = [requireText(args, "name"), requireText(args, "value")];
    const newValue = await this.scopes.setVariable(requireNumber(args, "variablesReference"), name, value, requestedBase(args));
    return { value: newValue, variablesReference: 0 };
  }

  /** @param {any} args */
  async setExpression(args) {
    const place = findSettablePlace(requireText(args, "expression"), this.expressionContext.face);
    const value = requireText(args, "value");
    const base = requestedBase(args);
    await setPlace(this.session, place, value);
    return { value: place.startsWith("key ") ? value.trim().toLowerCase() : evaluateExpression(place, this.expressionContext, base) };
  }

  /**
   * Returns the response to `evaluate` outside the debug console: the value of an expression, or its hover text.
   * @param {string} expression
   * @param {string} context the context in the protocol, such as `hover` or `watch`
   * @param {import("./number_format.js").Base} base
   */
  evaluate(expression, context, base) {
    const { expressionContext } = this;
    const isHover = context === "hover";
    const result = isHover ? expressionHover(expression, expressionContext) : evaluateExpression(expression, expressionContext, base);
    const referenceNumber = referenceNumberForPlace(expression);
    return { result, variablesReference: 0, ...(referenceNumber >= 0 ? { memoryReference: formatReference(referenceNumber) } : {}) };
  }

  /** @param {any} args */
  completions(args) {
    const typedText = requireText(args, "text");
    const lines = typedText.split("\n");
    const lineIndex = requireNumber(args, "line", this.firstLine) - this.firstLine;
    const text = lines[lineIndex] ?? fail(say.NO_SUCH_LINE);
    const column = Math.min(text.length, Math.max(0, requireNumber(args, "column", text.length + this.firstColumn) - this.firstColumn));
    const { words, word } = this.completionWords(text.slice(0, column));
    const targets = words.filter((completion) => completion.toLowerCase().startsWith(word.toLowerCase())).slice(0, MAX_COMPLETIONS);
    const textLengthBefore = lines.slice(0, lineIndex).reduce((sum, line) => sum + line.length + 1, 0);
    const start = textLengthBefore + column - word.length + this.firstColumn;
    return { targets: targets.map((label) => ({ label, start, length: word.length })) };
  }

  /**
   * Returns the completions for the word at the end of a line, and the typed start of this word. The completions are key names after
   * `press`, `release`, `keys` and `key`, and lamp names after `lamp`. Anywhere else, the completions are names from the program, place
   * names, lamp names and keywords. At the start of a line, commands are added.
   * @param {string} textBefore the text before the caret
   * @returns {{ words: string[], word: string }}
   */
  completionWords(textBefore) {
    const { session: { map }, expressionContext: { face } } = this;
    const unfinishedKey = UNFINISHED_KEY_NAME.exec(textBefore);
    if (unfinishedKey) return { words: [...listNamedKeys(face).keys()], word: unfinishedKey[1] };
    const word = (/[A-Za-z_@][\w.]*$/.exec(textBefore) || [""])[0];
    const lineStart = textBefore.slice(0, textBefore.length - word.length).trim();
    if (/\blamp$/.test(lineStart)) return { words: [...face.lampNumbers.keys()], word };
    const names = [...map.names.keys()];
    const words = [...names, ...names.map((name) => `@${name}`), ...PLACE_WORDS, ...face.lampNumbers.keys(), ...KEYWORDS];
    return { words: [...new Set(lineStart === "" ? [...CONSOLE_FIRST_WORDS, ...words] : words)], word };
  }

  // --- memory ---

  /**
   * @param {any} args
   * @param {(reference: string) => number} addressOf
   */
  disassemble(args, addressOf) {
    const startAddress = addressOf(requireText(args, "memoryReference")) + requireNumber(args, "offset", 0);
    const count = requireNumber(args, "instructionCount");
    if (!(startAddress >= 0 && startAddress <= LAST_ADDRESS)) fail(say.ADDRESS_RANGE);
    if (!(count >= 0 && count <= MAX_ROWS)) fail(say.instructionCountRangeMessage(MAX_ROWS));
    // Clients cannot read negative addresses, so the response omits rows before ROM.
    const rows = listInstructionRows(this.session, startAddress, requireNumber(args, "instructionOffset", 0), count)
      .filter(({ address }) => address >= 0);
    return {
      instructions: rows.map(({ address, bytes, text, line, name }) => ({
        address: formatReference(address), instruction: text || "nothing",
        ...(bytes ? { instructionBytes: bytes } : { presentationHint: "invalid" }),
        ...(name ? { symbol: name } : {}), ...(line > 0 ? { location: this.source, line: line - 1 + this.firstLine } : {}),
      })),
    };
  }

  /**
   * @param {any} args
   * @param {(reference: string) => number} addressOf
   */
  readMemory(args, addressOf) {
    return readMemory(args, this.session, addressOf);
  }

  /**
   * @param {any} args
   * @param {(reference: string) => number} addressOf
   */
  writeMemory(args, addressOf) {
    return writeMemory(args, this.session, addressOf);
  }
}

/**
 * Returns a frame name, such as `show + 3` or `02C`, with the offset or the address in the requested base.
 * @param {string} name
 * @param {boolean | null} isHex true for hexadecimal, false for decimal, null to return the name unchanged
 */
function formatFrameName(name, isHex) {
  if (isHex === null) return name;
  const [, label, offset] = /^(.* \+ )(\d+)$/.exec(name) || [];
  if (label) return label + formatInBase(Number(offset), isHex ? "hex" : "decimal");
  return /^[0-9A-F]{3}$/.test(name) ? convertToBase(`0x${name}`, isHex ? "hex" : "decimal") : name;
}

/**
 * Returns the subroutine calls at and after an address. The scan ends at an unconditional jump or return, at a later instruction without a
 * source line, or after MAX_SCANNED_INSTRUCTIONS instructions.
 * @param {import("../debug/debug_session.js").DebugSession} session
 * @param {number} from
 */
function findCalls({ debugger: { session: { romBytes: codes } }, map }, from) {
  const calls = [];
  for (let address = from, count = 0; address <= LAST_ADDRESS && count < MAX_SCANNED_INSTRUCTIONS; count++) {
    const code = codes[address];
    if (isCall(code)) calls.push({ address, target: jumpTarget(codes, address) });
    if (neverContinues(code) || (address !== from && map.lineOf(address) === 0)) break;
    address += instructionWords(code);
  }
  return calls;
}
