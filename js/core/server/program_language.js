// Handlers for an editor's requests about a program. The page's editor uses the same modules.

import { hex } from "../bench/numbers.js";
import { readJcnConditions, readInstructions } from "../help/manual.js";
import { SourceMap } from "../machine/source_map.js";
import { TextErrorFinder } from "../text/text_error_finder.js";
import { DIRECTIVES, findDefinedNames, splitStatement, tokenizeLine, wordAt } from "../text/assembly.js";
import { FOLD_PATTERNS } from "../text/folding.js";
import { findLineChanges, findLengthError, formatProgramLines } from "../text/program_format.js";
import { findDefinition, findRenamingError, nameAt, findReferences } from "../text/references.js";
import { sentText } from "../text/sendable_text.js";
import { createHints } from "./inlay_hints.js";
import { ProgramCalls } from "./program_calls.js";
import { createProgramCompletion } from "./program_completion.js";
import { createProgramHover } from "./program_hover.js";
import { REQUEST_FAILED, ProtocolError, rangeInLine } from "./lsp_protocol.js";
import { signatureAt } from "./signature_help.js";
import * as say from "../../words/server.js";

/**
 * @typedef {import("../help/manual.js").ManualSection} ManualSection
 * @typedef {import("../text/program_format.js").Layout} Layout
 * @typedef {import("./open_text.js").OpenText} OpenText
 * @typedef {import("./lsp_protocol.js").Position} Position
 * @typedef {import("./lsp_protocol.js").Range} Range
 * @typedef {import("./text_bench.js").TextBench} TextBench
 * @typedef {import("./token_codes.js").ColouredWord} ColouredWord
 * @typedef {{ map: SourceMap, bytes: () => Int16Array }} AssembledProgram the result of the assembler: the source map and the
 *   bytes of ROM
 */

/** The protocol's symbol kinds for labels and for constants. */
const FUNCTION_SYMBOL = 12;
const CONSTANT_SYMBOL = 14;
/** @type {Record<string, string>} the protocol's token types, by kind of word */
const TOKEN_TYPES = { comment: "comment", instruction: "keyword", directive: "macro", register: "variable", number: "number" };

/**
 * Returns the ranges of all operands, by the text of the operand.
 * @param {string[]} lines
 * @returns {Map<string, Range[]>}
 */
function findOperandRanges(lines) {
  /** @type {Map<string, Range[]>} */
  const rangesByName = new Map();
  lines.forEach((text, line) => {
    for (const { text: word, from, to } of splitStatement(text).operands) {
      const ranges = rangesByName.get(word) || [];
      ranges.push(rangeInLine(line + 1, from, to));
      rangesByName.set(word, ranges);
    }
  });
  return rangesByName;
}

export class ProgramLanguage {
  /**
   * @param {TextBench} bench
   * @param {ManualSection[]} manual
   * @param {(number: number) => string} refusalMessage returns the message for an error number of the bench
   * @param {(uri: string) => string | null} findBoardText returns the board text of a program
   * @param {() => Promise<void>} pause yields to other tasks
   */
  constructor(bench, manual, refusalMessage, findBoardText, pause) {
    this.foldPatterns = FOLD_PATTERNS.program;
    this.bench = bench;
    this.instructions = readInstructions(manual);
    this.conditions = readJcnConditions(manual);
    this.refusalMessage = refusalMessage;
    this.findBoardText = findBoardText;
    this.pause = pause;
    /** @type {{ text: string, program: AssembledProgram | null } | null} the text and the result of the last assembly; `program` is null
     *   if the text has errors */
    this.lastAssembled = null;
    this.isInstruction = (/** @type {string} */ word) => this.instructions.has(word);
    this.isMnemonicOrDirective = (/** @type {string} */ word) => this.instructions.has(word) || DIRECTIVES.includes(word);
  }

  /**
   * Finds the errors in a program. Resolves to undefined if `isWanted` returns false during the check.
   * @param {OpenText} openText
   * @param {() => boolean} isWanted returns false if the result is no longer needed
   */
  findErrors({ uri, text }, isWanted) {
    const board = this.findBoardText(uri);
    /** @type {<Result>(ask: () => Result) => Promise<Result>} */
    const queryBench = async (ask) => {
      await this.pause();
      this.bench.setBoard(board);
      return ask();
    };
    const errorFinder = new TextErrorFinder({
      findBoardError: async () => null,
      findLineErrors: (sentProgram) => queryBench(() => this.bench.findLineErrors(sentProgram)),
      findRefusal: (sentProgram) => queryBench(() => this.bench.findProgramRefusal(sentProgram)),
      readMap: (sentProgram) => queryBench(() => this.bench.assemble(sentProgram).map),
      readRomNumbers: () => queryBench(() => this.bench.boardSession.roms),
    }, { instructions: this.instructions, tables: new Map() }, this.refusalMessage);
    return errorFinder.findInProgram(text, isWanted);
  }

  /**
   * Assembles a program. Returns null if the program has errors.
   * @param {OpenText} openText
   */
  assembleProgram({ text }) {
    if (this.lastAssembled && this.lastAssembled.text === text) return this.lastAssembled.program;
    const sentProgram = sentText(text, ";");
    const answers = this.bench.readMap(sentProgram);
    const program = answers ? { map: new SourceMap(answers, sentProgram), bytes: () => this.bench.assemble(sentProgram).bytes } : null;
    this.lastAssembled = { text, program };
    return program;
  }

  /**
   * Returns the help for the word at a position; null if there is none.
   * @param {OpenText} openText
   * @param {Position} position
   */
  hover(openText, position) {
    const { lines } = openText;
    const program = this.assembleProgram(openText);
    return createProgramHover(lines, position, {
      instructions: this.instructions,
      conditions: this.conditions,
      meaningOf: (name) => (program ? program.map.meaningOf(name) : ""),
      valueOf: (name) => (program ? program.map.findValue(name) : undefined),
      describeLine: (line) => (program ? this.describeLine(lines[line - 1], line, program) : ""),
    });
  }

  /**
   * Returns the address, bytes and cycles of a line as text; "" if the line has no bytes.
   * @param {string} text
   * @param {number} line the line number from 1
   * @param {AssembledProgram} program
   */
  describeLine(text, line, { map, bytes }) {
    const address = map.addressOf(line);
    if (address === undefined) return "";
    const hexBytes = [...bytes().subarray(address, address + map.sizes[line])].map((byte) => hex(byte, 2)).join(" ");
    const { head } = splitStatement(text);
    const instruction = head && this.instructions.get(head.text.toUpperCase());
    const cycles = instruction ? say.cyclesSuffix(instruction.cycles) : "";
    return say.describeProgramLine(line, hex(address, 3), hexBytes, cycles);
  }

  /**
   * Returns the range in which the name at a position is defined; null if there is no such name.
   * @param {OpenText} openText
   * @param {Position} position
   */
  definition({ lines }, { line, character }) {
    const name = nameAt(lines, line, character);
    const nameDefinition = name === "" ? null : findDefinition(lines, name);
    return nameDefinition ? rangeInLine(nameDefinition.line, nameDefinition.from, nameDefinition.to) : null;
  }

  /**
   * Returns the ranges of all references to the name at a position.
   * @param {OpenText} openText
   * @param {Position} position
   * @param {boolean} includesDefinition true to include the definition of the name
   */
  references({ lines }, { line, character }, includesDefinition) {
    const name = nameAt(lines, line, character);
    const nameReferences = name === "" ? [] : findReferences(lines, name);
    return nameReferences.filter(({ isDefinition }) => includesDefinition || !isDefinition)
      .map((reference) => rangeInLine(reference.line, reference.from, reference.to));
  }

  /**
   * Returns the name at a position with its range; null if there is no name to rename.
   * @param {OpenText} openText
   * @param {Position} position
   */
  renameTarget({ lines }, { line, character }) {
    const name = nameAt(lines, line, character);
    const word = wordAt(lines[line], character);
    return name === "" || !word ? null : { range: rangeInLine(line + 1, word.from, word.to), placeholder: name };
  }

  /**
   * Returns the edits that rename the name at a position. Throws ProtocolError if there is no name, or if the new name is invalid.
   * @param {OpenText} openText
   * @param {Position} position
   * @param {string} newName
   */
  rename({ lines }, { line, character }, newName) {
    const name = nameAt(lines, line, character);
    if (name === "") throw new ProtocolError(REQUEST_FAILED, say.NO_NAME_HERE);
    const renamingError = findRenamingError(lines, name, newName, this.isInstruction);
    if (renamingError !== "") throw new ProtocolError(REQUEST_FAILED, renamingError);
    return findReferences(lines, name).map((reference) => (
      { range: rangeInLine(reference.line, reference.from, reference.to), newText: newName }));
  }

  /**
   * Returns the completions at a position.
   * @param {OpenText} openText
   * @param {Position} position
   * @param {string} trigger
   */
  completion(openText, position, trigger) {
    const program = this.assembleProgram(openText);
    return createProgramCompletion(openText.lines, position, trigger, {
      instructions: this.instructions, conditions: this.conditions, meaningOf: (name) => (program ? program.map.meaningOf(name) : ""),
    });
  }

  /**
   * Returns the names in a program as symbols. The range of a label ends before the next label.
   * @param {OpenText} openText
   */
  symbols(openText) {
    const { lines } = openText;
    const program = this.assembleProgram(openText);
    const names = [...findDefinedNames(lines)].map(([name, line]) => ({ name, line, ...splitStatement(lines[line - 1]) }));
    const labels = names.filter(({ defines }) => !defines);
    return names.map(({ name, line, label, defines }) => {
      const nextLabel = labels.find((candidate) => candidate.line > line);
      const lastLine = defines ? line : (nextLabel ? nextLabel.line : lines.length + 1) - 1;
      const { from, to } = label || { from: 0, to: 0 };
      return {
        name,
        kind: defines ? CONSTANT_SYMBOL : FUNCTION_SYMBOL,
        detail: program ? program.map.meaningOf(name) : "",
        range: { start: rangeInLine(line, 0, 0).start, end: rangeInLine(lastLine, 0, lines[lastLine - 1].length).end },
        selectionRange: rangeInLine(line, from, to),
      };
    });
  }

  /**
   * Returns the words to colour, with their token types.
   * @param {OpenText} openText
   * @returns {ColouredWord[]}
   */
  semanticTokens({ lines }) {
    const names = findDefinedNames(lines);
    const isConstant = (/** @type {string} */ name) => splitStatement(lines[(names.get(name) || 1) - 1]).defines;
    return lines.flatMap((text, line) => tokenizeLine(text, this.isInstruction).flatMap(({ kind, text: word, from, to }) => {
      const isName = (kind === "label" || kind === "name") && names.has(word);
      const type = isName ? (isConstant(word) ? "enumMember" : "function") : TOKEN_TYPES[kind];
      return type ? [{ line, from, to, type, isDeclaration: kind === "label", isReadonly: type === "enumMember" }] : [];
    }));
  }

  /**
   * Returns the edits that format the lines in a range. Throws ProtocolError if the formatted text is too long.
   * @param {OpenText} openText
   * @param {Range} range
   * @param {Layout} layout
   */
  format({ lines }, { start, end }, layout) {
    const newLines = formatProgramLines(lines, this.isMnemonicOrDirective, layout);
    const lengthError = findLengthError(newLines);
    if (lengthError !== "") throw new ProtocolError(REQUEST_FAILED, lengthError);
    return findLineChanges(lines, newLines).filter(({ line }) => start.line <= line && line <= end.line)
      .map(({ line, from, to, text }) => ({ range: rangeInLine(line + 1, from, to), newText: text }));
  }

  /**
   * Returns the inlay hints in a range; an empty list if the program has errors.
   * @param {OpenText} openText
   * @param {Range} range
   */
  hints(openText, range) {
    const program = this.assembleProgram(openText);
    const cyclesOf = (/** @type {string} */ mnemonic) => (this.instructions.get(mnemonic) || { cycles: "" }).cycles;
    return program ? createHints(openText.lines, program.map, cyclesOf, range) : [];
  }

  /**
   * Returns the form of the statement at a position; null if there is none.
   * @param {OpenText} openText
   * @param {Position} position
   */
  signature({ lines }, { line, character }) {
    return signatureAt(lines[line], character, this.instructions);
  }

  /**
   * Returns the column ranges in a line to which an editor can expand the selection: the operands, the statement, the statement with its
   * label, and the comment.
   * @param {OpenText} openText
   * @param {Position} position
   * @returns {[number, number][]}
   */
  selectionColumns({ lines }, { line }) {
    const text = lines[line];
    const { label, head, operands, comment } = splitStatement(text);
    const end = text.slice(0, comment).trimEnd().length;
    const startColumns = [...operands.slice(0, 1), head, label].flatMap((word) => (word && word.from < end ? [word.from] : []));
    return [...startColumns.map((from) => /** @type {[number, number]} */ ([from, end])), [comment, text.length]];
  }

  /**
   * Returns the call hierarchy of a program.
   * @param {OpenText} openText
   */
  createCallHierarchy(openText) {
    const program = this.assembleProgram(openText);
    return new ProgramCalls(openText.lines, program && program.map);
  }

  /**
   * Returns the routine with the name at a position, or else the routine that contains the line; null if there is none.
   * @param {OpenText} openText
   * @param {Position} position
   */
  routine(openText, { line, character }) {
    return this.createCallHierarchy(openText).routine(nameAt(openText.lines, line, character), line);
  }

  /**
   * Returns the routines that call the routine at a position.
   * @param {OpenText} openText
   * @param {Position} position
   */
  callers(openText, { line, character }) {
    return this.createCallHierarchy(openText).callers(nameAt(openText.lines, line, character), line);
  }

  /**
   * Returns the routines that the routine at a position calls.
   * @param {OpenText} openText
   * @param {Position} position
   */
  callees(openText, { line, character }) {
    return this.createCallHierarchy(openText).callees(nameAt(openText.lines, line, character), line);
  }

  /**
   * Returns a code lens for each label, which shows the number of uses of the label.
   * @param {OpenText} openText
   */
  lenses(openText) {
    const rangesByName = findOperandRanges(openText.lines);
    return this.createCallHierarchy(openText).lenses((name) => rangesByName.get(name) || []);
  }
}
