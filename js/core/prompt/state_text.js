// Formats the state of a debugged session as text for a prompt: source lines, registers, RAM, ports, ROM, calls and breakpoints.

import { formatQuantity, hex, parseNumber, indices } from "../bench/numbers.js";
import { formatBreakpoints } from "../debug/breakpoint_lines.js";
import { MachineState } from "../debug/machine_state.js";
import { expandTabs } from "../text/tab_expansion.js";
import { addressWithName } from "../../words/stops.js";
import { readStackFrames } from "../adapter/frames.js";
import { listInstructionRows } from "../adapter/disassembly.js";
import { rejectCommand } from "./argument_parsers.js";
import * as say from "../../words/prompt.js";

/** @typedef {import("../debug/debug_session.js").DebugSession} DebugSession */

/**
 * Returns the current state of the machine.
 * @param {DebugSession} session
 */
function readState(session) {
  return new MachineState(session.debugger.session.takeSnapshot());
}

/**
 * Returns the text of a source line with its line number and address. `>` marks the next instruction, and `*` an enabled breakpoint.
 * @param {DebugSession} session
 * @param {number} line
 */
export function formatSourceLine(session, line) {
  const { map, breakpoints } = session;
  const address = map.addressOf(line);
  const pointer = line === session.line ? ">" : " ";
  const mark = breakpoints.all.some((breakpoint) => breakpoint.line === line && breakpoint.isOn) ? "*" : " ";
  const addressColumn = address === undefined ? "   " : hex(address, 3);
  const text = expandTabs((session.program.split("\n")[line - 1] || "").replace(/\r$/, ""));
  return `${pointer}${mark}${String(line).padStart(4)}  ${addressColumn}  ${text}`.trimEnd();
}

/**
 * Returns the number of source lines.
 * @param {DebugSession} session
 */
export function countSourceLines({ program }) {
  return program.replace(/\n$/, "").split("\n").length;
}

/**
 * Returns the text of a range of source lines; fails if the range starts after the end of the source.
 * @param {DebugSession} session
 * @param {number} firstLine
 * @param {number} lastLine the last line of the range
 */
export function formatSourceLines(session, firstLine, lastLine) {
  const last = Math.min(lastLine, countSourceLines(session));
  if (firstLine > last) rejectCommand(say.sourceLineCountMessage(countSourceLines(session)));
  return indices(last - firstLine + 1).map((index) => formatSourceLine(session, firstLine + index)).join("\n");
}

/**
 * Returns the source line of the next instruction. Without a source line, returns the disassembled instruction.
 * @param {DebugSession} session
 */
export function formatNextInstruction(session) {
  return session.line > 0 ? formatSourceLine(session, session.line) : formatDisassembly(session, session.address, 1);
}

/**
 * Returns the text of disassembled instructions, one per line, beginning at an address.
 * @param {DebugSession} session
 * @param {number} address
 * @param {number} count the number of instructions
 */
export function formatDisassembly(session, address, count) {
  const rows = listInstructionRows(session, address, 0, count).filter(({ bytes }) => bytes !== "");
  return rows.map((row) => {
    const label = row.name ? `${row.name}: ` : "";
    const mark = row.address === session.address ? ">" : " ";
    return `${mark} ${hex(row.address, 3)} ${row.bytes.padEnd(5)} ${label}${row.text}`;
  }).join("\n");
}

/**
 * Returns the text of `info registers`.
 * @param {DebugSession} session
 */
export function formatRegisters(session) {
  const { registers } = readState(session);
  const pairs = indices(8).map((index) => `P${index} ${registers.registers[2 * index]}${registers.registers[2 * index + 1]}`).join("  ");
  const { accumulator, carry, bank, test, owed } = registers;
  const owedText = owed === "1" ? "  owed 1" : "";
  return `acc ${accumulator}  cy ${carry}  pc ${session.counterText}  dcl ${bank}  test ${test}${owedText}\n${pairs}`;
}

/**
 * Returns the text of `info ram`: all RAM registers with their status nibbles, and the output ports.
 * @param {DebugSession} session
 */
export function formatRam(session) {
  const { ram } = readState(session);
  const lines = [...ram].flatMap(([bank, { registers, ports }]) => [
    ...[...registers].map(([name, { characters, status }]) => {
      const [, chip, register] = name.split(".").map(Number);
      return `ram.${bank}.0x${hex(chip * 64 + register * 16, 2)}  ${characters}  status ${status}`;
    }),
    ...[...ports].map(([name, out]) => `ram${name} out ${out}`),
  ]);
  return lines.length > 0 ? lines.join("\n") : say.NO_RAM;
}

/**
 * Returns the text of `info ports`: the SRC bytes, the ROM ports, the chains with their bits in groups of ten, and the pressed keys.
 * @param {DebugSession} session
 */
export function formatPorts(session) {
  const { srcBytes, roms, chains, keys } = readState(session).ports;
  return [
    `src ${srcBytes.join(" ")}`,
    ...roms.map(({ chip, out, in: reads }) => `rom ${chip} out ${out} in ${reads}`),
    ...chains.map((bits, index) => `chain ${index} ${bits.replace(/.{10}(?=.)/g, "$& ")}`),
    `keys ${keys.join(" ") || "-"}`,
  ].join("\n");
}

/**
 * Returns the pressed keys as `row.column`.
 * @param {DebugSession} session
 */
export function listPressedKeys(session) {
  return readState(session).ports.keys;
}

/**
 * Returns the number of calls that have not returned yet.
 * @param {DebugSession} session
 */
export function countOpenCalls(session) {
  return readStackFrames(session).length - 1;
}

/**
 * Returns an address as text, with its label or its source line.
 * @param {DebugSession} session
 * @param {number} address
 */
export function formatAddress(session, address) {
  return addressWithName(hex(address, 3), session.map);
}

/**
 * Returns the text of `info line`: the source line of an instruction, and the addresses of its bytes.
 * @param {DebugSession} session
 * @param {{ line: number, address: number }} place the location of the instruction
 */
export function formatLineInfo(session, { line, address }) {
  const [{ bytes = "" } = {}] = listInstructionRows(session, address, 0, 1);
  const last = address + Math.max(1, bytes.split(" ").filter(Boolean).length) - 1;
  return say.lineLocation(line, hex(address, 3), session.map.nameOf(address) || "", last > address ? hex(last, 3) : "");
}

/**
 * Returns the text of `backtrace`, newest frame first.
 * @param {DebugSession} session
 */
export function formatFrames(session) {
  return readStackFrames(session).map(({ address, line, name }, index) => (
    `#${index}  ${hex(address, 3)}  ${name}${line > 0 ? `, line ${line}` : ""}${index > 0 ? say.CALL_SUFFIX : ""}`)).join("\n");
}

/**
 * Returns the text of `info names`.
 * @param {DebugSession} session
 */
export function formatNames({ map }) {
  const names = [...map.names.values()];
  if (names.length === 0) return say.NO_NAMES;
  return names.map(({ name, value, isLabel }) => (
    `${name.padEnd(16)}${isLabel ? hex(value, 3) : hex(value, 2).padStart(3)}${isLabel ? `  line ${map.lineOf(value)}` : ""}`)).join("\n");
}

/**
 * Returns the text of `info breakpoints`.
 * @param {DebugSession} session
 * @param {(id: number) => string} extraText returns the additional text for a breakpoint
 */
export function formatBreakpointList({ breakpoints }, extraText) {
  const { all, savedBreakpoints } = breakpoints;
  if (all.length === 0) return say.NO_BREAKPOINTS;
  const lines = formatBreakpoints(savedBreakpoints);
  return all.map(({ id, hits }, index) => (
    `${id}  ${lines[index].slice("break ".length)}${hits > 0 ? `, ${formatQuantity(hits, "hit")}` : ""}${extraText(id)}`)).join("\n");
}

/**
 * Returns the values of consecutive RAM nibbles as one line; fails if the board lacks the first nibble.
 * @param {DebugSession} session
 * @param {string} text the first nibble, such as `ram.0.0x10`
 * @param {number} count the maximum number of nibbles
 */
export function formatNibbles(session, text, count) {
  const [, bank, address] = /^ram\.([0-7])\.(\w+)$/i.exec(text) || [];
  const first = parseNumber(address || "");
  if (bank === undefined || !(first <= 255)) rejectCommand(say.noPlaceOfRamMessage(text));
  const state = readState(session);
  const values = indices(Math.min(count, 256 - first)).map((offset) => state.character(Number(bank), first + offset));
  const missingIndex = values.findIndex((value) => value === "");
  if (missingIndex === 0) rejectCommand(say.noRamAtMessage(text));
  const availableValues = missingIndex < 0 ? values : values.slice(0, missingIndex);
  return `ram.${bank}.0x${hex(first, 2)}  ${availableValues.join("")}`;
}
