// Messages about conditions: errors, the names of places, and comparisons of actual with expected values.

// --- prompt/debugger_prompt.js ---
export const NAMED_PLACES = "acc, cy, dcl, r0 to r15, ram.B.S, st.B.H.K, rom1.2, ram0.0.3, chain0.5, a whole port such as rom1 or ram0.0, "
  + "lamp 3 or lamps";

// --- conditions/keyword_conditions.js, conditions/parser.js, conditions/values.js ---
/** @type {(name: string, lampNames: string) => string} */
export const noLampMessage = (name, lampNames) => (
  `the board has no lamp ${name}; ${lampNames ? `it has: ${lampNames}` : "its text names no lamps (`# lamp 0: NAME ..`)"}`);
export const LAMPS_SYNTAX = "write `lamps PATTERN`, or `lamps NAME ..`, or `lamps none`";
/** @type {(length: number, count: number) => string} */
export const wrongPatternLength = (length, count) => `a pattern of ${length} lamps; the board has ${count}`;
/** @type {(names: string) => string} */
export const litLamps = (names) => `; lit: ${names}`;
export const LAMP_SYNTAX = "write `lamp NAME on` or `lamp NAME off`";
export const NO_DISPLAY = "the board's text names no display (`# display 0: 4 digits`)";
export const DISPLAY_SYNTAX = "write `display TEXT`, as in: display -18; it is compared as a text, not as a number";
export const NO_PRINTER = "the board's text names no printer (`# printer rom0.2: ram0.2 0 1 2 + feed`)";
export const PRINTED_SYNTAX = "write `printed TEXT`, the last lines of the printout, as in: printed 12+ 30= 42";
export const CYCLES_SYNTAX = "write `cycles TIME`, `cycles at most TIME` or `cycles at least TIME`";
export const WITHIN_INSTRUCTION = ", within an instruction";
/** @type {(name: string) => string} */
export const noLabelMessage = (name) => `the program has no label ${name}`;
/** @type {(chip: string) => string} */
export const noRomMessage = (chip) => `the board has no ROM ${chip}`;
/** @type {(chain: number) => string} */
export const noChainMessage = (chain) => `the board has no chain ${chain}`;
/** @type {(name: string) => string} */
const romPortSyntax = (name) => `write \`${name} in VALUE\` or \`${name} out VALUE\`, 0 to 15`;
/** @type {(name: string) => string} */
const ramPortSyntax = (name) => `write \`${name} out VALUE\`, 0 to 15`;
/** @type {(chain: string, bits: number) => string} */
export const chainBits = (chain, bits) => `chain ${chain} has ${bits} bits, each 0, 1, or ? for any`;
export const NO_RAM_FOR_LAST_CHARACTER = "the board has no RAM chip for the last of these characters";
/** @type {(place: string) => string} */
export const placeHasOneValueMessage = (place) => `${place} holds one value; only RAM characters can be compared with several`;
/** @type {(place: string, maximum: number, word: string) => string} */
export const valueRangeMessage = (place, maximum, word) => `${place} holds 0 to ${maximum}, not ${word}`;

// --- conditions/condition_language.js, conditions/compiler.js, conditions/keyword_conditions.js, conditions/parser.js ---
export const NO_CONDITION = "a condition is missing";
/** @type {(subject: string, actual: string, expected: string, isPlural: boolean, isNot: boolean) => string} */
export const mustBeMessage = (subject, actual, expected, isPlural, isNot) => (
  `${subject} ${isPlural ? "are" : "is"} ${actual || "dark"}, but must ${isNot ? "not " : ""}be ${expected}`);
/** @type {(passed: number, expected: string, isNot: boolean) => string} */
export const wrongCycleCountMessage = (passed, expected, isNot) => (
  `${passed} ${passed === 1 ? "cycle has" : "cycles have"} passed, but the test ${isNot ? "does not expect" : "expects"} ${expected}`);
/** @type {(count: number, maximum: number) => string} */
export const tooManyPlacesMessage = (count, maximum) => `it reads ${count} places; at most ${maximum} are allowed`;
export const AT_SYNTAX = "write `at LABEL`";
export const DIGITS_ARE_MULTIPLEXED = "the digits are multiplexed, so no instant shows a number: `display` is only for the lines of a test";
export const PRINTED_ONLY_IN_TESTS = "printed text arrives line by line: `printed` is only for the lines of a test";
/** @type {(subject: string) => string} */
export const onlyInTests = (subject) => `no run changes ${subject}, and no trace shows it: it is only for the lines of a test`;
/** @type {(place: string) => string} */
export const noTraceShowsMessage = (place) => `no run changes ${place}, and no trace shows it: ask for it at a breakpoint`;

// --- conditions/scanner.js ---
export const CLOSING_QUOTE_MISSING = "the closing quotation mark is missing";
/** @type {(word: string) => string} */
export const unknownSign = (word) => `${word} has no meaning in a condition`;
/** @type {(text: string) => string} */
export const notANumeralMessage = (text) => `${text} is not a number; numbers are 10, 0xA or 0b1010`;

// --- conditions/parser.js ---
/** @type {(maximum: number) => string} */
export const tooLongMessage = (maximum) => `a condition has at most ${maximum} characters`;
/** @type {(maximum: number) => string} */
export const tooDeepMessage = (maximum) => `parentheses can be nested at most ${maximum} deep`;
export const PARENTHESIS_NOT_CLOSED = "this parenthesis is not closed";
/** @type {(word: string) => string} */
export const unexpectedWordMessage = (word) => `${word}: the condition ends before this; join two conditions with and, or`;
/** @type {(value: string) => string} */
export const noComparisonMessage = (value) => `${value}: a comparison is missing, as in: ${value} = 4`;
/** @type {(name: string) => string} */
export const portSyntax = (name) => (/^rom/i.test(name) ? romPortSyntax(name) : ramPortSyntax(name));
/** @type {(condition: string) => string} */
export const noValueMessage = (condition) => `${condition}: this is a condition, but a value is needed`;
/** @type {(word: string) => string} */
export const missingBefore = (word) => `a value is missing before ${word}`;
/** @type {(sign: string) => string} */
export const missingAfter = (sign) => `a value is missing after ${sign}`;
export const DOTTED_PLACE_SYNTAX = "write ram.BANK.SRC or st.BANK.REGISTER.NUMBER";
export const KEY_SYNTAX = "write `key NAME down` or `key NAME up`";

// --- conditions/values.js ---
/** @type {(name: string, keyNames: string) => string} */
export const noKeyOfPanelMessage = (name, keyNames) => (
  `the board has no key ${name}; ${keyNames ? `it has: ${keyNames}` : "its text names no keys"}`);
/**
 * Returns the message for a place whose part the board does not have.
 * @param {string} place
 * @returns {string}
 */
export function boardLacks(place) {
  const [, rom] = /^rom(\d+)/.exec(place) || [];
  const [, chip] = /^ram(\d+\.\d+)/.exec(place) || [];
  const [, chain] = /^chain(\d+)$/.exec(place) || [];
  if (rom !== undefined) return noRomMessage(rom);
  if (chip !== undefined) return `the board has no RAM chip ${chip}`;
  if (chain !== undefined) return noChainMessage(Number(chain));
  return /^(ram|st)\./.test(place) ? `the board has no RAM chip for ${place}` : `the board has no ${place}`;
}
/** @type {(place: string) => string} */
export const notOneNumberMessage = (place) => `${place} is not one number`;
/** @type {(place: string, proposed: string) => string} */
export const noSuchPlaceMessage = (place, proposed) => `${place}: no such place; ${proposed}`;
export const ACCUMULATOR_HINT = "the accumulator is acc";
export const CARRY_HINT = "the carry is cy";
export const COUNTER_HINT = "the counter is pc";
export const BANK_HINT = "the bank is dcl";
export const REGISTERS_HINT = "the registers are r0 to r15";
export const RAM_PLACES_HINT = "a place of RAM is ram.BANK.SRC or st.BANK.REGISTER.NUMBER";
export const PORTS_HINT = "ports are rom1 and ram0.1, their lines rom1.0 to rom1.3";
/** @type {(names: string) => string} */
export const suggestNames = (names) => `perhaps ${names}`;
export const PLACES_HINT = "places are acc, cy, pc, dcl, test, r0 to r15, p0 to p7, ram.B.S, st.B.H.K, rom1, ram0.1, lamps, "
  + "and names of the source, of Watch and of lamps";

/** @type {(name: string, maximum: number) => string} */
export const namesTooDeep = (name, maximum) => `${name} uses names that use other names: at most ${maximum} levels are allowed`;
/** @type {(name: string, text: string) => string} */
export const nameIsConditionMessage = (name, text) => `${name} is the condition ${text}, but a value is needed`;
/** @type {(name: string, error: string) => string} */
export const errorInName = (name, error) => `in ${name}: ${error}`;
/** @type {(text: string) => string} */
export const notAConstantMessage = (text) => `${text} is neither a number nor a name of the program`;
/** @type {(text: string) => string} */
export const namesUnknownMessage = (text) => `${text} is not a number; names are known only while the source is the same as ROM`;

// --- conditions/set_command.js ---
export const SET_SYNTAX = "write `set PLACE = VALUE`, as in: set r4 = 7, set test 0, set ram.0.0x12 = 7";
/** @type {(place: string) => string} */
export const cannotBeSetMessage = (place) => (
  `${place} cannot be set; places to set are acc, cy, pc, dcl, test, r0 to r15, p0 to p7, ram.B.S, st.B.H.K and rom.A`);

// --- conditions/compiler.js ---
/** @type {(text: string, value: number) => string} */
export const valueIs = (text, value) => `${text} (${value})`;
/** @type {(text: string) => string} */
export const holdsButMustNot = (text) => `${text} holds, but must not`;

// --- debug/soft_breakpoints.js, waves/trigger.js, adapter/expression_values.js ---
/** @type {(error: string, column: number) => string} */
export const errorInColumn = (error, column) => `${error} (column ${column + 1})`;
