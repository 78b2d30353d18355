// Messages and labels of the editors: errors in programs and boards, completion, help on words, names, and search.

// --- text/similar_words.js ---
export const OR = " or ";
/** @type {(similarWords: string[], end?: string) => string} the end of an error message about a mistyped word: similar words, then `end` */
export const didYouMean = (similarWords, end = "") => (
  similarWords.length > 0 ? `; did you mean ${similarWords.join(OR)}?${end && ` ${end}`}` : end && `; ${end}`);

// --- text/asm_texts.js ---
/** @type {(bytes: string, isOne: boolean, first: string) => string} */
export const bytesRemainingMessage = (bytes, isOne, first) =>
  `${bytes} that the program does not replace ${isOne ? "stays" : "stay"} in ROM, from ${first}.`;
/** @type {(bytes: string, remaining: string, counter: string) => string} */
export const bytesAssembledMessage = (bytes, remaining, counter) => (
  `${bytes} assembled.${remaining} The counter stays at ${counter}; nothing was reset.`);

// --- text/board_completion.js ---
/** @type {(isInput: boolean, line: string, chip: string) => string} */
export const lineOfRom = (isInput, line, chip) => `${isInput ? "input" : "output"} line ${line} of ROM ${chip}`;
/** @type {(line: string, chip: string, bank: string) => string} */
export const lineOfRam = (line, chip, bank) => `line ${line} of RAM chip ${chip} in bank ${bank}`;
/** @type {(bit: string, chain: string) => string} */
export const bitOfChain = (bit, chain) => `bit ${bit} of chain ${chain}`;
export const INPUT_LINES = "input lines";
export const OUTPUT_LINES = "output lines";
export const ROM_WITH_PORT = "a ROM with its port";
export const BANK_OF_RAM = "a bank of RAM chips";
export const CHAIN_OF_REGISTERS = "a chain of shift registers";
export const KEY_MATRIX = "the key matrix";
export const A_LAMP = "a lamp";

// --- text/board_reader.js ---
export const TABLE_SYNTAX = "a table's name is in brackets: [[rom]]";
/** @type {(table: string) => string} */
export const bracketMissing = (table) => `] is missing: ${table}`;
export const LINE_MUST_END = "the line must end here";
export const KEY_MISSING = "a key is missing before =";
/** @type {(name: string) => string} */
export const equalsMissing = (name) => `= is missing after ${name}`;
/** @type {(key: string) => string} */
export const valueMissing = (key) => `the value of ${key} is missing`;
/** @type {(text: string) => string} */
export const noValueMessage = (text) => `a value is needed here, not ${text}`;
/** @type {(text: string) => string} */
export const leadingZeroMessage = (text) => `a number has no leading zero; write a text in quotes: "${text}"`;
/** @type {(text: string) => string} */
export const needsQuotesMessage = (text) => `${text} is a text: write it in quotes: "${text}"`;
/** @type {(maximum: number) => string} */
export const tooDeepMessage = (maximum) => `more than ${maximum} brackets and braces are open here`;
export const BRACKET_NOT_CLOSED = "the closing ] is missing";
export const VALUE_COMMA_MISSING = "write a comma between two values, ] after the last";
export const BRACE_NOT_CLOSED = "the closing } is missing in this line";
export const KEY_COMMA_MISSING = "write a comma between two keys, } after the last";

// --- text/board_error.js ---
/** @type {(name: string, line: number) => string} */
export const alreadyOnLine = (name, line) => `${name} is already on line ${line}`;
/** @type {(line: string, chip: string) => string} */
export const noSuchRomMessage = (line, chip) => `the board has no line ${line}: no [[rom]] has chip = ${chip}`;
/** @type {(line: string, bank: string) => string} */
export const noSuchBankMessage = (line, bank) => `the board has no line ${line}: no [[ram]] has bank = ${bank}`;
/** @type {(line: string, bank: string, chips: number) => string} */
export const noChipInBankMessage = (line, bank, chips) => (
  `the board has no line ${line}: bank ${bank} has ${chips === 1 ? "only chip 0" : `chips 0 to ${chips - 1}`}`);
/** @type {(line: string, chain: string, last: number) => string} */
export const noBitInChainMessage = (line, chain, last) => `the board has no line ${line}: chain ${chain} has bits 0 to ${last}`;
/** @type {(chain: string, chains: number) => string} */
export const noChainMessage = (chain, chains) => (
  `the board has no chain ${chain}: it has ${["no [[chain]]", "only chain 0"][chains] || `chains 0 to ${chains - 1}`}`);
/** @type {(firstBit: number, lastBit: number, chain: number, highestBit: number) => string} */
export const rowsNeedBits = (firstBit, lastBit, chain, highestBit) =>
  `the rows need bits ${firstBit} to ${lastBit} of chain ${chain}, which has bits 0 to ${highestBit}`;
/** @type {(line: string) => string} */
export const needsInput = (line) => `${line} is not an input line; a column needs a line of a ROM that is i in its port`;
/** @type {(key: string, line: string, isBit: boolean) => string} */
export const needsOutput = (key, line, isBit) => (
  `${line} is ${isBit ? "a bit of a chain" : "an input line (i in its ROM's port)"}; ${
    key === "line" ? "a lamp needs an output line" : `${key} needs an output line of a ROM or a RAM chip`}`);
/** @type {(name: string) => string} */
export const noLineNameMessage = (name) => `${name} is not the name of a line; names are like "rom1.0", "ram0.0.3" and "chain0.5"`;
/** @type {(key: string, number: string) => string} */
export const needsNoQuotesMessage = (key, number) => `${key} is a number: write ${number} without quotes`;
/** @type {(maximum: number, table: string) => string} */
export const tooManyTablesMessage = (maximum, table) => `a board has at most ${maximum} [[${table}]]`;
/** @type {(maximum: number) => string} */
export const tooManyColumnsMessage = (maximum) => `a key matrix has at most ${maximum} columns`;
/** @type {(key: string, values: string) => string} */
export const keyMustBe = (key, values) => `${key} must be ${values}`;
/** @type {(section: string) => string} */
export const mustBeTableMessage = (section) => `a ${section} must be a table: [[${section}]]`;
/** @type {(name: string, kind: string, suggestion: string) => string} */
export const noKeyOfMessage = (name, kind, suggestion) => `${name} is not a key of ${kind}${suggestion}`;
/** @type {(keys: string) => string} */
export const whichHasKeys = (keys) => `, which has ${keys}`;
/** @type {(kind: string, suggestion: string) => string} */
export const noPartMessage = (kind, suggestion) => `${kind} is not a part of a board${suggestion}`;
export const ONE_MATRIX = "a board has one key matrix: [keys]";
/** @type {(kind: string) => string} */
export const tableArraySyntax = (kind) => `there can be several: write [[${kind}]]`;
/** @type {(kind: string, keys: string) => string} */
export const lacksKeys = (kind, keys) => `this ${kind} lacks ${keys}`;

// --- text/count_marks.js ---
/** @type {(number: number) => string} */
export const countText = (number) => ["never", "once"][number] || `${number.toLocaleString("en")} times`;
export const NO_TEST_RUNS = "no test runs it";
/** @type {(count: string) => string} */
export const runCountText = (count) => `run ${count}`;
/** @type {(jumped: string, continued: string) => string} */
export const jumpCountsText = (jumped, continued) => `; it jumped ${jumped} and continued ${continued}`;

// --- text/text_editor_view.js ---
export const ERRORS = "Errors";
/** @type {(size: string, maximum: string) => string} */
export const notInsertedMessage = (size, maximum) =>
  `It was not inserted: the text would have ${size} characters; at most ${maximum} are accepted.`;
/** @type {(size: string, maximum: string, unit: string) => string} */
export const textSize = (size, maximum, unit) => `${size} of ${maximum} ${unit}`;

// --- text/editors.js, text/problems_view.js ---
export const MAY_BE_MORE = "There may be more.";
/** @type {(bytes: string) => string} */
export const assembledAndRunning = (bytes) => `Assembled ${bytes}; running from 000.`;
/** @type {Record<string, string>} the titles of the texts, by kind */
const TAB_NAMES = { program: "Source", board: "Board", tests: "Tests", properties: "Properties" };
/** @type {(name: string, line: number) => string} */
export const problemLocation = (name, line) => `${TAB_NAMES[name]}, line ${line}: `;
export const BOARD_APPLIED = "Board applied.";
export const FIRST_BOARD_INSERTED = "The first board's text is in Board.";
/** @type {(line: number, message: string, others: number) => string} */
export const firstErrorMessage = (line, message, others) => `line ${line}: ${message}${others > 0 ? `, and ${others} more` : ""}`;

// --- text/field_bar.js ---
export const GO = "Go";
export const CLOSE = "Close";

// --- text/fold_view.js ---
export const UNFOLD_HINT = "click to unfold them";

// --- text/line_layers.js ---
export const CHANGES_BY_LINE = "what this line has changed";

// --- text/meaning_view.js ---
/** @type {(name: string) => string} */
export const editHint = (name) => `${name}: a double click or Enter edits it`;

// --- text/name_view.js ---
export const NO_NAME = "There is no name at the caret.";
export const PLACES_OF_NAME = "Locations of a name";
/** @type {(name: string, places: string) => string} */
export const nameIsAt = (name, places) => `${name} is at ${places} `;
/** @type {(line: number, isDefinition: boolean) => string} */
export const lineOfName = (line, isDefinition) => `line ${line}${isDefinition ? ", where it is defined" : ""}`;
/** @type {(name: string) => string} */
export const renameLabel = (name) => `Another name for ${name}`;
export const RENAME = "Rename";
/** @type {(oldName: string, newName: string, places: string) => string} */
export const renamedMessage = (oldName, newName, places) => `${oldName} is now ${newName}, at ${places}.`;
/** @type {(last: string) => string} */
export const lineNumberLabel = (last) => `Line, 1 to ${last}`;
/** @type {(last: string) => string} */
export const lineRangeMessage = (last) => `The line must be a number from 1 to ${last}.`;

// --- text/program_errors.js ---
/** @type {(chip: number, address: string) => string} */
export const noRomForLineMessage = (chip, address) => (
  `this line is at ${address}, and the board has no ROM ${chip}: wire a [[rom]] with chip = ${chip}`);

// --- text/program_format.js ---
/** @type {(maximum: string, size: string) => string} */
export const formattedTooLong = (maximum, size) => `formatted, the program would have ${size} characters; at most ${maximum} are accepted`;

// --- text/program_words.js ---
/** The terms of other assemblers, each with its replacement in the bench's syntax. */
export const OTHER_ASSEMBLER_WORDS = new Map(Object.entries({
  JMP: "JUN", GOTO: "JUN", BRA: "JUN", CALL: "JMS", JSR: "JMS", RET: "BBL", RTS: "BBL", MOV: "LD or XCH", LDA: "LD", STA: "XCH", STO: "XCH",
  JZ: "JCN 4", JNZ: "JCN 12", JC: "JCN 2", JNC: "JCN 10", DJNZ: "ISZ", BYTE: "DB", DEFB: "DB", EQU: "NAME = NUMBER", HLT: "JUN to itself",
  HALT: "JUN to itself", DEC: "DAC", INP: "RDR", OUT: "WRR", LDI: "LDM",
}));
export const PAIR_OPERAND = "a pair, P0 to P7";
export const REGISTER_OPERAND = "a register, R0 to R15";
export const CONDITION_OPERAND = "a condition, 0 to 15";
export const VALUE_OPERAND = "a value, 0 to 15";
export const BYTE_OPERAND = "a byte, 0 to 255";
export const ADDRESS_OPERAND = "an address, 0 to 4095, or a name";
/** @type {(number: string) => string} */
export const hexadecimalHint = (number) => `hexadecimal is ${number}`;
/** @type {(number: string) => string} */
export const binaryHint = (number) => `binary numbers are not supported; it is ${number}`;
/** @type {(letter: string, number: string) => string} */
export const characterCodeHint = (letter, number) => `characters are not supported; the code of ${letter} is ${number}`;
/** @type {(number: string) => string} */
export const numberSignHint = (number) => `without #: ${number}`;
export const NO_NEGATIVES = "there are no negative numbers";
export const NO_EXPRESSIONS = "there are no expressions: write one number or one name";
export const OPERAND_COMMA_MISSING = "write a comma between two operands";
export const NUMBER_SYNTAX = "a number is decimal digits, or 0x and hexadecimal digits";
/** @type {(maximum: number, length: number) => string} */
export const nameTooLong = (maximum, length) => `a name has at most ${maximum} characters; this has ${length}`;
export const NAME_SYNTAX = "a name has letters, digits and _, and does not begin with a digit";
/** @type {(name: string) => string} */
export const instructionAsNameMessage = (name) => `${name} is an instruction, so it cannot be a name`;
/** @type {(name: string) => string} */
export const cannotBeNameMessage = (name) => `${name} cannot be a name`;
/** @type {(name: string) => string} */
export const registerAsNameMessage = (name) => `${name} is a register, so it cannot be a name`;
/** @type {(instruction: string, operands: string) => string} */
export const operandExpected = (instruction, operands) => `${instruction} takes ${operands}`;
/** @type {(instruction: string, operand: string) => string} */
export const operandExpectedAfterComma = (instruction, operand) => `${instruction} takes ${operand}, after the comma`;
export const NO_WPM = "this bench has no WPM: a program cannot write its ROM";
/** @type {(name: string, number: string) => string} */
export const definitionSyntax = (name, number) => `define a name with =: ${name} = ${number}`;
/** @type {(name: string, question: string) => string} */
export const noInstructionMessage = (name, question) => `${name} is not an instruction${question}`;
/** @type {(name: string) => string} */
export const labelSyntax = (name) => `; a label has a colon: ${name}:`;
/** @type {(reason: string) => string} */
export const orgSyntax = (reason) => `ORG takes one number, 0 to 4095 (0xFFF)${reason}`;
export const DB_SYNTAX = "DB takes bytes, 0 to 255, separated by commas";
/** @type {(reason: string) => string} */
export const equalsSyntax = (reason) => `write one number after =${reason}`;
export const LABEL_NAME_MISSING = "a name is missing before the colon";
/** @type {(name: string) => string} */
export const takesNoOperand = (name) => `${name} takes no operand`;
export const OPERAND_SEPARATOR = ", and ";
/** @type {(name: string, operands: string, hasExtraOperand: boolean) => string} */
export const operandCountMessage = (name, operands, hasExtraOperand) => `${name} takes ${operands}${hasExtraOperand ? ", no more" : ""}`;
export const NAME_VALUE_RANGE = "the value of a name is 0 to 4095";
export const ORG_ADDRESS = "an address, 0 to 4095";
/** @type {(name: string, operands: string, extra: string) => string} */
export const wrongOperandMessage = (name, operands, extra) => `${name} takes ${operands}${extra}`;
/** @type {(operand: string) => string} */
export const valueTooLargeNote = (operand) => `; the value of ${operand} is larger`;
/** @type {(name: string, suggestion: string) => string} */
export const notDefinedMessage = (name, suggestion) => `${name} is not defined${suggestion}`;
/** @type {(name: string, line: number|undefined) => string} */
export const alreadyDefinedOnLine = (name, line) => `${name} is already defined on line ${line}`;
/** @type {(name: string, head: string) => string} */
export const otherPageMessage = (name, head) => `${name} is on another page; ${head} reaches the page of the address after its two words`;
export const IT = "it";
export const ADDRESS_ALREADY_FILLED = "an earlier line has put a byte at this address; check the ORG lines";

// --- text/property_words.js ---
export const INPUTS_TITLE = "Inputs";
export const PROPERTIES_TITLE = "Properties";
/** The end of a property's text, after a label. */
export const ONCE_FOR_EACH_PRESS = "at most once for each press";
export const FIRST_PROPERTIES = "# Properties that hold whatever is pressed, at any time. F1 lists the words; "
  + "Ctrl+Space completes them.\n\n";

// --- text/references.js ---
export const NAME_RULE = "A name has ASCII letters, digits and _, and does not begin with a digit.";
/** @type {(maximum: number, length: number) => string} */
export const newNameTooLongMessage = (maximum, length) => `A name has at most ${maximum} characters; this has ${length}.`;
/** @type {(name: string) => string} */
export const nameIsInstructionMessage = (name) => `${name} is an instruction.`;
/** @type {(name: string) => string} */
export const nameIsRegisterMessage = (name) => `${name} is a register.`;
/** @type {(name: string, line: number) => string} */
export const alreadyDefinedMessage = (name, line) => `${name} is already defined on line ${line}.`;

// --- text/search_bar.js ---
/** @type {(label: string) => string} */
export const searchIn = (label) => `Search in ${label}`;
export const SHIFT_ENTER = "Shift+Enter";
export const PREVIOUS = "Previous";
export const NEXT = "Next";
export const REPLACE_WITH = "Replace with";
export const REPLACE_WITH_HINT = "replace with";
export const REPLACE_TITLE = "Enter: replaces this one and goes to the next";
export const REPLACE = "Replace";
export const REPLACE_ALL = "Replace all";
export const NOT_FOUND = "not found";
/** @type {(count: string) => string} */
export const replacedMessage = (count) => `${count} replaced`;
/** @type {(number: number, count: number) => string} */
export const matchPosition = (number, count) => `${number} of ${count}`;

// --- testing/sample_test.js ---
const ABOUT_TESTS = "# Tests, line by line. F1 lists the words; Ctrl+Space completes them.\n\n";
/** The conditions that a sample test tries after the display and the named lamps. */
export const OTHER_CONDITIONS = ["lamps none", "not lamps none"];
/** @type {(key: string, milliseconds: number, condition: string) => string} */
export const sampleTest = (key, milliseconds, condition) => [
  `${ABOUT_TESTS}test ${milliseconds} ms after ${key === "" ? "power-on" : `the key ${key}`}`,
  ...(key === "" ? [] : [`  press ${key}`]), `  run ${milliseconds} ms`, `  expect ${condition}`, "",
].join("\n");
export const SAMPLE_CYCLE_TEST = `${ABOUT_TESTS}test it has run for 100 cycles\n  run 100\n  expect cycles 100\n`;

// --- text/test_words.js ---
export const LINES_OF_TEST = "The lines of a test";
export const CONDITIONS = "Conditions";

// --- text/text_editor.js ---
export const TAB_INDENTS = "Tab indents. Escape and then Tab leaves the text.";

// --- text/sendable_text.js ---
/** @type {(character: string) => string} */
export const notAsciiQuote = (character) => `${character} is not the ASCII quotation mark "`;
export const NON_BREAKING_SPACE_HINT = "a non-breaking space (U+00A0); write a plain space";
/** @type {(code: string) => string} */
export const invisibleCharacter = (code) => `an invisible character (U+${code}); delete it`;
export const CONTROL_CHARACTER = "a control character; only tabs and printable ASCII characters can be sent";
/** @type {(character: string) => string} */
export const notAsciiCharacter = (character) => `${character} is not an ASCII character; it is allowed only in comments`;
export const DOT_ENDS_TEXT = "a line with only a dot would end the text here";
/** @type {(maximum: number, length: number) => string} */
export const lineTooLong = (maximum, length) => `a line has at most ${maximum} characters without its comment; this has ${length}`;
/** @type {(maximum: string, size: string) => string} */
export const textTooLong = (maximum, size) => (
  `a text has at most ${maximum} bytes without its comments; this one has ${size} and exceeds the limit here`);

// --- text/text_help.js ---
export const CARRY_UNCHANGED = ". The carry does not change";
/** @type {(pair: number, upper: number, lower: number) => string} */
export const describePair = (pair, upper, lower) => `P${pair}: the pair of R${upper} (upper four bits) and R${lower} (lower four bits).`;
/** @type {(register: number, isUpper: boolean, pair: number) => string} */
export const describeRegister = (register, isUpper, pair) => `R${register}: the ${isUpper ? "upper" : "lower"} half of P${pair}.`;
export const ORG_HELP = "ORG n: the next statement is at address n, 0 to 4095.";
export const DB_HELP = "DB v, v, ..: bytes, each 0 to 255.";
/** @type {(name: string, line: number) => string} */
export const definedInLine = (name, line) => `${name}: defined on line ${line}.`;
export const TOML_KEYS_TITLE = "The TOML keys";
/** @type {(name: string, table: string, values: string) => string} */
export const describeKey = (name, table, values) => `${name} of ${table}: ${values}.`;

// --- text/toml_words.js ---
/** @type {(quote: string) => string} */
export const closingQuoteMissingMessage = (quote) => `the closing ${quote} of the text is missing`;
/** @type {(character: string) => string} */
export const noMeaningMessage = (character) => `${character} has no meaning here`;
