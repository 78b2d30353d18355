// The comments in the key scan routine that the page generates for a board.

/** @type {(noun: string, first: number, last: number) => string} returns a range such as `rows 0 to 3`, or `row 0` */
const formatRange = (noun, first, last) => (first === last ? `${noun} ${first}` : `${noun}s ${first} to ${last}`);
/** @type {(rows: number, first: number, chain: number, ports: string[]) => string} */
export const scansKeys = (rows, first, chain, ports) => (
  `Scans the keys: ${formatRange("bit", first, first + rows - 1)} of chain ${chain} drive${rows === 1 ? "s" : ""} `
  + `${formatRange("row", 0, rows - 1)}; columns are read at ${ports.join(" and ")}.`);
/** @type {(name: string) => string} */
export const callUsage = (name) => `JMS ${name}: the accumulator is 1 if a key is down, with its row in R4 and its column`;
/** @type {(registers: string) => string} */
export const registersUsed = (registers) => `in R5; else it is 0. It uses R0, R1 and R4 to ${registers}, and calls one level deeper.`;
/** @type {(ports: string[]) => string} */
export const writesPorts = (ports) => `It writes 0 to the other lines of ${ports.join(" and ")}.`;
/** @type {(bank: number) => string} */
export const designatesBank = (bank) => `It designates bank ${bank}.`;
/** @type {(chip: number) => string} */
export const romPort = (chip) => `the port of ROM ${chip}`;
/** @type {(bank: number, chip: number) => string} */
export const ramPort = (bank, chip) => `the port of RAM ${bank}.${chip}`;
export const FIRST_ROW = "row 0 comes first";
/** @type {(rows: number) => string} */
export const countsRows = (rows) => `counts ${rows === 1 ? "1 row" : `${rows} rows`}`;
export const SINGLE_1_ENTERS = "a single 1 enters the chain";
/** @type {(bit: number) => string} */
export const bitMovesTo = (bit) => `it moves on to bit ${bit}`;
/** @type {(column: number) => string} */
export const columnInCarry = (column) => `column ${column} is in the carry`;
export const NEXT_ROW = "the 1 drives the next row";
export const NO_KEY = "no key is down";
/** @type {(column: number) => string} */
export const columnIsDown = (column) => `the key is in column ${column}`;
export const BIT_LEAVES_ROWS = "the 1 leaves the rows";
export const KEY_IS_DOWN = "a key is down";
export const BIT_ENTERS = "the bit that enters the chain";
export const CLOCK_LOW = "data, with the clock at 0";
export const DATA = "data";
export const CLOCK_RISES = "the clock rises: all bits move on";
export const PROGRAM_CONTINUES = "your own program continues here";
